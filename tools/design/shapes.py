# Enums of the shape of Option (one variant with a value, one without) or Result (two with values), and structs by their fields' types.
import re,glob,collections
s=collections.defaultdict(list)
for f in sorted(glob.glob('crates/*/src/*.rt')):
    t=re.sub(r'//[^\n]*','',open(f).read())
    for k,n,b in re.findall(r'\b(enum|struct) (\w+)\s*\{([^}]*)\}',t):
        v=[re.sub(r'\s+',' ',x).strip().replace('pub ','') for x in re.split(r',(?![^()]*\))',b) if x.strip()]
        q=f.split('/')[1]+'::'+n
        if k=='struct': print('STRUCT',q,'{',', '.join(v),'}'); s[tuple(sorted(x.split(':')[1].strip() for x in v))].append(q)
        else:
            w=[x for x in v if '(' in x]
            print('OPTION' if len(v)==2 and len(w)==1 else 'RESULT' if len(v)==2==len(w) else 'ENUM',q,'{',', '.join(v),'}')
            s[tuple(sorted(re.sub(r'^\w+','',x) for x in v))].append(q)
for k,v in s.items():
    if len(v)>1: print('ALIKE',k,v)
