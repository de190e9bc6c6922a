# Facts (conjuncts of requires and ensures, spaces levelled) that stand in the contracts of three or more functions.
import re,glob,collections
c=collections.defaultdict(set)
def parts(s):
    d=0;r=['']
    for ch in s:
        d+=(ch in '({[')-(ch in ')}]')
        if ch=='×' and d==0: r.append('')
        else: r[-1]+=ch
    return r
for f in sorted(glob.glob('crates/*/src/*.rt')):
    t=re.sub(r'//[^\n]*','',open(f).read())
    for m in re.finditer(r'\bfn (\w+)',t):
        h=re.split(r'\n\{|\bfn \w',t[m.end():])[0]
        for q in re.finditer(r'\b(requires|ensures)\s*\{',h):
            d=1;j=q.end()
            while d and j<len(h): d+=(h[j]=='{')-(h[j]=='}'); j+=1
            for p in parts(h[q.end():j-1]):
                p=re.sub(r'\s+',' ',p).strip(); p=p[1:-1] if re.fullmatch(r'\([^()]*\)|\([^()]*(\([^()]*\)[^()]*)*\)',p) else p
                c[q.group(1)[:3],p].add(f.split('/')[1]+'::'+m.group(1))
l=sorted([(len(v),*k,' '.join(sorted(v))) for k,v in c.items() if len(v)>=3],reverse=True)
print(len(l),'facts in 3 or more functions;',sum(x[1]=='req' for x in l),'of them requires')
for x in l: print(*x[:3],'|',x[3][:150])
