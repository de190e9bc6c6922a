# Twins: pairs of functions whose bodies are the same token by token but for names of functions, variants, types and numbers.
import re,difflib,sys; from fns import fns
def norm(b):
    b=re.sub(r'\b(?:\w+::)+(\w+)',r'\1',b); b=re.sub(r"b?'[^']*'|b\"[^\"]*\"",'LIT',b)
    b=re.sub(r'\b[A-Z][A-Za-z0-9_]*\b','TYPE',b); b=re.sub(r'\b\d+\b','NUM',b); b=re.sub(r'\b\w+(?=\()','CALL',b)
    ids={}
    return [ids.setdefault(w,'v%d'%len(ids)) if re.match(r'[a-z_]\w*$',w) and w not in ('let','mut','while','if','else','match','return','true','false','as') else w for w in re.findall(r'\w+|[^\s\w]',b)]
F=[(n,p,r,norm(b)) for n,p,r,b in fns()]
same={}
for n,p,r,k in F:
    if len(k)>=7: same.setdefault(' '.join(k),[]).append(n)
g=[v for k,v in same.items() if len(v)>1]
for k,v in sorted(same.items(),key=lambda x:-len(x[1])*len(x[0])):
    if len(v)>1: print('SAME',len(v),' '.join(v),'|',k[:110])
print(len(g),'groups of the same shape,',sum(map(len,g)),'functions')
L=[x for x in F if 45<=len(x[3])]; c=0
for i,a in enumerate(L):
    for b in L[i+1:]:
        if a[3]!=b[3] and .6<len(a[3])/len(b[3])<1.67:
            s=difflib.SequenceMatcher(None,a[3],b[3],autojunk=False)
            if s.quick_ratio()>.88 and s.ratio()>.88: c+=1; print('NEAR %.2f'%s.ratio(),a[0],b[0])
print(c,'near pairs')
