# Definitions and lemmas of specs/ and proofs/ that std or the kit's core has with the same body, or with the same statement.
# usage: kit.py KIT, the folder of the kit's libraries.
import re,glob,sys
REN={'all':'list_all','any':'list_any','kept':'filter','total':'sum_by','joined':'concat','slice_index_or':'get_or','all2':'pointwise'}
W=r"[^\s(){}\[\],;.λ]+|[(){}\[\],;.λ]"; K=sys.argv[1]+"/"; kit={}
def decls(path):
    L=re.sub(r'--[^\n]*','',open(path,errors='replace').read()).split('\n');i=0
    while i<len(L):
        m=re.match(r"^(\s*)(?:(?:pub|unfoldable|abbrev|opaque)\s+)*([\w◌'+<>&|∷-]+)\s*:\s(.*)$",L[i])
        if not m: i+=1; continue
        k=len(m.group(1));n=m.group(2);t=m.group(3);j=i+1;b=[]; deep=lambda s: s.strip()=='' or len(s)-len(s.lstrip())>k
        while j<len(L) and (deep(L[j]) or re.match(r'\s*unfolding\b',L[j])): t+=' '+L[j].strip()*deep(L[j]); j+=1
        while j<len(L) and re.match(r'^ {%d}%s(\s|$)'%(k,re.escape(n)),L[j]):
            b.append(L[j].strip()); j+=1
            while j<len(L) and deep(L[j]): b[-1]+=' '+L[j].strip(); j+=1
        yield n,t,b,path; i=max(j,i+1)
def put(s,vs): n={}; return ' '.join(n.setdefault(w,'v%d'%len(n)) if w in vs else REN.get(w,w) for w in re.findall(W,s))
def body(n,b): return ' | '.join(put(re.sub(r'(?<![\w.])%s(?![\w.])'%re.escape(n),'SELF',c),set(re.findall(r"[a-z][\w']*",c.split(' = ')[0]))-{'zero','suc','true','false'}) for c in b)
def says(t):
    vs=set(' '.join(re.findall(r"[({]\s*((?:[\w']+\s+)*[\w']+)\s*:",t)).split())|{w for w in re.findall(r"[\w']+",t) if len(w)<3 and w!='T'}
    t=re.sub(r'\{[^{}]*\}\s*→?','',t)
    for _ in range(3): t=re.sub(r"\(\s*(?:[\w']+\s+)*[\w']+\s*:\s*(?:[^()]|\([^()]*\))*\)\s*→?",'',t)
    return put(t,vs)
for d in ('std','core','std_alloc','std_collections','logic/Lib','antt/port/mathlib/src/Core'):
    for f in glob.glob(K+d+'/**/*.antt',recursive=True):
        for n,t,b,p in decls(f):
            for k in (body(n,b),says(t)): kit.setdefault(k,n+' ('+p.replace(K,'')+')')
for f in sorted(glob.glob('crates/*/specs/*.antt')+glob.glob('crates/*/proofs/*.antt')):
    for n,t,b,p in decls(f):
        for w,k in (('DEF ',body(n,b)),('SAYS',says(t))):
            if b and k in kit and len(k)>24 and (w=='DEF ')==('/specs/' in f) and (w=='DEF ' or '≡' in k or '≤' in k): print(w,f[7:],n,'==',kit[k])
