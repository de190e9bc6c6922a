# Shared by the scripts below: every function of crates/*/src as (crate::name, parameters, result type, body).
import re,glob
def fns():
    out=[]
    for f in sorted(glob.glob('crates/*/src/*.rt')):
        t=re.sub(r'//[^\n]*','',open(f).read())
        for m in re.finditer(r'\bfn (\w+)(?:<[^>]*>)?\(',t):
            d=1;j=m.end()
            while d: d+=(t[j]=='(')-(t[j]==')'); j+=1
            ps=t[m.end():j-1]; k=t.find('{',j); ret=re.split(r'\b(?:requires|ensures)\b',t[j:k])[0].strip().lstrip('->').strip()
            while True:                                   # skip the clauses: a body is the block no clause word stands before
                w=re.findall(r'\b(requires|ensures|decreases)\s*$',t[j:k]); d=1;e=k+1
                while d: d+=(t[e]=='{')-(t[e]=='}'); e+=1
                if not w: break
                j=e;k=t.find('{',e)
            out.append((f.split('/')[1]+'::'+m.group(1),ps,ret,re.sub(r'\s+',' ',t[k+1:e-1]).strip()))
    return out
