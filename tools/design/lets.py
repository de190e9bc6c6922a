# Answers files in which one and the same `let .. in` of more than 100 characters stands three times or more: file, lets, standings.
import re,glob,collections
rows=[]
for f in sorted(glob.glob('crates/*/proofs/**/*.antt',recursive=True)):
    t=re.sub(r'--[^\n]*','',open(f).read()); st=[]; c=collections.Counter()
    for m in re.finditer(r"(?<![\w.\-'+])(let|in)(?![\w.\-'+])",t):
        if m.group(1)=='let': st.append(m.start())
        elif st: c[re.sub(r'\s+',' ',t[st.pop():m.end()])]+=1
    big=[n for s,n in c.items() if n>=3 and len(s)>100]
    if big: rows.append((sum(big),len(big),f))
for n,k,f in sorted(rows,reverse=True): print(f[7:],'|',k,'lets |',n,'standings')
print(len(rows),'files',sum(r[1] for r in rows),'lets',sum(r[0] for r in rows),'standings')
