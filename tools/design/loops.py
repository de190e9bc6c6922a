# Functions with a hand-written loop or a length beside a buffer.
import re,sys; from fns import fns
F=fns(); w=[(n,b) for n,p,r,b in F if re.search(r'\bwhile\b',b)]
for n,b in w: print('LOOP',n,'|',re.search(r'while ([^{]*)\{',b).group(1)[:40])
print(len(w),'functions with loops')
l=[n for n,p,r,b in F if re.search(r'\w+: &(mut )?\[u(64|32|8)\], *\s*(\w*used|rows|used|change_rows|exception_rows|asked): usize',re.sub(r'\s+',' ',p))]
print('LENGTH BESIDE',len(l),' '.join(l))
k=[n for n,p,r,b in F if re.search(r'counts: [\w:]*Counts',p)]
print('COUNTS STRUCT BESIDE',len(k))
h=[n for n,p,r,b in F if re.search(r'while low < high',b)]
print('HALVES',h)
o=[n for n,p,r,b in F if re.search(r'out: &mut \[u8\]',p) and 'usize' in r]
print('OUT+USED',len(o),' '.join(o))
