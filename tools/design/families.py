# How many functions have each of these runs of parameters, side by side and in this order (u = &[u64], U = &mut [u64], p = &[u32], b = &[u8], n = usize, w = u64).
import re; from fns import fns
R='delivery company country trnsmode timezone stations footnote timetbls changes xfootnote xchanges'.split()
T={'u':'&[u64]','U':'&mut[u64]','p':'&[u32]','b':'&[u8]','n':'usize','w':'u64'}
G=[' '.join(a+x+':'+k for x in R) for a,k in (('','b'),('','u'),('t_','U'),('n_','n'),('r_','n'))]+[' '.join('t%d:U'%i for i in range(1,12))]+'''counts:BlockCounts companies:u modes:u stations:u footnotes:u places:p
companies:u modes:u stations:u footnotes:u|counts:GroupCounts companies:u modes:u stations:u services:u places:p xfootnotes:u|companies:u modes:u stations:u services:u
countries:u zones:u counts:StationCounts|delivery:u timezone:u stations:u footnote:u timetbls:u changes:u xfootnote:u xchanges:u
delivery:u zones:u stations:u footnotes:u timetbls:u changes:u xfootnotes:u xchanges:u|places:p heads:p counts:StoreCounts
zones:u zones_used:n zone_places:p stations:u stations_used:n station_places:p|a:SideRows b:SideRows from:Call to:Call|t:u used:n places:p|file:File t:u used:n
t:u from:n to:n|t:u from:n to:n n:w|form:Form text:b from:n t:U|count:n run:KeyRun before:b line:b|form:Form line:b ended:bool rows:n group:Open|text:b at:n n:w
st:InBlock n:w k:w|service:w leg:w date:w|service:w stop:w date:w|a:Riding b:Riding day:w|tag:w col:n key:w|t:u used:n from:n to:n|n:w kind:w marks:&mut[u8]|t:u w:n i:n
used:n companies:u places:p|used:n modes:u places:p|used:n stations:u places:p|used:n footnotes:u places:p|text:b header:b t:U'''.replace('\n','|').split('|')
F=[(n,[re.sub(r'(?<=:)[a-z_]+::','',re.sub(r'\s','',x)) for x in p.split(',') if x.strip()]) for n,p,r,b in fns()]
for g in G:
    k=[x.split(':')[0]+':'+T.get(x.split(':')[1],x.split(':')[1]) for x in g.split()]
    h=[n for n,p in F if any(p[i:i+len(k)]==k for i in range(len(p)))]; print(len(h),'|',g,'|',' '.join(h)[:200])
print('8 or more parameters:',sum(len(p)>=8 for n,p in F),'; 12 or more:',sum(len(p)>=12 for n,p in F))
