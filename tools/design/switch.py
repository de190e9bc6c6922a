# Switches: functions that `match` one of their parameters and call two or more different functions in the arms.
import re,sys; from fns import fns
c=0
for n,p,r,b in fns():
    ps={x.split(':')[0].strip():x.split(':')[1].strip() for x in re.sub(r'\([^)]*\)','',p).split(',') if ':' in x}
    for m in re.finditer(r'\bmatch (\w+) \{',b):
        if m.group(1) not in ps: continue
        d=1;j=m.end()
        while d: d+=(b[j]=='{')-(b[j]=='}'); j+=1
        calls=set(re.findall(r'\b([a-z]\w*)\(',b[m.end():j]))
        ty=ps[m.group(1)]
        if len(calls)>=2 and ty.split('::')[-1] in ('GroupFile','RowFile','File','u8','u64','Want','Record','bool','GroupStand','Stand'):
            c+=1; print(n,'| by',m.group(1)+':',ty,'|',len(calls),'calls |',' '.join(sorted(calls))[:110])
print(c)
