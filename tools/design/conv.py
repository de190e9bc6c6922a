# Conversions, tests by `match`, comparisons and printing written by hand.
import re,sys; from fns import fns
for n,p,r,b in fns():
    ps=[x.split(':')[0].strip() for x in p.split(',') if ':' in x]
    if re.fullmatch(r'\(?[\w.]+\)? as \w+|\w+::\w+\(\w+( as \w+)?\)',b): print('CAST   ',n,'|',r,'|',b[:60])
    m=re.fullmatch(r'match \w+(?:\(.*?\))? \{(.*)\}',b)
    if m and not re.search(r'[a-z]\w*\(|\{|\bif\b',re.sub(r'b?"[^"]*"','',m.group(1))):
        print('TO BOOL' if r=='bool' else 'MATCH  ',n,'|',len(re.findall('=>',b)),'arms |',r)
    elif r=='bool' and re.fullmatch(r'match .*\{ [\w:]+(\([^)]*\))? => (true|false), [\w:]+(\([^)]*\))? => (true|false), \}',b): print('TO BOOL',n)
    if re.fullmatch(r'if (\w+) \{ [\w:]+ \} else \{ [\w:]+ \}',b): print('FLAG   ',n,'|',r,'|',b)
    if re.search(r'(\w+)\.\w+ == \w+\.\w+|(\w+)\[([\w:]+)\] [!=]= \w+\[\3\]',b) and r=='bool': print('EQUAL  ',n,'|',b[:90])
    if n.split('::')[1].startswith('put_') and 'out: &mut [u8]' in p: print('PRINT  ',n)
    if re.search(r'^if \w+(?: [<>=!]+ \w+|\w*) \{ return .*?; \} \w+(?: [<>=!]+ \w+|)$',b): print('AND/OR ',n,'|',b[:100])
