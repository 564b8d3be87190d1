import re, subprocess, difflib, sys
from pathlib import Path
base=sys.argv[1]
out=subprocess.run(['.ci/names'],capture_output=True,text=True); bad=re.findall(r'names: (\S+):(\d+): not a line of (\S+)', out.stdout+out.stderr)
cache={}
def maps(f):
    if f in cache: return cache[f]
    old=subprocess.run(['git','show',f'{base}:{f}'],capture_output=True,text=True).stdout.split('\n'); new=Path(f).read_text().split('\n')
    m={}
    for tag,a,b,c,d in difflib.SequenceMatcher(None,old,new,autojunk=False).get_opcodes():
        if tag=='equal': continue
        # align each old line with a run of new lines by squeezed text
        j=c
        for i in range(a,b):
            want=re.sub(r'\s+','',old[i]); got=''; k=j
            while k<d and len(got)<len(want): got+=re.sub(r'\s+','',new[k]); k+=1
            if got==want: m[old[i].strip()]=new[j:k]; j=k
            else: m[old[i].strip()]=None
    cache[f]=m; return m
docs={}
for d,n,f in bad: docs.setdefault(d,[]).append((int(n),f))
for d,items in docs.items():
    lines=Path(d).read_text().split('\n')
    for n,f in sorted(items,reverse=True):
        l=lines[n-1]; r=maps(f).get(l.strip())
        if not r: print('NOT',d,n,f,l[:120]); continue
        ind=len(l)-len(l.lstrip()); base_ind=len(r[0])-len(r[0].lstrip())
        lines[n-1:n]=[(' '*ind+x[base_ind:]) if x[:base_ind].strip()=='' else x for x in r]
    Path(d).write_text('\n'.join(lines))
