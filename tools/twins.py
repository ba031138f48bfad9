#!/usr/bin/env python3
# Pairs of functions whose bodies are alike but for names, types and numbers: tools/twins.py [least ratio], at the top of the repository.
import re,glob,sys,difflib
least=float(sys.argv[1]) if len(sys.argv)>1 else 0.86
fns=[]
for p in sorted(glob.glob('crates/*/src/**/*.rt',recursive=True)):
    L=open(p).read().split('\n'); i=0
    while i<len(L):
        m=re.match(r'(\s*)(pub(\(crate\))? )?fn (\w+)',L[i])
        if m:
            ind=m.group(1); j=i
            while j<len(L) and not L[j].startswith(ind+'}') and not (j-i<12 and L[j].rstrip().endswith(';') and '{' not in ''.join(L[i:j+1]).replace('ensures {','').replace('requires {','')): j+=1
            body=[re.sub(r'//.*','',l) for l in L[i:j+1] if not re.match(r'\s*(requires|ensures|ghost|//|#)',l)]
            t=' '.join(body)
            t=re.sub(r'^.*?\bfn \w+(<[^>]*>)?','',t,count=1)
            toks=re.findall(r'b?"[^"]*"|\w+|->|=>|::|\.\.|[^\s\w]',t)
            kw={'let','mut','for','in','if','else','match','return','Ok','Err','Some','None','true','false','self','as'}
            n=[x if (not re.match(r'\w|b?"',x) or x in kw) else ('0' if re.match(r'\d',x) else 'N') for x in toks]
            fns.append((n,p.replace('crates/','').replace('/src','').replace('.rt',''),i+1,m.group(4)))
            i=j
        i+=1
out=[]
for a in range(len(fns)):
    for b in range(a+1,len(fns)):
        A,B=fns[a],fns[b]
        if min(len(A[0]),len(B[0]))<24 or min(len(A[0]),len(B[0]))/max(len(A[0]),len(B[0]))<least-0.1: continue
        s=difflib.SequenceMatcher(None,A[0],B[0],autojunk=False)
        if s.quick_ratio()<least: continue
        r=s.ratio()
        if r>=least: out.append((r,len(A[0]),f"{A[1]}:{A[2]} {A[3]}",f"{B[1]}:{B[2]} {B[3]}"))
print(len(fns),'functions')
for r,n,a,b in sorted(out,reverse=True): print(f"{r:.2f} {n:3d} {a}  ~  {b}")
