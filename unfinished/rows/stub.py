#!/usr/bin/env python3
"""stub.py FROM TO: the crate folder FROM, with each function's body made `unreachable!()` under `requires { ⊥ }`, to TO"""
import os,re,shutil,sys,glob
src,dst=sys.argv[1:3]
if os.path.exists(dst): shutil.rmtree(dst)
shutil.copytree(src,dst,ignore=shutil.ignore_patterns('out','must-fail'))
for pth in glob.glob(dst+'/src/**/*.rt',recursive=True):
    t=open(pth).read()
    out=[];i=0
    for m in re.finditer(r"(?m)^[ \t]*(?:pub(?:\([^)]*\))? )?(?:const )?(?:unsafe )?(?:extern \"C\" )?fn \w+",t):
        if m.start()<i: continue
        # find body: first '{' at line start indentation or at end of signature with no clause
        j=m.end()
        # skip params
        d=0
        k=t.index('(',j)
        while True:
            if t[k]=='(':d+=1
            if t[k]==')':
                d-=1
                if d==0:break
            k+=1
        # now scan for clauses and body
        p=k+1
        clauses=[]
        while True:
            mm=re.compile(r"\s*(requires|ensures|ghost)(\*?)\s*(\w+)?\s*(:\s*)?\{").match(t,p)
            if mm is None:
                q=t.index('{',p)
                # text up to q may hold return type or a clause after newline
                mm=re.compile(r"[^{]*?\n\s*(requires|ensures|ghost)(\*?)\s*(\w+)?\s*(:\s*)?\{").match(t,p)
                if mm is None: break
            d=0;r=mm.end()-1;s0=r
            while True:
                if t[r]=='{':d+=1
                if t[r]=='}':
                    d-=1
                    if d==0:break
                r+=1
            clauses.append((mm.start(1),r+1,mm[1],mm[3]))
            p=r+1
        b=t.index('{',p)
        d=0;r=b
        while True:
            if t[r]=='{':d+=1
            if t[r]=='}':
                d-=1
                if d==0:break
            r+=1
        # signature part without requires
        head=t[m.start():(clauses[0][0] if clauses else b)]
        out.append(t[i:m.start()])
        out.append(head.rstrip()+"\n    requires { ⊥ }\n")
        for a,z,kind,nm in clauses:
            if kind!='requires':
                out.append("    "+t[a:z]+"\n")
        out.append("{ unreachable!() }")
        i=r+1
    out.append(t[i:])
    open(pth,'w').write(''.join(out))
for d in glob.glob(dst+'/proofs/**/*',recursive=True):
    if os.path.basename(d) in('Proof.antt','Answers.antt','Invariants.antt') : os.remove(d)
