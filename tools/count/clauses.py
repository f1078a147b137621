# Clauses and parameter lists of src/, from a commit. Usage: clauses.py COMMIT
import subprocess,re,sys,collections
C=sys.argv[1]
fs=subprocess.check_output(['git','ls-tree','-r','--name-only',C,'--','crates'],text=True).split()
fs=[f for f in fs if '/src/' in f and f.endswith('.rt')]
cl=collections.defaultdict(list); pl=collections.defaultdict(list); sig=[]
for f in fs:
    t=subprocess.check_output(['git','show',C+':'+f],text=True)
    t=re.sub(r'//[^\n]*',lambda m:' '*len(m.group()),t)
    for m in re.finditer(r'\bfn\s+(\w+)',t):
        i=m.end()
        # generics
        gen=''
        if t[i]=='<':
            j=t.index('(',i)
            gen=t[i:j]; i=j
        d=0
        for k in range(i,len(t)):
            if t[k]=='(': d+=1
            if t[k]==')':
                d-=1
                if d==0: break
        ps=re.sub(r'\s+',' ',t[i+1:k]).strip().rstrip(',')
        line=t.count('\n',0,m.start())+1
        where=f"{f[7:]}:{line} {m.group(1)}"
        # split parameters
        parts=[];d=0;cur=''
        for ch in ps:
            if ch in '(<[': d+=1
            if ch in ')>]': d-=1
            if ch==',' and d==0: parts.append(cur.strip());cur=''
            else: cur+=ch
        if cur.strip(): parts.append(cur.strip())
        names=[p.split(':')[0].replace('mut ','').strip() for p in parts]
        sig.append((where,names,parts))
        # clauses until the body or ;
        rest=t[k+1:]
        pos=0
        # return type then clauses
        mm=re.compile(r'\s*(?:->\s*)?')
        body=None
        # scan for requires/ensures at depth 0 until a '{' that does not follow a clause head
        p=k+1
        # cut at next fn
        nxt=re.search(r'\bfn\s+\w+',t[k+1:])
        end=k+1+nxt.start() if nxt else len(t)
        for c in re.finditer(r'\b(requires|ensures)\s+(\w+\s+)?\{',t[k+1:end]):
            s=k+1+c.end(); d=1;q=s
            while d:
                if t[q]=='{':d+=1
                if t[q]=='}':d-=1
                q+=1
            body=re.sub(r'\s+',' ',t[s:q-1]).strip()
            body=body.replace('.old','.S').replace('.new','.S').replace('.now','.S')
            body=re.sub(r'\b(T|C)\.(ResponseTest\.|Admission\.|Cost\.)?',r'\1.',body)
            # parts of a product
            cl[body].append(where+' '+c.group(1))
print('functions',len(sig),'clauses',sum(map(len,cl.values())))
print('\n== identical clauses (old/new/now made one) in 3 or more functions')
for b,w in sorted(cl.items(),key=lambda x:-len(x[1])):
    if len(set(x.rsplit(' ',1)[0] for x in w))>=3: print(len(w),b);[print('     ',x) for x in w]
print('\n== in 2')
for b,w in sorted(cl.items(),key=lambda x:-len(x[1])):
    if len(set(x.rsplit(' ',1)[0] for x in w))==2: print(len(w),b);[print('     ',x) for x in w]
# phrases
print('\n== parameter groups')
import itertools
grp=collections.defaultdict(list)
for w,n,p in sig:
    n=[x for x in n]
    for r in (2,3,4,5):
        for g in itertools.combinations(n,r): grp[g].append(w)
seen=[]
for g,w in sorted(grp.items(),key=lambda x:(-len(x[0]),-len(x[1]))):
    if len(w)>=3:
        if any(set(g)<=set(h) and set(w)==set(v) for h,v in seen): continue
        seen.append((g,w))
for g,w in sorted(seen,key=lambda x:-len(x[1])): print(len(w),g);print('      ','; '.join(w))
