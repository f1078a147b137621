# Parts of clauses, with the function's own parameter names made alike. Usage: facts.py COMMIT
import subprocess,re,sys,collections
C=sys.argv[1]
fs=subprocess.check_output(['git','ls-tree','-r','--name-only',C,'--','crates'],text=True).split()
fs=[f for f in fs if '/src/' in f and f.endswith('.rt')]
cl=collections.defaultdict(list)
def split(s,seps):
    out=[];d=0;cur=''
    i=0
    while i<len(s):
        ch=s[i]
        if ch in '({[': d+=1
        if ch in ')}]': d-=1
        if d==0 and ch in seps: out.append(cur.strip());cur=''
        else: cur+=ch
        i+=1
    out.append(cur.strip());return out
def strip(s):
    s=s.strip()
    while s.startswith('(') and s.endswith(')'):
        d=0
        for k,ch in enumerate(s):
            if ch=='(':d+=1
            if ch==')':
                d-=1
                if d==0: break
        if k==len(s)-1: s=s[1:-1].strip()
        else: break
    return s
def parts(s):
    s=strip(s)
    r=[]
    for a in split(s,'→'):
        a=strip(a)
        for b in split(a,'×'):
            b=strip(b)
            r.append(b)
    return r
n=0
for f in fs:
    t=subprocess.check_output(['git','show',C+':'+f],text=True)
    t=re.sub(r'//[^\n]*',lambda m:' '*len(m.group()),t)
    ms=list(re.finditer(r'\bfn\s+(\w+)',t))
    for ix,m in enumerate(ms):
        end=ms[ix+1].start() if ix+1<len(ms) else len(t)
        line=t.count('\n',0,m.start())+1
        where=f"{f[7:]}:{line} {m.group(1)}"
        head=t[m.start():end]
        names=re.findall(r'[(,]\s*(?:mut\s+)?(\w+)\s*:',head.split('{')[0])
        for c in re.finditer(r'\b(requires|ensures)\s+(\w+\s+)?\{',head):
            n+=1
            s=c.end();d=1;q=s
            while d:
                if head[q]=='{':d+=1
                if head[q]=='}':d-=1
                q+=1
            body=re.sub(r'\s+',' ',head[s:q-1]).strip()
            body=re.sub(r'\.(old|new|now)\b','',body)
            body=re.sub(r'\b(T|C)\.(ResponseTest\.|Admission\.|Cost\.)?',r'\1.',body)
            for p in parts(body):
                for nm in names:
                    p=re.sub(r'(?<![.\w])'+nm+r'(?![\w])','_',p)
                cl[p].append(where+' '+c.group(1))
print('clauses',n)
for b,w in sorted(cl.items(),key=lambda x:-len(set(x[1]))):
    fsn=set(x.rsplit(' ',1)[0] for x in w)
    if len(fsn)>=3: print(len(fsn),b);[print('     ',x) for x in sorted(set(w))]
print('\n phrases (subterms in round brackets) in 5 or more functions')
ph=collections.defaultdict(set)
for b,w in cl.items():
    st=[]
    for k,ch in enumerate(b):
        if ch=='(': st.append(k)
        if ch==')' and st:
            ph[b[st.pop():k+1]].update(x.rsplit(' ',1)[0] for x in w)
for b,w in sorted(ph.items(),key=lambda x:-len(x[1])):
    if len(w)>=3: print(len(w),b)
