# Functions whose bodies are alike once names, types, strings and numbers are made one. Usage: bodies.py COMMIT
import subprocess,re,sys,collections
C=sys.argv[1]
fs=[f for f in subprocess.check_output(['git','ls-tree','-r','--name-only',C,'--','crates'],text=True).split() if '/src/' in f and f.endswith('.rt')]
g=collections.defaultdict(list); st=collections.defaultdict(list)
for f in fs:
    t=subprocess.check_output(['git','show',C+':'+f],text=True)
    t=re.sub(r'//[^\n]*',lambda m:'',t)
    for m in re.finditer(r'\bfn\s+(\w+)',t):
        # body: first '{' at depth 0 not preceded by a clause word
        h=t[m.end():]
        k=0;d=0;clause=False;i=0
        while i<len(h):
            c=h[i]
            if c==';' and d==0: body=None;break
            if c in '([<' : pass
            if c=='{':
                pre=h[:i]
                if re.search(r'\b(requires|ensures)\s+(\w+\s+)?$',pre):
                    dd=1;i+=1
                    while dd:
                        if h[i]=='{':dd+=1
                        if h[i]=='}':dd-=1
                        i+=1
                    continue
                dd=1;s=i+1;i+=1
                while dd:
                    if h[i]=='{':dd+=1
                    if h[i]=='}':dd-=1
                    i+=1
                body=h[s:i-1];break
            i+=1
        if not body or len(body.split())<4: continue
        toks=re.findall(r"'\w+\b(?!')|b?\"[^\"]*\"|\w+|[^\s\w]",body)
        kw=set('let mut if else match for in while loop return self Some None Ok Err break as'.split())
        out=[]
        for x in toks:
            if x in kw or not re.match(r"[\w\"']|b\"",x): out.append(x)
            elif re.match(r'\d',x): out.append('N')
            elif x.startswith(('"','b"')): out.append('S')
            else: out.append('w')
        n=t[:m.start()].count('\n')+1
        key=' '.join(out).replace(', }','}')
        g[key].append(f"{f[7:]}:{m.group(1)} ({len(toks)})")
    for m in re.finditer(r'struct\s+(\w+)[^{;]*\{([^}]*(?:\{[^}]*\}[^}]*)*)\}',t):
        fields=re.findall(r'(?:pub )?(\w+): ([^,\n]+),',re.sub(r'ghost[^\n]*','',m.group(2)))
        st[tuple(b for a,b in fields)].append(f"{f[7:]}:{m.group(1)} "+','.join(a for a,b in fields))
for k,v in sorted(g.items(),key=lambda x:-len(x[1])):
    if len(v)>1: print(len(v),v)
print('--- structs with the same field types')
for k,v in st.items():
    if len(v)>1: print(k,v)
print('--- structs with the same field names')
sn=collections.defaultdict(list)
for v in st.values():
    for x in v: sn[x.split(' ')[1] if ' ' in x else ''].append(x.split(' ')[0])
for k,v in sn.items():
    if len(v)>1: print(k,v)
