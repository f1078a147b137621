# Lines that repeat in Answers.antt and Invariants.antt. Usage: answers.py COMMIT
import subprocess,re,sys,collections
C=sys.argv[1]
fs=[f for f in subprocess.check_output(['git','ls-tree','-r','--name-only',C,'--','crates'],text=True).split() if '/proofs/' in f]
a=[f for f in fs if re.search(r'/(Answers|Invariants)\.antt$',f)]
c=collections.defaultdict(list);w=collections.defaultdict(set)
defs=collections.Counter();same=collections.defaultdict(list)
lem=0
for f in fs:
    t=subprocess.check_output(['git','show',C+':'+f],text=True)
    if f in a:
        for l in t.split('\n'):
            s=re.sub(r'\s+',' ',l.strip())
            if len(s)>30 and not s.startswith(('--','//','ghost use','use ','open','import')):
                c[s].append(f);w[s].add(f)
    else: lem+=1
print('answers+invariants files',len(a),'other proof files',lem)
print('lines over 30 signs that stand in 3 or more places')
n=0
for s,v in sorted(c.items(),key=lambda x:-len(x[1])):
    if len(v)>=3: print(len(v),len(w[s]),s[:200]); n+=1
    if n>60: break
