# Makes the table of respelled names: run at the top of the repository, right after port.py. Prints rows "old<TAB>new"; notes to stderr.
import re,glob,sys,collections
DECL=re.compile(r"^(\s*)((?:abbrev\s+|unfoldable\s+|pub\s+|mutual\s+|data\s+|record\s+|ruleset\s+)*)([^\s:(){}]+)\s*(?:\(.*?\)|\{.*?\}|\s)*:\s")
def files(*pats):
    out=[]
    for p in pats: out+=glob.glob(p,recursive=True)
    return sorted(set(out))
specs=files('crates/*/specs/**/*.antt'); lemmas=files('crates/*/proofs/*.antt'); walks=[f for f in files('crates/*/proofs/**/*.antt') if f not in lemmas]
def decls(fs):
    d=collections.defaultdict(set)
    for f in fs:
        for l in open(f):
            if l.strip().startswith('--'): continue
            m=DECL.match(l)
            if m and m.group(3) not in ('use','pub','module','mod','where','let','in'): d[m.group(3)].add(f)
    return d
S,L,W=decls(specs),decls(lemmas),decls(walks)
walkopen=decls(walks)
def snake(n):
    n=re.sub(r"(?<=[a-z0-9ρθπχι])(?=[A-Z])","_",n); n=re.sub(r"(?<=[A-Z])(?=[A-Z][a-z])","_",n)
    return n.lower() if not n.startswith(('xor_R8','turboshake_with1F')) else n.lower()
special={'KeccakP':'keccak_p','Rnd':'rnd','Rnds':'rnds','RCTurns':'rc_turns','RTurns':'r_turns','RTurn':'r_turn','ρTurns':'ρ_turns'}
table={}
for n in list(S)+list(L)+list(W):
    if n in special: table[n]=special[n]
    elif re.search(r"[a-z0-9ρ][A-Z]",n) and (n[0].islower()) and '-' not in n: table[n]=snake(n)
# names that a dash may join
src=set(re.findall(r"\bfn (\w+)","\n".join(open(f).read() for f in files('crates/*/src/*.rt'))))
names={table.get(n,n) for n in S if '-' not in n and n[0].islower()}|src
names|={table.get(n,n) for n in L if '-' not in n and n in table}
std="length take drop append set replicate map lt le add mul sub div mod suc zero eq cond xor and or not pow min max get_or sum bit_xor bit_and bit_or reverse concat foldl foldr".split()
names|=set(std)
names-={'is','of','at','first','all','last','left','right','done','open','closed','some','same','other','out'}
def lemma(n):
    parts=n.split('-')
    parts=[snake(table.get(p,p)) if re.search(r"[a-z0-9ρ][A-Z]",p) and p[0].islower() else special.get(p,p) for p in parts]
    out=[];i=0
    while i<len(parts):
        for j in range(len(parts),i,-1):
            w='_'.join(parts[i:j])
            if w in names or (j==i+1):
                isn=w in names or (w[0].isupper())
                out.append((w,isn)); i=j; break
    r=out[0][0]
    for (a,ai),(b,bi) in zip(out,out[1:]):
        r+=('-' if ai and bi else '_')+b
    return r
walkgoals=set()
for f in walks:
    for m in re.finditer(r"^(\S+) : tie\.",open(f).read(),re.M): walkgoals.add(m.group(1))
for n in sorted(L|S.keys() if False else set(L)|set(S)):
    if '-' in n and n not in walkgoals:
        m=lemma(n)
        if m!=n: table[n]=m
for o,n in {'outputLength':'output_length','output-length':'output_length','fromLast':'from_last','from_last':'from_last_lem','closedRun':'closed_run','bit-and':'bit-bit_and','bit-xor':'bit-bit_xor'}.items(): table[o]=n
sure={'outputLength','output-length','fromLast','from_last','closedRun','bit-and','bit-xor'}
# collisions
alld=set(S)|set(L)|set(W)
inv=collections.defaultdict(list)
for o,n in table.items(): inv[n].append(o)
bad=set()
names_rt="\n".join(re.sub(r"//.*","",open(f).read()) for f in files('crates/*/src/*.rt'))
idents=set(re.findall(r"\b([a-z_]\w*)\s*:(?!:)",names_rt))|set(re.findall(r"\blet (?:mut )?([a-z_]\w*)",names_rt))
alltext="\n".join("\n".join(l for l in open(f) if not re.match(r"\s*(pub )?use |\s*--",l)) for f in files('crates/**/*.antt'))
words=set(re.findall(r'(?<![^\s(){};,@"«»λ])[^\s(){}.;,@"«»]+',alltext))
for n,os in list(inv.items()):
    os=[o for o in os if o not in sure]
    if not os: continue
    if len(os)==2 and os[0] in table and any('-' in o for o in os) and any('-' not in o for o in os):
        d=[o for o in os if '-' in o][0]
        table[d]=n+'_lem'; print('lemma beside its function:',d,table[d],file=sys.stderr); os.remove(d)
    if len(os)==1 and '-' in os[0] and n in alld and n not in table:
        table[os[0]]=n+'_lem'; print('lemma beside its function:',os[0],table[os[0]],file=sys.stderr); continue
    if len(os)>1: print('fall together:',os,n,file=sys.stderr); bad|=set(os)
    if n in alld and n not in table: print('taken:',os,n,file=sys.stderr); bad|=set(os)
    elif n in words: print('a word already:',os,n,file=sys.stderr); bad|=set(os)
    if n in idents: print('a parameter, field or local of src:',os,n,file=sys.stderr)
for o in sorted(table):
    if o not in bad: print(o+'\t'+table[o])
