#!/usr/bin/env python3
"""Turns proofs that walk the code by hand into Invariants.antt and Answers.antt, once, behind tools/port_names.py. Each proofs/F/Proof.antt goes.

usage: python3 tools/port_proofs.py NAMES CRATE..     at the top of the repository

It reads NAMES/CRATE/names.json, the old and the new name of each goal and step, which 'rattle check --generated NAMES/CRATE --old-names' writes, over
unproved crates too if they are given by --lib. A goal that only said 'search rules' is left to the check. A lemma over a place of the code becomes a 'let' of
each answer that cites it. What it can't turn it says, and what it turned wrongly the check says.
"""
import re,os,sys,json,glob,collections
NORM=lambda s:s.replace('_','-')
IDC=r"[^\s(){}.;,@\"«»:]"
NAME=re.compile(r"[^\s(){}.;,@\"«»]+")
def blocks(text):
    """top-level blocks: (comment lines, [lines])"""
    out=[];cur=None;com=[]
    for line in text.split('\n'):
        if line.startswith('--'):
            if cur is not None and cur['lines']: out.append(cur); cur=None
            com.append(line); continue
        if not line.strip():
            continue
        if not line[0].isspace() and line[0] not in ')}':
            w=line.split()
            # continuing clause of the same name?
            head=w[0]
            if cur is not None and not com and head!='use' and (head==cur['name'] or head=='unfolding'):
                cur['lines'].append(line); continue
            if cur is not None: out.append(cur)
            mods=[]
            k=0
            while w[k] in('abbrev','unfoldable','pub'): mods.append(w[k]); k+=1
            cur={'name':w[k],'mods':mods,'lines':[line],'com':com}; com=[]
        else:
            cur['lines'].append(line)
    if cur is not None: out.append(cur)
    return out,com
class Fn:
    def __init__(s,x):
        s.x=x
        s.needs={}
        s.temps={}
        s.cycle=False
        for o,n in x['needs']:
            s.needs[NORM(o)]=n
        s.steps=collections.defaultdict(list)
        for pl in x['places']:
            st=pl[2]
            if st and st[0]:
                if st[1] not in s.steps[NORM(st[0])]: s.steps[NORM(st[0])].append(st[1])
        # arms: old step + path -> arm.field
        s.arms=collections.defaultdict(list)
        s.own=collections.defaultdict(list)
        s.ownarm=collections.defaultdict(list)
        s.callee={}
        for pl in x['places']:
            if pl[3] and pl[2]: s.callee[NORM(pl[2][0])]=x['params'].get(pl[3])
        for a,pl in zip(x['arms'],x['places']):
            if not a: continue
            arm=a[0]
            for f,st,path in a[2]:
                if f.endswith('-own'):
                    if arm.startswith('in_default') or 'default' in arm: s.own[NORM(st)].append((arm,f))
                    else: s.ownarm[NORM(st)].append((arm,f))
                    continue
                e=(NORM(st),tuple(path),arm,f)
                if e not in s.arms[NORM(st)]: s.arms[NORM(st)].append(e)
        s.loops={NORM(l[0][0]):(l[0][1],l[1],ch) for l,ch in zip(x['loops'],x['changed'])}
def proj(chain,fn,warn):
    """chain: list of projections after c (befores dropped). returns new list"""
    if not chain: return chain
    if fn.cycle and chain[0]=='requires' and len(chain)>1:
        # in a recursion the measure stands apart
        return ['decreases']+chain[2:] if chain[1]=='0' else ['requires']+chain[2:]
    st=NORM(chain[0])
    best=None
    for (o,path,arm,f) in fn.arms.get(st,[]):
        p=tuple(chain[1:1+len(path)])
        if p==path and path and (best is None or len(path)>len(best[1])): best=(o,path,arm,f)
    if best:
        return [best[2],best[3]]+chain[1+len(best[1]):]
    if len(chain)>1 and chain[1]=='rest' and fn.own.get(st):
        if len(set(fn.own[st]))>1: warn.append(f"ambiguous own {chain}: {fn.own[st]}")
        return list(fn.own[st][0])+chain[1:]
    if st in fn.steps:
        n=fn.steps[st]
        ps=fn.callee.get(st)
        if ps and len(chain)>2 and chain[1]=='new':
            k=2
            while k<len(chain) and chain[k]=='1': k+=1
            if k<len(chain) and chain[k]=='0':
                return [n[0],'new',ps[k-2]]+chain[k+1:]
            if k-2<len(ps): return [n[0],'new',ps[k-2]]+chain[k:]
        if len(n)>1: warn.append(f"ambiguous step {chain[0]}: {n}")
        return [n[0]]+chain[1:]
    return chain
def body(text,fn,warn,first):
    # aliases bound to c
    al={'c':[]}
    text=re.sub(r"\.before\b",'',text)
    res=[]
    # handle aliases progressively: find 'let v = c[.x]* in'
    for m in re.finditer(r"\blet ("+IDC+r"+) = c((?:\.[^\s(){};,.]+)*) in\b",text):
        ch=[y for y in m[2].split('.') if y]
        al[m[1]]=ch
    def rep(m):
        if m[0].startswith('"'): return m[0]
        base=m[1]
        if base not in al: return m[0]
        ch=[y for y in m[2].split('.') if y]
        full=al[base]+ch
        if base=='c':
            return '.'.join(['c']+proj(full,fn,warn))
        if al[base]==[]:
            return '.'.join([base]+proj(full,fn,warn))
        # alias of a step: try whether arms want a longer path
        k=len(al[base])
        if proj(al[base],fn,warn)+ch==proj(full,fn,warn): return m[0]
        return '.'.join(['c']+proj(full,fn,warn))
    out=re.sub(r"(?<![^\s(){};,@\"«»])([^\s(){}.;,@\"«»]+)((?:\.[^\s(){};,@\"«».]+)*)",rep,text)
    return out
DROPUSE=re.compile(r"^use (Rattle\.[\w.+]*proofs\.[^{}]*\.(Statement|Tie|Reads|Kinds|Lts-?[^ .{]*)\b|Rattle\.[\w.+]*proofs\.\+[^ ]*|borrow\.Fn\.)")
def inv(lines,name,fn,loop,goalname,mods,com,stem,warn):
    text='\n'.join(lines[1:])
    newloop,vars_,ch=fn.loops[loop]
    m=re.match(re.escape(name)+r"((?:\s+\S+)*?) =(?=\s)",text)
    params=m[1].split()
    rest=text[m.end():]
    exp=list(vars_)
    sub={}
    changed=[v for v,c in zip(vars_,ch) if c]
    if len(params)!=len(vars_)+len(changed): params=[q for q in params if not re.fullmatch(r't\d+',q)]
    if len(params)!=len(vars_)+len(changed):
        warn.append(f"{name}: {len(params)} parameters, {len(vars_)}+{len(changed)} wanted")
        return None
    for p,v,c in zip(params,vars_,ch):
        sub[p]=f"l.initial.{v}" if c else f"l.{v}"
    for p,v in zip(params[len(vars_):],changed):
        sub[p]=f"l.{v}"
    def rep(mm):
        return sub.get(mm[0],mm[0])
    rest2=re.sub(r"(?<![^\s(){};,@\"«»])[^\s(){}.;,@\"«»]+(?! =[^=])",rep,rest)
    unf=[l for l in lines[1:] if l.startswith('unfolding')]
    g=goalname
    return '\n'.join(com+[f"abbrev pub {g} : goal.{g}"]+unf+[f"{g} l ={rest2}"])
ARG=r"(?: (?:[^\s(){}]+|\((?:[^()]|\([^()]*\))*\)))"
def uses_of(text,name): return re.search(r"(?<![\w.'-])"+re.escape(name)+r"(?![\w'-])",text)
def drop_arg(text,name,hast):
    # name [t] X  where X is an identifier chain or a bracketed term: the record, which is c now
    return re.sub(r"(?<![\w.'-])"+re.escape(name)+r"(?![\w'-])"+(ARG if hast else '')+r" (?:c(?:\.[^\s(){};,.]+)*|[^\s(){};,.]+)(?=[\s)};,.])(?!\.)",name,text)
def inline(nb,lemmas,fn,warn):
    need=[]
    def want(text):
        for l in lemmas:
            if uses_of(text,l[0]) and l not in need:
                want(l[4]); want(l[5]); 
                if l not in need: need.append(l)
    want(nb)
    if not need: return nb,[]
    need=[l for l in lemmas if l in need]
    lets=[];unf=[]
    for l in need:
        ty,bd=l[4],l[5].strip('\n')
        for k in lemmas:
            ty=drop_arg(ty,k[0],k[2]); bd=drop_arg(bd,k[0],k[2])
        bd=bd.strip()
        if l[3]: bd='λ '+' '.join(l[3])+'. '+bd
        lets.append(f"    let {l[0]} : {ty.strip()} = {bd} in")
        unf+=[u for u in l[6] if u not in unf]
    for k in lemmas: nb=drop_arg(nb+' ',k[0],k[2]).rstrip(' ')
    return '\n'+'\n'.join(lets)+('\n    '+nb.strip() if not nb.startswith('\n') else nb),unf
def main(names,crate):
    d=json.load(open(f'{names}/{crate}/names.json'))
    tot=[0,0,0]
    for p in sorted(glob.glob(f'crates/{crate}/proofs/**/Proof.antt',recursive=True)):
        folder=os.path.dirname(p)
        rel=os.path.relpath(folder,f'crates/{crate}/proofs')
        warn=[]
        mods=rel.replace('/','.')
        fns={}
        for k in d:
            m=re.fullmatch(rf"Rattle-{crate}-proofs\.{re.escape(mods)}\.Lts(?:-(.+))?",k)
            if m: fns[NORM(m[1]) if m[1] else '']=Fn(d[k])
        for f_ in fns.values(): f_.cycle='+' in mods
        if not fns:
            print(f'{p}: no names'); continue
        text=open(p).read()
        bl,_=blocks(text)
        uses=[];keep=[];answers=[];invs=[];lemmas=[]
        alias={}
        for b in bl:
            l0=b['lines'][0]
            if b['name']=='use':
                m=re.match(r"use (\S+) as (\S+)",l0)
                if m and re.search(r'\.Lts-',m[1]): alias[m[2]]=NORM(re.search(r'\.Lts-(.+)$',m[1])[1])
                if not DROPUSE.match(l0): uses+=b['lines']
                continue
            sig=' '.join(b['lines']) if len(b['lines'])<2 else b['lines'][0]
            # signature may go over several lines
            joined=l0
            k=1
            while k<len(b['lines']) and not b['lines'][k].startswith(b['name']) and not b['lines'][k].startswith('unfolding'):
                joined+=' '+b['lines'][k].strip(); k+=1
            rest=b['lines'][k:]
            m=re.search(r" : (?:\(t : ℕ\) → )?([^\s.]+)\.Need-(\S+)",joined)
            if m:
                fn=fns.get('' if m[1]=='tie' else alias.get(m[1],m[1]))
                if fn is None: warn.append(f'no function for {m[1]}'); continue
                mt=re.fullmatch(r"overflow-(add|sub|mul)-t\d+(?:-\d+)?",NORM(m[2]))
                if mt:
                    cands=[v for k2,v in fn.needs.items() if re.fullmatch(mt[1]+r"-t\d+(?:-\d+)?",k2)]
                    i=fn.temps.get(mt[1],0); fn.temps[mt[1]]=i+1
                    fn.needs[NORM(m[2])]=cands[i] if i<len(cands) else None
                n=fn.needs.get(NORM(m[2])) or fn.needs.get(re.sub('^overflow-','',NORM(m[2])))
                if n is None and re.search(r"= search rules$",'\n'.join(rest)): tot[1]+=1; continue
                if n is None:
                    warn.append(f'no goal {m[2]}'); answers.append(('-- NO GOAL '+m[2],b)); continue
                n=fn.x['stem']+n
                unf=[x for x in rest if x.startswith('unfolding')]
                cl='\n'.join(x for x in rest if not x.startswith('unfolding'))
                mm=re.match(re.escape(b['name'])+r"((?: \S+)*?) =(?=\s)",cl)
                if not mm: warn.append(f'odd clause {b["name"]}'); continue
                args=mm[1].split()
                bd=cl[mm.end():]
                if bd.strip()=='search rules': tot[1]+=1; continue
                if 'κs' in bd: warn.append(f'κs used in {n}')
                args=[a for a in args if a!='κs']
                nb=body(bd,fn,warn,args)
                nb,lunf=inline(nb,lemmas,fn,warn)
                unf=unf+[u for u in lunf if u not in unf]
                answers.append((n,'\n'.join(b['com']+[f"pub {n} : goal.{n}"]+unf+[f"{n} {' '.join(args)} ={nb}"])))
                tot[0]+=1
                continue
            m=re.search(r" : ([^\s.]+)\.(invariant|decreases)-(\S+)$",joined)
            if m:
                fn=fns.get('' if m[1]=='tie' else alias.get(m[1],m[1]))
                loop=NORM(m[3])
                if fn is None or loop not in fn.loops: warn.append(f'no loop {m[0]}'); continue
                g=f"{fn.x['stem']}{m[2]}-{fn.loops[loop][0]}"
                # invariant and decreases name forms
                g=f"{m[2]}-{fn.x['stem']}{fn.loops[loop][0]}"
                r=inv([l0]+rest,b['name'],fn,loop,g,b['mods'],b['com'],fn.x['stem'],warn)
                if r: invs.append(r); tot[2]+=1
                continue
            m=re.search(r" : Measures ",joined)
            if m:
                f=b['name'].lstrip('μ').lstrip('-')
                # argument by position
                cl='\n'.join(rest)
                mm=re.match(re.escape(b['name'])+r" κs a =",cl)
                bd=cl[mm.end():]
                invs.append(('MEASURE',f,bd,b['com']))
                continue
            if re.search(r" : .*\bstatement\b",joined) or re.search(r"Lts-?\S*\.Claims| : ℕ → In |lts\.Claims",joined) or b['name'].endswith(('-spec','_spec')) :
                continue
            mL=re.match(re.escape(b['name'])+r" : (?:\(t : ℕ\) (?:→ )?)?\((\S+) : ([^\s.]+)\.([A-Z][^\s()]*)(?: (?:[^\s()]+|\([^()]*\)))*\) (.*)$",joined)
            if mL and (mL[2]=='tie' or mL[2] in alias):
                fn=fns.get('' if mL[2]=='tie' else alias[mL[2]])
                unf=[x for x in rest if x.startswith('unfolding')]
                cl='\n'.join(x for x in rest if not x.startswith('unfolding'))
                mm=re.match(re.escape(b['name'])+r"((?: \S+)*?) =(?=\s)",cl)
                args=mm[1].split()
                hast=' : (t : ℕ) ' in joined
                if hast: args=args[1:]
                typ=mL[4]
                if typ.startswith('→ '): typ=typ[2:]
                if args[0]!=mL[1] or mL[1]!='c':
                    cl=re.sub(r"(?<![\w.-])"+re.escape(args[0])+r"(?![\w-])",'c',cl[mm.end():]); 
                    typ=re.sub(r"(?<![\w.-])"+re.escape(mL[1])+r"(?![\w-])",'c',typ)
                else: cl=cl[mm.end():]
                lemmas.append((b['name'],fn,hast,args[1:],body(typ,fn,warn,None),body(cl,fn,warn,None),unf))
                continue
            keep.append('\n'.join(b['com']+b['lines']))
            if re.search(r"\b(tie|\S+-lts|\S+-reads)\.",keep[-1]): warn.append(f"lemma {b['name']} cites the generated modules")
        # measures
        out=[]
        for it in invs:
            if isinstance(it,tuple):
                _,f,bd,com=it
                pars=params_of(crate,f)
                if pars is None: warn.append(f'no parameters of {f}'); continue
                fname,ps=pars
                def rep(m):
                    return 'l.'+ps[m[1].count('1')]
                bd=re.sub(r"\ba((?:\.1)*)\.0\b",rep,bd)
                # last argument
                bd=re.sub(r"\ba((?:\.1)+)(?!\.?\d)",lambda m:'l.'+ps[m[1].count('1')],bd)
                out.append('\n'.join(com+[f"abbrev pub decreases-{fname} : goal.decreases-{fname}",f"decreases-{fname} l ={bd}"]))
            else: out.append(it)
        goalmod=f"Rattle.{crate}.proofs.{mods}"
        inkeep=[k for k in keep]
        if out:
            body_='\n\n'.join(out)
            ks=[k for k in keep if any(re.search(r'(?<![\w-])'+re.escape(n)+r'(?![\w-])',body_) for n in [re.match(r"(?:--.*\n)*(?:abbrev |pub |unfoldable )*(\S+)",k)[1]])]
            open(folder+'/Invariants.antt','w').write('\n'.join(uses+[f"use {goalmod}.Given as goal"])+'\n\n'+'\n\n'.join(ks+[body_])+'\n')
        if answers or keep:
            al=[a[1] if isinstance(a[1],str) else '-- '+a[0] for a in answers]
            if al:
                open(folder+'/Answers.antt','w').write('\n'.join(uses+[f"use {goalmod}.Goals as goal"])+'\n\n'+'\n\n'.join(keep+al)+'\n')
        os.remove(p)
        for w in warn: print(f'{p}: {w}')
    print(f'{crate}: {tot[0]} answers, {tot[1]} left to the search, {tot[2]} invariants')
def params_of(crate,f):
    src='\n'.join(open(x).read() for x in glob.glob(f'crates/{crate}/src/**/*.rt',recursive=True))
    for m in re.finditer(r"\bfn (\w+)\s*\(([^)]*)\)",src):
        if NORM(m[1])==NORM(f):
            return m[1],[q.split(':')[0].strip() for q in m[2].split(',') if q.strip()]
    return None
if __name__=='__main__':
    for c in sys.argv[2:]: main(sys.argv[1],c)
