#!/usr/bin/env python3
"""Compares generated pairs of terms of simple types, over a variable of the universe, on the program
`evaluating`.

    tools/try_pairs.py PROGRAM COUNT SEED [DEPTH]

Each answer is checked against normal forms of the script's own, up to eta, and each trail step by
step. The program has the judge replay the derivation of each answer.
"""
import random, subprocess, sys, re
sys.setrecursionlimit(100000)
N='nat'; A='A'   # the numbers, and a variable of the universe
def arr(a,b): return ('->',a,b)
def prod(a,b): return ('*',a,b)
def show_ty(t):
    if t in(N,A): return t
    if t[0]=='->': return f'((_ : {show_ty(t[1])}) -> {show_ty(t[2])})'
    return f'((_ : {show_ty(t[1])}) * {show_ty(t[2])})'
def num(n): return ('zero',) if n==0 else ('suc',num(n-1))
# named terms: ('v',name) ('lam',x,A,b) ('app',f,a) ('pair',a,b) ('fst',p) ('snd',p) ('suc',n) ('zero',) ('def',name)
def show(t):
    k=t[0]
    if k in('v','def'): return t[1]
    if k=='lam': return f'(\\({t[1]} : {show_ty(t[2])}) -> {show(t[3])})'
    if k=='app': return f'({show(t[1])} {show(t[2])})'
    if k=='pair': return f'({show(t[1])}, {show(t[2])})'
    if k=='fst': return f'{show(t[1])}.1'
    if k=='snd': return f'{show(t[1])}.2'
    if k=='suc': return f'(suc {show(t[1])})'
    if k=='zero': return 'zero'
    if k=='comp': return f'(comp (<_> {show_ty(t[1])}) {show(t[2])} [])'
LIB=["plus (m n : nat) : nat = natrec (\\(_ : nat) -> nat) m (\\(x r : nat) -> suc r) n",
 "both (x : nat) : (_ : nat) * nat = (x, x)",
 "swap (p : (_ : nat) * nat) : (_ : nat) * nat = (p.2, p.1)",
 "iter (f : (_ : nat) -> nat) (m n : nat) : nat = natrec (\\(_ : nat) -> nat) m (\\(x r : nat) -> f r) n"]
PN=prod(N,N); FN=arr(N,N)
DEFT={'plus':arr(N,FN),'both':arr(N,PN),'swap':arr(PN,PN),'iter':arr(FN,arr(N,FN))}
CTX=[('A','U'),('a',A),('b',A),('d',arr(N,A)),('e',arr(A,arr(A,N))),('f',FN),('h',arr(FN,N)),('p',PN),('n',N)]
fresh=[0]
def name():
    fresh[0]+=1; return f'y{fresh[0]}'
def spine(head,ty,want,ctx,d,rnd):
    """an elimination of head : ty to want, or None"""
    if ty==want: return head
    opts=[]
    if ty[0]=='->': opts.append('a')
    if ty[0]=='*': opts+=['1','2']
    rnd.shuffle(opts)
    for o in opts:
        if o=='a':
            if not can(ty[2],want): continue
            return spine(('app',head,gen(ctx,ty[1],d-1,rnd)),ty[2],want,ctx,d,rnd)
        if o=='1' and can(ty[1],want): return spine(('fst',head),ty[1],want,ctx,d,rnd)
        if o=='2' and can(ty[2],want): return spine(('snd',head),ty[2],want,ctx,d,rnd)
def can(ty,want):
    if ty==want: return True
    if isinstance(ty,str): return False
    if ty[0]=='->': return can(ty[2],want)
    return can(ty[1],want) or can(ty[2],want)
def gen(ctx,ty,d,rnd):
    if not isinstance(ty,str) and d>0 and moves(ty) and rnd.random()<0.15:
        return ('comp',ty,gen(ctx,ty,d-1,rnd))
    if not isinstance(ty,str) and (rnd.random()<0.7 or d<=0):
        if ty[0]=='->':
            x=name(); return ('lam',x,ty[1],gen(ctx+[(x,ty[1])],ty[2],d-1,rnd))
        return ('pair',gen(ctx,ty[1],d-1,rnd),gen(ctx,ty[2],d-1,rnd))
    if d<=0 and ty==A: return rnd.choice([('v',x) for x,t in ctx if t==A])
    if d<=0:
        vs=[('v',x) for x,t in ctx if t==N]
        return rnd.choice(vs+[('zero',),num(rnd.randint(0,3))])
    c=rnd.random()
    if ty in(A,N) and c>0.8: return ('comp',ty,gen(ctx,ty,d-1,rnd))
    if ty==N and c<0.2: return ('suc',gen(ctx,N,d-1,rnd))
    if ty==N and c<0.3: return num(rnd.randint(0,3))
    heads=[(('v',x),t) for x,t in ctx if can(t,ty)]+[(('def',x),t) for x,t in DEFT.items() if can(t,ty)]
    if not heads: return gen(ctx,ty,0,rnd)
    h,t=rnd.choice(heads)
    return spine(h,t,ty,ctx,d,rnd)
def moves(ty):
    """whether compositions over it are told here"""
    return isinstance(ty,str) or ty[0]=='*' and moves(ty[1]) and moves(ty[2])
# typed traversal with infer/check positions; variants
def infer_ty(t,ctx):
    k=t[0]
    if k=='v': return dict(ctx)[t[1]]
    if k=='def': return DEFT[t[1]]
    if k=='app': return infer_ty(t[1],ctx)[2]
    if k=='fst': return infer_ty(t[1],ctx)[1]
    if k=='snd': return infer_ty(t[1],ctx)[2]
    if k in('suc','zero'): return N
    if k=='comp': return t[1]
    if k=='lam': return arr(t[2],infer_ty(t[3],ctx+[(t[1],t[2])]))
    raise ValueError
def inferable(t):
    k=t[0]
    if k=='pair': return False
    if k=='lam': return inferable(t[3])
    return True
def vary(t,ty,ctx,checked,pr,rnd):
    """an equal term; `checked`: it stands where it is checked."""
    k=t[0]
    if k=='lam': t=('lam',t[1],t[2],vary(t[3],ty[2],ctx+[(t[1],t[2])],checked,pr,rnd))
    elif k=='app':
        ft=infer_ty(t[1],ctx); t=('app',vary(t[1],ft,ctx,False,pr,rnd),vary(t[2],ft[1],ctx,True,pr,rnd))
    elif k=='pair': t=('pair',vary(t[1],ty[1],ctx,True,pr,rnd),vary(t[2],ty[2],ctx,True,pr,rnd))
    elif k in('fst','snd'): t=(k,vary(t[1],infer_ty(t[1],ctx),ctx,False,pr,rnd))
    elif k=='suc': t=('suc',vary(t[1],N,ctx,True,pr,rnd))
    elif k=='comp': t=('comp',t[1],vary(t[2],ty,ctx,True,pr,rnd))
    if rnd.random()>pr: return t
    o=rnd.choice(['id','const','eta','num','both'])
    if o=='id':
        x=name(); return ('app',('lam',x,ty,('v',x)),t)
    if o=='const' and inferable(t):
        x=name(); return ('app',('lam',x,N,t),num(rnd.randint(0,2)))
    if o=='eta' and not isinstance(ty,str) and inferable(t):
        if ty[0]=='->':
            x=name(); return ('lam',x,ty[1],('app',t,('v',x)))
        if checked: return ('pair',('fst',t),('snd',t))
    if o=='num' and ty==N:
        return ('app',('app',('def','plus'),t),num(0))
    if o=='both' and ty==N:
        return (rnd.choice(['fst','snd']),('app',('def','both'),t))
    return t
def mutate(t,ty,ctx,rnd):
    """another term of the type, differing at one place"""
    places=[]
    def walk(t,ty,ctx,path):
        k=t[0]
        places.append((path,ty,ctx))
        if k=='lam': walk(t[3],ty[2],ctx+[(t[1],t[2])],path+[3])
        elif k=='app':
            ft=infer_ty(t[1],ctx) if inferable(t[1]) else None
            if ft: walk(t[2],ft[1],ctx,path+[2])
        elif k=='pair': walk(t[1],ty[1],ctx,path+[1]); walk(t[2],ty[2],ctx,path+[2])
        elif k=='suc': walk(t[1],N,ctx,path+[1])
        elif k=='comp': walk(t[2],ty,ctx,path+[2])
    walk(t,ty,ctx,[])
    path,ty2,ctx2=rnd.choice(places)
    new=gen(ctx2,ty2,1,rnd)
    def put(t,path):
        if not path: return new
        t=list(t); t[path[0]]=put(t[path[0]],path[1:]); return tuple(t)
    return put(t,path)
# NbE to beta-normal trees with eta kept as it stands; types erased. values
class Neu:
    def __init__(s,t): s.t=t
def ev(t,env):
    k=t[0]
    if k=='v': return env[t[1]]
    if k=='def': return DEFV[t[1]]
    if k=='lam': return ('L',lambda v:ev(t[3],{**env,t[1]:v}))
    if k=='app': return ap(ev(t[1],env),ev(t[2],env))
    if k=='pair': return ('P',ev(t[1],env),ev(t[2],env))
    if k=='fst': return pr1(ev(t[1],env))
    if k=='snd': return pr2(ev(t[1],env))
    if k=='suc': return ('S',ev(t[1],env))
    if k=='zero': return ('Z',)
    if k=='comp': return moved(t[1],ev(t[2],env))
def moved(ty,v):
    """a value composed over a constant line, with no sides"""
    if isinstance(ty,tuple): return ('P',moved(ty[1],pr1(v)),moved(ty[2],pr2(v)))
    if ty==N and v[0]=='Z': return v
    if ty==N and v[0]=='S': return ('S',moved(N,v[1]))
    return ('N','comp',('K','nat') if ty==N else ('V',0),('K','f0'),('K','empty'),v)
def ap(f,a): return f[1](a) if f[0]=='L' else ('N','app',f,a)
def pr1(p): return p[1] if p[0]=='P' else ('N','fst',p)
def pr2(p): return p[2] if p[0]=='P' else ('N','snd',p)
def rec(base,step,n):
    if n[0]=='Z': return base
    if n[0]=='S': return ap(ap(step,n[1]),rec(base,step,n[1]))
    return ('N','natrec',base,step,n)
DEFV={'plus':('L',lambda m:('L',lambda n:rec(m,('L',lambda x:('L',lambda r:('S',r))),n))),
 'both':('L',lambda x:('P',x,x)),
 'swap':('L',lambda p:('P',pr2(p),pr1(p))),
 'iter':('L',lambda f:('L',lambda m:('L',lambda n:rec(m,('L',lambda x:('L',lambda r:ap(f,r))),n))))}
def quote(v,n):
    """beta-normal tree over levels"""
    k=v[0]
    if k=='L': return ('lam',n,quote(v[1](('V',n)),n+1))
    if k=='P': return ('pair',quote(v[1],n),quote(v[2],n))
    if k=='S': return ('suc',quote(v[1],n))
    if k=='Z': return ('zero',)
    if k=='V': return ('var',v[1])
    if k=='K': return (v[1],)
    if v[1]=='natrec': return ('natrec',('nat',),quote(v[2],n),quote(v[3],n),quote(v[4],n))
    return (v[1],)+tuple(quote(x,n) for x in v[2:])
def substv(t,i,j):
    """rename level"""
    if t[0]=='var': return ('var',j) if t[1]==i else t
    return (t[0],)+tuple(substv(x,i,j) if isinstance(x,tuple) else x for x in t[1:])
def under(t,n):
    """app t x_n in normal form, t over n levels"""
    if t[0]=='lam':
        b=t[2]; return relevel(b,t[1],n)
    return ('app',t,('var',n))
def relevel(b,i,n): return b if i==n else substv(b,i,n)
def eta_eq(a,b,n):
    if a==b: return True
    if a[0]=='lam' or b[0]=='lam': return eta_eq(under(a,n),under(b,n),n+1)
    if a[0]=='pair' or b[0]=='pair': return eta_eq(half(a,0),half(b,0),n) and eta_eq(half(a,1),half(b,1),n)
    if a[0]!=b[0] or a[0]=='var' or len(a)!=len(b): return False
    return all(eta_eq(x,y,n) for x,y in zip(a[1:],b[1:]))
def half(t,i): return t[1+i] if t[0]=='pair' else (('fst','snd')[i],t)
def check_trail(a,b,steps,n):
    for s in steps:
        if s=='Under':
            if 'lam' not in (a[0],b[0]): return f'under at {a[0]} {b[0]}'
            a,b=under(a,n),under(b,n); n+=1
        elif s in('First','Second'):
            if 'pair' not in (a[0],b[0]): return 'half'
            i=0 if s=='First' else 1
            a,b=half(a,i),half(b,i)
        else:
            k=int(s[5:-1])
            if a[0]!=b[0] or a[0] in('lam','pair','var'): return f'into at {a[0]} {b[0]}'
            if k+1>=len(a): return 'no kid'
            a,b=a[k+1],b[k+1]
    if a[0]==b[0]: return None if a[0]=='var' and a!=b else f'ends at {a} {b}'
    return None if not {a[0],b[0]}&{'lam','pair'} else 'ends at eta'
def main():
    binary,count,seed=sys.argv[1],int(sys.argv[2]),int(sys.argv[3])
    depth=int(sys.argv[4]) if len(sys.argv)>4 else 4
    rnd=random.Random(seed)
    types=[N,N,FN,PN,prod(N,FN),arr(PN,N),arr(FN,PN),A,A,prod(A,N),arr(A,A)]
    head=' '.join(f'({x} : {t if t=="U" else show_ty(t)})' for x,t in CTX)
    lines=['module Cases where',*LIB]; cases=[]
    env={x:('V',i) for i,(x,_) in enumerate(CTX)}
    while len(cases)<count:
        ty=rnd.choice(types); t=gen(CTX,ty,depth,rnd)
        u=t
        if rnd.random()<0.5: u=mutate(u,ty,CTX,rnd)
        u=vary(u,ty,CTX,True,0.3,rnd); t2=vary(t,ty,CTX,True,0.15,rnd)
        if len(show(u))>4000: continue
        i=len(cases); n=len(CTX)
        a,b=quote(ev(t2,env),n),quote(ev(u,env),n)
        cases.append((a,b,eta_eq(a,b,n)))
        lines.append(f'l9x{i} {head} : {show_ty(ty)} = {show(t2)}')
        lines.append(f'r9x{i} {head} : {show_ty(ty)} = {show(u)}')
    text='\n'.join(lines)+'\n'
    out=subprocess.run([binary,'counts'],input=text.encode(),capture_output=True).stdout.decode()
    sys.exit(judged(out,cases) > 0)


def judged(out, cases):
    """Compares the answers with the expected ones, and counts the wrong ones."""
    seen, bad, moves, longest = 0, 0, 0, 0
    for line in out.splitlines():
        found = re.match(r'l9x(\d+): (equal|differ)(?: \[(.*)\])?, (\d+) moves, \d+ rows$', line)
        if not found:
            bad += 1
            print('not an answer:', line[:300])
            continue
        left, right, are_equal = cases[int(found[1])]
        seen, moves = seen + 1, moves + int(found[4])
        if (found[2] == 'equal') != are_equal:
            bad += 1
            print('wrong:', line)
        elif found[2] == 'differ':
            steps = [step for step in found[3].split(', ') if step]
            longest = max(longest, len(steps))
            why = check_trail(left, right, steps, len(CTX))
            if why:
                bad += 1
                print('trail:', line, why)
    equal = sum(case[2] for case in cases)
    print(f'{seen} of {len(cases)}: {equal} equal, {bad} wrong; {moves} moves; longest trail {longest}')
    return bad + len(cases) - seen


main()
