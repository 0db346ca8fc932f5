#!/usr/bin/env python3
"""Derivations of univalence and of terms that are moved along it, as derivation files.

    python3 tools/univalence.py NAME > NAME.drv

The terms are those of the module Univ, with the definitions of types written out.
"""
import sys

import deriving
import judge
import kan
from deriving import ID, Scope
from kan import app, bind, eq0, eq1, fst, join, lam, least, pair, papp, pathp, pi, plam, sig, snd

U, NAT, ZERO, I0, I1, F0, EMPTY = ("U",), ("nat",), ("zero",), ("i0",), ("i1",), ("f0",), ("empty",)
SMALL = {"pi": "pi.u", "sig": "sig.u", "pathp": "path.u", "Glue": "glue.u"}


def suc(n):
    return ("suc", n)


def N(word):
    return ("name", word)


def apps(f, *args):
    for arg in args:
        f = app(f, arg)
    return f


# The definitions of the module, as they stand; or none of them, with their values in their places.

PATH = lam(U, lambda A: lam(A, lambda a: lam(A, lambda b: pathp(lambda _: A, a, b))))
ISCONTR = lam(U, lambda A: sig(A, lambda x: pi(A, lambda y: apps(PATH, A, x, y))))
FIBER = lam(U, lambda T: lam(U, lambda A: lam(pi(T, lambda _: A), lambda f: lam(A, lambda y: sig(
    T, lambda x: apps(PATH, A, y, app(f, x)))))))
ISEQUIV = lam(U, lambda T: lam(U, lambda A: lam(pi(T, lambda _: A), lambda f: pi(
    A, lambda y: app(ISCONTR, apps(FIBER, T, A, f, y))))))
EQUIV = lam(U, lambda T: lam(U, lambda A: sig(pi(T, lambda _: A),
                                              lambda f: apps(ISEQUIV, T, A, f))))
OVER_MAP = pi(U, lambda T: pi(U, lambda A: pi(pi(T, lambda _: A), lambda _: U)))
DEFINITIONS = {
    PATH: pi(U, lambda A: pi(A, lambda _: pi(A, lambda _: U))),
    ISCONTR: pi(U, lambda _: U),
    FIBER: pi(U, lambda T: pi(U, lambda A: pi(pi(T, lambda _: A), lambda _: pi(A, lambda _: U)))),
    ISEQUIV: OVER_MAP,
    EQUIV: pi(U, lambda _: pi(U, lambda _: U)),
}
DEFINED = False


def fiber(T, A, f, y):
    return apps(FIBER, T, A, f, y) if DEFINED else kan.fiber(T, A, f, y)


def equiv_type(T, A):
    return apps(EQUIV, T, A) if DEFINED else kan.equiv(T, A)


def spine(tree):
    args = []
    while tree[0] == "app":
        tree, arg = tree[1:]
        args.insert(0, arg)
    return tree, args


class Book(deriving.Book):
    def __init__(self):
        super().__init__()
        self.known, self.typed = {}, {}

    def define(self):
        for tree, of in DEFINITIONS.items():
            self.derived(("Tm", (), tree, of))
            self.known[tree] = of

    def unfolded(self, ctx, tree):
        """What a use of a definition is, with the equation derived."""
        head, args = spine(tree)
        of = self.known[head]
        equation = None
        for arg in args:
            if equation is None:
                function = now = head
            else:
                function, now = equation[2:4]
                equation = self.node("app.cong", ctx, function, now, arg, arg, *of[1:])
            beta = self.node("pi.beta", ctx, now[1], now[2], arg, of[2])
            equation = self.joined(equation, beta) if equation else beta
            of = judge.MADE["at"](of[2], arg)
        return equation[3]

    def equal_type(self, ctx, tree):
        """A type with the uses of definitions in it unfolded, with the equation derived."""
        word = tree[0]
        if word in ("pi", "sig"):
            A, B = tree[1:]
            C = self.equal_type(ctx, A)
            D = self.equal_type(ctx + (("var", A),), B)
            if (C, D) != (A, B):
                self.node(f"{word}.tycong", ctx, A, C, B, D)
            return (word, C, D)
        if word == "pathp":
            line = self.equal_type(ctx + (("name",),), tree[1])
            if line != tree[1]:
                self.node("path.tycong", ctx, tree[1], line, tree[2], tree[2], tree[3], tree[3])
            return (word, line, *tree[2:])
        if word == "app" and spine(tree)[0] in DEFINITIONS:
            value = self.unfolded(ctx, tree)
            self.node("tyeq.u", ctx, tree, value)
            last = self.equal_type(ctx, value)
            if last != value:
                self.node("tyeq.trans", ctx, tree, value, last)
            return last
        return tree

    def node(self, name, *parts):
        gives = super().node(name, *parts)
        if gives[0] == "Tm":
            self.typed.setdefault(gives[1:3], gives[3])
        return gives

    def tm(self, ctx, tree, of):
        if of[0] == "app" and spine(of)[0] in DEFINITIONS and tree not in self.known:
            value = self.equal_type(ctx, of)
            self.derived(("Tm", ctx, tree, value))
            return self.node("tm.conv", ctx, tree, value, of)
        if tree not in self.known and tree[0] == "lam" and of[0] == "pi":
            made = self.node("lam", ctx, *tree[1:], of[2])
            if of[1] == tree[1]:
                return made
            self.equal_type(ctx, tree[1])
            self.node("pi.tycong", ctx, tree[1], of[1], of[2], of[2])
            return self.node("tm.conv", ctx, tree, made[3], of)
        if tree in self.known:
            found = self.type_of(ctx, tree)
            return found == of or self.node("tm.conv", ctx, tree, found, of)
        if tree[0] == "sys":
            for claim in list(self.nodes):
                if claim[0] == "Tm" and claim[2][0] == "sys" and ctx[:len(claim[1])] == claim[1]:
                    by = judge.shift_by(sum(e[0] != "face" for e in ctx[len(claim[1]):]))
                    if (judge.apply(claim[2], by), judge.apply(claim[3], by)) == (tree, of):
                        return self.node("tm.sub", ctx, by, *claim[1:])
        return super().tm(ctx, tree, of)

    def type_of(self, ctx, tree):
        if tree in self.known:
            of = self.known[tree]
            if ("Tm", ctx, tree, of) not in self.nodes:
                by = judge.shift_by(sum(entry[0] != "face" for entry in ctx))
                self.node("tm.sub", ctx, by, (), tree, of)
            return of
        if tree[0] in ("pair", "plam", "sys", "empty", "glue"):
            if (ctx, tree) in self.typed:
                return self.typed[ctx, tree]
            first, second = (self.type_of(ctx, kid) for kid in tree[1:])
            return self.node("pair", ctx, *tree[1:], first, judge.apply(second, judge.shift_by(1)))[-1]
        of = self.raw_type(ctx, tree)
        if of[0] == "app" and spine(of)[0] in DEFINITIONS:
            value = self.equal_type(ctx, of)
            self.node("tm.conv", ctx, tree, of, value)
            return value
        return of

    def raw_type(self, ctx, tree):
        if tree[0] in SMALL:
            return self.node(SMALL[tree[0]], ctx, *tree[1:])[-1]
        return super().type_of(ctx, tree)

    def root(self, claim):
        self.row("r", self.derived(claim))

    def lines(self):
        return "".join(line + "\n" for line in self.rows)

    # Steps at a scope, of trees with names.

    def at(self, s, rule, *trees):
        return self.node(rule, s.ctx, *(s.of(tree) for tree in trees))

    def over(self, s, tree):
        """A tree over one more name, as a kid."""
        return s.of(tree)

    def chain(self, first, *others):
        for other in others:
            first = self.joined(first, other)
        return first

    def moved_line(self, ctx, line):
        """A line where no face is true, and its start there."""
        inner, named = ctx + (("face", F0),), ctx + (("name",),)
        aside = judge.push(judge.shift_by(1), ("var", 0))
        self.derived(("Ty", named, line))
        self.node("ty.sub", inner + (("name",),), aside, named, line)
        self.node("ty.sub", inner, judge.push(ID, I0), named, line)

    def transport(self, s, line, a, of0=None):
        """comp line f0 empty a"""
        ctx, line, a = s.ctx, s.of(bind(line), 1), s.of(a)
        start = judge.MADE["at"](line, I0)
        inner = ctx + (("face", F0),)
        if of0 is not None:
            of0 = s.of(of0)
            if of0 != start:
                self.derived(("Tm", ctx, a, of0))
                self.node("tm.conv", ctx, a, of0, start)
        self.derived(("Tm", ctx, a, start))
        self.node("tm.sub", inner, ID, ctx, a, start)
        self.moved_line(ctx, line)
        self.node("tmeq.absurd", inner, a, EMPTY, start)
        return self.node("comp", ctx, line, F0, EMPTY, a)


P = sig(NAT, lambda _: NAT)
SWAP = lam(P, lambda x: pair(snd(x), fst(x)))


def equivalence(B, f, g, contr_domain):
    """pair f (y. centre, contraction)"""
    def contraction(z, k):
        return pair(g(papp(snd(z), k)), plam(lambda j: papp(snd(z), least(j, k))))

    def at(y):
        centre = pair(g(y), plam(lambda _: y))
        inner = lam(fiber(B, B, f, y), lambda z: plam(lambda k: contraction(z, k)))
        return pair(centre, inner)
    return pair(f, lam(B, at))


def derive_equivalence(book, s, B, f, g, law, back, cong):
    """The typing of that in a scope; `law` derives `app f (g u) = u`, `back` `g (app f u) = u`."""
    whole = equivalence(B, f, g, None)
    sy = s.var("y", B)
    y = N("y")
    fib = kan.fiber(B, B, f, y)
    # y = f (g y)
    law(book, sy, y)
    sz = sy.var("z", fiber(B, B, f, y))
    z = N("z")
    sk = sz.name("k")
    k = N("k")

    def line(r):
        return papp(snd(z), r)
    c = sk.of(snd(z))
    up = judge.apply(c, judge.shift_by(1))
    at_start = book.end(sk.ctx, ("papp", up, ("var", 0)), sk.of(least(I0, k)), I0)
    left = book.start(sk.ctx, c)
    book.joined(at_start, left)
    at_end = book.end(sk.ctx, ("papp", up, ("var", 0)), sk.of(least(I1, k)), sk.of(k))
    inv = law(book, sk, line(k))
    book.joined(at_end, inv)
    # the ends of the contraction
    cz = sz.of(snd(z))
    right = book.node("path.right", sz.ctx, cz, *book.type_of(sz.ctx, cz)[1:])
    left = book.start(sz.ctx, cz)

    def family(x):
        return pathp(lambda _: B, y, app(f, x))
    Bx = sz.of(bind(family), 1)
    for end, other in ((I0, pair(g(y), plam(lambda _: y))), (I1, z)):
        con = pair(g(line(end)), plam(lambda j: papp(snd(z), least(j, end))))
        first, second = con[1], con[2]
        # typing of con at fib: its halves
        # plam j. z (min j end) : pathp B y (f (g (z end)))
        s0 = book.end(sz.ctx, ("papp", judge.apply(cz, judge.shift_by(1)), ("var", 0)),
                      sz.of(least(I0, end)), I0)
        book.joined(s0, left)
        s1 = book.end(sz.ctx, ("papp", judge.apply(cz, judge.shift_by(1)), ("var", 0)),
                      sz.of(least(I1, end)), sz.of(end))
        book.joined(s1, law(book, sz, line(end)))
        C = sz.of(con)
        K = sz.of(other)
        Bt = sz.of(B)
        book.derived(("Tm", sz.ctx, C, sz.of(fib)))
        fst_c = book.node("sig.beta1", sz.ctx, C[1], C[2], Bt, Bx)
        snd_c = book.node("sig.beta2", sz.ctx, C[1], C[2], Bt, Bx)
        sj = sz.name("j")
        j = N("j")
        cj = sj.of(snd(z))
        upj = judge.apply(cj, judge.shift_by(1))
        if end == I0:
            law(book, sz, y)
            book.derived(("Tm", sz.ctx, K, sz.of(fib)))
            fst_k = book.node("sig.beta1", sz.ctx, K[1], K[2], Bt, Bx)
            snd_k = book.node("sig.beta2", sz.ctx, K[1], K[2], Bt, Bx)
            firsts = book.chain(fst_c, cong(book, sz, left), fst_k)
        else:
            firsts = book.chain(fst_c, cong(book, sz, right), back(book, sz, fst(z)))
        # types of the second halves
        book.node("ty.cong", sz.ctx, ID, sz.ctx, Bt, ("fst", K), ("fst", C), Bx)
        # under a name
        up1 = judge.shift_by(1)

        def lifted(equation):
            return book.node("tmeq.sub", sj.ctx, up1, sz.ctx, *equation[2:])

        lc = lifted(snd_c)
        pathty = lc[-1]
        a1 = book.node("papp.cong", sj.ctx, lc[2], lc[3], ("var", 0), *pathty[1:])
        body = sj.of(bind(lambda i: papp(snd(z), least(i, end))), 1)
        a2 = book.beta(sj.ctx, body, ("var", 0))
        a3 = book.end(sj.ctx, ("papp", upj, ("var", 0)), sj.of(least(j, end)),
                      I0 if end == I0 else ("var", 0))
        if end == I0:
            lk = lifted(snd_k)
            b1 = book.node("papp.cong", sj.ctx, lk[2], lk[3], ("var", 0), *lk[-1][1:])
            b2 = book.beta(sj.ctx, sj.of(bind(lambda _: y), 1), ("var", 0))
            book.chain(a1, a2, a3, book.start(sj.ctx, cj), b2, b1)
        else:
            book.chain(a1, a2, a3)
        ty = sz.of(pathp(lambda _: B, y, app(f, fst(con))))
        book.node("tm.conv", sz.ctx, ("snd", K), sz.of(pathp(lambda _: B, y, app(f, fst(other)))), ty)
        book.node("path.eta", sz.ctx, ("snd", C), ("snd", K), *ty[1:])
        book.node("sig.eta", sz.ctx, C, K, Bt, Bx)
    tree, of = s.of(whole), s.of(kan.equiv(B, B))
    book.derived(("Tm", s.ctx, tree, of))
    if DEFINED:
        of = s.of(equiv_type(B, B))
        book.derived(("Tm", s.ctx, tree, of))
    if not s.ctx:
        book.known[tree] = of
    return tree, of


def swap_twice(book, s, u):
    """app swap (app swap u) = u"""
    ctx, u = s.ctx, s.of(u)
    w = s.of(SWAP)
    ty = s.of(P)
    su = ("app", w, u)
    pu = ("pair", ("snd", u), ("fst", u))
    ps = ("pair", ("snd", su), ("fst", su))
    a1 = book.node("pi.beta", ctx, ty, w[2], su, ty)
    a2 = book.node("pi.beta", ctx, ty, w[2], u, ty)
    f1 = book.chain(book.node("fst.cong", ctx, su, pu, NAT, NAT),
                    book.node("sig.beta1", ctx, pu[1], pu[2], NAT, NAT))
    f2 = book.chain(book.node("snd.cong", ctx, su, pu, NAT, NAT),
                    book.node("sig.beta2", ctx, pu[1], pu[2], NAT, NAT))
    g1 = book.chain(book.node("sig.beta1", ctx, ps[1], ps[2], NAT, NAT), f2)
    g2 = book.chain(book.node("sig.beta2", ctx, ps[1], ps[2], NAT, NAT), f1)
    e = book.node("sig.eta", ctx, ps, u, NAT, NAT)
    return book.joined(a1, e)


def swap_cong(book, s, equation):
    w, ty = s.of(SWAP), s.of(P)
    return book.node("app.cong", s.ctx, w, w, *equation[2:4], ty, ty)


def swap_equiv(book, s):
    return derive_equivalence(book, s, P, SWAP, lambda u: app(SWAP, u), swap_twice, swap_twice,
                              swap_cong)


def id_equiv(book, s):
    """In a scope with A : U."""
    A = N("A")
    f = lam(A, lambda x: x)

    def law(book, s, u):
        t = s.of(A)
        return book.node("pi.beta", s.ctx, t, ("var", 0), s.of(u), judge.apply(t, judge.shift_by(1)))
    return derive_equivalence(book, s, A, f, lambda u: u, law, law, lambda b, s, e: e)


def the_id_equiv():
    return lam(U, lambda A: equivalence(A, lam(A, lambda x: x), lambda u: u, None))


def derive_id_equiv(book, s=Scope()):
    sa = s.var("A", U)
    id_equiv(book, sa)
    claim = book.at(s, "lam", U, s.of(the_id_equiv())[2], bind(lambda A: equiv_type(A, A)))
    book.known[claim[2]] = claim[3]
    return claim


def glue_line(A, B, e):
    """i. Glue B [(i=0) -> (A, e), (i=1) -> (B, idEquiv B)]"""
    def at(i):
        sides = [(eq0(i), A), (eq1(i), B)]
        maps = [(eq0(i), e), (eq1(i), app(the_id_equiv(), B))]
        return ("Glue", B, kan.cover(sides), kan.body(sides), kan.body(maps))
    return at


def the_ua():
    return lam(U, lambda A: lam(U, lambda B: lam(equiv_type(A, B),
                                                 lambda e: plam(glue_line(A, B, e)))))


def derive_glue_line(book, s, A, B, e):
    """The typing of `glue_line` in U, over a name i past a scope; its parts, and what derives its sides.

    The identity equivalence is derived before."""
    si = s.name("i")
    i = N("i")
    _, _, q, T, w = glue_line(A, B, e)(i)
    sq = si.face(q)
    p0, q0 = T[1], T[2]           # (i=0), join (i=1) f0
    inner_T, inner_w = T[4], w[4]
    p1, q1 = inner_T[1], inner_T[2]
    # T : U
    s0, sr = sq.face(p0), sq.face(q0)
    s1, sf = sr.face(p1), sr.face(q1)
    so = s1.face(q1)
    book.at(so, "tmeq.absurd", B, EMPTY, U)
    book.at(sr, "sys.tm", p1, q1, B, EMPTY, U)
    s0r = s0.face(q0)
    book.node("tm.sub", s0r.ctx, ID, s0r.ctx[:-2] + s0r.ctx[-1:], s0r.of(inner_T), U) if False else None
    wk(book, s0r, sr, inner_T, U)
    book.at(s0r, "tmeq.absurd", A, inner_T, U)
    book.at(sq, "sys.tm", p0, q0, A, inner_T, U)
    # w : equiv T B
    left = book.at(sq, "sys.left", p0, q0, A, inner_T, U)
    right = book.at(sq, "sys.right", p0, q0, A, inner_T, U)
    equiv = kan.equiv(T, B)
    over = bind(lambda X: kan.equiv(X, B))

    def turned(s, equation):
        """equiv X B = equiv T B in s, of T = X : U"""
        X = equation[3]
        return book.node("ty.cong", s.ctx, ID, s.ctx, U, X, equation[2], s.of(over, 1))
    turned(s0, left)
    book.at(s0, "tm.conv", e, kan.equiv(A, B), equiv)
    inner = book.node("tmeq.sub", s1.ctx, ID, sr.ctx, *right[2:])
    inner = book.joined(inner, book.at(sr, "sys.left", p1, q1, B, EMPTY, U))
    turned(s1, inner)
    book.at(s1, "tm.conv", app(the_id_equiv(), B), kan.equiv(B, B), equiv)
    wk(book, so, s1, app(the_id_equiv(), B), equiv)
    book.at(so, "tmeq.absurd", app(the_id_equiv(), B), EMPTY, equiv)
    book.at(sr, "sys.tm", p1, q1, app(the_id_equiv(), B), EMPTY, equiv)
    wk(book, s0r, sr, inner_w, equiv)
    wk(book, s0r, s0, e, equiv)
    book.at(s0r, "tmeq.absurd", e, inner_w, equiv)
    book.at(sq, "sys.tm", p0, q0, e, inner_w, equiv)
    typed = book.at(si, "glue.u", B, q, T, w)
    return typed, (s0, s1, sq), (left, inner), equiv


def derive_ua(book):
    derive_id_equiv(book)
    s = Scope().var("A", U).var("B", U).var("e", equiv_type(N("A"), N("B")))
    A, B, e = N("A"), N("B"), N("e")
    typed, (s0, s1, sq), (left, inner), equiv = derive_glue_line(book, s, A, B, e)
    _, _, _, T, w = glue_line(A, B, e)(N("i"))
    # the ends
    g = typed[2]
    for end, side in ((I0, A), (I1, B)):
        at = lambda tree: judge.MADE["at"](tree, end)
        parts = [at(kid) for kid in g[1:]]
        book.node("sub.form", s.ctx, ID, s.ctx, end)
        to = judge.push(ID, end)
        # T, w at the end, in the face
        face = s.ctx + (("face", parts[1]),)
        for tree, of in ((T, U), (w, equiv)):
            book.node("tm.sub", face, to, sq.ctx, sq.of(tree), sq.of(of))
        x = book.node("glue.uface", s.ctx, *parts)
        x = book.node("tmeq.sub", s.ctx, ID, face, *x[2:])
        # T at the end is the side
        if end == I0:
            y = book.node("tmeq.sub", s.ctx, to, s0.ctx, *left[2:])
        else:
            y = book.node("tmeq.sub", s.ctx, to, s1.ctx, *inner[2:])
        book.joined(x, y)
    book.at(s, "plam", bind(lambda _: U), g, A, B) if False else None
    book.node("plam", s.ctx, U, g, s.of(A), s.of(B))
    tree = Scope().of(the_ua())
    of = Scope().of(pi(U, lambda A: pi(U, lambda B: pi(equiv_type(A, B),
                                                       lambda e: pathp(lambda _: U, A, B)))))
    claim = ("Tm", (), tree, of)
    book.derived(claim)
    book.known[tree] = of
    return claim


def wk(book, target, source, tree, of):
    """A term of one scope in another, which has more faces."""
    sub = faces_between(book, target.ctx, source.ctx)
    return book.node("tm.sub", target.ctx, sub, source.ctx, source.of(tree), source.of(of))


def faces_between(book, target, source):
    """id : target to source, where the faces of source hold in target."""
    if ("Sb", target, ID, source) in book.nodes:
        return ID
    if target[:len(source)] == source:
        return ID
    # source = base + faces; get to the common part, then each face
    n = 0
    while n < min(len(source), len(target)) and source[n] == target[n]:
        n += 1
    for m in range(n, len(source)):
        book.node("sub.face", target, ID, source[:m], source[m][1])
    return ID


# Named tests.


def pairs(book):
    s = Scope()
    book.root(book.transport(s, lambda i: P, pair(ZERO, suc(ZERO)), P))


def functions(book):
    s = Scope()
    f = lam(NAT, lambda x: suc(x))
    c = book.transport(s, lambda i: pi(NAT, lambda _: NAT), f)
    book.root(book.node("app", (), c[2], suc(ZERO), NAT, NAT))


def paths(book):
    s = Scope()
    one = suc(ZERO)
    c = plam(lambda i: one)
    claim = book.node("plam", (), NAT, one, one, one)
    for r in (I0, I1):
        book.root(book.node("papp", (), s.of(c), r, NAT, one, one))
    g = Scope().var("p", pathp(lambda _: NAT, ZERO, one)).name("i")
    for r in (I0, I1, N("i"), least(N("i"), I0), ("neg", least(N("i"), I0))):
        book.root(book.node("papp", g.ctx, g.of(N("p")), g.of(r), NAT, ZERO, one))


def swap(book):
    tree, of = swap_equiv(book, Scope())
    book.root(("Tm", (), tree, of))
    y = pair(ZERO, suc(ZERO))
    w = Scope().of(app(fst(equivalence(P, SWAP, lambda u: app(SWAP, u), None)), y))
    book.derived(("Tm", (), Scope().of(y), Scope().of(P)))
    book.root(("Tm", (), w, Scope().of(P)))


def identity(book):
    book.root(derive_id_equiv(book))


def ua_applied(book):
    s = Scope()
    ua = derive_ua(book)
    swap_equiv(book, s)
    e = equivalence(P, SWAP, lambda u: app(SWAP, u), None)
    tree = s.of(app(app(app(the_ua(), P), P), e))
    of = s.of(pathp(lambda _: U, P, P))
    book.derived(("Tm", (), tree, of))
    return tree, of


def ends(book):
    tree, of = ua_applied(book)
    for r in (I0, I1):
        book.root(book.node("papp", (), tree, r, *of[1:]))
    x = book.node("papp", (("name",),), judge.apply(tree, judge.shift_by(1)), ("var", 0), U,
                  judge.apply(of[2], judge.shift_by(1)), judge.apply(of[3], judge.shift_by(1)))
    book.root(x)


def out(book):
    s = Scope()
    tree, of = ua_applied(book)
    book.node("path.left", (), tree, *of[1:])
    a = s.of(pair(ZERO, suc(ZERO)))
    book.derived(("Tm", (), a, s.of(P)))
    book.root(book.transport(s, lambda i: papp(tree, i), a, P))


def universe(book):
    """transport (<_> U) nat"""
    s = Scope()
    book.root(book.transport(s, lambda i: U, NAT))
    T = s.of(("comp", U, F0, EMPTY, NAT))
    t = Scope().var("x", T)
    book.derived(("Ctx", t.ctx, ))
    for c in (t.ctx, t.ctx + (("name",),), t.ctx + (("face", F0),), t.ctx + (("face", F0), ("name",))):
        book.node("tmeq.absurd", c + (("face", F0),), NAT, EMPTY, U)
    book.root(book.transport(t, lambda i: T, N("x")))

def path_line(book):
    """transport along a constant line of paths, at a formula and at the ends"""
    one = suc(ZERO)
    s = Scope().var("p", pathp(lambda _: NAT, ZERO, one)).name("i")
    line = lambda _: pathp(lambda _: NAT, ZERO, one)
    c = book.transport(s, line, N("p"))
    for r in (I0, I1, N("i")):
        book.root(book.node("papp", s.ctx, c[2], s.of(r), NAT, ZERO, one))


def neutral_line(book):
    """transport along a variable line, and along functions between variable types"""
    s = Scope().var("A", U).var("a", N("A"))
    c = book.transport(s, lambda _: N("A"), N("a"))
    book.root(c)
    f = lam(N("A"), lambda x: x)
    d = book.transport(s, lambda _: pi(N("A"), lambda _: N("A")), f)
    A = s.of(N("A"))
    book.root(book.node("app", s.ctx, d[2], s.of(N("a")), A, judge.apply(A, judge.shift_by(1))))


def side(book):
    """A composition of numbers with a side, where its face is true, and where it is free"""
    one = suc(ZERO)
    for r in (I0, I1):
        face = eq0(r)
        book.derived(("Ctx", (("face", face),)))
        book.root(book.node("comp", (), NAT, face, one, one))
    s = Scope().name("i")
    book.root(book.node("comp", s.ctx, NAT, s.of(eq0(N("i"))), one, one))
    book.root(book.node("comp", s.ctx, NAT, s.of(join(eq0(N("i")), eq1(N("i")))), one, one))


def glued(book):
    """glue and unglue, at a free name, and where the face is true"""
    tree, of = swap_equiv(book, Scope())
    s = Scope().var("x", P)
    e = equivalence(P, SWAP, lambda u: app(SWAP, u), None)
    for name in ((), ("i",)):
        t = s.name(*name)
        for r in ((N("i"),) if name else (I0, I1)):
            p = eq0(r)
            inner = t.face(p)
            x = N("x")
            # swap x, and fst e x = swap x on the face
            w = inner.of(SWAP)
            second = inner.of(e)[2]
            ty = inner.of(P)
            B = inner.of(bind(lambda f: kan.is_equiv(P, P, f)), 1)
            pp = inner.of(pi(P, lambda _: P))
            book.type_of(inner.ctx, inner.of(e))
            book.derived(("Tm", inner.ctx, w, pp))
            whole_second = judge.MADE["at"](B, w)
            base = book.node("tm.sub", inner.ctx, judge.shift_by(sum(y[0] != "face" for y in inner.ctx)), (),
                             tree[2], judge.MADE["at"](Scope().of(bind(lambda f: kan.is_equiv(P, P, f)), 1), tree[1]))
            b1 = book.node("sig.beta1", inner.ctx, w, second, pp, B)
            xt = inner.of(x)
            book.node("tmeq.refl", inner.ctx, xt, ty)
            c1 = book.node("app.cong", inner.ctx, b1[2], w, xt, xt, ty, ty)
            base = app(SWAP, x)
            g = book.at(t, "glue", P, p, P, e, x, base)
            book.root(g)
            book.root(book.at(t, "unglue", P, p, P, e, ("glue", p, x, base)))


def again(book, times=4):
    """out, moved so many times"""
    s = Scope()
    tree, of = ua_applied(book)
    left = book.node("path.left", (), tree, *of[1:])
    right = book.node("path.right", (), tree, *of[1:])
    a = s.of(pair(ZERO, suc(ZERO)))
    book.derived(("Tm", (), a, s.of(P)))
    for _ in range(times):
        c = book.transport(s, lambda i: papp(tree, i), a, P)
        book.root(c)
        book.node("tyeq.u", (), right[2], s.of(P))
        book.node("tm.conv", (), c[2], c[3], s.of(P))
        a = c[2]


def composed(book):
    """transport along the composite of ua with itself"""
    s = Scope()
    tree, of = ua_applied(book)
    g = s.name("i")
    i = N("i")

    def line(j):
        return kan.body([(eq0(i), P), (eq1(i), papp(tree, j))])
    p = kan.cover([(eq0(i), 0), (eq1(i), 0)])
    _, p0, q0 = p
    _, p1, q1 = q0
    C = kan.comp(lambda j: U, p, line, papp(tree, i))
    gp = g.face(p)
    gpj = gp.name("j")
    j = N("j")
    b = line(j)
    inner = b[4]
    s0, sr = gpj.face(p0), gpj.face(q0)
    s1 = sr.face(p1)
    so = s1.face(q1)
    book.at(so, "tmeq.absurd", papp(tree, j), EMPTY, U)
    book.at(sr, "sys.tm", p1, q1, papp(tree, j), EMPTY, U)
    s0r = s0.face(q0)
    wk(book, s0r, sr, inner, U)
    book.at(s0r, "tmeq.absurd", P, inner, U)
    book.at(gpj, "sys.tm", p0, q0, P, inner, U)
    left = book.at(gpj, "sys.left", p0, q0, P, inner, U)
    right = book.at(gpj, "sys.right", p0, q0, P, inner, U)
    within = book.at(sr, "sys.left", p1, q1, papp(tree, j), EMPTY, U)
    # the start
    a = gp.of(papp(tree, i))
    to0 = judge.push(ID, I0)
    first, second = gp.face(p0), gp.face(q0)
    third = second.face(p1)
    c = first.of(tree)
    e = book.end(first.ctx, ("papp", c, ("var", 0)), first.of(i), I0)
    e = book.joined(e, book.start(first.ctx, c))
    l = book.node("tmeq.sub", first.ctx, to0, s0.ctx, *left[2:])
    book.joined(e, l)
    e = book.end(second.ctx, ("papp", c, ("var", 0)), second.of(i), I1)
    e = book.joined(e, book.node("path.right", second.ctx, c, *of[1:]))
    r = book.node("tmeq.sub", second.ctx, to0, sr.ctx, *right[2:])
    w = book.node("tmeq.sub", second.ctx, to0, s1.ctx, *within[2:])
    r = book.chain(r, w, book.start(second.ctx, c))
    book.joined(e, r)
    start = judge.apply(gpj.of(b), to0)
    book.node("tm.sub", gp.ctx, to0, gpj.ctx, gpj.of(b), U)
    book.node("tmeq.cover", gp.ctx, gp.of(p0), gp.of(q0), a, start, U)
    comp = g.of(C)
    book.node("comp", g.ctx, *comp[1:])
    face = book.node("comp.face", g.ctx, *comp[1:])
    face = book.node("tmeq.sub", (), to0, gp.ctx, *face[2:])
    to01 = judge.push(to0, I1)
    l = book.node("tmeq.sub", (), to01, s0.ctx, *left[2:])
    book.joined(face, l)
    x = s.of(pair(ZERO, suc(ZERO)))
    book.derived(("Tm", (), x, s.of(P)))
    start = judge.apply(comp, to0)
    book.node("tyeq.u", (), start, s.of(P))
    book.node("tm.conv", (), x, s.of(P), start)
    inner = (("face", F0),)
    book.node("tm.sub", inner, ID, (), x, start)
    book.moved_line((), comp)
    book.node("tmeq.absurd", inner, x, EMPTY, start)
    book.root(book.node("comp", (), comp, F0, EMPTY, x))


def backwards(book):
    """transport along ua, from its end to its start"""
    s = Scope()
    tree, of = ua_applied(book)
    right = book.node("path.right", (), tree, *of[1:])
    turned = book.end((), ("papp", tree, ("var", 0)), ("neg", I0), I1)
    book.joined(turned, right)
    book.node("tyeq.u", (), ("papp", tree, ("neg", I0)), s.of(P))
    a = s.of(pair(ZERO, suc(ZERO)))
    book.derived(("Tm", (), a, s.of(P)))
    book.root(book.transport(s, lambda i: papp(tree, ("neg", i)), a, P))


def ua_functions(book):
    """transport along i. ua i -> nat of the first half, at a pair"""
    s = Scope()
    tree, of = ua_applied(book)
    left = book.node("path.left", (), tree, *of[1:])
    right = book.node("path.right", (), tree, *of[1:])
    f = s.of(lam(P, lambda x: fst(x)))
    book.derived(("Tm", (), f, s.of(pi(P, lambda _: NAT))))
    Pt = s.of(P)
    book.node("tyeq.u", (), left[2], Pt)
    book.node("pi.tycong", (), left[2], Pt, NAT, NAT)
    c = book.transport(s, lambda i: pi(papp(tree, i), lambda _: NAT), f, pi(P, lambda _: NAT))
    a = s.of(pair(ZERO, suc(ZERO)))
    book.derived(("Tm", (), a, Pt))
    book.node("tyeq.u", (), right[2], Pt)
    book.node("tm.conv", (), a, Pt, right[2])
    book.root(book.node("app", (), c[2], a, right[2], NAT))


def ua_pairs(book):
    """transport along i. ua i * nat"""
    s = Scope()
    tree, of = ua_applied(book)
    left = book.node("path.left", (), tree, *of[1:])
    Pt = s.of(P)
    book.node("tyeq.u", (), left[2], Pt)
    book.node("sig.tycong", (), left[2], Pt, NAT, NAT)
    x = pair(pair(ZERO, suc(ZERO)), suc(suc(ZERO)))
    of0 = sig(P, lambda _: NAT)
    book.derived(("Tm", (), s.of(x), s.of(of0)))
    book.root(book.transport(s, lambda i: sig(papp(tree, i), lambda _: NAT), x, of0))


def module_out(book):
    """out, with the definitions of the module"""
    global DEFINED
    DEFINED = True
    book.define()
    out(book)


def module_composed(book):
    """composed, with the definitions of the module"""
    global DEFINED
    DEFINED = True
    book.define()
    composed(book)


TESTS = {t.__name__: t for t in (pairs, functions, paths, swap, identity, ends, out, universe, path_line,
                                  neutral_line, side, glued, again, composed,
                                  module_out, backwards,
                                  ua_functions, ua_pairs, module_composed)}


if __name__ == "__main__":
    book = Book()
    TESTS[sys.argv[1]](book)
    sys.stdout.write(book.lines())
