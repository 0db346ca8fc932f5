"""The trees of the Kan operations as the literature writes them: with names, not indices.

`judge.py` has them from here, and the program from `rules/specs/Table.antt`, where indices are
shifted by hand. A line `i.A` is a function from a name to a tree.
"""
import itertools

from rule_notation import BINDS

FRESH = itertools.count()


# Names are ("name", n) until they are bound. No shift moves them.


def bind(line):
    """The tree of a line, its name an index."""
    name = ("name", next(FRESH))
    return closed(line(name), name, 0)


def closed(tree, name, depth):
    """The tree with an index at that depth for the name."""
    if tree == name:
        return ("var", depth)
    return over_indices(tree, depth, lambda k, at: ("var", k + (k >= at)),
                        lambda kid, at: closed(kid, name, at))


def over_indices(tree, depth, index, kid):
    """The tree with `index` of each index, and `kid` of each kid, at their depths."""
    if tree[0] == "var":
        return index(tree[1], depth)
    if tree[0] == "name":
        return tree
    return (tree[0], *(kid(one, depth + binds) for one, binds in zip(tree[1:], BINDS[tree[0]])))


def raised(tree, by, depth=0):
    return over_indices(tree, depth, lambda k, at: ("var", k + by if k >= at else k),
                        lambda kid, at: raised(kid, by, at))


def put(tree, given, depth=0):
    """The tree with `given` in place of index 0."""
    def index(k, at):
        if k == at:
            return raised(given, at)
        return ("var", k - (k > at))
    return over_indices(tree, depth, index, lambda kid, at: put(kid, given, at))


# Operators.


def op(word):
    return lambda *trees: (word, *trees)


app, pair, fst, snd, papp, glue, unglue = map(
    op, ("app", "pair", "fst", "snd", "papp", "glue", "unglue"))
neg, least, eq0, eq1, join = map(op, ("neg", "min", "eq0", "eq1", "join"))
I0, I1, F0, EMPTY = ("i0",), ("i1",), ("f0",), ("empty",)


def sig(a, b):
    return ("sig", a, bind(b))


def pi(a, b):
    return ("pi", a, bind(b))


def lam(a, b):
    return ("lam", a, bind(b))


def pathp(line, u, v):
    return ("pathp", bind(line), u, v)


def plam(line):
    return ("plam", bind(line))


def cover(sides):
    return join(sides[0][0], cover(sides[1:])) if sides else F0


def body(sides):
    if not sides:
        return EMPTY
    (face, tree), *others = sides
    return ("sys", face, cover(others), tree, body(others))


def comp(line, face, tube, base):
    """`comp(i.A, p, i.b, a)`"""
    return ("comp", bind(line), face, bind(tube), base)


def comp_of(line, sides, base):
    """`comp(i.A, [p -> t, ..], a)`, each t a line"""
    return comp(line, cover([(p, None) for p, _ in sides]),
                lambda i: body([(p, t(i)) for p, t in sides]), base)


# Filling, equivalences.


def fill(A, p, b, a, r):
    return comp_of(lambda j: A(least(r, j)),
                   [(p, lambda j: b(least(r, j))), (eq0(r), lambda j: a)], a)


def fill_of(A, sides, a, r):
    return fill(A, cover([(p, None) for p, _ in sides]),
                lambda i: body([(p, t(i)) for p, t in sides]), a, r)


def nothing(_):
    return EMPTY


def back(A, y, r):
    return fill(lambda i: A(neg(i)), F0, nothing, y, neg(r))


def is_contr(A):
    return sig(A, lambda x: pi(A, lambda y: pathp(lambda _: A, x, y)))


def fiber(T, A, f, y):
    return sig(T, lambda x: pathp(lambda _: A, y, app(f, x)))


def is_equiv(T, A, f):
    return pi(A, lambda y: is_contr(fiber(T, A, f, y)))


def equiv(T, A):
    return sig(pi(T, lambda _: A), lambda f: is_equiv(T, A, f))


def contr(A, c, p, b):
    return comp(lambda i: A, p, lambda i: papp(app(snd(c), b), i), fst(c))


def ext(T, A, w, p, z, a):
    return contr(fiber(T, A, fst(w), a), app(snd(w), a), p, z)


def pres(T, A, f, p, t, t0):
    return plam(lambda j: comp(A, join(p, eq1(j)),
                               lambda i: app(f(i), fill(T, p, t, t0, i)), app(f(I0), t0)))


# The right sides of composition. Lines are A, B (of functions of the element), b, u, v, q, T, w.


def comp_pi(A, B, p, b, a):
    def value(y):
        def v(i):
            return back(A, y, i)
        return comp(lambda i: B(i)(v(i)), p, lambda i: app(b(i), v(i)), app(a, v(I0)))
    return lam(A(I1), value)


def comp_sig(A, B, p, b, a):
    def x(i):
        return fill(A, p, lambda j: fst(b(j)), fst(a), i)
    return pair(comp(A, p, lambda i: fst(b(i)), fst(a)),
                comp(lambda i: B(i)(x(i)), p, lambda i: snd(b(i)), snd(a)))


def comp_path(A, u, v, p, b, a):
    return plam(lambda j: comp_of(
        lambda i: A(i)(j),
        [(p, lambda i: papp(b(i), j)), (eq0(j), u), (eq1(j), v)], papp(a, j)))


def comp_glue(A, q, T, w, p, b, a):
    def g(i):
        return unglue(q(i), T(i), w(i), b(i))
    g0 = unglue(q(I0), T(I0), w(I0), a)
    k = comp(A, p, g, g0)
    t = comp(T, p, b, a)
    o = pres(T, A, lambda i: fst(w(i)), p, b, a)
    sides = [(("all", bind(q)), pair(t, o)), (p, pair(b(I1), plam(lambda _: k)))]
    E = ext(T(I1), A(I1), w(I1), cover(sides), body(sides), k)
    h = comp_of(lambda j: A(I1), [(q(I1), lambda j: papp(snd(E), j)), (p, lambda j: g(I1))], k)
    return glue(q(I1), fst(E), h)


def eqv(E):
    def u(x, r):
        return fill(E, F0, nothing, x, r)

    def v(y, r):
        return back(E, y, r)

    def g(y):
        return v(y, I0)

    def m(y, j, r):
        return fill_of(E, [(eq0(j), lambda i: v(y, i)), (eq1(j), lambda i: u(g(y), i))], g(y), r)

    def n(y, x, c, j, r):
        return fill_of(lambda i: E(neg(i)),
                       [(eq0(j), lambda i: v(y, neg(i))), (eq1(j), lambda i: u(x, neg(i)))],
                       papp(c, j), neg(r))

    def o(y, z, k):
        return n(y, fst(z), snd(z), k, I0)

    def contraction(y, z, k):
        def square(j):
            return comp_of(E, [(eq0(k), lambda i: m(y, j, i)),
                               (eq1(k), lambda i: n(y, fst(z), snd(z), j, i)),
                               (eq0(j), lambda i: v(y, i)),
                               (eq1(j), lambda i: u(o(y, z, k), i))], o(y, z, least(j, k)))
        return pair(o(y, z, k), plam(square))

    f = lam(E(I0), lambda x: comp(E, F0, nothing, x))

    def fibers(y):
        centre = pair(g(y), plam(lambda j: m(y, j, I1)))
        return pair(centre, lam(fiber(E(I0), E(I1), f, y),
                                lambda z: plam(lambda k: contraction(y, z, k))))
    return pair(f, lam(E(I1), fibers))


def comp_u(p, b, a):
    return ("Glue", a, p, b(I1), eqv(lambda i: b(neg(i))))


# By the words of `rules.txt`, of trees over indices: how many indices each is over that is a line.

LINES = {
    "equiv": (equiv, "00"), "comp_pi": (comp_pi, "12010"), "comp_sig": (comp_sig, "12010"),
    "comp_path": (comp_path, "211010"), "comp_glue": (comp_glue, "1111010"),
    "comp_u": (comp_u, "010"),
}


def made(word, trees):
    """The tree of that word, of trees over indices."""
    make, overs = LINES[word]
    return make(*(line_of(tree, int(over)) for tree, over in zip(trees, overs)))


def line_of(tree, over):
    """A tree over no, one or two indices as a tree, a line, or a line of functions."""
    if over == 0:
        return tree
    if over == 1:
        return lambda i: put(tree, i)
    return lambda i: lambda x: put(put(tree, raised(x, 1)), i)
