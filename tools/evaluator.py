#!/usr/bin/env python3
"""An evaluator of cubical type theory, with names, closures and environments.

    python3 tools/evaluator.py MODULE NAME

prints the normal form of the body of NAME in `MODULE.ctt` of this folder, as `ctt normal` shows it.
It checks nothing, and shares nothing with the program: what is expected of it comes from outside.

A value is a tuple of a word and its parts, as a tree, but that what stands under a binder is a
function (`Under`). A face is a set of conjunctions, a formula a set of products; both are of atoms,
the levels of names or numbers past `FRESH`. What stands under a face is a list of sides, each of a
face and a value. A part may be put off (`Later`). Words of elimination stand for what is stuck.
"""
import itertools
import pathlib
import sys

from module_text import Parser

FRESH = itertools.count(10 ** 9)
sys.setrecursionlimit(10 ** 6)


# Formulas and faces.


def least(sets):
    """The sets that contain no other."""
    return frozenset(one for one in sets if not any(other < one for other in sets))


class Formula(frozenset):
    """Products of literals, an atom and whether it is negated."""


class Face(frozenset):
    """Conjunctions of equations, an atom and an end."""


ZERO, ONE = Formula(), Formula([frozenset()])
NOWHERE, EVERYWHERE = Face(), Face([frozenset()])


def atom(name):
    return Formula([frozenset([(name, False)])])


def high(r, s):
    return Formula(least(r | s))


def low(r, s):
    return Formula(least(frozenset(one | other for one in r for other in s)))


def negated(r):
    found = ONE
    for product in r:
        found = low(found, Formula(frozenset([(name, not sign)]) for name, sign in product))
    return found


def either(*faces):
    return Face(least(frozenset(conj for face in faces for conj in face)))


def both(p, q):
    return Face(least(frozenset(one | other for one in p for other in q
                                if not any((name, 1 - end) in other for name, end in one))))


def is_one(r):
    """The face on which a formula is 1."""
    return Face(least(frozenset(
        frozenset((name, 0 if sign else 1) for name, sign in product) for product in r
        if not any((name, not sign) in product for name, sign in product))))


def is_zero(r):
    return is_one(negated(r))


# Values that are put off, and what stands under a binder.


class Later:
    def __init__(self, make, *parts):
        self.make, self.parts, self.found = make, parts, None


def now(value):
    while isinstance(value, Later):
        if value.make:
            found = now(value.make(*value.parts))
            value.found, value.make, value.parts = found, None, None
        value = value.found
    return value


class Under:
    """A function of a value or formula, of parts that names are put into."""

    def __init__(self, make, *parts):
        self.make, self.parts = make, parts

    def __call__(self, given):
        return self.make(*self.parts, given)


class Env(dict):
    """What names of the text stand for."""


def put(thing, given):
    """A thing with formulas in the place of atoms."""
    if isinstance(thing, Formula):
        found = ZERO
        for product in thing:
            whole = ONE
            for name, sign in product:
                r = given.get(name)
                one = Formula([frozenset([(name, sign)])]) if r is None else \
                    negated(r) if sign else r
                whole = low(whole, one)
            found = high(found, whole)
        return found
    if isinstance(thing, Face):
        found = NOWHERE
        for conj in thing:
            whole = EVERYWHERE
            for name, end in conj:
                r = given.get(name)
                one = Face([frozenset([(name, end)])]) if r is None else \
                    is_one(r) if end else is_zero(r)
                whole = both(whole, one)
            found = either(found, whole)
        return found
    if isinstance(thing, Under):
        return Under(thing.make, *[put(part, given) for part in thing.parts])
    if isinstance(thing, (Later, tuple)):
        return Later(put_now, thing, given)
    if isinstance(thing, list):
        return [tuple(put(part, given) for part in side) for side in thing]
    if isinstance(thing, Env):
        return Env((name, put(value, given)) for name, value in thing.items())
    return thing


def put_now(value, given):
    word, *parts = now(value)
    parts = [put(part, given) for part in parts]
    return STUCK[word](*parts) if word in STUCK else (word, *parts)


def abstracted(name, thing):
    """A thing as a function of a name in it."""
    return Under(lambda thing, r: put(thing, {name: r}), thing)


def constant(thing):
    return Under(lambda thing, _: thing, thing)


def whole(sides):
    """The side that holds everywhere, if any."""
    return next((side for side in sides if side[0] == EVERYWHERE), None)


def sides_of(sides):
    return [side for side in sides if side[0]]


# What computes, or is stuck.


def app(f, a):
    found = now(f)
    return now(found[2](a)) if found[0] == "lam" else ("app", f, a)


def fst(c):
    found = now(c)
    return now(found[1]) if found[0] == "pair" else ("fst", c)


def snd(c):
    found = now(c)
    return now(found[2]) if found[0] == "pair" else ("snd", c)


def papp(c, r):
    found = now(c)
    if found[0] == "plam":
        return now(found[1](r))
    if r in (ZERO, ONE):
        _, line, left, right = now(type_of(found))
        return now(left if r == ZERO else right)
    return ("papp", c, r)


def natrec(P, a, b, n):
    found = now(n)
    if found[0] == "zero":
        return now(a)
    if found[0] == "suc":
        return app(Later(app, b, found[1]), Later(natrec, P, a, b, found[1]))
    return ("natrec", P, a, b, n)


def glue_type(A, sides):
    found = whole(sides)
    return now(found[1]) if found else ("Glue", A, sides_of(sides))


def glue(sides, a):
    found = whole(sides)
    return now(found[1]) if found else ("glue", sides_of(sides), a)


def unglue(sides, b):
    side = whole(sides)
    if side:
        return app(Later(fst, side[2]), b)
    found = now(b)
    if found[0] == "glue" and cover(found[1]) == cover(sides):
        return now(found[2])
    return ("unglue", sides_of(sides), b)


def cover(sides):
    """Where a side holds. It tells an element of a glued type from one of the type of a side, if
    that is glued too, before the face of the side is put in."""
    return either(*[side[0] for side in sides])


def type_of(value):
    """The type of what is stuck."""
    word, *parts = now(value)
    if word == "var":
        return parts[1]
    if word == "app":
        return now(type_of(parts[0]))[2](parts[1])
    if word == "fst":
        return now(type_of(parts[0]))[1]
    if word == "snd":
        return now(type_of(parts[0]))[2](Later(fst, parts[0]))
    if word == "papp":
        return now(type_of(parts[0]))[1](parts[1])
    if word == "natrec":
        return parts[0](parts[3])
    if word == "comp":
        return parts[0](ONE)
    if word == "unglue":
        return now(type_of(parts[1]))[1]
    raise ValueError(word)


# Composition. A line is a function of a name; each side has a face and a line.


def comp(line, sides, base):
    side = whole(sides)
    if side:
        return now(side[1](ONE))
    sides, name = sides_of(sides), next(FRESH)
    word, *parts = now(line(atom(name)))
    parts = [abstracted(name, part) for part in parts]
    rule = COMPOSED.get(word)
    found = rule(*parts, sides, base) if rule else None
    return ("comp", line, sides, base) if found is None else now(found)


def fill(line, sides, base, r):
    at = [(face, Under(lambda b, r, j: b(low(r, j)), b, r)) for face, b in sides]
    return comp(Under(lambda line, r, j: line(low(r, j)), line, r),
                at + [(is_zero(r), constant(base))], base)


def turned(line):
    return Under(lambda line, i: line(negated(i)), line)


def back(line, y, r):
    return fill(turned(line), [], y, negated(r))


def mapped(make, sides, *more):
    """Sides with what `make` makes of each, and of a name."""
    return [(face, Under(make, b, *more)) for face, b in sides]


def later(make):
    return lambda *parts: Later(make, *parts)


def comp_pi(A, B, sides, base):
    def value(A, B, sides, base, y):
        v = Under(later(back), A, y)
        return comp(Under(lambda B, v, i: B(i)(v(i)), B, v),
                    mapped(lambda b, v, i: Later(app, b(i), v(i)), sides, v),
                    Later(app, base, v(ZERO)))
    return ("lam", A(ONE), Under(later(value), A, B, sides, base))


def comp_sig(A, B, sides, base):
    firsts = mapped(lambda b, i: Later(fst, b(i)), sides)
    start = Later(fst, base)
    x = Under(later(fill), A, firsts, start)
    return ("pair", Later(comp, A, firsts, start),
            Later(comp, Under(lambda B, x, i: B(i)(x(i)), B, x),
                  mapped(lambda b, i: Later(snd, b(i)), sides), Later(snd, base)))


def comp_path(A, u, v, sides, base):
    def point(A, u, v, sides, base, j):
        at = mapped(lambda b, j, i: Later(papp, b(i), j), sides, j)
        return comp(Under(lambda A, j, i: A(i)(j), A, j),
                    at + [(is_zero(j), u), (is_one(j), v)], Later(papp, base, j))
    return ("plam", Under(later(point), A, u, v, sides, base))


def comp_nat(sides, base):
    """None where it is stuck."""
    found = now(base)
    if found[0] not in ("zero", "suc"):
        return None
    name = next(FRESH)
    for face, b in sides:
        for conj in face:
            at = {one: ONE if end else ZERO for one, end in conj}
            if now(put(b(atom(name)), at))[0] != found[0]:
                return None
    if found[0] == "zero":
        return found
    pred = mapped(lambda b, i: Later(predecessor, b(i)), sides)
    return ("suc", Later(comp, constant(("nat",)), pred, found[1]))


def predecessor(n):
    """Of what is a successor where it stands."""
    found = now(n)
    return now(found[1]) if found[0] == "suc" else ("predecessor", n)


def fiber(T, A, f, y):
    return ("sig", T, Under(lambda A, f, y, x: ("pathp", constant(A), y, Later(app, f, x)),
                            A, f, y))


def contr(A, c, sides):
    """An element of a contractible type that is known on sides, each of a face and a value."""
    def along(z, c, i):
        return Later(papp, Later(app, Later(snd, c), z), i)
    return comp(constant(A), [(face, Under(along, z, c)) for face, z in sides], Later(fst, c))


def ext(T, A, w, sides, a):
    return contr(Later(fiber, T, A, Later(fst, w), a), Later(app, Later(snd, w), a), sides)


def pres(T, A, f, sides, base):
    def point(T, A, f, sides, base, j):
        face = either(is_one(j), *[face for face, _ in sides])
        v = Under(later(fill), T, sides, base)
        return comp(A, [(face, Under(lambda f, v, i: Later(app, f(i), v(i)), f, v))],
                    Later(app, f(ZERO), base))
    return ("plam", Under(later(point), T, A, f, sides, base))


def comp_glue(A, glued, sides, base):
    """`glued` is a function from a name to the sides of the type, whose face, type and equivalence
    stand under it."""
    name = next(FRESH)
    inside = glued(atom(name))
    g = mapped(lambda b, glued, i: Later(unglue, glued(i), b(i)), sides, glued)
    k = Later(comp, A, g, Later(unglue, glued(ZERO), base))
    known = []
    for face, T, w in inside:
        always = Face(conj for conj in face if not any(one == name for one, _ in conj))
        T, f = abstracted(name, T), abstracted(name, Later(fst, w))
        known.append((always, ("pair", Later(comp, T, sides, base),
                               Later(pres, T, A, f, sides, base))))
    known += [(face, ("pair", b(ONE), ("plam", constant(k)))) for face, b in sides]
    found = [(face, Later(ext, T, A(ONE), w, sides_of(known), k)) for face, T, w in glued(ONE)]
    paths = [(face, Under(lambda E, j: Later(papp, Later(snd, E), j), E)) for face, E in found]
    last = comp(constant(A(ONE)), paths + [(face, constant(b(ONE))) for face, b in g], k)
    return glue([(face, Later(fst, E)) for face, E in found], last)


def comp_universe(sides, base):
    return glue_type(base, [(face, b(ONE), Later(equivalence, turned(b))) for face, b in sides])


def equivalence(E):
    """The equivalence along a line of types."""
    f = ("lam", E(ZERO), Under(lambda E, x: Later(comp, E, [], x), E))

    def element(E, f, y):
        centre = ("pair", Later(back, E, y, ZERO),
                  ("plam", Under(lambda E, y, j: square(E, y, j, ONE), E, y)))
        fibers = Later(fiber, E(ZERO), E(ONE), f, y)
        joined = Under(lambda E, y, z: ("plam", Under(contraction, E, y, z)), E, y)
        return ("pair", centre, ("lam", fibers, joined))
    return ("pair", f, ("lam", E(ONE), Under(element, E, f)))


def forwards(E, x, r):
    return Later(fill, E, [], x, r)


def backwards(E, y, r):
    return Later(back, E, y, r)


def square(E, y, j, r):
    g = backwards(E, y, ZERO)
    ends = [(is_zero(j), Under(backwards, E, y)), (is_one(j), Under(forwards, E, g))]
    return Later(fill, E, ends, g, r)


def other_square(E, y, x, c, j, r):
    ends = [(is_zero(j), turned(Under(backwards, E, y))),
            (is_one(j), turned(Under(forwards, E, x)))]
    return Later(fill, turned(E), ends, Later(papp, c, j), negated(r))


def contraction(E, y, z, k):
    def joining(k):
        return other_square(E, y, Later(fst, z), Later(snd, z), k, ZERO)

    def point(E, y, z, k, j):
        start = other_square(E, y, Later(fst, z), Later(snd, z), k, ZERO)
        sides = [(is_zero(k), Under(square, E, y, j)),
                 (is_one(k), Under(other_square, E, y, Later(fst, z), Later(snd, z), j)),
                 (is_zero(j), Under(backwards, E, y)),
                 (is_one(j), Under(forwards, E, start))]
        base = other_square(E, y, Later(fst, z), Later(snd, z), low(j, k), ZERO)
        return Later(comp, E, sides, base)
    return ("pair", joining(k), ("plam", Under(point, E, y, z, k)))


FORMS = {"Glue": "glue_type", "U": "universe"}
STUCK = {"app": app, "fst": fst, "snd": snd, "papp": papp, "natrec": natrec, "comp": comp,
         "Glue": glue_type, "glue": glue, "unglue": unglue, "predecessor": predecessor}
COMPOSED = {"pi": comp_pi, "sig": comp_sig, "pathp": comp_path, "nat": comp_nat,
            "Glue": comp_glue, "U": comp_universe}


# Expressions.


def formula(env, written):
    word, *parts = written
    if word in ("0", "1"):
        return ONE if word == "1" else ZERO
    if word == "id":
        return env[parts[0]]
    found = [formula(env, part) for part in parts]
    return negated(*found) if word == "-" else (low if word == "/\\" else high)(*found)


def face(env, equations):
    found = EVERYWHERE
    for name, end in equations:
        found = both(found, is_one(env[name]) if end == "1" else is_zero(env[name]))
    return found


class Program:
    """An evaluator of expressions."""

    def value(self, env, expression):
        return Later(self.evaluated, env, expression)

    def evaluated(self, env, expression):
        word, *parts = expression
        return getattr(self, "of_" + FORMS.get(word, word))(env, *parts)

    def inside(self, env, name, body):
        return Under(lambda env, given: self.value(Env(env | {name: given}), body), env)

    def of_universe(self, env):
        return ("U",)

    def of_id(self, env, name):
        if name in env:
            return now(env[name])
        return ("lam", ("nat",), Under(lambda n: ("suc", n))) if name == "suc" else (name,)

    def of_let(self, env, found, body):
        return self.evaluated(self.defined(env, found), body)

    def of_pi(self, env, teles, body):
        return self.bound(env, teles, body, "pi")

    def of_sigma(self, env, teles, body):
        return self.bound(env, teles, body, "sig")

    def of_lambda(self, env, teles, body):
        return self.bound(env, teles, body, "lam")

    def bound(self, env, teles, body, word):
        found = [(name, kind) for names, kind in teles for name in names]
        return self.bound_from(env, found, body, word)

    def bound_from(self, env, found, body, word):
        (name, kind), *others = found
        domain = self.value(env, kind)

        def entered(env, given):
            inner = Env(env | {name: given})
            if others:
                return Later(self.bound_from, inner, others, body, word)
            return self.value(inner, body)
        return (word, domain, Under(entered, env))

    def of_arrow(self, env, left, right):
        return ("pi", self.value(env, left),
                Under(lambda env, _: self.value(env, right), env))

    def of_names(self, env, names, body):
        first, *others = names
        return ("plam", self.inside(env, first, ("names", others, body) if others else body))

    def of_tuple(self, env, parts):
        first, *others = parts
        rest = ("tuple", others) if len(others) > 1 else others[0]
        return ("pair", self.value(env, first), self.value(env, rest))

    def of_project(self, env, pair, numbers):
        found = self.value(env, pair)
        for number in numbers:
            found = Later(fst if number == 1 else snd, found)
        return now(found)

    def of_pathp(self, env, line, left, right):
        return ("pathp", self.line(env, line), self.value(env, left), self.value(env, right))

    def line(self, env, expression):
        if expression[0] == "names":
            (first, *others), body = expression[1:]
            return self.inside(env, first, ("names", others, body) if others else body)
        return Under(later(papp), self.value(env, expression))

    def tubes(self, env, sides):
        return [(face(env, equations), self.line(env, body)) for equations, body in sides]

    def of_comp(self, env, line, base, sides=()):
        return comp(self.line(env, line), self.tubes(env, sides), self.value(env, base))

    def of_transport(self, env, line, base):
        return self.of_comp(env, line, base)

    def of_fill(self, env, line, base, sides):
        return ("plam", Under(later(fill), self.line(env, line), self.tubes(env, sides),
                              self.value(env, base)))

    def glued(self, env, sides):
        return [(face(env, equations), self.value(env, pair[1][0]), self.value(
            env, ("tuple", pair[1][1:]) if len(pair[1]) > 2 else pair[1][1]))
                for equations, pair in sides]

    def of_glue_type(self, env, kind, sides):
        return glue_type(self.value(env, kind), self.glued(env, sides))

    def of_glue(self, env, base, sides):
        return glue([(face(env, equations), self.value(env, body)) for equations, body in sides],
                    self.value(env, base))

    def of_unglue(self, env, base, sides):
        return unglue(self.glued(env, sides), self.value(env, base))

    def of_apply(self, env, head, elements):
        if head == ("id", "natrec") and "natrec" not in env:
            motive, start, step, number = (body for _, body in elements[:4])
            found = Later(natrec, self.motive(env, motive), self.value(env, start),
                          self.value(env, step), self.value(env, number))
            elements = elements[4:]
        elif head == ("id", "suc") and "suc" not in env:
            found, elements = ("suc", self.value(env, elements[0][1])), elements[1:]
        else:
            found = self.value(env, head)
        for word, body in elements:
            if word == "at":
                found = Later(papp, found, formula(env, body))
            else:
                found = Later(app, found, self.value(env, body))
        return now(found)

    def motive(self, env, expression):
        if expression[0] == "lambda":
            (names, kind), *teles = expression[1]
            if kind == ("id", "nat") and "nat" not in env:
                first, *others = names
                rest = ([(others, kind)] if others else []) + teles
                return self.inside(env, first,
                                   ("lambda", rest, expression[2]) if rest else expression[2])
        return Under(later(app), self.value(env, expression))

    # Definitions.

    def defined(self, env, found):
        for one in found:
            env = Env(env | {one.name: self.definition(env, one)})
        return env

    def definition(self, env, one):
        body = ("let", one.where, one.body) if one.where else one.body
        return self.value(env, ("lambda", one.teles, body) if one.teles else body)

    def loaded(self, folder, name, seen, env):
        """The scope after a module, each import before it."""
        if name not in seen:
            seen.add(name)
            imports, found = Parser((folder / f"{name}.ctt").read_text()).module()
            for other in imports:
                env = self.loaded(folder, other, seen, env)
            env = self.defined(env, found)
        return env


# Normal forms, as they are shown.


def shown(value, depth=0):
    word, *parts = now(value)
    return SHOWN[word](depth, *parts)


def variable(depth, of):
    return ("var", depth, of)


def shown_under(depth, over, of=None):
    return shown(over(atom(depth) if of is None else variable(depth, of)), depth + 1)


def shown_formula(r):
    products = sorted(sorted(product) for product in r)
    texts = [nested([("-" if sign else "") + f"i{name}" for name, sign in product], "/\\", "1")
             for product in products]
    return nested(texts, "\\/", "0")


def nested(texts, mark, none):
    if not texts:
        return none
    first, *others = texts
    return f"({first} {mark} {nested(others, mark, none)})" if others else first


def shown_sides(depth, sides, show):
    """The sides, one for each conjunction of the face."""
    found = []
    for conj in sorted(map(sorted, either(*[side[0] for side in sides]))):
        given = {name: ONE if end else ZERO for name, end in conj}
        at = next(side for side in (put(sides, given)) if side[0] == EVERYWHERE)
        equations = "".join(f"(i{name}={end})" for name, end in conj)
        found.append(f"{equations} -> {show(*at[1:])}".strip())
    return f"[ {', '.join(found)} ]" if found else "[]"


def shown_pairs(depth, sides):
    return shown_sides(depth, sides, lambda T, w: f"({shown(T, depth)},{shown(w, depth)})")


def binding(form):
    return lambda depth, A, B: form.format(f"(x{depth} : {shown(A, depth)})",
                                           shown_under(depth, B, A))


def words(form):
    return lambda depth, *parts: form.format(*[shown(part, depth) for part in parts])


SHOWN = {
    "U": words("U"), "nat": words("nat"), "zero": words("zero"), "suc": words("(suc {})"),
    "pi": binding("({} -> {})"), "lam": binding("(\\{} -> {})"), "sig": binding("({} * {})"),
    "app": words("({} {})"), "pair": words("({},{})"), "fst": words("{}.1"), "snd": words("{}.2"),
    "var": lambda depth, level, of: f"x{level}",
    "pathp": lambda depth, line, u, v: f"(PathP (<i{depth}> {shown_under(depth, line)}) "
                                       f"{shown(u, depth)} {shown(v, depth)})",
    "plam": lambda depth, line: f"(<i{depth}> {shown_under(depth, line)})",
    "papp": lambda depth, c, r: f"({shown(c, depth)} @ {shown_formula(r)})",
    "natrec": lambda depth, P, a, b, n: f"(natrec (\\(x{depth} : nat) -> "
                                        f"{shown_under(depth, P, ('nat',))}) {shown(a, depth)} "
                                        f"{shown(b, depth)} {shown(n, depth)})",
    "comp": lambda depth, line, sides, base: f"(comp (<i{depth}> {shown_under(depth, line)}) "
                                             f"{shown(base, depth)} " + shown_sides(
        depth, sides, lambda b: f"<i{depth}> {shown_under(depth, b)}") + ")",
    "Glue": lambda depth, A, sides: f"(Glue {shown(A, depth)} {shown_pairs(depth, sides)})",
    "unglue": lambda depth, sides, b: f"(unglue {shown(b, depth)} {shown_pairs(depth, sides)})",
    "glue": lambda depth, sides, a: f"(glue {shown(a, depth)} " + shown_sides(
        depth, sides, lambda c: shown(c, depth)) + ")",
}


# Comparison, up to eta of functions, pairs, paths and elements of glued types.


def equal(left, right, depth=0):
    """Whether two values of one type, or two types, are equal."""
    left, right = now(left), now(right)
    for word, way in EXPANDED.items():
        if word in (left[0], right[0]):
            return way(left, right, depth)
    return left[0] == right[0] and all(
        equal_parts(one, other, depth, left[0]) for one, other in zip(left[1:], right[1:]))


def equal_parts(left, right, depth, word):
    """Whether two parts of forms with the same word are equal."""
    if isinstance(left, Under):
        if word in ("pi", "sig", "natrec"):
            inner = variable(depth, ("nat",))
            return equal(left(inner), right(inner), depth + 1)
        return equal(left(atom(depth)), right(atom(depth)), depth + 1)
    if isinstance(left, list):
        return equal_sides(left, right, depth)
    if word == "var" or isinstance(left, (Formula, int)):
        return not isinstance(left, (Formula, int)) or left == right
    return equal(left, right, depth)


def equal_sides(left, right, depth):
    """Whether sides have the same faces, and are equal on each."""
    cover = either(*[side[0] for side in left])
    if cover != either(*[side[0] for side in right]):
        return False
    for conj in cover:
        given = {name: ONE if end else ZERO for name, end in conj}
        one, other = whole(put(left, given)), whole(put(right, given))
        if not all(equal_parts(*parts, depth, "side") for parts in zip(one[1:], other[1:])):
            return False
    return True


def equal_functions(left, right, depth):
    x = variable(depth, left[1] if left[0] == "lam" else right[1])
    return equal(app(left, x), app(right, x), depth + 1)


def equal_pairs(left, right, depth):
    return equal(fst(left), fst(right), depth) and equal(snd(left), snd(right), depth)


def equal_paths(left, right, depth):
    return equal(papp(left, atom(depth)), papp(right, atom(depth)), depth + 1)


def equal_glued(left, right, depth):
    if left[0] == right[0]:
        return equal_sides(left[1], right[1], depth) and equal(left[2], right[2], depth)
    known, other = (left, right) if left[0] == "glue" else (right, left)
    sides = now(type_of(other))[2]
    for conj in either(*[side[0] for side in sides]):
        given = {name: ONE if end else ZERO for name, end in conj}
        if not equal(put(known, given), put(other, given), depth):
            return False
    return equal(known[2], unglue(sides, other), depth)


EXPANDED = {"lam": equal_functions, "pair": equal_pairs, "plam": equal_paths, "glue": equal_glued}


def main():
    module, name = sys.argv[1:]
    print(shown(Program().loaded(pathlib.Path(), module, set(), Env())[name]))


if __name__ == "__main__":
    main()
