"""Well-typed terms at random, over all forms of the language, each right by construction.

A variable of the level N is called xN, and a name iN. So the normal form of a value, as
`evaluator.py` shows it, is a text that can stand where the value is known, and types are compared
by these texts. Expressions are texts. What stands where a type is to be inferred, and has none of
its own, gets one by a `let`.
"""
import functools

from evaluator import ONE, ZERO, Env, Program, atom, formula, low, now, put, shown, shown_pairs
from module_text import Parser

NAT, U = ("nat",), ("U",)
LONGEST = 3000  # characters of a text that is gone on with

# A map whose fibers are contractible, as `Glue` wants it.
PRELUDE = r"""module E where
fiber (T A : U) (f : T -> A) (y : A) : U = (x : T) * PathP (<_> A) y (f x)
equiv (T A : U) : U = (f : T -> A) * ((y : A) ->
  (c : fiber T A f y) * ((z : fiber T A f y) -> PathP (<_> fiber T A f y) c z))
same (A : U) : equiv A A = (\(x : A) -> x, \(y : A) -> ((y, <_> y),
  \(z : fiber A A (\(x : A) -> x) y) -> <i> (z.2 @ i, <j> z.2 @ (i /\ j))))
"""

# Variables that a place may begin with: their types, where {0} is the first of them, and so on.
BEGINNINGS = [
    ["nat"],
    ["nat -> nat"],
    ["(_ : nat) * nat"],
    ["nat", "PathP (<_> nat) {0} {0}"],
    ["nat", "nat", "PathP (<_> nat) {0} (suc {1})"],
    ["U", "{0}", "{0}", "PathP (<_> {0}) {1} {2}", "PathP (<_> {0}) {2} {1}"],
    ["U", "{0}", "PathP (<_> {0}) {1} {1}"],
    ["nat -> U", "nat", "{0} {1}"],
    ["U", "{0} -> U", "{0}", "{0}", "PathP (<_> {0}) {2} {3}", "{1} {2}"],
    ["U", "U", "PathP (<_> U) {0} {1}", "{0}"],
    ["PathP (<_> U) nat nat", "nat"],
    ["U", "U", "equiv {1} {0}", "{1}", "{0}"],
    ["U", "(_ : {0}) * {0}", "{0} -> {0}"],
]


class Stuck(Exception):
    """Nothing of the type was found."""


def bracketed(text):
    return text if " " not in text else f"({text})"


@functools.lru_cache(maxsize=20000)
def parsed(text):
    return Parser(text).expression()


class Place:
    """What is in sight: the heads with their types, the levels of names, what the names of the text
    stand for, and equivalences, each with the texts of its types."""

    def __init__(self, depth=0, env=Env(), heads=(), names=(), equivalences=()):
        self.depth, self.env, self.heads = depth, env, list(heads)
        self.names, self.equivalences = list(names), list(equivalences)

    def copied(self, **changed):
        return Place(**{**vars(self), **changed})

    def variable(self, of):
        name = f"x{self.depth}"
        return self.copied(depth=self.depth + 1, heads=self.heads + [(name, of)],
                           env=Env(self.env | {name: ("var", self.depth, of)}))

    def name(self):
        return self.copied(depth=self.depth + 1, names=self.names + [self.depth],
                           env=Env(self.env | {f"i{self.depth}": atom(self.depth)}))

    def definition(self, name, of, value):
        return self.copied(heads=self.heads + [(name, of)], env=Env(self.env | {name: value}))

    def on(self, equations):
        """The place where equations hold, each of a level and an end."""
        given = {level: ONE if end else ZERO for level, end in equations}
        return self.copied(env=put(self.env, given),
                           heads=[(text, put(of, given)) for text, of in self.heads],
                           names=[level for level in self.names if level not in given])

    def value(self, text):
        return Program().value(Env(self.env), parsed(text))

    def shown(self, value):
        return fitting(shown(value, self.depth))


def fitting(text):
    if len(text) > LONGEST:
        raise Stuck
    return text


def first_place():
    """The place behind the prelude, whose definitions are no heads."""
    _, found = Parser(PRELUDE).module()
    return Place(env=Program().defined(Env(), found))


def face_text(equations):
    return "".join(f"(i{level}={end})" for level, end in equations)


def system(sides):
    """Sides as a text, each of equations and a text."""
    return "[" + ", ".join(f"{face_text(face)} -> {text}" for face, text in sides) + "]"


class Maker:
    """Makes types and terms of some size, `fuel`, at a place."""

    def __init__(self, choose):
        self.choose, self.count, self.known = choose, 0, {}

    def fresh(self):
        self.count += 1
        return f"d{self.count}"

    def first(self, ways, *arguments):
        """What one of these ways gives, if the tries find one."""
        for _ in range(5):
            try:
                return self.choose.choice(ways)(*arguments)
            except Stuck:
                pass
        raise Stuck

    # Formulas and faces.

    def formula(self, place, fuel=2):
        names = [f"i{level}" for level in place.names]
        if not fuel or not names or self.choose.random() < 0.5:
            return self.choose.choice(["0", "1", *names, *names, *names])
        word = self.choose.choice(["-", "/\\", "\\/"])
        if word == "-":
            return f"-{self.closed(place, fuel - 1)}"
        return f"{self.closed(place, fuel - 1)} {word} {self.closed(place, fuel - 1)}"

    def closed(self, place, fuel):
        text = self.formula(place, fuel)
        return f"({text})" if set(text) & set(" -") else text

    def faces(self, place):
        """Some faces, each of equations; none twice, so that sides may agree."""
        if not place.names:
            return [] if self.choose.random() < 0.9 else [()]
        found = []
        for _ in range(self.choose.choice([0, 1, 1, 1, 2, 2, 3])):
            names = self.choose.sample(place.names, min(len(place.names),
                                                        self.choose.choice([1, 1, 1, 2])))
            found.append(tuple((level, self.choose.choice([0, 1])) for level in sorted(names)))
        return found

    # Types, as texts that are types of `U`.

    def type(self, place, fuel):
        ways = [self.numbers]
        if fuel > 0:
            ways += [self.family, self.functions, self.pairs, self.paths, self.paths,
                     self.glued, self.glued, self.family, self.family]
            if fuel > 1:
                ways += [self.composed_type, self.recursive_type]
        return fitting(self.first(ways, place, fuel))

    def numbers(self, place, fuel):
        return "nat"

    def family(self, place, fuel):
        return self.eliminated(place, U, fuel)

    def functions(self, place, fuel, mark="->"):
        domain = self.type(place, fuel - 1)
        inner = place.variable(place.value(domain))
        return f"(x{place.depth} : {domain}) {mark} {bracketed(self.type(inner, fuel - 1))}"

    def pairs(self, place, fuel):
        return self.functions(place, fuel, "*")

    def paths(self, place, fuel):
        """A type of paths between ends of a term, or between two terms."""
        inner = place.name()
        line = self.type(inner, fuel - 1)
        of = inner.value(line)
        if self.choose.random() < 0.6:
            return self.path_type(place, line, inner.value(self.term(inner, of, fuel - 1)))
        ends = [self.term(place, put(of, {place.depth: end}), fuel - 1) for end in (ZERO, ONE)]
        return f"PathP (<i{place.depth}> {line}) {bracketed(ends[0])} {bracketed(ends[1])}"

    def path_type(self, place, line, value):
        ends = [place.shown(put(value, {place.depth: end})) for end in (ZERO, ONE)]
        return f"PathP (<i{place.depth}> {line}) {bracketed(ends[0])} {bracketed(ends[1])}"

    def glued(self, place, fuel):
        known = [one for one in place.equivalences if self.choose.random() < 0.8]
        if known:
            T, A, w = self.choose.choice(known)
        else:
            A = bracketed(self.type(place, fuel - 1))
            T, w = A, f"same {A}"
        return f"Glue {A} {system([(face, f'({T}, {w})') for face in self.faces(place)])}"

    def composed_type(self, place, fuel):
        return self.composition(place, "U", lambda r: U, fuel)

    def recursive_type(self, place, fuel):
        start, number = self.type(place, fuel - 1), self.term(place, NAT, fuel - 1)
        inner = place.variable(NAT).variable(U)
        step = (f"\\(x{place.depth} : nat) (x{place.depth + 1} : U) -> "
                f"{self.type(inner, fuel - 1)}")
        return f"natrec (\\(x{place.depth} : nat) -> U) ({start}) ({step}) ({number})"

    # Terms of a type that is wanted.

    def term(self, place, of, fuel):
        if fuel <= 0:
            return fitting(self.simple(place, of, fuel))
        ways = [self.introduced] * 3 + [self.eliminated] * 3 + [
            self.local, self.composed, self.composed, self.applied, self.recursion]
        try:
            return fitting(self.first(ways, place, of, fuel))
        except Stuck:
            return self.simple(place, of, fuel)

    def simple(self, place, of, fuel):
        wanted = place.shown(of)
        found = [text for text, kind in place.heads if self.is_of(place, kind, wanted)]
        word = now(of)[0]
        if found and (word not in ("nat", "U") or self.choose.random() < 0.7):
            return self.choose.choice(found)
        if word == "U":
            return "nat"
        if word == "nat":
            return self.choose.choice(["zero", "suc zero"])
        return self.introduced(place, of, 0)

    def is_of(self, place, kind, wanted):
        """Whether a type has this text at a place. The types are kept, so that none other is at the
        same address."""
        key = id(kind), place.depth
        if key not in self.known:
            self.known[key] = kind, shown(kind, place.depth)
        return self.known[key][1] == wanted

    def introduced(self, place, of, fuel):
        word, *parts = now(of)
        way = {"pi": self.function, "sig": self.pair, "pathp": self.path, "Glue": self.glue,
               "nat": self.number, "U": self.some_type}.get(word)
        if not way:
            raise Stuck
        return way(place, fuel, *parts)

    def some_type(self, place, fuel):
        return self.type(place, fuel - 1)

    def number(self, place, fuel):
        return f"suc {bracketed(self.term(place, NAT, fuel - 1))}"

    def function(self, place, fuel, domain, codomain):
        inner = place.variable(domain)
        body = self.term(inner, codomain(inner.env[f"x{place.depth}"]), fuel - 1)
        return f"\\(x{place.depth} : {place.shown(domain)}) -> {body}"

    def pair(self, place, fuel, left, right):
        first = self.term(place, left, fuel - 1)
        return f"({first}, {self.term(place, right(place.value(first)), fuel - 1)})"

    def path(self, place, fuel, line, left, right):
        """One that stands still; or one that goes along another, back or forth."""
        inner = place.name()
        ends = place.shown(left), place.shown(right)
        if ends[0] == ends[1] and self.is_still(place, line):
            return f"<i{place.depth}> {ends[0]}"
        body = self.term(inner, line(atom(place.depth)), fuel - 1)
        value = inner.value(body)
        found = tuple(place.shown(put(value, {place.depth: end})) for end in (ZERO, ONE))
        if found != ends:
            raise Stuck
        return f"<i{place.depth}> {body}"

    def is_still(self, place, line):
        """Whether a line does not vary."""
        inner = place.shown(line(ZERO))
        return shown(line(atom(place.depth)), place.depth + 1) == shown(
            place.value(inner), place.depth + 1)

    def glue(self, place, fuel, A, sides):
        """An element that comes from one of the type on the faces, which is the same there."""
        found = []
        for face, T, w in sides:
            for conjunction in face:
                given = {level: ONE if end else ZERO for level, end in conjunction}
                equations = tuple(sorted(conjunction))
                if place.shown(put(A, given)) != place.shown(A):
                    raise Stuck
                found.append((equations, place.shown(put(T, given)), place.shown(put(w, given))))
        if not found:
            return f"glue {bracketed(self.term(place, A, fuel - 1))} []"
        _, T, w = found[0]
        if any(one[1:] != (T, w) for one in found):
            raise Stuck
        element = self.term(place, place.value(T), fuel - 1)
        image = place.shown(place.value(
            f"(let d0 : {T} -> {place.shown(A)} = {w}.1 in d0) ({element})"))
        return f"glue {bracketed(image)} {system([(face, element) for face, _, _ in found])}"

    def eliminated(self, place, of, fuel):
        """A head, applied and projected until it has the type."""
        wanted = place.shown(of)
        if not place.heads:
            raise Stuck
        text, kind = self.choose.choice(place.heads)
        for _ in range(5):
            if self.is_of(place, kind, wanted):
                return text
            text, kind = self.step(place, text, kind, fuel)
        raise Stuck

    def step(self, place, text, kind, fuel):
        """What a term of some type becomes by one elimination, with the type of that."""
        word, *parts = now(kind)
        if word == "pi":
            argument = self.term(place, parts[0], fuel - 1)
            return f"({text} {bracketed(argument)})", parts[1](place.value(argument))
        if word == "sig":
            if self.choose.random() < 0.5:
                return f"{bracketed(text)}.1", parts[0]
            return f"{bracketed(text)}.2", parts[1](place.value(f"({text}).1"))
        if word == "pathp":
            r = self.formula(place)
            line = parts[0]
            return f"({text} @ {r})", line(formula(place.env, Parser(r).formula()))
        if word == "Glue":
            sides = shown_pairs(place.depth, parts[1])
            return f"(unglue {bracketed(text)} {fitting(sides)})", parts[0]
        raise Stuck

    def local(self, place, of, fuel):
        """What is said by a definition, whose name stands behind `in`."""
        name = self.fresh()
        if self.choose.random() < 0.5:
            body = self.term(place, of, fuel - 1)
            return f"let {name} : {place.shown(of)} = {body} in {name}"
        kind = self.type(place, fuel - 1)
        value = place.value(kind)
        body = self.term(place, value, fuel - 1)
        inner = place.definition(name, value, place.value(body))
        return f"let {name} : {kind} = {body} in {self.term(inner, of, fuel - 1)}"

    def applied(self, place, of, fuel):
        """A lambda that is applied: its type is said by a `let`."""
        domain = self.type(place, fuel - 1)
        kind = place.value(domain)
        inner = place.variable(kind)
        body = self.term(inner, of, fuel - 1)
        argument = self.term(place, kind, fuel - 1)
        name, wanted = self.fresh(), inner.shown(of)
        x = f"x{place.depth}"
        return (f"(let {name} : ({x} : {domain}) -> {wanted} = \\({x} : {domain}) -> {body} "
                f"in {name}) {bracketed(argument)}")

    def recursion(self, place, of, fuel):
        """A recursion over a motive that does not vary."""
        start, number = self.term(place, of, fuel - 1), self.term(place, NAT, fuel - 1)
        inner = place.variable(NAT).variable(of)
        motive = place.variable(NAT).shown(of)
        x, y = f"x{place.depth}", f"x{place.depth + 1}"
        step = self.term(inner, of, fuel - 1)
        return (f"natrec (\\({x} : nat) -> {motive}) ({start}) "
                f"(\\({x} : nat) ({y} : {motive}) -> {step}) ({number})")

    # Compositions.

    def composed(self, place, of, fuel):
        """A composition along a line that ends in the type."""
        name = place.depth
        lines = [lambda r: of]
        for level in place.names:
            lines.append(lambda r, level=level: put(of, {level: low(atom(level), r)}))
        line = self.choose.choice(lines[-1:] + lines)
        for text, kind in place.heads:
            word, *parts = now(kind)
            if word == "pathp" and now(parts[0](ZERO))[0] == "U" and self.choose.random() < 0.7:
                for r, end in (("{}", parts[2]), ("-{}", parts[1])):
                    if place.shown(end) == place.shown(of):
                        start = parts[1] if end is parts[2] else parts[2]
                        return self.transported(place, f"{text} @ {r.format(f'i{name}')}", start,
                                                fuel)
        return self.composition(place, place.name().shown(line(atom(name))), line, fuel)

    def transported(self, place, line, start, fuel):
        base = self.term(place, start, fuel - 1)
        return f"transport (<i{place.depth}> {line}) {bracketed(base)}"

    def composition(self, place, text, line, fuel):
        """A composition along a line, which is given as a text and a function of a formula."""
        ways = [self.filled, self.filled, self.along, self.between]
        base, sides = self.first(ways, place, text, line, fuel)
        base = bracketed(base)
        if not sides and self.choose.random() < 0.5:
            return f"transport (<i{place.depth}> {text}) {base}"
        return f"comp (<i{place.depth}> {text}) {base} {system(sides)}"

    def filled(self, place, text, line, fuel):
        """Sides that are fillings of the base, or stand still where the line does."""
        base = self.term(place, line(ZERO), fuel - 1)
        still = self.is_still(place, line) and self.choose.random() < 0.6
        sides = []
        for face in self.faces(place):
            if still:
                side = f"<i{place.depth}> {self.under(place.name(), face, base)}"
            else:
                side = f"fill (<i{place.depth}> {text}) ({self.under(place, face, base)}) []"
            sides.append((face, side))
        return base, sides

    def along(self, place, text, line, fuel):
        """Sides that are one term, and its start."""
        inner = place.name()
        body = self.term(inner, line(atom(place.depth)), fuel - 1)
        base = place.shown(put(inner.value(body), {place.depth: ZERO}))
        return base, [(face, f"<i{place.depth}> {self.under(inner, face, body)}")
                      for face in self.faces(place)]

    def under(self, place, face, text):
        """A term as it may stand under a face, where `glue` may have another type: itself if there
        is none, or what it is there."""
        if "glue" not in text and self.choose.random() < 0.6:
            return text
        if any((level, 1 - end) in face for level, end in face):
            raise Stuck
        inner = place.on(face)
        return inner.shown(inner.value(text))

    def between(self, place, text, line, fuel):
        """Sides that begin at the ends of a path, along a line that does not vary."""
        wanted = place.shown(line(ZERO))
        paths = []
        for head, kind in place.heads:
            word, *parts = now(kind)
            if word == "pathp" and shown(parts[0](ZERO), place.depth) == wanted:
                paths.append((head, *parts))
        still = [path for path in paths if self.is_still(place, path[1])]
        if not place.names or not still or not self.is_still(place, line):
            raise Stuck
        path, name = self.choose.choice(still), self.choose.choice(place.names)
        sides = []
        for end in (0, 1):
            start = place.shown(path[2 + end])
            ways = [f"<i{place.depth}> {start}", f"fill (<i{place.depth}> {text}) {start} []"]
            ways += [head for head, _, left, _ in still if place.shown(left) == start]
            sides.append((((name, end),), self.choose.choice(ways)))
        kept = [side for side in sides if self.choose.random() < 0.8]
        self.choose.shuffle(kept)
        return f"{path[0]} @ i{name}", kept

    # Terms whose type is found with them.

    def typed(self, place, fuel):
        """The text of a type, and a term of it."""
        ways = [self.wanted]
        if fuel > 0:
            ways += [self.typed_path, self.typed_path, self.typed_function, self.composed_along,
                     self.composed_along, self.inferred, self.recursion_over, self.filling]
        return self.first(ways, place, fuel)

    def wanted(self, place, fuel):
        kind = self.type(place, fuel)
        return kind, self.term(place, place.value(kind), fuel)

    def typed_path(self, place, fuel):
        inner = place.name()
        line, body = self.typed(inner, fuel - 1)
        return self.path_type(place, line, inner.value(body)), f"<i{place.depth}> {body}"

    def typed_function(self, place, fuel):
        domain = self.type(place, fuel - 1)
        kind, body = self.typed(place.variable(place.value(domain)), fuel - 1)
        x = f"x{place.depth}"
        return f"({x} : {domain}) -> {kind}", f"\\({x} : {domain}) -> {body}"

    def a_line(self, place, fuel):
        inner = place.name()
        text = self.type(inner, fuel - 1)
        value = inner.value(text)
        return text, lambda r: put(value, {place.depth: r})

    def composed_along(self, place, fuel):
        text, line = self.a_line(place, fuel)
        return place.shown(line(ONE)), self.composition(place, text, line, fuel)

    def filling(self, place, fuel):
        text, line = self.a_line(place, fuel)
        base, sides = self.filled(place, text, line, fuel)
        whole = f"fill (<i{place.depth}> {text}) {bracketed(base)} {system(sides)}"
        inner = place.name()
        value = inner.value(f"({whole}) @ i{place.depth}")
        return self.path_type(place, text, value), whole

    def inferred(self, place, fuel):
        if not place.heads:
            raise Stuck
        text, kind = self.choose.choice(place.heads)
        for _ in range(self.choose.choice([0, 1, 2, 3])):
            text, kind = self.step(place, text, kind, fuel)
        return place.shown(kind), text

    def recursion_over(self, place, fuel):
        """A recursion over a motive that may vary."""
        inner = place.variable(NAT)
        x, y = f"x{place.depth}", f"x{place.depth + 1}"
        motive = self.type(inner, fuel - 1)
        number = self.term(place, NAT, fuel - 1)

        def at(text, where):
            return where.value(f"(let d0 : nat -> U = \\({x} : nat) -> {motive} in d0) ({text})")
        start = self.term(place, at("zero", place), fuel - 1)
        step_place = inner.variable(inner.value(motive))
        step = self.term(step_place, at(f"suc {x}", inner), fuel - 1)
        return place.shown(at(number, place)), (
            f"natrec (\\({x} : nat) -> {motive}) ({start}) "
            f"(\\({x} : nat) ({y} : {motive}) -> {step}) ({number})")

    # Definitions.

    def beginning(self, place):
        """Variables that a definition begins with, as types, and the place under them."""
        kinds = []
        for _ in range(self.choose.choice([0, 1, 1, 2])):
            found = self.choose.choice(BEGINNINGS)
            names = [f"x{place.depth + at}" for at in range(len(found))]
            for text in found:
                kinds.append(text.format(*names))
                place = place.variable(place.value(kinds[-1]))
            if found[2:3] == ["equiv {1} {0}"]:
                place.equivalences.append((names[1], names[0], names[2]))
        return kinds, place

    def definition(self, place, name, fuel):
        """A definition's teles, its type and its body, and the place behind it."""
        kinds, inner = self.beginning(place)
        kind, body = self.typed(inner, fuel)
        return (name, kinds, kind, body), self.defined(place, name, kinds, kind, body)

    def defined(self, place, name, kinds, kind, body):
        teles = [f"(x{place.depth + at} : {text})" for at, text in enumerate(kinds)]
        whole = "".join(tele + " -> " for tele in teles) + kind
        value = f"\\{' '.join(teles)} -> {body}" if teles else body
        return place.definition(name, place.value(whole), place.value(value))


def heading(name, kinds):
    """The name of a definition and its teles."""
    return name + "".join(f" (x{at} : {text})" for at, text in enumerate(kinds))


def definition_text(name, kinds, kind, body):
    return fitting(f"{heading(name, kinds)} : {kind} = {body}")


