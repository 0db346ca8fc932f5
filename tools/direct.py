#!/usr/bin/env python3
"""Types the definitions of modules that hold as they stand, in the plainest way: trees are written
out, names are looked up, and types are compared as trees.

It shares nothing with the program, so that tests have what they expect from outside: what is
direct, and which judgements a module states. `docs/LANGUAGE.md` says it in words.

Expressions are tuples: ("id", name), ("U",), ("apply", head, elements), ("pi", teles, body),
("sigma", teles, body), ("arrow", left, right), ("lambda", teles, body), ("names", names, body),
("project", pair, numbers), ("tuple", components), ("pathp", line, left, right), ("comp", line,
base), ("fill", line, base), ("transport", line, base), ("let", definitions, body). A tele is
(names, type), an element ("argument", expression) or ("at", formula), a formula ("0",), ("1",),
("id", name), ("-", f), ("/\\\\", f, g) or ("\\\\/", f, g).
"""
import dataclasses

from judge import apply, push, raised, shift_by

U = ("U",)
NAT = ("nat",)
FAMILIES = ("pi", NAT, U)
SUCCESSOR = ("lam", NAT, ("suc", ("var", 0)))
BUILT_IN = ("nat", "zero", "suc", "natrec")


class NotDirect(Exception):
    """What is looked at does not hold as it stands."""


class OutOfScope(Exception):
    """A name is not in scope, or is of another kind."""


@dataclasses.dataclass
class Definition:
    name: str
    teles: list
    type: tuple
    body: tuple
    where: list


@dataclasses.dataclass(frozen=True)
class Entry:
    """Of a place: a variable with its type, a name of the interval, or a definition with its type
    and body.
    """
    kind: str
    name: str
    type: tuple = ()
    body: tuple = ()


def weakened(tree, by=1):
    return raised(tree, 0, by)


def at(tree, argument):
    return apply(tree, push(shift_by(0), argument))


class Place(tuple):
    """The entries of a place, the innermost last."""

    def under(self, entry):
        return Place((*self, entry))

    def context(self):
        forms = {"variable": lambda entry: ("var", entry.type), "interval": lambda entry: ("name",)}
        return tuple(forms[entry.kind](entry) for entry in self if entry.kind in forms)

    def find(self, name):
        """The entry that a name stands for, and how many variables and names stand behind it."""
        behind = 0
        for entry in reversed(self):
            if entry.name == name and name != "_":
                return entry, behind
            behind += entry.kind != "definition"
        if name not in BUILT_IN:
            raise OutOfScope(name)
        return None, behind

    def is_built_in(self, expression, name):
        return expression == ("id", name) and self.find(name)[0] is None


class Typing:
    """The judgements that were stated so far, each a context, a type and a body."""

    def __init__(self):
        self.stated = []

    # definitions

    def define(self, place, definition):
        """The place after a definition."""
        inner, domains = self.bind(place, definition.teles, self.type)
        kind = self.type(inner, definition.type)
        body = self.check(self.block(inner, definition.where), definition.body, kind)
        for domain in reversed(domains):
            kind, body = ("pi", domain, kind), ("lam", domain, body)
        self.stated.append((place.context(), kind, body))
        return place.under(Entry("definition", definition.name, kind, body))

    def block(self, place, definitions):
        for definition in definitions:
            place = self.define(place, definition)
        return place

    def bind(self, place, teles, kind):
        """The place under the variables of teles, and their types."""
        domains = []
        for names, written in teles:
            domain = kind(place, written)
            for name in names:
                place = place.under(Entry("variable", name, domain))
                domains.append(domain)
                domain = weakened(domain)
        return place, domains

    # types

    def type(self, place, expression):
        """The tree of an expression that is taken as a type."""
        if expression == U:
            return U
        return self.formed(place, expression, self.type) or self.small(place, expression)

    def small(self, place, expression):
        tree, kind = self.infer(place, expression)
        if kind != U:
            raise NotDirect
        return tree

    def universe(self, place, expression):
        return self.check(place, expression, U)

    def formed(self, place, expression, kind):
        """A type of functions, pairs or paths whose parts `kind` takes; none of another form."""
        if expression[0] in ("pi", "sigma"):
            inner, domains = self.bind(place, expression[1], kind)
            tree = kind(inner, expression[2])
            for domain in reversed(domains):
                tree = ({"pi": "pi", "sigma": "sig"}[expression[0]], domain, tree)
            return tree
        if expression[0] == "arrow":
            return self.formed(place, ("pi", [(["_"], expression[1])], expression[2]), kind)
        if expression[0] == "pathp":
            line = self.line(place, expression[1], kind)
            left = self.check(place, expression[2], at(line, ("i0",)))
            right = self.check(place, expression[3], at(line, ("i1",)))
            return ("pathp", line, left, right)
        if expression[0] == "let":
            return kind(self.block(place, expression[1]), expression[2])
        return None

    def line(self, place, expression, kind):
        """A line, opened: a tree under a name."""
        if expression[0] == "names":
            first, *others = expression[1]
            body = ("names", others, expression[2]) if others else expression[2]
            return kind(place.under(Entry("interval", first)), body)
        path, found = self.infer(place, expression)
        if found[0] != "pathp" or found[1] != U:
            raise NotDirect
        return ("papp", weakened(path), ("var", 0))

    def motive(self, place, expression):
        """A motive, opened: a tree under a variable."""
        if expression[0] == "lambda":
            (names, domain), *teles = expression[1]
            if place.is_built_in(domain, "nat"):
                first, *others = names
                rest = ([(others, domain)] if others else []) + teles
                body = ("lambda", rest, expression[2]) if rest else expression[2]
                return self.type(place.under(Entry("variable", first, NAT)), body)
        family, found = self.infer(place, expression)
        if found != FAMILIES:
            raise NotDirect
        return ("app", weakened(family), ("var", 0))

    # terms

    def check(self, place, expression, wanted):
        """The tree of an expression that has the type that is wanted."""
        form = expression[0]
        if form == "let":
            return self.check(self.block(place, expression[1]), expression[2], wanted)
        if form == "lambda":
            return self.function(place, expression, wanted)
        if form == "tuple":
            return self.tuple(place, expression[1], wanted)
        if form == "names":
            return self.path(place, expression[1], expression[2], wanted)
        tree, found = self.infer(place, expression)
        if found != wanted:
            raise NotDirect
        return tree

    def function(self, place, expression, wanted):
        inner, domains = place, []
        for names, written in expression[1]:
            domain = self.type(inner, written)
            for name in names:
                if wanted[0] != "pi" or wanted[1] != domain:
                    raise NotDirect
                wanted = wanted[2]
                inner = inner.under(Entry("variable", name, domain))
                domains.append(domain)
                domain = weakened(domain)
        tree = self.check(inner, expression[2], wanted)
        for domain in reversed(domains):
            tree = ("lam", domain, tree)
        return tree

    def tuple(self, place, components, wanted):
        first, *others = components
        if not others:
            return self.check(place, first, wanted)
        if wanted[0] != "sig":
            raise NotDirect
        left = self.check(place, first, wanted[1])
        return ("pair", left, self.tuple(place, others, at(wanted[2], left)))

    def path(self, place, names, body, wanted):
        if not names:
            return self.check(place, body, wanted)
        if wanted[0] != "pathp":
            raise NotDirect
        inner = self.path(place.under(Entry("interval", names[0])), names[1:], body, wanted[1])
        if (at(inner, ("i0",)), at(inner, ("i1",))) != wanted[2:]:
            raise NotDirect
        return ("plam", inner)

    def infer(self, place, expression):
        """The tree of an expression, and its type."""
        form = expression[0]
        if form == "id":
            return self.named(place, expression[1])
        if form == "let":
            return self.infer(self.block(place, expression[1]), expression[2])
        if form in ("pi", "sigma", "arrow", "pathp"):
            return self.formed(place, expression, self.universe), U
        if form == "lambda":
            inner, domains = self.bind(place, expression[1], self.type)
            tree, kind = self.infer(inner, expression[2])
            for domain in reversed(domains):
                tree, kind = ("lam", domain, tree), ("pi", domain, kind)
            return tree, kind
        if form in ("comp", "transport"):
            line = self.line(place, expression[1], self.type)
            base = self.check(place, expression[2], at(line, ("i0",)))
            return ("comp", line, ("f0",), ("empty",), base), at(line, ("i1",))
        if form == "project":
            return self.projected(*self.infer(place, expression[1]), expression[2])
        if form == "apply":
            return self.applied(place, *self.head(place, expression[1], expression[2]))
        raise NotDirect

    def named(self, place, name):
        entry, behind = place.find(name)
        if entry is None:
            found = {"nat": (NAT, U), "zero": (("zero",), NAT),
                     "suc": (SUCCESSOR, ("pi", NAT, NAT))}
            return found[name]
        if entry.kind == "variable":
            return ("var", behind), weakened(entry.type, behind + 1)
        # a name of the interval, or a definition that is known by its name alone
        if not entry.body:
            raise OutOfScope(name)
        return weakened(entry.body, behind), weakened(entry.type, behind)

    def head(self, place, head, elements):
        """What is applied, its type, and the elements that are left."""
        if place.is_built_in(head, "suc") and elements[0][0] == "argument":
            return ("suc", self.check(place, elements[0][1], NAT)), NAT, elements[1:]
        if place.is_built_in(head, "natrec"):
            motive, base, step, number = (argument for _, argument in elements[:4])
            family = self.motive(place, motive)
            start = self.check(place, base, at(family, ("zero",)))
            after = apply(family, push(shift_by(2), ("suc", ("var", 1))))
            grown = self.check(place, step, ("pi", NAT, ("pi", family, after)))
            found = self.check(place, number, NAT)
            return ("natrec", family, start, grown, found), at(family, found), elements[4:]
        return *self.infer(place, head), elements

    def applied(self, place, tree, kind, elements):
        for word, element in elements:
            if word == "argument":
                if kind[0] != "pi":
                    raise NotDirect
                argument = self.check(place, element, kind[1])
                tree, kind = ("app", tree, argument), at(kind[2], argument)
            else:
                if kind[0] != "pathp":
                    raise NotDirect
                end = formula(place, element)
                tree, kind = ("papp", tree, end), at(kind[1], end)
        return tree, kind

    def projected(self, tree, kind, numbers):
        for number in numbers:
            if kind[0] != "sig":
                raise NotDirect
            first = ("fst", tree)
            tree, kind = (first, kind[1]) if number == 1 else (("snd", tree), at(kind[2], first))
        return tree, kind


def formula(place, written):
    word, *parts = written
    if word in ("0", "1"):
        return ("i" + word,)
    if word == "id":
        return ("var", place.find(parts[0])[1])
    operator = {"-": "neg", "/\\": "min", "\\/": "max"}[word]
    return (operator, *(formula(place, part) for part in parts))


# Scopes: names alone, so that a fault is seen wherever it stands.


def scope_definitions(place, definitions):
    for definition in definitions:
        inner = scope_teles(place, definition.teles)
        scope(inner, definition.type)
        scope(scope_definitions(inner, definition.where), definition.body)
        place = place.under(Entry("definition", definition.name))
    return place


def scope_teles(place, teles):
    for names, written in teles:
        scope(place, written)
        for name in names:
            place = place.under(Entry("variable", name))
    return place


def scope_formula(place, written):
    if written[0] == "id":
        entry = place.find(written[1])[0]
        if entry is None or entry.kind != "interval":
            raise OutOfScope(written[1])
    else:
        for part in written[1:]:
            scope_formula(place, part)


def scope(place, expression):
    """Nothing, where each name is in scope and of the kind that is wanted."""
    form, *parts = expression
    if form == "id":
        entry = place.find(parts[0])[0]
        if (parts[0] == "natrec") if entry is None else (entry.kind == "interval"):
            raise OutOfScope(parts[0])
    elif form in ("pi", "sigma", "lambda"):
        scope(scope_teles(place, parts[0]), parts[1])
    elif form == "names":
        for name in parts[0]:
            place = place.under(Entry("interval", name))
        scope(place, parts[1])
    elif form == "let":
        scope(scope_definitions(place, parts[0]), parts[1])
    elif form == "tuple":
        for part in parts[0]:
            scope(place, part)
    elif form == "project":
        scope(place, parts[0])
    elif form == "apply":
        scope_applied(place, *parts)
    else:
        for part in parts:
            scope(place, part)


def scope_applied(place, head, elements):
    if place.is_built_in(head, "natrec"):
        if len(elements) < 4 or any(word != "argument" for word, _ in elements[:4]):
            raise OutOfScope("natrec")
    else:
        scope(place, head)
    for word, element in elements:
        (scope if word == "argument" else scope_formula)(place, element)
