#!/usr/bin/env python3
"""Tries `check` on generated modules, and compares with a plain reading of what is direct.

usage: python3 tools/try_modules.py PROGRAM [COUNT] [SEED]

Each module and what it imports are made at random, so that most definitions are direct, and then
some of their parts are exchanged. Where all are direct by `direct.py`, whose trees are written out,
the answer is yes, and the roots of the derivation are what that says. Else the answer is yes, or a
refusal of a definition that is not before the first one that is not direct. The derivation must be
right by `judge.py`, and of that module by `replay --of`. What differs is printed, with the modules;
the status says whether anything did.
"""
import pathlib
import random
import re
import subprocess
import sys
import tempfile

import judge
from direct import (FAMILIES, NAT, U, Definition, Entry, NotDirect, OutOfScope, Place, Typing,
                    scope_definitions, weakened)

# The levels of forms that may need brackets, as those of places where they stand.
LEVELS = {"let": 0, "lambda": 0, "names": 0, "pi": 1, "sigma": 1, "arrow": 1, "apply": 2,
          "pathp": 3, "comp": 3, "fill": 3, "transport": 3, "project": 4}

NAMES = ["a", "b", "f", "g", "x", "y", "z", "A", "B", "P"]
ENDS = ["i", "j", "k"]
OF_DEFINITIONS = ["CannotInfer", "UInU", "Mismatch", "SidesDiffer", "WantedFunction", "WantedPair",
                  "WantedPath", "WantedGlue", "WantedType"]


class Stuck(Exception):
    """Nothing of this type was found."""


# Texts.


class Printer:
    """Writes definitions, and keeps where the names of those at the top stand."""

    def __init__(self, choose):
        self.choose, self.text, self.places = choose, "", []

    def module(self, name, imports, definitions):
        self.text = f"module {name} where\n" + "".join(f"import {other}\n" for other in imports)
        for definition in definitions:
            self.places.append(len(self.text))
            self.definition(definition, 0)
            self.text += "\n"
        return self.text

    def definition(self, definition, indent):
        self.text += definition.name + (" " if definition.teles else "")
        self.teles(definition.teles, indent)
        self.text += " : "
        self.expression(definition.type, 0, indent)
        self.text += " = "
        self.expression(definition.body, 0, indent)
        if definition.where:
            self.text += " where"
            self.block(definition.where, indent)

    def block(self, definitions, indent):
        for definition in definitions:
            self.text += "\n" + " " * (indent + 2)
            self.definition(definition, indent + 2)

    def teles(self, teles, indent):
        for number, (names, written) in enumerate(teles):
            self.text += f"{' ' if number else ''}({' '.join(names)} : "
            self.expression(written, 0, indent)
            self.text += ")"

    def expression(self, expression, level, indent):
        """An expression where one of this level may stand, in brackets where it must be, and at
        times where it need not.
        """
        form, *parts = expression
        bracketed = LEVELS.get(form, 5) < level or (
            level == 0 and form != "tuple" and self.choose.random() < 0.02)
        self.text += "(" if bracketed else ""
        getattr(self, form.lower())(indent, *parts)
        self.text += ")" if bracketed else ""

    def id(self, indent, name):
        self.text += name

    def u(self, indent):
        self.text += "U"

    def let(self, indent, definitions, body):
        self.text += "let"
        self.block(definitions, indent)
        self.text += "\n" + " " * indent + " in "
        self.expression(body, 0, indent)

    def binding(self, indent, begin, teles, between, body, level):
        self.text += begin
        self.teles(teles, indent)
        self.text += between
        self.expression(body, level, indent)

    def __getattr__(self, word):
        """`lambda`, whose name is a word of Python."""
        if word == "lambda":
            return lambda indent, teles, body: self.binding(indent, "\\", teles, " -> ", body, 0)
        raise AttributeError(word)

    def pi(self, indent, teles, body):
        self.binding(indent, "", teles, " -> ", body, 1)

    def sigma(self, indent, teles, body):
        self.binding(indent, "", teles, " * ", body, 1)

    def arrow(self, indent, left, right):
        self.expression(left, 2, indent)
        self.text += " -> "
        self.expression(right, 1, indent)

    def names(self, indent, names, body):
        self.text += f"<{' '.join(names)}> "
        self.expression(body, 0, indent)

    def apply(self, indent, head, elements):
        self.expression(head, 3, indent)
        for word, element in elements:
            self.text += " " if word == "argument" else " @ "
            if word == "argument":
                self.expression(element, 3, indent)
            else:
                self.formula(element, 0)

    def formula(self, formula, level):
        word, *parts = formula
        own = {"\\/": 0, "/\\": 1, "-": 2}.get(word, 3)
        self.text += "(" if own < level else ""
        if word == "id" or own == 3:
            self.text += parts[0] if word == "id" else word
        elif word == "-":
            self.text += "- "
            self.formula(parts[0], 2)
        else:
            self.formula(parts[0], own + 1)
            self.text += f" {word} "
            self.formula(parts[1], own)
        self.text += ")" if own < level else ""

    def project(self, indent, pair, numbers):
        self.expression(pair, 5, indent)
        self.text += "".join(f".{number}" for number in numbers)

    def tuple(self, indent, components):
        self.text += "("
        for number, component in enumerate(components):
            self.text += ", " if number else ""
            self.expression(component, 0, indent)
        self.text += ")"

    def parts(self, indent, word, parts):
        self.text += word
        for part in parts:
            self.text += " "
            self.expression(part, 4, indent)

    def pathp(self, indent, *parts):
        self.parts(indent, "PathP", parts)

    def transport(self, indent, *parts):
        self.parts(indent, "transport", parts)

    def comp(self, indent, *parts):
        self.parts(indent, "comp", parts)
        self.text += " []"

    def fill(self, indent, *parts):
        self.parts(indent, "fill", parts)
        self.text += " []"


# Modules at random.


class Maker:
    def __init__(self, choose):
        self.choose = choose

    def fresh(self, names):
        return self.choose.choice(names)

    def written(self, place, tree):
        """An expression for a tree, whose variables are in sight."""
        word, *kids = tree
        if word == "var":
            return self.variable(place, kids[0])
        if word in ("U",):
            return U
        if word in ("nat", "zero"):
            return self.built_in(place, word)
        if word == "suc":
            return applied(self.built_in(place, "suc"), self.written(place, kids[0]))
        if word in ("pi", "sig", "lam"):
            name = self.fresh(NAMES)
            inner = place.under(Entry("variable", name, kids[0]))
            form = {"pi": "pi", "sig": "sigma", "lam": "lambda"}[word]
            return (form, [([name], self.written(place, kids[0]))], self.written(inner, kids[1]))
        if word in ("pathp", "plam"):
            name = self.fresh(ENDS)
            line = ("names", [name], self.written(place.under(Entry("interval", name)), kids[0]))
            ends = [self.written(place, kid) for kid in kids[1:]]
            return line if word == "plam" else ("pathp", line, *ends)
        if word == "app":
            return applied(self.written(place, kids[0]), self.written(place, kids[1]))
        if word in ("fst", "snd"):
            return ("project", self.written(place, kids[0]), [1 if word == "fst" else 2])
        if word == "pair":
            return ("tuple", [self.written(place, kids[0]), self.written(place, kids[1])])
        if word == "papp":
            path = self.written(place, kids[0])
            return ("apply", path, [("at", self.written_formula(place, kids[1]))])
        raise Stuck

    def written_formula(self, place, tree):
        word, *kids = tree
        if word == "var":
            return self.variable(place, kids[0])
        if word in ("i0", "i1"):
            return (word[1],)
        sign = {"neg": "-", "min": "/\\", "max": "\\/"}[word]
        return (sign, *(self.written_formula(place, kid) for kid in kids))

    def built_in(self, place, word):
        if not place.is_built_in(("id", word), word):
            raise Stuck
        return ("id", word)

    def variable(self, place, index):
        behind = 0
        for entry in reversed(place):
            if entry.kind != "definition":
                if behind == index:
                    if place.find(entry.name) != (entry, index):
                        raise Stuck
                    return ("id", entry.name)
                behind += 1
        raise Stuck

    def seen(self, place, kinds=("variable", "definition")):
        """The entries that names stand for at a place, with their types there."""
        found = []
        for name in {entry.name for entry in place} - {"_"}:
            entry, behind = place.find(name)
            if entry.kind in kinds:
                shift = behind + (entry.kind == "variable")
                found.append((name, weakened(entry.type, shift) if entry.type else ()))
        return sorted(found, key=lambda pair: pair[0])

    # types

    def type(self, place, fuel):
        """An expression that is a type, with its tree."""
        choices = [self.numbers]
        if fuel > 0:
            choices += [self.binding, self.binding, self.binding, self.paths, self.universe,
                        self.named_type, self.local_type]
        return self.typed(place, self.choose.choice(choices)(place, fuel))

    def typed(self, place, expression):
        return expression, Typing().type(place, expression)

    def numbers(self, place, fuel):
        return self.built_in(place, "nat")

    def universe(self, place, fuel):
        return U

    def named_type(self, place, fuel):
        return self.term(place, U, fuel - 1)

    def local_type(self, place, fuel):
        inner, definitions = self.definitions(place, 1, fuel - 2)
        return ("let", definitions, self.type(inner, fuel - 1)[0])

    def binding(self, place, fuel):
        domain, tree = self.type(place, fuel - 1)
        names = [self.fresh(NAMES + ["_"]) for _ in range(self.choose.choice([1, 1, 2]))]
        inner = place
        for name in names:
            inner = inner.under(Entry("variable", name, tree))
            tree = weakened(tree)
        form = self.choose.choice(["pi", "pi", "arrow", "sigma"])
        if form == "arrow":
            inner = place.under(Entry("variable", "_", tree))
            return ("arrow", domain, self.type(inner, fuel - 1)[0])
        return (form, [(names, domain)], self.type(inner, fuel - 1)[0])

    def paths(self, place, fuel):
        name = self.fresh(ENDS)
        line, tree = self.type(place.under(Entry("interval", name)), fuel - 1)
        left = self.term(place, judge.MADE["at"](tree, ("i0",)), fuel - 1)
        right = self.term(place, judge.MADE["at"](tree, ("i1",)), fuel - 1)
        right = right if self.choose.random() < 0.5 else left
        return ("pathp", ("names", [name], line), left, right)

    # terms

    def term(self, place, wanted, fuel):
        """An expression that checks at a type, if the tries find one."""
        for _ in range(4):
            try:
                found = self.choose.choice(self.ways(wanted, fuel))(place, wanted, fuel)
                Typing().check(place, found, wanted)
                return found
            except (NotDirect, Stuck, OutOfScope):
                fuel -= 1
        return self.simple(place, wanted)

    def simple(self, place, wanted):
        names = [name for name, kind in self.seen(place) if kind == wanted]
        if names:
            return ("id", self.choose.choice(names))
        if wanted == NAT:
            return self.built_in(place, "zero")
        if wanted == U:
            return self.built_in(place, "nat")
        return self.introduced(place, wanted, 0)

    def ways(self, wanted, fuel):
        if fuel <= 0:
            return [lambda place, wanted, fuel: self.simple(place, wanted)]
        ways = [self.introduced, self.introduced, self.eliminated, self.eliminated,
                self.eliminated, self.local, self.transported]
        return ways + [lambda place, wanted, fuel: self.simple(place, wanted)]

    def introduced(self, place, wanted, fuel):
        word, *kids = wanted
        if word == "nat":
            if fuel <= 0:
                return self.simple(place, wanted)
            return self.choose.choice([self.successor, self.recursion])(place, fuel)
        if word == "U":
            return self.choose.choice([self.numbers, self.binding, self.paths])(place, fuel)
        if word == "pi":
            name = self.fresh(NAMES)
            inner = place.under(Entry("variable", name, kids[0]))
            tele = ([name], self.written(place, kids[0]))
            return ("lambda", [tele], self.term(inner, kids[1], fuel - 1))
        if word == "sig":
            first = self.term(place, kids[0], fuel - 1)
            tree = Typing().check(place, first, kids[0])
            second = self.term(place, judge.MADE["at"](kids[1], tree), fuel - 1)
            if second[0] == "tuple" and self.choose.random() < 0.5:
                return ("tuple", [first, *second[1]])
            return ("tuple", [first, second])
        if word == "pathp":
            name = self.fresh(ENDS)
            inner = place.under(Entry("interval", name))
            return ("names", [name], self.written(inner, weakened(kids[1])))
        raise Stuck

    def successor(self, place, fuel):
        return applied(self.built_in(place, "suc"), self.term(place, NAT, fuel - 1))

    def recursion(self, place, fuel):
        families = [name for name, kind in self.seen(place) if kind == FAMILIES]
        name = self.fresh(NAMES)
        inner = place.under(Entry("variable", name, NAT))
        motive, tree = self.type(inner, min(1, fuel - 1))
        written = ("lambda", [([name], self.built_in(place, "nat"))], motive)
        if families and self.choose.random() < 0.7:
            written = ("id", self.choose.choice(families))
            tree = Typing().motive(place, written)
        next_one = judge.push(judge.shift_by(2), ("suc", ("var", 1)))
        step = ("pi", NAT, ("pi", tree, judge.apply(tree, next_one)))
        arguments = [
            written,
            self.term(place, judge.MADE["at"](tree, ("zero",)), fuel - 1),
            self.term(place, step, fuel - 1),
            self.term(place, NAT, fuel - 1),
        ]
        return applied(self.built_in(place, "natrec"), *arguments)

    def eliminated(self, place, wanted, fuel):
        """A name, applied and projected until it has the type."""
        names = [name for name, kind in self.seen(place)
                 if kind and kind[0] in ("pi", "sig", "pathp")]
        if not names:
            raise Stuck
        found = ("id", self.choose.choice(names))
        for _ in range(4):
            _, kind = Typing().infer(place, found)
            if kind == wanted:
                return found
            if kind[0] == "pi":
                found = applied(found, self.term(place, kind[1], fuel - 1))
            elif kind[0] == "sig":
                found = ("project", found, [self.choose.choice([1, 2])])
            elif kind[0] == "pathp":
                found = ("apply", found, [("at", self.end(place, 2))])
            found = joined(found)
        raise Stuck

    def end(self, place, fuel):
        names = [("id", name) for name, _ in self.seen(place, ("interval",))]
        if fuel == 0 or self.choose.random() < 0.5:
            return self.choose.choice([("0",), ("1",), *names, *names])
        word = self.choose.choice(["-", "/\\", "\\/"])
        return (word, *(self.end(place, fuel - 1) for _ in range(1 if word == "-" else 2)))

    def local(self, place, wanted, fuel):
        inner, definitions = self.definitions(place, self.choose.choice([1, 2]), fuel - 2)
        return ("let", definitions, self.term(inner, wanted, fuel - 1))

    def transported(self, place, wanted, fuel):
        lines = [name for name, kind in self.seen(place) if kind[:2] == ("pathp", U)]
        if lines and self.choose.random() < 0.5:
            line = ("id", self.choose.choice(lines))
            start = Typing().infer(place, ("apply", line, [("at", ("0",))]))[0]
            return ("transport", line, self.term(place, start, fuel - 1))
        name = self.fresh(ENDS)
        inner = place.under(Entry("interval", name))
        line = ("names", [name], self.written(inner, weakened(wanted)))
        return (self.choose.choice(["transport", "comp"]), line, self.term(place, wanted, fuel - 1))

    # definitions

    def definitions(self, place, count, fuel):
        made = []
        for name in self.choose.sample(NAMES, count):
            made.append(self.definition(place, name, fuel))
            place = Typing().define(place, made[-1])
        return place, made

    def definition(self, place, name, fuel):
        inner, teles = place, []
        for _ in range(self.choose.choice([0, 0, 1, 2])):
            names = [self.fresh(NAMES + ["_"]) for _ in range(self.choose.choice([1, 1, 2]))]
            written, tree = self.type(inner, max(fuel - 1, 0))
            teles.append((names, written))
            for bound in names:
                inner = inner.under(Entry("variable", bound, tree))
                tree = weakened(tree)
        written, tree = self.type(inner, max(fuel, 0))
        where = []
        if fuel > 1 and self.choose.random() < 0.2:
            inner, where = self.definitions(inner, self.choose.choice([1, 2]), fuel - 2)
        return Definition(name, teles, written, self.term(inner, tree, fuel), where)


def applied(head, *arguments):
    return ("apply", head, [("argument", argument) for argument in arguments])


def joined(found):
    """An application of an application as one, and so for projections."""
    form, head, rest = found
    return (form, head[1], head[2] + rest) if head[0] == form else found


def direct_module(choose):
    """The text of a module `M` whose definitions are direct."""
    while True:
        try:
            count, fuel = choose.choice([2, 3, 4, 5]), choose.choice([1, 2, 3])
            _, definitions = Maker(choose).definitions(Place(), count, fuel)
            return Printer(choose).module("M", [], definitions)
        except (NotDirect, Stuck, OutOfScope):
            pass


# Parts exchanged.


NO_FORMS = ("argument", "at", "0", "1", "-", "/\\", "\\/")


def parts_of(thing, path=()):
    """The expressions in a thing, by the ways that lead to them."""
    if isinstance(thing, Definition):
        for field in ("teles", "type", "body", "where"):
            yield from parts_of(getattr(thing, field), (*path, field))
    elif isinstance(thing, (tuple, list)):
        word = thing[0] if isinstance(thing, tuple) and thing else None
        if isinstance(word, str) and word not in NO_FORMS:
            yield path, thing
        for number, part in enumerate(thing):
            if not (isinstance(thing, tuple) and thing[:1] == ("at",)):
                yield from parts_of(part, (*path, number))


def exchanged(thing, path, part):
    if not path:
        return part
    first, *rest = path
    if isinstance(thing, Definition):
        return Definition(**{**vars(thing), first: exchanged(getattr(thing, first), rest, part)})
    return type(thing)(exchanged(old, rest, part) if number == first else old
                       for number, old in enumerate(thing))


def mutated(choose, definitions):
    """The definitions with one part exchanged for another one, or for a small one."""
    parts = list(parts_of(definitions))
    path, _ = choose.choice(parts)
    small = [U, ("id", "nat"), ("id", "zero"), ("id", "suc"), ("id", choose.choice(NAMES)),
             ("fill", ("names", ["i"], ("id", "nat")), ("id", "zero"))]
    part = choose.choice(parts)[1] if choose.random() < 0.5 else choose.choice(small)
    return exchanged(definitions, path, part)


# What is expected, and what is seen.


def expected(modules):
    """The line that `check` prints of the last module where all is right, the file and the place of
    the first definition that is not direct, if any, and the judgements of the roots. A name that is
    out of scope is raised.
    """
    scopes, typing = {}, Typing()
    for name, imports, definitions, _ in modules:
        scope_definitions(reached(modules, imports, scopes, "names"), definitions)
        names = [Entry("definition", definition.name) for definition in definitions]
        scopes[name] = {"names": names}
    count = sum(len(definitions) for _, _, definitions, _ in modules)
    line = f"yes: {count} definitions\n"
    for name, imports, definitions, places in modules:
        place = reached(modules, imports, scopes, "typed")
        for definition, at in zip(definitions, places):
            try:
                place = typing.define(place, definition)
            except NotDirect:
                return line, (name, at), []
        scopes[name]["typed"] = place[len(place) - len(definitions):]
    return line, None, typing.stated


def is_refused_behind(printed, modules, name, at):
    """Whether a line refuses a definition that is not before the one of a place."""
    found = re.match(r"no: (\w+) at (\d+) in (\w+)\.ctt\n", printed)
    if not found or found[1] not in OF_DEFINITIONS:
        return False
    names = [module[0] for module in modules]
    return (names.index(found[3]), int(found[2])) >= (names.index(name), at)


def reached(modules, imports, scopes, kind):
    found = set(imports)
    for name, others, _, _ in reversed(modules):
        if name in found:
            found |= set(others)
    return Place(entry for name, _, _, _ in modules if name in found
                 for entry in scopes[name][kind])


def roots(lines):
    rows = judge.meanings(lines)
    if len(rows) < len(lines):
        return f"row {len(rows)} is not right"
    return [rows[int(line[2:])][1] for line in lines if line.startswith("r ")]


def made(choose):
    """Modules, each after those that it imports: its name, its imports, its definitions, where
    their names stand, and its text.
    """
    modules, place = [], Place()
    names = ["M", "N", "O"][3 - choose.choice([1, 1, 2, 3]):]
    scopes = {}
    for number, name in enumerate(names):
        imports = names[:number]
        if number + 1 < len(names):
            imports = [other for other in imports if choose.random() < 0.7]
        place = reached([module[:4] for module in modules], imports, scopes, "typed")
        count, fuel = choose.choice([1, 2, 3]), choose.choice([1, 2, 3])
        _, definitions = Maker(choose).definitions(place, count, fuel)
        if choose.random() < 0.25:
            definitions = mutated(choose, definitions)
        printer = Printer(choose)
        text = printer.module(name, imports, definitions)
        inner = scope_definitions(place, definitions)
        try:
            inner = Typing().block(place, definitions)
        except NotDirect:
            pass
        scopes[name] = {"typed": inner[len(inner) - len(definitions):]}
        modules.append((name, imports, definitions, printer.places, text))
    return modules


def seen(program, folder, modules):
    """What differs from what is expected; none where nothing does."""
    for name, _, _, _, text in modules:
        pathlib.Path(folder, f"{name}.ctt").write_text(text)
    line, first, judgements = expected([module[:4] for module in modules])
    last = modules[-1][0]
    printed = run(program, folder, "check", last)
    stored = pathlib.Path(folder, f"{last}.drv")
    if first and is_refused_behind(printed, modules, *first):
        return "a file is stored" if stored.exists() else None
    if printed != line:
        return f"printed {printed!r}, expected {line!r}"
    if first:
        again = run(program, folder, "replay", stored.name, "--of", last)
        return None if again.startswith("yes") else f"replay printed {again!r}"
    wanted = [judgement for context, kind, body in judgements
              for judgement in (("Ty", context, kind), ("Tm", context, body, kind))]
    found = roots(stored.read_text().splitlines())
    if found != wanted:
        return f"roots {found}, expected {wanted}"
    again = run(program, folder, "replay", stored.name, "--of", last)
    is_so = again.startswith("yes") and again.endswith(f" {len(wanted)} roots\n")
    return None if is_so else f"replay printed {again!r}"


def run(program, folder, *words):
    ran = subprocess.run([program, *words], cwd=folder, capture_output=True, text=True, timeout=120)
    return ran.stdout


def main():
    if len(sys.argv) < 2:
        sys.exit(__doc__.strip())
    program = str(pathlib.Path(sys.argv[1]).resolve())
    count = int(sys.argv[2]) if len(sys.argv) > 2 else 1000
    first = int(sys.argv[3]) if len(sys.argv) > 3 else 0
    told = {"yes": 0, "no": 0, "out of scope": 0, "not made": 0, "different": 0}
    for seed in range(first, first + count):
        try:
            modules = made(random.Random(seed))
        except (NotDirect, Stuck):
            told["not made"] += 1
            continue
        except OutOfScope:
            told["out of scope"] += 1
            continue
        with tempfile.TemporaryDirectory() as folder:
            try:
                different = seen(program, folder, modules)
            except OutOfScope:
                told["out of scope"] += 1
                continue
            if different:
                print(f"seed {seed}: {different}")
                for module in modules:
                    print(module[4])
            stored = pathlib.Path(folder, f"{modules[-1][0]}.drv").exists()
            told["different" if different else "yes" if stored else "no"] += 1
    print(", ".join(f"{word}: {number}" for word, number in told.items()))
    sys.exit(told["different"] > 0)


if __name__ == "__main__":
    main()
