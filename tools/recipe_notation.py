"""Recipes as `recipes/*.txt` has them, read: things by name, and nodes line by line.

A recipe is `name | parts`, its premises after `from`, its side conditions after `if`, names of
things after `let`, its nodes after `rows`, and what it gives after `gives`. Where its last row is
a use of an earlier recipe, the premises of that may stand after `premises`. A node is

    number  judgement  by rule parts of nodes

or `by premise 0`, or `by given typing of 5`, what an earlier recipe gives that stands in a line

    number  by recipe fill parts of nodes

The notation is that of `rules.txt`; a face of a context stands in braces, as in `G.{p}`. Sources
with `steps` in the place of `rows` are those of `named_recipes`. A judgement that the rule does not
conclude at these parts, or a node that is none of its premises, ends the reading: both are compared
in normal form, with the parts unknown.
"""
import re

from kan_things import FOUND, kan_thing
from normal_forms import applied, form, sub_of, then, unknown
from rule_notation import DERIVED, KINDS, Reader, families, judgement

LINE = re.compile(r"(\w+)\s+(.*?)\s*by (\S+) ?(.*?)(?: of (.*))?$")


class Things(Reader):
    """Reads things whose names stand for others."""

    def __init__(self, text, names):
        super().__init__(text)
        self.names = names

    def tree(self):
        word = self.peek()
        if word in FOUND and word not in self.names and word != "equiv":
            self.take()
            return kan_thing(word, [self.atom() for _ in FOUND[word][0]])
        return written_out(super().tree())

    def named(self, thing):
        return self.names.get(thing[1], thing) if thing[0] == "part" else thing

    def atom(self):
        word = self.peek()
        if word in self.names:
            self.take()
            return self.marked(self.names[word])
        return super().atom()

    def substitution_atom(self):
        return self.named(super().substitution_atom())

    def context(self):
        word = self.take()
        ctx = ("nil",) if word == "[]" else self.named(("part", word))
        while self.peek() == ".":
            self.take()
            if self.peek() == "I":
                self.take()
                ctx = ("with_name", ctx)
            elif self.peek() == "{":
                self.take()
                ctx = ("with_face", ctx, self.tree())
                self.take("}")
            else:
                ctx = ("with_var", ctx, self.atom())
        return ctx

    def kind(self, kind):
        """A thing of a kind, as a part of a rule."""
        return {"Context": self.context, "Subst": self.substitution, "Term": self.atom}[kind]()


# Trees that are made of others, written out.


def replaced(thing, by):
    """A thing with these in the place of its parts."""
    if isinstance(thing, list):
        return [replaced(part, by) for part in thing]
    if not isinstance(thing, tuple):
        return thing
    if thing[0] == "part":
        return by.get(thing[1], thing)
    return tuple(replaced(part, by) for part in thing)


def written_out(thing):
    if thing[0] == "derived":
        parts, text = DERIVED[thing[1]]
        return replaced(Reader(text).tree(), dict(zip(parts, thing[2])))
    if thing[:2] == ("called", "equiv"):
        return replaced(EQUIV, dict(zip("TA", thing[2])))
    if thing[0] == "called":
        return kan_thing(thing[1], thing[2])
    return thing


FIBER = "sig T[shift 2] (pathp A[shift 4] (var 1) (app (var 2) (var 0)))"
EQUIV = Things("sig (pi T A+) (pi A+ (sig F (pi F+ (pathp F[shift 3] (var 1) (var 0)))))",
               {"F": Things(FIBER, {}).tree()}).tree()


class Normals:
    """The normal forms of things, where parts are these normal forms."""

    def __init__(self, at):
        self.at, self.found = at, {}

    def of(self, thing):
        found = self.found.get(id(thing))
        if found is None:
            # the thing is kept with its normal form, so that no other takes its place
            found = self.found[id(thing)] = (thing, self.normal(thing))
        return found[1]

    def normal(self, thing):
        word, *rest = thing
        if word == "part":
            return self.at[rest[0]]
        if word == "var":
            return form("var", rest[0])
        if word == "make":
            return form("make", rest[0], tuple(self.of(kid) for kid in rest[1]))
        if word in ("derived", "called"):
            return self.of(written_out(thing))
        if word == "weakened":
            return applied(self.of(rest[0]), sub_of((), 1))
        if word == "at":
            return applied(self.of(rest[0]), sub_of((self.of(rest[1]),), 0))
        if word == "apply":
            return applied(self.of(rest[0]), self.of(rest[1]))
        if word in ("id", "up", "shift"):
            return sub_of((), rest[0] if rest else ("id", "up").index(word))
        if word == "push":
            pushed, end = self.of(rest[0]).rest
            return sub_of((self.of(rest[1]),) + pushed, end)
        if word == "then":
            return then(self.of(rest[0]), self.of(rest[1]))
        return form(word, *(self.of(part) for part in rest))

    def judgement(self, said):
        word, places = said
        return (word, [self.of(place) for place in places])


def normal(thing, at):
    return Normals(at).of(thing)


def normal_judgement(said, at):
    return Normals(at).judgement(said)


class Node:
    """A node of a recipe, or the use of an earlier one: what it concludes, and how.

    `rule` is a rule, an earlier recipe, or None for a premise of the recipe and for what an earlier
    recipe gives. Then `word` is `premise` or `given`, and `at` says which.
    """

    def __init__(self, name, text, word, premises):
        self.name, self.text, self.word, self.premises = name, text, word, premises
        self.rule, self.at, self.parts = None, None, []


class Recipe:
    """A recipe, over earlier ones by their names."""

    def __init__(self, text, earlier=None):
        self.earlier = earlier or {}
        self.rules = {rule.name: rule for family in families() for rule in family.rules}
        sections = re.split(r"^(from|if|let|rows|steps|gives|premises)\b", text, flags=re.M)
        head, sections = sections[0], dict(zip(sections[1::2], sections[2::2]))
        about, _, head = head.strip().rpartition("\n")
        self.about = [line.lstrip("# ") for line in about.splitlines()]
        self.name, parts = (part.strip() for part in head.split("|"))
        self.parts, self.names = parts.split(), {}
        self.premises = [line.split() for line in lines(sections.get("premises", ""))]
        self.read(sections)

    def read(self, sections):
        for line in lines(sections.get("let", "")):
            name, _, said = line.partition(" = ")
            self.names[name] = self.thing(said)
        self.read_rows(sections)
        said = {node.name: node.text for node in self.nodes}
        self.gives = {label: self.judgement(said[name]) for label, name in self.outs}
        self.check()

    def read_rows(self, sections):
        self.wants = [self.judgement(line) for line in lines(sections["from"])]
        self.sides = lines(sections.get("if", ""))
        self.nodes = [self.node(line) for line in lines(sections["rows"])]
        self.outs = [line.split() for line in lines(sections["gives"])]

    def wanted(self, node):
        """What a premise has to conclude."""
        return self.wants[int(node.at)]

    def kinds(self):
        return [KINDS.get(part, "Term") for part in self.parts]

    def binders(self):
        """How many entries each part stands under, where it is first typed."""
        under = {}
        for form, places in self.wants:
            if form in ("Ty", "Tm") and places[1][0] == "part":
                under.setdefault(places[1][1], entries(places[0]))
        for side in self.sides:
            over, _, part = side[:-1].partition("(")[2].partition(", ")
            under.setdefault(part, entries(self.thing(over)))
        return [under.get(part, 0) for part in self.parts]

    def judgement(self, said):
        return judgement(Things(said, self.names))

    def thing(self, said):
        """A thing of the kind that it looks like."""
        if re.match(r"(push|shift|id$|up$)", said):
            return Things(said, self.names).substitution()
        first = Things(said, self.names).named(("part", re.match(r"\w+|\[\]", said)[0]))
        is_context = first[0] in ("nil", "with_name", "with_face", "with_var")
        is_context |= first[0] == "part" and (first[1] == "[]" or KINDS.get(first[1]) == "Context")
        reader = Things(said, self.names)
        return reader.context() if is_context else reader.tree()

    def node(self, line):
        found = LINE.match(line)
        if not found:
            raise ValueError(line)
        name, text, word, rest, premises = found.groups()
        node = Node(name, text, word, (premises or "").split())
        if word in ("premise", "given"):
            node.at = rest
            return node
        if word == "recipe":
            word, _, rest = rest.partition(" ")
        node.rule = self.earlier[word] if node.word == "recipe" else self.rules[word]
        reader = Things(rest, self.names)
        node.parts = [reader.kind(kind) for kind in node.rule.kinds()]
        if reader.peek() is not None:
            raise ValueError(line)
        return node

    def check(self):
        """Whether each node is what its line says."""
        here, said, given = Normals(unknown(self.parts)), {}, {}
        self.normals, self.said = here, said
        for node in self.nodes:
            if node.text:
                said[node.name] = here.judgement(self.judgement(node.text))
            if node.word == "premise":
                gives = here.judgement(self.wanted(node))
            elif node.word == "given":
                gives = given[node.premises[0]][node.at]
            else:
                there = Normals(dict(zip(node.rule.parts, map(here.of, node.parts))))
                wants = [there.judgement(want) for want in node.rule.wants]
                assert [said[name] for name in node.premises] == wants, (self.name, node.name)
                if node.word == "recipe":
                    given[node.name] = {label: there.judgement(gives)
                                        for label, gives in node.rule.gives.items()}
                    continue
                gives = there.judgement(node.rule.gives)
            assert said[node.name] == gives, (self.name, node.name, node.text, gives)


def entries(ctx):
    """How many variables and names a context has."""
    if ctx[0] in ("with_name", "with_var"):
        return entries(ctx[1]) + 1
    return entries(ctx[1]) if ctx[0] == "with_face" else 0


def lines(section):
    """The lines of a section. A line that is indented further goes on with the one before."""
    found = []
    for line in section.splitlines():
        if line.startswith("      "):
            found[-1] += " " + line.strip()
        elif line.strip():
            found.append(line.strip())
    return found
