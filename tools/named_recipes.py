"""Recipes in which variables and names have words of their own, and plumbing is left out.

The sections are those of `recipe_notation`, but for `steps` in the place of `rows`:

    from
      ctx G
      i >> A
      i, x : A >> B
    let
      over x : A(1), i
        back = fill (j. A(neg j)) f0 (j. empty) x i
    steps
      over x : A(1), i
        use fill (j. A(neg j)) f0 (j. empty) x i giving typing zero
        B(i, back(neg i))
        back(0) : A(neg (neg 0)) = A(0)                           as start

A context is the entries past G: a name, `x : A`, or a face in braces. A part and what `let` names
stand for trees over the entries of where they were first: `B(r, a)` has these in their places, the
innermost last; an entry that is left out is that of its own name. `(x. B)` binds.

A line is a judgement, or several: `a = b = c : A` is one equation after the other, and `a : A = B`
a typing at both types. Where it says no more, `recipe_search` finds a way to it. `by` names the
last rule, `of` steps that are premises of it, in order and without contexts and substitutions (`_`
for one to be found), and `at` those of its parts that neither the line nor these name.
"""
import re

from kan_things import kan_thing
from normal_forms import unknown
from recipe_notation import Node, Normals, Recipe, lines, written_out
from recipe_search import Search, Stuck, key
from rule_notation import BINDS, OPERATORS

# How many variables or names the parts of the words of `kan_things` bind.
WORDS = {
    "fill": "10100", "back": "100", "contr": "0000", "ext": "000000", "pres": "111010",
    "comp_pi": "12010", "comp_sig": "12010", "comp_path": "211010", "comp_glue": "1111010",
    "glue_fiber": "11110100", "eqv": "1", "eqv_u": "100", "eqv_v": "100", "eqv_m": "10000",
    "eqv_n": "100000", "eqv_o": "1000", "fiber": "0000", "is_contr": "0", "equiv": "00",
    "is_equiv": "000", "comp_u": "010",
}
TOKEN = re.compile(r"\s*(\w+\((?!\w+\. )|\w+\.(?= )|\w+|[](){}.:=,])")
LINE = re.compile(r"(.*?)(?:\s+by (\S+))?(?:\s+of ([\w. ]+?))?(?:\s+at (.*?))?(?:\s+as (\w+))?$")
USE = re.compile(r"use (\w+)(.*?)(?: giving ([\w ]+?))?(?: as (\w+))?$")


class Reader:
    """Reads things whose variables have the names of `here`, the innermost last."""

    def __init__(self, recipe, text, here):
        self.recipe, self.tokens, self.at, self.here = recipe, TOKEN.findall(text), 0, list(here)
        if "".join(self.tokens) != re.sub(r"\s", "", text):
            raise ValueError(text)

    def peek(self):
        return self.tokens[self.at] if self.at < len(self.tokens) else None

    def take(self, wanted=None):
        token = self.peek()
        if token is None or wanted not in (None, token):
            raise ValueError(f"{token} in {' '.join(self.tokens)}")
        self.at += 1
        return token

    def tree(self):
        word = self.peek()
        if word in WORDS:
            self.take()
            args = [self.under(int(count)) for count in WORDS[word]]
            if word == "equiv":
                return written_out(("called", word, args))
            return kan_thing(word, args)
        if OPERATORS.get(word, (None, ""))[1]:
            self.take()
            return ("make", word, [self.under(count) for count in BINDS[word]])
        return self.atom()

    def under(self, count):
        """A kid that binds so many."""
        if not count:
            return self.atom()
        self.take("(")
        for _ in range(count):
            self.here.append(self.take().rstrip("."))
        tree = self.tree()
        self.take(")")
        del self.here[-count:]
        return tree

    def atom(self):
        word = self.take()
        if word == "(":
            tree = self.tree()
            self.take(")")
            return tree
        if word in ("0", "1"):
            return ("make", "i" + word, [])
        args = []
        if word.endswith("("):
            word = word[:-1]
            args.append(self.tree())
            while self.peek() == ",":
                self.take()
                args.append(self.tree())
            self.take(")")
        elif word in OPERATORS:
            return ("make", word, [])
        return self.named(word, args)

    def whole(self):
        """The tree of the whole text."""
        tree = self.tree()
        if self.peek() is not None:
            raise ValueError(" ".join(self.tokens))
        return tree

    def variable(self, name):
        return ("var", self.here[::-1].index(name))

    def named(self, word, args):
        if word in self.here and not args:
            return self.variable(word)
        if word not in self.recipe.things and word in self.recipe.parts:
            self.recipe.things[word] = (("part", word), list(self.here))
        thing, home = self.recipe.meaning(word)
        args = [self.variable(name) for name in home[:len(home) - len(args)]] + args
        shift = len(self.here)
        while args and args[0] == ("var", shift - 1):
            args, shift = args[1:], shift - 1
        sub = ("shift", shift)
        for arg in args:
            sub = ("push", sub, arg)
        return self.recipe.spelled(thing if sub == ("shift", 0) else ("apply", thing, sub))


class Context:
    """A context, as a thing, and the names of its entries."""

    def __init__(self, recipe, text=""):
        self.thing, self.names = ("part", "G"), []
        for entry in split(text.strip().removeprefix("G").strip(" ,")):
            name, is_typed, said = entry.partition(" : ")
            if entry.startswith("{"):
                face = Reader(recipe, entry[1:-1], self.names).tree()
                self.thing = ("with_face", self.thing, face)
                continue
            if is_typed:
                self.thing = ("with_var", self.thing, Reader(recipe, said, self.names).tree())
            else:
                self.thing = ("with_name", self.thing)
            self.names = [*self.names, name]


def split(text):
    """The entries of a context: commas in brackets part nothing."""
    found, deep, at = [], 0, 0
    for place, letter in enumerate(text + ","):
        deep += (letter in "({") - (letter in ")}")
        if letter == "," and not deep:
            if text[at:place].strip():
                found.append(text[at:place].strip())
            at = place + 1
    return found


class NamedRecipe(Recipe):
    """A recipe that is written so, over earlier ones by their names."""

    def read(self, sections):
        self.things, self.spelled_as, self.formulas = {}, {}, set()
        self.normals, self.places, self.texts = Normals(unknown(self.parts)), {}, {}
        self.lets = {}
        for over, line in blocks(sections.get("let", "")):
            name, _, text = line.partition(" = ")
            self.lets[name] = (over, text)
        self.wants = []
        for line in lines(sections["from"]):
            self.wants.append(self.wanted_line(line))
        for line in lines(sections.get("if", "")):
            self.side(line)
        homes = {part: len(self.things[part][1]) for part in self.parts if part in self.things}
        self.search = Search(self.rules, homes, self.formulas)
        for name in list(self.lets):
            self.meaning(name)
        for at, want in enumerate(self.wants):
            self.search.add("premise", at, [], key(self.normals.judgement(want)))
        for over, line in blocks(sections["steps"]):
            self.step(Context(self, over), line)
        self.outs = [self.out(line) for line in lines(sections["gives"])]
        self.nodes_of_steps()

    def meaning(self, name):
        """What a part or a name of `let` stands for, and over which entries."""
        if name not in self.things:
            over, text = self.lets[name]
            names = Context(self, over).names
            self.things[name] = (self.spelled(Reader(self, text, names).whole()), names)
        return self.things[name]

    def wanted_line(self, line):
        line, _, name = line.partition(" as ")
        if name:
            self.places[name] = len(self.wants)
        if line == "ctx G":
            return ("Ctx", [("part", "G")])
        over, _, said = line.partition(">> ")
        return self.said_in(Context(self, over), said)

    def side(self, line):
        """`face q over i`, or `formula r`."""
        kind, part, *over = line.split(maxsplit=2)
        ctx = Context(self, over[0].removeprefix("over ") if over else "")
        Reader(self, part, ctx.names).whole()
        if kind == "formula":
            self.formulas.add(part)

    def said_in(self, ctx, text):
        """A judgement over a context."""
        trees, types = self.sides_of(ctx, text)
        form = (("Tm", "TmEq") if types else ("Ty", "TyEq"))[len(trees) - 1]
        return (form, [ctx.thing, *trees, *types])

    def sides_of(self, ctx, text):
        """The trees of a line, and their types."""
        sides, *of = parted(text, " : ")
        return [[Reader(self, one, ctx.names).whole() for one in parted(some, " = ")]
                for some in (sides, *of)] + ([] if of else [[]])

    def step(self, ctx, line):
        search = self.search
        search.begin()
        used = USE.match(line)
        if used:
            return self.use(ctx, *used.groups())
        text, rule, of, at, name = LINE.match(line).groups()
        try:
            if rule is None:
                here, *sides = map(self.normals.of, [ctx.thing]), *self.sides_of(ctx, text)
                found = search.chain(*here, *[[*map(self.normals.of, some)] for some in sides])
            else:
                wanted = key(self.normals.judgement(self.said_in(ctx, text)))
                given = [None if one == "_" else self.places[one] for one in (of or "").split()]
                found = search.by_rule(self.rules[rule], wanted, given, self.more(ctx, at or ""))
        except Stuck:
            raise ValueError(f"{self.name}: no way to {line}")
        self.texts[found] = text
        if name:
            self.places[name] = found

    def more(self, ctx, text):
        """The parts that stand after `at`, as what makes each a normal form."""
        return [self.one_more(ctx, one) for one in split(text)]

    def one_more(self, ctx, text):
        """A tree, or the trees that a substitution pushes, in brackets with commas."""
        inside = split(text[1:-1]) if text[0] + text[-1] == "()" else []
        if len(inside) > 1 or text.endswith(",)"):
            return [self.one_more(ctx, one) for one in inside]
        bound = re.match(r"\(((?:\w+\. )+)", text)
        count = bound.group(1).count(".") if bound else 0
        reader = Reader(self, text, ctx.names)
        return self.normals.of(reader.under(count) if count else reader.whole())

    def use(self, ctx, name, args, giving, label):
        recipe = self.earlier[name]
        reader = Reader(self, args, ctx.names)
        parts = [ctx.thing if kind == "Context" else reader.under(count)
                 for kind, count in zip(recipe.kinds(), recipe.binders())]
        if reader.peek() is not None:
            raise ValueError(args)
        forms = [self.normals.of(part) for part in parts]
        at = self.search.by_recipe(recipe, forms)
        there = Normals(dict(zip(recipe.parts, forms)))
        for one in giving.split() if giving else recipe.gives:
            said = key(there.judgement(recipe.gives[one]))
            self.places[f"{label or name}.{one}"] = self.search.add("given", one, [at], said)

    def binders(self):
        """How many entries each part stands under."""
        return [len(self.things[part][1]) if part in self.things else 0 for part in self.parts]

    def out(self, line):
        label, *name = line.split()
        return (label, str(self.places[name[0] if name else label]))

    # Normal forms as things, written as the source writes them where it does.

    def spelled(self, thing):
        self.spelled_as.setdefault(self.normals.of(thing), thing)
        return thing

    def thing_of(self, form):
        found = self.spelled_as.get(form)
        if found is None:
            found = self.spelled_as[form] = self.made_of(form)
        return found

    def made_of(self, form):
        word, *rest = form.word, *form.rest
        if word == "ctx":
            return ("part", rest[0])
        if word == "var":
            return ("var", rest[0])
        if word == "part":
            sub = self.made_of(rest[1])
            return ("part", rest[0]) if sub == ("shift", 0) else ("apply", ("part", rest[0]), sub)
        if word == "make":
            return ("make", rest[0], [self.thing_of(kid) for kid in rest[1]])
        if word == "sub":
            sub = ("shift", rest[1])
            for tree in reversed(rest[0]):
                sub = ("push", sub, self.thing_of(tree))
            return sub
        return (word, *[self.thing_of(part) for part in rest])

    def nodes_of_steps(self):
        """The steps as nodes. Premises that none uses are left out."""
        used = {at for step in self.search.steps for at in step.premises}
        used |= {int(name) for _, name in self.outs}
        self.nodes, self.said = [], {}
        for at, step in enumerate(self.search.steps):
            if step.rule == "premise" and at not in used:
                continue
            node = Node(str(at), self.texts.get(at), "", [str(one) for one in step.premises])
            if isinstance(step.rule, str):
                node.word, node.at = step.rule, step.parts
            else:
                node.word = "recipe" if isinstance(step.rule, Recipe) else step.rule.name
                node.rule, node.parts = step.rule, [self.thing_of(part) for part in step.parts]
            if step.said is not None:
                self.said[node.name] = (step.said[0], list(step.said[1:]))
            self.nodes.append(node)
        self.gives = {}
        for label, name in self.outs:
            word, places = self.said[name]
            self.gives[label] = (word, [self.thing_of(place) for place in places])


def blocks(section):
    """The lines of a section, each with the context that it stands over."""
    over = ""
    for line in lines(section):
        if line.startswith("over "):
            over = line.removeprefix("over ")
        else:
            yield over, line


def parted(text, mark):
    """What stands between marks that are in no brackets."""
    found, deep, at = [], 0, 0
    for place, letter in enumerate(text):
        deep += (letter in "({") - (letter in ")}")
        if not deep and text.startswith(mark, place):
            found.append(text[at:place])
            at = place + len(mark)
    return [*found, text[at:]]
