"""The trees of the Kan operations, read from `rules/specs/Table.antt`, where each stands once.

A tree that is defined there is made either by a program of its own, which others call, or in the
places of those that name it (`INLINE`).
"""
import pathlib
import re

ROOT = pathlib.Path(__file__).resolve().parent.parent
TABLE = ROOT / "crates" / "rules" / "specs" / "Table.antt"
BEGIN, END = "  -- The trees of the Kan operations", "  -- Written by tools/write_rules.py"

# Definitions that have no program of their own.
INLINE = {"along", "beside", "aside", "twice", "comp_of", "fill_of", "glue_sides", "eqv_v"}
# Those that the reader of this file knows: what they do with lists of sides.
KNOWN = {"side", "cover", "body", "over_name"}

TOKEN = re.compile(r"\s*(\[\]|[\w']+|[()∷;=])")
HEAD = re.compile(r"  abbrev pub (\w+) : (.*)")


def definitions():
    """The definitions: of each its name, its parts, and what it is."""
    text = TABLE.read_text()
    text = text[text.index(BEGIN):text.index(END)]
    text = re.sub(r"^ *--.*$", "", text, flags=re.M)
    found = {}
    for block in re.split(r"(?m)^(?=  abbrev pub )", text)[1:]:
        head, _, rest = block.partition("\n")
        name = HEAD.match(head).group(1)
        if name in KNOWN:
            continue
        clause, _, body = rest.strip().partition(" =")
        found[name] = (clause.split()[1:], Parser(body).expression())
    return found


class Parser:
    """Reads an expression: a `let`, a list, an application, or a name or number."""

    def __init__(self, text):
        self.tokens, self.at = TOKEN.findall(text), 0

    def peek(self):
        return self.tokens[self.at] if self.at < len(self.tokens) else None

    def take(self, wanted=None):
        token = self.peek()
        if token is None or wanted not in (None, token):
            raise ValueError(f"{token} in {' '.join(self.tokens)}")
        self.at += 1
        return token

    def expression(self):
        if self.peek() == "let":
            self.take()
            name = self.take()
            self.take("=")
            value = self.expression()
            self.take("in")
            return ("let", name, value, self.expression())
        head = self.application()
        if self.peek() == "∷":
            self.take()
            return ("cons", head, self.expression())
        return head

    def application(self):
        head, args = self.atom(), []
        while self.peek() not in (None, ")", "∷", "in", "="):
            args.append(self.atom())
        return ("apply", head, args) if args else head

    def atom(self):
        token = self.take()
        if token == "(":
            inside = self.expression()
            self.take(")")
            return inside
        return ("list",) if token == "[]" else ("name", token)


class Maker:
    """Makes lists of instructions of expressions."""

    def __init__(self, found, operators):
        self.found, self.operators = found, operators

    def make(self, expression, here):
        """What an expression makes, `here` being what names stand for."""
        word, *rest = expression
        if word == "let":
            name, value, body = rest
            return self.make(body, here | {name: self.make(value, here)})
        if word == "list":
            return []
        if word == "cons":
            return [self.make(rest[0], here)] + self.make(rest[1], here)
        if word == "name":
            return self.call(rest[0], [], here)
        return self.call(rest[0][1], [self.make(one, here) for one in rest[1]], here)

    def call(self, name, args, here):
        if name in here:
            return here[name]
        if name.isdigit():
            return int(name)
        if name in self.operators:
            return [self.operators[name]] + joined(args)
        if name in KNOWN:
            return getattr(self, name)(*args)
        basic = {"id": ["ID"], "up": ["UP"]}
        if name in basic:
            return basic[name]
        if name == "var":
            return [f"Var({args[0]})"]
        if name == "shift_by":
            return [f"Shift({args[0]})"]
        if name == "push":
            return ["Push"] + joined(args)
        if name == "apply":
            return ["Instance"] + joined(args)
        if name == "weakened":
            return ["Instance"] + args[0] + ["UP"]
        if name == "at":
            return ["Instance"] + args[0] + ["Push", "ID"] + args[1]
        letters, body = self.found[name]
        if name in INLINE:
            return self.make(body, dict(zip(letters, args)))
        return [name.upper()] + joined(args)

    def side(self, face, tree):
        return (face, tree)

    def cover(self, sides):
        if not sides:
            return ["NO_FACE"]
        return ["JOIN"] + sides[0][0] + self.cover(sides[1:])

    def body(self, sides):
        if not sides:
            return ["EMPTY"]
        face, tree = sides[0]
        return ["SYS"] + face + self.cover(sides[1:]) + tree + self.body(sides[1:])

    def over_name(self, sides):
        return [(["Instance"] + face + ["UP"], tree) for face, tree in sides]


def joined(lists):
    return [one for some in lists for one in some]


def variant(name):
    return "".join(word.capitalize() for word in name.split("_"))


class Derived:
    """A tree with a program of its own."""

    def __init__(self, name, parts, program):
        self.name, self.parts, self.program, self.variant = name, parts, program, variant(name)
        self.rank = self.rows = None


def derived_trees(operators):
    """The trees with programs, each after those that its program calls."""
    found = definitions()
    maker = Maker(found, operators)
    trees = {}
    for name, (letters, body) in found.items():
        if name in INLINE:
            continue
        parts = {letter: [f"{letter[0].upper()}{at}"] for at, letter in enumerate(letters)}
        one = Derived(name, letters, maker.make(body, parts))
        called = [tree for tree in trees.values() if tree.name.upper() in one.program]
        one.rank = 1 + max((tree.rank for tree in called), default=-1)
        one.rows = sum(rows_for(step, trees) for step in one.program)
        trees[name] = one
    return list(trees.values())


def rows_for(instruction, trees):
    """How many rows an instruction makes: none for a part, one for all but calls."""
    if re.fullmatch(r"[A-Z]\d+", instruction):
        return 0
    called = [tree.rows for tree in trees.values() if instruction == tree.name.upper()]
    return called[0] if called else 1
