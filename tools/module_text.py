"""Reads the text of modules: tokens, layout and grammar as `docs/LANGUAGE.md` has them.

For modules that read: what is refused, and where, is not told. Expressions are tuples as those of
`direct.py`, with a list of sides after the base of `comp` and `fill`, and ("Glue", A, sides),
("glue", a, sides), ("unglue", b, sides). A side is its equations, each a name and "0" or "1", and
its expression.
"""
import re

from direct import Definition

TOKEN = re.compile(r"(?P<skip>\s+|--[^\n]*|\{-.*?-\})|(?P<word>[^\W\d][\w']*)"
                   r"|(?P<mark>->|/\\|\\/|\.1|\.2|[()\[\],:=@*<>\\01-])", re.S)
LINES = ("PathP", "comp", "fill", "transport", "Glue", "glue", "unglue")


class Token:
    """A token: its column, and whether it is first on its line."""

    def __init__(self, text, column, first, is_word):
        self.text, self.column, self.first, self.is_word = text, column, first, is_word


def tokens(text):
    """The tokens of a text, with their columns, and whether they are first on their lines."""
    found, at, column, first = [], 0, 1, True
    while at < len(text):
        match = TOKEN.match(text, at)
        if not match:
            raise ValueError(text[at:at + 20])
        if match.lastgroup != "skip":
            found.append(Token(match[0], column, first, match.lastgroup == "word"))
            first = False
        for letter in match[0]:
            if letter == "\n":
                column, first = 1, True
            else:
                column = (column - 1) // 8 * 8 + 9 if letter == "\t" else column + 1
        at = match.end()
    return found


def laid_out(found):
    """The tokens as texts, with the marks of blocks."""
    out, blocks, opens, closed = [], [], None, False
    for token in found:
        top = blocks[-1][0] if blocks else 0
        closed = False
        if opens:
            if token.column > top and token.text != "in":
                blocks.append((token.column, opens == "let"))
                out += ["{", token]
                opens = token.text if token.text in ("where", "let") else None
                continue
            out += ["{", "}"]
            closed = opens == "let"
        if token.text == "in":
            while not closed and any(by_let for _, by_let in blocks):
                out.append("}")
                closed = blocks.pop()[1]
        elif token.first:
            while blocks and token.column < blocks[-1][0]:
                blocks.pop()
                out.append("}")
            if blocks and token.column == blocks[-1][0]:
                out.append(";")
        out.append(token)
        opens = token.text if token.text in ("where", "let") else None
    return out + (["{", "}"] if opens else []) + ["}"] * len(blocks)


class Parser:
    """Reads a module: each function reads what its name says."""

    def __init__(self, text):
        self.marks, self.at = laid_out(tokens(text)), 0

    def peek(self, past=0):
        at = self.at + past
        one = self.marks[at] if at < len(self.marks) else None
        return one.text if isinstance(one, Token) else one

    def take(self, wanted=None):
        text = self.peek()
        if text is None or wanted not in (None, text):
            raise ValueError(f"{text} for {wanted}")
        self.at += 1
        return text

    def took(self, wanted):
        if self.peek() == wanted:
            self.at += 1
            return True
        return False

    def is_name(self, past=0):
        at = self.at + past
        one = self.marks[at] if at < len(self.marks) else None
        return isinstance(one, Token) and one.is_word and one.text not in (
            "module", "where", "import", "let", "in", "U", *LINES)

    def module(self):
        """The modules that it imports, and its definitions."""
        self.take("module")
        self.take()
        self.take("where")
        self.take("{")
        imports, found = [], []
        while not self.took("}"):
            if self.took("import"):
                imports.append(self.take())
            else:
                found.append(self.definition())
            self.took(";")
        return imports, found

    def definition(self):
        name, teles = self.take(), self.teles()
        self.take(":")
        kind = self.expression()
        self.take("=")
        body = self.expression()
        return Definition(name, teles, kind, body, self.block() if self.took("where") else [])

    def block(self):
        self.take("{")
        found = []
        while not self.took("}"):
            found.append(self.definition())
            self.took(";")
        return found

    def is_tele(self):
        past = 1
        while self.is_name(past):
            past += 1
        return self.peek() == "(" and past > 1 and self.peek(past) == ":"

    def teles(self):
        found = []
        while self.is_tele():
            self.take("(")
            names = []
            while not self.took(":"):
                names.append(self.take())
            found.append((names, self.expression()))
            self.take(")")
        return found

    def expression(self):
        if self.took("let"):
            found = self.block()
            self.take("in")
            return ("let", found, self.expression())
        if self.took("\\"):
            teles = self.teles()
            self.take("->")
            return ("lambda", teles, self.expression())
        if self.took("<"):
            names = []
            while not self.took(">"):
                names.append(self.take())
            return ("names", names, self.expression())
        return self.type()

    def type(self):
        if self.is_tele():
            teles = self.teles()
            form = "pi" if self.take() == "->" else "sigma"
            return (form, teles, self.type())
        left = self.applied()
        return ("arrow", left, self.type()) if self.took("->") else left

    def applied(self):
        head, elements = self.operator(), []
        while True:
            if self.took("@"):
                elements.append(("at", self.formula()))
            elif self.peek() in ("(", "U", *LINES) or self.is_name():
                elements.append(("argument", self.operator()))
            else:
                return ("apply", head, elements) if elements else head

    def operator(self):
        word = self.peek()
        if word not in LINES:
            return self.projected()
        self.take()
        if word == "PathP":
            return ("pathp", self.projected(), self.projected(), self.projected())
        parts = [self.projected()]
        if word in ("comp", "fill", "transport"):
            parts.append(self.projected())
        return (word, *parts, *([] if word == "transport" else [self.system()]))

    def projected(self):
        whole, numbers = self.atom(), []
        while self.peek() in (".1", ".2"):
            numbers.append(int(self.take()[1]))
        return ("project", whole, numbers) if numbers else whole

    def atom(self):
        if self.took("U"):
            return ("U",)
        if not self.took("("):
            return ("id", self.take())
        parts = [self.expression()]
        while self.took(","):
            parts.append(self.expression())
        self.take(")")
        return ("tuple", parts) if len(parts) > 1 else parts[0]

    def system(self):
        self.take("[")
        sides = []
        while not self.took("]"):
            equations = []
            while self.took("("):
                name = self.take()
                self.take("=")
                equations.append((name, self.take()))
                self.take(")")
            self.take("->")
            sides.append((equations, self.expression()))
            self.took(",")
        return sides

    def formula(self):
        return self.operands("\\/", lambda: self.operands("/\\", self.literal))

    def operands(self, mark, part):
        left = part()
        return (mark, left, self.operands(mark, part)) if self.took(mark) else left

    def literal(self):
        if self.took("-"):
            return ("-", self.literal())
        if self.took("("):
            inside = self.formula()
            self.take(")")
            return inside
        word = self.take()
        return (word,) if word in "01" else ("id", word)
