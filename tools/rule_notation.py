"""The rules of `rules.txt`, read: each a name, parts, premises, side conditions and a conclusion.

A thing in a rule (a tree, a substitution, a context) is a tuple of a word and what stands below it.
"""
import pathlib
import re

RULES = pathlib.Path(__file__).resolve().parent / "rules.txt"

# Words within a rule's name, as they stand in the names of variants.
WORDS = {
    "tyeq": "TyEq", "tmeq": "TmEq", "wkname": "WkName", "wkface": "WkFace", "tycong": "TyCong",
    "ucong": "UCong", "papp": "PApp", "plam": "PLam", "natrec": "NatRec", "tyleft": "TyLeft",
    "tyright": "TyRight", "tyface": "TyFace", "uface": "UFace",
}

# The operators: the variant of `Op`, and for each kid how many variables or names it binds.
OPERATORS = {
    "i0": ("I0", ""), "i1": ("I1", ""), "neg": ("Neg", "0"), "min": ("Min", "00"),
    "max": ("Max", "00"), "f0": ("F0", ""), "f1": ("F1", ""), "eq0": ("Eq0", "0"),
    "eq1": ("Eq1", "0"), "meet": ("Meet", "00"), "join": ("Join", "00"), "all": ("All", "1"),
    "U": ("U", ""), "pi": ("Pi", "01"), "lam": ("Lam", "01"), "app": ("App", "00"),
    "sig": ("Sig", "01"), "pair": ("Pair", "00"), "fst": ("Fst", "0"), "snd": ("Snd", "0"),
    "pathp": ("PathP", "100"), "plam": ("PLam", "1"), "papp": ("PApp", "00"), "nat": ("Nat", ""),
    "zero": ("Zero", ""), "suc": ("Suc", "0"), "natrec": ("NatRec", "1000"),
    "sys": ("Sys", "0000"), "empty": ("Empty", ""), "comp": ("Comp", "1010"),
    "Glue": ("GlueType", "0000"), "glue": ("Glue", "000"), "unglue": ("Unglue", "0000"),
}
BINDS = {word: [int(bind) for bind in binds] for word, (_, binds) in OPERATORS.items()}

# Trees that are made of others: their parts, and what they are.
DERIVED = {"motive_step": (["P"], "pi nat (pi P P[push (shift 2) (suc (var 1))])")}

# Trees that programs of their own make, and how many trees each is made of.
CALLED = {
    "equiv": 2, "comp_pi": 5, "comp_sig": 5, "comp_path": 6, "comp_glue": 7, "comp_u": 3,
}

# The kinds of parts; those of other letters are trees.
KINDS = {"G": "Context", "H": "Context", "K": "Context", "d": "Subst", "e": "Subst"}

TOKEN = re.compile(r"\s*(\[\]|\w+|[][(){}.+;:=,]|>>)")
SIDE = re.compile(r"\w+\([^)]*\)")
LIKE = "premises of "


class Rule:
    """A rule, with its family and its text.

    `model` is the rule that it is as, with another operator, and `like` the one whose premises it
    has, if any. The texts of premises and side conditions are kept.
    """

    def __init__(self, family, text, rules, model=None):
        self.family, self.text, self.model = family, text, model
        self.name, parts, premises, gives = (" ".join(part.split()) for part in text.split("|"))
        wants, _, sides = premises.partition(" if ")
        self.like = rules[wants.removeprefix(LIKE)] if wants.startswith(LIKE) else None
        self.parts = parts.split()
        self.want_texts = self.like.want_texts if self.like else split(wants)
        self.side_texts, self.gives_text = SIDE.findall(sides), gives
        self.wants = [judgement(Reader(want)) for want in self.want_texts]
        self.sides = [side(one) for one in self.side_texts]
        self.gives = judgement(Reader(gives))
        words = self.name.split(".")
        self.variant = "".join(WORDS.get(word, word.capitalize()) for word in words)

    def kinds(self):
        return [KINDS.get(part, "Term") for part in self.parts]


class Family:
    """A family of rules: its variant of `RuleName`, its enum, its word in names of functions."""

    def __init__(self, variant, enum, word):
        self.variant, self.enum, self.word = variant, enum, word
        self.about, self.rules = None, []


def split(wants):
    """The texts of premises."""
    return [want.strip() for want in wants.split(";") if want.strip()]


def families():
    """The families of `rules.txt`. A line that is indented goes on with the one before."""
    lines, found, rules = [], [], {}
    for line in RULES.read_text().splitlines():
        if line.startswith("  "):
            lines[-1] += "\n" + line
        elif line.strip() and not line.startswith("#"):
            lines.append(line)
    for line in lines:
        if line.startswith("family "):
            found.append(Family(*line.split()[1:]))
        elif found[-1].about is None:
            found[-1].about = line
        else:
            more = as_others if ": as " in line else one_rule
            found[-1].rules += more(found[-1], line, rules)
            rules |= {rule.name: rule for rule in found[-1].rules}
    return found


def one_rule(family, line, rules):
    return [Rule(family, line, rules)]


def as_others(family, line, rules):
    """The rules of a line `name, ..: as name, .., with operator`."""
    _, _, others = line.partition(": as ")
    others, _, own = others.rpartition(", with ")
    for model in (rules[other] for other in others.split(", ")):
        text = re.sub(rf"\b{model.name.split('.')[0]}\b", own, model.text)
        yield Rule(family, text, rules, model)


class Reader:
    """Reads the things of a text, one after the other."""

    def __init__(self, text):
        self.tokens, self.at = TOKEN.findall(text), 0

    def peek(self):
        return self.tokens[self.at] if self.at < len(self.tokens) else None

    def take(self, wanted=None):
        token = self.peek()
        if token is None or wanted not in (None, token):
            raise ValueError(f"{token} in {' '.join(self.tokens)}")
        self.at += 1
        return token

    def tree(self):
        """A variable, an operator or derived tree over its kids, or an atom."""
        word = self.peek()
        if word == "var":
            self.take()
            return ("var", int(self.take()))
        for form, count in (("make", len(OPERATORS.get(word, (None, ""))[1])),
                            ("derived", len(DERIVED.get(word, ([], None))[0])),
                            ("called", CALLED.get(word, 0))):
            if count:
                self.take()
                return (form, word, [self.atom() for _ in range(count)])
        return self.atom()

    def atom(self):
        """A part, an operator without kids or a tree in brackets, and what is done to it."""
        word = self.take()
        if word == "(":
            tree = self.tree()
            self.take(")")
        elif word in ("0", "1"):
            tree = ("make", "i" + word, [])
        else:
            tree = ("make", word, []) if word in OPERATORS else ("part", word)
        return self.marked(tree)

    def marked(self, tree):
        """A tree, and what is done to it by the marks that stand next."""
        while self.peek() in ("+", "{", "["):
            mark = self.take()
            if mark == "+":
                tree = ("weakened", tree)
            elif mark == "{":
                tree = ("at", tree, self.tree())
                self.take("}")
            else:
                tree = ("apply", tree, self.substitution())
                self.take("]")
        return tree

    def substitution(self):
        sub = self.substitution_atom()
        if self.peek() == "then":
            self.take()
            sub = ("then", sub, self.substitution_atom())
        return sub

    def substitution_atom(self):
        word = self.take()
        if word == "(":
            sub = self.substitution()
            self.take(")")
            return sub
        if word == "push":
            return ("push", self.substitution_atom(), self.atom())
        if word == "shift":
            return ("shift", int(self.take()))
        return {"id": ("id",), "up": ("up",)}.get(word, ("part", word))

    def context(self):
        word = self.take()
        ctx = ("nil",) if word == "[]" else ("part", word)
        while self.peek() == ".":
            self.take()
            if self.peek() == "I":
                self.take()
                ctx = ("with_name", ctx)
            else:
                entry = "with_face" if self.peek() in ("p", "q") else "with_var"
                ctx = (entry, ctx, self.atom())
        return ctx


def judgement(reader):
    """The judgement of a reader's whole text: its form, and its places in order."""
    if "to" in reader.tokens:
        sub = reader.substitution()
        reader.take(":")
        target = reader.context()
        reader.take("to")
        return ("Sb", [target, sub, reader.context()])
    if reader.peek() == "ctx":
        reader.take()
        return ("Ctx", [reader.context()])
    places, form = [reader.context()], "Ty"
    reader.take(">>")
    places.append(reader.tree())
    for mark, forms in (("=", {"Ty": "TyEq"}), (":", {"Ty": "Tm", "TyEq": "TmEq"})):
        if reader.peek() == mark:
            reader.take()
            places.append(reader.tree())
            form = forms[form]
    if reader.peek() is not None:
        raise ValueError(" ".join(reader.tokens))
    return (form, places)


def side(text):
    """A side condition: its form, and its places in order."""
    form, _, inside = text[:-1].partition("(")
    first, *others = inside.split(", ")
    read = Reader.substitution if form == "Alike" else Reader.tree
    return (form, [Reader(first).context()] + [read(Reader(other)) for other in others])
