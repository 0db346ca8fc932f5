"""What stands behind the conclusions of rules, as `recipes/behind` has it.

A source is a premise of a rule, by its number, or what stands behind it, by labels: `0`, `1.left`,
`1.context.type`. `at_hand.txt` has in each line a rule, a label and the source that it is. Another
file is of a rule, `name | parts`, which are those of the rule. It has its sources after `from`,
nodes after `rows` as in `recipe_notation.py`, whose premises are sources or earlier rows, and after
`gives` for each label the source or the row that it is.
"""
from recipe_notation import Node, Recipe, lines, normal_judgement, unknown
from rule_notation import families

# The labels, and their variants of `Label`.
LABELS = {
    "context": "Context", "type": "Type", "left": "Left", "right": "Right", "from": "From",
    "to": "To", "domain": "Domain", "codomain": "Codomain", "line": "Line",
    "left_end": "LeftEnd", "right_end": "RightEnd",
}


def behind_type(label, ctx, tree):
    """What stands behind `ctx >> tree`."""
    form, kids = tree[1:3] if tree[0] == "make" else (None, [])
    if form in ("pi", "sig"):
        return {"domain": ("Ty", [ctx, kids[0]]),
                "codomain": ("Ty", [("with_var", ctx, kids[0]), kids[1]])}.get(label)
    if form == "pathp":
        ends = {end: ("Tm", [ctx, kids[at], ("at", kids[0], ("make", word, []))])
                for end, at, word in (("left_end", 1, "i0"), ("right_end", 2, "i1"))}
        return {"line": ("Ty", [("with_name", ctx), kids[0]]), **ends}.get(label)
    return None


def behind(label, said):
    """What stands behind a judgement, or None."""
    form, places = said
    ctx = places[0]
    if form == "Ctx":
        if label == "context" and ctx[0].startswith("with_"):
            return ("Ctx", [ctx[1]])
        return ("Ty", [ctx[1], ctx[2]]) if label == "type" and ctx[0] == "with_var" else None
    if form == "Sb":
        return {"from": ("Ctx", [ctx]), "to": ("Ctx", [places[2]])}.get(label)
    if label == "context":
        return ("Ctx", [ctx])
    if label == "type" and form in ("Tm", "TmEq"):
        return ("Ty", [ctx, places[-1]])
    if label in ("left", "right") and form in ("TyEq", "TmEq"):
        side = places[1 if label == "left" else 2]
        return ("Ty" if form == "TyEq" else "Tm", [ctx, side, *places[3:]])
    return behind_type(label, ctx, places[1]) if form == "Ty" else None


def source_of(rule, source):
    """What a source names, of the premises of a rule."""
    at, *labels = source.split(".")
    said = rule.wants[int(at)]
    for label in labels:
        said = behind(label, said)
    return said


class Entry:
    """What stands behind the conclusion of a rule by a label: from sources, by nodes.

    Where it is a source, there are no nodes but that. As a recipe it has the parts of the rule.
    """

    def __init__(self, rule, label, sources, nodes, last):
        self.rule, self.label, self.parts = rule, label, rule.parts
        self.sources, self.nodes, self.last = sources, nodes, last
        self.name = f"{rule.name.replace('.', '_')}_{label}"

    def is_at_hand(self):
        return self.last in self.sources


class Entries(Recipe):
    """The entries of a rule."""

    def read_rows(self, sections):
        self.rule = self.rules[self.name]
        assert self.parts == self.rule.parts, self.name
        self.sources = {}
        for line in lines(sections["from"]):
            source, said = line.split(maxsplit=1)
            self.sources[source] = said
        premises = []
        for source, said in self.sources.items():
            premise = Node(source, said, "premise", [])
            premise.at = source
            premises.append(premise)
        self.nodes = premises + [self.node(line) for line in lines(sections.get("rows", ""))]
        self.outs = [line.split() for line in lines(sections["gives"])]

    def wanted(self, node):
        return source_of(self.rule, node.at)

    def check(self):
        super().check()
        at = unknown(self.parts)
        said = {node.name: node.text for node in self.nodes}
        for label, name in self.outs:
            stated = normal_judgement(self.judgement(said[name]), at)
            due = normal_judgement(behind(label, self.rule.gives), at)
            assert stated == due, (self.name, label, stated, due)

    def entries(self):
        return [self.entry(label, name) for label, name in self.outs]

    def entry(self, label, last):
        """The entry of a label: what of the rows it needs."""
        named = {node.name: node for node in self.nodes}
        needed, found = [last], set()
        while needed:
            name = needed.pop()
            if name not in found:
                found.add(name)
                needed += named[name].premises
        nodes = [node for node in self.nodes if node.name in found]
        sources = [node.name for node in nodes if node.word == "premise"]
        return Entry(self.rule, label, sources, nodes, last)


def at_hand(text):
    """The entries of `at_hand.txt`."""
    found, rules = [], {rule.name: rule for family in families() for rule in family.rules}
    for line in text.splitlines():
        if line.strip() and not line.startswith("#"):
            name, label, source = line.split()
            rule = rules[name]
            at = unknown(rule.parts)
            assert normal_judgement(source_of(rule, source), at) == normal_judgement(
                behind(label, rule.gives), at), line
            node = Node(source, None, "premise", [])
            node.at = source
            found.append(Entry(rule, label, [source], [node], source))
    return found
