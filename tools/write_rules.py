#!/usr/bin/env python3
"""Writes what the repository says of each rule from `rules.txt`, where each rule stands once.

Written are, in place of what stood there: the families and the table of names in
`theory/src/rule.rt`, the place of each rule among these in `theory/src/numbers.rt`, signatures in
`theory/src/signatures.rt` and `theory/specs/RuleNames.antt`, the lines of `rules/specs/Table.antt`,
the programs in `rules/src/table/`, those of derived trees (`kan_trees.py`) with their names in
`rules/src/derived.rt` and their bounds in `rules/specs/DerivedTrees.antt`, the depths of parts in
`stability/specs/Depths.antt`, and the tables of `docs/RULES.md`. Nothing of it is trusted: the
lines of `Table.antt` are read against `rules.txt` by eye, and a wrong signature or program fails
its own line. Run `rt fmt` in `theory`, `rules` and `stability` afterwards.
"""
import copy
import pathlib
import re
import textwrap

from kan_trees import derived_trees
from rule_notation import DERIVED, OPERATORS, Reader, families

ROOT = pathlib.Path(__file__).resolve().parent.parent
THEORY, RULES = ROOT / "crates" / "theory", ROOT / "crates" / "rules"
WIDTH = 100
BEGIN, END = "Written by tools/write_rules.py from here on.", "Written by hand from here on."


# The table.


# Operators whose words are others in the table.
TABLE_WORDS = {"U": "universe", "Glue": "glue_type"}


# How the table writes contexts, substitutions and trees, with the places of what they are made of.
MIXFIX = {
    "with_var": "{} ∙ {}", "with_name": "{} ∙I", "with_face": "{} ∣ {}", "at": "{} ⟨ {} ⟩",
    "apply": "{} ⟦ {} ⟧",
}

# How it writes judgements, likewise.
JUDGEMENTS = {
    "Ty": "{} ⊢ {}", "TyEq": "{} ⊢ {} ≐ {}", "Tm": "{} ⊢ {} ∶ {}", "TmEq": "{} ⊢ {} ≐ {} ∶ {}",
    "Sb": "{1} from {0} to {2}",
}


def said(thing, nested=False):
    """A thing as the table says it, in brackets where it is nested and of several words."""
    word, *rest = thing
    if word == "part":
        return rest[0]
    if word in MIXFIX:
        text = mixed(word, rest)
    elif word in ("make", "derived", "called"):
        text = " ".join([TABLE_WORDS.get(rest[0], rest[0])] + [said(kid, True) for kid in rest[1]])
    elif word in ("var", "shift"):
        text = f"{'var' if word == 'var' else 'shift_by'} {rest[0]}"
    else:
        text = " ".join([word] + [said(part, True) for part in rest])
    return f"({text})" if nested and " " in text else text


def mixed(word, parts):
    """A thing that is written in mixfix. A context stands to the left without brackets, and what
    stands between two signs has none either."""
    first, *others = parts
    is_context = word.startswith("with")
    return MIXFIX[word].format(said(first, not is_context),
                               *(said(other, is_context) for other in others))


def says(form, places):
    """A judgement or a side condition."""
    if form in JUDGEMENTS:
        return JUDGEMENTS[form].format(*(said(place) for place in places))
    return " ".join([form] + [said(place, True) for place in places])


def listed(items):
    return " ∷ ".join(items + ["[]"])


def filled(words, indent):
    """Words as lines, each as long as it may be, those after the first further in."""
    return textwrap.wrap(words, WIDTH, initial_indent=indent, subsequent_indent=indent + "  ",
                         break_long_words=False, break_on_hyphens=False)


def list_lines(items, indent):
    """A list as lines, as many items a line as fit."""
    lines = [[]]
    for item in items + ["[]"]:
        if lines[-1] and len(indent + "∷ " + " ∷ ".join(lines[-1] + [item])) > WIDTH:
            lines.append([])
        lines[-1].append(item)
    return [f"{indent}{'∷ ' if at else ''}{' ∷ '.join(line)}" for at, line in enumerate(lines)]


def table_line(name, rule, is_shared=False):
    """The line of a rule by that name. Premises that are shared are called by their name."""
    wants = [says(*want) for want in rule.wants]
    sides = listed([says(*one) for one in rule.sides])
    gives = f"⟹ {says(*rule.gives)}" + (f" when {sides}" if rule.sides else "")
    parts = f"λ {' '.join(rule.parts)}. " if rule.parts else ""
    called = f"{premises(rule)[0]} {' '.join(rule.parts)}"
    head, first = f"  {name} = {parts}", called if is_shared else listed(wants)
    for line in (f"{head}{first} {gives}", f"      {first} {gives}"):
        if len(line) <= WIDTH:
            return [line] if line.startswith(head) else [head.rstrip(), line]
    wanted = [f"      {called}"] if is_shared else list_lines(wants, "      ")
    return [head.rstrip(), *wanted, *filled(gives, "      ")]


def premises(rule):
    """The names of shared premises in the table and among programs: of those of a rule."""
    name = (rule.like or rule).name.replace(".", "_")
    return f"{name}_wants", f"{name.upper()}_WANTS"


def shared_premises(family):
    """The rules whose premises others of their family have."""
    return list({rule.like.name: rule.like for rule in family.rules if rule.like}.values())


def premises_lines(rule):
    kinds = {"Context": "context", "Subst": "subst", "Term": "tree"}
    takes = " → ".join(kinds[kind] for kind in rule.kinds())
    name = premises(rule)[0]
    head, wants = f"  {name} {' '.join(rule.parts)} =", [says(*want) for want in rule.wants]
    line = f"{head} {listed(wants)}"
    return [f"  abbrev pub {name} : {takes} → List (JudgementOf L)",
            *([line] if len(line) <= WIDTH else [head, *list_lines(wants, "      ")]), ""]


def applied(name):
    """A rule of a former of types as the table says it where several formers have it."""
    operator, kind = name.split(".")
    return f"former_{kind}", operator


def former_lines(rule):
    """What the rules share that are as this one: F stands for the operator of each."""
    name, operator = applied(rule.name)
    shared = copy.copy(rule)
    shared.wants, shared.gives = (put_operator(claims, operator)
                                  for claims in (rule.wants, rule.gives))
    kinds = f"kinds_of ({rule.family.variant} {rule.variant})"
    return [f"  abbrev pub {name} : (tree → tree → tree) → Over ({kinds})",
            *table_line(f"{name} F", shared), ""]


def put_operator(thing, operator):
    """A thing with F in the place of the operator."""
    if isinstance(thing, (list, tuple)):
        return type(thing)(put_operator(part, operator) for part in thing)
    return "F" if thing == operator else thing


def table(found):
    models = [rule.model for family in found for rule in family.rules if rule.model]
    lines = ["  -- What rules of types of a type and a family over it share; F forms the type.", ""]
    for rule in models:
        lines += former_lines(rule)
    for family in found:
        kinds = f"kinds_of ({family.variant} name)"
        shared = shared_premises(family)
        lines += [f"  -- {family.about}", ""]
        lines += [line for rule in shared for line in premises_lines(rule)]
        lines += [f"  abbrev pub {family.word}_rule : (name : {family.enum}) → Over ({kinds})"]
        for rule in family.rules:
            name = f"{family.word}_rule {rule.variant}"
            if rule.model or rule in models:
                lines.append(f"  {name} = {' '.join(applied(rule.name))}")
            else:
                lines += table_line(name, rule, rule.like or rule in shared)
        lines.append("")
    lines.append("  abbrev pub rule : (name : RuleName) → Over (kinds_of name)")
    return lines + [f"  rule ({family.variant} name) = {family.word}_rule name"
                    for family in found]


# Signatures.


def spec_signatures(found):
    lines = []
    for family in found:
        lines.append(f"abbrev pub {family.word}_signature : {family.enum} → Signature")
        for rule in family.rules:
            head = f'{family.word}_signature {rule.variant} = signed (codes "{rule.name}")'
            kinds = f"({listed(rule.kinds())})" if rule.parts else "[]"
            line = f"{head} {kinds} {len(rule.wants)}"
            lines += [line] if len(line) <= WIDTH else [head, f"    {kinds} {len(rule.wants)}"]
        lines.append("")
    lines.append("abbrev pub signature_of : RuleName → Signature")
    return lines + [f"signature_of ({family.variant} rule) = {family.word}_signature rule"
                    for family in found]


def function(head, clause, arms):
    """A function that is one match on its rule."""
    return [head, f"    ensures {{ {clause} }}", "{", "    match rule {", *arms, "    }", "}"]


def code_signatures(found):
    lines = []
    for family in found:
        arms = [f'        {family.enum}::{rule.variant} => signed("{rule.name}", '
                f'&[{", ".join(rule.kinds())}], {len(rule.wants)}),' for rule in family.rules]
        lines += function(f"fn {family.word}_signature(rule: {family.enum}) -> Signature",
                          f"Shows ({family.word}_signature rule) result", arms) + [""]
    arms = [f"        RuleName::{family.variant}(rule) => {family.word}_signature(rule),"
            for family in found]
    lines.append("/// The signature of a rule.")
    return lines + function("pub fn signature_of(rule: RuleName) -> Signature",
                            "Shows (signature_of rule) result", arms)


def by_name(found):
    return sorted((rule for family in found for rule in family.rules), key=lambda rule: rule.name)


def numbers(found):
    places = {rule.name: at for at, rule in enumerate(by_name(found))}
    lines = []
    for family in found:
        arms = [f"        {family.enum}::{rule.variant} => {places[rule.name]},"
                for rule in family.rules]
        gives = f"slice_get RULES.now result ≡ Some (RuleName.{family.variant} rule)"
        lines += function(f"fn {family.word}_number(rule: {family.enum}) -> u64", gives, arms)
        lines.append("")
    arms = [f"        RuleName::{family.variant}(rule) => {family.word}_number(rule),"
            for family in found]
    lines += ["/// The number of a rule among all of them, which are in the order of their names."]
    return lines + function("pub fn rule_number(rule: RuleName) -> u64",
                            "slice_get RULES.now result ≡ Some rule", arms)


def enums(found):
    derive = "#[derive(Clone, Copy, Debug, PartialEq, Eq)]"
    lines = []
    for family in found:
        lines += [f"/// {family.about}", derive, f"pub enum {family.enum} {{"]
        lines += [f"    {rule.variant}," for rule in family.rules] + ["}", ""]
    lines += ["/// A rule. The rules stand in families.", derive, "pub enum RuleName {"]
    lines += [f"    {family.variant}({family.enum})," for family in found] + ["}", ""]
    lines += ["/// Every rule, in the order of their names.", "pub static RULES: &[RuleName] = &["]
    lines += [f"    RuleName::{rule.family.variant}({rule.family.enum}::{rule.variant}),"
              for rule in by_name(found)]
    return lines + ["];"]


# Programs.

INSTRUCTIONS = {
    "apply": "Instance", "push": "Push", "then": "Then", "nil": "CtxNil", "with_var": "CtxVar",
    "with_name": "CtxName", "with_face": "CtxFace",
}


# Operators whose instructions have other names.
OTHERS = {
    "U": "UNIVERSE", "i0": "END_0", "i1": "END_1", "f0": "NO_FACE", "f1": "WHOLE_FACE",
    "eq0": "EQ_0", "eq1": "EQ_1", "Glue": "GLUE_TYPE",
}


def instructions(thing, parts):
    """A thing as a list of instructions, in prefix order. The parts are those of its rule."""
    word, *rest = thing
    if word == "part":
        return [f"{rest[0].upper()}{parts.index(rest[0])}"]
    if word in ("make", "called"):
        return [operator(rest[0])] + joined(rest[1], parts)
    if word == "derived":
        letters, text = DERIVED[rest[0]]
        return instructions(put_parts(Reader(text).tree(), dict(zip(letters, rest[1]))), parts)
    if word == "var":
        return [f"Var({rest[0]})"]
    if word in ("shift", "id", "up"):
        return [f"Shift({rest[0]})" if word == "shift" else word.upper()]
    if word == "weakened":
        return ["Instance"] + joined(rest, parts) + ["UP"]
    if word == "at":
        tree, at = rest
        return instructions(("apply", tree, ("push", ("id",), at)), parts)
    return [INSTRUCTIONS[word]] + joined(rest, parts)


def joined(things, parts):
    return [one for thing in things for one in instructions(thing, parts)]


def operator(word):
    """The name of the instruction that makes an operator. A part has a letter and a place."""
    return OTHERS.get(word) or word.upper()


def put_parts(thing, given):
    """A derived tree with what is given in the places of its parts."""
    if isinstance(thing, list):
        return [put_parts(part, given) for part in thing]
    if not isinstance(thing, tuple):
        return thing
    return given[thing[1]] if thing[0] == "part" else tuple(put_parts(t, given) for t in thing)


def program(form, places, parts):
    made = (f"&[{', '.join(instructions(place, parts))}]" for place in places)
    return f"{form}({', '.join(made)})"


def wanted(rule):
    return f"&[{', '.join(program(*want, rule.parts) for want in rule.wants)}]"


def schema(rule, is_shared):
    wants = premises(rule)[1] if is_shared else wanted(rule)
    sides = ", ".join(f"Test::{program(*one, rule.parts)}" for one in rule.sides)
    return f"""        {rule.family.enum}::{rule.variant} => Schema {{
            wants: {wants},
            sides: &[{sides}],
            gives: {program(*rule.gives, rule.parts)},
        }},"""


def words_in(text):
    return set(re.findall(r"\b[A-Z]\w*\b", text))


def schemas(family):
    """The programs of a family: what its rules share, and the arms of the match."""
    shared = shared_premises(family)
    consts = [f"/// The premises of `{rule.name}`.\nconst {premises(rule)[1]}: &[Program] = "
              f"{wanted(rule)};\n" for rule in shared]
    return consts, [schema(rule, rule.like or rule in shared) for rule in family.rules]


def programs(family):
    consts, arms = schemas(family)
    words = words_in("\n".join(consts + arms))
    named = sorted(word for word in words if word.upper() == word and "_WANTS" not in word)
    made_by = sorted(words & ({"Shift", "Var"} | set(INSTRUCTIONS.values())))
    forms = sorted(words & {"Ctx", "Ty", "TyEq", "Tm", "TmEq", "Sb"})
    uses = {
        "super::named": named,
        "crate::instruction::Instruction": made_by,
        "crate::program::Program": forms,
        "crate::program": sorted(words & {"Program", "Schema", "Test"}),
        "theory": [family.enum],
    }
    use_lines = (f"use {path}::{{{', '.join(names)}}};" for path, names in uses.items() if names)
    variants = "Rattle.theory.specs.declared.rule.RuleName.TheVariants"
    return "\n".join([
        f"//! {family.about}", "", f"ghost use {variants}.{{{family.variant}}};",
        "ghost use Rattle.rules.specs.Schemas.{Means};", "", *use_lines, "", *consts,
        "/// The programs of a rule of this family.",
        *function(f"pub fn {family.word}_schema(rule: {family.enum}) -> Schema",
                  f"Means ({family.variant} rule) result", arms), "",
    ])


# How deep the parts of rules stand.

# The families of rules that a context and trees are the parts of.
STABLE = ("Equality", "Universe", "Pi", "Sigma", "Paths", "Naturals", "Systems", "Composition",
          "Gluing")


def depths(rule):
    """Under how many entries each tree stands that is a part of the rule, by its first place."""
    found = {}
    for _, (context, *trees) in rule.wants + [rule.gives]:
        depth = entries(context, found)
        for tree in trees:
            find_depths(tree, depth, found)
    return [found[part] for part, kind in zip(rule.parts, rule.kinds()) if kind == "Term"]


def entries(context, found):
    """The number of variables and names of a context; finds the depths of its trees."""
    word, *rest = context
    if word in ("part", "nil"):
        return 0
    count = entries(rest[0], found)
    if len(rest) > 1:
        find_depths(rest[1], count, found)
    return count + (word != "with_face")


def find_depths(tree, depth, found):
    word, *rest = tree
    if word == "part":
        found.setdefault(rest[0], depth)
    elif word == "make":
        for kid, binds in zip(rest[1], OPERATORS[rest[0]][1]):
            find_depths(kid, depth + int(binds), found)


def depth_lines(found):
    lines = []
    for family in (family for family in found if family.variant in STABLE):
        lines.append(f"abbrev pub {family.word}_depths : {family.enum} → List ℕ")
        lines += [f"{family.word}_depths {rule.variant} = {listed([str(n) for n in depths(rule)])}"
                  for rule in family.rules]
        lines.append("")
    return lines


# Programs of derived trees.


def kan_operators():
    """The names of instructions of the operators, as the table words them."""
    return {TABLE_WORDS.get(word, word): operator(word) for word in OPERATORS}


def derived_enum(trees):
    lines = ["/// A tree that is made of others, and that a program of its own makes. "
             "What each is stands in", "/// `specs/Table.antt`.",
             "#[derive(Clone, Copy, Debug, PartialEq, Eq)]",
             "pub enum Derived {"]
    lines += [f"    {tree.variant}," for tree in trees] + ["}", ""]
    arms = [f"        Derived::{tree.variant} => {len(tree.parts)}," for tree in trees]
    lines += ["/// The number of trees that a derived tree is made of.",
              "pub fn arity(derived: Derived) -> usize",
              "    ensures { result ≡ arity_of derived }",
              "{", "    match derived {", *arms, "    }", "}"]
    return lines


def derived_specs(trees):
    lines = ["-- how many trees each is made of", "abbrev pub arity_of : Derived → ℕ"]
    lines += [f"arity_of {tree.variant} = {len(tree.parts)}" for tree in trees]
    lines += ["", "abbrev pub derived : (d : Derived) → TreeOver (arity_of d)"]
    lines += [f"derived {tree.variant} = {tree.name} trees" for tree in trees]
    lines += ["", "-- the program of each calls those of lower ranks",
              "abbrev pub rank_of : Derived → ℕ"]
    lines += [f"rank_of {tree.variant} = {tree.rank}" for tree in trees]
    lines += ["", "-- how many rows the program of each makes", "abbrev pub rows_of : Derived → ℕ"]
    return lines + [f"rows_of {tree.variant} = {tree.rows}" for tree in trees]


def derived_arm(tree):
    """The arm of a derived tree: its program in filled lines, which the macro keeps as they are."""
    text = textwrap.fill(", ".join(tree.program), WIDTH, initial_indent=" " * 12,
                         subsequent_indent=" " * 12)
    return f"        Derived::{tree.variant} => program! {{\n{text}\n        }},"


def derived_programs(trees):
    words = {word for tree in trees for word in tree.program}
    made_by = sorted({"Instance", "Push", "Shift", "Var"} & {re.sub(r"\(.*", "", w) for w in words})
    arms = "\n".join(derived_arm(tree) for tree in trees)
    return f"""//! The programs of derived trees.

ghost use Rattle.rules.specs.Schemas.{{Makes}};

use super::named::*;
use crate::derived::Derived;
use crate::instruction::Instruction::{{{', '.join(made_by)}}};
use crate::program::Place;

/// A list of instructions, in as many lines as they fill.
macro_rules! program {{
    ($($instruction:expr),*) => {{ &[$($instruction),*] }};
}}

/// The program of a derived tree.
pub fn derivation(derived: Derived) -> Place
    ensures {{ Makes derived result.now }}
{{
    match derived {{
{arms}
    }}
}}
"""


def named_instructions(found, trees):
    words = words_in("\n".join(wanted(rule) + schema(rule, False)
                               for family in found for rule in family.rules))
    words |= {word for tree in trees for word in tree.program}
    parts = sorted(word for word in words if re.fullmatch(r"[A-Z]\d+", word))
    made = sorted((operator(word), op) for word, (op, _) in OPERATORS.items())
    values = [("ID", "Shift(0)"), ("UP", "Shift(1)")]
    values += [(name, f"Make(Op::{op})") for name, op in made if name in words]
    values += [(tree.name.upper(), f"Call(Derived::{tree.variant})") for tree in trees]
    values += [(part, f"Part({part[1:]})") for part in parts]
    lines = "\n".join(f"pub const {name}: Instruction = {value};\n" for name, value in values)
    return f"""//! The instructions that programs of rules are full of.
//!
//! A part is named by its letter in the rule and its place: `A3` is part 3, which the rule calls A
//! or a.

use crate::derived::Derived;
use crate::instruction::Instruction::{{self, Call, Make, Part, Shift}};
use theory::Op;

{lines}"""


# The document.


def document_table(family):
    head = "| Name | Parts | Premises | Side conditions | Conclusion |"
    lines = ["", head, "|---|---|---|---|---|"]
    for rule in family.rules:
        wants, sides = (", ".join(f"`{one}`" for one in some)
                        for some in (rule.want_texts, rule.side_texts))
        cells = [f"`{rule.name}`", ", ".join(rule.parts), wants, sides, f"`{rule.gives_text}`"]
        lines.append(re.sub(" +", " ", f"| {' | '.join(cells)} |"))
    return lines + [""]


# Writing.


def put(file, begin, lines, end=None):
    """Puts lines into a file between two that stay, or after the first alone."""
    old = file.read_text().split("\n")
    first = old.index(begin)
    rest = old[old.index(end, first):] if end else []
    file.write_text("\n".join(old[:first + 1] + lines + rest))


def put_imports(file, found):
    """Puts the names of families and rules into the `use` lines of a file."""
    lists = {family.enum: [rule.variant for rule in family.rules] for family in found}
    lists["RuleName"] = [family.variant for family in found]
    text = file.read_text()
    for enum, names in lists.items():
        path = f"Rattle.theory.specs.declared.rule.{enum}.TheVariants"
        text = re.sub(rf"(use {re.escape(path)}\.{{[^}}]*}}\n)+", imported(path, names), text)
    file.write_text(text)


def imported(path, names):
    """The names in as many `use` lines as they take."""
    lines = [[]]
    for name in names:
        if lines[-1] and len(f"use {path}.{{{', '.join(lines[-1] + [name])}}}") > WIDTH:
            lines.append([])
        lines[-1].append(name)
    return "".join(f"use {path}.{{{', '.join(line)}}}\n" for line in lines)


def main():
    found = families()
    names, tables = THEORY / "specs" / "RuleNames.antt", RULES / "specs" / "Table.antt"
    signatures = THEORY / "src" / "signatures.rt"
    put(THEORY / "src" / "rule.rt", f"// {BEGIN}", [""] + enums(found) + [""], f"// {END}")
    put(signatures, f"// {BEGIN}", [""] + code_signatures(found) + [""])
    put(THEORY / "src" / "numbers.rt", f"// {BEGIN}", [""] + numbers(found) + [""])
    put(names, f"-- {BEGIN}", [""] + spec_signatures(found) + [""], f"-- {END}")
    put(tables, f"  -- {BEGIN}", [""] + table(found) + [""])
    put_imports(names, found)
    put_imports(tables, found)
    for family in found:
        marks = f"<!-- {family.variant} -->", "<!-- end -->"
        put(ROOT / "docs" / "RULES.md", marks[0], document_table(family), marks[1])
        (RULES / "src" / "table" / f"{family.variant.lower()}.rt").write_text(programs(family))
    stable = ROOT / "crates" / "stability" / "specs" / "Depths.antt"
    put(stable, f"-- {BEGIN}", [""] + depth_lines(found)[:-1] + [""])
    put_imports(stable, [family for family in found if family.variant in STABLE])
    trees = derived_trees(kan_operators())
    put(RULES / "src" / "derived.rt", f"// {BEGIN}", [""] + derived_enum(trees) + [""])
    put(RULES / "specs" / "DerivedTrees.antt", f"-- {BEGIN}", [""] + derived_specs(trees) + [""],
        f"-- {END}")
    (RULES / "src" / "table" / "derived.rt").write_text(derived_programs(trees))
    (RULES / "src" / "table" / "named.rt").write_text(named_instructions(found, trees))


if __name__ == "__main__":
    main()
