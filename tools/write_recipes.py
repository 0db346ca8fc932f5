#!/usr/bin/env python3
"""Writes the tables of recipes from `recipes/*.txt`: `python3 tools/write_recipes.py`.

A table is a list of `recipes::Row`, with the judgements of its source as comments. Nothing of it is
trusted: the test of `recipes` runs over the table, and a wrong row fails the proof of its crate. A
recipe that its crate does not name yet is given its `mod` and `pub use` lines there, and a function
that claims `Derives` of a table the answer of its proof, if it has none. Run `rt fmt` in the crates
that changed afterwards.
"""
import pathlib
import textwrap

from named_recipes import NamedRecipe
from recipe_answers import answers, with_modules
from recipe_notation import Recipe
from rule_notation import OPERATORS

ROOT = pathlib.Path(__file__).resolve().parent.parent

# The recipes of each crate, and the earlier ones that a recipe may name, in the order of its proof.
CRATES = {
    "kan_fill": ["fill", "contr", "pres", "ext"],
    "glue_entries": ["equiv_tycong"],
    "kan_types": ["comp_pi", "comp_sig", "comp_path", "comp_zero", "comp_suc"],
    "kan_glue": ["glue_base", "glue_all", "extend", "reglue", "comp_glue"],
    "kan_universe": [
        "line", "back", "square", "cube", "eqv_uv", "eqv_m", "eqv_n", "eqv_w", "assemble", "eqv",
        "comp_u",
    ],
    "structural_rules": [
        "lift_var", "lift_name", "lift_face", "swap_face", "swap_faces", "merge_faces",
        "restrict_ty0", "restrict_ty1", "restrict_tm0", "restrict_tm1", "cover_ty", "cover_tm",
        "lam_cong", "pair_cong", "plam_cong", "sys_cong", "glue_cong",
    ],
    "typing_rules": [
        "no_entries", "with_entry", "with_name", "nothing_done", "past_variable", "past_name",
        "under_variable", "under_name", "composed", "type_instance", "term_instance", "variable",
        "universe_type", "numbers_type", "zero_term", "successor_term", "small_type", "pi_type",
        "pi_small", "sig_type", "sig_small", "function", "pushed", "applied", "first", "second",
        "pair_term", "path_term", "path_applied", "line_ends", "path_type", "path_small",
        "transported", "motive_start", "motive_step", "recursion", "path_in_universe",
        "family_of_numbers",
    ],
    "literal_types": ["with_face", "past_face"],
    "literal_terms": ["equation_instance", "equations_joined"],
    "inversion_rules": [
        "open_binder", "open_pathp", "open_glue_type", "open_lam", "open_pair", "open_plam",
        "open_glue", "open_binder_u", "open_pathp_u", "open_glue_type_u", "up_var", "up_name",
        "up_face", "fits_pi", "fits_sig", "anchor", "anchor_conv", "beta_asks", "beta_answers",
    ],
    "way_rules": [
        "way_begun", "way_home", "equal_after", "equal_after_fits", "fits_joined", "fits_under",
        "term_fitted", "equal_at_own", "term_at_left", "type_same", "way_begun_type",
        "small_equal", "type_turned",
    ],
    "head_rules": [
        "fire_beta", "app_stays", "natrec_parts", "natrec_zero", "natrec_suc", "natrec_stays",
        "fst_pair", "snd_pair", "fst_stays", "snd_stays", "suc_normal",
    ],
    "kan_rules": [
        "fire_path", "papp_stays", "path_at_start", "path_at_end", "comp_line", "comp_base",
        "unglued", "unglue_stays", "unglue_glue", "glue_parts", "comp_nat_zero", "comp_nat_suc",
        "comp_nat_sides_zero", "comp_nat_sides_suc", "base_at_start", "predecessor",
        "predecessor_typed", "empty_type", "empty_small", "empty_term", "unglue_other",
    ],
    "normal_rules": [
        "entered", "entered_home", "pi_normal", "sig_normal", "pi_small_normal",
        "sig_small_normal", "small_normal", "lam_normal", "lams_equal", "app_normal", "pair_normal",
        "natrec_fits", "natrec_normal", "papp_normal", "plam_normal", "path_normal",
        "path_small_normal",
    ],
    "side_rules": [
        "nothing_type", "nothing_term", "side_type", "side_term", "side_line", "glue_type_normal",
        "glue_small_normal", "glue_normal", "unglue_normal", "comp_normal",
    ],
    "conversion_rules": [
        "entered_along", "pi_equal", "sig_equal", "pi_small_equal", "sig_small_equal",
        "natrec_equal", "met", "joined", "joined_fits", "types_joined", "equal_fitted",
        "suc_equal", "app_equal", "fst_equal", "snd_equal", "at_variable", "lam_left", "lam_right",
        "at_first", "pair_left", "pair_right", "ends_fit", "path_equal", "path_small_equal",
        "papp_equal", "papp_moved", "at_name", "plam_left", "plam_right", "absurd_types",
        "absurd_terms",
    ],
    "face_rules": [
        "cover_types", "cover_terms", "cover_lines", "comp_equal", "glue_type_equal",
        "glue_small_equal", "unglue_equal", "glue_equal", "at_face",
    ],
    "checking_rules": ["equiv_type"],
    "presupposed_tests": ["conversions", "pushed_entry", "made_and_used", "equal_numbers"],
    "book_tests": ["two", "successor", "constant", "twice", "variables"],
    "kan_tests": [
        "fill_faces", "fill_lines", "contr_variable", "pres_numbers", "ext_variable",
        "ext_numbers", "fill_premises",
    ],
    "behind_tests": ["glued", "compositions", "glued_composition"],
}
# Where several stand over the same, one list serves them all: a call then hands in one `Earlier`.
EARLIER = {"pres": ["fill"], "ext": ["contr"]}
GLUE_PARTS = ["glue_base", "glue_all", "extend", "reglue"]
LINES = ["line", "back", "square", "cube"]
EQUIVALENCE_PARTS = ["eqv_uv", "eqv_m", "eqv_n", "eqv_w", "assemble"]
UNIVERSE_PARTS = ["eqv", "equiv_tycong"]
OVER_KAN = [*CRATES["kan_types"], *GLUE_PARTS, *LINES, *CRATES["kan_tests"]]
EARLIER |= {name: CRATES["kan_fill"] for name in OVER_KAN}
EARLIER |= {"comp_glue": GLUE_PARTS, "comp_u": UNIVERSE_PARTS}
EARLIER |= {name: LINES for name in EQUIVALENCE_PARTS}
EARLIER |= {"eqv": EQUIVALENCE_PARTS}

# The crates whose tables read the parts of a recipe from its premises, where these name them, so
# that a call passes the others alone, which come first.
READ = {
    "typing_rules", "literal_types", "literal_terms", "inversion_rules", "way_rules",
    "head_rules", "kan_rules", "normal_rules", "conversion_rules",
    "side_rules", "face_rules", "checking_rules",
}

# The crates whose tables read things from what earlier nodes conclude, which takes fewer rows.
LOOK = {"kan_types", "kan_glue", "kan_universe"}

WIDTH = 100
MOST_PARTS, MOST_WANTED, MOST_PREMISES, MOST_KIDS = 10, 7, 16, 4


def padded(numbers, count):
    return f"[{', '.join(str(number) for number in numbers + [0] * (count - len(numbers)))}]"


class Things(dict):
    """The rows of things, by the things themselves, each of which is one object."""

    def __contains__(self, thing):
        return super().__contains__(id(thing))

    def __getitem__(self, thing):
        return super().__getitem__(id(thing))

    def __setitem__(self, thing, row):
        super().__setitem__(id(thing), row)


class Table:
    """The rows of a recipe. A thing has one row, which stands before the first that names it.

    Where the table looks, things of one normal form have one row, and a thing that stands in what
    an earlier node concludes is read from there.
    """

    def __init__(self, recipe, earlier=(), reads=False, looks=False):
        self.looks, self.rows_of, self.seen = looks, {}, {}
        self.recipe, self.rows, self.count = recipe, [], 0
        self.earlier, self.reads = earlier, reads
        self.things, self.nodes, self.given = Things(), {}, {}
        self.alike, self.ones = {}, {}
        self.used = {"Row": set(), "families": {}}
        for node in recipe.nodes:
            self.nodes[node.name] = self.node(node)
            if looks and node.word != "recipe":
                for at, form in enumerate(recipe.said[node.name][1]):
                    self.seen.setdefault(form, (self.nodes[node.name], at))

    def row(self, text, comment=None, makes=1):
        """The number of what a row makes first."""
        self.used["Row"].add(text.split("(")[0])
        number, self.count = self.count, self.count + makes
        self.rows.append((text, f"{number}: {comment}" if comment else None))
        return number

    def thing(self, thing):
        thing = self.one(thing)
        if thing not in self.things:
            self.things[thing] = self.looked(thing) if self.looks else self.row(self.built(thing))
        return self.things[thing]

    def looked(self, thing):
        """The row of what has the normal form of a thing."""
        form = self.recipe.normals.of(thing)
        if form not in self.rows_of:
            if form in self.seen and thing[0] not in ("part", "var", "id", "up", "shift"):
                node, at = self.seen[form]
                self.rows_of[form] = self.row(f"Field({node}, {at})")
            else:
                self.rows_of[form] = self.row(self.built(thing))
        return self.rows_of[form]

    def one(self, thing):
        """A thing as one that is the same for all that are built alike."""
        if not isinstance(thing, (tuple, list)):
            return thing
        found = self.alike.get(id(thing))
        if found is None:
            key = tuple(self.one(part) for part in thing)
            short = tuple(("", id(part)) if isinstance(part, tuple) else part for part in key)
            found = self.alike[id(thing)] = (self.ones.setdefault(short, key), thing)
        return found[0]

    def built(self, thing):
        """The row of a thing, after those of its parts."""
        word, *rest = thing
        if word == "part":
            return self.read(thing) or f"Part({self.recipe.parts.index(rest[0])})"
        if word == "var":
            return f"Var({rest[0]})"
        if word in ("id", "up", "shift"):
            return f"Shift({rest[0] if rest else ('id', 'up').index(word)})"
        if word == "make":
            kids = [self.thing(kid) for kid in rest[1]]
            return f"Make(Op::{OPERATORS[rest[0]][0]}, {padded(kids, MOST_KIDS)})"
        if word == "nil":
            return "Nil"
        if word == "weakened":
            rest = [rest[0], ("up",)]
        if word == "at":
            rest = [rest[0], ("push", ("id",), rest[1])]
        name = {"weakened": "Instance", "at": "Instance", "apply": "Instance", "push": "Push",
                "then": "Then", "with_var": "WithVar", "with_name": "WithName",
                "with_face": "WithFace"}[word]
        return f"{name}({', '.join(str(self.thing(part)) for part in rest)})"

    def read(self, part):
        """The row that reads a part from a premise, if one names it."""
        premises = [node for node in self.recipe.nodes if node.word == "premise"]
        for node in premises if self.reads else []:
            places = self.recipe.wants[int(node.at)][1]
            if part in places and node.name in self.nodes:
                return f"Field({self.nodes[node.name]}, {places.index(part)})"
        return None

    def place(self, node):
        """Which premise it is."""
        return node.at

    def node(self, node):
        """The row of a node, or the first one of those that an earlier recipe gives."""
        if node.word == "given":
            at = [label for label, _ in self.given[node.premises[0]].outs].index(node.at)
            return self.nodes[node.premises[0]] + at
        if node.word == "premise":
            return self.row(f"Premise({self.place(node)})", node.text)
        parts = padded([self.thing(part) for part in node.parts], MOST_PARTS)
        premises = [self.nodes[name] for name in node.premises]
        if node.word == "recipe":
            self.given[node.name] = node.rule
            at = self.earlier.index(node.rule.name)
            return self.row(f"Derive({at}, {parts}, {padded(premises, MOST_PREMISES)})",
                            node.rule.name, len(node.rule.outs))
        family = node.rule.family
        self.used["families"].setdefault(family, set()).add(node.rule.variant)
        name = f"{family.variant}({node.rule.variant})"
        return self.row(f"Conclude({name}, {parts}, {padded(premises, MOST_WANTED)})", node.text)

    def written(self):
        """The file of the table."""
        name, about = self.recipe.name.upper(), list(self.recipe.about)
        if self.recipe.parts:
            about.append(f"Its parts are {' '.join(self.recipe.parts)}.")
        lines = [*head([self]), *self.static(name, about)]
        lines += self.named(f"{name}_GIVES", "what it gives", self.recipe.outs)
        if self.recipe.premises:
            of = "the premises of its last row"
            lines += self.named(f"{name}_PREMISES", of, self.recipe.premises)
        return "\n".join(lines + [""])

    def static(self, name, about):
        lines = [f"/// {line}" for line in about] + [f"pub static {name}: &[Row] = table! {{"]
        for text, comment in self.rows:
            lines += wrapped(comment) + broken(f"    {text},")
        return [*lines, "};"]

    def named(self, name, of, nodes):
        """A list of rows."""
        about = f"The rows of {of}: {', '.join(label for label, _ in nodes)}."
        rows = ", ".join(str(self.nodes[node]) for _, node in nodes)
        return ["", *wrapped(about, "/// ", "/// "), f"pub static {name}: &[u16] = &[{rows}];"]


def head(tables, script="write_recipes"):
    """The first lines of a file of tables: what their rows name."""
    rows, names = set(), {}
    for table in tables:
        rows |= table.used["Row"]
        for family, variants in table.used["families"].items():
            names.setdefault(family, set()).update(variants)
    found = sorted(names.items(), key=lambda item: item[0].enum)
    lines = [f"//! Written by tools/{script}.py.", "", "use recipes::{Row, table};"]
    lines.append(f"use recipes::Row::{{{', '.join(sorted(rows))}}};")
    for family, variants in found:
        lines.append(f"use theory::{family.enum}::{{{', '.join(sorted(variants))}}};")
    if "Make" in rows:
        lines.append("use theory::Op;")
    variants = ", ".join(sorted(family.variant for family, _ in found))
    return lines + ([f"use theory::RuleName::{{{variants}}};"] if found else []) + [""]


def wrapped(comment, first="    // ", further="    //   "):
    indents = {"initial_indent": first, "subsequent_indent": further}
    return textwrap.wrap(comment or "", WIDTH, **indents)


def broken(line):
    """A row, its premises on a line of their own where it is too long."""
    if len(line) <= WIDTH:
        return [line]
    head, _, premises = line.rpartition(" [")
    return [head, f"        [{premises}"]


def main():
    recipes = {}
    for crate, names in CRATES.items():
        folder = ROOT / "crates" / crate
        for name in names:
            earlier = EARLIER.get(name, [])
            text = (ROOT / "tools" / "recipes" / f"{name}.txt").read_text()
            kind = NamedRecipe if "\nsteps\n" in text else Recipe
            recipes[name] = kind(text, {other: recipes[other] for other in earlier})
            table = Table(recipes[name], earlier, crate in READ, crate in LOOK)
            (folder / "src" / f"{name}.rt").write_text(table.written())
        write_rest(folder, names)


def write_rest(folder, names):
    """What a crate says of its recipes besides their tables, where it does not stand yet."""
    text = with_modules((folder / "src" / "lib.rt").read_text(), names)
    (folder / "src" / "lib.rt").write_text(text)
    for name, answer in answers(folder.name, text, names).items():
        to = folder / "proofs" / name / "Answers.antt"
        if not to.exists():
            to.parent.mkdir(parents=True, exist_ok=True)
            to.write_text(answer)


if __name__ == "__main__":
    main()
