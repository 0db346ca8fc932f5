#!/usr/bin/env python3
"""Writes from `recipes/behind` the tables of what stands behind the conclusions of rules, and the
functions that find an entry by its rule and label.

Nothing of it is trusted: each function has a contract that its entries derive what they state. Run
`rt fmt` in the crates afterwards.
"""
import textwrap

from behind_notation import LABELS, Entries, at_hand
from recipe_notation import Recipe
from rule_notation import families
from write_recipes import ROOT, WIDTH, Table, head

SOURCES = ROOT / "tools" / "recipes"

# The families whose entries stand in each crate, and the earlier recipes that these may name.
ENTRIES = {
    "equality_entries": ["Contexts", "Instances", "Equality", "Universe"],
    "pi_entries": ["Pi", "Sigma"],
    "path_entries": ["Paths", "Naturals"],
    "comp_entries": ["Systems", "Composition"],
    "glue_entries": ["Gluing"],
}
EARLIER = {"Gluing": ["equiv_tycong"]}

# What the functions of each label say of themselves.
ABOUT = {
    "context": "The contexts.", "type": "The types of terms.", "left": "The left sides, typed.",
    "right": "The right sides, typed.", "from": "The contexts from which substitutions go.",
    "to": "The contexts to which substitutions go.", "domain": "The domains.",
    "codomain": "The codomains.", "line": "The lines.", "left_end": "The left ends, typed.",
    "right_end": "The right ends, typed.",
}


class EntryTable(Table):
    """The rows of an entry, whose premises are its sources."""

    def place(self, node):
        return self.recipe.sources.index(node.at)

    def last(self):
        """The number of what the last row makes."""
        return self.nodes[self.recipe.last]

    def name(self):
        return self.recipe.name.upper()

    def about(self):
        rule, label = self.recipe.rule, LABELS[self.recipe.label]
        text = f"`{label}` of what {rule.name} concludes. Its parts are {' '.join(rule.parts)}."
        return textwrap.wrap(text, WIDTH - 4)

    def call(self):
        """The entry, made."""
        sources = ", ".join(source(text) for text in self.recipe.sources)
        if self.recipe.is_at_hand():
            return f"at_hand(&[{sources}])"
        return f"derived(&[{sources}], {self.name()}, {self.last()})"


def source(text):
    """A source as a value of `Source`."""
    at, *labels = text.split(".")
    word = ("Premise", "Behind", "Further")[len(labels)]
    return f"{word}({', '.join([at, *(f'Label::{LABELS[label]}' for label in labels)])})"


class FamilyEntries:
    """The functions that find the entries of a family: one for each label, and one over them."""

    def __init__(self, family, tables):
        self.family, self.tables = family, tables
        self.labels = [label for label in LABELS if self.of(label)]

    def of(self, label):
        return [table for table in self.tables if table.recipe.label == label]

    def clause(self, label):
        """Its entry may name the earlier recipes of the family, or else any."""
        rule = f"({self.family.variant} rule)"
        named = EARLIER.get(self.family.variant)
        if not named:
            any_are = "(earlier : List Statement) → Answers earlier"
            return f"    ensures {{ {any_are} {rule} {label} result }}"
        listed = " ∷ ".join([f"{name}_statement" for name in named] + ["[]"])
        return f"    ensures {{ Answers ({listed}) {rule} {label} result }}"

    def by_label(self, label):
        """The function of a label."""
        enum, tables = self.family.enum, self.of(label)
        lines = [f"/// {ABOUT[label]}"]
        lines += [f"fn {label}_of_{self.family.word}(rule: {enum}) -> Option<Entry>"]
        lines += [self.clause(f"label.{LABELS[label]}"), "{", "    match rule {"]
        for table in tables:
            lines.append(f"        {enum}::{table.recipe.rule.variant} => {table.call()},")
        has = [table.recipe.rule.name for table in tables]
        none = [f"{enum}::{rule.variant}" for rule in self.family.rules if rule.name not in has]
        if none:
            lines.append(f"        {' | '.join(none)} => None,")
        return [*lines, "    }", "}", ""]

    def whole(self):
        """The function over all labels."""
        word = self.family.word
        lines = ["/// What stands behind the conclusion of a rule of the family."]
        lines += [f"pub fn {word}_entry(rule: {self.family.enum}, label: Label) -> Option<Entry>"]
        lines += [self.clause("label"), "{", "    match label {"]
        for label in self.labels:
            lines.append(f"        Label::{LABELS[label]} => {label}_of_{word}(rule),")
        none = [f"Label::{LABELS[label]}" for label in LABELS if label not in self.labels]
        if none:
            lines.append(f"        {' | '.join(none)} => None,")
        return [*lines, "    }", "}"]

    def written(self):
        about = "What stands behind the conclusions of a family of rules."
        lines = [f"//! {about} Written by", "//! tools/write_entries.py.", ""]
        lines += ["ghost use Rattle.std.specs.Prelude.{[], ◌∷◌, List};"]
        of = f"Rattle.theory.specs.declared.rule.RuleName.TheVariants.{{{self.family.variant}}}"
        lines += [f"ghost use {of};"]
        entries = "Rattle.presuppositions.specs"
        lines += [f"ghost use {entries}.declared.source.Label.TheVariants as label;"]
        lines += [f"ghost use {entries}.Entries.{{Answers}};"]
        if self.family.variant not in EARLIER:
            lines += ["ghost use Rattle.recipes.specs.Statements.{Statement};"]
        for name in EARLIER.get(self.family.variant, []):
            lines += [f"ghost use Rattle.glue_entries.specs.Statements.{{{name}_statement}};"]
        lines += ["", *self.uses(), ""]
        for label in self.labels:
            lines += self.by_label(label)
        return "\n".join([*lines, *self.whole(), ""])

    def uses(self):
        """What the functions name."""
        derived = [table for table in self.tables if not table.recipe.is_at_hand()]
        files = {}
        for table in derived:
            files.setdefault(table_file(table.recipe.rule), []).append(table.name())
        lines = [f"use crate::{file}::{{{', '.join(sorted(names))}}};"
                 for file, names in sorted(files.items())]
        words = {source(text).split("(")[0] for table in self.tables for text in
                 table.recipe.sources}
        makers = ["at_hand", "derived"] if derived else ["at_hand"]
        lines.append(f"use presuppositions::{{Entry, Label, Source, {', '.join(makers)}}};")
        lines.append(f"use Source::{{{', '.join(sorted(words))}}};")
        return [*lines, f"use theory::{self.family.enum};"]


def table_file(rule):
    return rule.name.replace(".", "_")


def entry_tables(family):
    """The tables of a family's entries, in the order of its rules."""
    earlier = EARLIER.get(family.variant, [])
    named = {name: Recipe((SOURCES / f"{name}.txt").read_text()) for name in earlier}
    found = at_hand((SOURCES / "behind" / "at_hand.txt").read_text())
    for rule in family.rules:
        file = SOURCES / "behind" / f"{rule.name}.txt"
        if file.exists():
            found += Entries(file.read_text(), named).entries()
    order = [rule.name for rule in family.rules]
    found = [entry for entry in found if entry.rule.name in order]
    found.sort(key=lambda entry: order.index(entry.rule.name))
    return [EntryTable(entry, earlier) for entry in found]


def write_family(src, family):
    """The functions of a family, and for each rule a file of the tables that have rows."""
    tables = entry_tables(family)
    (src / f"{family.variant.lower()}.rt").write_text(FamilyEntries(family, tables).written())
    files = {}
    for table in tables:
        if not table.recipe.is_at_hand():
            files.setdefault(table_file(table.recipe.rule), []).append(table)
    for file, found in files.items():
        lines = head(found, "write_entries")
        for table in found:
            lines += [*table.static(table.name(), table.about()), ""]
        (src / f"{file}.rt").write_text("\n".join(lines))


def main():
    found = {family.variant: family for family in families()}
    for crate, names in ENTRIES.items():
        for name in names:
            write_family(ROOT / "crates" / crate / "src", found[name])


if __name__ == "__main__":
    main()
