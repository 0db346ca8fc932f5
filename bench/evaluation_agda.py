#!/usr/bin/env python3
"""Times Cubical Agda on the texts of `evaluation.py`, written as Agda has them.

usage: python3 bench/evaluation_agda.py [--limit S] [--runs N] [FAMILY ..]

A line tells the question, whether Agda takes the module, the seconds of the processor (the least of
N runs, 5 where no other number is given, and of one where that takes more than 3 seconds), less
those of a module with the library alone, which stands first, and the megabytes at the peak. What
`ctt normal` normalises Agda's interaction computes, behind a load of the module. A run of more than
S seconds (20) is stopped, and the larger ones of its family are not asked.

The texts are translated word by word: `natrec` is a function by recursion, `comp` along a constant
line is `hcomp`, and the library of univalence is written out, since fibers are turned round there.
"""

import argparse
import pathlib
import re
import sys
import tempfile

from evaluation import FAMILIES, Program, Stopped, univalence

HEAD = """{-# OPTIONS --cubical #-}
module MODULE where
open import Agda.Primitive
open import Agda.Primitive.Cubical
  renaming (primINeg to ~_; primIMax to _∨_; primIMin to _∧_; primHComp to hcomp;
            primTransp to transp)
open import Agda.Builtin.Cubical.Path
open import Agda.Builtin.Cubical.Glue renaming (primGlue to Glue)
open import Agda.Builtin.Sigma
data N : Set where
  zero : N
  suc : N → N
natrec : (P : N → Set) → P zero → ((n : N) → P n → P (suc n)) → (n : N) → P n
natrec P a b zero = a
natrec P a b (suc n) = b n (natrec P a b n)
"""
GLUED = """identity : (A : Set) → A ≃ A
identity A = (λ x → x) , record { equiv-proof = λ y →
  (y , λ _ → y) , λ z k → snd z (~ k) , λ j → snd z (~ k ∨ j) }
ua : (A B : Set) → A ≃ B → A ≡ B
ua A B e i = Glue B {φ = ~ i ∨ i} (λ { (i = i0) → A ; (i = i1) → B })
  (λ { (i = i0) → e ; (i = i1) → identity B })
P : Set
P = Σ N λ _ → N
swap : P → P
swap x = snd x , fst x
swap-equiv : P ≃ P
swap-equiv = swap , record { equiv-proof = λ y →
  (swap y , λ _ → y) , λ z k → swap (snd z (~ k)) , λ j → snd z (~ k ∨ j) }
"""
SWAPPED = "swapped : P = transport (ua P P swap_equiv) (zero, suc zero)"
COMP = re.compile(r"comp \(<_> \w+\) (\w+|\([^()]*\)) \[ (.*?) ?\]")


def face(equations):
    """The formula of equations, and they as a pattern of Agda's."""
    parts = re.findall(r"\((\w+)=([01])\)", equations)
    formula = " ∧ ".join(name if end == "1" else f"(~ {name})" for name, end in parts)
    return f"({formula})", " ".join(f"({name} = i{end})" for name, end in parts)


def composition(found):
    """A composition along a constant line."""
    base, system = found.groups()
    sides = [side for side in re.split(r", (?=\()", system) if side]
    if not sides:
        return f"hcomp {{φ = i0}} (λ _ → λ ()) {base}"
    formulas, clauses = [], []
    for side in sides:
        equations, line = side.split(" -> ", 1)
        formula, pattern = face(equations)
        formulas.append(formula)
        clauses.append(f"{pattern} → {line[4:] if line.startswith('<_> ') else line + ' v'}")
    cover, system = " ∨ ".join(formulas), " ; ".join(clauses)
    return f"hcomp {{φ = {cover}}} (λ v → λ {{ {system} }}) {base}"


def term(text):
    """A term, word by word."""
    text = COMP.sub(composition, text)
    text = re.sub(r"transport \(([^()]*)\)", r"transp (λ v → \1 v) i0", text)
    text = re.sub(r"(\w+)\.1", r"(fst \1)", re.sub(r"(\w+)\.2", r"(snd \1)", text))
    text = re.sub(r"@ ([01])", r"i\1", text).replace("@ ", "")
    text = re.sub(r"<([\w ]+)>", r"λ \1 →", text)
    text = re.sub(r"\\(\([^()]*\)(?: \([^()]*\))*) ->", r"λ \1 →", text)
    text = re.sub(r"\(_ : nat\) \*", "Σ N λ _ →", text)
    text = re.sub(r"\bnat\b", "N", re.sub(r"\bU\b", "Set", text))
    return text.replace("->", "→").replace(",", " ,").replace("swap_equiv", "swap-equiv")


def split(text, mark):
    """A text before and behind a mark that stands within no brackets."""
    depth = 0
    for at, letter in enumerate(text):
        depth += (letter == "(") - (letter == ")")
        if not depth and text.startswith(mark, at):
            return text[:at], text[at + len(mark):]
    raise ValueError(text)


def definition(text):
    """A definition: its signature, and its clause over the names of its telescope."""
    head, rest = split(text, " : ")
    of_type, body = split(rest, " = ")
    name, _, tele = head.partition(" ")
    parts = re.findall(r"\((?:[^()]|\([^()]*\))*\)", tele)
    names = " ".join(part[1:-1].split(" : ")[0] for part in parts)
    arrow = " → " if tele else ""
    return f"{name} : {term(tele)}{arrow}{term(of_type)}\n{name} {names} = {term(body)}\n"


def translated(lines):
    """Definitions, of which a line that begins with a space goes on with the one before."""
    joined = []
    for line in lines:
        if line.startswith(" "):
            joined[-1] += " " + line.strip()
        else:
            joined.append(line)
    return "".join(definition(line) for line in joined)


def text_of(family, size):
    lines, head = FAMILIES[family][1](size), HEAD
    if family == "transports":
        lines, head = lines[len(univalence()):], HEAD + GLUED
    return head + translated(lines)


def halves(name):
    """A pair by its halves: transport at a type of pairs is computed only where it is projected."""
    return f"fst {name} , snd {name}"


class Agda(Program):
    """Agda, in a folder of modules, whose interfaces are removed before each run."""

    def ask(self, module, text, name=None):
        (self.at / f"{module}.agda").write_text(text.replace("MODULE", module))
        source = self.at / f"{module}.agda"
        commands = [f'Cmd_load "{source}" []']
        if name:
            commands.append(f'Cmd_compute_toplevel DefaultCompute "{name}"')
        given = "".join(f'IOTCM "{source}" None Direct ({command})\n' for command in commands)
        self.input = given.encode()
        return self.best("--no-libraries", "--interaction")

    def run(self, *words, limit=None):
        for made in self.at.glob("**/*.agdai"):
            made.unlink()
        return super().run(*words, limit=limit)


def answer_of(text, name):
    if "*Error*" in text:
        return "no"
    if name and '"*Normal Form*"' not in text:
        sys.exit(text[-2000:])
    return "yes"


def main():
    words = argparse.ArgumentParser(description=re.split(r"\n\n", __doc__)[0])
    words.add_argument("--limit", type=float, default=20, metavar="S")
    words.add_argument("--runs", type=int, default=5, metavar="N")
    words.add_argument("families", nargs="*", metavar="FAMILY")
    asked = words.parse_intermixed_args()
    with tempfile.TemporaryDirectory() as folder:
        agda = Agda("agda", pathlib.Path(folder), asked.limit, asked.runs)
        _, _, start, peak = agda.ask("Start", HEAD)
        print(f"{'start':22}{'':>10}{start:>9.3f}{peak / 1e6:>8.0f}", flush=True)
        swapped = HEAD + GLUED + translated([SWAPPED])
        cases = [("univalence", 1, swapped, None), ("univalence", 2, swapped, halves("swapped"))]
        for family in asked.families or FAMILIES:
            job, _, sizes = FAMILIES[family]
            name = "asked" if job == "normal" else None
            name = halves(name) if family == "transports" else name
            cases += [(family, size, text_of(family, size), name) for size in sizes]
        over = set()
        for family, size, text, name in cases:
            if family in over:
                continue
            try:
                module = f"{family.capitalize().replace('_', '')}{size}"
                told, _, seconds, peak = agda.ask(module, text, name)
            except Stopped as stopped:
                print(f"{family + ' ' + str(size):22}  {stopped}", flush=True)
                over.add(family)
                continue
            print(f"{family + ' ' + str(size):22}{answer_of(told, name):>10}"
                  f"{seconds - start:>9.3f}{peak / 1e6:>8.0f}", flush=True)


if __name__ == "__main__":
    main()
