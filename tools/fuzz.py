#!/usr/bin/env python3
"""Runs the program on modules and derivation files that are changed at random, and says what does
not hold.

    python3 tools/fuzz.py PROGRAM [SECONDS [SEED]]

A module is one of `examples` with some pieces changed, or is made at random so that it is direct. A
derivation is a stored one with some rows changed. What must hold:

- Each run ends in time, and prints one of the program's lines with its status; the same run again
  prints the same, and `check` stores the same bytes.
- A module that is made to be direct is taken.
- Where `check` says yes, what it stored is right and is the module's, by `replay --of`, and right
  by `judge.py`, which shares no code with the program; and `normal` of one of the definitions
  stores a right file with one root. Where it says no, what stood at the path of the derivation
  stays. What is wrong with the text `replay --of` says too; where a definition is refused and lines
  are shown, the evidence is right, with a root for a type and two where two things differ.
- `replay` says of a derivation what `judge.py` says; with a module it says the first place at which
  the roots, as the judge has them, and those of the module differ.
- Time and memory of a run are within a factor of the bytes that it read and wrote; and those of
  eight copies of a derivation are at most four times those of two, in time twice that. (How time
  grows with texts of one shape is told by `growing.py`.)

Of what fails, the smallest text that was found to fail so is printed. The cases are the same for
the same seed.
"""
import collections
import pathlib
import random
import re
import sys
import tempfile
import time

import judge
from changes import changed_derivation, changed_module, copies
from running import Program, Wrong, hold, within
from try_modules import direct_module

ROOT = pathlib.Path(__file__).resolve().parent.parent
FILES = {path.name: path.read_bytes() for path in (ROOT / "examples").glob("*.*")}
TEXTS = {name: data for name, data in FILES.items() if name.endswith(".ctt")}
OF_RULES = [path.read_bytes() for path in sorted((ROOT / "tests").glob("*.drv"))]
OLD = b"what stood here before\n"

# Refusals of definitions, and those that show something, of which the second group differ.
OF_DEFINITION = r"no: (RefusedForm|CannotInfer|UInU|Wanted\w+|Mismatch|SidesDiffer|Unaligned) |spent: "
SHOWING = r"no: (UInU|Wanted\w+|(Mismatch|SidesDiffer)|(Unaligned)) "

# A text, and what must hold of it.
Case = collections.namedtuple("Case", "kind text holds")


def judged(data):
    """The judge's line for a derivation, and its roots where it is right. None stands for no
    answer: it writes trees out, and some are too large for that."""
    try:
        with within(20):
            return judge.answer(data)
    except (TimeoutError, RecursionError, MemoryError):
        return None


def compared(line, found, wanted):
    """The line of `replay --of` for a right file with these roots, whose own line this is."""
    for at in range(max(len(found), len(wanted))):
        if found[at:at + 1] != wanted[at:at + 1]:
            return f"no: root {at}\n"
    return line


def hold_linear(ran, length):
    """Time and memory are within a factor of a length in bytes, for a build without proofs."""
    hold(ran.seconds < 2 + length * 1e-3, "time", f"{ran.seconds:.1f} s for {length} bytes")
    hold(ran.peak < 48 + length * 1e-2, "memory", f"{ran.peak:.0f} MB for {length} bytes")


def hold_of_refused(program, name, text, of_two):
    """A refusal of the text is that of a replay too, which has none of a definition. That of a
    definition has evidence, where it shows something."""
    if of_two != text:
        hold(re.match(OF_DEFINITION, text), "of", f"{text!r}, and {of_two!r}")
        hold(of_two.startswith(("yes", "no: root")), "of", f"{text!r}, and {of_two!r}")
    evidence = program.at / f"{name}.no.drv"
    shown = re.match(SHOWING, text)
    hold(evidence.exists() == bool(shown), "evidence", text)
    if shown:
        said = program.run("replay", evidence.name).text
        roots = 3 if shown[3] else 2 if shown[2] else 1
        hold(re.fullmatch(rf"yes: \d+ rows, {roots} roots\n", said), "evidence", f"{text}{said}")
        line, _ = judged(evidence.read_bytes()) or (said, None)
        hold(said == line, "judge of evidence", f"{line!r}, and {said!r}")


def hold_of_normal(program, name, text):
    """The normal form of the last definition of a module that is right."""
    names = re.findall(rb"^(?!module|import)([^\W\d]\w*)", text, re.M)
    if not names:
        return
    words = [name, names[-1].decode(errors="replace")]
    ran = program.twice("normal", *words)
    hold(ran.status == 0 or ran.text.startswith(("no: NoSuchName", "spent", "no: RefusedForm")),
         "normal", ran.text)
    if ran.status == 0:
        said = program.run("replay", ".".join(words) + ".drv").text
        hold(re.fullmatch(r"yes: \d+ rows, 1 roots\n", said), "normal", f"{ran.text}{said}")


def hold_of_stored(program, name, stored, of_two):
    """What `check` stored is right, and the module's."""
    whole = sum(file.stat().st_size for file in program.at.iterdir())
    plain = program.run("replay", f"{name}.drv")
    of = program.run("replay", f"{name}.drv", "--of", name)
    hold(of.text == plain.text, "not replayed", f"{plain.text!r}, and {of.text!r}")
    hold_linear(of, whole)
    line, roots = judged(stored) or (None, None)
    if line:
        hold(plain.text == line, "judge", f"{line!r}, and {plain.text!r}")
        wanted = compared("yes: 13 rows, 2 roots\n", judged(FILES["two.drv"])[1], roots)
        hold(of_two == wanted, "roots", f"of two.drv {of_two!r}, not {wanted!r}")


def hold_of_module(program, files, name, wanted=None):
    """What must hold of a module of that name, which may be known to be answered so."""
    path = program.at / f"{name}.drv"
    program.put({**files, path.name: OLD, "two.drv": FILES["two.drv"]})
    ran = program.run("check", name)
    stored = path.read_bytes()
    again = program.run("check", name)
    hold(again.text == ran.text, "other line", f"{ran.text!r}, and {again.text!r}")
    hold(path.read_bytes() == stored, "other bytes")
    hold(wanted in (None, ran.text), f"not taken: {ran.text.split(' ')[1]}", ran.text)
    hold_linear(ran, len(stored) + sum(map(len, files.values())))
    of_two = program.run("replay", "two.drv", "--of", name).text
    if ran.status == 0:
        hold_of_stored(program, name, stored, of_two)
        hold_of_normal(program, name, files[f"{name}.ctt"])
    else:
        hold(stored == OLD, "stored", ran.text)
        hold_of_refused(program, name, ran.text, of_two)
    return ran.text


def hold_of_derivation(program, data, files, name, wanted):
    """What must hold of a derivation, beside a module that has these roots."""
    program.put({**files, "x.drv": data})
    plain, of = program.twice("replay", "x.drv"), program.twice("replay", "x.drv", "--of", name)
    hold_linear(of, len(data) + sum(map(len, files.values())))
    line, roots = judged(data) or (None, None)
    if line:
        hold(plain.text == line, "judge", f"{line!r}, and {plain.text!r}")
        line = line if roots is None else compared(line, roots, wanted)
        hold(of.text == line, "roots", f"{of.text!r}, not {line!r}")
    return plain.text


def hold_of_copies(program, data):
    """Eight copies of a derivation take at most four times what two take, in time twice that."""
    program.put({"x.drv": copies(data, 2), "y.drv": copies(data, 8)})
    few, many = program.run("replay", "x.drv"), program.run("replay", "y.drv")
    hold(many.seconds < 0.3 + 8 * few.seconds, "time of copies", f"{few}, {many}")
    hold(many.peak < 16 + 4 * few.peak, "memory of copies", f"{few}, {many}")
    return many.text


# Cases.


def a_module(rng):
    name = rng.choice([*sorted(TEXTS), "First.ctt", "Two.ctt"])
    files = TEXTS if name == "Imports.ctt" else {name: TEXTS[name]}
    path = rng.choice(sorted(files))
    return Case(f"{path} for {name}", changed_module(rng, files[path]), lambda program, text:
                hold_of_module(program, {**files, path: text}, name.split(".")[0]))


def a_direct_module(rng):
    def count(text):
        return sum(not line.startswith(b" ") for line in text.splitlines()) - 1

    return Case("direct M.ctt", direct_module(rng).encode(), lambda program, text: hold_of_module(
        program, {"M.ctt": text}, "M", f"yes: {count(text)} definitions\n"))


def a_derivation(rng):
    name = rng.choice(["First"] * 6 + ["Two"] * 3 + ["Pairs", "Numbers", "Imports"])
    data = FILES["two.drv" if name == "Two" else f"{name}.drv"]
    wanted = judged(data)[1]
    data = rng.choice(OF_RULES) if rng.randrange(8) == 0 else data
    return Case(f"derivation beside {name}.ctt", changed_derivation(rng, data),
                lambda program, text: hold_of_derivation(program, text, TEXTS, name, wanted))


def some_copies(rng):
    data = FILES[rng.choice(["First.drv", "Pairs.drv", "Numbers.drv"])]
    for _ in range(rng.randrange(4)):
        data = changed_derivation(rng, data)
    return Case("copies of a derivation", data, hold_of_copies)


MAKERS = [a_module] * 5 + [a_direct_module] * 3 + [a_derivation] * 5 + [some_copies]


# Failures.


def smallest(program, case, kind):
    """A small text that fails so, had by dropping lines and then words, some at a time."""
    text, end = case.text, time.time() + 100
    for ends in (rb"(?<=\n)", rb"(?<= )|(?=[ ()\n])"):
        parts = re.split(ends, text)
        size = len(parts)
        while size and time.time() < end:
            shorter = (parts[:at] + parts[at + size:] for at in range(0, len(parts), size))
            fails = (less for less in shorter
                     if failure(program, case._replace(text=b"".join(less)))[0] == kind)
            less = next(fails, None)
            parts, size = (parts, size // 2) if less is None else (less, min(size, len(less)))
        text = b"".join(parts)
    return text


def failure(program, case):
    """How a case fails, by kind and detail, or None and the line."""
    try:
        return None, case.holds(program, case.text)
    except Wrong as wrong:
        return wrong.args[0], wrong.args[1]


def fuzz(path, seconds, seed):
    rng, end = random.Random(seed), time.time() + seconds
    answers, failed = collections.Counter(), 0
    with tempfile.TemporaryDirectory() as folder:
        program = Program(path, folder)
        while time.time() < end:
            case = rng.choice(MAKERS)(rng)
            kind, said = failure(program, case)
            answers[case.kind, kind or re.sub(r"( at)? \d.*|( in .*)?\n", "", said)] += 1
            if kind:
                failed += 1
                print(f"fuzz: {case.kind}: {kind}: {said}\n{smallest(program, case, kind)!r}",
                      flush=True)
    for (kind, answer), count in sorted(answers.items()):
        print(f"{count:6} {kind}: {answer}")
    print(f"fuzz: {failed} failed, of {sum(answers.values())} cases from seed {seed}")
    return 1 if failed else 0


def main():
    if len(sys.argv) not in (2, 3, 4):
        sys.exit(__doc__.strip())
    seconds, seed = (int(word) for word in (*sys.argv[2:], *["60", "0"][len(sys.argv) - 2:]))
    return fuzz(sys.argv[1], seconds, seed)


if __name__ == "__main__":
    sys.exit(main())
