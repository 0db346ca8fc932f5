#!/usr/bin/env python3
"""Runs the program on words and files, and compares what it prints and how it ends.

    tools/try_program.py [PROGRAM]

The runs that the gate makes of the program have no words, so this looks at how it reads them and
the disk. Each case is a file, the words with `{}` for its path, a line and a status. PROGRAM is
that which the gate has built, where none is given; on it the cases of each rule run too
(`rule_cases.py`). A build without proofs, by `rt try`, runs one in ten of these. Prompts run on that
which the gate has built alone, since they answer while they are asked.
"""
import concurrent.futures
import os
import pathlib
import re
import shutil
import subprocess
import sys
import tempfile
import threading

import rule_cases

LIMIT = 60  # seconds that one run may take
ROOT = pathlib.Path(__file__).resolve().parent.parent
EXAMPLES = ROOT / "examples"
PROGRAM = ROOT / "crates" / "ctt" / "out" / "ctt"
TWO = (EXAMPLES / "two.drv").read_text()
USAGE = (
    "usage: ctt check MODULE [--turns N] [--json] | replay FILE [--of MODULE] | "
    "normal MODULE NAME [--turns N] | prompt MODULE [--turns N] | make N\n"
)
YES = "yes: 13 rows, 2 roots\n"
CASES = {
    "example": (TWO, ["replay", "{}"], YES, 0),
    "bad_row": (TWO.replace("n suc 1 7 8\n", "n suc 1 7 9\n"), ["replay", "{}"], "no: row 9\n", 1),
    "missing": (TWO, ["replay", "none.drv"], "no: MissingFile in none.drv\n", 1),
    "two_paths": (TWO, ["replay", "{}", "{}"], USAGE, 2),
    "other_word": (TWO, ["judge", "{}"], USAGE, 2),
    "no_words": (TWO, [], USAGE, 2),
    "after_dashes": (TWO, ["replay", "--", "{}"], YES, 0),
    "of_module": (TWO, ["replay", "{}", "--of", "none"], "no: MissingFile in none.ctt\n", 1),
    "checked": ("", ["check", "First"], "yes: 2 definitions\n", 0),
    "unchecked": ("", ["check", "data"], "no: MissingFile in data.ctt\n", 1),
    "in_json": ("", ["check", "First", "--json"], '{"answer":"yes","definitions":2}\n', 0),
    "missing_in_json": (
        "",
        ["check", "data", "--json"],
        '{"answer":"no","cause":"MissingFile","path":"data.ctt"}\n',
        1,
    ),
    "normal": ("", ["normal", "First", "two"], "(suc (suc zero))\n", 0),
    "nameless": ("", ["normal", "First", "three"], "no: NoSuchName in First.ctt\n", 1),
    "spent": ("", ["normal", "First", "two", "--turns=1"], "spent: 1 at 114 in First.ctt\n", 4),
    "made": (
        "",
        ["make", "1"],
        "module Gen where\nd0 : nat = zero\nyes: 1 definitions\nreplayed: 2 roots\n",
        0,
    ),
    "makes_none": ("", ["make", "0"], USAGE, 2),
    "prompt_without_input": ("", ["prompt", "First"], "", 0),
    "prompt_of_none": ("", ["prompt", "data"], "no: MissingFile in data.ctt\n", 1),
}

# Lines of a prompt of the example `First`, each with its answer.
ASKED = [
    ("two", "(suc (suc zero))\n"),
    ("three", "no: Unbound at 0\n"),
    (":n successor two", "(suc (suc (suc zero)))\n"),
    ("suc nat", "no: Mismatch at 4\nfound: U\nwanted: nat\n"),
    ("", ""),
    (":x", "no: Unexpected at 0\n"),
    ("successor", "(\\(x0 : nat) -> (suc x0))\n"),
]
LIMIT_OF_INPUT = 1 << 24  # bytes that a prompt takes


def examples():
    """The modules of the examples check, and their derivations replay as theirs."""
    for module, count in {"First": 2, "Imports": 25, "Numbers": 9, "Pairs": 9, "Two": 1}.items():
        path = "two.drv" if module == "Two" else f"{module}.drv"
        lines = (EXAMPLES / path).read_text().splitlines()
        roots = sum(line.startswith("r ") for line in lines)
        line = f"yes: {len(lines)} rows, {roots} roots\n"
        yield f"check_{module}", ("", ["check", module], f"yes: {count} definitions\n", 0)
        yield f"replay_{module}", ("", ["replay", path, "--of", module], line, 0)


def cases(one_in):
    """All cases, with one in so many of those of the rules."""
    return CASES | dict(examples()) | rule_cases.cases(one_in)


def ended(program, case):
    """What the program prints, and the status that it ends with, if it does in time."""
    text, words, *_ = case
    with tempfile.TemporaryDirectory() as path:
        folder = pathlib.Path(path, "examples")
        shutil.copytree(EXAMPLES, folder)
        (folder / "case").write_text(text)
        words = [word.replace("{}", "case") for word in words]
        try:
            ran = subprocess.run([program, *words], cwd=folder, stdin=subprocess.DEVNULL,
                                 stdout=subprocess.PIPE, stderr=subprocess.STDOUT, timeout=LIMIT)
        except (OSError, subprocess.TimeoutExpired) as error:
            return str(error), None
    return ran.stdout.decode(errors="replace"), ran.returncode


def prompting(program):
    """A prompt of the example `First` that runs, with pipes for its input and its output."""
    return subprocess.Popen([program, "prompt", "First"], cwd=EXAMPLES, stdin=subprocess.PIPE,
                            stdout=subprocess.PIPE, stderr=subprocess.STDOUT)


def prompted(program, given):
    """What a prompt prints for an input, and the status that it ends with."""
    with prompting(program) as started:
        try:
            text, _ = started.communicate(given, timeout=LIMIT)
        except subprocess.TimeoutExpired as error:
            started.kill()
            return str(error), None
    return text.decode(errors="replace"), started.returncode


def by_bytes(program):
    """A pipe that gives one byte at a time."""
    given = "".join(f"{line}\n" for line, _ in ASKED).encode() + b":q\n"
    with prompting(program) as started:
        for byte in given:
            started.stdin.write(bytes([byte]))
            started.stdin.flush()
        text, _ = started.communicate(timeout=LIMIT)
    wanted = "".join(answer for _, answer in ASKED)
    return (text.decode(errors="replace"), started.returncode), (wanted, 0)


def in_turn(program):
    """Each answer is read before the next line is written. One that does not come is not waited
    for: the prompt is ended then, so that the read is too."""
    found = []
    with prompting(program) as started:
        watch = threading.Timer(LIMIT, started.kill)
        watch.start()
        for line, answer in ASKED:
            started.stdin.write(f"{line}\n".encode())
            started.stdin.flush()
            found += [started.stdout.readline().decode() for _ in range(answer.count("\n"))]
        rest, _ = started.communicate(b":q\ntwo\n")
        watch.cancel()
    wanted = "".join(answer for _, answer in ASKED)
    return ("".join(found) + rest.decode(errors="replace"), started.returncode), (wanted, 0)


def many_refused(program):
    """1,000 lines, of which each other one is refused."""
    pairs = [ASKED[0], ASKED[3]] * 500
    given = "".join(f"{line}\n" for line, _ in pairs).encode()
    return prompted(program, given), ("".join(answer for _, answer in pairs), 0)


def as_long_as_may_be(program):
    """An input of the most bytes, of which the last line has no newline."""
    given = b"two\n".ljust(LIMIT_OF_INPUT - 3, b"\n") + b"two"
    return prompted(program, given), (ASKED[0][1] * 2, 0)


def too_long(program):
    """An input of one byte more: what ends within the most bytes is answered."""
    given = b"two\n".ljust(LIMIT_OF_INPUT - 3, b"\n") + b"two\n"
    return prompted(program, given), (ASKED[0][1] + "no: TooLong\n", 1)


def ended_in_time(program):
    """An input that is too long, but ends by `:q` before."""
    given = b"two\n:q\n".ljust(LIMIT_OF_INPUT + 1, b"\n")
    return prompted(program, given), (ASKED[0][1], 0)


def refused_line(number):
    """A line that is refused, with a type that has as many forms as the number has digits."""
    digits = "".join("nat -> " if digit == "1" else "U -> " for digit in f"{number:b}")
    return f"(\\(x : {digits}nat) -> x) zero"


def refusing(program, count):
    """The first words that answer so many refused lines, and the kilobytes that the prompt had at
    most by then."""
    words = set()
    with prompting(program) as started:
        for number in range(1, count + 1):
            started.stdin.write(f"{refused_line(number)}\n".encode())
            started.stdin.flush()
            words.add(started.stdout.readline()[:13].decode())
            _found, _wanted = started.stdout.readline(), started.stdout.readline()
        status = pathlib.Path(f"/proc/{started.pid}/status").read_text()
        started.communicate(b":q\n", timeout=LIMIT)
    return words, int(re.search(r"VmHWM:\s*(\d+) kB", status)[1])


def refused_cost_no_memory(program):
    """20,000 refused lines, each with a term of its own, take at most 16 MB more than 2,000."""
    (few, before), (many, after) = (refusing(program, count) for count in (2_000, 20_000))
    found = few | many, after - before <= 16_384 or f"{before} kB, and then {after} kB"
    return found, ({"no: Mismatch "}, True)


PROMPTS = [by_bytes, in_turn, many_refused, as_long_as_may_be, too_long, ended_in_time,
           refused_cost_no_memory]


def prompts(program=PROGRAM):
    """How many prompts answer as they must on a program, and how many not."""
    program, wrong = pathlib.Path(program).resolve(), {}
    for prompt in PROMPTS:
        try:
            found, wanted = prompt(program)
        except (OSError, subprocess.TimeoutExpired) as error:
            found, wanted = str(error), None
        if found != wanted:
            wrong[prompt.__name__] = found
    print(f"prompts: {len(PROMPTS) - len(wrong)} passed, {len(wrong)} failed", flush=True)
    for name, found in wrong.items():
        print(f"    {name}: {str(found)[:400]}")
    return len(PROMPTS) - len(wrong), len(wrong)


def proved(program=PROGRAM):
    """How many cases pass and fail on a program, with one at a time on each processor."""
    tried, program = cases(1), pathlib.Path(program).resolve()
    with concurrent.futures.ThreadPoolExecutor(os.cpu_count()) as pool:
        found = dict(zip(tried, pool.map(lambda case: ended(program, case), tried.values())))
    wrong = {name: found[name] for name, case in tried.items() if found[name] != case[2:]}
    return told(wrong, tried)


def told(wrong, tried):
    """How many cases passed and failed, once that is printed, with what was found of each."""
    passed, failed = len(tried) - len(wrong), len(wrong)
    print(f"the program on words and files: {passed} passed, {failed} failed", flush=True)
    for name, found in wrong.items():
        print(f"    {name}: {found} in place of {tried[name][2:]}")
    return passed, failed


def lay_out(folder, tried):
    """Writes the cases as `rt try --cases` reads them."""
    for name, (text, words, line, _) in tried.items():
        case = pathlib.Path(folder, name)
        case.write_text(text)
        case.with_suffix(".args").write_text("".join(word + "\n" for word in words))
        case.with_suffix(".stdout").write_text(line)


def expected(said):
    """The cases that printed their line, with the status of each."""
    fields = [dict(part.split("=", 1) for part in line.split() if "=" in part)
              for line in said.splitlines() if line.startswith("case=")]
    return {f["case"]: int(f["status"]) for f in fields
            if f.get("run") == "ended" and f.get("output") == "expected"}


def unproved():
    """How many cases pass and fail on a build without proofs."""
    tried = cases(10)
    data = [word for path in sorted(EXAMPLES.glob("*.*"))
            for word in ("--data", f"{path.name}={path}")]
    with tempfile.TemporaryDirectory() as folder:
        lay_out(folder, tried)
        ran = subprocess.run(["rt", "try", "--cases", folder, *data], cwd=ROOT / "crates" / "ctt",
                             text=True, stdout=subprocess.PIPE, stderr=subprocess.STDOUT)
    found = expected(ran.stdout)
    return told({name: "another answer" for name, (*_, status) in tried.items()
                 if found.get(name) != status}, tried)


if __name__ == "__main__":
    if len(sys.argv) > 2:
        sys.exit(__doc__.strip())
    failed = [proved(*sys.argv[1:])[1], prompts(*sys.argv[1:])[1]]
    sys.exit(any(failed))
