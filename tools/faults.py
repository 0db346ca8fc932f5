#!/usr/bin/env python3
"""Runs the program where memory, output, files and folders fail, and says what does not hold.

    python3 tools/faults.py PROGRAM

Each case is typed to a shell, in a folder of its own with the examples, whose derivations are not
there but something else at their paths. What must hold of each:

- What is printed and the status are as the case says. Where memory is short, they are the ordinary
  ones, or nothing and status 5.
- At the path of the derivation stands what stood there before, or the whole derivation, as the case
  says. Every other file is as it was, whatever links there are, and nothing new is left over.
- No run takes more memory than the longest text does.

A build with AddressSanitizer, as that of `rt try`, has its memory limited by that, any other by
`ulimit -v`. What can't be set up, as a mount or a user who may run the program, is left out, and
that is said.
"""
import collections
import os
import pathlib
import re
import sys
import tempfile

from running import Program, Wrong, hold

EXAMPLES = pathlib.Path(__file__).resolve().parent.parent / "examples"
OLD = b"what stood here before\n"
PEAK = 1500  # megabytes that a run may take, with a sanitizer
LONG = 1 << 26  # bytes of a file that is told by its size alone
NOBODY = {"user": 65534, "group": 65534, "extra_groups": []}

YES = ("yes: 2 definitions\n", 0)
UNREAD = ("fault: ReadFault\n", 3)
UNSTORED = ("fault: WriteFault\n", 3)
DEEP = ("yes: 20001 rows, 0 roots\n", 0)
CUT = ("", 3)
NO_MEMORY = ("", 5)
NO_STACK = ("", 139)  # a limit of memory is one of the stack too, for which a deep text wants most
NORMAL = ("(suc (suc zero))\n", 0)
TOO_LONG = ("no: TooLong in First.ctt\n", 1)

# What is typed, after what is set up, and what it may print and end with. Then what stands at the
# path of a derivation that it stores: `old`, `whole`, either of these, `none`, or `open`.
Case = collections.namedtuple("Case", "name first typed may stored")


def missing(path):
    return (f"no: MissingFile in {path}\n", 1)


def sanitizer(option, size):
    return f"export ASAN_OPTIONS=allocator_may_return_null=1:{option}={size}"


def case(name, first, typed, *may, stored="old"):
    return Case(name, first, typed, may, stored)


OUTPUTS = [
    case("output is closed", "", "ctt check First >&-", CUT, stored="whole"),
    case("output is full", "", "ctt check First > /dev/full", CUT, stored="whole"),
    case("all is closed", "", "ctt check First <&- >&- 2>&-", CUT, stored="whole"),
    case("usage to a full output", "", "ctt help > /dev/full", CUT),
    case("a refusal to a full output", "rm Pairs.ctt", "ctt check Imports > /dev/full", CUT),
    case("a normal form to a full output", "", "ctt normal First two > /dev/full; r=$?; "
         "rm First.two.drv; exit $r", CUT),
    case("nobody reads", "", "{ sleep 0.2; ctt check First; echo $? > status; } | true; exit $("
         "cat status; rm status)", CUT, stored="whole"),
    case("input is closed", "", "ctt check First <&-", YES, stored="whole"),
    case("errors are closed", "", "ctt check First 2>&-", YES, stored="whole"),
]

READS = [
    case("a folder for a module", "rm First.ctt; mkdir First.ctt", "ctt check First", UNREAD),
    case("a folder for an import", "rm Pairs.ctt; mkdir Pairs.ctt", "ctt check Imports", UNREAD),
    case("no module", "rm First.ctt", "ctt check First", missing("First.ctt")),
    case("no import", "rm Pairs.ctt", "ctt check Imports", missing("Pairs.ctt")),
    case("a folder for a file", "", "ctt replay .", UNREAD),
    case("a link to nothing", "ln -s none link", "ctt replay link", missing("link")),
    case("a link to itself", "ln -s link link", "ctt replay link", UNREAD),
    case("a path through a file", "", "ctt replay two.drv/x", UNREAD),
    case("a path too long", "", "ctt replay $(printf %05000d 1)", UNREAD),
    case("a file that can't be read", "", "ctt replay /proc/self/mem", UNREAD),
    case("a device without bytes", "", "ctt replay /dev/null", UNREAD),
    case("a device without end", "", "ctt replay /dev/zero", UNREAD),
    case("a device for a module", "ln -sf /dev/zero First.ctt", "ctt check First", UNREAD),
    case("a named pipe for a file", "mkfifo pipe", "ctt replay pipe", UNREAD),
    case("a named pipe for a module", "rm First.ctt; mkfifo First.ctt", "ctt check First", UNREAD),
    case("a named pipe for an import", "rm Pairs.ctt; mkfifo Pairs.ctt", "ctt check Imports",
         UNREAD),
    case("a module of 3 GB", "truncate -s 3G First.ctt", "ctt check First", TOO_LONG),
    case("a module that is too long by a byte", "truncate -s 16777217 First.ctt",
         "ctt replay two.drv --of First", TOO_LONG),
    case("a file of 4 TB", "test $(cat /proc/sys/vm/overcommit_memory) != 1; truncate -s 4T big",
         f"{sanitizer('max_allocation_size_mb', 4096)}; ctt replay big 2> /dev/null", NO_MEMORY),
    case("a path of two lines", "", "ctt replay 'x\nyes: 1 rows, 0 roots'",
         missing("x\nyes: 1 rows, 0 roots")),
    case("words that are no text", "", "ctt check $(printf '\\377') > /dev/null", ("", 2)),
]

STORES = [
    case("a folder at the path", "rm First.drv; mkdir First.drv", "ctt check First", UNSTORED,
         stored="none"),
    case("a folder at the path of a normal form", "mkdir First.two.drv", "ctt normal First two",
         UNSTORED),
    case("a folder at the path of evidence", "echo 'a : nat = two.1' >> First.ctt; "
         "mkdir First.no.drv", "ctt check First", UNSTORED),
    case("a named pipe at the path", "rm First.drv; mkfifo First.drv", "ctt check First", UNSTORED,
         stored="none"),
    case("a device at the path", "rm First.drv; mknod First.drv c 1 3", "ctt check First", UNSTORED,
         stored="none"),
    case("a link to a device", "ln -sf /dev/full First.drv", "ctt check First", YES,
         stored="whole"),
    case("a link into no folder", "ln -sf none/x First.drv", "ctt check First", YES,
         stored="whole"),
    case("a link to the text", "ln -sf First.ctt First.drv", "ctt check First", YES,
         stored="whole"),
    case("a second name of an import", "ln -f Pairs.ctt Imports.drv", "ctt check Imports",
         ("yes: 25 definitions\n", 0), stored="whole"),
    case("left over by a check that was killed", "echo left > .ctt-0", "ctt check First", YES,
         stored="whole"),
    case("a full disk", "unshare -m true; mkdir small", "unshare -m sh -c 'mount -t tmpfs "
         "-o size=64k none small && cp Pairs.ctt small && cd small && cat /dev/zero > zeros 2> "
         "/dev/null; \"$0\" check Pairs; r=$?; test $(ls -A | wc -l) = 2 || r=9; exit $r' "
         "\"$program\"", UNSTORED),
    case("files may not be long", "", "trap '' XFSZ; ulimit -f 1; ctt check Pairs", UNSTORED),
    case("a file that may not change", "chattr +i First.drv", "ctt check First; r=$?; "
         "chattr -i First.drv; exit $r", UNSTORED),
    case("a folder to be read only", "unshare -m true", "unshare -m sh -c 'mount --bind . . && "
         "mount -o remount,ro,bind . && cd \"$PWD\" && \"$0\" check First' \"$program\"",
         UNSTORED),
]

TOGETHER = [
    case("an import comes and goes", "", "for k in 1 2 3 4 5 6 7 8 9; do mv Numbers.ctt none; "
         "sleep 0.0$k; mv none Numbers.ctt; sleep 0.02; done & ctt check Imports; r=$?; wait; "
         "exit $r", ("yes: 25 definitions\n", 0), missing("Numbers.ctt"), stored="old or whole"),
    case("two checks at once", "", "ctt check Pairs > /dev/null & ctt check Pairs; r=$?; wait; "
         "exit $r", ("yes: 9 definitions\n", 0), stored="whole"),
    case("8 MiB of stack for a text", "", "ulimit -s 8192; ctt check Deep", YES, stored="open"),
    case("256 KiB of stack for a file", "", "ulimit -s 256; ctt replay deep", DEEP),
]

# For a user without leave.
LEAVES = [
    case("no leave to read a module", "chmod 000 First.ctt", "ctt check First", UNREAD),
    case("no leave to write a file", "chmod 444 First.drv", "ctt check First", UNSTORED),
    case("no leave to make a file", "rm First.drv; chmod 555 .", "ctt check First", UNSTORED,
         stored="none"),
    case("no leave to make one beside", "chmod 555 .", "ctt check First", UNSTORED),
    case("no leave to enter a folder", "mkdir in; cp two.drv in; chmod 000 in",
         "ctt replay in/two.drv; r=$?; chmod 755 in; rm -r in; exit $r", UNREAD),
]

# What is typed where memory is short, and its ordinary end.
HUNGRY = [
    ("ctt check First", YES),
    ("ctt check Imports", ("yes: 25 definitions\n", 0)),
    ("ctt check Deep", YES),
    ("ctt normal First two; r=$?; rm -f First.two.drv; exit $r", NORMAL),
    ("ctt replay two.drv --of Two", ("yes: 13 rows, 2 roots\n", 0)),
    ("ctt replay deep", DEEP),
    ("ctt replay none", missing("none")),
]


def deep_module():
    """Two definitions as deep as a text may be."""
    values = "let x : nat = " * 511 + "zero" + " in x" * 511
    sucs = "suc (" * 511 + "zero" + ")" * 511
    return f"module Deep where\na : nat = {values}\nb : nat = {sucs}\n"


def deep_file():
    """A derivation of numbers, up to one of 10,000 operators."""
    rows, tree, node = ["rules 1", "c nil", "n ctx.nil", "t zero", "n zero 1 2"], 3, 4
    while len(rows) < 20001:
        rows += [f"n suc 1 {tree} {node}", f"t suc {tree}"]
        tree, node = len(rows) - 1, len(rows) - 2
    return "".join(row + "\n" for row in rows)


def files():
    """What stands in the folder at first."""
    found = {path.name: path.read_bytes() for path in EXAMPLES.glob("*.*")}
    found.update({name: OLD for name in found if name.endswith(".drv") and name != "two.drv"})
    return {**found, "Deep.ctt": deep_module().encode(), "deep": deep_file().encode()}


def state(program):
    """The regular files of the folder."""
    return {path.name: told(path) for path in program.at.iterdir()
            if path.is_file() and not path.is_symlink()}


def told(path):
    """The bytes of a file, or the size of a long one."""
    size = path.stat().st_size
    return path.read_bytes() if size < LONG else size


def type_in(program, first, typed, **how):
    """What is typed after what is set up, or none where that can't be."""
    shell = f'program="{program.path}"; ctt() {{ "$program" "$@"; }}\n'
    if first and program.ran(["sh", "-ec", first], **how).status != 0:
        return None
    before = state(program)
    return program.ran(["sh", "-c", shell + typed], **how), before


def hold_of_files(program, typed, before, stored):
    """Only the path of the derivation has changed, as far as it may."""
    after = state(program)
    module = re.search(r"check (\w+)", typed)
    path = module[1] + ".drv" if module else None
    for name in {*before, *after} - {path}:
        hold(before.get(name) == after.get(name), "other file", f"{name} after {typed}")
    if path is None or stored == "open":
        return
    whole = (EXAMPLES / path).read_bytes() if (EXAMPLES / path).exists() else None
    data = after.get(path)
    is_so = {"old": data == before.get(path), "none": data is None, "whole": data == whole}
    hold(any(is_so[word] for word in stored.split(" or ")), "derivation", f"not {stored}: {data!r}")


def hold_of(program, one, **how):
    """What must hold of a case. Whether it could be set up."""
    typed = type_in(program, one.first, one.typed, **how)
    if typed is None:
        return False
    ran, before = typed
    hold((ran.text, ran.status) in one.may, "answer", f"{ran.text[:300]!r}, status {ran.status}")
    hold(ran.peak < PEAK, "memory", f"{ran.peak} megabytes")
    hold_of_files(program, one.typed, before, one.stored)
    return True


def limits(program):
    """The limits of memory, as what is typed before a command, from where the program starts."""
    def starts(limit):
        return type_in(program, "", f"{limit}; ctt > /dev/null 2>&1")[0].status == 2

    if starts("ulimit -v 1000000"):
        least = next(size for size in range(1000, 1000000, 250) if starts(f"ulimit -v {size}"))
        steps = [*range(0, 4000, 250), *range(4000, 40000, 3000)]
        return [f"ulimit -v {least + step}" for step in steps]
    least = next(size for size in range(1, 1000) if starts(sanitizer("soft_rss_limit_mb", size)))
    return [sanitizer("soft_rss_limit_mb", least + step) for step in [*range(12), 16, 24, 48]] + [
        sanitizer("max_allocation_size_mb", size) for size in range(1, 4)]


def short_of_memory(program):
    """The cases of memory, each as a case."""
    for limit in limits(program):
        for typed, ordinary in HUNGRY:
            stored = "open" if "Deep" in typed else "old or whole"
            may = [ordinary, NO_MEMORY, *([NO_STACK] if "Deep" in typed else [])]
            yield case(f"{limit}: {typed}", "", f"{limit}; {{ {typed}; }} 2> /dev/null", *may,
                       stored=stored)


def held(path, one, how):
    """Whether a case holds, in a folder of its own; none where it can't be set up."""
    with tempfile.TemporaryDirectory() as folder:
        program = Program(path, folder)
        program.put(files())
        if how:
            for name in [folder, *program.at.iterdir()]:
                os.chown(name, how["user"], how["group"])
            if program.ran(["sh", "-c", f'"{program.path}"'], **how).status != 2:
                return None
        try:
            return True if hold_of(program, one, **how) else None
        except Wrong as wrong:
            print(f"faults: {one.name}: {wrong.args[0]}: {wrong.args[1]}", flush=True)
            return False


def main():
    if len(sys.argv) != 2:
        sys.exit(__doc__.strip())
    with tempfile.TemporaryDirectory() as folder:
        cases = [(one, {}) for one in OUTPUTS + READS + STORES + TOGETHER]
        cases += [(one, NOBODY if os.getuid() == 0 else {}) for one in LEAVES]
        cases += [(one, {}) for one in short_of_memory(Program(sys.argv[1], folder))]
    ended = collections.Counter()
    for one, how in cases:
        is_so = held(sys.argv[1], one, how)
        ended[is_so] += 1
        if is_so is None:
            print(f"faults: left out: {one.name}")
    print(f"faults: {ended[False]} failed, {ended[True]} held, {ended[None]} left out")
    return 1 if ended[False] else 0


if __name__ == "__main__":
    sys.exit(main())
