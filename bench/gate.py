#!/usr/bin/env python3
"""Measures what the gate costs, crate by crate: processor minutes for code, for tests and for
refused edits, child processes included.

Runs `rt ci`, or watches one that runs already, and reads from /proc twice a second what each
process that names a crate has taken, with the processes below it, those that ended included. One
with `--test` proves tests; one in the crate's folder proves code; one in a copy of its own tries an
edit. A line a crate is printed at the end, the dearest first, or when the script is interrupted.
Other work on the machine makes the minutes a little more than they are alone. It needs Linux,
Python 3 and `rt`.
"""

import argparse
import collections
import os
import subprocess
import time

TICK = os.sysconf("SC_CLK_TCK")
KINDS = ["code", "tests", "edits"]


def read(pid, name):
    try:
        with open(f"/proc/{pid}/{name}", "rb") as file:
            return file.read()
    except OSError:
        return b""


def processes():
    """The processes by their parents, and the processor seconds of each, those of its children that
    ended included."""
    children, seconds = collections.defaultdict(list), {}
    for pid in map(int, filter(str.isdigit, os.listdir("/proc"))):
        stat = read(pid, "stat").rpartition(b")")[2].split()
        if stat:
            children[int(stat[1])].append(pid)
            seconds[pid] = sum(map(int, stat[11:15])) / TICK
    return children, seconds


def below(pid, children):
    """A process and those under it."""
    waiting, under = [pid], []
    while waiting:
        pid = waiting.pop()
        under.append(pid)
        waiting += children[pid]
    return under


def work_of(pid):
    """The crate that a command names, and whether it is at code, tests or an edit; None for
    others."""
    words = read(pid, "cmdline").decode(errors="replace").split("\0")
    if "--crate-name" not in words:
        return None
    name = words[words.index("--crate-name") + 1]
    if "--test" in words:
        return name, "tests"
    try:
        folder = os.readlink(f"/proc/{pid}/cwd")
    except OSError:
        return None
    return name, "code" if folder.endswith(f"/crates/{name}") else "edits"


def look(root, read_so_far):
    """Notes what each process under this one has taken that names a crate, and that none above it
    does."""
    children, seconds = processes()
    waiting = list(children[root])
    while waiting:
        pid = waiting.pop()
        work = work_of(pid)
        if work:
            taken = sum(seconds.get(each, 0) for each in below(pid, children))
            read_so_far[work, pid] = max(taken, read_so_far.get((work, pid), 0))
        else:
            waiting += children[pid]


def watch(root, running):
    """The seconds of each crate and kind of work under this process, until it has ended or this
    script is interrupted."""
    read_so_far = {}
    try:
        while running():
            look(root, read_so_far)
            time.sleep(0.5)
    except KeyboardInterrupt:
        pass
    whole = collections.Counter()
    for (work, _), taken in read_so_far.items():
        whole[work] += taken
    return whole


def line(name, minutes):
    return f"{name:<20}" + "".join(f"{taken:>8.1f}" for taken in [*minutes, sum(minutes)])


def main():
    form = argparse.RawDescriptionHelpFormatter
    asked = argparse.ArgumentParser(description=__doc__, formatter_class=form)
    asked.add_argument("--pid", type=int, help="the `rt ci` to watch")
    root = asked.parse_args().pid
    if root:
        whole = watch(root, lambda: os.path.exists(f"/proc/{root}"))
    else:
        run = subprocess.Popen(["rt", "ci"])
        whole = watch(run.pid, lambda: run.poll() is None)
    names = {name for name, _ in whole}
    minutes = {name: [whole[name, kind] / 60 for kind in KINDS] for name in names}
    print(f"{'crate':<20}" + "".join(f"{kind:>8}" for kind in [*KINDS, "all"]))
    for name in sorted(names, key=lambda name: -sum(minutes[name])):
        print(line(name, minutes[name]))
    print(line("all", [sum(column) for column in zip(*minutes.values())] or [0, 0, 0]))


if __name__ == "__main__":
    main()
