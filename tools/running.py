"""Running the program in a folder, and what every run of it must do."""
import collections
import contextlib
import os
import pathlib
import re
import signal
import subprocess

LIMIT = 60  # seconds that one run may take

AT = "NotUtf8|BadByte|OpenComment|RefusedForm|Unexpected|TooDeep|Unbound|Twice|NameKind|GlueSide"
WHOLE = "TooLong|ImportCycle|TooMany|MissingFile|NoSuchName"
PLACE = r"at \d+ in \S+\.ctt"
TYPED = rf"(WantedFunction|WantedPair|WantedPath|WantedGlue|WantedType) {PLACE}\ntype: .+"
SIDES = rf"((Mismatch|Unaligned) {PLACE}|SidesDiffer {PLACE}\nface:.*)\nfound: .+\nwanted: .+"
LINES = {
    0: r"yes: \d+ definitions|yes: \d+ rows, \d+ roots|(?!yes|no|spent|fault|usage)[(\w].*",
    1: rf"no: (row \d+|root \d+|({AT}|CannotInfer|UInU) {PLACE}|({WHOLE}) in \S+|{TYPED}|{SIDES})",
    2: r"usage: .*",
    3: r"fault: (ReadFault|WriteFault)",
    4: rf"spent: \d+ {PLACE}",
}

# What a run printed and how it ended, its seconds of a processor, and its peak of megabytes, which
# is that of the script where that is more.
Ran = collections.namedtuple("Ran", "text status seconds peak")


class Wrong(Exception):
    """Something that must hold and does not: its kind, and the rest."""


def hold(is_so, kind, detail=""):
    if not is_so:
        raise Wrong(kind, detail)


@contextlib.contextmanager
def within(seconds):
    """Stops what takes longer, by a TimeoutError."""
    def ring(_signal, _frame):
        raise TimeoutError

    signal.signal(signal.SIGALRM, ring)
    signal.setitimer(signal.ITIMER_REAL, seconds)
    try:
        yield
    finally:
        signal.setitimer(signal.ITIMER_REAL, 0)


def is_line(text, status):
    """Whether the text is one of the program's lines, with its status."""
    return re.fullmatch(f"({LINES.get(status, 'none')})\n", text) is not None


class Program:
    """The program, in a folder."""

    def __init__(self, path, folder):
        self.path, self.at = str(pathlib.Path(path).resolve()), pathlib.Path(folder)

    def put(self, files):
        """The folder has these files then, and no others."""
        for old in self.at.iterdir():
            old.unlink()
        for name, data in files.items():
            (self.at / name).write_bytes(data)

    def ran(self, command, **how):
        """One run of a command. It ends in time."""
        with subprocess.Popen(command, cwd=self.at, stdin=subprocess.DEVNULL,
                              stdout=subprocess.PIPE, stderr=subprocess.STDOUT, **how) as started:
            try:
                with within(LIMIT):
                    text = started.stdout.read().decode(errors="replace")
                    _, status, usage = os.wait4(started.pid, 0)
            except TimeoutError:
                started.kill()
                raise Wrong("no end", f"{command} within {LIMIT} seconds") from None
            started.returncode = os.waitstatus_to_exitcode(status)
        seconds = usage.ru_utime + usage.ru_stime
        return Ran(text, started.returncode, seconds, usage.ru_maxrss / 1e3)

    def run(self, *words):
        """One run of the program. It prints a line, with the status of it."""
        ran = self.ran([self.path, *words])
        hold(is_line(ran.text, ran.status), "line", f"{words}: {ran.text!r}, status {ran.status}")
        return ran

    def twice(self, *words):
        """A run, and the same again."""
        ran, again = self.run(*words), self.run(*words)
        hold(ran.text == again.text, "other line", f"{words}: {ran.text!r}, and {again.text!r}")
        return ran
