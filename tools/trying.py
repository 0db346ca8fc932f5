"""What the scripts that try the program on generated texts share: words of the command line, runs
in a folder, and counts, of which the last line tells how many passed."""
import argparse
import collections
import sys
import tempfile

from running import Program, Wrong, hold

SLOW = 4  # seconds of a processor that a small module may take


def options(about, count):
    """The words of the command line: the program, how many to try, and from which seed on."""
    given = argparse.ArgumentParser(description=about.strip(),
                                    formatter_class=argparse.RawDescriptionHelpFormatter)
    given.add_argument("program", metavar="PROGRAM")
    given.add_argument("--count", type=int, default=count, help=f"how many, {count} if not named")
    given.add_argument("--seed", type=int, default=0, help="the first seed, 0 if not named")
    return given.parse_args()


class Trial:
    """Tries things by number, in a folder, and counts what came."""

    def __init__(self, path):
        self.folder = tempfile.TemporaryDirectory()
        self.program = Program(path, self.folder.name)
        self.told, self.passed, self.failed = collections.Counter(), 0, 0
        self.slowest = (0, "")

    def run(self, *words):
        ran = self.program.run(*words)
        self.slowest = max(self.slowest, (ran.seconds, " ".join(words)))
        hold(ran.seconds < SLOW, "slow", f"{ran.seconds} seconds for {words}")
        return ran

    def attempt(self, about, files, holds):
        """Whether what `holds` says holds of these files. It answers a word, which is counted."""
        self.program.put({name: text.encode() for name, text in files.items()})
        try:
            word = holds()
            self.told[word] += 1
            self.passed += 1
            return word
        except Wrong as wrong:
            self.failed += 1
            self.told[f"wrong: {wrong.args[0]}"] += 1
            print(f"{about}: {wrong.args[0]}: {wrong.args[1]}")
            print("\n".join(text for name, text in files.items() if name != "E.ctt"), flush=True)
            return None

    def leave_out(self, why):
        self.told[f"left out: {why}"] += 1

    def end(self):
        for word, count in sorted(self.told.items()):
            print(f"{count:7} {word}")
        print(f"{self.slowest[0]:.1f} seconds at most, of {self.slowest[1]}")
        print(f"{self.passed} passed, {self.failed} failed")
        sys.exit(self.failed > 0)
