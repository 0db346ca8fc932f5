"""Runs of a command: what it prints, its seconds, and its peak of memory."""

import subprocess
import tempfile
import time


def timed(command, folder=None):
    """What one run of a command prints, and its seconds."""
    start = time.perf_counter()
    ran = subprocess.run(command, cwd=folder, stdout=subprocess.PIPE, text=True)
    return ran.stdout, time.perf_counter() - start


def measured(command, folder=None):
    """What one run of a command prints, and the peak of its memory in bytes, as GNU time tells it.

    What Python itself starts begins in Python's memory, so that `os.wait4` tells at least as much
    as the script takes.
    """
    with tempfile.NamedTemporaryFile("r") as told:
        words = ["/usr/bin/time", "-o", told.name, "-f", "%M", *command]
        ran = subprocess.run(words, cwd=folder, stdout=subprocess.PIPE, text=True)
        return ran.stdout, int(told.read().split()[-1]) * 1024
