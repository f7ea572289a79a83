#!/usr/bin/env python3
"""Runs all commands of the program etcs_lab where standard output can't be written: a full device, a closed stream, a pipe that nobody
reads. Each run that has something to print says so by one line on standard error and ends with status 1; one that prints nothing ends as
usual. No run says so where the output can be written.

    tests/hostile/lab_unwritten.py
"""
import os
import re
import subprocess
import sys
from pathlib import Path

from built import room
from compared import Compared
from lab_words import LAB, all_words, lab_ran, laid

SAYS = re.compile(r"etcs_lab: [^\n]+: the output can't be written\n")
LEAST = 28


def to_full(words, stdin):
    with open("/dev/full", "wb") as full:
        return lab_ran(words, stdin, full)


def to_closed(words, stdin):
    with open(stdin or os.devnull, "rb") as given:
        done = subprocess.run(["sh", "-c", 'exec "$0" "$@" >&-', LAB, *words], stdin=given, stderr=subprocess.PIPE, timeout=60)
    return done.returncode, "", done.stderr.decode()


def to_nobody(words, stdin):
    reads, writes = os.pipe()
    os.close(reads)
    try:
        return lab_ran(words, stdin, writes)
    finally:
        os.close(writes)


def main():
    failures, count = Compared(), 0
    with room() as name:
        files = laid(Path(name))
        for words in all_words(files):
            stdin = str(files["lines"]) if words[-1] == "-" else None
            status, printed, said = lab_ran(words, stdin)
            failures.unless(not SAYS.search(said), f"{words}: nothing hinders it, and it says {said!r}")
            count += bool(printed)
            for way in (to_full, to_closed, to_nobody):
                found = way(words, stdin)
                holds = found[0] == 1 and SAYS.fullmatch(found[2]) if printed else found[::2] == (status, said)
                failures.unless(holds, f"{words} {way.__name__}: {found[0]} {found[2]!r}")
    failures.unless(count >= LEAST, f"only {count} runs have something to print")
    return failures.end(f"nothing can be written: {count} runs in 3 ways")


if __name__ == "__main__":
    sys.exit(main())
