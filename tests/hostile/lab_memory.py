#!/usr/bin/env python3
"""Refuses the requests for memory of the program etcs_lab, each in turn, over all its commands. A refused run either does all that the undisturbed
one does, or reports it: by one line on standard error (`decode` by its answer), with status 1, and what it printed before is what the
undisturbed run prints first, in whole lines, but for the one object of `examine --json` and `check --json`, which is printed piece by piece,
and the last line of `run`, which says why the life stopped; `play` says it in the line of a scenario, and goes on. Each command with a file allocates memory, so a series without a refusal fails.

    tests/hostile/lab_memory.py
"""
import json
import re
import sys
from pathlib import Path

from built import built, room
from compared import Compared
from lab_words import all_words, lab_ran, laid

SAYS = re.compile(r"etcs_lab: [^\n]+: out of memory\n")
STOPPED = re.compile(r'\{"end":"stopped","step":(null|[0-9]+),"number":(4|12),"name":"NoMemory"\}\n$')
ANSWERS = ("refused memory\n", '{"refused":{"name":"memory"}}\n')
REFUSED = re.compile(r'\{"id":("good"|"faulty"|"beyond"|"lives"|null),("file":"[^"]+",)?"line":[1234],"status":"no_memory","name":"NoMemory"\}')
LIFE = {"status": "no_memory", "name": "NoMemory"}
MOST, LEAST = 100_000, 300


def ends_early(line, undisturbed):
    """Whether a line has the first lives of the undisturbed one, and then a life that memory was refused for."""
    found, other = json.loads(line), json.loads(undisturbed)
    if "lives" not in found or "lives" not in other:
        return False
    *first, last = found.pop("lives")
    lives = other.pop("lives")
    return found == other and last == LIFE and len(first) < len(lives) and first == lives[:len(first)]


def plays_on(lines, said, wanted):
    """Whether `play` says in a line that memory was refused, and prints the others; or says it of a file, and leaves out what is left of that file."""
    if not said:
        return len(lines) == len(wanted) and all(one == other or REFUSED.fullmatch(one) or ends_early(one, other) for one, other in zip(lines, wanted))
    left = len(wanted) - len(lines)
    return bool(SAYS.fullmatch(said)) and any(lines == wanted[:at] + wanted[at + left:] for at in range(len(lines) + 1))


def says_so(words, found, undisturbed):
    """Whether a run says that memory was refused, after no other line than the undisturbed run's."""
    status, printed, said = found
    if words[0] == "decode" and (status, printed in ANSWERS, said) == (1, True, ""):
        return True
    if words[0] == "run":
        printed = STOPPED.sub("", printed)
    if words[0] == "play":
        return status == 1 and plays_on(printed.splitlines(), said, undisturbed[1].splitlines())
    is_in_pieces = words[0] in ("examine", "check") and "--json" in words
    return status == 1 and bool(SAYS.fullmatch(said)) and undisturbed[1].startswith(printed) and (is_in_pieces or printed[-1:] in ("", "\n"))


def series(words, stdin, said, refuse, failures):
    """Every refusal of one run."""
    undisturbed = lab_ran(words, stdin)
    failures.unless("out of memory" not in undisturbed[2], f"{words}: the undisturbed run says {undisturbed[2]!r}")
    count = 0
    for at in range(1, MOST):
        said.unlink(missing_ok=True)
        found = lab_ran(words, stdin, preload=refuse, REFUSE_AT=str(at), REFUSE_SAYS=str(said))
        if not said.exists():
            failures.unless(found == undisturbed, f"{words}: with all memory {found[0]} {found[2]!r}")
            break
        count += 1
        failures.unless(found == undisturbed or says_so(words, found, undisturbed), f"{words}, request {at}: {found[0]} {found[1][-80:]!r} {found[2]!r}")
    failures.unless(count, f"{words}: no request was refused")
    return count


def main():
    failures, counts = Compared(), []
    with room() as name:
        folder = Path(name)
        refuse, files = built("refuse"), laid(folder)
        for words in all_words(files):
            stdin = str(files["lines"]) if words[-1] == "-" else None
            counts.append(series(words, stdin, folder / "said", refuse, failures))
    failures.unless(sum(counts) >= LEAST, f"only {sum(counts)} requests were refused")
    return failures.end(f"memory refused to etcs_lab: {sum(counts)} requests in {len(counts)} runs")


if __name__ == "__main__":
    sys.exit(main())
