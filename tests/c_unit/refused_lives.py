#!/usr/bin/env python3
"""Refuses memory to the unit from C, each request of a life in turn (refused.c): lives on new images, on rings with blocks of all formats, and
the events of rows of the kernel, which take memory in each of the lists that it keeps.

    tests/c_unit/refused_lives.py REFUSED    REFUSED is refused.c with the library

The exit status is 1 where a life is answered otherwise than without a refusal, or where no power-up or no input of it was refused memory, or no preview
of a telegram of all of them.
"""
import re
import subprocess
import sys
import tempfile
from pathlib import Path

TOP = Path(__file__).resolve().parents[2]
sys.path[:0] = [str(TOP / "tests/hostile"), str(TOP / "tests/model"), str(TOP / "tests/rows")]

import rows  # noqa: E402
from built import AUTHORITY, RESTRICTION  # noqa: E402
from compared import Compared  # noqa: E402
from onboard_lives import RINGS, RowWriter  # noqa: E402
from kernel_words import ACKNOWLEDGED, COLD, CONFIRMED  # noqa: E402
from kernel_words import ALONE as ACTIONS  # noqa: E402

PENDING = 8
OF_TWO = "90027F802003506023A100014002C27F80"  # the first balise of two, of group 6
ENTRIES = ["enter-identity A", "choose-level 1", "enter-train-data 20000 160000 70 0 15", "start"]
READINGS = ["move 9046 10000", "move 1 10000", "move 7268 10000", "move 1 10000"]
NEW = {
    "staff responsible": ["open unknown", f"hear {RESTRICTION}", *ENTRIES, "flush", *READINGS, "flush", "close", "open not-moved", "confirm identity", "flush"],
    "full supervision": ["open unknown", f"hear {AUTHORITY}", *ENTRIES, "flush", "move 100 20000", "clock 5", "flush", "close", "open moved", "flush"],
    "two groups that close at once": ["open unknown", f"hear {RESTRICTION}", *ENTRIES, "flush", "move 1500 3000", f"hear {OF_TWO}", f"hear {AUTHORITY}",
                                      "flush"],
    "a life and an opening": ["open unknown", f"hear {RESTRICTION}", ENTRIES[0], "flush", *ENTRIES[1:], "flush", *READINGS, "flush", "close", "open unknown",
                              "flush"],
    "an authority after a second power-up": ["open unknown", f"hear {RESTRICTION}", *ENTRIES, *READINGS, "open not-moved", "confirm identity",
                                              f"hear {AUTHORITY}"],
}
# After what stands on a ring.
ON_A_RING = ["open not-moved", f"hear {RESTRICTION}", "enter-identity B", "clock 7", "flush", "close", "open moved", "confirm identity", "flush"]
LONGER = ["open not-moved", "clock 7", "enter-running-number 5", "flush", f"hear {AUTHORITY}", "flush", "clock 9", "flush", "close", "open unknown", "flush"]
STORIES = ("an area ahead that is acknowledged", "an announced group in time", "several announced 1", "values ahead", "two restrictions 255 in a message",
           "end timer", "position over several power-ups")

# The first of the numbers of etcs_unit.h for an action with a value, and the number of one without.
CHOICES, CONFIRMATIONS, REASONS = 1, 2, 10
ALONE = {6: 7, 7: 8, 8: 9, 9: 10, 11: 15}


def line_of(said):
    """A command of rows as a line of refused.c."""
    word, *values = said.split()
    if word in ("open", "power-up"):
        return f"open {COLD[values[0]]}"
    if word == "hear":
        return f"telegram {values[0]}"
    if word == "move":
        return f"odometer {values[0]} {values[1] if len(values) > 1 else 0}"
    if word == "enter-identity":
        return f"identity {said.partition(' ')[2].encode().hex()}"
    if word == "enter-running-number":
        return f"number {values[0]}"
    if word == "enter-train-data":
        return "train " + " ".join(values)
    return f"action {action(word, *values)}" if word not in ("clock", "flush", "close") else said


def action(word, value=None):
    if word == "choose-level":
        return CHOICES + int(value)
    if word == "confirm":
        return CONFIRMATIONS + CONFIRMED[value]
    return REASONS + ACKNOWLEDGED[value] if word == "acknowledge" else ALONE[ACTIONS[word]]


def lines_of(life):
    """The lines of a life. A flush comes of itself before a ninth pending input, before another power-up, and at the end."""
    lines, pending, is_open = [], 0, False
    for said in [*life, "close"]:
        line = line_of(said)
        opens = line.startswith("open")
        if pending and line != "flush" and (opens or line == "close" or pending == PENDING):
            lines.append("flush")
            pending = 0
        if opens and is_open:
            lines.append("close")
        if line != "close" or is_open:
            lines.append(line)
        is_open = line != "close"
        pending = 0 if opens or line in ("flush", "close") else pending + 1
    return lines


def story(name):
    """What happens in a row of the kernel's."""
    row = next(row for row in rows.read((TOP / "tests/rows/test_kernel.row").read_text()) if row.name == name)
    return [f"{line.word} {line.value}".strip() for line in row.lines if line.word not in rows.ASKED]


def formatted(made):
    made.say("format 4")


def lives():
    """Each life with its name and what prepares its image."""
    for name, life in NEW.items():
        yield name, formatted, life
    for name, _, prepare in RINGS:
        yield name, prepare, ON_A_RING
        yield f"{name}, longer", prepare, LONGER
    for name in STORIES:
        yield f"the kernel, {name}", formatted, story(name)


def image(prepare):
    made = RowWriter()
    prepare(made)
    return b"".join(made.session.disk.settled().held)


def main(program):
    failures, power_ups, inputs, previews = Compared(), 0, 0, 0
    with tempfile.TemporaryDirectory() as folder:
        at = Path(folder) / "image"
        for name, prepare, life in lives():
            at.write_bytes(image(prepare))
            text = "".join(line + "\n" for line in lines_of(life))
            ran = subprocess.run([program, at], input=text, capture_output=True, text=True, timeout=120)
            found = re.search(r"^refused: (\d+) power-ups, (\d+) inputs, (\d+) previews$", ran.stdout, re.M)
            failures.unless(ran.returncode == 0 and not ran.stderr and found, f"{name}: status {ran.returncode} {ran.stdout[:800]} {ran.stderr[:400]}")
            if found:
                power_ups, inputs, previews = power_ups + int(found[1]), inputs + int(found[2]), previews + int(found[3])
    failures.unless(previews > 0, "no preview is refused memory")
    return failures.end(f"memory refused to the unit: {power_ups} power-ups, {inputs} inputs and {previews} previews in {failures.count - 1} lives")


if __name__ == "__main__":
    sys.exit(main(sys.argv[1]))
