#!/usr/bin/env python3
"""Make all rows of the crates: the hand-written ones (tests/rows), followed by those that the plain programs make.

    tests/model/make_rows.py FOLDER [SEED]

FOLDER is made, and must not exist. Another SEED than 0 makes other pseudo-random rows, all with answers of the reference
model; keep a row that finds a fault as a hand-written one. It prints what the rows cover. Exit status 1: something that has
to be covered isn't, or a hand-written row wants another answer than the plain unit gives.
"""
import sys
from pathlib import Path

import onboard_lives
import part_rows
import random_lists

BY_HAND = Path(__file__).resolve().parents[1] / "rows"


def all_rows(seed):
    """Returns the text of each file of rows by its name, and what is wrong."""
    text = {path.name: path.read_text() for path in BY_HAND.glob("*.row")}
    lists, faults = random_lists.make_rows(seed)
    text["test_kernel.row"] += "\n" + lists
    text["test_parts.row"] += part_rows.make_rows()
    text["test_onboard.row"], differences = onboard_lives.make_rows(text["test_onboard.row"], seed)
    return text, [*faults, *differences]


def main(words):
    if len(words) not in (1, 2) or words[1:] and not words[1].isdecimal():
        sys.exit("usage: tests/model/make_rows.py FOLDER [SEED]")
    folder = Path(words[0])
    try:
        folder.mkdir()
    except OSError as fault:
        sys.exit(f"tests/model/make_rows.py: no rows are made: {fault}")
    text, faults = all_rows(int(words[1]) if words[1:] else 0)
    for name, rows in text.items():
        (folder / name).write_text(rows)
    for fault in faults:
        print(fault)
    return 1 if faults else 0


if __name__ == "__main__":
    sys.exit(main(sys.argv[1:]))
