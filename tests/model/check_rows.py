#!/usr/bin/env python3
"""Works out each answer of the kernel's rows by the plain program, and prints each that differs from the row's. A row has to hear a telegram
by its name.

    tests/model/check_rows.py [FILE ..]

Where no file is named, the rows are those of test_kernel.row in the folder that the variable ROWS names (make_rows.py); without it, those
by hand (tests/rows). The last line has the numbers of rows, of events, of
answers that are wanted and of differences. The exit status is 1 where there is a difference.
"""
import os
import re
import sys
from pathlib import Path

import rows
import telegrams

ROWS = Path(os.environ.get("ROWS") or Path(__file__).resolve().parents[1] / "rows") / "test_kernel.row"

GENERATED = "\n# ==== Pseudo-random lists"
HEARD = re.compile(r"^hear ((?:[0-9A-F]{2})+)\b", re.M)


def differences(row):
    for line, found in zip(row.lines, row.answers()):
        if line.wanted is not None and not rows.is_met(line.wanted, found):
            yield f"{row.name}, line {line.number}: wanted {line.wanted}, found {found} by the plain program"


def unnamed(text):
    """The telegrams that a row hears by their bytes. Bytes that carry no telegram need no name; nor do those of the pseudo-random lists, which
    are made of fields."""
    for data in HEARD.findall(text.partition(GENERATED)[0]):
        if telegrams.read(bytes.fromhex(data)):
            yield f"hear {data}: no name"


def main(paths):
    found, events, answers, count = 0, 0, 0, 0
    for path in paths or [ROWS]:
        text = Path(path).read_text()
        for difference in unnamed(text):
            found += 1
            print(difference)
        for row in rows.read(text):
            count, events = count + 1, events + sum(line.word not in rows.ASKED for line in row.lines)
            answers += sum(line.wanted is not None for line in row.lines)
            for difference in differences(row):
                found += 1
                print(difference)
    print(f"{count} rows, {events} events, {answers} answers, {found} differences")
    return 1 if found else 0


if __name__ == "__main__":
    sys.exit(main(sys.argv[1:]))
