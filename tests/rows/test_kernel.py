#!/usr/bin/env python3
"""Runs test_kernel.row over the program of rows (asking.py has the words).

    # a comment
    row NAME                         new equipment, that never had power
    power-up unknown                 what happens (kernel_words.py lists the words)
    clock 4000 -> SR 1 none 40000 0  with the answer that is wanted
    clock 4000 -> 40000              with the limit alone
    place -> 9047 953                what is asked for
    3 x move 10000 -> 40000          the same line three times
    hear ahead -> 40000              a telegram, whose fields are at the head of the part
    > started                        lines that have this name (tests/model/row_lines.py)

Each line that gets another answer is printed: by `step` over stores that keep all that was announced, by `apply` in place
over stores that stay short, or by `apply` where each life begins by `power_up` with what was kept. So is each that is
refused memory, and each whose answer says nothing. What is asked and reported, in numbers, stands in
program/src/test_kernel.rt.txt; tests/model/check_rows.py works out the wanted answers by the plain program."""
import sys

from asking import HERE, Block, run, text_in
from kernel_words import NEW, answers, question

sys.path.insert(0, str(HERE.parent / "model"))
import rows

NAME = "test_kernel"


def questions(row):
    """The rows of numbers of a row: the equipment, and one for each line."""
    yield NEW
    for line in row.lines:
        try:
            yield question(line.word, line.value)
        except (ValueError, KeyError) as fault:
            raise SystemExit(f"{NAME}.row:{line.number}: what is that? ({fault})")


def differences(line, numbers):
    """What a line finds in place of what it wants, by each way."""
    try:
        found = answers(line.word, line.value, numbers)
    except (ValueError, KeyError, IndexError, OverflowError) as fault:
        return [f"no answer ({fault}): {numbers}"]
    return [f"{text} by {way}" for way, text in found.items() if not is_met(line.wanted, text)]


def is_met(wanted, found):
    """A line that wants nothing still wants an answer."""
    return found != "no memory" if wanted is None else rows.is_met(wanted, found)


def answered(lists, answers):
    """Each line of the lists with its row and the numbers that it is answered."""
    numbers = iter(answers)
    for row in lists:
        if next(numbers):
            raise SystemExit(f"{NAME}: new equipment is answered")
        for line in row.lines:
            yield row, line, next(numbers)


def compare(lists, answers):
    """Compares all rows, prints what differs, and how many lines were tried. Whether all agree."""
    differ = 0
    for row, line, numbers in answered(lists, answers):
        for found in differences(line, numbers):
            differ += 1
            print(f"{NAME}.row:{line.number}: {row.name}: {line.word} {line.value}", f"  wanted {line.wanted}",
                  f"  found  {found}", sep="\n")
    lines = [line for row in lists for line in row.lines]
    print(f"{NAME}: {sum(line.word not in rows.ASKED for line in lines)} events, "
          f"{sum(line.wanted is not None for line in lines)} answers, each in three ways")
    print(f"{NAME}: {len(lists)} rows, {differ} differ")
    return differ == 0


def main():
    lists = rows.read(text_in(NAME))
    return run(NAME, [Block([], list(questions(row))) for row in lists], lambda answers: compare(lists, answers))


if __name__ == "__main__":
    sys.exit(main())
