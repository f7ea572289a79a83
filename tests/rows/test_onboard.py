#!/usr/bin/env python3
"""Runs test_onboard.row over the program of rows (asking.py has the words).

A row is one or several commands with `;` between them, which are done in turn. What each is to answer comes after
`->`. Some lines stand for many, and of the lines in a group the digest of the answers alone is wanted
(tests/model/row_lines.py). What the commands mean stands in onboard_words.py, and questions and replies, in numbers,
in program/src/test_onboard.rt.txt."""
import sys

from asking import HERE, Block, run, text_in
from onboard_words import answer, questions

sys.path.insert(0, str(HERE.parent / "model"))
from row_lines import Group, combined, ranged

NAME = "test_onboard"


def commands_of(line):
    """The commands of a line, each with its wanted answer."""
    return [tuple(text.strip() for text in part.partition("->")[::2]) for part in line.split(";")]


def lines_of(line):
    """The lines that one stands for."""
    word, _, rest = line.partition(" ")
    return {"for": ranged, "try": combined}[word](rest) if word in ("for", "try") else [line]


def rows_of(text):
    """Each row of a file with its number of line: its lines, and what a group of them wants; else None."""
    group = None
    for place, line in enumerate(text.splitlines(), 1):
        word, _, rest = line.partition(" ")
        if word == "group":
            group = []
        elif word == "end":
            yield place, group, rest.partition("-> ")[2]
            group = None
        elif line and line[0] != "#":
            lines = lines_of(line)
            if group is None:
                yield place, lines, None
            else:
                group += lines


class Answers:
    """The rows of answers to those of all questions, taken one command after the other."""

    def __init__(self, rows):
        self.rows = iter(rows)

    def take(self, said):
        return answer(said, [next(self.rows) for _ in questions(said)])


def questions_in(line):
    return [numbers for said, _ in commands_of(line) for numbers in questions(said)]


def blocks_of(rows):
    """The questions. A line of a group that goes back to the disk that was kept can begin a case, after what made that disk: the lines
    from the last that formats it up to the one that keeps it."""
    blocks, made, kept = [Block([], [])], [], []
    for _, lines, wanted in rows:
        for line in lines:
            asked, words = questions_in(line), [said.partition(" ")[0] for said, _ in commands_of(line)]
            if wanted is not None and words[0] == "again":
                blocks.append(Block(kept, []))
            blocks[-1].questions.extend(asked)
            if words[0] == "format":
                made = asked
            elif words[0] != "again":
                made = made + asked
            elif "keep" in words:
                made = kept + asked
            if "keep" in words:
                kept = made
    return blocks


def digest(lines, answers):
    """What a group wants: how many lines, how many answers, and their digest."""
    group = Group()
    for line in lines:
        group.take("; ".join(answers.take(said) for said, _ in commands_of(line)))
    return group.text()


def differences(lines, wanted, answers):
    """What a row asks, wants and finds, of each difference in it."""
    if wanted is not None:
        found = digest(lines, answers)
        return [("the group up to here", wanted, found)] if found != wanted else []
    answered = [(said, want, answers.take(said)) for line in lines for said, want in commands_of(line)]
    return [(said, want, found) for said, want, found in answered if want != found]


def compare(rows, answers):
    """Compares all rows, prints what differs, and how many lines were tried. Whether all agree."""
    differ = 0
    for place, lines, wanted in rows:
        found = differences(lines, wanted, answers)
        differ += bool(found)
        for said, want, got in found:
            print(f"{NAME}.row:{place}: {said[:160]}", f"  wanted {want}", f"  found  {got}", sep="\n")
    print(f"{NAME}: {sum(len(lines) for _, lines, _ in rows)} rows, {differ} differ")
    return differ == 0


def main():
    rows = list(rows_of(text_in(NAME)))
    return run(NAME, blocks_of(rows), lambda answers: compare(rows, Answers(answers)))


if __name__ == "__main__":
    sys.exit(main())
