"""Converts rows of text to rows of numbers, the questions to the program of rows, and its replies back.

A file of rows holds each question with its wanted answer after it: `QUESTION: ANSWER`, or `QUESTION:` and lines that
are indented. Empty lines, and lines that begin with `#`, are comments. A question can stand for several with the same
answer, and a line for several (tests/model/row_lines.py).

Each module `test_..` takes these arguments:

    test_parts.py                     ask the program, and compare its answers with the wanted ones
    test_parts.py --ask FOLDER        only write the questions into FOLDER, as cases of the program
    test_parts.py --compare FOLDER    compare the answers to these cases in FOLDER

The rows are those of the folder that the variable ROWS names, which `tests/model/make_rows.py` makes; without it, only
the hand-written ones in this folder.

tests/rows.sh has all of them ask first, so that the program is compiled once (tests/rows/tried). A case is a file of
questions, of which the program answers each on what those before it left. Since a case has bounds, a module's questions
are split: a `Block` can be asked after the one before, or begin a case after questions that make what it needs.
"""
import os
import subprocess
import sys
import tempfile
from collections import namedtuple
from pathlib import Path

HERE = Path(__file__).resolve().parent
sys.path.insert(0, str(HERE.parent / "model"))
from row_lines import braced, repeated, written_out  # noqa: E402

MOST = 512  # numbers that the program takes in a row (number_rows::MOST); it drops those after them
MOST_QUESTIONS = 8_000  # of a case, so that its answers stay below the 1 MiB that is taken of a run

ROWS = Path(os.environ.get("ROWS") or HERE)

Block = namedtuple("Block", "before questions")
Case = namedtuple("Case", "name before questions")  # so many answers stand before those that are asked for


def text_in(name):
    """The text of a module's rows."""
    try:
        return (ROWS / f"{name}.row").read_text()
    except FileNotFoundError:
        raise SystemExit(f"{ROWS}/{name}.row isn't there: make all rows by tests/model/make_rows.py FOLDER, and set ROWS to FOLDER") from None


def rows_of(text):
    """Each question of a file with its number of line and the wanted answer, as lines."""
    rows = []
    for place, line in written_out(text.splitlines()):
        if line.startswith("  "):
            rows[-1][2].append(line)
        elif line and not line.startswith("#"):
            question, colon, answer = line.partition(": ")
            if not colon and not line.endswith(":"):
                raise ValueError(f"line {place} has no answer")
            answers = [answer] if colon else []  # one list, to which the indented lines of all these questions are added
            rows += [(place, one, answers) for said in repeated(question if colon else line[:-1]) for one in braced(said)]
    return rows


def packed(data):
    """Bytes as numbers of eight, the first the highest, without the zeros at the end."""
    data = data.rstrip(b"\0")
    return [int.from_bytes(data[at:at + 8].ljust(8, b"\0"), "big") for at in range(0, len(data), 8)]


def signed(number):
    """The number that this one is by its two's complement of 64 bits."""
    return number - 2**64 if number >= 2**63 else number


class Reply:
    """The numbers of a program's reply to a question, taken one after the other."""

    def __init__(self, numbers):
        self.numbers = list(numbers)

    def take(self, count=1):
        if len(self.numbers) < count:
            raise ValueError("too few numbers")
        taken, self.numbers = self.numbers[:count], self.numbers[count:]
        return taken[0] if count == 1 else taken

    def data(self, size, count):
        """So many bytes, of so many numbers; the bytes after them have to be zero."""
        numbers = self.take(count)
        data = b"".join(number.to_bytes(8, "big") for number in numbers)
        if size > len(data) or any(data[size:]):
            raise ValueError("bytes beyond the size")
        return data[:size]

    def end(self):
        if self.numbers:
            raise ValueError("too many numbers")


def text_of(name, questions):
    """Rows of numbers as the program reads them. Ends the run where a question has more numbers than it takes in a row."""
    for place, numbers in enumerate(questions, 1):
        if len(numbers) > MOST:
            raise SystemExit(f"{name}: question {place} has {len(numbers)} numbers, and a row {MOST} at most")
    return "".join(" ".join(map(str, numbers)) + "\n" for numbers in questions)


def cases_of(name, blocks):
    """The cases of a module: blocks after one another, up to so many questions."""
    cases = []
    for block in blocks:
        if not cases or len(cases[-1].questions) + len(block.questions) > MOST_QUESTIONS:
            cases.append(Case(f"{name}.{len(cases) + 1}", len(block.before), list(block.before)))
        cases[-1].questions.extend(block.questions)
    return cases


def ask(cases, folder):
    for case in cases:
        (Path(folder) / case.name).write_text(text_of(case.name, case.questions))


def replies(cases, folder):
    """The replies in a folder, as rows of numbers, one to each question of the blocks."""
    answers = []
    for case in cases:
        lines = (Path(folder) / case.name).read_text().splitlines()
        if len(lines) != len(case.questions):
            raise SystemExit(f"{case.name}: {len(case.questions)} rows, {len(lines)} answers")
        answers += ([int(word) for word in line.split()] for line in lines[case.before:])
    return answers


def run(name, blocks, compare):
    """Does what a module's words say. The exit status is 1 where an answer differs."""
    cases = cases_of(name, blocks)
    match sys.argv[1:]:
        case ["--ask", folder]:
            ask(cases, folder)
            return 0
        case ["--compare", folder]:
            return 0 if compare(replies(cases, folder)) else 1
        case []:
            with tempfile.TemporaryDirectory() as asked, tempfile.TemporaryDirectory() as answered:
                ask(cases, asked)
                if subprocess.run([HERE / "tried", asked, answered]).returncode:
                    return 1
                return 0 if compare(replies(cases, answered)) else 1
    raise SystemExit(f"{name}: no words, or --ask or --compare and a folder")


def words_of(answer, numbers):
    """The lines that the numbers say; a line that says what is wrong where they say none."""
    reply = Reply(numbers)
    try:
        lines = answer(reply)
        reply.end()
        return lines
    except (ValueError, KeyError, IndexError, OverflowError) as fault:
        return [f"no answer ({fault}): {numbers}"]


def compare(name, rows, answers, answer_of):
    """Compares the rows of a file, prints what differs, and how many rows were tried. Whether all agree."""
    differ = 0
    for (place, question, wanted), numbers in zip(rows, answers):
        found = words_of(lambda reply: answer_of(question, reply), numbers)
        if found != wanted:
            differ += 1
            print(f"{name}.row:{place}: {question[:160]}", *(f"  wanted {line}" for line in wanted),
                  *(f"  found  {line}" for line in found), sep="\n")
    print(f"{name}: {len(rows)} rows, {differ} differ")
    return differ == 0


def main(name, question_of, answer_of):
    """Runs a file of rows. `question_of` makes numbers of a question, `answer_of` makes lines of a question and its `Reply`."""
    rows = rows_of(text_in(name))
    questions = [question_of(question) for _, question, _ in rows]
    return run(name, [Block([], questions)], lambda answers: compare(name, rows, answers, answer_of))


def answer_to(asking, replies):
    """The lines of a row from the replies to its questions."""
    try:
        asking.send(replies)
    except StopIteration as end:
        return ["  " + line for line in end.value]
    except (ValueError, KeyError, IndexError, OverflowError) as fault:
        return [f"no answer ({fault})"]
    return ["a second question"]


def compare_asked(name, rows, askings, questions, answers):
    """Compares all rows, prints what differs, and how many were tried. Whether all agree."""
    replies, differ = iter(map(Reply, answers)), 0
    for (place, question, wanted), asking, asked in zip(rows, askings, questions):
        found = answer_to(asking, [next(replies) for _ in asked])
        if found != wanted:
            differ += 1
            print(f"{name}.row:{place}: {question[:160]}", *(f"  wanted {line}" for line in wanted),
                  *(f"  found  {line}" for line in found), sep="\n")
    print(f"{name}: {len(rows)} rows, {differ} differ")
    return differ == 0


def main_by_words(name, asked_by):
    """Runs a file of rows whose first words are functions: each takes the other words, yields its questions, is sent the replies,
    and returns the lines."""
    rows, askings = rows_of(text_in(name)), []
    for _, question, _ in rows:
        word, *others = ["" if it == "''" else it for it in question.split(" ")]
        askings.append(asked_by[word](others))
    questions = [next(asking) for asking in askings]
    return run(name, [Block([], asked) for asked in questions], lambda answers: compare_asked(name, rows, askings, questions, answers))
