"""Comparisons with what is wanted, and runs of the programs."""
import json
import subprocess
from itertools import zip_longest

SHOWN = 20


class Compared:
    """How many comparisons were made, and how many of them differ; the first ones of these are printed."""

    def __init__(self):
        self.count = self.differ = 0

    def same(self, name, found, wanted):
        """Whether the result is what is wanted."""
        return self.unless(found == wanted, f"{name}:\n  found  {str(found)[:1500]}\n  wanted {str(wanted)[:1500]}")

    def same_json(self, name, found, wanted):
        """Whether the value of JSON is what is wanted, also in the types of its parts."""
        return self.unless(is_same(found, wanted), f"{name}:\n  found  {json.dumps(found)[:1500]}\n  wanted {json.dumps(wanted)[:1500]}")

    def unless(self, holds, text):
        """Counts a comparison, and reports the text where it doesn't hold."""
        self.count += 1
        if not holds:
            self.report(text)
        return holds

    def report(self, text):
        """Counts a difference, and prints the first ones."""
        self.differ += 1
        if self.differ <= SHOWN:
            print(text)

    def end(self, what):
        """Prints what was compared, and returns the exit status. It is a failure to compare nothing."""
        print(f"{what}, {self.differ} failures")
        return 1 if self.differ or not self.count else 0


def objects(text):
    """The object on each line of JSON Lines. Raises ValueError where a line isn't one object, an object has a member twice, or the
    last line has no end."""
    if text and not text.endswith("\n"):
        raise ValueError("the last line has no end")
    found = [json.loads(line, object_pairs_hook=object_of) for line in text.split("\n")[:-1]]
    if any(not isinstance(one, dict) for one in found):
        raise ValueError("a line isn't an object")
    return found


def object_of(members):
    """An object of members with different names."""
    if len(dict(members)) != len(members):
        raise ValueError(f"a member is there twice: {[name for name, _ in members]}")
    return dict(members)


def is_same(found, wanted):
    """Whether two values of JSON are the same, also in the types of their parts: 1 is neither true nor 1.0."""
    if type(found) is not type(wanted):
        return False
    if isinstance(wanted, dict):
        return found.keys() == wanted.keys() and all(is_same(found[name], value) for name, value in wanted.items())
    if isinstance(wanted, list):
        return len(found) == len(wanted) and all(map(is_same, found, wanted))
    return found == wanted


def lines_differ(text, wanted):
    """How JSON Lines differ from the wanted objects: the first line that does; None where none does."""
    try:
        found = objects(text)
    except ValueError as error:
        return f"{error}:\n{text}"
    for number, (one, other) in enumerate(zip_longest(found, wanted), 1):
        if not is_same(one, other):
            return f"line {number}: {json.dumps(one)}\n--- wanted\n{json.dumps(other)}"
    return None


def run(program, words, text=None, **how):
    """Standard output, standard error and exit status of a program; `text` is its standard input. A program may be a list:
    a command and its first arguments."""
    first = program if isinstance(program, (list, tuple)) else [program]
    given = {"stdin": subprocess.DEVNULL} if text is None else {"input": text.encode()}
    try:
        done = subprocess.run([*first, *map(str, words)], capture_output=True, timeout=60, **given, **how)
    except subprocess.TimeoutExpired:
        return "", "", "no end"
    return done.stdout.decode(), done.stderr.decode(), done.returncode


def status_of_full(program, words):
    """The status of a program that can't write what it prints, since the device is full."""
    first = program if isinstance(program, (list, tuple)) else [program]
    return run(["sh", "-c", 'exec "$@" >/dev/full', "sh", *first], words)[2]


def loaded(text):
    """The value of a text in JSON, or a text that says that it isn't JSON."""
    try:
        return json.loads(text)
    except ValueError:
        return "no JSON: " + text
