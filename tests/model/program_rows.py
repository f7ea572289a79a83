#!/usr/bin/env python3
"""Runs the rows of the program: files NAME.row, whose lines are commands of `etcs` with the wanted output and exit status.

    tests/model/program_rows.py PROGRAM [FILE ..]     run them on PROGRAM
    tests/model/program_rows.py --check [FILE ..]     work out the wanted output by the plain program

A file has cases, each in a folder of its own that is empty at its start, but for the scenarios (*.json) along with the file:

    # a comment
    case NAME                a further case; after it may stand `by hand`, then the plain program doesn't know the answers
    file NAME TEXT           makes a file with this text; <<N TEXT>> in it is the text N times
    bytes NAME HEX           makes a file of these bytes
    put NAME OFFSET HEX      writes bytes into a file
    size NAME N              cuts a file off, or lengthens it
    folder NAME              makes a folder
    only-read NAME           takes the right to write a file
    keep NAME                remembers a file
    same NAME                the file is as it was then
    equal NAME OTHER         both files have the same bytes
    none NAME                there is no such file
    lock NAME                locks a file, as one that writes does
    share NAME               locks a file, as one that reads does
    unlock NAME              gives the lock back
    $ WORDS                  runs the program; the lines below, up to one with `= STATUS`, are what it is to print; the status is 0 where an
                             empty line, a comment or the next `$` comes first
    full $ WORDS             the same, but nothing can be written
    closed $ WORDS           the same, but nobody reads
    without DIGITS $ WORDS   the same, but the standard streams of these numbers are closed
    into NAME $ WORDS        the same, but what it prints becomes a file
    begin NAME $ WORDS       starts the program, and goes on once it has printed something: nobody reads, and a page of 4,096 bytes is all that
                             it can print, so it waits if it has more
    end                      reads what it prints, which becomes the file NAME, to its end and `= STATUS`
    format NAME SLOTS        runs `format`, which has to print its line and end with status 0
    refused 2 Shape: TEXT    a scenario of this text is refused so, by `run` on an image that isn't there (status 1)
    device: TEXT             .. isn't refused, so the program comes to the image (status 3)

In wanted output, `event 3..5 REST` stands for the lines of these three events.

Words are split as by a shell. Where files are named none, those of tests/etcs and examples are taken.
"""
import fcntl
import itertools
import json
import os
import re
import shlex
import shutil
import subprocess
import sys
import tempfile
import termios
import time
from collections import namedtuple
from pathlib import Path

from named import written
from program import Image

TOP = Path(__file__).resolve().parents[2]
# Of all rows at least so many.
LEAST = {"runs of the program": 500, "runs worked out": 130}
NOBODY = 65534
PAGE = 4096
F_SETPIPE_SZ = 1031

Line = namedtuple("Line", "number word given rest output status")
# The name of a telegram in a comment and its bytes, and below them its fields.
NAMED = re.compile(r"^#     (\S.*): ([0-9A-F]+)\n((?:#       .*\n)+)", re.M)
# The words with an exit status, and those with words for the program after a `$`.
RUNS = {"$", "full", "closed", "without", "into", "end"}
GIVEN = {"full", "closed", "without", "into", "begin"}
LOCKS = {"lock": fcntl.LOCK_EX, "share": fcntl.LOCK_SH}
JUDGED = re.compile(r"(refused \d+ \w+|device):(?: (.*))?")
EVENTS = re.compile(r"event (\d+)\.\.(\d+) (.*)")


class Case:
    def __init__(self, path, name, by_hand):
        self.path, self.name, self.by_hand, self.lines = path, name, by_hand, []


def read(path):
    """The cases of a file."""
    cases, lines = [Case(path, path.stem, False)], path.read_text().splitlines()
    places = iter(range(len(lines)))
    for at in places:
        line, number = lines[at], at + 1
        word, _, rest = line.partition(" ")
        if not word or word.startswith("#"):
            continue
        if word == "case":
            name, by_hand, _ = rest.partition(" by hand")
            cases.append(Case(path, name, bool(by_hand)))
            continue
        if judged := JUDGED.fullmatch(line):
            cases[-1].lines.append(Line(number, "file", "", f"s {judged[2] or ''}", [], None))
            cases[-1].lines.append(Line(number, "$", "", "run s none", [judged[1]], 3 if judged[1] == "device" else 1))
            continue
        if word == "format":
            cases[-1].lines.append(Line(number, "$", "", line, [formatted(int(rest.split()[1]))], 0))
            continue
        output, status, given = [], None, ""
        if word in GIVEN:
            given, _, rest = rest.partition("$ ")
        if word in RUNS:
            below = list(itertools.takewhile(lambda one: one and not one.startswith(("#", "$ ", "= ")), lines[number:]))
            output, end = [text for one in below for text in wanted_lines(one)], lines[number + len(below):][:1]
            has_status = bool(end) and end[0].startswith("= ")
            status = int(end[0][2:]) if has_status else 0
            for _ in range(len(below) + has_status):
                next(places)
        cases[-1].lines.append(Line(number, word, given.strip(), rest, output, status))
    return [case for case in cases if case.lines]


def formatted(slots):
    return f"formatted {slots} blocks {512 * (1 + 6 * slots)} bytes"


def wanted_lines(line):
    """The lines that a line of wanted output stands for."""
    if not (events := EVENTS.fullmatch(line)):
        return [line]
    return [f"event {number} {events[3]}" for number in range(int(events[1]), int(events[2]) + 1)]


def text_of(rest):
    return re.sub(r"<<(\d+) (.*?)>>", lambda m: m[2] * int(m[1]), rest)


# ---- by the program

class Room:
    """A folder in which a case runs, as a user without rights where this one has all."""

    def __init__(self, program, case):
        self.program, self.kept, self.locks, self.begun = program, {}, {}, None
        self.top = Path(tempfile.mkdtemp(prefix="etcs-rows-", dir="/dev/shm" if os.access("/dev/shm", os.W_OK) else None))
        self.user = {"user": NOBODY, "group": NOBODY, "extra_groups": []} if os.geteuid() == 0 else {}
        for scenario in case.path.parent.glob("*.json"):
            shutil.copy(scenario, self.top)
        self.hand_over()

    def hand_over(self):
        if self.user:
            for path in (self.top, *self.top.iterdir()):
                os.chown(path, NOBODY, NOBODY)

    def close(self):
        if self.begun:
            self.begun.kill()
            self.begun.communicate()
        for file in self.locks.values():
            file.close()
        shutil.rmtree(self.top)

    def begin(self, line):
        """Starts the program, and waits until it has printed something."""
        reading, writing = os.pipe()
        fcntl.fcntl(writing, F_SETPIPE_SZ, PAGE)
        self.name = line.given
        call = {"cwd": self.top, "stdin": subprocess.DEVNULL, "stdout": writing, "stderr": subprocess.PIPE, **self.user}
        self.begun = subprocess.Popen([self.program, *shlex.split(line.rest)], **call)
        os.close(writing)
        self.begun.stdout = open(reading, "rb")
        for _ in range(6000):
            printed = int.from_bytes(fcntl.ioctl(reading, termios.FIONREAD, bytes(4)), sys.byteorder)
            if printed or self.begun.poll() is not None:
                break
            time.sleep(0.01)
        if self.begun.poll() is not None:
            raise OSError("it came to its end")

    def end(self):
        begun, self.begun = self.begun, None
        output, error = begun.communicate(timeout=60)
        (self.top / self.name).write_bytes(output)
        return b"", error, begun.returncode

    def run(self, line):
        call = {"cwd": self.top, "stdin": subprocess.DEVNULL, "stderr": subprocess.PIPE, "timeout": 60, **self.user}
        words = [self.program, *shlex.split(line.rest)]
        if line.word == "end":
            return self.end()
        if line.word == "full":
            with open("/dev/full", "wb") as full:
                ran = subprocess.run(words, stdout=full, **call)
            output = b""
        elif line.word == "closed":
            reading, writing = os.pipe()
            os.close(reading)
            ran = subprocess.run(words, stdout=writing, **call)
            os.close(writing)
            output = b""
        elif line.word == "without":
            close = lambda: [os.close(int(digit)) for digit in line.given]
            ran = subprocess.run(words, stdout=subprocess.PIPE, preexec_fn=close, **call)
            output = ran.stdout
        else:
            ran = subprocess.run(words, stdout=subprocess.PIPE, **call)
            output = ran.stdout
        if line.word == "into":
            (self.top / line.given).write_bytes(output)
            output = b""
        return output, ran.stderr, ran.returncode

    def does(self, line):
        """What a line has done otherwise than it is to do, or None."""
        name, _, rest = line.rest.partition(" ")
        path = self.top / name
        if line.word in RUNS:
            output, error, status = self.run(line)
            wanted = "".join(text + "\n" for text in line.output).encode()
            if (output, error, status) != (wanted, b"", line.status):
                return f"printed\n{output.decode(errors='replace')}{error.decode(errors='replace')}= {status}"
        elif line.word == "begin":
            self.begin(line)
        elif line.word == "file":
            path.write_text(text_of(rest))
        elif line.word == "bytes":
            path.write_bytes(bytes.fromhex(rest))
        elif line.word == "put":
            offset, digits = rest.split()
            with open(path, "r+b") as file:
                file.seek(int(offset))
                file.write(bytes.fromhex(digits))
        elif line.word == "size":
            os.truncate(path, int(rest))
        elif line.word == "folder":
            path.mkdir()
        elif line.word == "only-read":
            path.chmod(0o444)
        elif line.word == "keep":
            self.kept[name] = path.read_bytes()
        elif line.word == "same":
            return None if path.read_bytes() == self.kept[name] else "the file is another one"
        elif line.word == "equal":
            return None if path.read_bytes() == (self.top / rest).read_bytes() else "the files differ"
        elif line.word in LOCKS:
            self.locks[name] = open(path, "rb")
            fcntl.flock(self.locks[name], LOCKS[line.word] | fcntl.LOCK_NB)
        elif line.word == "unlock":
            self.locks.pop(name).close()
        elif line.word == "none":
            return "there is such a file" if path.exists() else None
        else:
            return "no such word"
        self.hand_over()
        return None


def is_few(what, count):
    """Too few were tried; says so."""
    if count < LEAST[what]:
        print(f"there are to be {LEAST[what]} {what}")
    return count < LEAST[what]


def run_by(program, cases, is_whole):
    found, runs = 0, 0
    with tempfile.TemporaryDirectory(prefix="etcs-") as place:
        os.chmod(place, 0o755)
        copy = shutil.copy(program, place)
        for case in cases:
            room = Room(copy, case)
            for line in case.lines:
                runs += line.word in RUNS
                try:
                    difference = room.does(line)
                except OSError as error:
                    difference = str(error)
                if difference:
                    found += 1
                    print(f"{case.path.name}, case {case.name}, line {line.number}: {line.word} {line.rest[:200]}: {difference}")
            room.close()
    print(f"{len(cases)} cases, {runs} runs of the program, {found} differences")
    return 1 if found or is_whole and is_few("runs of the program", runs) else 0


# ---- by the plain program

def worked_out(case):
    """What the plain program prints at each run of a case."""
    images, texts = {}, {path.name: path.read_text() for path in case.path.parent.glob("*.json")}
    for line in case.lines:
        if line.word == "file":
            name, _, text = line.rest.partition(" ")
            texts[name] = text_of(text)
        if line.word != "$":
            continue
        word, *words = shlex.split(line.rest)
        if word == "format":
            images[words[0]] = Image(int(words[1]))
            yield line, [formatted(int(words[1]))], 0
        elif word == "run":
            yield line, *images[words[1]].run(json.loads(texts[words[0]]))
        elif word == "journal":
            yield line, images[words[0]].listing(), 0


def misnamed(path):
    """The telegrams in the comments of a file whose fields spell other bytes."""
    for name, digits, fields in NAMED.findall(path.read_text()):
        if written(fields.replace("#", " ")) != digits:
            yield f"{path.name}: the fields of {name} spell {written(fields.replace('#', ' '))}"


def check(paths, cases, is_whole):
    found, runs = 0, 0
    for difference in (one for path in paths for one in misnamed(path)):
        found += 1
        print(difference)
    for case in cases:
        if case.by_hand:
            continue
        for line, output, status in worked_out(case):
            runs += 1
            if (output, status) != (line.output, line.status):
                found += 1
                print(f"{case.path.name}, case {case.name}, line {line.number}: the plain program prints", *output, f"= {status}", sep="\n")
    print(f"{runs} runs worked out by the plain program, {found} differences")
    return 1 if found or is_whole and is_few("runs worked out", runs) else 0


def main(words):
    program, *named = words
    paths = [Path(path) for path in named] or sorted([*TOP.glob("tests/etcs/*.row"), *TOP.glob("examples/*/*.row")])
    cases = [case for path in paths for case in read(path)]
    if not cases:
        print("there is no case in", *paths)
        return 1
    return check(paths, cases, not named) if program == "--check" else run_by(program, cases, not named)


if __name__ == "__main__":
    sys.exit(main(sys.argv[1:]))
