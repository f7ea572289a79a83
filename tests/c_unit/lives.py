#!/usr/bin/env python3
"""Compares random lives from C with `etcs run`, the same in every run: the output, each call on the file, and its content.

    tests/c_unit/lives.py LIFE [LIVES [SEED]]    LIFE is life.c with the library; 400 lives, seed 2026; $ETCS names another program than that of the full check

Each life is lived on a fast medium, and on a slow one, which takes inputs within a list. All print the same and end with the same status. Their writes
and syncs of the file are the same, in the same order and with the same bytes, so that power may be lost between any two of them and the file is the
same. In every second life the medium fails between two requests: the life from C stops there, and has released just the outputs of the blocks that
were synced by then. Or it stops while sectors are still wanted: then nothing was written. Then both go on from that file.
"""
import json
import os
import random
import subprocess
import sys
from pathlib import Path

TOP = Path(__file__).resolve().parents[2]
sys.path[:0] = [str(TOP / "tests/hostile"), str(TOP / "tests/model"), str(TOP / "python")]

from built import PROGRAM, Releases, built, calls_of, room  # noqa: E402
from compared import Compared  # noqa: E402
from gaknifur.search import random_lives  # noqa: E402
from program import inputs_of  # noqa: E402
from random_inputs import headed, mutated  # noqa: E402

LIVES = 10  # so many on one image
SPEEDS = ("slow", "fast")
LEAST_CALLS, LEAST_LINES = 10, 5  # of a life, on the average

ALONE = {6: 7, 7: 8, 8: 9, 9: 10, 11: 15}
FROM = {4: 1, 5: 2, 10: 10}  # what is added to the value after the code


def word_of(asked):
    """A line of life.c."""
    if asked is None:
        return "flush"
    kind, *values = asked
    if kind == "reading":
        return f"odometer {values[0]} {values[1]}"
    if kind != "driver":
        return f"{kind} {values[0]}"
    code, *values = values
    if code == 1:
        return f"identity {values[0].encode().hex()}"
    if code == 2:
        return f"number {values[0]}"
    if code == 3:
        return "train " + " ".join(map(str, values))
    return f"action {FROM[code] + values[0] if code in FROM else ALONE[code]}"


def scenario_of(numbers):
    """A life of a train that mostly heeds the unit's answers; in some lives it hears telegrams that can't be read, or the clock goes back."""
    scenario = json.loads(random_lives.scenario(numbers))
    for _ in range(numbers.randrange(4)):
        data = (headed if numbers.randrange(2) else mutated)(numbers)
        if 1 <= len(data) <= 104:
            scenario["steps"].insert(numbers.randrange(len(scenario["steps"]) + 1), {"telegram": data.hex()})
    if numbers.randrange(10) == 0:
        scenario["steps"].append({"clock": numbers.randrange(2_000)})
    return scenario


def slots_of(numbers):
    """How many slots a ring has that is written over in some lives: a few, or more than a unit by sectors holds gates of."""
    return 2 + numbers.randrange(8) if numbers.randrange(2) else 17 + numbers.randrange(16)


def recorded(record, image, words, text=""):
    """Status and text of a run, and its writes, syncs and drops of pages in their order."""
    calls_file = image.with_suffix(".calls")
    calls_file.unlink(missing_ok=True)
    env = dict(os.environ, LD_PRELOAD=record, RECORD_OF=str(image), RECORD_TO=str(calls_file))
    ran = subprocess.run(list(map(str, words)), input=text, capture_output=True, env=env, text=True, timeout=60)
    if ran.stderr:
        raise SystemExit(f"{words}: {ran.stderr[:200]}")
    return ran.returncode, ran.stdout, [call for call in calls_of(calls_file) if call[0] in "wsd"]


def after_settling(calls):
    """The calls of a life from C after the two that settle its file, which are no requests of the unit."""
    if [kind for kind, _, _ in calls[:2]] != ["s", "d"]:
        raise SystemExit(f"the file isn't synced, and its pages dropped, at first: {calls[:2]}")
    return calls[2:]


def cut_off(before, calls, printed):
    """The bytes of the file after these requests, and what is released by then."""
    held, releases = bytearray(before), Releases(printed)
    for kind, place, body in calls:
        releases.note(kind, body)
        if kind == "w":
            held[place:place + len(body)] = body
    return bytes(held), releases.text()


class Pair:
    """The image of the program, and the one of the C program."""

    def __init__(self, life, folder, record, failures):
        self.life, self.record, self.failures = life, record, failures
        self.one, self.other, self.path = folder / "one", folder / "other", folder / "scenario"
        self.calls = self.lines = self.cuts = self.within = self.stops = self.slots = 0

    def same(self, name):
        self.failures.unless(self.one.read_bytes() == self.other.read_bytes(), f"{name}: the files hold other bytes")

    def format(self, name, slots):
        self.slots = slots
        subprocess.run([PROGRAM, "format", self.one, str(slots)], check=True, stdout=subprocess.DEVNULL)
        self.other.unlink(missing_ok=True)
        done = subprocess.run([self.life, "format", self.other, str(slots)]).returncode
        self.failures.unless(done == 0, f"{name}: the format from C ends with {done}")
        self.same(name)

    def live(self, name, scenario, numbers):
        before = self.one.read_bytes()
        self.path.write_text(json.dumps(scenario))
        text = "".join(word_of(asked) + "\n" for asked in inputs_of(scenario))
        status, printed, calls = recorded(self.record, self.one, [PROGRAM, "run", self.path, self.one])
        for speed in SPEEDS:
            words = [self.life, speed, self.other, scenario.get("cold", 0)]
            if numbers.randrange(2):
                self.cut(f"{name}, {speed}", before, (printed, calls), words, text, numbers)
            if numbers.randrange(4) == 0:
                self.stop(f"{name}, {speed}", before, words, text, numbers)
            self.other.write_bytes(before)
            found = recorded(self.record, self.other, words, text)
            self.failures.unless(found[:2] == (status, printed), f"{name}, {speed}: from C {found[0]} {found[1][:400]}, wanted {status} {printed[:400]}")
            self.failures.unless(after_settling(found[2]) == calls, f"{name}, {speed}: from C the file is handed other calls")
            self.same(f"{name}, {speed}")
        self.calls += len(calls)
        self.lines += printed.count("\n")

    def cut(self, name, before, whole, words, text, numbers):
        """The life stops between two requests; `whole` is what `etcs run` prints and requests."""
        text_of_whole, calls = whole
        count = numbers.randrange(len(calls))
        self.other.write_bytes(before)
        status, printed, _ = recorded(self.record, self.other, [*words, count], text)
        held, wanted = cut_off(before, calls[:count], text_of_whole)
        self.failures.unless(self.other.read_bytes() == held, f"{name}, cut after {count}: the file holds other bytes")
        self.failures.unless((status, printed) == (1, wanted + "stopped 21 ?\n"), f"{name}, cut after {count}: {status} {printed}, wanted {wanted}")
        self.cuts += 1
        self.within += held != before

    def stop(self, name, before, words, text, numbers):
        """Power is lost while a sector is wanted: the first one, or a gate."""
        count = numbers.randrange(1 + self.slots)
        self.other.write_bytes(before)
        status, printed, calls = recorded(self.record, self.other, [*words, -1 - count], text)
        self.failures.unless((status, printed, after_settling(calls)) == (1, "abandoned before a read\n", []), f"{name}, stopped after {count} sectors: {status} {printed} {calls}")
        self.failures.unless(self.other.read_bytes() == before, f"{name}, stopped after {count} sectors: the file holds other bytes")
        self.stops += 1

    def go_on(self, name, numbers, scenario):
        """A life that is cut off, from which both go on."""
        before = self.one.read_bytes()
        self.path.write_text(json.dumps(scenario))
        _, *whole = recorded(self.record, self.one, [PROGRAM, "run", self.path, self.one])
        text = "".join(word_of(asked) + "\n" for asked in inputs_of(scenario))
        self.other.write_bytes(before)
        self.cut(name, before, whole, [self.life, numbers.choice(SPEEDS), self.other, scenario.get("cold", 0)], text, numbers)
        self.one.write_bytes(self.other.read_bytes())


def main(words):
    life, *given = words
    count, seed = [int(word) for word in given] + [400, 2026][len(given):]
    numbers, failures = random.Random(seed), Compared()
    with room() as name:
        pair = Pair(Path(life).resolve(), Path(name), built("record"), failures)
        for number in range(count):
            if number % LIVES == 0:
                pair.format(f"image before life {number}", slots_of(numbers))
            if numbers.randrange(3) == 0:
                pair.go_on(f"a cut before life {number}", numbers, scenario_of(numbers))
            pair.live(f"life {number}", scenario_of(numbers), numbers)
    failures.unless(pair.calls >= LEAST_CALLS * count and pair.lines >= LEAST_LINES * count, "the lives are too short")
    failures.unless(pair.cuts >= count and pair.within >= count // 2 and pair.stops >= count // 8, "too few lives are cut off")
    return failures.end(f"lives from C: {count} on a slow and a fast medium, with {pair.calls} requests and {pair.lines} lines each, and {pair.cuts} cut off, "
                        f"{pair.within} of them after a write, {pair.stops} while a sector was wanted")


if __name__ == "__main__":
    sys.exit(main(sys.argv[1:]))
