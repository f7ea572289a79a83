#!/usr/bin/env python3
"""Test cases that `./lab case` makes of journals: the lives of the plain unit, also on rings that were overwritten.

    tests/lab/case_rows.py ETCS ETCS_LAB

- A case of each life's last event and of one by chance: played again, it writes the same blocks, byte for byte, up to the one of the event, and what it
  expects comes. Where nothing before the event is overwritten, a case has to be made; where the life's beginning is, none.
- By hand: the steps of a case, what is refused and why, and a case of which the expected result is altered fails.
"""
import contextlib
import io
import os
import random
import sys
import tempfile
from itertools import islice
from pathlib import Path

TOP = Path(__file__).resolve().parents[2]
sys.path[:0] = [str(TOP / part) for part in ("python", "tests", "tests/model", "tests/etcs_lab")]

from compared import Compared  # noqa: E402
from gaknifur import layout
from gaknifur.__main__ import main as lab  # noqa: E402
from gaknifur.cases import case_runner, cases  # noqa: E402
from gaknifur.journal.reading import read  # noqa: E402
from blocks import SECTOR, SLOT, image_of, patched  # noqa: E402
from replay_rows import blocks_of, examples, formats, random_lives  # noqa: E402

LEAST = 45
"""So many cases at least."""
FORMAT_3 = layout.HEAD_MARKS[2]
TWO = [("unknown", ("enter-identity A\"b", "enter-running-number 4711", "enter-train-data 20000 160000 70 500 3", "choose-level 0", "clock 250",
                    "move 9046 100", "move -10 7")),
       ("not-moved", ("confirm identity", "acknowledge level-0", "override", "close-desk", "hear 90FF"))]
STEPS = """\
lives:
  - cold: unknown
    steps:
      - enter_identity: "A\\"b"
      - enter_running_number: 4711
      - enter_train_data: {length: 20000 cm, maximum: 160000 m/h, deceleration: 70 cm/s2, reaction: 500 ms, category: 3}
      - choose_level: 0
      - clock: 250 ms
      - flush
      - drive: 9046 cm at 100 m/h
      - drive: -10 cm at 7 m/h
  - cold: not_moved
    steps:
      - confirm: identity
      - acknowledge: level_0
      - override
      - close_desk
      - telegram: 90ff
expected:
  - {note: "life 2, event 13", at: end,
     expect: {mode: """


def run(*words):
    """Does what ./lab does, in this process: its status, and what it says."""
    said = io.StringIO()
    with contextlib.redirect_stderr(said):
        return lab([str(word) for word in words]), said.getvalue()


def block_at(data, number):
    """The bytes of a block's slot."""
    at = SECTOR + SLOT * (number % ((len(data) - SECTOR) // SLOT))
    return data[at:at + SLOT]


def events_of(records):
    """The last event of each life, and one by chance."""
    last = {record["life"]: record["event"] for record in records}
    return sorted({*last.values(), random.Random(len(records)).choice(records)["event"]})


def wanted(records, event):
    """Whether a case has to be made (True), must not be made (False), or may be (None)."""
    up_to = [record for record in records if record["event"] <= event]
    numbers = [record["event"] for record in up_to]
    if numbers == list(range(event + 1)):
        return True
    begins = [record["event"] for record in up_to if record["life"] == up_to[-1]["life"] and record["kind"] == "powerup"]
    return None if begins and set(range(begins[0], event + 1)) <= set(numbers) else False


def made(rows, name, image, out):
    """A case of each chosen event of an image; returns how many there are."""
    journal, data, count = read(image), image.read_bytes(), 0
    for event in events_of(journal.records):
        out.unlink(missing_ok=True)
        status, said = run("case", image, out, "--event", event)
        due = wanted(journal.records, event)
        is_made = out.exists()
        rows.unless(is_made == due or due is None, f"{name}, event {event}: status {status}, {said}")
        rows.unless(is_made or status == 1 and said.endswith("Nothing was written.\n"), f"{name}, event {event}: status {status}, {said}")
        if is_made:
            count += 1
            again(rows, f"{name}, event {event}", journal.records, data, out, due)
    return count


def again(rows, name, records, data, out, due):
    """A case that was made, played."""
    kept, (case,) = [], cases.read(out)
    played = case_runner.play(case, kept.append)
    rows.unless(case.expected and all(case_runner.comes(one, played, {}) for one in case.expected), f"{name}: what is expected doesn't come")
    last = played.records[-1]
    event = last["event"] if due else int(name.rpartition(" ")[2])
    record = next(one for one in records if one["event"] == event)
    known = [key for key in record if key in last and key not in ("block", "byte", "event", "life") and (key == "level" or record[key] is not None)]
    rows.same(f"{name}: the last record", [last[key] for key in known], [record[key] for key in known])
    numbers = sorted({one["block"] for one in records if one["event"] <= event})[:-1]
    if due:
        for number in numbers:
            if FORMAT_3 in block_at(data, number):
                rows.same(f"{name}: block {number}", block_at(kept[0], number), block_at(data, number))


def by_hand(rows, room):
    """The steps of two lives; what is refused; a case that has to fail."""
    image, out = room / "two", room / "two.case.yaml"
    image.write_bytes(image_of(16, blocks_of(TWO, 3)))
    rows.same("status", run("case", image, out, "--event", 13), (0, ""))
    text = out.read_text()
    rows.unless(STEPS in text and "starting_conditions: \"an empty journal\"\nslots: 16\n" in text, text)
    rows.same("it isn't overwritten", (run("case", image, out, "--event", 1)[0], out.read_text()), (1, text))
    with contextlib.redirect_stdout(io.StringIO()):
        rows.same("it passes", run("test", out)[0], 0)
        out.write_text(text.replace("limit_m_per_h: ", "limit_m_per_h: 1"))
        rows.same("an altered one fails", run("test", out)[0], 4)
    rows.same("another name", run("case", image, room / "two.yaml", "--event", 1)[0], 2)
    whole = image.read_bytes()
    for what, data, event, says in (
            ("no such event", whole, 99, "no readable record of the journal has event 99; it has events 0 to 13."),
            ("a lost block", patched(whole, SECTOR + 2 * SLOT, bytes(SECTOR)), 7, "life 1 can't be played: events between its power-up and event 7 are overwritten or lost."),
            ("an altered record", patched(whole, SECTOR + 2 * SLOT + 2 * SECTOR + 256 + 2, b"\0"), 3, "event 2 has brake none in the journal, and emergency when the case is played.")):
        image.write_bytes(data)
        status, said = run("case", image, room / "none.case.yaml", "--event", event)
        rows.same(what, (status, says in said, (room / "none.case.yaml").exists()), (1, True, False))


def main(words):
    os.environ |= {"GAKNIFUR_ETCS": words[0], "GAKNIFUR_ETCS_LAB": words[1]}
    rows, count = Compared(), 0
    with tempfile.TemporaryDirectory() as at:
        room = Path(at)
        by_hand(rows, room)
        for name, data in [*examples(), *islice(random_lives(), 0, None, 2), *(one for one in formats() if "in format 3" in one[0])]:
            (room / "image").write_bytes(data)
            count += made(rows, name, room / "image", room / "made.case.yaml")
    rows.unless(count >= LEAST, f"{count} cases, and {LEAST} at least were to be")
    return rows.end(f"cases of journals: {count} cases, {rows.count} comparisons")


if __name__ == "__main__":
    sys.exit(main([os.path.abspath(word) for word in sys.argv[1:3]]))
