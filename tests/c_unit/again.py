#!/usr/bin/env python3
"""Compares lives that C programs replay by the calls of etcs_image.h with what the plain programs say of the same images, and with what
`etcs_lab replay --json`, `etcs_lab why --json` and `etcs_lab events` print: of the examples, of random lives, of all formats, of damaged journals, and of ones with
an altered byte.

    tests/c_unit/again.py LAB REFUSE PROGRAM..     the program etcs_lab, tests/hostile/refuse.c as a library, and again.c built in several ways

Of each example each request for memory is refused in turn.
"""
import json
import os
import re
import sys
import tempfile
from collections import Counter
from itertools import zip_longest
from pathlib import Path

HERE = Path(__file__).resolve().parent
sys.path[:0] = [str(HERE.parents[1] / part) for part in ("tests", "tests/model", "tests/hostile", "tests/etcs_lab", "python")]
from compared import Compared, run  # noqa: E402
from gaknifur.lives import BrakeCause, LimitCause, TripCause  # noqa: E402
from replay import replayed  # noqa: E402
from replay_rows import altered, damaged, examples, formats, random_lives  # noqa: E402
from why import walked  # noqa: E402
from why_rows import more_lives  # noqa: E402

EVERY = 19  # so many altered bytes are passed over
OF_LAB = 7  # etcs_lab is asked of so many images one
LEAST, LEAST_WHYS, LEAST_REFUSED = 650, 11_000, 400  # so many images, and events whose causes are compared
VERDICTS = ("agrees", "record_differs", "head_differs", "before_oldest_block", "gap", "within_block", "after_difference", "unreadable")
LEFT_OUT = ("trip_cause_section", "limit_cause_section", "groups", "demands")


def images():
    for made in (examples, formats, damaged, random_lives, more_lives):
        yield from made()
    for number, (part, _, name, data) in enumerate(altered()):
        if number % EVERY == 0 or part == "head" and number % 3 == 0:
            yield name, data


def printed(*words, **changes):
    text, _, status = run(words[0], words[1:], env=os.environ | changes)
    return status, [json.loads(line) for line in text.splitlines()]


# The enums whose names are those of `reasons`: first number, file and variants.
MIRRORS = (BrakeCause, 0, "cause_texts", "BrakeCause"), (TripCause, 1, "trips", "TripCause"), (LimitCause, 1, "limit_texts", "LimitKind")


def mirrors_differ():
    """Enums that haven't the names of the kernel's causes, in their order."""
    for causes, first, file, variants in MIRRORS:
        names = {int(cause): cause.name.lower() for cause in causes if cause is not TripCause.UNKNOWN}
        source = (HERE.parents[1] / "crates" / "reasons" / "src" / f"{file}.rt").read_text()
        name_of = re.search(r"fn \w*_name\(.*?\n}\n", source, re.DOTALL)[0]
        wanted = dict(enumerate(re.findall(rf'{variants}::\w+ => "(\w+)"', name_of), first))
        if names != wanted or not wanted:
            yield f"{causes.__name__}: {names}, wanted {wanted}"


def without_counts(line):
    """A line of a replay but for the counts of a head, which C reports by etcs_image_block."""
    if line.get("replay") != "head_differs":
        return line
    return line | {key: {name: value for name, value in line[key].items() if name not in ("events", "lives")} for key in ("journal", "kernel")}


def lines_differ(from_c, lines):
    """The first line that C reports otherwise than a replay, or None."""
    for one, other in zip_longest(from_c, map(without_counts, lines)):
        if one != other:
            return f"{one}\n--- wanted\n{other}"
    return None


def without_sections(members):
    return {key: value for key, value in members.items() if key not in LEFT_OUT}


class Replays(Compared):
    def __init__(self, lab, refuse, programs, folder):
        super().__init__()
        self.lab, self.refuse, self.programs, self.image = lab, refuse, programs, Path(folder) / "image"
        self.images = self.whys = self.of_lab = self.refused = self.within = 0
        self.met = Counter()

    def lives(self, name, data):
        status, _, lines = replayed(data)
        wanted = lines[:-1]
        for program in self.asked():
            _, from_c = printed(program, self.image, "replay")
            if status == 1:
                if [line.get("refused") for line in from_c] not in (["IMAGE_NOT_FORMATTED"], ["IMAGE_DAMAGED"]):
                    self.report(f"{name}: {from_c}, wanted a refusal")
                continue
            self.met.update(line.get("reason", line.get("replay")) for line in from_c)
            found = lines_differ(from_c, wanted)
            if found:
                self.report(f"{name}: {found}")
        if status != 1 and self.images % OF_LAB == 0:
            self.of_lab += 1
            _, lines = printed(self.lab, "replay", "--json", self.image)
            found = lines_differ(from_c, lines[:-1])
            if found:
                self.report(f"{name}, compared with etcs_lab: {found}")

    def asked(self):
        """The programs: all of them of each hundredth image."""
        return self.programs if self.images % 100 == 0 else self.programs[:1]

    def reasons(self, name, data):
        events = walked(data)
        if events is None:
            return
        step = 1 if self.images % OF_LAB == 0 or len(events) < 60 else 5
        wanted = [without_sections(members) for *_, members in events]
        for program in self.asked():
            _, from_c = printed(program, self.image, "why", step)
            known = [line for line in from_c if "refused" not in line]
            self.met.update(f"refused {line['refused']}" for line in from_c if "refused" in line)
            self.whys += len(known)
            for line in known:
                if line not in wanted:
                    self.report(f"{name}: {line}\n--- none of\n{[one for one in wanted if one['event'] == line['event']]}")
            if step == 1 and known != wanted:
                self.report(f"{name}: {len(known)} events, wanted {len(wanted)}")
        if step == 1 and wanted:
            event = wanted[self.images % len(wanted)]["event"]
            _, lines = printed(self.lab, "why", "--json", self.image, event)
            if [without_sections(line) for line in lines] != [line for line in known if line["event"] == event]:
                self.report(f"{name}, event {event}, compared with etcs_lab: {lines}")
            self.of_lab += 1

    def records(self, name):
        """The life of each record, along with `etcs_lab events`."""
        _, from_c = printed(self.programs[0], self.image, "records")
        if any("refused" in line for line in from_c):
            return
        _, lines = printed(self.lab, "events", self.image)
        wanted = [{key: line[key] for key in ("block", "event", "life")} for line in lines if "event" in line]
        self.within += any(one["life"] != other["life"] for one, other in zip(wanted, wanted[1:]) if one["block"] == other["block"])
        if from_c != wanted:
            self.report(f"{name}, lives of records compared with etcs_lab: {from_c}\n--- wanted\n{wanted}")

    def memory(self, name, data, words):
        """Each request for memory is refused in turn: then one event, or the rest, is reported as refused, and all else as ever."""
        self.image.write_bytes(data)
        counts = self.image.with_name("counts")
        _, whole = printed(self.programs[0], self.image, *words, LD_PRELOAD=self.refuse, REFUSE_COUNTS=str(counts))
        for at in range(1, int(counts.read_text()) + 1):
            status, from_c = printed(self.programs[0], self.image, *words, LD_PRELOAD=self.refuse, REFUSE_AT=str(at))
            refused = [place for place, line in enumerate(from_c) if line.get("refused") == "NO_MEMORY"]
            self.refused += len(refused)
            if status == 0 and refused and words[0] == "why":
                place, = refused
                from_c[place] = whole[place] if from_c[place]["event"] == whole[place]["event"] else None
            if status == 0 and refused and words[0] == "replay":
                from_c[refused[0]:] = whole[refused[0]:]
            if status not in (0, 3) or status == 0 and from_c != whole:
                self.report(f"{name}, request {at} refused: {from_c}")

    def judged(self):
        for name, data in images():
            self.image.write_bytes(data)
            self.lives(name, data)
            self.reasons(name, data)
            if self.images % OF_LAB == 0 or "within blocks" in name:
                self.records(name)
            self.images += 1
        for name, data in examples():
            for words in (("replay",), ("why", "3")):
                self.memory(name, data, words)
        if self.refused < LEAST_REFUSED:
            self.report(f"too few: {LEAST_REFUSED} answers for want of memory are wanted")
        print(f"lives run again from C: {self.images} images, {self.whys} events with their causes, {self.of_lab} comparisons with etcs_lab, "
              f"{self.refused} answers for want of memory; {self.differ} differ; {dict(self.met)}")
        for text in mirrors_differ():
            self.report(text)
        for verdict in (*VERDICTS, "refused NOT_REPLAYED"):
            if not self.met[verdict]:
                self.report(f"no image has the verdict {verdict}")
        if not self.within:
            self.report("no block has records of several lives")
        if self.images < LEAST or self.whys < LEAST_WHYS:
            self.report(f"too few: {LEAST} images and {LEAST_WHYS} events are wanted")
        return 1 if self.differ else 0


def main(words):
    with tempfile.TemporaryDirectory() as folder:
        return Replays(*words[:2], words[2:], folder).judged()


if __name__ == "__main__":
    sys.exit(main(sys.argv[1:]))
