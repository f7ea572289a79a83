#!/usr/bin/env python3
"""Images of journals, and what `etcs_lab why` has to print. Hand-written: for each cause of a brake, each kind of what decides a limit and
each outcome of a balise group, a life and the text of its line; and what a guard demands by telegrams. Compared with the plain program
(tests/model/why.py) all lines of the examples, of pseudo-random lives, of all formats, and of damaged journals; and tracks without the
element that decides the limit: then the limit is greater.

    tests/etcs_lab/why_rows.py PROGRAM..     run the program on each image, and compare
"""
import json
import sys
import tempfile
from collections import Counter
from pathlib import Path

HERE = Path(__file__).resolve().parent
sys.path[:0] = [str(HERE), *(str(HERE.parents[1] / part) for part in ("tests", "tests/model", "tests/hostile"))]
from blocks import image_of  # noqa: E402
from compared import Compared, is_same, lines_differ, objects, run  # noqa: E402
from demand_rows import DEMANDS_AS_JSON, DEMANDS_BY_HAND  # noqa: E402
from group_rows import GROUPS_AS_JSON, GROUPS_BY_HAND  # noqa: E402
from disk import Disk  # noqa: E402
from group_words import KINDS as GROUP_KINDS  # noqa: E402
from journal import COLD  # noqa: E402
from limit_reasons import KINDS  # noqa: E402
from limit_tracks import BY_HAND as LIMITS_BY_HAND, FAST, LEVEL, TRAIN, authority, forces, heard, inputs_of, tracks, unanswered, without  # noqa: E402
from onboard import Unit  # noqa: E402
from random_lists import SUPERVISION, TRACK, Numbers, event  # noqa: E402
from replay_rows import blocks_of, damaged, examples, formats, parts, random_lives  # noqa: E402
from why import TRIPS, WORDS, explained, walk_of  # noqa: E402

LEAST = 2_000  # so many images at least
LEAST_LINES = 2_000  # so many lines with what decides a limit
TRACKS, LEAST_RAISED = 560, 500  # so many tracks, and limits that are greater without what decided them
# 2^40 cm would take more events than an image holds; the two modes that supervise by train data are entered with valid ones, and keep them.
UNMET = ("in_system_failure", "no_train_data")
LEFT_OUT = ("before_oldest_block", "gap", "within_block", "unreadable")  # the reasons of events and blocks that aren't replayed
KNOWN, KNOWN_OF = ("group_of_fix", "group_being_read", "links", "has_missed", "free", "authority", "areas", "announced_level", "restrictions", "countries",
                   "announced_values_cm", "train"), 3  # what has to be known somewhere; of each third image it is compared
RANDOM, LONG = 1_900, 150  # images of pseudo-random lives, along with those of the replays, and how many of them have long ones

SR = ("enter-identity A 1", "choose-level 1", "enter-train-data 20000 160000 70 0 15", "start")
# By hand: a life in Staff Responsible (limit 40 km/h) or in Stand By, the event that is asked for, and what its line says of a cause.
BY_HAND = (
    ("not revalidated", (), 0, "the driver has not revalidated since the power-up (since event 0, ends when the driver has revalidated)"),
    ("far too fast", (*SR, "move 100 50001", "move 100 45000"), 6,
     "the speed was above the limit by more than 10 km/h, and the train has not stood since (since event 5, ends when the train stands)"),
    ("too fast", (*SR, "move 100 45001", "move 100 40001"), 6,
     "the speed was above the limit by more than 5 km/h, and not within it since (since event 5, ends when the speed is within the limit)"),
    ("within the limit again", (*SR, "move 100 45001", "move 100 40000"), 6,
     "event 6: brake none, limit 40 km/h, speed 40 km/h\n  the limit is the national value "
     "V_NVSTFF: 40 km/h (3.11.7, 3.18.2)\n"),
    ("rolled backward", (*SR, "move -150 1000", "move 20 1000", "move -51 1000"), 7,
     "rolled backward 2.01 m (2 m allowed)\n  because the train rolled backward too far since it stood (since event 7, ends when the train stands, or a "
     "greater D_NVROLL comes into force)"),
    ("moves in Stand By", ("move 5 1",), 1,
     "the train moves where it must stand (since event 1, ends when the train stands, or in another mode)"),
)
# Why Trip was entered, for each row that leads there: in the event that is asked for the mode is Trip. Where that is by the end of authority
# the examples have it, below.
SUPERVISED = (heard(authority(3_000), LEVEL, FAST), *SR)
NATIONAL = ("3: D_VALIDNV 32767, N_ITER 0, V_NVSHUNT 6, V_NVSTFF 8, V_NVONSIGHT 6, V_NVUNFIT 20, V_NVREL 8, D_NVROLL 2, V_NVALLOWOVTRP 0, "
            "V_NVSUPOVTRP 6, D_NVOVTRP 200, T_NVOVTRP 60, D_NVSTFF 40")
TRIPS_BY_HAND = (
    # Group 3 is announced 10 m ahead, to 5 m, with the reaction "trip". At 3,000 the minimum safe front is at 3,000 - 500 - 150.
    ("a group is missed", (heard("5: D_LINK 10, Q_NEWCOUNTRY 0, NID_BG 3, Q_LINKORIENTATION 1, Q_LINKREACTION 0, Q_LOCACC 5, N_ITER 0",
                                 authority(3_000), LEVEL, FAST), *SR, "move 3000 20000"), 6,
     "\n  the train was tripped: linking or a balise group asked for it (event 6, 3.4.4, 3.16.2)\n  no train may run in this mode: 0 km/h (4.4)\n"),
    ("V_MAIN 0", (*SUPERVISED, heard(authority(3_000, main=0), group=3)), 6,
     "\n  the train was tripped: an authority with V_MAIN 0 was used (event 6, 3.11.6)\n  no train may run in this mode: 0 km/h (4.4)\n  group 1 3 in "
     "mode FS, direction not known: accepted, linking not being in use (3.4.4)\n    packet 12 Level 1 Movement Authority\n"),
    # D_NVSTFF is 40 m: a path of 4,000 cm isn't above it, one of 4,001 cm is.
    ("too far in Staff Responsible", (*SR, heard(NATIONAL, group=9), "move 4000 10000", "move 1 10000"), 7,
     "\n  the train was tripped: the path in Staff Responsible was above D_NVSTFF (event 7, 4.4)\n  no train may run in this mode: 0 km/h (4.4)\n"),
    ("just as far in Staff Responsible", (*SR, heard(NATIONAL, group=9), "move 4000 10000", "move 1 10000"), 6,
     "event 6: brake none, limit 40 km/h, speed 10 km/h\n  the limit is the national value V_NVSTFF: "
     "40 km/h (3.11.7, 3.18.2)\n"),
    ("level 1 in Unfitted", ("enter-identity A 1", "choose-level 0", TRAIN, "start",
                             heard("41: D_LEVELTR 32767, M_LEVELTR 2, L_ACKLEVELTR 0, N_ITER 0")), 5,
     "\n  the train was tripped: the level was 1, and the authority or the track ahead was not known (event 5, 5.10)\n  no train may run in this "
     "mode: 0 km/h (4.4)\n  group 1 2 in mode UN, direction not known: accepted, linking not being in use (3.4.4)\n    packet 41 Level Transition "
     "Order\n"),
    # It stays listed while the trip is owed.
    ("the event after a trip", (*SUPERVISED, heard(authority(3_000, main=0), group=3), "move 10 0"), 7,
     "\n  the train was tripped: an authority with V_MAIN 0 was used (event 6, 3.11.6)\n  no train may run in this mode: 0 km/h (4.4)\n"),
)
# .. and of the examples: in "trip" the minimum safe front is past the end of authority at event 10, which the driver acknowledges at event 13;
# in "linking_fault" a group that was announced with the service brake is missed at event 11; in "on_sight" the acknowledgement that a
# transition asked for at event 11 is owed for 5 s at event 12.
IN_EXAMPLES = (
    ("trip", 8, "event 8: brake emergency, limit 0 km/h, speed 15 km/h\n  because the speed was above the limit by more "
     "than 10 km/h, and the train has not stood since (since event 8, ends when the train stands)"),
    ("trip", 10, "\n  because the mode is Trip (since event 10, ends when the driver acknowledges the trip at standstill)\n  because a trip is not acknowledged "
     "(since event 10, ends when the driver acknowledges the trip at standstill)\n  because the speed was above the limit by more than 10 km/h, and the "
     "train has not stood since (since event 8, ends when the train stands)\n  because the speed was above the limit by more than 5 km/h, and not within "
     "it since (since event 8, ends when the speed is within the limit)\n  the train was tripped: the minimum safe front was past the end of "
     "authority (event 10, 4.6.3)\n  no train may run in this mode: 0 km/h (4.4)\n"),
    ("trip", 11, "limit 0 km/h, speed 0 km/h\n  because the mode is Trip (since event 10, ends when the driver acknowledges the trip at standstill)\n  because a "
     "trip is not acknowledged (since event 10, ends when the driver acknowledges the trip at standstill)\n  the train was tripped: the minimum "
     "safe front was past the end of authority (event 10, 4.6.3)\n  no train may run in this mode: 0 km/h (4.4)\n"),
    ("trip", 13, "event 13: brake none, limit 0 km/h, speed 0 km/h\n  no train may run in this mode: 0 km/h (4.4)\n"),
    ("linking_fault", 11, "\n  because linking or a balise group asked for the service brake, and the train has not stood since (since event 11, ends when "
     "the train stands)\n  the limit is the static speed over the train: 120 km/h at 422.5 m (3.11.3)\n"),
    ("on_sight", 12, "\n  because an acknowledgement has been owed for 5 s or longer (since event 12, ends when the driver acknowledges, a mode "
     "deletes it, or a further transition begins it anew)\n  the limit is that of a mode area over the train: 30 km/h at 400 m (3.12.4)\n"),
)


def lives_by_hand(rows):
    for name, inputs, asked, says in rows:
        yield name, image_of(64, blocks_of([("unknown", inputs)], 3)), asked, says


def by_hand():
    yield from lives_by_hand((*BY_HAND, *TRIPS_BY_HAND))
    for name, inputs, says in LIMITS_BY_HAND:
        yield name, image_of(64, blocks_of([("unknown", inputs)], 3)), len(inputs), says
    made = dict(examples())
    for name, asked, says in IN_EXAMPLES:
        yield f"{name}, event {asked}", made[f"example {name}"], asked, says


def groups_by_hand():
    yield from lives_by_hand(GROUPS_BY_HAND)


def demands_by_hand():
    yield from lives_by_hand(DEMANDS_BY_HAND)


def more_lives():
    numbers = Numbers(9_311)
    for number in range(RANDOM):
        telegrams = TRACK + SUPERVISION[:2] if number % 3 == 0 else SUPERVISION
        disk = Disk.of(image_of(64))
        least, more = (20, 60) if number < LONG else (5, 30)
        for _ in range(1 + numbers.below(3)):
            unit = Unit(disk, numbers.one_of(COLD))
            for _ in range(least + numbers.below(more)):
                unit.accept(*parts(event(numbers, telegrams, unit.known.life())))
                if len(unit.pending) == 8 or numbers.below(5) == 0:
                    unit.flush()
            unit.flush()
        yield f"pseudo-random causes {number}", disk.data()


def images():
    for made in (examples, formats, damaged, random_lives, more_lives):
        yield from made()


class WhyRows(Compared):
    """The program, an image for it, and what came of its runs."""

    def __init__(self, program, image):
        super().__init__()
        self.program, self.image = program, image
        self.images = self.lines = 0
        self.met = Counter()

    def run(self, data, *words):
        """Status and text; `@` stands for the image."""
        self.image.write_bytes(data)
        return run(self.program, [self.image if word == "@" else word for word in words])[::-2]

    def by_hand(self):
        for name, data, asked, says in by_hand():
            self.met.update(word for word, sentence, _ in WORDS.values() if sentence in says)
            self.met.update(kind for kind, (sentence, _) in KINDS.items() if f"\n  {sentence}: " in says)
            self.met.update(f"trip {why}" for why, (sentence, _) in TRIPS.items() if f"tripped: {sentence} (" in says)
            status, text = self.run(data, "@", str(asked))
            self.unless(status == 0 and says in text, f"by hand: {name}: status {status}, {text}--- wanted in it\n{says}")

    def groups_by_hand(self):
        for name, data, asked, says in groups_by_hand():
            status, text = self.run(data, "@", str(asked))
            found = "".join(text.partition("\n  group")[1:])
            self.unless(status == 0 and found == says + "\n" * bool(says), f"groups by hand: {name}: status {status}, {text}--- wanted in it\n{says}")
            self.met.update(f"group {kind}" for kind, (sentence, _) in GROUP_KINDS.items() if f": {sentence}" in says)
        _, data, asked, _ = next(groups_by_hand())
        status, text = self.run(data, "--json", "@", str(asked))
        self.unless(status == 0 and is_same(objects(text)[0].get("groups"), GROUPS_AS_JSON), f"groups as JSON: status {status}, {text}")

    def demands_by_hand(self):
        """The demands of an event, also where all lines are printed."""
        for name, data, asked, says in demands_by_hand():
            status, text = self.run(data, "@", str(asked))
            found = "".join(text.rstrip("\n").partition("\n  outside the unit")[1:])
            self.unless(status == 0 and found == says, f"demands by hand: {name}: status {status}, {text}--- wanted in it\n{says}")
            lines = objects(self.run(data, "--json", "@")[1])
            events = [line["event"] for line in lines if "demands" in line]
            self.unless((asked in events) == bool(says), f"demands by hand: {name}: lines of {events}")
            if name in DEMANDS_AS_JSON:
                one = objects(self.run(data, "--json", "@", str(asked))[1])[0]
                self.unless(is_same(one.get("demands"), DEMANDS_AS_JSON[name]), f"demands as JSON: {name}: {one}")

    def compare_with_plain(self):
        for number, (name, data) in enumerate(images()):
            self.images += 1
            walk = walk_of(data)
            wanted, text, lines = explained(walk)
            found = self.run(data, "@")
            self.unless(found == (wanted, text), f"{name}: status {found[0]}, wanted {wanted}\n{found[1]}--- wanted\n{text}")
            self.as_json(name, self.run(data, "--json", "@"), wanted, lines)
            wanted, _, one = explained(walk, number % 40)
            self.as_json(f"{name}, event {number % 40}", self.run(data, "--json", "@", str(number % 40)), wanted, one)
            self.take(lines)
            if number % KNOWN_OF == 0:
                wanted, _, lines = explained(walk_of(data, True))
                self.as_json(f"{name}, what is known", self.run(data, "--json", "--known", "@"), wanted, lines)
                self.known(lines)

    def known(self, lines):
        """Notes which members of what is known were other than at a power-up."""
        for line in lines:
            known = line.get("known", {})
            self.met.update(f"known {name}" for name, value in known.items() if value)
            self.met["known free"] += not known.get("is_free", True)

    def as_json(self, name, found, wanted, lines):
        status, text = found
        differs = lines_differ(text, lines)
        self.unless(status == wanted and not differs, f"{name}: status {status}, wanted {wanted}\n{differs}")

    def take(self, lines):
        for record in lines:
            if "event" not in record:
                self.met[record.get("reason", record["replay"])] += 1
                continue
            self.lines += 1
            self.met.update(word for word, *_ in WORDS.values() if record[word] is not None)
            self.met[record["limit_cause"]] += 1
            self.met[f"trip {record['trip_cause']}"] += 1

    def decided(self, inputs):
        """What decides the limit after the last event of a life, or None where the program says nothing."""
        status, text = self.run(unanswered(inputs), "--json", "@", str(len(inputs)))
        return json.loads(text) if status == 0 else None

    def taken_away(self):
        """How many limits are greater without what decided them. Left out are those at which the plain program says that another thing alone
        gives no greater speed, and tracks of which what decides isn't one thing."""
        counted = Counter()
        for track in tracks(TRACKS):
            inputs = inputs_of(track)
            reason = self.decided(inputs)
            other = reason and without(track, reason)
            after = other and self.decided(inputs_of(other))
            if reason is None or (other is not None and after is None):
                self.report(f"{track}: no reason is reported")
            elif other is None:
                counted["of more than one thing"] += 1
            elif after["limit_m_per_h"] > reason["limit_m_per_h"]:
                counted["greater"] += 1
            elif sum(speed <= reason["limit_m_per_h"] for speed in forces(inputs)) > 1:
                counted["of equal force"] += 1
            else:
                self.report(f"{track}: without {reason['limit_cause']} the limit is no greater")
        return counted

    def judged(self):
        self.by_hand()
        self.groups_by_hand()
        self.demands_by_hand()
        self.compare_with_plain()
        counted = self.taken_away()
        print(f"why: {self.images} images, {self.count} comparisons, {self.lines} lines with what decides a limit, {self.differ} differ")
        print(f"tracks without what decides: limit greater {counted['greater']}, another of equal force {counted['of equal force']}, left out "
              f"{counted['of more than one thing']}")
        kinds = [*KINDS, *(f"trip {why}" for why in TRIPS), *(f"group {kind}" for kind in GROUP_KINDS)]
        for word in [*(word for word, *_ in WORDS.values()), *kinds, *LEFT_OUT, *(f"known {name}" for name in KNOWN)]:
            if not self.met[word] and word not in UNMET:
                self.report(f"no image has {word}")
        if self.images < LEAST or self.lines < LEAST_LINES or counted["greater"] < LEAST_RAISED:
            self.report(f"too few: {LEAST} images, {LEAST_LINES} lines and {LEAST_RAISED} greater limits are wanted")
        return 1 if self.differ else 0


def main(program):
    with tempfile.TemporaryDirectory() as folder:
        return WhyRows(program, Path(folder) / "image").judged()


if __name__ == "__main__":
    sys.exit(main(sys.argv[1:]))
