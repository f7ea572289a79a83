"""Rows for test_onboard (make_rows.py): old images, cuts and faults at each call, altered bytes, and pseudo-random lives, with what
the plain unit answers.

As they are made, each cut is held against the table: before the gate is written what is found is what was durable, while it is written
or not synced that or the same with the whole batch, after it the latter.
"""
from itertools import product

import blocks
from items import Kept
from journal import SLOT_SECTORS, block_of, event_of, kept_in, record_of, slots_in
from life import Life
from onboard import Known
from onboard_rows import Reader, Session
from random_lists import Numbers, SUPERVISION, event

HEADING = """
# ==== Made by tests/model/onboard_lives.py, with the answers of the reference models.
"""

TELEGRAM = "hear 90007F802001506023A0E0190019427F80"  # a restriction, and country 1, group 2
TRAIN = "enter-train-data 20000 160000 70 0 15"
STARTED = (TELEGRAM, "enter-identity A", "choose-level 1", TRAIN, "start", "move 9046", "move 1", "move 7268", "move 1")
AFTERWARDS = "open not-moved; confirm identity; clock 9; flush; close; bytes"


class RowWriter:
    """Rows as they are made, with what the plain program answers."""

    def __init__(self):
        self.reader, self.lines = Reader(), []

    def say(self, line):
        self.lines.append(line)
        return self.reader.take(line)

    @property
    def session(self):
        return self.reader.session


# ---- old images


def of_lives(lives, form, flushes):
    """The blocks of some lives in a format: a power-up has a block of its own, and a flush comes after so many inputs each. A life
    whose block before is of format 1 or 2 knows nothing of movements."""
    kept, made = Kept(), []
    for inputs in lives:
        life = Life(kept, "unknown")
        batch = [record_of(life.kept().events - 1, ("powerup", 0), 0, life.now.output, life.place())]
        ends = {0, len(inputs), *range(flushes, len(inputs), flushes)}
        for done in range(len(inputs) + 1):
            if done:
                word, _, value = inputs[done - 1].partition(" ")
                output = life.take(word, value)
                batch.append(record_of(life.kept().events - 1, event_of(word, value), life.moment(), output, life.place()))
            if done in ends:
                made.append(block_of(len(made) + 1, batch, life.kept(), form))
                batch = []
        kept = life.kept()
    return made


def image(made, slots, blocks_made):
    """A disk with the last of these blocks."""
    made.say(f"format {slots}")
    for block in blocks_made[-slots:]:
        made.say(f"put {block['number'] % slots} {blocks.patches(blocks.data_of(block))}")


def old_images(made):
    made.say("# Two slots with blocks 1 and 2 of format 1: block 3 is of format 3, in slot 1.")
    image(made, 2, of_lives([["clock 1000"]], 1, 8))
    made.say("blocks -> 1 to 2, events 2; open unknown -> opened; close; blocks -> 2 to 3, events 3")
    made.say("list -> | block 2 event 1 clock SB - emergency 32 00000000000003e8 "
             "| block 3 event 2 powerup SB - emergency 32 00 at 0 unc 500 limit 0")
    made.say("# Three slots with blocks 1 to 3 of format 1: block 4 is of format 3, in slot 1.")
    image(made, 3, of_lives([["clock 1000", "clock 2000"]], 1, 1))
    made.say("open unknown -> opened; close; blocks -> 2 to 4, events 4")
    made.say("list -> | block 2 event 1 clock SB - emergency 32 00000000000003e8 | block 3 event 2 clock SB - emergency 32 "
             "00000000000007d0 | block 4 event 3 powerup SB - emergency 32 00 at 0 unc 500 limit 0")
    for form in (1, 2):
        made.say(f"# The life that started, in format {form}: the word is taken and recorded as unknown; at the next opening it counts,")
        made.say("# but level and position are invalid by then.")
        image(made, 4, of_lives([STARTED], form, 5))
        made.say("keep")
        made.say("kept level -> invalid 1; kept position -> invalid 1 2 16316; kept counts -> 10 1")
        made.say("open not-moved; clock 5; flush -> released 1, 11 SB - emergency 0 32; close; kept level -> invalid 1; "
                 "kept position -> invalid 1 2 16316")
        made.say("list")
        made.say("again; open not-moved; confirm identity; confirm train-data; start; flush -> released 3, 11 SB - emergency 0 32, "
                 "12 SB - emergency 0 32, 13 SB - emergency 0 32")
        made.say("open not-moved; close; kept level -> invalid 1; kept position -> invalid 1 2 16316; kept counts -> 15 3")
        made.say("open unknown; confirm identity; confirm level; confirm train-data; start; flush -> released 4, 16 SB - emergency 0 32, "
                 "17 SB 1 emergency 0 32, 18 SB 1 emergency 0 32, 19 SR 1 none 40000 0")
    made.say("# Two slots with a block that has the last number but one.")
    last = (1 << 40) - 1
    image(made, 2, [blocks.block(3, last, last, 7, [blocks.entry(last - 1, ("clock", 5), moment=5)])])
    made.say(f"blocks -> {last} to {last}, events {last}; open unknown -> opened; clock 1; flush -> 23 WornOut; flush -> 23 WornOut")
    made.say("clock 2; clock 3; clock 4; clock 5; clock 6; clock 7; clock 8 -> accepted; clock 9 -> 10 PendingFull; flush -> 23 WornOut")
    made.say(f"close; blocks -> {last} to {last + 1}, events {last + 1}; open unknown -> 6 WornOut; open moved -> 6 WornOut")
    made.say("# A head that is found with a count beyond its limits, or with a byte where zeros stand.")
    for form, most in ((1, 16), (2, 8), (3, 8)):
        block = blocks.block(form, 3, 10 + most, 2, [blocks.entry(10 + k, ("clock", 5), moment=5) for k in range(most)])
        image(made, 2, [block])
        made.say("keep; open unknown -> opened; again; flip 8 198 01; open unknown -> 3 Damaged; again; flip 8 511 80; open moved -> 3 Damaged")
        for count in (0, most + 1):
            image(made, 2, [blocks.with_(block, count=count)])
            made.say("open unknown -> 3 Damaged")


# ---- cuts


def mixed():
    """Two lives in format 1, whose last block is followed by one of format 2."""
    older = of_lives([["clock 1000", "enter-identity B"], ["choose-level 1"]], 1, 1)
    newer = of_lives([["clock 1000", "enter-identity B"], ["choose-level 1"]], 2, 1)
    return older[:-1] + newer[-1:]


RINGS = (  # name, slots, what stands there
    ("2 slots, new", 2, lambda made: made.say("format 2")),
    ("2 slots", 2, lambda made: made.say("format 2; open unknown; clock 5; flush; open unknown; close")),
    ("4 slots, one block", 4, lambda made: made.say("format 4; open unknown; close")),
    ("4 slots", 4, lambda made: made.say("format 4; open unknown; enter-identity A; flush; choose-level 1; flush; clock 7; flush; clock 8; "
                                         "flush; close")),
    ("4 slots, formats 1 and 2", 4, lambda made: image(made, 4, mixed())),
    ("3 slots, formats 1, 2 and 3", 3, lambda made: (image(made, 3, mixed()), made.say("open moved; close"))),
)

THOROUGH = {"2 slots", "4 slots", "4 slots, formats 1 and 2"}  # in these every combination is tried,
TWICE = {"2 slots", "4 slots, formats 1 and 2"}  # and in these cuts twice in a row

SETTLED = ("settle", "settle new new new new new", "settle ff ff ff ff ff")
LIFE = "open not-moved; clock 7; enter-running-number 5; flush"


EVERY = 4_096  # so many combinations are tried at most for one cut: all of them
BOTH = 64  # .. and for a cut and another one in the opening after it; where there are more, those of `some`
SAMPLE = 40


def lists_for(numbers, disk):
    """The words for each open sector: what it held, what was handed in, ones, and another block's sector of its kind."""
    return [("old", "new", "ff", f"@{same_kind(numbers, disk, sector)}") for sector in disk.open_sectors()]


def text_of(lists):
    return " ".join(map(",".join, lists))


def some(first, second):
    """The lists of combinations of many sectors: a sample; and for up to six sectors, but where the first cut is already split, old and
    new in any mixture, and all words for one along with only old or only new ones."""
    both = first + second
    split = lambda lists: f"{text_of(lists[:len(first)])} / {text_of(lists[len(first):])}"
    if len(first) > 1 and len(both) <= 6:
        yield f"{BOTH} {split([words[:2] for words in both])}"
        for at in range(len(both)):
            for rest in range(2):
                yield f"{BOTH} {split([words if k == at else words[rest:rest + 1] for k, words in enumerate(both)])}"
    yield f"{SAMPLE} {split(both)}"


def same_kind(numbers, disk, sector):
    """A sector of the same kind in another slot; an open one where there is one."""
    slots = slots_in(disk.held[0])
    own, kind = divmod(sector - 1, SLOT_SECTORS)
    others = [slot for slot in range(slots) if slot != own]
    filled = [slot for slot in others if any(disk.held[1 + SLOT_SECTORS * slot + kind])]
    return 1 + SLOT_SECTORS * numbers.one_of(filled or others) + kind


def changes_in(made, text):
    """How many writes and syncs a life has up to its power-up and in all, and how many events are found before, then, and at its end."""
    counts, events = [], []
    made.session.do_again()
    events.append(found(made.session.disk))
    first, _, rest = text.partition("; ")
    made.session.answer(first)
    counts.append(made.session.disk.changes)
    events.append(found(made.session.disk))
    for said in rest.split("; "):
        made.session.answer(said)
    counts.append(made.session.disk.changes)
    events.append(found(made.session.disk))
    return counts, events


def found(disk):
    session = Session()
    session.disk = disk.settled()
    return int(session.do_blocks().split()[-1])


def allowed(number, counts, events):
    """How many events may be found after a cut in the change of this number."""
    for end, before, after in zip(counts, events, events[1:]):
        if number < end - 2:
            return {before}
        if number < end:
            return {before, after}
    return {events[-1]}


def lived(made, number):
    """The disk of a life that a cut in its change of this number ends."""
    made.session.do_again()
    made.session.do_cut(number)
    for said in LIFE.split("; "):
        made.session.answer(said)
    return made.session.disk


def cuts(made, numbers):
    """A cut in each write and sync of an opening and a flush, with every combination of what the open sectors may hold then, or with some."""
    for name, _, prepare in RINGS:
        prepare(made)
        made.say("keep")
        counts, events = changes_in(made, LIFE)
        made.say(f"group cuts, {name}")
        for number in range(counts[-1] + 1):
            lists = lists_for(numbers, lived(made, number))
            for tried in [f"{EVERY} {text_of(lists)}"] if name in THOROUGH or len(lists) < 3 else some(lists, []):
                for answers in made.say(f"try {tried}: again; cut {number}; {LIFE}; settle *; blocks; {AFTERWARDS}"):
                    events_found = int(answers[7].split()[-1])
                    assert events_found in allowed(number, counts, events), (name, number, answers)
                    assert answers[8] == "opened", answers
                    assert not answers[5].startswith("released") or events_found == events[-1], answers
        made.say("end")


def first_cuts(lists):
    """The first cut's choices, as lists: each alone where one sector is open, since what the next opening does may depend on it."""
    if len(lists) > 1:
        return [lists]
    return [[(word,) for word in words] for words in product(*lists)]


def cuts_twice(made, numbers):
    """The same, and another cut in the opening after it."""
    for name, _, prepare in RINGS:
        if name not in TWICE:
            continue
        prepare(made)
        made.say("keep")
        counts, events = changes_in(made, LIFE)
        made.say(f"group cuts twice in a row, {name}")
        for number in range(counts[-1]):
            for first in first_cuts(lists_for(numbers, lived(made, number))):
                cut_again(made, numbers, number, first, allowed(number, counts, events))
        made.say("end")


def cut_again(made, numbers, number, first, before):
    """A cut in each write and sync of the opening after a first cut."""
    for again in range(8):
        made.session.set_disk(lived(made, number))
        made.session.do_settle(*(words[0] for words in first))
        made.session.do_cut(again)
        if made.session.answer("open moved") == "opened":
            return
        second = lists_for(numbers, made.session.disk)
        count = 4 ** (sum(len(words) > 1 for words in first) + len(second))
        tries = [f"{BOTH} {text_of(first)} / {text_of(second)}"] if count <= BOTH else some(first, second)
        for lists in tries:
            for answers in made.say(f"try {lists}: again; cut {number}; {LIFE}; settle *; cut {again}; open moved; settle %; blocks; {AFTERWARDS}"):
                assert int(answers[10].split()[-1]) in before | {count + 1 for count in before}, (number, again, answers)
                assert answers[11] == "opened", answers


def faults(made):
    """In each call of an opening and a flush, reads too, power is lost; or it fails, and the disk goes on, or power is lost after it."""
    for name, _, prepare in RINGS:
        prepare(made)
        made.say("keep")
        _, events = changes_in(made, LIFE)
        for settle in SETTLED:
            made.say(f"group power lost in any call, {name}, then {settle}")
            for answers in made.say(f"for 0 79: again; cut-any *; {LIFE}; {settle}; blocks; {AFTERWARDS}"):
                assert int(answers[7].split()[-1]) in events and answers[8] == "opened", answers
            made.say("end")
        for rest in ("", *(settle + "; " for settle in SETTLED)):
            made.say(f"group faults, {name}{', then ' + rest[:-2] if rest else ''}")
            for answers in made.say(f"for 0 79: again; fail-any *; {LIFE}; clock 9; flush; close; {rest}blocks; {AFTERWARDS}"):
                opened, flushed, after = answers[2], answers[5], answers[6]
                assert opened in ("opened", "1 DeviceFault"), answers
                assert opened != "opened" or flushed[:2] in ("re", "20"), answers
                assert not flushed.startswith("20") or after == "13 Failed", answers
                assert int(answers[9 + bool(rest)].split()[-1]) in {*events, events[-1] + 1}, answers
            made.say("end")


# ---- altered bytes


def altered(made):
    made.say("# The first sector: its form, 1 in place of 2, opens too; another number of slots than the disk has does not.")
    made.say("format 4; open unknown; clock 5; flush; clock 6; flush; close; keep; blocks -> 1 to 3, events 3")
    made.say("flip 0 11 03; open unknown -> opened; again; flip 0 11 01; open unknown -> 2 NotFormatted; again; flip 0 15 01; "
             "open unknown -> 3 Damaged; again; flip 0 15 04; open unknown -> 2 NotFormatted; again; flip 0 16 01; open unknown -> 2 NotFormatted")
    for name, sector in (("first sector", 0), ("newest head", 20), ("newest gate", 19), ("closed gate", 1), ("older head", 14),
                         ("newest records", 21)):
        made.say(f"group altered bytes, {name}")
        for mask in ("01", "ff"):
            for answers in made.say(f"for 0 511: again; flip {sector} * {mask}; blocks; {AFTERWARDS}"):
                if sector == 0:
                    assert answers[3] in ("2 NotFormatted", "3 Damaged"), answers
                if sector in (1, 19):
                    assert answers[3] == "opened", answers
        made.say("end")
    made.say("# A gate that a cut left closed above a head and records that were written.")
    made.say("format 4; cut 11; open unknown; clock 5; flush; clock 6; flush; settle old; keep; blocks -> 1 to 2, events 2")
    made.say("group altered bytes, a gate that was closed over a block")
    for answers in made.say(f"for 0 511: again; flip 19 * 01; blocks; {AFTERWARDS}"):
        assert answers[3] == "opened", answers
    made.say("end")


# ---- pseudo-random lives


class World:
    """What was accepted and what of it was released, in all lives on one disk."""

    def __init__(self, made, numbers):
        self.made, self.numbers, self.session = made, numbers, made.session
        self.kept = [self.on_the_disk()]  # what is kept after what is found, and after each event accepted since
        self.released = self.first = self.kept[0].events

    def on_the_disk(self):
        journal, _ = self.session.journal()
        self.form = journal.found["format"] if journal.found else 3
        return kept_in(journal.found) if journal.found else Kept()

    def live(self):
        """One line: perhaps power will be lost; a power-up, inputs and flushes; what is left of open sectors, and what is found."""
        numbers, done = self.numbers, []

        def say(said):
            done.append((said, self.made.reader.command(said)))
            return done[-1][1]

        if numbers.below(4):
            say(f"cut {numbers.below(40) if numbers.below(4) else numbers.below(8)}")
        cold = numbers.one_of(("unknown", "moved", "not-moved"))
        self.accepted(Known(self.kept[0], cold if self.form == 3 else "unknown"))
        opened = say(f"open {cold}") == "opened"
        for _ in range(numbers.below(20)):
            word = "flush" if numbers.below(5) == 0 else event(numbers, SUPERVISION, self.session.unit.known.life()) if opened else "start"
            answer = say(word)
            if answer == "accepted":
                self.accepted(self.session.unit.known)
            if answer.startswith("released") and "," in answer:
                self.released = 1 + int(answer.split(", ")[-1].split()[0])
        disk = self.session.disk
        left = [numbers.one_of(("old", "new", "new", "ff", "zeros", f"@{same_kind(numbers, disk, sector)}"))
                for sector in disk.open_sectors()]
        say(" ".join(["settle"] + left))
        for said in ("blocks", "kept counts", "kept level", "kept position", "kept national", "bytes"):
            say(said)
        self.found()
        self.made.reader.write(done)
        self.made.reader.answers(done)

    def accepted(self, known):
        self.kept.append(known.kept)

    def found(self):
        """What is found is a beginning of what was accepted, holds all that was released, and keeps what its end keeps."""
        found = self.on_the_disk()
        count = found.events - self.kept[0].events
        assert self.released <= found.events and 0 <= count < len(self.kept), (self.released, found.events, len(self.kept))
        assert repr(self.kept[count]) == repr(found), (self.kept[count], found)
        self.kept = [found]


def random_lives(made, seed):
    """Each with power lost at some call, or at its end."""
    numbers, lives = Numbers(1_123 + seed), 0
    made.say("group pseudo-random lives")
    while lives < 200:
        slots = 2 + numbers.below(4)
        made.say(f"format {slots}")
        if numbers.below(3) == 0:
            image(made, slots, of_lives([STARTED], 1 + numbers.below(2), 4))
        world = World(made, numbers)
        for _ in range(2 + numbers.below(4)):
            world.live()
            lives += 1
    made.say("end")


def make(made, seed):
    numbers = Numbers(2_026 + seed)
    old_images(made)
    cuts(made, numbers)
    cuts_twice(made, numbers)
    faults(made)
    altered(made)
    random_lives(made, seed)


def make_rows(by_hand, seed):
    """Returns the rows by hand with all others, and where a row by hand wants something else than the plain unit answers."""
    rows = RowWriter()
    for line in (by_hand.rstrip("\n") + "\n" + HEADING).rstrip("\n").split("\n"):
        rows.reader.take(line)
    make(rows, seed)
    return "\n".join(rows.reader.written) + "\n", rows.reader.differences
