"""Images of each state of a slot, cut off, altered and by chance, each with a name; some with a number of slots that they are read to have.

They are written from docs/reference/format.md (tests/model/blocks.py).
"""
import random
import sys
from pathlib import Path

HERE = Path(__file__).resolve().parent
sys.path.insert(0, str(HERE.parent / "model"))
from blocks import NO_END, SECTOR, SLOT, block, data_of, entry, first_sector, full, gate, head, image_of, patched, record, shut, with_  # noqa: E402


# ---- writing images

def blocks_of(last, form=3, per=2, life=4):
    """The blocks of a journal from 1 to a last number: a power-up every so many blocks, else so many clock events in each."""
    by_number, event, lives, moment = {}, 0, 0, 0
    for number in range(1, last + 1):
        up = number % life == 1
        lives, moment = (lives + 1, 0) if up else (lives, moment)
        records = []
        for _ in range(1 if up else per):
            moment += 0 if up else 250
            what = ("powerup", number % 3 if form == 3 else 0) if up else ("clock", moment)
            records.append(entry(event, what, moment=moment, mode=6, estimate=event, uncertainty=500 + event))
            event += 1
        by_number[number] = block(form, number, event, lives, records)
    return by_number


def ring(slots, by_number, skip=()):
    """The last blocks in their slots."""
    newest = max(by_number)
    return {n % slots: data_of(by_number[n]) for n in by_number if n > newest - slots and n not in skip}


# ---- the cases: a name and an image

def states():
    """Each state of a slot, alone and along with others."""
    by_number = blocks_of(11)
    good = ring(6, by_number)
    yield "whole", image_of(6, good)
    yield "never turned", image_of(16, ring(16, by_number))
    yield "empty", image_of(4, {})
    yield "of version 1", image_of(6, good, 1)
    for number in range(6, 12):
        slot, data = number % 6, good[number % 6]
        changes = {"gate of another": gate(number + 6) + data[SECTOR:], "gate torn": patched(gate(number), 3, b"\xff") + data[SECTOR:],
                   "gate of one byte": b"\1".ljust(SECTOR, b"\0") + data[SECTOR:], "closed": shut(data), "zeros": bytes(SLOT),
                   "unreadable": patched(data, 3 * SECTOR - 1, b"\1"), "foreign": patched(data, SECTOR, b"ETCSHED4"),
                   "number 0": patched(data, SECTOR + 8, bytes(8)), "number beyond": patched(data, SECTOR + 8, (2**40 + 1).to_bytes(8, "big")),
                   "other number": patched(data, SECTOR + 8, (number + 1).to_bytes(8, "big")), "remains": shut(patched(data, SECTOR, b"\0")),
                   "one byte": bytes(SLOT - 1) + b"\1", "open gate alone": gate(number) + bytes(5 * SECTOR),
                   "gate and noise": gate(number) + bytes(range(256)) * 10, "older": data_of(by_number[number - 5]),
                   "a turn older": data_of(block(3, number - 6, number - 3, 1, [entry(number - 4, ("clock", 5), moment=5)])) if number > 6 else bytes(SLOT)}
        for name, changed in changes.items():
            yield f"block {number} {name}", image_of(6, {**good, slot: changed})
    unwritten = shut(data_of(blocks_of(12)[12]))
    yield "the next block unwritten", image_of(6, {**good, 0: unwritten})
    yield "the next block unwritten elsewhere", image_of(6, {**good, 3: unwritten})
    yield "all closed", image_of(6, {slot: shut(data) for slot, data in good.items()})
    yield "all foreign", image_of(6, {slot: gate(1) + b"\7" * 2560 for slot in range(6)})
    yield "all misplaced", image_of(6, {slot: good[(slot + 1) % 6] for slot in range(6)})
    yield "copies in each slot", image_of(6, {slot: good[3] for slot in range(6)})
    yield "the greatest number", image_of(2, {0: data_of(block(3, 2**40, 2**41, 2**32 - 1, [entry(2**41 - 1, ("clock", 1), moment=1)]))})
    for number in (1, 2, 7):
        yield f"block {number} unwritten in an empty ring", image_of(4, {number % 4: shut(data_of(block(3, number, number, 1, [entry(number - 1, ("powerup", 0))])))})


def formats():
    """Formats side by side, each alone, and what is kept."""
    for form in (1, 2, 3):
        by_number = blocks_of(9, form)
        yield f"format {form}", image_of(5, ring(5, by_number))
        yield f"format {form} full", image_of(4, {1: data_of(full(form, number=1, events=7) if form < 3 else full(form))})
        yield f"format {form} kept", image_of(5, {0: data_of(with_(full(form), identity=b'A"\\z ~', running=99_999_999, trip=0))})
        yield f"format {form} nothing kept", image_of(5, {0: data_of(with_(full(form), identity=None, running=None, train=None, level=(0, 0), position=(0, 0, 0, 0)))})
        yield f"format {form} level 0", image_of(5, {0: data_of(with_(full(form), level=(2, 0), position=(2, 1_023, 16_383, -(2**41))))})
        values = [1_000, 2_000, 3_000, 4_000, 5_000, 600, 7_000, 8_000, 900, 10_000, 1_100]
        yield f"format {form} values", image_of(5, {0: data_of(with_(full(form), values=values, countries=[]))})
        yield f"format {form} values without end", image_of(5, {0: data_of(with_(full(form), v_override_time=NO_END, countries=list(range(992, 1_024))))})
        yield f"format {form} any distance", image_of(5, {0: data_of(with_(full(form), v_override_time=0, v_staff_responsible_distance=32_766_000, countries=[0]))})
    mixed = {n: b for form in (1, 2, 3) for n, b in blocks_of(9, form).items() if n % 3 == form - 1}
    yield "formats side by side", image_of(5, ring(5, mixed))
    for size in (8, 16):
        records = [entry(40 + k, ("clock", 10 * k), moment=10 * k) for k in range(size)]
        yield f"{size} records", image_of(4, {1: data_of(block(1, 5, 40 + size, 3, records))})


def lost():
    """Blocks that are lost, at each place and several at once; and neighbours that contradict."""
    by_number = blocks_of(23)
    for slots in (5, 8, 24):
        newest = range(max(1, 24 - slots), 24)
        for number in newest:
            yield f"{slots} slots without {number}", image_of(slots, ring(slots, by_number, (number,)))
        for seed in range(12):
            gone = random.Random(seed).sample(newest, 3)
            yield f"{slots} slots without {gone}", image_of(slots, ring(slots, by_number, gone))
        yield f"{slots} slots with the newest alone", image_of(slots, ring(slots, by_number, newest[:-1]))
    good = {n: by_number[n] for n in range(12, 24)}
    for number in range(13, 24):
        b = by_number[number]
        more = len(b["records"])
        moved = [{**r, "number": r["number"] + 1} for r in b["records"]]
        fewer = [{**r, "number": r["number"] - 1} for r in b["records"]]
        for name, changed in (("events on", {**b, "events": b["events"] + 1, "records": moved}),
                              ("events back", {**b, "events": b["events"] - 1, "records": fewer}),
                              ("lives back", {**b, "lives": b["lives"] - 1 if number % 4 == 1 else 0}), ("lives on", {**b, "lives": b["lives"] + 7}),
                              ("lives on by one", {**b, "lives": b["lives"] + 1}), ("no life", {**b, "lives": 0}),
                              ("lives without end", {**b, "lives": NO_END}),
                              ("a moment back", {**b, "records": [{**r, "moment": max(0, r["moment"] - 300)} for r in b["records"]]}),
                              ("a moment back within", {**b, "records": [{**r, "moment": 100 * (more - k)} for k, r in enumerate(b["records"])]})):
            yield f"block {number}, {name}", image_of(12, {n % 12: data_of(changed if n == number else c) for n, c in good.items()})
        yield f"events back after a gap at {number}", image_of(12, {n % 12: data_of({**c, "events": c["events"] - 3, "records": [{**r, "number": r["number"] - 3} for r in c["records"]]} if n > number else c)
                                                                     for n, c in good.items() if n != number})


def lives():
    """Lives at each limit: of the first readable block, of a neighbour and after a gap; and at the greatest number."""
    def alone(count, events, number, others, kinds):
        records = [entry(events - len(kinds) + k, (name, 0)) for k, name in enumerate(kinds)]
        return f"{count} lives, events up to {events}, {' '.join(kinds)}", image_of(4, {number % 4: data_of(block(3, number, events, count, records)), **others})

    for kinds in (("powerup",), ("clock",), ("powerup", "clock", "powerup")):
        for before_it in (0, 1, 3):
            events = before_it + len(kinds)
            for count in (0, 1, 2, 3, 4, 5, 6):
                yield alone(count, events, 1, {}, kinds)
    for first in (1, 5, NO_END - 1, NO_END):
        one = {1: data_of(block(3, 1, 8, first, [entry(7, ("clock", 0))]))}
        for number, events in ((2, 9), (2, 10), (3, 11)):
            for kind in ("powerup", "clock"):
                for count in range(first - 1, first + 5):
                    if count <= NO_END:
                        yield alone(count, events, number, one, (kind,))


def given():
    """Images whose first sector is damaged, or has another number of slots, read as images of a given number of slots."""
    good = image_of(6, ring(6, blocks_of(11)))
    for at in (0, 7, 8, 11, 12, 13, 14, 15, 16, 300, 511):
        for bit in (1, 4, 128):
            yield f"bit {bit} of byte {at}", patched(good, at, bytes([good[at] ^ bit])), 6
    yield "a first sector of zeros", bytes(SECTOR) + good[SECTOR:], 6
    yield "a first sector of zeros, with a block less", bytes(SECTOR) + image_of(6, ring(6, blocks_of(11), (9,)))[SECTOR:], 6
    for slots in (2, 5, 6, 7, 12, 1_048_576):
        yield f"read as {slots} slots", good, slots
        yield f"read as {slots} slots, without a first sector", bytes(SECTOR) + good[SECTOR:], slots
    for size in (0, 511, 512, 513, 4_000, len(good) - SLOT, len(good) - 1):
        yield f"cut off at {size}, read as 6 slots", good[:size], 6
    yield "with more, read as 6 slots", good + bytes(SLOT), 6


def cuts():
    """What a cut leaves within a commit: the gate being closed, each choice of the sectors after it, the gate being opened."""
    for slots, newest in ((4, 2), (4, 7)):
        by_number = blocks_of(newest + 1)
        before = ring(slots, {n: by_number[n] for n in range(1, newest + 1)})
        slot = (newest + 1) % slots
        old, new = before.get(slot, bytes(SLOT)), data_of(by_number[newest + 1])
        for torn in (bytes(SECTOR), b"\0" * 8 + old[8:SECTOR], old[:8] + bytes(504), bytes(511) + b"\7"):
            yield f"{slots} slots at {newest}, the gate closed as {torn[:16].hex()}", image_of(slots, {**before, slot: torn + old[SECTOR:]})
        for choice in range(32):
            body = b"".join((new if choice >> k & 1 else old)[SECTOR * (k + 1):SECTOR * (k + 2)] for k in range(5))
            yield f"{slots} slots at {newest}, sectors {choice:05b} written", image_of(slots, {**before, slot: bytes(SECTOR) + body})
        for k in range(1, 17):
            torn = new[:k].ljust(SECTOR, b"\0")
            yield f"{slots} slots at {newest}, {k} bytes of the gate", image_of(slots, {**before, slot: torn + new[SECTOR:]})
        yield f"{slots} slots at {newest}, done", image_of(slots, {**before, slot: new})


ACTIONS = [b"\1A", b"\2" + (5).to_bytes(4, "big"), b"\3" + bytes.fromhex("00004e20000271000046000a05"), b"\4\1", b"\5\3", b"\6", b"\x0a\4"]


def before(form):
    """The blocks of a ring of five slots before the one of full, so that nothing is found where that is as it was written."""
    kinds = {1: ("powerup", "clock"), 2: ("powerup", "clock"), 3: ("powerup",), 4: ("clock",)}
    events = lives = 0
    for number, names in kinds.items():
        records = [entry(events + k, (name, 0)) for k, name in enumerate(names)]
        events, lives = events + len(records), lives + names.count("powerup")
        yield number, data_of(block(form, number, events, lives, records))


def altered():
    """Each field of head and record at other values, most of them beyond its limits, and each byte that is to be zero."""
    for form in (1, 2, 3):
        others = dict(before(form))
        events = [("clock", 1_000), ("odometer", -500, 9_000), ("telegram", b"\x90\x01\x02"), ("powerup", 1)] + [("driver", a) for a in ACTIONS]
        for event in events:
            b = full(form, event, lives=4 if event[0] == "powerup" else 3)
            data = data_of(b)
            at, places = SECTOR, []
            for name, offset, width in head(b).offsets():
                places.append((at + offset, width))
            at += SECTOR
            for name, offset, width in record(b["records"][0], form).offsets():
                places.append((at + offset, width))
            places += [(at + (128 if form == 1 else 256), 1), (SLOT - 1, 1), (at + 48, 1), (at + 49, 4), (at + 24, 1)]
            head_too = event[0] == "clock"
            for place, width in places:
                if not head_too and place < 2 * SECTOR:
                    continue
                for value in (b"\xff" * width, b"\0" * width, (b"\0" * (width - 1)) + b"\1"):
                    changed = patched(data, place, value[:SLOT - place])
                    if changed != data:
                        yield f"format {form} {event[0]} byte {place} as {value[:8].hex()}", image_of(5, {**others, 0: changed})


def sizes():
    """Files of other sizes than the image's."""
    good = image_of(6, ring(6, blocks_of(11)))
    for size in (0, 1, 511, 512, 513, 1_024, 3_583, 3_584, 4_096, 6_656, 6_657, 12_800, len(good) - 3_072, len(good) - 512, len(good) - 1):
        yield f"cut off at {size}", good[:size]
    for more in (1, 511, 512, 3_071, 3_072, 10_000):
        yield f"with {more} bytes more", good + bytes(more)
        yield f"with {more} bytes of noise more", good + b"\xa5" * more
    for at in (0, 7, 8, 11, 12, 15, 16, 511):
        yield f"first sector byte {at}", patched(good, at, b"\xff")
    for slots in (0, 1, 2, 5, 7, 1_048_576, 1_048_577):
        yield f"a first sector with {slots} slots", first_sector(slots) + good[SECTOR:]
    for version in (0, 1, 3):
        yield f"version {version}", first_sector(6, version) + good[SECTOR:]


def noise():
    """Single bytes altered anywhere, by chance."""
    good = image_of(4, ring(4, blocks_of(6)))
    for seed in range(150):
        chance = random.Random(seed)
        yield f"noise {seed}", patched(good, chance.randrange(len(good)), bytes([chance.randrange(256)]))


GROUPS = (states, formats, lost, lives, cuts, altered, sizes, noise, given)
