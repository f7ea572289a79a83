#!/usr/bin/env python3
"""Compares images read from C (listing.c) with `etcs journal`, line by line: the given ones, and those of all examples. And altered ones
of all three formats, compared with the plain reader of docs/reference/format.md (tests/etcs_lab/examined.py): which records can be read, what each slot
holds, and what each head keeps.

    tests/c_unit/images.py LISTING.. IMAGE..    LISTING are programs whose names begin with "listing"; $ETCS names the program
"""
import os
import random
import subprocess
import sys
import tempfile
from pathlib import Path

TOP = Path(__file__).resolve().parents[2]
sys.path[:0] = [str(TOP / "tests" / "model"), str(TOP / "tests" / "etcs_lab")]

import blocks  # noqa: E402
import examined  # noqa: E402

ETCS = os.environ.get("ETCS", str(TOP / "crates" / "etcs" / "out" / "etcs"))
REFUSALS = {"refused 31 NotFormatted": "refused IMAGE_NOT_FORMATTED", "refused 32 Damaged": "refused IMAGE_DAMAGED"}
DAMAGED = 400
LEAST = 10


def lines_of(*words):
    """What a program prints."""
    return subprocess.run([str(word) for word in words], capture_output=True, text=True, timeout=100).stdout.splitlines()


def examples(folder):
    """The images of all examples."""
    for scenario in sorted((TOP / "examples").glob("*/scenario.json")):
        image = Path(folder) / scenario.parent.name
        subprocess.run([ETCS, "format", image, "16"], check=True, capture_output=True)
        for _ in range(3):
            subprocess.run([ETCS, "run", scenario, image], capture_output=True)
        yield image


def whole(programs, image):
    """How many listings of a sound image differ from the program's."""
    wanted, found = lines_of(ETCS, "journal", image), 0
    wanted = [REFUSALS.get(line, line) for line in wanted]
    for program in programs:
        for words in ((), ("-b",)):
            if lines_of(program, image, *words) != wanted:
                found += 1
                print(f"{program} {image} {' '.join(words)}: other lines than etcs journal")
    return found


def readable(data):
    """The lines of a journal up to the first block that can't be read, and the refusal there, as listing.c prints them: it reads the newest
    block where it comes to it."""
    lines = []
    try:
        for slot in examined.retained(data):
            lines += examined.lines_in(slot)
    except examined.Fault:
        return lines + ["refused IMAGE_DAMAGED"]
    except examined.Refused as refused:
        return [REFUSALS[f"refused {refused}"]]
    return lines


STATES = {word: number for number, word in enumerate(("empty", "block", "unreadable", "misplaced", "foreign", "unwritten", "replaced", "remains"))}


def slots_of(data):
    """What the image has, and what each slot holds, as listing.c prints it."""
    sectors, slots = len(data) // examined.SECTOR, examined.slots_in(data)
    if slots is None:
        return ["refused IMAGE_NOT_FORMATTED"]
    whole = min(slots, (sectors - 1) // 6)
    parts = examined.parts_of(data, whole)
    newest = max(examined.valid_in(parts, slots), default=0)
    lines = [f"{sectors} {slots} {whole} {newest}"]
    for slot, part in enumerate(parts):
        gate, body = part[:examined.SECTOR], part[examined.SECTOR:]
        word, number, _, _ = examined.state_of(slots, slot, newest, gate, body)
        fault = examined.spelled(body)[1]
        sound = word == "empty" or word == "block" and gate == examined.gate_of(number)
        lines.append(f"{STATES[word]} {number or 0} {int(sound)}" + (f" {fault[1]} {fault[2]}" if fault else ""))
    return lines


def heads_of(data):
    """What the heads say about the blocks that slots hold, as listing.c prints it: of the last numbers up to the newest."""
    slots = examined.slots_in(data)
    if slots is None:
        return ["refused IMAGE_NOT_FORMATTED"]
    found = {}
    for slot, part in enumerate(examined.parts_of(data, min(slots, (len(data) // examined.SECTOR - 1) // 6))):
        block = examined.spelled(part[examined.SECTOR:])[0]
        if any(part[:examined.SECTOR]) and block and block["number"] % slots == slot:
            found[block["number"]] = block
    newest = int(slots_of(data)[0].split()[3])
    return [head_line(found[number]) for number in sorted(found) if number >= newest - slots]


def head_line(block):
    kept = block["kept"]
    running = "" if kept["running"] is None else f" running {kept['running']}"
    train = "" if kept["train"] is None else " train " + " ".join(map(str, kept["train"]))
    level, place = kept["level"], kept["position"]
    values = " ".join("-" if value is None else str(value) for value in kept["values"])
    return (f"block {block['number']} format {block['format']} first {block['first']} events {block['events']} lives {block['lives']} "
            f"records {len(block['records'])} trip {kept['trip']} identity {(kept['identity'] or b'').decode()}{running}{train} "
            f"level {level[0]} {level[1]} position {' '.join(map(str, place))} values {values} countries" + "".join(f" {c}" for c in kept["countries"]))


def old_formats(folder):
    """An image with blocks of formats 1, 2 and 3, as older programs and this one leave them."""
    made, event, path = [], 0, Path(folder) / "formats"
    for number, form in ((1, 1), (2, 1), (3, 2), (4, 3)):
        entries = []
        for value in range(8):
            entries.append(blocks.entry(event, ("clock", 1_000 * value) if value else ("odometer", 5 * number, 300), moment=1_000 * value,
                                        estimate=5 * number, mode=2, level=1, brake=1, ind=9, limit=20_000))
            event += 1
        changes = dict(trip=1, identity=b"A B", running=5, train=blocks.TRAIN, level=(1 if form == 3 else 2, 1),
                       position=(1 if form == 3 else 2, 1, 2, -16_316), countries=[1, 2, 1_023])
        made.append(blocks.block(form, number, event, number, entries, **changes))
    path.write_bytes(blocks.image_of(5, made))
    return path


def damaged(data, seed):
    """A copy of an image with some bits altered, or cut off, or with a slot put into another's place, or with a gate closed."""
    at, copy = random.Random(seed), bytearray(data)
    size, slots = len(data), (len(data) // 512 - 1) // 6
    for _ in range(at.randrange(1, 4)):
        slot = 512 * (1 + 6 * at.randrange(slots))
        kind = at.randrange(6)
        if kind == 0:
            other = 512 * (1 + 6 * at.randrange(slots))
            copy[slot:slot + 3_072] = data[other:other + 3_072]
        elif kind == 1:
            copy[slot:slot + 512] = bytes(512)
        elif kind == 2:
            copy[at.randrange(size)] ^= 1 << at.randrange(8)
        else:
            # in gate, head or the first record, where fields are
            copy[slot + at.choice((at.randrange(32), 512 + at.randrange(200), 1_024 + at.randrange(64)))] ^= 1 << at.randrange(8)
    if at.randrange(10) == 0:
        copy = copy[:at.randrange(size)]
    return bytes(copy)


def main(words):
    programs = [word for word in words if Path(word).name.startswith("listing")]
    images = [Path(word) for word in words if word not in programs]
    tried = found = 0
    with tempfile.TemporaryDirectory() as folder:
        images += examples(folder)
        for image in images:
            found += whole(programs, image)
            tried += 1
        altered, refused, seen = Path(folder) / "altered", 0, set()
        sources = [image.read_bytes() for image in (old_formats(folder), *images)]
        for seed in range(DAMAGED):
            data = sources[seed % len(sources)] if seed < len(sources) else damaged(sources[seed % len(sources)], seed)
            altered.write_bytes(data)
            wanted, slots = readable(data), slots_of(data)
            refused += wanted[-1:] != [] and wanted[-1].startswith("refused")
            seen |= {line.split()[0] for line in slots[1:]}
            for program in programs[:1] if seed % 10 else programs:
                for expected, words in ((wanted, ()), (slots, ("-s",)), (heads_of(data), ("-k",))):
                    if lines_of(program, altered, *words) != expected:
                        found += 1
                        print(f"image {seed % len(sources)}, altered by {seed}: other lines from {program} {' '.join(words)}")
    print(f"images read from C: {tried}, and {DAMAGED} altered ones with slots of {len(seen)} states, {refused} are refused; {found} differences")
    return found > 0 or tried < LEAST or not programs or refused < DAMAGED // 20 or len(seen) < len(STATES)


if __name__ == "__main__":
    sys.exit(main(sys.argv[1:]))
