#!/usr/bin/env python3
"""Images of journals, and what `etcs_lab replay` has to print: lives of the plain unit on the plain disk, in all three
formats, on rings that were overwritten, with damaged blocks, and with each field of a head and of a record altered. The wanted
output is worked out by the plain replay (tests/model/replay.py).

    tests/etcs_lab/replay_rows.py PROGRAM..          run the program on each image, with text and with JSON, and compare
    tests/etcs_lab/replay_rows.py --table            print which altered fields are found, as in tests/etcs_lab/altered_fields.md
"""
import json
import sys
import tempfile
from collections import Counter
from pathlib import Path

HERE = Path(__file__).resolve().parent
TOP = HERE.parents[1]
sys.path[:0] = [str(TOP / "tests"), str(TOP / "tests/model"), str(TOP / "tests/hostile")]
from blocks import SECTOR, SLOT, image_of, patched, with_  # noqa: E402
from compared import Compared, lines_differ, run  # noqa: E402
from disk import Disk  # noqa: E402
from items import Kept  # noqa: E402
from journal import COLD, block_of, event_of, record_of  # noqa: E402
from life import Life  # noqa: E402
from onboard import Unit  # noqa: E402
from plain_images import lived  # noqa: E402
from random_lists import SUPERVISION, Numbers, event  # noqa: E402
from replay import replayed  # noqa: E402

LEAST = 2_300  # so many images at least
RANDOM = 60  # images of pseudo-random lives
STARTED = ("hear 90007F802001506023A0E0190019427F80", "enter-identity A\"b\\c", "choose-level 1", "enter-running-number 4711",
           "enter-train-data 20000 160000 70 0 15", "start", "move 9046 100", "clock 700", "move 1 0", "move 7268 200", "move 1 0")


# ---- images

def life_on(disk, word, inputs, flushes=5):
    """A life of the plain unit; a flush comes after so many inputs each."""
    unit = Unit(disk, word)
    for done, said in enumerate(inputs, 1):
        kind, _, value = said.partition(" ")
        unit.accept(kind, value)
        if done % flushes == 0:
            unit.flush()
    unit.flush()


def blocks_of(lives, form, per=None):
    """The blocks of lives in a format: a power-up has one of its own, and so many inputs each. Where a list is to have power-ups within
    blocks, `per` records stand in each, whatever they are."""
    kept, records, kept_after = Kept(), [], []
    for word, inputs in lives:
        life = Life(kept, word if form == 3 else "unknown")
        said = [(("powerup", COLD.index(word) if form == 3 else 0), None), *((event_of(*part), part) for part in map(parts, inputs))]
        for happened, part in said:
            if part:
                life.take(*part)
            records.append(record_of(life.kept().events - 1, happened, life.moment(), life.now.output, life.place()))
            kept_after.append(life.kept())
        kept = life.kept()
    ends = ends_of(records, per or 5, bool(per))
    return [block_of(number, records[first:end], kept_after[end - 1], form) for number, (first, end) in enumerate(zip([0, *ends], ends), 1)]


def parts(said):
    word, _, value = said.partition(" ")
    return word, value


def ends_of(records, per, within):
    """Where blocks end."""
    ends, count = [], 0
    for at, record in enumerate(records):
        is_alone = not within and record["event"][0] == "powerup"
        if count and (count == per or is_alone):
            ends.append(at)
            count = 0
        count += 1
        if is_alone:
            ends.append(at + 1)
            count = 0
    return [*ends, len(records)] if count else ends


def examples():
    for folder in sorted((TOP / "examples").iterdir()):
        if (folder / "scenario.json").exists():
            disk = Disk.of(image_of(16))
            for name in ("scenario.json", "restart.json"):
                if (folder / name).exists():
                    lived(disk, json.loads((folder / name).read_text()))
            yield f"example {folder.name}", disk.data()


def random_lives():
    numbers = Numbers(4_127)
    for number in range(RANDOM):
        slots = numbers.one_of((2, 3, 4, 16, 64))
        data = image_of(slots)
        if numbers.below(4) == 0:
            data = image_of(slots, blocks_of([("unknown", STARTED)], 1 + numbers.below(2))[-slots:])
        disk = Disk.of(data)
        for _ in range(1 + numbers.below(4)):
            unit = Unit(disk, numbers.one_of(COLD))
            for _ in range(numbers.below(40)):
                unit.accept(*parts(event(numbers, SUPERVISION, unit.known.life())))
                if len(unit.pending) == 8 or numbers.below(5) == 0:
                    unit.flush()
            if numbers.below(2):
                unit.flush()
        yield f"pseudo-random lives {number}", disk.data()


TWO = [("unknown", STARTED), ("not-moved", ("confirm identity", "confirm train-data", "start", "move 100 50", "clock 9"))]


def formats():
    for form in (1, 2, 3):
        yield f"two lives in format {form}", image_of(16, blocks_of(TWO, form))
        yield f"two lives in format {form}, overwritten", image_of(4, blocks_of(TWO, form)[-4:])
        yield f"two lives in format {form}, the last of them alone", image_of(2, blocks_of(TWO, form)[-2:])
        yield f"power-ups within blocks of format {form}", image_of(16, blocks_of(TWO, form, 8))
        yield f"power-ups within blocks of format {form}, overwritten", image_of(2, blocks_of(TWO, form, 8)[-2:])
    for form in (1, 2):
        disk = Disk.of(image_of(16, blocks_of(TWO, form)))
        life_on(disk, "not-moved", STARTED)
        life_on(disk, "not-moved", ("confirm identity", "confirm level", "start"))
        yield f"format {form}, and then lives in format 3", disk.data()
    yield "no block", image_of(4)
    yield "a sector less", image_of(4)[:-SECTOR]
    yield "no image", bytes(SECTOR * 25)
    yield "no sector", b""


def damaged():
    """Each block of a journal can't be read, or its gate is closed; blocks that don't fit together."""
    blocks = blocks_of(TWO, 3)
    whole = image_of(16, blocks)
    for block in blocks:
        at = SECTOR + SLOT * (block["number"] % 16)
        yield f"block {block['number']} can't be read", patched(whole, at + SECTOR + 500, b"\1")
        yield f"the gate of block {block['number']} is closed", patched(whole, at, bytes(SECTOR))
    for number in range(1, len(blocks) + 1):
        later = [with_(block, number=block["number"] - 1) for block in blocks if block["number"] > number]
        yield f"block {number} is taken out", image_of(16, [block for block in blocks if block["number"] < number] + later)
    other = blocks_of([("unknown", STARTED[:4]), TWO[1]], 3)
    yield "another life stands before the last", image_of(16, other[:2] + [with_(block, number=3 + at) for at, block in enumerate(blocks[-3:])])


# ---- altered fields: name, offset and size

RECORD = (("kind of the event", 0, 1), ("mode", 1, 1), ("brake", 2, 1), ("bytes of the payload", 3, 1), ("level", 4, 1), ("zero at 5", 5, 1),
          ("indications", 6, 2), ("number of the event", 8, 8), ("moment", 16, 8), ("estimated place", 24, 8), ("uncertainty", 32, 8),
          ("limit", 40, 4), ("zero at 44", 44, 4), ("payload", 48, None), ("zeros after it", None, None))
HEAD = (("mark", 0, 8), ("number of the block", 8, 8), ("events", 16, 8), ("lives", 24, 4), ("count of records", 28, 1), ("trip outstanding", 29, 1),
        ("driver's identity", 30, 18), ("running number", 48, 8), ("train data", 56, 14), ("level", 70, 2), ("position", 72, 16),
        ("national values", 88, 44), ("countries", 132, 66), ("zeros", 198, 314))


def values(byte):
    """Other values of a byte."""
    return sorted({byte ^ 1, byte ^ 0xFF, (byte + 1) % 256} - {byte})


def fields_of_record(record):
    size = record[3]
    for name, at, count in RECORD:
        if count:
            yield name, range(at, at + count)
    yield "payload", range(48, 48 + size)
    yield "zeros after it", range(48 + size, 256, 41)


def altered():
    """Each byte of each field of the records of a block and of two heads, one at a time. The part, the field, and an image."""
    blocks = blocks_of(TWO, 3)
    whole = image_of(16, blocks)
    yield "", "", "nothing is altered", whole
    for number in (2, 3, 5):
        at = SECTOR + SLOT * number
        records = len(blocks[number - 1]["records"])
        for place in range(records):
            first = at + 2 * SECTOR + 256 * place
            for name, offsets in fields_of_record(whole[first:first + 256]):
                for offset in offsets:
                    for value in values(whole[first + offset]):
                        yield "record", name, f"block {number} record {place} {name} byte {offset} is {value}", patched(whole, first + offset, bytes([value]))
    for number in (3, 5):
        at = SECTOR + SLOT * number + SECTOR
        for name, first, size in HEAD:
            for offset in range(first, first + size, 37 if name == "zeros" else 1):
                for value in values(whole[at + offset]):
                    yield "head", name, f"head of block {number} {name} byte {offset} is {value}", patched(whole, at + offset, bytes([value]))


def finding(text, whole):
    """What says that a byte was altered."""
    for word, said in (("unreadable", "can't be read"), ("record", " event "), ("head", " head of ")):
        if any(said in line and (word == "unreadable" or "differs in" in line) for line in text.splitlines()):
            return word
    return "nothing" if text == whole else "shorter"


COLUMNS = ("unreadable", "record", "head", "shorter", "nothing")


def table():
    """Of each field how often the block can't be read, a record or a head differs, the journal is shorter, and nothing is found."""
    counted, whole = {}, None
    for part, name, _, data in altered():
        text = replayed(data)[1]
        if part:
            counted.setdefault((part, name), Counter())[finding(text, whole)] += 1
        else:
            whole = text
    return [f"| {part}: {name} | " + " | ".join(str(found[word]) for word in COLUMNS) + " |" for (part, name), found in counted.items()]


def compare_page(page):
    """The table of tests/etcs_lab/altered_fields.md is that of these rows."""
    missing = [line for line in table() if line not in page.read_text().splitlines()]
    print("\n".join([f"{page.name} doesn't have: {line}" for line in missing] or [f"{page.name} has the table of altered fields"]))
    return bool(missing)


# ---- running

def cases():
    for made in (examples, random_lives, formats, damaged):
        yield from made()
    for _, _, name, data in altered():
        yield f"altered: {name}", data


def compare(words):
    compared, images = Compared(), 0
    with tempfile.TemporaryDirectory() as folder:
        image = Path(folder) / "image"
        for images, (name, data) in enumerate(cases(), 1):
            image.write_bytes(data)
            wanted, text, lines = replayed(data)
            compared.same(name, run(words, [image])[::2], (text, wanted))
            if not name.startswith("altered") or compared.count % 8 == 0:
                found, _, status = run(words, ["--json", image])
                differs = lines_differ(found, lines)
                compared.unless(status == wanted and not differs, f"{name}, JSON: status {status}, wanted {wanted}\n{differs}")
    compared.unless(images >= LEAST, f"too few images: {LEAST} are wanted")
    return compared.end(f"replay: {images} images, {compared.count} comparisons")


def main(words):
    if words == ["--table"]:
        print("\n".join(table()))
        return 0
    failed = compare(words)
    return int(compare_page(HERE / "altered_fields.md") or failed)


if __name__ == "__main__":
    sys.exit(main(sys.argv[1:]))
