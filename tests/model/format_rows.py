#!/usr/bin/env python3
"""Whether docs/reference/format.md says enough: images are listed by the reader that was written from it (tests/etcs_lab/examined.py).

    tests/model/format_rows.py    the plain unit makes the image of each case of the program's rows and examples that the plain program
                                  works out; the lines are compared with those that the plain program prints. Then each slot of the
                                  image is closed or damaged, and the lines are compared with those of the blocks that the plain
                                  journal finds
"""
import json
import shlex
import sys
from pathlib import Path

sys.path.append(str(Path(__file__).resolve().parents[1] / "etcs_lab"))
from blocks import image_of, patched
from disk import SECTOR_BYTES, Disk
from examined import listing
from journal import Journal, Refused, read_block
from onboard import MOST_PENDING, Unit
from program import WORDS, Image, event_of, inputs_of
from program_rows import TOP, read, text_of

GATE, LAST_OF_HEAD = 0, 2 * SECTOR_BYTES - 1
# How many images are compared at least, and how many damaged ones.
LEAST = (40, 1_200)


def live(disk, scenario):
    """One life of the plain unit on a disk, up to its first refusal."""
    try:
        unit = Unit(disk, WORDS[scenario.get("cold", 0)])
        for asked in inputs_of(scenario):
            if asked is None or len(unit.pending) == MOST_PENDING:
                unit.flush()
            if asked is not None:
                _, word, value, _ = event_of(*asked)
                unit.accept(word, value)
        unit.flush()
    except Refused:
        pass


def listings(case):
    """Of each listing of a case the number of its line, the bytes of the image, and the lines of the plain program."""
    disks, images, texts = {}, {}, {path.name: path.read_text() for path in case.path.parent.glob("*.json")}
    for line in case.lines:
        if line.word == "file":
            name, _, text = line.rest.partition(" ")
            texts[name] = text_of(text)
        if line.word != "$":
            continue
        word, *words = shlex.split(line.rest)
        if word == "format":
            slots = int(words[1])
            disks[words[0]] = Disk.of(image_of(slots))
            images[words[0]] = Image(slots)
        elif word == "run":
            scenario = json.loads(texts[words[0]])
            images[words[1]].run(scenario)
            live(disks[words[1]], scenario)
        elif word == "journal":
            yield line.number, disks[words[0]].data(), images[words[0]].listing()


def damaged(image):
    """The image with each slot closed, with each head unreadable, with another first sector, and with a sector less or more."""
    for slot in range(SECTOR_BYTES, len(image), 6 * SECTOR_BYTES):
        yield patched(image, slot + GATE, bytes(SECTOR_BYTES))
        yield patched(image, slot + LAST_OF_HEAD, b"\1")
    yield from (b"X" + image[1:], image[:-SECTOR_BYTES], image + bytes(SECTOR_BYTES), image + b"\1", image[:-1], b"")


def found(image, lines):
    """Those of the lines whose blocks the plain journal finds, and the status."""
    disk = Disk.of(image)
    try:
        journal = Journal(disk)
    except Refused as refused:
        return [f"refused {29 + int(str(refused)[0])} {str(refused)[2:]}"], 1
    listed = []
    for number in range(journal.first, journal.newest + 1):
        if read_block(journal.load(disk, number)) is None:
            return listed + ["refused 32 Damaged"], 1
        listed += [line for line in lines if line.startswith(f"block {number} ")]
    return listed, 0


def main():
    paths = sorted([*TOP.glob("tests/etcs/*.row"), *TOP.glob("examples/*/*.row")])
    cases = [case for path in paths for case in read(path) if not case.by_hand]
    whole, altered, differences = 0, 0, 0
    for case in cases:
        for number, image, lines in listings(case):
            wanted = [(image, (lines, 0))] + [(other, found(other, lines)) for other in damaged(image)]
            differ = sum(listing(bytes_of) != answer for bytes_of, answer in wanted)
            whole, altered, differences = whole + 1, altered + len(wanted) - 1, differences + differ
            if differ:
                print(f"{case.path.name}, case {case.name}, line {number}: {differ} images are listed otherwise by the reader of the format")
    print(f"{whole} images and {altered} damaged ones listed by the reader of the format, {differences} differences")
    if (whole, altered) < LEAST or altered < LEAST[1]:
        print(f"there are to be {LEAST[0]} images and {LEAST[1]} damaged ones")
        return 1
    return 1 if differences else 0


if __name__ == "__main__":
    sys.exit(main())
