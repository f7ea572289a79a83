#!/usr/bin/env python3
"""Pseudo-random lives on image files, since no contract speaks of a file of the system: after each life the file holds the bytes that the
plain unit leaves on the plain disk, and its calls were right.

Calls are right where the file is synced before anything is read or written; where there is a sync between any write of a gate and a write of
the sectors after a gate, and before anything is printed and at the end; and where they are those of the plain unit: between two syncs exactly
the sectors that the plain disk gets there, with their bytes, and after the last one exactly the lines of the life. A format syncs the file and
its folder before it prints that it is done.

    tests/hostile/lives_in_files.py [LIVES [SEED]]    1,000 lives, seed 2026
"""
import json
import sys
from pathlib import Path

from built import SECTOR, built, recorded_by, room, sectors_of
from blocks import image_of
from compared import Compared
from disk import SECTOR_BYTES, Disk
from items import Kept
from life import Life
from plain_images import kept_on, lived
from random_inputs import Made
from random_lists import Numbers

LIVES = 10  # so many on one image
MOST_SLOTS = 8
FIRST = -1  # in place of a slot


class Story:
    """What a life writes between two syncs, and what it prints, in their order."""

    def __init__(self):
        self.parts, self.written = [], {}

    def write(self, place, data):
        self.written.update(sectors_of(place, data))

    def sync(self):
        if self.written:
            self.parts.append(self.written)
        self.written = {}

    def print(self, text):
        if self.parts and isinstance(self.parts[-1], str):
            self.parts[-1] += text
        elif text:
            self.parts.append(text)


class RecordedDisk(Disk):
    """A disk that records its writes and syncs."""

    story = Story()

    def write(self, first, data):
        super().write(first, data)
        self.story.write(first * SECTOR_BYTES, data)

    def sync(self):
        super().sync()
        self.story.sync()


class Known:
    """The content of an image, as the lives of random scenarios need it."""

    def __init__(self, kept):
        self.kept, self.lives = kept, []

    def begun(self, cold):
        self.lives.append(cold)
        return Life(self.kept, cold)


def part_of(sector):
    """The slot of a sector, and whether it is a gate or lies beyond one."""
    slot, at = divmod(sector - 1, 6)
    return (slot, "a sector after the gate" if at else "the gate") if sector else (FIRST, "the first sector")


def wrong_calls(recorded):
    """What is wrong in the order of the calls."""
    is_synced, parts = False, set()
    for kind, place, body in recorded:
        if kind in "rw" and not is_synced:
            yield "the file isn't synced before it is read or written"
            is_synced = True
        if kind == "w":
            if place % SECTOR or len(body) % SECTOR:
                yield f"{len(body)} bytes at {place} are no whole sectors"
            parts |= {part_of(sector) for sector in sectors_of(place, body)}
            if any(slot == FIRST for slot, _ in parts):
                yield "the first sector is written"
            if len(parts) > 1:
                yield "no sync between the writes of " + " and ".join(f"{name} of slot {slot}" for slot, name in sorted(parts, key=str))
        if kind == "s":
            is_synced, parts = True, set()
        if kind == "o" and parts:
            yield "printed before what was written is synced"
        if kind == "l":
            yield "the length is set"
    if parts:
        yield "not synced at the end"


def wrong_format(recorded):
    """What is wrong in the order of the calls of a format."""
    before = [kind for kind, _, _ in recorded]
    before = before[:before.index("o")] if "o" in before else before
    if "n" not in before:
        yield "the folder isn't synced before it prints"
    if not before or "s" not in before[max(place for place, kind in enumerate(before) if kind in "wl"):]:
        yield "the file isn't synced before it prints"


def formats(image, slots, record, failures):
    """Makes an image, each second time where there was none."""
    if slots % 2:
        image.unlink(missing_ok=True)
    wanted = (0, f"formatted {slots} blocks {SECTOR * (1 + 6 * slots)} bytes\n")
    found, recorded = recorded_by(record, image, ["format", image, slots])
    failures.unless(found == wanted, f"format: {found}, wanted {wanted}")
    wrong = list(wrong_format(recorded))
    failures.unless(not wrong, f"a format of {slots} slots: {', '.join(wrong)}")


def story_of(recorded):
    story = Story()
    for kind, place, body in recorded:
        if kind == "w":
            story.write(place, body)
        if kind == "s":
            story.sync()
        if kind == "o":
            story.print(body.decode())
    return story


def life(name, scenario, disk, folder, record, failures):
    image, path = folder / "image", folder / "scenario"
    path.write_text(json.dumps(scenario))
    disk.story = Story()
    wanted = lived(disk, scenario)
    disk.story.print(wanted[1])
    found, recorded = recorded_by(record, image, ["run", path, image])
    failures.unless(found == wanted, f"{name}: printed {found}\n  wanted {wanted}")
    wrong = list(wrong_calls(recorded))
    failures.unless(not wrong, f"{name}: {', '.join(wrong[:3])}")
    failures.unless(story_of(recorded).parts == disk.story.parts, f"{name}: between two syncs other sectors are written, or a line is printed before the end")
    failures.unless(image.read_bytes() == disk.data(), f"{name}: the file holds other bytes")
    return len(recorded)


def main(words):
    count, seed = [int(word) for word in words] + [1_000, 2026][len(words):]
    failures, numbers, calls = Compared(), Numbers(seed), 0
    with room() as name:
        folder = Path(name)
        record = built("record")
        for number in range(count):
            if number % LIVES == 0:
                slots = 2 + numbers.below(MOST_SLOTS - 1)
                formats(folder / "image", slots, record, failures)
                disk = RecordedDisk.of(image_of(slots))
                failures.unless((folder / "image").read_bytes() == disk.data(), f"life {number}: an image that was made holds other bytes")
            scenario = Made(numbers, Known(kept_on(disk) or Kept())).scenario()
            calls += life(f"life {number}", scenario, disk, folder, record, failures)
    return failures.end(f"lives in files: {count} lives, {calls} calls of the file and lines")


if __name__ == "__main__":
    sys.exit(main(sys.argv[1:]))
