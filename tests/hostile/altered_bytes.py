#!/usr/bin/env python3
"""Alters the bytes of an image file, one at a time: of its first sector, of the head of the newest block, and of gates. Each listing, each
next life and the bytes that this life leaves are compared with what the plain unit answers over the same bytes. Where an open gate was
altered they are compared with those of the unaltered image, since the content of an open gate has no meaning.
"""
import json
import sys
from pathlib import Path

from built import SECTOR, SLOT, STAFF_RESPONSIBLE, formatted, run_program, room
from compared import Compared
from disk import Disk
from plain_images import listed, lived

SLOTS = 4
NEXT = {"groups": [], "steps": [{"clock": 5}]}


def values(byte):
    """Other values of a byte."""
    return sorted({byte ^ 0xFF, byte ^ 1, (byte + 1) % 256, 0, 1, 2} - {byte})


def wanted_by_plain(data):
    disk = Disk.of(data)
    return listed(data), lived(disk, NEXT), disk.data() + data[len(disk.held) * SECTOR:]


class Altered:
    """An image file, and the answers over other bytes in it."""

    def __init__(self, folder, failures):
        self.image, self.next, self.failures = folder / "image", folder / "next", failures
        scenario = folder / "scenario"
        scenario.write_text(json.dumps(STAFF_RESPONSIBLE))
        self.next.write_text(json.dumps(NEXT))
        formatted(self.image, SLOTS)
        for _ in range(2):
            run_program(["run", scenario, self.image])
        self.whole = self.image.read_bytes()

    def with_byte(self, at, value):
        return self.whole[:at] + bytes([value]) + self.whole[at + 1:]

    def answers(self, data):
        """What a listing answers, what the next life answers, and the bytes after it."""
        self.image.write_bytes(data)
        return run_program(["journal", self.image]), run_program(["run", self.next, self.image]), self.image.read_bytes()

    def compare(self, data, wanted, said):
        for found, one, name in zip(self.answers(data), wanted, ("the listing", "the next life", "the bytes after it")):
            self.failures.unless(found == one, f"{said}: {name} {'' if name.endswith('it') else found}")

    def compare_with_plain(self, data, said):
        self.compare(data, wanted_by_plain(data), said)


def main():
    failures = Compared()
    with room() as name:
        altered = Altered(Path(name), failures)
        whole = altered.whole
        undisturbed = listing, life, image_after = altered.answers(whole)
        altered.compare_with_plain(whole, "nothing is altered")

        for at in range(SECTOR):
            for value in values(whole[at]):
                altered.compare_with_plain(altered.with_byte(at, value), f"byte {at} of the first sector is {value}")
        altered.compare_with_plain(whole[:-SECTOR], "one sector less")
        altered.compare_with_plain(whole + bytes(SECTOR), "one sector more")
        altered.compare_with_plain(whole + b"\xff" * (SECTOR - 1), "bytes after the last sector")

        # Each life makes a block of its power-up and two of its nine events, so the sixth block is the newest; it stands in slot 2.
        newest = int(listing[1].splitlines()[-1].split()[1])
        gate = SECTOR + SLOT * (newest % SLOTS)
        for at in range(SECTOR):
            for value in values(whole[gate + SECTOR + at]):
                altered.compare_with_plain(altered.with_byte(gate + SECTOR + at, value), f"byte {at} of the head is {value}")

        # What an open gate holds is never compared. The next life closes the gate of the oldest block, whatever it holds.
        oldest = SECTOR + SLOT * ((newest + 1) % SLOTS)
        for at in range(SECTOR):
            value = whole[gate + at] ^ 0x55
            kept = image_after[:gate + at] + bytes([value]) + image_after[gate + at + 1:]
            altered.compare(altered.with_byte(gate + at, value), (listing, life, kept), f"byte {at} of an open gate is {value}")
            altered.compare(altered.with_byte(oldest + at, whole[oldest + at] ^ 0x55), undisturbed, f"byte {at} of the oldest gate is altered")
        closed = whole[:gate] + bytes(SECTOR) + whole[gate + SECTOR:]
        altered.compare_with_plain(closed, "a gate is closed")
        for at in range(SECTOR):
            opened = closed[:gate + at] + b"\x01" + closed[gate + at + 1:]
            kept = image_after[:gate] + opened[gate:gate + SECTOR] + image_after[gate + SECTOR:]
            altered.compare(opened, (listing, life, kept), f"a gate has 1 in byte {at} alone")
    return failures.end(f"altered bytes: {failures.count} comparisons")


if __name__ == "__main__":
    sys.exit(main())
