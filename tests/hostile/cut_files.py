#!/usr/bin/env python3
"""Cuts the power of a run of the program over an image file: records its writes and syncs, makes the images that a cut before each of
them, or within it, may leave (each sector since the last sync old, new, 512 bytes of 0xFF, or torn), and takes each of them up again.

What each image must list is known without reading its blocks: the plain program says what each block holds, the recorded calls which block
was synced after each gate, and the image which gates are open. The listing is just that, it has all that was released before the cut, and
the next life and the listing after it are those of the plain program after the same blocks.
"""
import json
import random
import sys
from pathlib import Path

from built import ENTRIES, FULL_SUPERVISION, SECTOR, STAFF_RESPONSIBLE, Releases, built, formatted, run_program, recorded_by, room, sectors_of
from compared import Compared
from program import Image, listed

NEXT = {"groups": [], "steps": [{"driver": [5, 1]}]}
MIXED = 3  # so many images along with those of one choice for all open sectors


def images(settled, written, numbers):
    """What a cut may leave: for each sector that was written since the last sync the old bytes, any that were handed in, others, or some of each."""
    def made(choose):
        image = bytearray(settled)
        for sector, handed in written.items():
            image[sector * SECTOR:(sector + 1) * SECTOR] = choose(image[sector * SECTOR:(sector + 1) * SECTOR], handed)
        return bytes(image)

    def torn(old, handed):
        at = numbers.randrange(1, SECTOR)
        return handed[-1][:at] + old[at:]

    ways = (lambda old, handed: old, lambda old, handed: handed[-1], lambda old, handed: b"\xff" * SECTOR, torn)
    yield from map(made, ways)
    if len(written) > 1:
        for _ in range(MIXED):
            yield made(lambda old, handed: numbers.choice(ways)(old, handed))


class Ring:
    """The number of the block whose sectors were synced last in each slot, by the calls of a run."""

    def __init__(self, slots, newest):
        self.slots, self.next = slots, newest + 1
        self.held = {number % slots: number for number in range(max(1, newest - slots + 1), newest + 1)}

    def sync(self, written):
        """A sync of what lies beyond a gate: a block is there."""
        if any((sector - 1) % 6 for sector in written):
            self.held[self.next % self.slots] = self.next
            self.next += 1

    def run_in(self, image):
        """The first and the last number of the blocks that an image has: the longest unbroken run up to the greatest. A gate that isn't zeros is open."""
        gates = {slot: (1 + 6 * slot) * SECTOR for slot in self.held}
        numbers = {number for slot, number in self.held.items() if any(image[gates[slot]:gates[slot] + SECTOR])}
        newest = max(numbers, default=0)
        first = newest + 1
        while first - 1 in numbers:
            first -= 1
        return first, newest


def cuts(before, recorded, text, ring, numbers):
    """Each image that a cut may leave, with the numbers of its first and its last block, and with what was released by then."""
    settled, written, releases = bytearray(before), {}, Releases(text)
    seen = set()
    for kind, place, body in [*recorded, ("end", 0, b"")]:
        if kind == "w":
            for sector, data in sectors_of(place, body).items():
                written.setdefault(sector, []).append(data)
        released = releases.text()
        for image in images(settled, written, numbers):
            if (image, released) not in seen:
                seen.add((image, released))
                yield image, ring.run_in(image), released
        releases.note(kind, body)
        if kind == "s":
            ring.sync(written)
            for sector, handed in written.items():
                settled[sector * SECTOR:(sector + 1) * SECTOR] = handed[-1]
            written = {}


def up_to(plain, newest):
    """What the plain program knows of the blocks up to this number."""
    image = Image(plain.slots)
    image.blocks = plain.blocks[:newest]
    left = image.events = sum(map(len, image.blocks))
    for cold, taken in plain.lives:
        if left > 0:
            image.lives.append((cold, taken[:left - 1]))
            left -= 1 + len(taken)
    return image


def text_of(lines):
    return "".join(line + "\n" for line in lines)


def cut_run(name, scenario, slots, lives, folder, record, failures, numbers):
    image, plain = folder / "image", Image(slots)
    (folder / "scenario").write_text(json.dumps(scenario))
    (folder / "next").write_text(json.dumps(NEXT))
    formatted(image, slots)
    for _ in range(lives):
        run_program(["run", folder / "scenario", image])
        plain.run(scenario)
    before, ring = image.read_bytes(), Ring(slots, len(plain.blocks))
    (_, text), recorded = recorded_by(record, image, ["run", folder / "scenario", image])
    whole, undisturbed = image.read_bytes(), text_of(plain.run(scenario)[0])
    count, settled = 0, None
    for data, (first, newest), released in cuts(before, recorded, text, ring, numbers):
        count, settled, said = count + 1, data, f"{name}, cut {count + 1}"
        image.write_bytes(data)
        listing = text_of(listed(number, record) for number in range(first, newest + 1) for record in plain.blocks[number - 1])
        failures.unless(run_program(["journal", image]) == (0, listing), f"{said}: the listing isn't that of the blocks {first} to {newest}")
        found = up_to(plain, newest)
        last = released.splitlines()[-1:]
        is_there = undisturbed.startswith(released) and (not last or int(last[0].split()[1]) < found.events)
        failures.unless(is_there, f"{said}: what was released isn't in the blocks up to {newest}")
        lines, status = found.run(NEXT)
        answer = run_program(["run", folder / "next", image])
        failures.unless(answer == (status, text_of(lines)), f"{said}: the next life answers {answer} after block {newest}")
        failures.unless(all(" mode SB " in line and " brake emergency " in line for line in lines), f"{said}: {lines}")
        failures.unless(run_program(["journal", image]) == (0, text_of(found.listing())), f"{said}: the listing after the next life differs")
    failures.unless(settled == whole and ring.next == len(plain.blocks) + 1, f"{name}: the recorded calls don't make the file as it is")
    print(f"{name}: {count} images")


def main():
    failures, numbers = Compared(), random.Random(2026)
    with room() as name:
        folder = Path(name)
        record = built("record")
        flushing = {"groups": [], "steps": [step for one in [{"clock": 1000}, *ENTRIES] for step in (one, {"flush": True})]}
        cut_run("a first life", STAFF_RESPONSIBLE, 8, 0, folder, record, failures, numbers)
        cut_run("a second life, over used slots", FULL_SUPERVISION, 4, 3, folder, record, failures, numbers)
        cut_run("one event a block, two slots", {"groups": [], "steps": [{"clock": 5}]}, 2, 2, folder, record, failures, numbers)
        cut_run("a flush after each event", flushing, 16, 1, folder, record, failures, numbers)
    return failures.end("cuts of a file")


if __name__ == "__main__":
    sys.exit(main())
