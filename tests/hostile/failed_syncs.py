#!/usr/bin/env python3
"""One sync of a life fails, lives go on, and then power is lost at each later call: no event that was released is lost, and each image is
listed.

A life is recorded with one of its syncs failing, each in turn, and two more lives after it. What a failed sync leaves is modelled in two ways:

- as `crates/disk/README.md` has it: nothing is settled, and the next sync that succeeds settles it;
- as Linux does: what was written may have reached the medium or not, or in part; later syncs write it no more; and reads find what was written
  until the system drops its copies of the pages. What is read then is what the medium has (record.c hands it out).

After the failed sync the image is settled, as docs/reference/refusals.md asks for (tools/settle), before it is opened again; then a listing is to list
what a loss of power would leave. So that this test can fail, the same is tried with a Linux whose pages nobody drops: there some event has to
be lost.
"""
import json
import random
import sys
from copy import deepcopy
from pathlib import Path

from built import ENTRIES, SECTOR, Releases, built, formatted, run_program, recorded_by, room, sectors_of, settled
from compared import Compared
from cut_files import images

CUTS = 2  # so many images at a call, and after the failed sync
SHAPES = (32, 1), (4, 3)  # slots, and lives before the one whose sync fails
BATCHES = {"groups": [], "steps": [ENTRIES[0], {"flush": True}, {"clock": 7}]}
LEAST = {"the model": (15, 500), "Linux": (15, 700), "Linux that drops nothing": (3, 20)}  # syncs and cuts


class Medium:
    """What a file gives, and what a loss of power leaves of it."""

    def __init__(self, data):
        self.read, self.kept, self.waiting = bytearray(data), bytearray(data), {}

    def note(self, kind, place, body):
        if kind == "w":
            self.read[place:place + len(body)] = body
            for sector, handed in sectors_of(place, body).items():
                self.waiting.setdefault(sector, []).append(handed)
        if kind == "s":
            for sector, handed in self.waiting.items():
                self.kept[sector * SECTOR:(sector + 1) * SECTOR] = handed[-1]
            self.waiting = {}

    def left(self, numbers):
        """Images that a loss of power may leave now."""
        found = list(dict.fromkeys(images(self.kept, self.waiting, numbers)))
        return found if len(found) <= CUTS else numbers.sample(found, CUTS)

    def after_failure(self, numbers):
        """What the medium may be after the failed sync: here no other than before."""
        return [self]

    def settles(self, record, image):
        """What is done before the image is opened again: nothing is needed where a sync settles all."""


class Linux(Medium):
    """The pages of a failed sync are written no more, and are read until they are dropped."""

    def after_failure(self, numbers):
        for image in self.left(numbers):
            made = type(self)(image)
            made.read = bytearray(self.read)
            yield made

    def note(self, kind, place, body):
        super().note(kind, place, body)
        if kind == "d":
            self.read = bytearray(self.kept)
            for sector, handed in self.waiting.items():
                self.read[sector * SECTOR:(sector + 1) * SECTOR] = handed[-1]

    def settles(self, record, image):
        medium = image.with_name("medium")
        medium.write_bytes(self.kept)
        for kind, place, body in settled(record, image, RECORD_DROPS_TO=str(medium)):
            self.note(kind, place, body)
        self.read = bytearray(image.read_bytes())


class Keeping(Linux):
    """The same, but that the image isn't settled."""

    def settles(self, record, image):
        """Nothing is done."""


WAYS = {"the model": Medium, "Linux": Linux, "Linux that drops nothing": Keeping}


def released_in(body):
    """The lines of outputs in what a life printed."""
    return [line for line in body.splitlines() if line.startswith("event ")]


def is_kept(answer, released, slots):
    """Whether a listing (its status and text) has all that was released and whose block wasn't overwritten since, each event as it was released."""
    records = [line.split() for line in answer[1].splitlines()]
    events = {int(fields[3]): fields[5:9] for fields in records}
    blocks = {int(fields[1]) for fields in records}
    first, newest = min(events, default=0), max(blocks, default=0)
    wanted = [(int(fields[1]), [fields[3], fields[5], fields[7], fields[11]]) for fields in map(str.split, released)]
    numbers = [event for event, _ in wanted]
    is_there = all(events.get(event, output if event < first else None) == output for event, output in wanted)
    return answer[0] == 0 and is_there and numbers == sorted(set(numbers)) and len(blocks) >= min(newest, slots - 1)


class Tried:
    """Lives on one image, and what was released by them."""

    def __init__(self, slots, folder, record, numbers):
        self.slots, self.folder, self.record, self.numbers = slots, folder, record, numbers
        self.image, self.count, self.lost, self.seen = folder / "image", 0, 0, set()

    def listing_of(self, data):
        self.image.write_bytes(data)
        return run_program(["journal", self.image])

    def cuts(self, medium, released):
        """Some of the images that a loss of power may leave now."""
        for data in medium.left(self.numbers):
            if (data, len(released)) not in self.seen:
                self.seen.add((data, len(released)))
                self.count += 1
                self.lost += not is_kept(self.listing_of(data), released, self.slots)

    def life(self, medium, released, is_cut, **environment):
        """One life from what is read. Adds what it releases, and answers whether a sync of it failed."""
        self.image.write_bytes(medium.read)
        (_, text), calls = recorded_by(self.record, self.image, ["run", self.folder / "scenario", self.image], **environment)
        releases, earlier = Releases(text), len(released)
        for kind, place, body in calls:
            medium.note(kind, place, body)
            releases.note(kind, body)
            released[earlier:] = released_in(releases.text())
            if is_cut:
                self.cuts(medium, released)
        return any(kind == "f" for kind, _, _ in calls)

    def listed(self, medium):
        """A listing lists what a loss of power would leave after its own sync."""
        self.image.write_bytes(medium.read)
        medium.settles(self.record, self.image)
        found = self.listing_of(medium.read)
        medium.note("s", 0, b"")
        self.lost += found != self.listing_of(medium.kept)

    def fails_at(self, way, before, earlier, number):
        """A life whose sync of this number fails, and two more after it; whether it has so many."""
        medium, released = way(before), list(earlier)
        if not self.life(medium, released, False, RECORD_FAILS_AT=str(number)):
            return False
        self.seen.clear()
        for left in medium.after_failure(self.numbers):
            self.listed(deepcopy(left))
            known = list(released)
            self.cuts(left, known)
            self.image.write_bytes(left.read)
            left.settles(self.record, self.image)
            for _ in range(2):
                self.life(left, known, True)
        return True


def tried(way, slots, lives, folder, record, numbers):
    """Each sync of a life after some lives fails in turn; where nothing is dropped, until something is lost. Answers how many syncs, how many
    cuts, and what is lost."""
    image, earlier = folder / "image", []
    formatted(image, slots)
    for _ in range(lives):
        earlier += released_in(run_program(["run", folder / "scenario", image])[1])
    before, one, number = image.read_bytes(), Tried(slots, folder, record, numbers), 1
    while not (way is Keeping and one.lost) and one.fails_at(way, before, earlier, number):
        number += 1
    return number - 1, one.count, one.lost


def main():
    failures, numbers = Compared(), random.Random(2026)
    with room() as name:
        folder = Path(name)
        record = built("record")
        (folder / "scenario").write_text(json.dumps(BATCHES))
        for model, way in WAYS.items():
            images_of = [tried(way, slots, lives, folder, record, numbers) for slots, lives in SHAPES[:1 if way is Keeping else 2]]
            syncs, count, lost = map(sum, zip(*images_of))
            failures.unless(syncs >= LEAST[model][0] and count >= LEAST[model][1], f"{model}: {syncs} syncs and {count} cuts are too few")
            failures.unless((lost > 0) == (way is Keeping), f"{model}: {lost} images lose what was released, or aren't listed")
            print(f"by {model}: {syncs} failed syncs, {count} cuts after them, {lost} lose what was released or aren't listed")
    return failures.end("failed syncs")


if __name__ == "__main__":
    sys.exit(main())
