#!/usr/bin/env python3
"""A sync that fails on a real file system: ext4 over a loop device that is cut off while one sync of a life runs, each
in turn. The image is settled (tools/settle). After two more lives power is lost (the file system is unmounted, so that
only what is on the medium is left), and what was released is listed.

It needs root, a loop device and mkfs.ext4. Where one of these can't be had it says so, in one line, and ends with 0.
"""
import fcntl
import json
import os
import shutil
import struct
import subprocess
import sys
import tempfile
from contextlib import contextmanager
from pathlib import Path

from built import TOP, built, formatted, run_program, recorded_by
from compared import Compared
from failed_syncs import BATCHES, is_kept, released_in

SLOTS, LIVES = 8, 6  # the lives use each slot first, so that each block of the file has its place on the device
BLOCK = 4096
FIBMAP = 1
NO_LIMIT = 98  # how record.c ends where the device can't be cut off
LEAST = 5
NAME = "failed syncs on ext4"


PATH = os.environ.get("PATH", "") + ":/usr/sbin:/sbin"


class NotHere(Exception):
    """What can't be had."""


def had(*words):
    """What a tool of the system says, where it can be had."""
    if not shutil.which(words[0], path=PATH):
        raise NotHere(f"there is no {words[0]}")
    done = subprocess.run(words, capture_output=True, text=True, env=dict(os.environ, PATH=PATH))
    if done.returncode:
        raise NotHere(f"{words[0]} says: {(done.stderr.strip() or str(done.returncode)).splitlines()[-1]}")
    return done.stdout.strip()


def must(*words):
    subprocess.run(words, check=True, env=dict(os.environ, PATH=PATH))


@contextmanager
def file_system(size, block, *options):
    """A loop device of so many bytes, with an ext4 without a journal of such blocks, mounted, and its folder."""
    if os.geteuid() != 0:
        raise NotHere("it needs root")
    with tempfile.TemporaryDirectory() as name:
        device, folder = Path(name) / "device", Path(name) / "mounted"
        folder.mkdir()
        device.touch()
        os.truncate(device, size)
        loop = had("losetup", "--find", "--show", str(device))
        try:
            had("mkfs.ext4", "-q", "-F", "-b", str(block), "-O", "^has_journal", *options, loop)
            had("mount", loop, str(folder))
            try:
                yield loop, folder
            finally:
                must("umount", "--lazy", str(folder))
        finally:
            must("losetup", "--detach", loop)


def first_byte_of(image):
    """Where the first of the file's blocks begins on the device."""
    with image.open("rb") as file:
        count = -(-image.stat().st_size // BLOCK)
        try:
            places = [struct.unpack("I", fcntl.ioctl(file, FIBMAP, struct.pack("I", at)))[0] for at in range(count)]
        except OSError as error:
            raise NotHere(f"the system doesn't report where a file lies: {error.strerror}") from error
    return min(place for place in places if place) * BLOCK


def fails_at(number, loop, folder, record, failures):
    """A life whose sync of this number runs on the device that is cut off, two more, and a loss of power. Whether it
    has that many, and whether that sync failed."""
    image, scenario = folder / "image", folder.parent / "scenario"
    limit = {"RECORD_FAILS_AT": str(number), "RECORD_LIMIT": f"{loop} {first_byte_of(image)}"}
    (status, text), calls = recorded_by(record, image, ["run", scenario, image], **limit)
    if status == NO_LIMIT:
        raise NotHere("the loop device can't be cut off")
    syncs = [kind for kind, _, _ in calls if kind in "sf"]
    failures.unless(status == (3 if "f" in syncs else 0), f"sync {number}: status {status}, {text}")
    released = released_in(text)
    subprocess.run([TOP / "tools/settle", image], check=True)
    for _ in range(2):
        status, text = run_program(["run", scenario, image])
        failures.unless(status == 0, f"sync {number}: a life after it ends with {status}, {text}")
        released += released_in(text)
    must("umount", str(folder))
    must("mount", loop, str(folder))
    failures.unless(is_kept(run_program(["journal", image]), released, SLOTS),
                    f"sync {number}: not all that was released is listed after a loss of power")
    return len(syncs) >= number, "f" in syncs


def main():
    failures, record, failed = Compared(), built("record"), 0
    try:
        with file_system(16 << 20, BLOCK) as (loop, folder):
            image = folder / "image"
            (folder.parent / "scenario").write_text(json.dumps(BATCHES))
            formatted(image, SLOTS)
            for _ in range(LIVES):
                run_program(["run", folder.parent / "scenario", image])
            number, is_there = 1, True
            while is_there:
                is_there, did = fails_at(number, loop, folder, record, failures)
                number, failed = number + 1, failed + did
    except NotHere as missing:
        print(f"{NAME}: not run, since {missing}")
        return 0
    failures.unless(failed >= LEAST, f"only {failed} syncs failed")
    return failures.end(f"{NAME}: {failed}")


if __name__ == "__main__":
    sys.exit(main())
