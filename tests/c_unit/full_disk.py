#!/usr/bin/env python3
"""A journal on a disk that another file fills, on ext4 with blocks of 1 kB and of 4 kB over a loop device: a format has
taken each byte of the file, so a life that writes each slot finds its place; and a format that finds no place says so.

    full_disk.py LIFE    LIFE is tests/c_unit/life.c with the library. $GAKNIFUR_ETCS_UNIT names the library for Python

It needs root, a loop device and mkfs.ext4. Where one of these can't be had it says so, in one line, and ends with 0.
"""
import errno
import os
import subprocess
import sys
from pathlib import Path

TOP = Path(__file__).resolve().parents[2]
sys.dont_write_bytecode = True
sys.path[:0] = [str(TOP / "python"), str(TOP / "tests"), str(TOP / "tests/hostile")]

from compared import Compared  # noqa: E402
from failed_syncs_on_ext4 import NotHere, file_system  # noqa: E402
from gaknifur.unit import FileMedium, Unit  # noqa: E402

NAME = "a full disk"
SIZE, SLOTS, FLUSHES = 8 << 20, 600, 700  # of 8 MB the file has 1.8, and each slot is written
DEVICE = 3  # how life.c ends where a file fails


def holes_of(path):
    """How many bytes of a file have no place on the disk."""
    os.sync()
    facts = path.stat()
    return max(facts.st_size - 512 * facts.st_blocks, 0)


def fill(folder):
    """Another file, up to the last byte of the disk."""
    with (folder / "other").open("wb", buffering=0) as other:
        for size in (1 << 16, 512, 1):
            try:
                while True:
                    other.write(bytes(size))
            except OSError as error:
                if error.errno != errno.ENOSPC:
                    raise
    os.sync()


def formats_in_c(life, path, slots):
    return subprocess.run([life, "format", path, str(slots)]).returncode


def lives_in_c(life, path):
    """How many outputs a life releases that flushes so often, and how it ends."""
    lines = "".join(f"clock {moment}\nflush\n" for moment in range(1, FLUSHES + 1))
    done = subprocess.run([life, "fast", path, "0"], input=lines, capture_output=True, text=True)
    return done.returncode, done.stdout.count("event ")


def formats_in_python(_, path, slots):
    try:
        FileMedium.formatted(path, slots).close()
    except OSError as error:
        if error.errno != errno.ENOSPC:
            raise
        return DEVICE
    return 0


def lives_in_python(_, path):
    released = 0
    try:
        with FileMedium(path) as medium, Unit(medium) as unit:
            for moment in range(1, FLUSHES + 1):
                unit.clock(moment)
                released += len(unit.flush())
    except OSError:
        return 1, released
    return 0, released


def main(life):
    rows = Compared()
    try:
        for block in (1024, 4096):
            for language, formats, lives in (("C", formats_in_c, lives_in_c),
                                             ("Python", formats_in_python, lives_in_python)):
                with file_system(SIZE, block, "-m", "0") as (_, folder):
                    what, image = f"{language}, blocks of {block}", folder / "image"
                    rows.same(f"{what}: a format", formats(life, image, SLOTS), 0)
                    rows.same(f"{what}: bytes without a place", holes_of(image), 0)
                    fill(folder)
                    rows.same(f"{what}: a life on a full disk", lives(life, image), (0, FLUSHES))
                    rows.same(f"{what}: a format on a full disk", formats(life, folder / "second", SLOTS), DEVICE)
                    os.unlink(folder / "other")
                    rows.same(f"{what}: a format of what is left of it", formats(life, folder / "second", SLOTS), 0)
    except NotHere as missing:
        print(f"{NAME}: not run, since {missing}")
        return 0
    return rows.end(f"{NAME}: {rows.count} comparisons")


if __name__ == "__main__":
    sys.exit(main(*sys.argv[1:]))
