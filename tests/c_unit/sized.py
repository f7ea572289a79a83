#!/usr/bin/env python3
"""Tests a unit over rings of any size (sized.c): which sectors it reads, and that it uses as much memory over 36,000 slots as over 4.

    tests/c_unit/sized.py MALLOC BUFFER    sized.c with the library, and with the one without malloc

The sectors to be read are in docs/reference/format.md and crates/relayed_unit/README.md: the first sector; of each slot the gate, and the head, since a ring that
was written over has no closed gate; the six sectors of the newest block's slot; and the gate of the next one. 16 sectors are held: so of the small
ring three of these are known by then, and of the great one none.
"""
import re
import subprocess
import sys
import tempfile
from pathlib import Path

TOP = Path(__file__).resolve().parents[2]
sys.path[:0] = [str(TOP / "tests")]

from compared import Compared  # noqa: E402

SMALL, GREAT = 4, 36_000
# kB: what the system counts less exactly than by pages.
SAME = 512


def figures(program, *words):
    ran = subprocess.run([program, *map(str, words)], capture_output=True, text=True, timeout=120)
    found = re.fullmatch(r"opening (\d+) flush (\d+) resident (\d+) peak (\d+) used (\d+)\n", ran.stdout)
    if ran.returncode != 0 or (words[0] == "open") != bool(found):
        sys.exit(f"{program} {words}: status {ran.returncode} {ran.stdout[:400]} {ran.stderr[:400]}")
    return [int(number) for number in found.groups()] if found else []


def main(program, over_buffer):
    compared, found = Compared(), {}
    with tempfile.TemporaryDirectory() as folder:
        for slots in (SMALL, GREAT):
            file = Path(folder) / str(slots)
            figures(over_buffer, "fill", file, slots)
            found[slots] = figures(program, "open", file)
            found[slots, "buffer"] = figures(over_buffer, "open", file)
    of_small, of_great = found[SMALL], found[GREAT]
    compared.same("sectors of an opening over a small ring", of_small[0], 1 + 2 * SMALL + 4)
    compared.same("sectors of an opening over a great ring", of_great[0], 1 + 2 * GREAT + 6 + 1)
    compared.same("sectors of a flush", (of_small[1], of_great[1]), (0, 1))
    compared.unless(abs(of_great[2] - of_small[2]) <= SAME and abs(of_great[3] - of_small[3]) <= SAME, f"{of_small} and {of_great}")
    compared.same("bytes used of a buffer", found[GREAT, "buffer"][4], found[SMALL, "buffer"][4])
    return compared.end(f"memory: {of_small[3]} kB at most over {SMALL} slots, {of_great[3]} over {GREAT:,}; "
                        f"{found[GREAT, 'buffer'][4]:,} bytes of a buffer; {of_great[0]:,} sectors read")


if __name__ == "__main__":
    sys.exit(main(*sys.argv[1:]))
