#!/usr/bin/env python3
"""Tests the buffer of a unit as a cap on what the track may announce (capped.c). Up to the numbers that the buffer is for nothing is refused. A telegram
beyond what it holds is refused, the executive brakes until it ends and begins again, the journal stays as it was, and afterwards the unit has the
memory that it had. Of links there is no more than a list has room for. And the table of docs/explain/integration.md has the bytes that lists take.

    tests/c_unit/capped.py CAPPED    CAPPED is capped.c with the library without malloc
"""
import subprocess
import sys
from pathlib import Path

TOP = Path(__file__).resolve().parents[2]
sys.path[:0] = [str(TOP / "tests" / "c_unit"), str(TOP / "tests"), str(TOP / "tests/model")]

from bounded_lives import KINDS, Track, written  # noqa: E402
from compared import Compared  # noqa: E402
from named import WIDTH  # noqa: E402

CAPS = {"packets": 10, "restrictions": 30, "gradients": 62, "speeds": 52}
EACH = {"restrictions": 10, "gradients": 30, "speeds": 25}  # so many a telegram
ENTRY = {"restrictions": 32, "gradients": 16, "speeds": 32}  # bytes of a list for each
BOUND = {"restrictions": 136, "gradients": 68, "speeds": 136}  # of ETCS_MEMORY_BYTES for each
STANDING = 27_000  # bytes that a unit in Stand By has at least
MANY = {of: 2_000_000 for of in KINDS}
ROOMS = 49_152, 65_536, 131_072, 262_144  # bytes of a buffer
ROWS, LINKS, MOST_LINKS = (30, 100, 300), 18, 32  # (so many links a telegram has room for, and a unit)
PAGE = TOP / "docs" / "explain" / "integration.md"
STAND, CYCLE, AGAIN = "odometer 0 0", "cycle", "again"
EMPTY = "telegram " + written("NID_BG 9000", [None])


class Answer:
    """A line of capped.c."""

    def __init__(self, line):
        self.what, self.fault, self.brake, fed, used, most, refused, event, self.medium = line.split()
        self.is_fed, self.used, self.most, self.refused, self.event = fed == "1", int(used), int(most), int(refused), int(event)


def size_of(caps):
    """ETCS_MEMORY_BYTES without slots."""
    return 32_768 + 7_168 * caps["packets"] + sum(each * caps[of] for of, each in BOUND.items())


def run(program, caps, lines):
    ran = subprocess.run([program, *(str(caps[of]) for of in ("packets", "restrictions", "gradients", "speeds"))], input="\n".join(lines) + "\n",
                         capture_output=True, text=True, timeout=60)
    if ran.returncode:
        sys.exit(f"{program}: status {ran.returncode} {ran.stderr[:400]}")
    return [Answer(line) for line in ran.stdout.splitlines()]


def cycles(lines):
    return [one for line in lines for one in (line, CYCLE)]


def beyond(compared, program, kind):
    """Groups up to the cap, and further ones until one is refused; then a cycle, another begin, and the groups up to the cap again."""
    if kind == "packets":
        within, more = [(kind, 1, CAPS[kind])], [(kind, 8, 33)]
    else:
        within = [(kind, 1, EACH[kind])] * (CAPS[kind] // (EACH[kind] + (kind != "restrictions")))
        more = [(kind, 1, EACH[kind])] * 400
    track, up_to = Track(within + more), len(Track(within).lines)
    answers = run(program, CAPS, cycles(track.lines))
    taken = next((number for number, one in enumerate(answers[1:]) if one.fault != "OK"), None)
    if not compared.unless(taken is not None and taken >= up_to, f"{kind}: of {len(track.lines)} telegrams {taken} are taken, {up_to} are within the cap"):
        return 0
    first, before, refused = answers[0], answers[taken], answers[1 + taken]
    compared.unless(first.used >= STANDING, f"{kind}: {first.used} bytes in Stand By")
    compared.same(f"{kind}: beyond the cap", (refused.fault, refused.brake, refused.is_fed), ("NO_MEMORY", "emergency", False))
    compared.same(f"{kind}: refusals are counted", (before.refused, refused.refused), (0, 1))
    compared.same(f"{kind}: the journal", (refused.medium, refused.event), (before.medium, before.event))
    later = run(program, CAPS, [*cycles(track.lines[:taken + 1]), STAND, CYCLE, AGAIN, STAND, CYCLE, *cycles(track.lines[:up_to])])[taken + 2:-1]
    held, again, standing, *rest = later
    compared.same(f"{kind}: the next cycle", (held.fault, held.brake, held.is_fed, held.medium), ("NO_MEMORY", "emergency", False, before.medium))
    compared.same(f"{kind}: another begin", (again.what, again.fault, again.brake, again.used), ("begin", "OK", "emergency", first.used))
    # (the power-up, and the reading)
    compared.same(f"{kind}: a cycle after it", (standing.fault, standing.event, standing.is_fed), ("OK", before.event + 2, True))
    compared.same(f"{kind}: the cap again", {(one.fault, one.refused) for one in rest}, {("OK", 1)})
    compared.same(f"{kind}: its groups", len(rest), up_to)
    if kind in ENTRY:
        holds, most = sum(EACH[kind] for _ in range(taken)), (size_of(CAPS) - STANDING) // ENTRY[kind]
        compared.unless(CAPS[kind] * 0.8 <= holds <= most, f"{kind}: {holds} are held, {most} at most")
    return taken


def used(program, telegrams):
    """The bytes in use once these telegrams are read, one packet each, and another group has closed theirs."""
    answers = run(program, MANY, [*cycles(telegrams), EMPTY, CYCLE, STAND, CYCLE])
    return answers[-2].used if {one.fault for one in answers} == {"OK"} else None


def grown(program, packets):
    """The bytes that these packets take, one a group, on top of what as many empty ones do."""
    of, empty = ([f"telegram {written(f'NID_BG {number}', [one])}" for number, one in enumerate(given, 1)] for given in (packets, [None] * len(packets)))
    return used(program, of) - used(program, empty)


def packets_of(kind, many):
    """So many restrictions, or segments of a profile, 10 in a packet; a profile's last segment has an end of its own."""
    track = Track([(kind, 1, 1)] * many if kind == "restrictions" else [])
    if kind == "restrictions":
        return [packet for _ in range(many) for packet in track.body(kind, 1)]
    return [packet for _ in range(many // 10) for packet in track.body(kind, 9)]


def row(program, compared, kind):
    """What the page says of a list: the bytes of so many, which are within the bound."""
    taken = [grown(program, packets_of(kind, many)) for many in ROWS]
    for many, of in zip(ROWS, taken):
        compared.unless(0 < of <= many * BOUND[kind], f"{many} {kind} take {of} bytes")
    return ", ".join(f"{many} take {of:,}" if kind == "restrictions" else f"{of:,}" for many, of in zip(ROWS, taken)) + " |"


def links(program, lists):
    """The same of groups of which each announces as many links as a telegram holds: a list replaces the one before."""
    link = "D_LINK 100, Q_NEWCOUNTRY 0, NID_BG {}, Q_LINKORIENTATION 1, Q_LINKREACTION 1, Q_LOCACC 5"
    rest = ", ".join(link.format(number) for number in range(101, 100 + LINKS))
    return grown(program, [f"5: {link.format(100)}, N_ITER {LINKS - 1}, {rest}"] * lists)


def held(program, size, kind):
    """How many of a kind a buffer of a size holds before one is refused, one packet a group."""
    packets, rest = divmod(size - size_of(dict.fromkeys(KINDS, 0)), 7_168)
    many, most = 1 if kind == "restrictions" else EACH[kind], (size - STANDING) // ENTRY[kind]
    track = Track([(kind, 1, many)] * (most // many + 2))
    answers = run(program, {"packets": packets, "restrictions": rest // 136, "gradients": 0, "speeds": 0}, cycles(track.lines))
    taken = next(number for number, one in enumerate(answers[1:]) if one.fault == "NO_MEMORY")
    return Track(track.groups[:taken]).sum[kind]


def main(program):
    compared = Compared()
    taken = {kind: beyond(compared, program, kind) for kind in KINDS}
    page = PAGE.read_text()
    for kind in ENTRY:
        wanted = row(program, compared, kind)
        compared.unless(f": {wanted}\n" in page, f"{PAGE.name} doesn't have: {wanted}")
    for lists in (1, 4):
        compared.same(f"bytes of links, {lists} lists", links(program, lists), 0)
    compared.same("links that a list has, at most", 1 + (1 << WIDTH["N_ITER"]) - 1, MOST_LINKS)
    for size in ROOMS:
        wanted = " | ".join(f"{number:,}" for number in (size, *(held(program, size, kind) for kind in ENTRY)))
        compared.unless(f"\n| {wanted} |\n" in page, f"{PAGE.name} doesn't have: {wanted}")
    return compared.end(f"caps: telegrams before the one that is refused {taken}")


if __name__ == "__main__":
    sys.exit(main(*sys.argv[1:]))
