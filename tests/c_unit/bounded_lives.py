#!/usr/bin/env python3
"""Lives that fill the memory of the unit (bounded.c), within the bytes that etcs_memory.h says that a unit needs at most for such a track: by a hill
climb over tracks of groups with restrictions, gradients, static speeds, and packets that only take room while their group is read.

    tests/c_unit/bounded_lives.py BOUNDED [LIVES [SEED]]    BOUNDED is bounded.c with the library without malloc; 100 lives, seed 67
    tests/c_unit/bounded_lives.py BOUNDED hours HOURS            so many hours at 100 km/h in cycles of 100 ms, a group with an authority each km

A life is lived three times, one after another, on the same buffer. The exit status is 1 where a request is refused, or where no life used so much
of its bound that the bound would be seen to be too small by half.
"""
import contextlib
import random
import re
import subprocess
import sys
import tempfile
from pathlib import Path

TOP = Path(__file__).resolve().parents[2]
sys.path[:0] = [str(TOP / "tests"), str(TOP / "tests/model")]

from compared import Compared  # noqa: E402
from named import bits_of, header_of, packet_of  # noqa: E402

TELEGRAMS, PACKETS, STEP = 8, 33, 2
MOST_GROUPS, LEAST_FILLED = 40, 0.5
KINDS = ("restrictions", "gradients", "speeds", "packets")


def written(header, packets):
    """The hex digits of a telegram; a packet of None has no more than its head, without a scale."""
    empty = bits_of("NID_PACKET", 200) + bits_of("Q_DIR", 2) + bits_of("L_PACKET", 23)
    bits = header_of(header) + "".join(packet_of(one) if one else empty for one in packets) + bits_of("NID_PACKET", 255)
    bits += "0" * (-len(bits) % 8)
    return f"{int(bits, 2):0{len(bits) // 4}x}"


def listed(first, rest):
    return ", ".join([first + f", N_ITER {len(rest)}", *rest])


class Track:
    """Groups, one after another where the train stands, and how much each kind of list has of them."""

    def __init__(self, groups):
        self.groups, self.lines = groups, []
        self.sum = dict.fromkeys(KINDS, 0)
        for number, (kind, telegrams, many) in enumerate(groups):
            bodies = [self.body(kind, many) for _ in range(telegrams)]
            self.sum["packets"] = max(self.sum["packets"], sum(len(body) for body in bodies))
            for place, body in enumerate(bodies):
                head = f"N_PIG {place}, N_TOTAL {telegrams - 1}, NID_BG {number + 1}"
                self.lines.append("telegram " + written(head, body))

    def body(self, kind, many):
        """The packets of a telegram."""
        if kind == "packets":
            return [None] * many
        if kind == "restrictions":
            many = min(many, 10)
            self.sum[kind] += many
            return [f"65: Q_SCALE 2, NID_TSR 255, D_TSR {100 + STEP * at}, L_TSR 1, Q_FRONT 0, V_TSR 20" for at in range(many)]
        at, many = 100 + STEP * self.sum[kind], min(many, 30 if kind == "gradients" else 25)
        self.sum[kind] += many + 1
        if kind == "gradients":
            return ["21: Q_SCALE 2, " + listed(f"D_GRADIENT {at}, Q_GDIR 0, G_A 1", [f"D_GRADIENT {STEP}, Q_GDIR 0, G_A {2 + one % 2}" for one in range(many - 1)])]
        return ["27: Q_SCALE 2, " + listed(f"D_STATIC {at}, V_STATIC 10, Q_FRONT 0, N_ITER 0",
                                           [f"D_STATIC {STEP}, V_STATIC {11 + one % 2}, Q_FRONT 0, N_ITER 0" for one in range(many - 1)])]

    def life(self):
        lines = ["open 0"]
        for at, line in enumerate(self.lines):
            lines += [line, *(["flush"] if at % 7 == 6 else [])]
        return [*lines, "flush", "close"]


def group(r):
    kind = r.choice(KINDS)
    telegrams = r.choice((1, 1, 2, 4, TELEGRAMS))
    return kind, telegrams, r.randrange(1, PACKETS + 1) if kind == "packets" else r.choice((1, 5, 10, 25, 30))


def changed(r, groups):
    groups = list(groups)
    for _ in range(r.randrange(1, 4)):
        at, what = r.randrange(len(groups) + 1), r.randrange(3)
        if what == 0 and len(groups) < MOST_GROUPS:
            groups.insert(at, group(r))
        elif what == 1 and len(groups) > 1:
            del groups[min(at, len(groups) - 1)]
        else:
            groups[min(at, len(groups) - 1)] = group(r)
    return groups


def hours(count):
    """A train at 100 km/h: each km a group announces the next one, gives an authority of 3 km, gradients, speeds, and a restriction after."""
    yield from ("open 0", "identity 41", "action 2", "train 20000 160000 70 0 15")
    at, group = 0, 1
    for cycle in range(1, 36_000 * count + 1):
        if at // 100_000 >= group - 1:
            following = group % 16_000 + 1
            yield "telegram " + written(f"NID_BG {group % 16_000 or 16_000}", [
                f"5: D_LINK 1000, Q_NEWCOUNTRY 0, NID_BG {following}, Q_LINKORIENTATION 1, Q_LINKREACTION 1, Q_LOCACC 5, N_ITER 0",
                "12: V_MAIN 32, V_LOA 0, T_LOA 1023, N_ITER 0, L_ENDSECTION 3000, Q_SECTIONTIMER 0, Q_ENDTIMER 0, Q_DANGERPOINT 0, Q_OVERLAP 0",
                "21: " + listed("D_GRADIENT 0, Q_GDIR 1, G_A 0", ["D_GRADIENT 200, Q_GDIR 1, G_A 2"] * 4),
                "27: " + listed("D_STATIC 0, V_STATIC 28, Q_FRONT 0, N_ITER 0", ["D_STATIC 300, V_STATIC 29, Q_FRONT 0, N_ITER 0"] * 4),
                f"65: NID_TSR {group % 250}, D_TSR 300, L_TSR 200, Q_FRONT 1, V_TSR 24"])
            group += 1
            if group == 2:
                yield from ("action 7", "flush")
        at += 278
        yield from (f"odometer 278 {100_080}", f"clock {100 * cycle}", "flush")
    yield "close"


def drive(program, count):
    """Whether a train so long on its way is answered, and mostly without a brake, within the memory of its track."""
    count, compared = int(count), Compared()
    with tempfile.TemporaryFile("w+") as output:
        ran = subprocess.Popen([program, "64", "5", "10", "60", "60"], stdin=subprocess.PIPE, stdout=output, stderr=subprocess.STDOUT, text=True)
        with contextlib.suppress(BrokenPipeError), ran.stdin as lines:
            lines.writelines(f"{line}\n" for line in hours(count))
        status = ran.wait(timeout=60)
        output.seek(0)
        text = output.read()
    found = re.search(r"^(\d+) bytes, (\d+) used at most, 1 lives, (\d+) outputs, (\d+) without a brake$", text, re.M)
    if compared.unless(status == 0 and found, f"status {status}\n{text[-2000:]}"):
        size, used, outputs, brakeless = map(int, found.groups())
        compared.unless(outputs >= 72_000 * count and brakeless >= outputs - 100, f"{outputs} outputs, {brakeless} of them without a brake")
        return compared.end(f"memory: {count} h of driving, {outputs:,} outputs, {used:,} of {size:,} bytes used at most")
    return compared.end("memory: driving")


def main(words):
    program, *given = words
    if given[:1] == ["hours"]:
        return drive(program, *given[1:])
    lives, seed = [int(word) for word in given] + [100, 67][len(given):]
    r, compared, best, kept, greatest = random.Random(seed), Compared(), 0.0, [], 0
    for _ in range(lives):
        groups = changed(r, kept) if kept and r.randrange(8) else [group(r) for _ in range(r.randrange(1, MOST_GROUPS))]
        track, slots = Track(groups), r.choice((2, 4, 64))
        ran = subprocess.run([program, *map(str, (slots, *(track.sum[of] for of in ("packets", "restrictions", "gradients", "speeds"))))],
                             input="\n".join(track.life() * 3) + "\n", capture_output=True, text=True, timeout=60)
        found = re.search(r"^(\d+) bytes, (\d+) used at most, 3 lives,", ran.stdout, re.M)
        if not compared.unless(ran.returncode == 0 and found, f"{groups} on {slots} slots: status {ran.returncode}\n{ran.stdout[-1500:]}{ran.stderr[-500:]}"):
            continue
        size, used = map(int, found.groups())
        filled = used / size
        greatest = max(greatest, used)
        if filled >= best:
            best, kept = filled, groups
    compared.unless(best >= LEAST_FILLED, f"of its bound no life used more than {best:.3f}")
    return compared.end(f"memory: {lives} tracks, three lives on each; {greatest:,} bytes used at most; of a bound up to {best:.3f}")


if __name__ == "__main__":
    sys.exit(main(sys.argv[1:]))
