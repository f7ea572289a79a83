"""Instructions of calls of the unit from C, counted by callgrind: rows compared with kept ones; long tracks and a great group with their bounds.

    counts.py PROGRAM           PROGRAM is counts.c with the library
    counts.py PROGRAM --keep    write the counts of the rows to tests/c_unit/counts.txt

A row fails where it takes more than 3 in 100 more or less than tests/c_unit/counts.txt keeps: keep a cheaper count, and look into
a dearer one. A bound fails where more is taken. Counts go by the place of the stack, and by what else is in the library, so nearer
ones can't be asked for.
"""
import re
import subprocess
import sys
import tempfile
from pathlib import Path

HERE = Path(__file__).resolve().parent
KEPT = HERE / "counts.txt"
sys.dont_write_bytecode = True
sys.path.insert(0, str(HERE.parent / "model"))
from named import written  # noqa: E402

CALLS = ("begin", "request", "provide", "done", "prepare", "release", "telegram", "odometer", "clock", "action", "identity",
         "running_number", "train_data")
MODES = {0: "FS", 2: "SR", 6: "SB"}

# A start or a reading before 690 gradients, one every 10 cm, that two sums and two ways back pass. A reading before 690 gradients and 32 restrictions,
# announced from the farthest to the nearest, or by turns; before 40 of which each slower one is nearer; before stairs of restrictions, mode areas and
# static speeds whose authority ends before them: one sum over the gradients. A reading each of whose two sums begins anew.
MOST_TWICE, MOST_READING, MOST_ANEW = 140_000, 45_000, 72_000
# A telegram that ends a group of 239 packets, for which no list has capacity yet: what moves are the elements.
MOST_GROWN = 90_000
# A reading with twice the restrictions, or twice the gradients, takes at most twice as much, and a little for the call itself.
MOST_DOUBLED = 2.05

READING = "odometer 1 50000"
STEEP, FAST = "20000 160000 1 0 15", "20000 600000 1 0 15"  # brakes that hardly act, at up to 160 and 600 km/h


# ---- tracks: the packets of a telegram, places in metres (or in steps of 10 cm) after it

def authority(end, danger=None, scale=1):
    beyond = "Q_DANGERPOINT 0" if danger is None else f"Q_DANGERPOINT 1, D_DP {danger}, V_RELEASEDP 126"
    return (f"12: Q_SCALE {scale}, V_MAIN 120, V_LOA 0, T_LOA 1023, N_ITER 0, L_ENDSECTION {end}, Q_SECTIONTIMER 0, Q_ENDTIMER 0, {beyond}, "
            "Q_OVERLAP 0")


def listed(packet, element, places, scale=1):
    """A list of (place, value), each written by its distance from the one before."""
    texts, before = [], 0
    for place, value in places:
        texts.append(element.format(place - before, value))
        before = place
    return f"{packet}: Q_SCALE {scale}, " + ", ".join([texts[0], f"N_ITER {len(texts) - 1}", *texts[1:]])


def gradients(places, scale=1):
    """Telegrams of 30 gradients each."""
    return [listed(21, "D_GRADIENT {}, Q_GDIR 1, G_A {}", places[at:at + 30], scale) for at in range(0, len(places), 30)]


def speeds(*places, scale=1):
    return listed(27, "D_STATIC {}, V_STATIC {}, Q_FRONT 0, N_ITER 0", places, scale)


def areas(*places):
    return listed(80, "D_MAMODE {}, M_MAMODE 0, V_MAMODE {}, L_MAMODE 2, L_ACKMAMODE 0", places)


def restrictions(places, scale=1, length=1):
    """Telegrams of ten restrictions each."""
    texts = [f"65: Q_SCALE {scale}, NID_TSR 255, D_TSR {place}, L_TSR {length}, Q_FRONT 0, V_TSR {speed}" for place, speed in places]
    return ["; ".join(texts[at:at + 10]) for at in range(0, len(texts), 10)]


def started(train, *telegrams):
    """The lines up to Full Supervision of such a train, over these telegrams."""
    heard = ["telegram " + written(f"NID_BG {group}; {packets}") for group, packets in enumerate(telegrams, 2)]
    return ["cold 0", "identity 41", "action 2", f"train {train}", "action 3", "action 4", "action 5", "action 6", *heard, "action 7"]


def before(many, *packets, train=STEEP, end=(32_767,)):
    """A reading before so many gradients, one every 2 m, and what lies after them."""
    track = gradients([(2 * at, at % 2) for at in range(many)])
    return [*started(train, f"{authority(*end)}; {speeds((0, 120))}", *track, *packets), READING, READING]


def stops(many, restricted):
    """The same, with so many stops, one every metre, the farthest first."""
    return before(many, *restrictions([(2 * many + restricted - at, 0) for at in range(restricted)]))


def by_turns(many, restricted):
    """The same, each second one before all gradients, and 5 km/h slower than the one before."""
    return before(many, *restrictions([(2 * many + restricted - at, 0) if at % 2 else (1 + restricted - at, 31 - at // 2) for at in range(restricted)]))


STAIRS = [(1380 + 5 * at, at) for at in range(1, 41)]
GROWN = ["telegram " + written(f"N_PIG {at}, N_TOTAL 7, NID_BG 900" + "; 200" * (30 if at else 29)) for at in range(8)]
ANEW = (*restrictions([(1410, 20), (1400, 10)]), speeds((0, 120), (1420, 30), (1430, 127)))
TWICE = started("20000 600000 50 6226 15", f"{authority(1_885, 1, 0)}; {speeds((0, 120), (4_374, 23), (4_375, 127), scale=0)}",
                *gradients([(0, 92), *((1_133 + at, 22 - at % 2) for at in range(690)), (1_823, 92)], 0), *restrictions([(4_983, 0), (4_331, 40)], 0, 10))

# ---- ordinary ones

TRACK = (f"{authority(10_000)}; {listed(21, 'D_GRADIENT {}, Q_GDIR 1, G_A {}', [(600 * at, at) for at in range(6)])}; "
         f"{speeds(*((800 * at, 20 + 7 * at % 10) for at in range(6)))}")
FULL = started("20000 160000 70 1000 15", TRACK, *restrictions([(300 + 40 * at, 14 + at % 8) for at in range(16)], length=20))
CALM = started("20000 160000 70 0 15", f"{authority(32_000)}; {gradients([(0, 0)])[0]}; {speeds((0, 32))}")

STILL = CALM + ["odometer 1 300"] * 20
GROUP, OPEN = ("telegram " + written(f"{head}NID_BG 100; {TRACK}") for head in ("", "N_TOTAL 1, "))

# Name, slots, mode after it, the lines of a scenario, of which the last is counted.
ROWS = (
    ("a moment of the clock in Stand By", 16, "SB", ["cold 0", "action 1", "clock 1000", "clock 2000"]),
    ("a reading of 1 cm in Full Supervision", 16, "FS", CALM + ["odometer 1 300"] * 20),
    ("a reading of 1 m with a reaction time, restrictions ahead", 16, "FS", FULL + ["odometer 100 30000"] * 4),
    ("a reading of 10 cm in Staff Responsible", 16, "SR", [*started("20000 160000 70 0 15"), "odometer 10 300", "odometer 10 300"]),
    ("a telegram of a group of its own in Full Supervision", 16, "FS", [*FULL, "odometer 100 30000", GROUP]),
    ("a repeat of it, the limit steady", 16, "FS", [*STILL, GROUP, "odometer 1 300", "odometer 1 300", "odometer 1 300", GROUP]),
    ("a moment after it, its group still open", 16, "FS", [*STILL, OPEN, "clock 1000"]),
    ("a flush of eight readings", 16, "FS", [*CALM, "flush"] + ["odometer 1 300"] * 8 + ["flush"]),
    ("a power-up on 4 empty slots", 4, "SB", ["cold 0"]),
)


def counted(program, scenarios):
    """The instructions of the last line of each (slots, mode, lines)."""
    text = "".join(f"scenario {slots}\n" + "".join(f"{line}\n" for line in [*lines[:-1], "count", lines[-1]]) for slots, _, lines in scenarios)
    with tempfile.TemporaryDirectory() as room:
        profile = Path(room) / "profile"
        toggles = [f"--toggle-collect=etcs_unit_{call}_" for call in CALLS]
        done = subprocess.run(["valgrind", "--tool=callgrind", f"--callgrind-out-file={profile}", "--combine-dumps=yes", "--collect-atstart=no", *toggles,
                               program], input=text, capture_output=True, text=True, env={"PATH": "/usr/bin:/bin"})
        if done.returncode:
            sys.exit(f"{program}: {done.stderr[-2000:]}")
        took = re.findall(r"^desc: Trigger: .*scenario \d+\n(?:.*\n)*?summary: (\d+)$", profile.read_text(), re.M)
    modes = [MODES.get(int(line), line) for line in done.stdout.split()]
    if modes != [mode for _, mode, _ in scenarios] or len(took) != len(scenarios):
        sys.exit(f"{program}: {len(took)} counts of {len(scenarios)}, modes {modes}")
    return [int(one) for one in took]


def rows(program):
    """The instructions of each row."""
    return dict(zip((name for name, *_ in ROWS), counted(program, [row[1:] for row in ROWS])))


def main(program, *words):
    numbers = rows(program)
    if words == ("--keep",):
        KEPT.write_text("".join(f"{number} {what}\n" for what, number in numbers.items()))
        return 0
    kept = {what: int(number) for number, what in (line.split(" ", 1) for line in KEPT.read_text().splitlines())}
    faults = [f"{what}: {numbers.get(what)} instructions, and {kept.get(what)} are kept" for what in {**numbers, **kept}
              if what not in numbers or what not in kept or abs(numbers[what] - kept[what]) > 0.03 * kept[what]]
    mixed = (*restrictions(STAIRS[:30:3]), areas(*STAIRS[1:30:3]), speeds(*STAIRS[2:30:3]))
    long = {"a start with two sums and two ways back": TWICE, "a reading there": [*TWICE, "odometer 0 50000"],
            "a reading before 690 gradients and 32 restrictions": stops(690, 32), "the same, sent by turns": by_turns(690, 32),
            "a reading before 40 restrictions, each slower one nearer": before(690, *restrictions(STAIRS), train=FAST),
            "a reading before stairs of each kind, the authority's end before them": before(690, *mixed, train=FAST, end=(1_381,)),
            "a reading each of whose sums begins anew": before(690, *ANEW, train=FAST, end=(1_381, 9)),
            "a group for which the lists grow": CALM + GROWN, "twice the restrictions": stops(690, 64), "twice the gradients": stops(1380, 32)}
    took = dict(zip(long, counted(program, [(16, "FS", lines) for lines in long.values()])))
    doubled = MOST_DOUBLED * took["a reading before 690 gradients and 32 restrictions"]
    most = dict(zip(long, (MOST_TWICE, MOST_TWICE, MOST_READING, MOST_READING, MOST_READING, MOST_READING, MOST_ANEW, MOST_GROWN, doubled, doubled)))
    faults += [f"{what}: {number} instructions, and {most[what]:.0f} are its bound" for what, number in took.items() if number > most[what]]
    for fault in faults:
        print(fault)
    print(f"instructions of calls: {len(numbers)} rows compared with kept ones, {len(most)} bounds")
    return 1 if faults else 0


if __name__ == "__main__":
    if len(sys.argv) < 2:
        sys.exit(__doc__)
    sys.exit(main(*sys.argv[1:]))
