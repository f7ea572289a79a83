#!/usr/bin/env python3
"""Compares what etcs_unit_why explains of the newest released output with the plain program, over pseudo-random lives,
event by event, and with what etcs_image_why says about the medium's bytes (explained.c compares that). Before an event
is released there is no explanation.

    tests/c_unit/explained.py PROGRAM..     explained.c built in several ways
"""
import json
import subprocess
import sys
from collections import Counter
from pathlib import Path

HERE = Path(__file__).resolve().parent
FOLDERS = ("tests", "tests/model", "tests/hostile", "tests/etcs_lab", "python")
sys.path[:0] = [str(HERE.parents[1] / part) for part in FOLDERS]
from compared import Compared  # noqa: E402
from gaknifur.lives import LimitCause  # noqa: E402
from items import Kept  # noqa: E402
from journal import COLD  # noqa: E402
from life import Life  # noqa: E402
from limit_tracks import BY_HAND  # noqa: E402
from random_lists import SUPERVISION, TRACK, Numbers, event  # noqa: E402
from replay_rows import parts  # noqa: E402
from why import WORDS, Reasons  # noqa: E402

LIVES, LEAST_OUTPUTS, LEAST_ANSWERS = 160, 2_500, 150_000  # so many lives, outputs that are explained, and answers in C
MODES = {"FS": 0, "OS": 1, "SR": 2, "SH": 3, "UN": 4, "SB": 6, "TR": 7, "PT": 8, "SF": 9}
BRAKES = ("none", "service", "emergency")
KINDS = {"on_sight": "on-sight", "shunting": "shunting", "level_0": "level-0"}
CONFIRMED = ("identity", "running-number", "train-data", "level")
ACKNOWLEDGED = ("trip", "on-sight", "shunting", "level-0")
ALONE = {"start": 7, "choose-shunting": 8, "leave-shunting": 9, "override": 10, "close-desk": 15}
# m/h above the limit at most, and how long an acknowledgement may be owed (by hand)
MARGIN, FARTHER, OWED_MS = 5_000, 10_000, 5_000
RELEASES = ("release_speed", "national_release_speed")
# What is to be met: each state of an acknowledgement, a time of it that is over, a target, a release speed, an override
# with and without a time.
MET = ("asked", "owed", "over", "target", "release", "place", "number", "power-up", "overridden",
       "overridden-without-end")


def line_of(word, value):
    """An event of the plain program as a line of inputs.h."""
    if word in ALONE:
        return f"action {ALONE[word]}"
    return {
        "hear": lambda: f"telegram {value}", "move": lambda: f"odometer {value}", "clock": lambda: f"clock {value}",
        "enter-identity": lambda: f"identity {value.encode().hex()}", "enter-running-number": lambda: f"number {value}",
        "enter-train-data": lambda: f"train {value}", "choose-level": lambda: f"action {1 + int(value)}",
        "confirm": lambda: f"action {3 + CONFIRMED.index(value)}",
        "acknowledge": lambda: f"action {11 + ACKNOWLEDGED.index(value)}",
    }[word]()


def waiting(life, kind):
    """What the driver is waited for, and how many milliseconds an acknowledgement that is owed may be owed yet."""
    state = life.acknowledgement(kind)
    if state.state == "owed":
        return ["owed", max(0, state.since + OWED_MS - life.moment())]
    return ["asked" if state.state == "requested" else "none", 0]


def overriding(life):
    """Whether the trip is overridden, whether that ends by time, and what is left of time and distance."""
    left = life.override_left()
    if left is None:
        return [0, 0, 0, 0]
    time, distance = left
    return [1, int(time is not None), time or 0, distance]


def wanted_of(life, reasons, number):
    """The wanted members after the newest event of a life, which has this number."""
    answer, members = life.now.output, reasons.members(number)
    kind, place, nid = members["limit_cause"], members["limit_cause_place_cm"], members["limit_cause_number"]
    is_ahead = kind.endswith("_ahead") or kind in ("end_of_authority", "supervised_location")
    speed = members["limit_cause_speed_m_per_h"]
    target = [1, speed, max(0, place - life.stretch().max_front)] if is_ahead else [0, 0, 0]
    return {
        "event": number, "mode": MODES[answer.mode], "level": 255 if answer.level == "-" else int(answer.level),
        "brake": BRAKES.index(answer.brake), "limit": answer.limit, "speed": members["speed_m_per_h"],
        "backward": members["backward_cm"], "allowed": members["allowed_backward_cm"],
        "holds": [int(members[word] is not None) for word, *_ in WORDS.values()],
        "limit_cause": LimitCause[kind.upper()], "limit_cause_speed": speed,
        "place": [0, 0] if place is None else [1, place], "number": [0, 0] if nid is None else [1, nid],
        "target": target, "release": [1, answer.limit] if kind in RELEASES else [0, 0],
        "service": answer.limit + MARGIN, "emergency": answer.limit + FARTHER,
        **{name: waiting(life, kind) for name, kind in KINDS.items()}, "override": overriding(life),
    }


def met_in(one):
    """Which of the possible members this one has."""
    for name in KINDS:
        state, left = one[name]
        yield "over" if state == "owed" and left == 0 else state
    yield from (name for name in ("target", "release", "place", "number") if one[name][0])
    if one["override"][0]:
        yield "overridden" if one["override"][1] else "overridden-without-end"
    if one["event"] == 0:
        yield "power-up"


def lives():
    """The lines of each life, and what is to be reported after each release: for each kind of what decides a limit one
    by hand, and pseudo-random ones."""
    for _, inputs, _ in BY_HAND:
        life = Life(Kept(), "unknown")
        reasons = Reasons(life, 0)
        lines, wanted = ["power-up 0"], [wanted_of(life, reasons, 0)]
        for at, said in enumerate(map(parts, inputs), 1):
            life.take(*said)
            reasons.note(at)
            lines += [line_of(*said), "flush"]
            wanted.append(wanted_of(life, reasons, at))
        yield lines, wanted
    numbers = Numbers(31_077)
    for number in range(LIVES):
        telegrams = TRACK + SUPERVISION[:2] if number % 3 == 0 else SUPERVISION
        word = numbers.one_of(COLD)
        life = Life(Kept(), word)
        reasons = Reasons(life, 0)
        lines, wanted, pending = [f"power-up {COLD.index(word)}"], [wanted_of(life, reasons, 0)], 0
        for at in range(1, 21 + numbers.below(60)):
            said = parts(event(numbers, telegrams, life))
            life.take(*said)
            reasons.note(at)
            lines.append(line_of(*said))
            pending += 1
            if pending == 8 or numbers.below(2) == 0:
                lines += [] if pending == 8 else ["flush"]
                wanted.append(wanted_of(life, reasons, at))
                pending = 0
        yield lines, wanted


def main(programs):
    compared, met = Compared(), Counter()
    tried = outputs = 0
    for number, (lines, wanted) in enumerate(lives()):
        for program in programs if number % 10 == 0 else programs[:1]:
            text = "".join(f"{line}\n" for line in lines)
            ran = subprocess.run([program], input=text, capture_output=True, text=True, timeout=100)
            *found, last = [line for line in ran.stdout.splitlines() if line.startswith("{")] or ['{"tried": 0}']
            others = [line for line in ran.stdout.splitlines() if not line.startswith("{")]
            compared.unless(ran.returncode == 0, f"life {number}: {others[:5]}{ran.stderr[:300]}")
            tried += json.loads(last)["tried"]
            found = [json.loads(line) for line in found]
            for one, so in zip(found, wanted):
                one.pop("indications")
                compared.same(f"life {number}, event {so['event']}", one, so)
                met.update(met_in(one))
            compared.same(f"life {number}: how many are explained", len(found), len(wanted))
            outputs += len(found)
    for name in MET:
        compared.unless(met[name], f"no output has this: {name}")
    compared.unless(outputs >= LEAST_OUTPUTS and tried >= LEAST_ANSWERS,
                    f"too few: {outputs} outputs and {tried} answers, {LEAST_OUTPUTS} and {LEAST_ANSWERS} are wanted")
    return compared.end(f"why, of a unit that runs: {outputs} released outputs compared with the plain program, "
                        f"{tried} answers in C; {dict(met)}")


if __name__ == "__main__":
    sys.exit(main(sys.argv[1:]))
