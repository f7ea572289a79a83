#!/usr/bin/env python3
"""Compares what etcs_unit_driver reports with the plain program, over pseudo-random lists of lives, after each release: what a power-up would
find, and which actions of the driver would be accepted. Each status and each action is met, accepted and not, in modes that are
listed here by hand.

    tests/c_unit/driver_info.py PROGRAM..     driver_info.c built in several ways
"""
import json
import subprocess
import sys
from collections import Counter, defaultdict
from pathlib import Path

HERE = Path(__file__).resolve().parent
sys.path[:0] = [str(HERE.parents[1] / part) for part in ("tests", "tests/model", "tests/hostile", "tests/etcs_lab", "python")]
import driver  # noqa: E402
from compared import Compared  # noqa: E402
from explained import ACKNOWLEDGED, ALONE, CONFIRMED, line_of  # noqa: E402
from items import Kept  # noqa: E402
from journal import COLD, block_of  # noqa: E402
from life import Life  # noqa: E402
from random_lists import SUPERVISION, TRACK, Numbers, event  # noqa: E402
from replay import kept_object  # noqa: E402
from replay_rows import parts  # noqa: E402

LISTS, LEAST_REPORTS, LEAST_ANSWERS = 60, 4_000, 60_000  # so many lists of lives, reports, and answers in C
# Each action by its number in the header, and an entry of each kind (any value).
ACTIONS = {1: ("choose-level", "0"), 2: ("choose-level", "1"), **{3 + at: ("confirm", item) for at, item in enumerate(CONFIRMED)},
           **{number: (word, "") for word, number in ALONE.items()}, **{11 + at: ("acknowledge", kind) for at, kind in enumerate(ACKNOWLEDGED)}}
ENTRIES = {"identity": ("enter-identity", "A"), "running_number": ("enter-running-number", "1"), "train_data": ("enter-train-data", "100 100 70 0 15")}
# In which modes each one is met that is accepted (crates/driver/specs/Accepting.antt, by hand); each is met that isn't, in two modes at least.
ACCEPTED = {**dict.fromkeys((1, 2, 3, 4, 5, 6, *ENTRIES), {"SB"}), 7: {"SB", "PT"}, 8: {"SB", "FS", "OS", "SR", "UN", "PT"}, 9: {"SH"},
            10: {"FS", "OS", "SR", "PT"}, 11: {"TR", "SB"}, 12: {"FS", "OS"}, 13: {"FS", "SH"}, 14: {"FS", "UN"}, 15: {"FS", "OS", "SR", "SH", "UN", "PT"}}
STATUSES = {"level": {None, "valid", "invalid"}, "position": {None, "valid", "invalid"}, "identity": {None, "known"}, "running_number": {None, "known"},
            "train": {None, "known"}}


def wanted_of(life):
    """What is to be reported after the newest event of a life."""
    kept = kept_object(block_of(1, [], life.kept()))
    del kept["events"], kept["lives"]
    accepts = {name: int(driver.accepts(life, *action)) for name, action in (ACTIONS | ENTRIES).items()}
    return {"kept": kept, "speed": life.speed(), "mode": life.mode(), "accepts": [accepts.get(number, 0) for number in range(16)],
            **{name: accepts[name] for name in ENTRIES}, "revalidated": int(life.is_revalidated()),
            "statuses": [life.item(item).status for item in CONFIRMED[:3]], "given": list(map(int, life.revalidation()))}


def lists():
    """The lines of each list of lives, and what is to be reported after its releases."""
    numbers = Numbers(47_110)
    for number in range(LISTS):
        telegrams = TRACK + SUPERVISION[:2] if number % 3 == 0 else SUPERVISION
        kept, lines, wanted, pending = Kept(), [], [], 0
        for _ in range(1 + numbers.below(3)):
            word = numbers.one_of(COLD)
            life = Life(kept, word)
            lines.append(f"power-up {COLD.index(word)}")
            wanted.append(wanted_of(life))
            for _ in range(20 + numbers.below(60)):
                said = parts(event(numbers, telegrams, life))
                life.take(*said)
                lines.append(line_of(*said))
                pending += 1
                if pending == 8 or numbers.below(4):
                    lines += [] if pending == 8 else ["flush"]
                    wanted.append(wanted_of(life))
                    pending = 0
            lines.append("flush")
            wanted += [wanted_of(life)] if pending else []
            kept, pending = life.kept(), 0
        yield lines, wanted


def main(programs):
    compared, met, revalidated = Compared(), defaultdict(set), Counter()
    tried = reports = 0
    for number, (lines, wanted) in enumerate(lists()):
        for program in programs if number % 10 == 0 else programs[:1]:
            text = "".join(f"{line}\n" for line in lines)
            ran = subprocess.run([program], input=text, capture_output=True, text=True, timeout=100)
            *found, last = [line for line in ran.stdout.splitlines() if line.startswith("{")] or ['{"tried": 0}']
            compared.unless(ran.returncode == 0, f"list {number}: {[line for line in ran.stdout.splitlines() if not line.startswith('{')][:5]}{ran.stderr[:300]}")
            tried += json.loads(last)["tried"]
            compared.same(f"list {number}: how many reports", len(found), len(wanted))
            for at, (one, so) in enumerate(zip(map(json.loads, found), wanted)):
                compared.same(f"list {number}, report {at}", one, so)
                for name in ACCEPTED:
                    met[name, one[name] if name in ENTRIES else one["accepts"][name]].add(one["mode"])
                for name in STATUSES:
                    value = one["kept"][name]
                    met[name].add(value["status"] if name in ("level", "position") and value else value and "known")
                revalidated[one["revalidated"]] += 1
                for at, status in enumerate(one["statuses"]):
                    met["now", at].add(status)
                for at, given in enumerate(one["given"]):
                    met["given", at].add(given)
            reports += len(found)
    for name, modes in ACCEPTED.items():
        compared.unless(met[name, 1] >= modes, f"{name} is accepted in {sorted(met[name, 1])}, and is to be in {sorted(modes)}")
        compared.unless(len(met[name, 0]) > 1, f"{name} isn't refused in two modes: {sorted(met[name, 0])}")
    for name, statuses in STATUSES.items():
        compared.same(f"statuses of {name}", met[name], statuses)
    compared.unless(revalidated[0] and revalidated[1], f"revalidated or not: {dict(revalidated)}")
    for at, item in enumerate(CONFIRMED[:3]):
        compared.same(f"statuses of {item} now", met["now", at], {"unknown", "valid", "invalid"})
    for at in range(4):
        compared.same(f"part {at} of the revalidation", met["given", at], {0, 1})
    compared.unless(reports >= LEAST_REPORTS and tried >= LEAST_ANSWERS, f"too few: {reports} reports and {tried} answers, {LEAST_REPORTS} and {LEAST_ANSWERS} are wanted")
    return compared.end(f"the driver's keys: {reports} reports compared with the plain program, {tried} answers in C")


if __name__ == "__main__":
    sys.exit(main(sys.argv[1:]))
