#!/usr/bin/env python3
"""Compares what etcs_unit_refusals, etcs_unit_preview_telegram and etcs_unit_preview_odometer report before each input with the plain program, over
pseudo-random lists of lives, also while inputs are pending: why each action isn't accepted, whether a telegram counts, and what becomes of
each group that the input closes. Each reason is met, each outcome of a group and of a telegram, and two groups at once.

    tests/c_unit/preview.py PROGRAM..     preview.c built in several ways
"""
import json
import subprocess
import sys
from collections import Counter, defaultdict
from pathlib import Path

HERE = Path(__file__).resolve().parent
sys.path[:0] = [str(HERE.parents[1] / part) for part in ("tests", "tests/model", "tests/hostile", "tests/etcs_lab", "python")]
import decoded  # noqa: E402
import driver  # noqa: E402
import group_words  # noqa: E402
import telegrams  # noqa: E402
from compared import Compared  # noqa: E402
from driver_info import ACTIONS, ENTRIES  # noqa: E402
from explained import line_of  # noqa: E402
from groups import Reading  # noqa: E402
from items import Kept  # noqa: E402
from journal import COLD  # noqa: E402
from life import Life  # noqa: E402
from random_lists import GROUPS, RESTRICTIONS, SUPERVISION, TRACK, Numbers, event  # noqa: E402
from replay_rows import parts  # noqa: E402

LISTS, LEAST_REPORTS, LEAST_ANSWERS = 60, 6_000, 60_000  # so many lists of lives, reports, and answers in C
# Of each action, by its number in the header, or entry the reasons that it may be refused for (crates/driver/specs/Accepting.antt, by hand).
STANDING, LEAVING = {"other_mode", "not_at_standstill"}, {"identity_not_valid", "level_not_valid", "trip_outstanding"}
REASONS = {**dict.fromkeys((1, 2, 9, 15, *ENTRIES), STANDING), **dict.fromkeys((3, 4, 5), STANDING | {"nothing_to_confirm"}),
           6: STANDING | {"nothing_to_confirm"}, 7: STANDING | LEAVING | {"train_data_not_valid"}, 8: STANDING | LEAVING,
           10: {"other_mode", "too_fast"}, 11: STANDING | {"no_trip"}, **dict.fromkeys((12, 13, 14), {"not_requested"})}
# How a life begins: a trip that is outstanding isn't acknowledged before that. In the mode of a start a group of two balises that is announced in its
# nominal direction is passed in the other one.
ENTERED = ["enter-identity A", "choose-level 1"]
WRONG_WAY = [*ENTERED, "enter-train-data 100 160000 70 0 15", "start", f"hear {GROUPS[1]}", "move 800 3000", f"hear {GROUPS[6]}", f"hear {GROUPS[5]}"]
TELEGRAMS = ("counts", "group_closed", "repeated", "refused")


def refusals_of(life):
    """Why each action isn't accepted as the next input."""
    refusals = {name: driver.refusal(life, *action) or "none" for name, action in (ACTIONS | ENTRIES).items()}
    return {"actions": [refusals.get(number, "none") for number in range(16)], "entries": [refusals[name] for name in ENTRIES]}


def telegram_of(life, data):
    """What becomes of a telegram by itself, and its fault."""
    try:
        decoded.telegram_of(data)
    except decoded.Fault as fault:
        return {"telegram": "refused", "fault": str(fault)}
    return {"telegram": life.assembler.outcome(Reading(telegrams.read(data), life.sums)), "fault": "OK"}


def group_of(closed, verdict, mode):
    """What is reported of a group that closed."""
    group = group_words.members(closed, verdict, mode)
    return {"country": group["country"], "group": group["group"], "direction": group["direction"] or "not_known", "outcome": group["outcome"],
            "announcement": group["announcement"], "reaction": group["reaction"] or "none"}


def taken(life, word, value):
    """What is to be reported before an input, which the life takes then."""
    wanted = refusals_of(life)
    if word == "hear":
        wanted |= telegram_of(life, bytes.fromhex(value))
    elif word == "move":
        wanted |= {"telegram": "unknown", "fault": "OK"}
    life.take(word, value)
    if word in ("hear", "move"):
        wanted["groups"] = [group_of(*group) for group in life.now.groups]
    return wanted


def lists():
    """The lines of each list of lives, and what is to be reported before its inputs."""
    numbers = Numbers(96_041)
    for number in range(LISTS):
        sent = (TRACK + SUPERVISION[:2], SUPERVISION, GROUPS + RESTRICTIONS + SUPERVISION)[number % 3]
        kept, lines, wanted, pending = Kept(), [], [], 0
        for turn in range(1 + numbers.below(3)):
            word = numbers.one_of(COLD)
            life = Life(kept, word)
            lines.append(f"power-up {COLD.index(word)}")
            first = WRONG_WAY if turn == 0 and number % 3 == 2 else ENTERED
            for at in range(40 + numbers.below(60)):
                said = parts(first[at] if at < len(first) else event(numbers, sent, life))
                wanted.append(taken(life, *said))
                lines.append(line_of(*said))
                pending += 1
                if pending == 8 or not numbers.below(4):
                    lines += [] if pending == 8 else ["flush"]
                    pending = 0
            lines.append("flush")
            kept, pending = life.kept(), 0
        yield lines, wanted


def main(programs):
    compared, met, counts = Compared(), defaultdict(set), Counter()
    tried = reports = 0
    for number, (lines, wanted) in enumerate(lists()):
        for program in programs if number % 10 == 0 else programs[:1]:
            text = "".join(f"{line}\n" for line in lines)
            ran = subprocess.run([program], input=text, capture_output=True, text=True, timeout=100)
            *found, last = [line for line in ran.stdout.splitlines() if line.startswith("{")] or ['{"tried": 0}']
            compared.unless(ran.returncode == 0, f"list {number}: {[line for line in ran.stdout.splitlines() if not line.startswith('{')][:5]}{ran.stderr[:300]}")
            tried += json.loads(last)["tried"]
            compared.same(f"list {number}: how many reports", len(found), len(wanted))
            for at, (one, so) in enumerate(zip(map(json.loads, found), wanted)):
                compared.same(f"list {number}, report {at}", one, so)
                for name, why in (*enumerate(one["actions"]), *zip(ENTRIES, one["entries"])):
                    met[name].add(why)
                met["telegram"].add(one.get("telegram"))
                met["fault"].add(one.get("fault"))
                for group in one.get("groups", ()):
                    met["outcome"].add(group["outcome"])
                counts[len(one.get("groups", ()))] += 1
            reports += len(found)
    for name, reasons in REASONS.items():
        compared.same(f"reasons of {name}", met[name], reasons | {"none"})
    compared.same("outcomes of telegrams", met["telegram"], {*TELEGRAMS, "unknown", None})
    compared.same("outcomes of groups", met["outcome"], set(group_words.KINDS))
    compared.unless(counts[1] > 100 and counts[2] > 10, f"groups at once: {dict(counts)}")
    compared.unless(reports >= LEAST_REPORTS and tried >= LEAST_ANSWERS, f"too few: {reports} reports and {tried} answers, {LEAST_REPORTS} and {LEAST_ANSWERS} are wanted")
    return compared.end(f"what the next input would do: {reports} reports compared with the plain program, {tried} answers in C")


if __name__ == "__main__":
    sys.exit(main(sys.argv[1:]))
