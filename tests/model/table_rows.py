#!/usr/bin/env python3
"""Compares the tables that tools/dev/tables reads from the definitions with those of the plain program: the same rows in the same order, the same
lines and cells. Each kind of table has rows, and each difference is printed."""
import importlib.machinery
import importlib.util
import itertools
import sys
from pathlib import Path
from types import SimpleNamespace

import acknowledgements
import driver
import links
import modes
import output
from groups import Closed
from items import INVALID, UNKNOWN, VALID

TOOL = Path(__file__).parent / "../../tools/dev/tables"

# The items and causes whose names differ in the two.
ITEMS = {"mode-areas": "areas"}
CAUSES = {
    "is not revalidated": "not revalidated", "is in Trip": "mode TR", "is in SystemFailure": "mode SF", "owes trip": "trip outstanding",
    "is above limit by 10 000": "above the limit by 10000", "has rolled too far": "rolled back too far",
    "service brake requested": "service asked for", "is above limit by 5 000": "above the limit by 5000", "must stand": "moves in standstill",
    "owes too long": "owed too long", "train stood": "speed 0 read", "was within limit": "within the limit", None: None,
}


# The actions, as the plain program has them.
ACTIONS = {
    "EnterIdentity identity": [("enter-identity", "A")], "EnterRunningNumber number": [("enter-running-number", "1")],
    "EnterTrainData train": [("enter-train-data", "1 1 1 0 0")], "ChooseLevel level": [("choose-level", "1")],
    "Confirm confirmed": [("confirm", item) for item in ("identity", "running-number", "train-data", "level")],
    "Start": [("start", None)], "ChooseShunting": [("choose-shunting", None)], "LeaveShunting": [("leave-shunting", None)],
    "Override": [("override", None)], "Acknowledge acknowledge.Trip": [("acknowledge", "trip")],
    "Acknowledge acknowledge.OnSight": [("acknowledge", "on-sight")], "Acknowledge acknowledge.Shunting": [("acknowledge", "shunting")],
    "Acknowledge acknowledge.Level0": [("acknowledge", "level-0")], "CloseDesk": [("close-desk", None)]}
ALLOWED = 5_000  # V_NVALLOWOVTRP in the situations that are tried

# What an action needs, of a situation and of what the action carries.
NEEDS = {
    "is_valid driver.identity": lambda it, value: it.items["identity"] == VALID, "is_valid driver.level": lambda it, value: it.items["level"] == VALID,
    "is_valid driver.train_data": lambda it, value: it.items["train-data"] == VALID,
    "is_known_to driver confirmed": lambda it, value: it.items[value] != UNKNOWN,
    "not driver.trip_outstanding": lambda it, value: not it.tripped, "driver.trip_outstanding": lambda it, value: it.tripped,
    "nat_le now.speed now.override_allowed": lambda it, value: it.at <= ALLOWED, "now.on_sight_waits": lambda it, value: it.waiting == "on-sight",
    "now.shunting_waits": lambda it, value: it.waiting == "shunting", "now.level_0_waits": lambda it, value: it.waiting == "level-0"}

# How many rows each kind of table has.
ROWS = {"modes": 34, "statuses": 17, "brakes": 10, "acknowledgements": 5, "packets": 9, "actions": 14, "groups": 10}


def tool():
    loader = importlib.machinery.SourceFileLoader("tables", str(TOOL))
    made = importlib.util.module_from_spec(importlib.util.spec_from_loader("tables", loader))
    loader.exec_module(made)
    return made


def situations():
    """What may be known when an action comes: mode, speed, status of each item, a trip, and what waits for an acknowledgement."""
    for mode, speed, identity, data, level, tripped, waiting in itertools.product(
            [*modes.FATES["identity"]][2:], (0, 1, ALLOWED, ALLOWED + 1), *[(UNKNOWN, INVALID, VALID)] * 3, (False, True), (None, *driver.KINDS)):
        yield SimpleNamespace(now=mode, at=speed, tripped=tripped, waiting=waiting,
                              items={"identity": identity, "running-number": identity, "train-data": data, "level": level})


def as_life(it):
    """A situation, as the plain program asks for it."""
    allowed = SimpleNamespace(override_allowed=ALLOWED)
    return SimpleNamespace(
        mode=lambda: it.now, speed=lambda: it.at, is_tripped=lambda: it.tripped, item=lambda name: SimpleNamespace(status=it.items[name]),
        national=SimpleNamespace(in_force=SimpleNamespace(values=allowed)),
        acknowledgement=lambda kind: SimpleNamespace(waits=lambda: it.waiting == kind))


def accepted(key, answer):
    """In how many situations an action is accepted, and a digest of which."""
    found = [(at, value) for at, it in enumerate(situations()) for _, value in ACTIONS[key] if answer(it, value)]
    return key, len(found), hash(tuple(found))


def by_table(line):
    key, listed, stands, needs = line
    return accepted(key, lambda it, value: (not listed or it.now in listed) and (not stands or it.at == 0)
                    and all(NEEDS[need](it, value) for need in needs))


def by_plain(key):
    word = ACTIONS[key][0][0]
    return accepted(key, lambda it, value: driver.accepts(as_life(it), word, value))


def judged(case, reaction):
    """What becomes of a group in one of ten cases, in the order of the table, by the plain program, and what is asked for."""
    entry = links.Entry((1, 2), 1_000, 500, 1, reaction)
    known = links.Links()
    known.replace([] if case == 1 else [links.Entry((1, 3), 900, 500, 1, reaction), entry] if case == 5 else [entry])
    closed = Closed((1, 9) if case in (2, 9) else (1, 2), int(case not in (0, 7)), nominal=0 if case in (0, 3) else 1)
    if case == 6:
        one = known.missed(1_501)
        return "missed" if not known.left else "stays", one.trip, one.service
    one = known.broken(closed) if case > 6 else known.judge(closed, 499 if case in (0, 3, 4) else 500)
    words = {links.IGNORE: "ignored", links.REACTION: "not used", links.ACCEPT: "its packets are used"}[one.kind]
    return ("it makes a fix at p" if one.entry and one.kind == links.ACCEPT else words), one.trip, one.service


ASKED = {(0, 0): "nothing", (1, 0): "a trip", (0, 1): "the service brake"}


def asked_by(case):
    """What is asked for, by each reaction: trip, service and none."""
    return [(words, ASKED[trip, service]) for words, trip, service in (judged(case, reaction) for reaction in (0, 1, 2))]


def group_cells(words, asks):
    """The same, as a row of the table says it."""
    began = next(it for it in ("ignored", "not used", "its packets are used", "it makes a fix at p", "missed") if words.startswith(it))
    by_reaction = ["a trip", "the service brake", "nothing"]
    return [(began, it) for it in (by_reaction if "reaction" in asks else [asks] * 3)]


def more_pairs(defined):
    """The same of packets, actions and groups, of which the plain program is asked."""
    numbers, used = defined.packet_lines()
    yield "packets", [(mode, used[mode]) for mode in sorted(used)], [(mode, list(modes.used_in(mode))) for mode in sorted(used)]
    yield "actions", [by_table(line) for line in defined.action_lines()], [by_plain(key) for key in ACTIONS]
    yield "groups", [group_cells(words, asks) for _, words, asks in defined.group_rows()], [asked_by(case) for case in range(10)]


def pairs(defined):
    """Of each table its name, what the definitions say, and what the plain program says."""
    yield "modes", defined.mode_rows(), [
        (number, sources, target, [name.replace("not_", "not ") for name in wanted]) for number, sources, target, wanted in modes.TABLE]
    columns, lines = defined.status_lines()
    short = ["P" if it == "power-up" else "N" if it.startswith("power-up") else it for it in columns]
    yield "statuses", sorted((ITEMS.get(item, item), dict(zip(short, fates))) for item, fates in lines), sorted(modes.FATES.items())
    yield "brakes", [(brake, CAUSES.get(it, it), CAUSES.get(ends, ends)) for brake, it, ends in defined.brake_rows()], [
        (brake, wanted, ends) for brake, _, wanted, ends in output.TABLE]
    before, cells = defined.acknowledgement_cells()
    yield "acknowledgements", [(happening, dict(zip(before, row))) for happening, row in cells], list(acknowledgements.TABLE.items())


def main():
    found, compared = 0, {}
    defined = tool()
    for name, ours, plain in itertools.chain(pairs(defined), more_pairs(defined)):
        compared[name] = len(ours)
        differing = [(a, b) for a, b in zip(ours, plain) if a != b]
        for a, b in differing:
            print(f"{name}: the definitions say {a}, the plain program {b}")
        if len(ours) != len(plain):
            print(f"{name}: the definitions have {len(ours)} rows, the plain program {len(plain)}")
            found += 1
        found += len(differing)
        print(f"{name}: {len(ours)} rows, {len(differing)} differences")
    if compared != ROWS:
        print(f"the tables are to have these numbers of rows: {ROWS}")
        found += 1
    return 1 if found else 0


if __name__ == "__main__":
    sys.exit(main())
