#!/usr/bin/env python3
"""Replays the journal of an image by the plain kernel: each life from its power-up on, after what the head before it says.

    tests/model/replay.py [--json] IMAGE     print what `etcs_lab replay` prints, and end with its status
"""
import json
import sys
from pathlib import Path

from blocks import NO_END
from disk import SECTOR_BYTES
from items import Kept
from journal import ACKNOWLEDGED, ALONE, BRAKES, COLD, CONFIRMED, MODES, SLOT_SECTORS, block_of, kept_in, number_in, read_block, record_of
from journal import signs_of, slots_in, valid_number
from life import Life

WHOLE, REFUSED, LOST = 0, 1, 4
MODE_WORDS = {number: word for word, number in MODES.items()}
STATUS_WORDS = ("unknown", "valid", "invalid")
VALUES = ("shunting_m_per_h", "staff_responsible_m_per_h", "on_sight_m_per_h", "unfitted_m_per_h", "release_m_per_h", "roll_cm",
          "override_allowed_m_per_h", "override_speed_m_per_h", "override_distance_cm", "override_time_ms", "staff_responsible_distance_cm")
RECORD_FIELDS = (("event", "number"), ("time_ms", "moment"), ("mode", "mode"), ("level", "level"), ("brake", "brake"), ("indications", "ind"),
                 ("place_cm", "estimate"), ("uncertainty_cm", "uncertainty"), ("limit_m_per_h", "limit"))
KEPT_FIELDS = (("events", "events"), ("lives", "lives"), ("trip_outstanding", "trip"), ("identity", "identity"), ("running_number", "running"),
               ("train", "train"), ("level", "level"), ("position", "position"), ("national_values", "values"), ("countries", "countries"))
REASONS = {
    "before_oldest_block": "what was kept before its power-up is in no block that is retained",
    "gap": "blocks or events are missing before",
    "within_block": "no head contains what was kept before its power-up",
    "after_difference": "they follow a record that differs",
}


def input_of(event):
    """A recorded input, as the plain life takes it."""
    kind, *values = event
    if kind == "telegram":
        return "hear", values[0].hex()
    if kind in ("odometer", "clock"):
        return {"odometer": "move", "clock": "clock"}[kind], " ".join(map(str, values))
    code, rest = values[0][0], values[0][1:]
    alone = {number: word for word, number in ALONE.items()}
    if code in alone:
        return alone[code], ""
    if code == 1:
        return "enter-identity", rest.decode()
    if code == 2:
        return "enter-running-number", str(number_in(rest, 0, 4))
    if code == 3:
        return "enter-train-data", " ".join(str(number_in(rest, at, size)) for at, size in ((0, 4), (4, 4), (8, 2), (10, 2), (12, 1)))
    return {4: ("choose-level", str(rest[0])), 5: ("confirm", CONFIRMED[rest[0] - 1]), 10: ("acknowledge", ACKNOWLEDGED[rest[0] - 1])}[code]


def answer_object(record, form):
    """The answer that is recorded with an event."""
    members = {"event": record["number"], "time_ms": record["moment"], "mode": MODE_WORDS[record["mode"]],
            "level": None if record["level"] == 255 else record["level"], "brake": BRAKES[record["brake"]],
            "indications": signs_of(record["ind"])}
    if form > 1:
        members |= {"place_cm": record["estimate"], "uncertainty_cm": record["uncertainty"], "limit_m_per_h": record["limit"]}
    return members


def kept_object(block):
    train, (status, level), (at, country, group, distance) = block["train"], block["level"], block["position"]
    values = [None if at_value > 8 and value == NO_END else value for at_value, value in enumerate(block["values"])]
    return {
        "events": block["events"], "lives": block["lives"], "trip_outstanding": bool(block["trip"]),
        "identity": block["identity"] and block["identity"].decode(), "running_number": block["running"],
        "train": train and {"length_cm": train["length"], "maximum_m_per_h": train["maximum"], "category": train["category"],
                                 "deceleration_cm_per_s2": train["deceleration"], "reaction_ms": train["reaction"]},
        "level": {"value": level, "status": STATUS_WORDS[status]} if status else None,
        "position": {"country": country, "group": group, "distance_cm": distance, "status": STATUS_WORDS[at]} if at else None,
        "national_values": dict(zip(VALUES, values)), "countries": block["countries"],
    }


def forms_of(lines):
    """The text of lines, and their objects."""
    return "".join(plain + "\n" for plain, _ in lines), [members for _, members in lines]


def json_lines(objects):
    return "".join(json.dumps(one, separators=(",", ":")) + "\n" for one in objects)


# ---- for people

def decimal(number, parts):
    """So many hundredths or thousandths, without zeros at the end."""
    whole, part = divmod(abs(number), parts)
    return f"{'-' if number < 0 else ''}{whole}.{part:0{len(str(parts)) - 1}}".rstrip("0").rstrip(".")


def metres(number):
    return f"{decimal(number, 100)} m"


def km_per_h(number):
    return f"{decimal(number, 1_000)} km/h"


UNITS = {"_cm_per_s2": lambda number: f"{decimal(number, 100)} m/s2", "_m_per_h": km_per_h, "_ms": lambda number: f"{decimal(number, 1_000)} s",
         "_cm": metres}


def member_text(name, value):
    unit = next((unit for unit in UNITS if name.endswith(unit)), "")
    said = UNITS[unit](value) if unit and value is not None else value_text(value)
    return f"{name.removesuffix(unit).replace('_', ' ')} {said}"


def value_text(value):
    if isinstance(value, dict):
        return f"({members_text(value)})"
    if isinstance(value, list):
        return f"({', '.join(map(value_text, value)) or 'none'})"
    if value is None:
        return "none"
    return {True: "yes", False: "no"}[value] if isinstance(value, bool) else str(value)


def members_text(value):
    """An object, as people read it: its members by name, in the units that people use."""
    return ", ".join(member_text(*member) for member in value.items())


class Walk:
    """A walk over the blocks of an image. Each life is run again by the plain kernel from its power-up on, after what the head before it says.
    Of each event `event` is called, with what it is left open for the next line, or `say` for a line of its own."""

    def __init__(self):
        self.lines, self.is_whole = [], True
        self.life, self.reason = None, "before_oldest_block"  # the plain life, or why there is none
        self.open = []  # life and number of each event that no line says yet
        self.kept = None  # what the head of the block before says

    def leave(self, life, number):
        self.open.append((max(0, life), number))

    def end_run(self):
        if self.open:
            (life, first), (_, last) = self.open[0], self.open[-1]
            where, members = f"life {life} events {first}..{last}", dict(life=life, first_event=first, last_event=last)
            if self.life:
                self.say(f"{where} agree", **members, replay="agrees")
            else:
                self.say(f"{where} can't be replayed: {REASONS[self.reason]}", **members, replay="not_replayed", reason=self.reason)
        self.open = []

    def gap(self):
        self.end_run()
        self.life, self.reason, self.kept, self.is_whole = None, "gap", None, False

    def begin(self, block, at):
        """A power-up: after what the head of the block before says, or the kernel keeps where the life begins in a block."""
        self.end_run()
        record = block["records"][at]
        if at:
            kept, self.reason = (self.life.kept(), None) if self.life else (None, "within_block")
        elif self.kept:
            kept = self.kept
        else:
            kept = Kept() if record["number"] == 0 else None
        self.life = Life(kept, COLD[record["event"][1]]) if kept else None

    def record(self, block, at):
        record = block["records"][at]
        if record["event"][0] == "powerup":
            self.begin(block, at)
        elif self.life:
            self.life.take(*input_of(record["event"]))
        self.event(block, record, block["lives"] - sum(later["event"][0] == "powerup" for later in block["records"][at + 1:]))

    def head(self, block):
        self.kept = kept_in(block)

    def block(self, number, data):
        block = read_block(data)
        if block is None or block["number"] != number:
            self.gap()
            self.say(f"block {number} can't be read", block=number, replay="unreadable")
            return
        if self.kept and self.kept.events != block["records"][0]["number"]:
            self.gap()
        for at in range(len(block["records"])):
            self.record(block, at)
        self.head(block)

    def over(self, data):
        """Walks over an image; whether it isn't refused."""
        slots = slots_in(data[:SECTOR_BYTES]) if len(data) >= SECTOR_BYTES else None
        if slots is None or len(data) // SECTOR_BYTES != 1 + SLOT_SECTORS * slots:
            return False
        for number in run_of(data, slots, slots):
            at = SECTOR_BYTES * (1 + SLOT_SECTORS * (number % slots))
            self.block(number, data[at:at + SECTOR_BYTES * SLOT_SECTORS])
        self.end_run()
        return True


class Replay(Walk):
    """The lines of a replay, each as text and as an object."""

    def say(self, plain, **members):
        self.lines.append((plain, members))

    def differ(self, where, members, kind, field, recorded, wanted):
        self.end_run()
        self.is_whole = False
        plain = f"{where} differs in {field}\n  journal: {members_text(recorded)}\n  kernel:  {members_text(wanted)}"
        self.say(plain, **members, replay=kind, field=field, journal=recorded, kernel=wanted)

    def event(self, block, record, life):
        form = block["format"]
        if self.life:
            wanted = record_of(self.life.kept().events - 1, record["event"], self.life.moment(), self.life.now.output, self.life.place())
            fields = RECORD_FIELDS if form > 1 else RECORD_FIELDS[:6]
            field = next((name for name, key in fields if record[key] != wanted[key]), None)
            if field:
                where = f"life {life} block {block['number']} event {record['number']}"
                members = dict(life=life, block=block["number"], event=record["number"])
                self.differ(where, members, "record_differs", field, answer_object(record, form), answer_object(wanted, form))
                self.life, self.reason = None, "after_difference"
                return
        self.leave(life, record["number"])

    def head(self, block):
        if self.life:
            wanted = block_of(block["number"], [], self.life.kept(), block["format"])
            field = next((name for name, key in KEPT_FIELDS if block[key] != wanted[key]), None)
            if field:
                where, members = f"life {block['lives']} head of block {block['number']}", dict(life=block["lives"], block=block["number"])
                self.differ(where, members, "head_differs", field, kept_object(block), kept_object(wanted))
        super().head(block)

    def end(self):
        if self.is_whole:
            self.say("nothing differs", end="nothing_differs")
        else:
            self.say("something differs or is lost", end="differs_or_lost")
        return WHOLE if self.is_whole else LOST, *forms_of(self.lines)


def run_of(data, slots, there):
    """The numbers of the blocks that are retained, where the image has so many of its slots."""
    def sector(number):
        return data[SECTOR_BYTES * number:SECTOR_BYTES * (number + 1)]

    numbers = {valid_number(sector(1 + SLOT_SECTORS * slot), sector(2 + SLOT_SECTORS * slot), slot, slots) for slot in range(there)}
    first = max(numbers, default=0) + 1
    while first > 1 and first - 1 in numbers:
        first -= 1
    return range(first, max(numbers, default=0) + 1)


def replayed(data):
    """Status, the text for people, and the objects of the lines."""
    replay = Replay()
    return replay.end() if replay.over(data) else (REFUSED, "", [])


def main(words):
    status, said, objects = replayed(Path(words[-1]).read_bytes())
    print(json_lines(objects) if "--json" in words else said, end="")
    return status


if __name__ == "__main__":
    sys.exit(main(sys.argv[1:]))
