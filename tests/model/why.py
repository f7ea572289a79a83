#!/usr/bin/env python3
"""Explains why the plain unit brakes, and what decides its limit: each life of an image is replayed from its power-up on, after the head
before it, and each event has a line at which the brake, the limit, a cause of the brake or the kind of limit cause changes in its life, or whose
telegram demands something outside the unit.
Events whose life can't be replayed have one line with the reason, and so has each block that can't be read.

    tests/model/why.py --json [--known] IMAGE [EVENT]     print what `etcs_lab why` prints, and end with its status
    tests/model/why.py IMAGE [EVENT]                      print it for people
"""
import sys
from pathlib import Path

import demand_words
import known
import output
import group_words
from limit_reasons import KINDS, limit_cause
from replay import Walk, forms_of, json_lines, km_per_h, metres

WHOLE, REFUSED, LOST = 0, 1, 4

# Of each row of the plain table, in its order: the word, what it says, and how it ends.
WORDS = {
    "not revalidated": ("not_revalidated", "the driver has not revalidated since the power-up", "ends when the driver has revalidated"),
    "mode TR": ("in_trip", "the mode is Trip", "ends when the driver acknowledges the trip at standstill"),
    "mode SF": ("in_system_failure", "the mode is System Failure", "ends at a power-up alone"),
    "trip outstanding": ("owes_trip", "a trip is not acknowledged", "ends when the driver acknowledges the trip at standstill"),
    "above the limit by 10000": (
        "far_too_fast", "the speed was above the limit by more than 10 km/h, and the train has not stood since", "ends when the train stands"),
    "rolled back too far": (
        "rolled_too_far", "the train rolled backward too far since it stood", "ends when the train stands, or a greater D_NVROLL comes into force"),
    "service asked for": (
        "service_brake_requested", "linking or a balise group asked for the service brake, and the train has not stood since",
        "ends when the train stands"),
    "above the limit by 5000": (
        "too_fast", "the speed was above the limit by more than 5 km/h, and not within it since", "ends when the speed is within the limit"),
    "moves in standstill": ("must_stand", "the train moves where it must stand", "ends when the train stands, or in another mode"),
    "owed too long": (
        "owes_too_long", "an acknowledgement has been owed for 5 s or longer",
        "ends when the driver acknowledges, a mode deletes it, or a further transition begins it anew"),
}

# Of each row that led to Trip, and of rows 3 to 5 by the first condition that held: what it says, and the sections that it is from.
TRIPS = {
    "end_passed": ("the minimum safe front was past the end of authority", "4.6.3"),
    "linking": ("linking or a balise group asked for it", "3.4.4, 3.16.2"),
    "stop": ("an authority with V_MAIN 0 was used", "3.11.6"),
    "staff_distance": ("the path in Staff Responsible was above D_NVSTFF", "4.4"),
    "level": ("the level was 1, and the authority or the track ahead was not known", "5.10"),
}
TRIP_OF_ROW = {6: "staff_distance", 9: "level"}


class Reasons:
    """A life, since which event each cause holds, by which event Trip was entered and why, while the trip is owed, and what the telegram of its
    last event demands."""

    def __init__(self, life, number):
        self.life, self.since, self.shown, self.trip = life, {}, None, None
        self.note(number)

    def note(self, number, telegram=None):
        answer = self.life.now.output
        self.demands = demand_words.members(telegram, *self.train, self.groups()) if telegram else []
        self.train = self.life.mode(), self.life.is_overridden()
        held = output.causes(self.life, self.life.mode(), answer.limit)
        self.since = {wanted: self.since.get(wanted, number) for (_, wanted), holds in held.items() if holds}
        self.decides = limit_cause(self.life)
        now = self.life.now
        if now.entered == "TR":
            self.trip = TRIP_OF_ROW.get(now.row) or now.tripped[0], number
        elif not self.life.is_tripped():
            self.trip = None

    def groups(self):
        return [group_words.members(*group) for group in self.life.now.groups]

    def is_new(self):
        """Whether brake, limit, the causes or the kind of the limit's is another one than at the event before, or something is demanded."""
        answer, decides = self.life.now.output, self.decides
        before, self.shown = self.shown, (answer.brake, answer.limit, dict(self.since), decides.kind, decides.number)
        return self.shown != before or bool(self.demands)

    def numbers(self):
        life = self.life
        backward = output.rolled(output.moments_of(life, life.now.output.limit))
        return life.now.output, life.speed(), backward, life.national.in_force.values.roll

    def members(self, number):
        (answer, speed, backward, allowed), decides = self.numbers(), self.decides
        return {
            "event": number, "brake": answer.brake, "limit_m_per_h": answer.limit, "speed_m_per_h": speed, "backward_cm": backward,
            "allowed_backward_cm": allowed, **{word: self.since.get(wanted) for wanted, (word, _, _) in WORDS.items()},
            **dict(zip(("trip_cause", "trip_cause_event", "trip_cause_section"), (*self.trip, TRIPS[self.trip[0]][1]) if self.trip else (None,) * 3)),
            "limit_cause": decides.kind, "limit_cause_speed_m_per_h": decides.speed, "limit_cause_place_cm": decides.place,
            "limit_cause_number": decides.number, "limit_cause_section": KINDS[decides.kind][1],
            **({"groups": self.groups()} if self.life.now.groups else {}),
        }

    def all_members(self, number):
        """With the demands."""
        return self.members(number) | ({"demands": self.demands} if self.demands else {})

    def line(self, number):
        (answer, speed, backward, allowed), decides = self.numbers(), self.decides
        causes = [f"\n  because {why} (since event {self.since[wanted]}, {ends})" for wanted, (_, why, ends) in WORDS.items() if wanted in self.since]
        if self.trip:
            why, sections = TRIPS[self.trip[0]]
            causes.append(f"\n  the train was tripped: {why} (event {self.trip[1]}, {sections})")
        says, sections = KINDS[decides.kind]
        place = "" if decides.place is None else f" at {metres(decides.place)}"
        groups = "".join(group_words.line(*group) for group in self.life.now.groups)
        named = "" if decides.number is None else f", number {decides.number}"
        rolled = f", rolled backward {metres(backward)} ({metres(allowed)} allowed)" if backward else ""
        return (f"event {number}: brake {answer.brake}, limit {km_per_h(answer.limit)}, speed {km_per_h(speed)}{rolled}" + "".join(causes)
                + f"\n  {says}: {km_per_h(decides.speed)}{place}{named} ({sections})" + groups)


class Why(Walk):
    """Of each event whose life is known its number, whether it has a line of its own, and what the line says in both forms; `lines` has with
    them, as events of no number, those that are left out and the blocks that can't be read."""

    shows_known = False

    @property
    def events(self):
        return [line for line in self.lines if line[0] is not None]

    def say(self, line, **members):
        self.lines.append((None, True, line, members))

    def event(self, block, record, life):
        number = record["number"]
        if not self.life:
            self.leave(life, number)
            return
        if record["event"][0] == "powerup":
            self.reasons = Reasons(self.life, number)
        else:
            self.reasons.note(number, record["event"][1] if record["event"][0] == "telegram" else None)
        said = self.reasons.line(number) + "".join(map(demand_words.line, self.reasons.demands))
        all_known = {"known": known.members(self.life)} if self.shows_known else {}
        self.lines.append((number, self.reasons.is_new() or self.shows_known, said, self.reasons.all_members(number) | all_known))


def walk_of(data, shows_known=False):
    """The walk over an image; None where it is refused."""
    walk = Why()
    walk.shows_known = shows_known
    return walk if walk.over(data) else None


def walked(data):
    """The events of an image whose lives are known; None where it is refused."""
    walk = walk_of(data)
    return walk and walk.events


def explained(walk, only=None):
    """Status, the text for people, and the objects of the lines."""
    if walk is None:
        return REFUSED, "", []
    lines = [(line, members) for number, is_new, line, members in walk.lines if (is_new if only is None else number == only)]
    is_found = walk.is_whole if only is None else bool(lines)
    return WHOLE if is_found else LOST, *forms_of(lines)


def main(words):
    is_json, is_known, words = "--json" in words, "--known" in words, [word for word in words if word not in ("--json", "--known")]
    status, said, objects = explained(walk_of(Path(words[0]).read_bytes(), is_known), int(words[1]) if words[1:] else None)
    print(json_lines(objects) if is_json else said, end="")
    return status


if __name__ == "__main__":
    sys.exit(main(sys.argv[1:]))
