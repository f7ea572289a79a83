"""Replay a journal against another unit, and compare its answers with those of the proved unit.

The output is like that of `etcs_lab replay`: for each life the events that agree, and the first one that differs, with both answers.
Events after a difference aren't compared, since the states of the two units differ. docs/howto/oracle.md describes the lines.
"""
import itertools
import json
from collections.abc import Iterator
from dataclasses import dataclass, field

from ..escaping import shown
from ..program import REFUSED, Failed, Json
from ..units.other_unit import Broken, OtherUnit
from ..units.protocol import ANSWER, Greeting, answer_of, event_of
from .cases import DRIVEN, derived, with_train

PLACE = ("place_cm", "uncertainty_cm")
FOLLOWS = {"limit_kmh": ("limit_m_per_h",), "place_m": ("place_cm",), "min_safe_front_cm": PLACE,
           "max_safe_front_cm": PLACE,
           "above_limit_m_per_h": ("limit_m_per_h",), "above_limit_kmh": ("limit_m_per_h",)}
"""The members of an answer from which other values of a record are computed."""


@dataclass
class Comparison:
    """The answers of a unit to the events of a journal, to all of them or until it broke the protocol."""

    records: list[Json]
    greeting: Greeting | None = None
    answers: list[Json] = field(default_factory=list)
    broken: Broken | None = None

    @property
    def members(self) -> tuple[str, ...]:
        """The members of its answers."""
        return self.greeting.members if self.greeting else ()

    @property
    def agrees(self) -> bool:
        """Whether each answer is the same as that of the proved unit."""
        return self.broken is None and all(difference(record, answer, self.members) is None
                                           for record, answer in zip(self.records, self.answers, strict=True))


def ask(command: str, name: str, records: list[Json], within_s: float) -> Comparison:
    """Sends the events of a journal to a unit, from the first event of the first life on."""
    if records and (records[0]["event"], records[0]["kind"]) != (0, "powerup"):
        raise Failed(f"{name}: the journal has lost its beginning, so another unit can't be compared; make the image with more slots",
                     REFUSED)
    comparison = Comparison(records)
    with OtherUnit(command, within_s) as unit:
        try:
            comparison.greeting = unit.greet(name)
            for record in records:
                comparison.answers.append(unit.answer(event_of(record)))
            unit.end()
        except Broken as broken:
            comparison.broken = broken
    return comparison


def difference(record: Json, answer: Json, members: tuple[str, ...]) -> str | None:
    """The first member of an answer that differs from the proved unit's."""
    return next((name for name in members
                 if (set(record[name]) != set(answer[name]) if name == "indications"
                     else record[name] != answer[name])),
                None)


# ---- output

@dataclass(frozen=True)
class Line:
    """A line of the output: as text, and as a JSON object."""

    text: str
    members: Json


def stretch(life: int, first: int, last: int, is_compared: bool) -> Line:
    """The line for events that agree, or that follow a difference."""
    verdict = "agree" if is_compared else "aren't compared: they follow an answer that differs"
    found = {"life": life, "first_event": first, "last_event": last, "against": "agrees" if is_compared
            else "not_compared"}
    return Line(f"life {life} events {first}..{last} {verdict}",
                found | ({} if is_compared else {"reason": "after_difference"}))


def differing(record: Json, answer: Json, name: str, members: tuple[str, ...]) -> Line:
    """The line for an answer that differs, with that of the proved unit."""
    kernel = answer_of(record, members)
    unit_text, kernel_text = (json.dumps(one, separators=(",", ":")) for one in (answer, kernel))
    return Line(f"life {record['life']} event {record['event']} differs in {name}\n"
                f"  unit:   {unit_text}\n  kernel: {kernel_text}",
                {"life": record["life"], "event": record["event"], "against": "differs", "field": name, "unit": answer,
                 "kernel": kernel})


def of_life(life: int, pairs: list[tuple[Json, Json]], members: tuple[str, ...]) -> Iterator[Line]:
    """The lines for the answers of a life."""
    names = [difference(record, answer, members) for record, answer in pairs]
    at = next((index for index, name in enumerate(names) if name), len(pairs))
    events = [record["event"] for record, _ in pairs]
    if at:
        yield stretch(life, events[0], events[at - 1], True)
    if at < len(pairs):
        yield differing(*pairs[at], str(names[at]), members)
        if at + 1 < len(pairs):
            yield stretch(life, events[at + 1], events[-1], False)


def lines(comparison: Comparison) -> Iterator[Line]:
    """All lines of the output."""
    if comparison.greeting:
        left = comparison.greeting.leaves_out
        yield Line(f"the unit {shown(comparison.greeting.unit)}" + (f"; it doesn't report {', '.join(left)}" if left else ""),
                   {"unit": comparison.greeting.unit, "members": list(comparison.greeting.members)})
    pairs = list(zip(comparison.records, comparison.answers))
    for life, inner in itertools.groupby(pairs, lambda pair: int(pair[0]["life"])):
        yield from of_life(life, list(inner), comparison.members)
    if comparison.broken:
        yield Line(f"the unit broke the protocol: {comparison.broken}",
                   {"against": "broken", "answers": comparison.broken.answers, "said": str(comparison.broken)})
    end = "broken" if comparison.broken else "nothing_differs" if comparison.agrees else "differs"
    yield Line({"broken": "not all was compared", "differs": "something differs",
                "nothing_differs": "nothing differs"}[end], {"end": end})


# ---- its answers instead of the proved unit's

def not_reported(names: set[str], members: tuple[str, ...]) -> list[str]:
    """The values among `names` that the unit doesn't report."""
    def is_reported(name: str) -> bool:
        if name.startswith("shows_"):
            return "indications" in members
        return all(one in members for one in FOLLOWS.get(name, (name,) if name in ANSWER else ()))
    return sorted(name for name in names if not is_reported(name))


def with_answer(record: Json, answer: Json) -> Json:
    """A record with another unit's answer, and with the values that are computed from it."""
    found = record | answer
    front, around = found["place_cm"], found["uncertainty_cm"]
    found |= {"min_safe_front_cm": front - around, "max_safe_front_cm": front + around}
    found = derived(found)
    return with_train(found, record["train_place_cm"], record["train_speed_m_per_h"]) if DRIVEN[0] in record else found


def answered(comparison: Comparison) -> list[Json]:
    """The records with the answers of another unit instead of the proved one's; what it doesn't report stays."""
    return [with_answer(record, answer) for record, answer in zip(comparison.records, comparison.answers, strict=True)]
