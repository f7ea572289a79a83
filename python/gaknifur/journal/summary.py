"""Summarise a journal: its verdict, its last life, the last brake intervention, the trips with their causes,
and the outputs that may not have been released.
"""
from dataclasses import dataclass
from typing import Any

import pandas as pd

from ..program import Json
from . import tables, unused_packets, verdict
from .reading import Journal

MOST_TRIPS = 12
LAST = ("event", "life", "mode", "level", "brake", "place_cm", "time_ms", "speed_kmh")
"""The members of the last record in the summary."""


@dataclass
class Newest:
    """The newest block, and whether its outputs were released."""

    block: int
    first_event: int
    last_event: int
    is_released: bool
    """Whether the image shows that its outputs left the unit: the unit began to write another block of the same life."""
    life: int
    left_to: int | None
    """The last event of the life before the block, whose outputs all left the unit except for that of its power-up; None if there is none."""
    is_power_up: bool
    """Whether it contains only a power-up, whose output is never released."""
    unwritten: Json | None
    """The block that was being written, none of whose outputs was released."""


def newest(journal: Journal, table: pd.DataFrame) -> Newest | None:
    """The newest block of a journal; None if it can't be read, or isn't in the part that was read."""
    number = (journal.examination["journal"] or {}).get("newest_block")
    slot = next((slot for slot in journal.slots if slot["state"] == "block" and slot.get("block") == number), None)
    if number is None or slot is None or (journal.is_part and journal.records[-1]["event"] != slot["last_event"]):
        return None
    unwritten = (other for other in journal.slots if other["state"] == "unwritten")
    following = next((other for other in unwritten if other.get("block") == number + 1), None)
    is_released = following is not None and following.get("life") == slot.get("life")
    is_listed = table["block"] == number
    kinds = list(table["kind"][is_listed if "source" not in table else is_listed & (table["source"] == "journal")])
    before = slot["first_event"] - 1
    is_left = (table["event"] == before) & (table["life"] == slot["life"]) & (table["kind"] != "powerup")
    left_to = before if bool(is_left.any()) else None
    return Newest(number, slot["first_event"], slot["last_event"], is_released, slot["life"], left_to, kinds == ["powerup"], following)


@dataclass
class Brief:
    """The summary at the top of a page."""

    verdict: verdict.Verdict
    last: Json | None
    """The last record, with its speed."""
    first_event: int | None
    """The first listed event of the last life."""
    intervention: Json | None
    """The last brake intervention that didn't begin with a power-up."""
    worst: Json | None
    """The intervention with the emergency brake, or else with the service brake, that was farthest above the limit; None if that is the last one."""
    trips: list[Json]
    """The last trips, the newest first: where each was entered, and why."""
    more_trips: int
    newest: Newest | None
    not_obeyed: str | None
    """The packets of issue 2.3.0 in the telegrams that the unit doesn't obey; None if there are none."""

    @property
    def rows(self) -> set[int]:
        """The rows that it links to."""
        found = {trip["row"] for trip in self.trips} | {one["row"] for one in (self.last, self.intervention, self.worst) if one}
        return {int(row) for row in found}


def trip_row(table: pd.DataFrame, row: Any) -> Json:
    """A trip: where it was entered, and why."""
    at = {name: table[name].at[row] for name in ("event", "life", "place_cm", "time_ms", "speed_kmh")}
    trip, reason = table["trip"].at[row], table["causes_not_known"].at[row]
    why = trip.text() if trip is not None else f"cause not known: {reason or 'etcs_lab why lists none'}"
    return at | {"row": row, "why": why}


def brief(journal: Journal, table: pd.DataFrame, found: pd.DataFrame) -> Brief:
    """The summary of a journal with these records and interventions, whose rows are indices into the journal's records."""
    last = None
    if len(table):
        row = table.index[-1]
        last = {name: table[name].at[row] for name in LAST} | {"row": row}
    braked = found[found["kind"] != "powerup"]
    intervention, worst = (one.iloc[at].to_dict() | {"row": one["first_row"].iat[at]} if len(one) else None
                           for one, at in ((braked, -1), (tables.worst_first(braked), 0)))
    if worst and intervention and worst["row"] == intervention["row"]:
        worst = None
    entered = tables.trips(table)[::-1]
    of_life = table["event"][table["life"] == last["life"]] if last else table["event"]
    unobeyed = unused_packets.summary(table["not_obeyed"])
    trips = [trip_row(table, row) for row in entered[:MOST_TRIPS]]
    return Brief(verdict.of(journal), last, int(of_life.iat[0]) if len(of_life) else None, intervention, worst, trips,
                 len(entered) - len(trips), newest(journal, table), unobeyed.text() if unobeyed.packets else None)
