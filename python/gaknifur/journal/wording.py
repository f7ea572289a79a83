"""Texts for the keywords of `etcs_lab` (docs/reference/glossary.md), and for events, telegrams and actions."""
from decimal import Decimal
from typing import Any

from ..program import Json
from . import unused_packets

MODES = {"FS": "Full Supervision", "OS": "On Sight", "SR": "Staff Responsible", "SH": "Shunting", "UN": "Unfitted",
         "SB": "Stand By", "TR": "Trip", "PT": "Post Trip", "SF": "System Failure"}
INDICATIONS = {"on_sight": "acknowledge On Sight", "shunting": "acknowledge Shunting", "level_0": "acknowledge level 0",
               "trip": "trip outstanding", "overridden": "override", "not_revalidated": "not revalidated",
               "overspeed": "above the limit"}
SUBJECTS = {"identity": "the identity", "running_number": "the running number", "train_data": "the train data",
            "level": "the level", "trip": "the trip", "on_sight": "On Sight", "shunting": "Shunting",
            "level_0": "level 0"}
PLAIN_ACTIONS = {"start": "starts", "choose_shunting": "chooses Shunting", "leave_shunting": "leaves Shunting",
                 "override": "overrides the trip", "close_desk": "closes the desk"}
NO_CATEGORY = 15
SCALES_CM = {0: 10, 1: 100, 2: 1000}
"""Q_SCALE of SUBSET-026, 7.5.1: one unit of distance in cm."""


def kmh(metres_per_hour: float | None) -> str:
    """A speed in km/h; a question mark if it isn't known."""
    return "?" if metres_per_hour is None else f"{metres_per_hour / 1000:g}"


def counted(number: int, one: str, more: str) -> str:
    """A number with its noun, in the singular or the plural."""
    return f"{number} {one if number == 1 else more}"


def exact(value: int, unit: int) -> str:
    """A whole number divided by a unit, with all of its digits."""
    return f"{Decimal(value) / unit:f}"


LEFT_OUT = "[left out]"
"""What an anonymous table or report has in place of what is left out."""


def action_text(record: Json) -> str:
    """An action of the driver as text."""
    action = record["action"]
    if action == "enter_identity":
        return f"enters the identity \"{record['identity']}\""
    if action == "enter_running_number":
        number = record["running_number"]
        return f"enters the running number {LEFT_OUT if number is None else number}"
    if action == "enter_train_data":
        return f"enters train data: {train_text(record)}"
    if action == "choose_level":
        return f"chooses level {record['chosen_level']}"
    if action == "confirm":
        return f"confirms {SUBJECTS.get(record['confirmed'], record['confirmed'])}"
    if action == "acknowledge":
        return f"acknowledges {SUBJECTS.get(record['acknowledged'], record['acknowledged'])}"
    return PLAIN_ACTIONS.get(action, str(action))


def train_text(train: Json) -> str:
    """Train data as text, of an action or as they are kept."""
    category = "no category" if train["category"] == NO_CATEGORY else f"category {train['category']}"
    return (f"{train['length_cm'] / 100:g} m, up to {kmh(train['maximum_m_per_h'])} km/h, {category}, brakes at "
            f"{train['deceleration_cm_per_s2'] / 100:g} m/s² after {train['reaction_ms'] / 1000:g} s")


def telegram_text(decoded: Json) -> str:
    """A telegram as text."""
    if "refused" in decoded:
        return f"telegram that can't be decoded: {decoded['refused']['number']} {decoded['refused']['name']}"
    header, packets = decoded["header"], [str(packet["packet"]) for packet in decoded["packets"]]
    sent = f"packet{'s' if len(packets) > 1 else ''} {', '.join(packets)}" if packets else "no packet"
    return (f"telegram of group {header['NID_C']}/{header['NID_BG']}, balise {header['N_PIG'] + 1} of "
            f"{header['N_TOTAL'] + 1}, {sent}")


def event_text(record: Json) -> str:
    """An event as text."""
    kind = record["kind"]
    if kind == "telegram":
        unused = unused_packets.text(record.get("unused") or ())
        return telegram_text(record["decoded"]) + (f"; not used: {unused}" if unused else "")
    if kind == "driver":
        return f"the driver {action_text(record)}"
    if kind == "odometer":
        return f"moved {exact(record['movement_cm'], 100)} m, at {kmh(record['speed_m_per_h'])} km/h"
    if kind == "clock":
        return f"moment {exact(record['now_ms'], 1000)} s"
    return f"power-up, moved without power: {record['word'].replace('_', ' ')}"


def announced_end_cm(decoded: Json) -> int | None:
    """The distance from its group to the end of a telegram's authority (packet 12), as it is announced."""
    for packet in decoded.get("packets", ()):
        if packet["packet"] != 12 or "skipped_bits" in packet:
            continue
        scale = next((value for name, value in packet["fields"] if name == "Q_SCALE"), None)
        lengths = [value for name, value in packet["fields"] if name in ("L_SECTION", "L_ENDSECTION")]
        if scale in SCALES_CM and lengths:
            return int(sum(lengths)) * SCALES_CM[scale]
    return None


def lost_text(lost: Json) -> str:
    """Blocks and events that no readable block holds, as text."""
    def run(first: Any, last: Any, word: str) -> str:
        if first is None and last is None:
            return f"an unknown number of {word}s"
        ends = ["?" if end is None else f"{end:,}" for end in (first, last)]
        return f"{word} {ends[0]}" if ends[0] == ends[1] else f"{word}s {ends[0]} to {ends[1]}"

    return f"{run(lost['first_block'], lost['last_block'], 'block')}, with {run(lost['first_event'], lost['last_event'], 'event')}"


CONTRADICTIONS = {"events": "its events don't follow those of the block before",
                  "lives": "its lives don't follow those of the block before, or can't be",
                  "moment": "a moment goes back within a life"}


def slot_text(slot: Json) -> str:
    """The state of a slot that isn't a block of the journal."""
    state, number = slot["state"], slot.get("block")
    if state == "unreadable":
        record = f" of record {slot['record']}" if slot.get("record") else ""
        return f"block {number} can't be read: the {slot['field']}{record} at byte {slot['byte']:,} isn't one"
    events = f", events {slot['first_event']:,} to {slot['last_event']:,}" if "first_event" in slot else ""
    return {
        "block": f"block {number}{events}" + ("" if slot.get("gate_is_own", True) else "; its gate isn't its own")
                 + ("" if slot.get("in_journal", True) else "; it isn't in the journal"),
        "misplaced": f"begins with number {number}, which belongs to another slot",
        "foreign": "open, and begins with no mark and number",
        "unwritten": f"block {number}{events}: it was being written, and none of its outputs was released",
        "replaced": f"block {number}{events}: an older block; its gate was closed to write another one over it",
        "remains": "closed, and holds remains that are no block of this slot",
    }.get(state, str(state))
