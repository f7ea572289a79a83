"""What `etcs_lab why` prints of the demands that a guard next to the unit makes by the telegram of an event: those of the plain guard (guard.py,
by the table of crates/track_guard/README.md). The words are this project's."""
from functools import cache

import guard
import telegrams
from track_packets import names

SURE = {"S": "sure", "F": "fairly_sure", "B": "to_be_looked_up"}
ACTIONS = {"trip": "trip for", "service_brake": "service brake for", "not_obeyed": "not obeyed:", "unreadable": "not readable:"}
TELEGRAMS = {"greater_version": "M_VERSION from 32 on", "same_version": "M_VERSION 17 to 31", "lesser_version": "M_VERSION below 16",
             "refused_unlinked": "refused telegram, not linked", "refused": "refused telegram"}


@cache
def table():
    return guard.table_of(guard.PAGE.read_text())


def demanded(data, mode, direction, is_overridden):
    """The words of each demand; none of one that demands nothing."""
    return [line.split() for line in guard.demands(table(), data, mode, direction, is_overridden) if line != "  nothing"]


def object_of(words, mode, only):
    action, *where, finding, section, sure = words
    return {"demanded": action, "only_in_direction": only, "mode": mode, "finding": finding,
            "packet": None if where[0] == "refused" else int(where[0]), "section": section, "sureness": SURE[sure]}


def group_of(data):
    """NID_C and NID_BG; None of a telegram that is refused."""
    telegram = telegrams.read(data)
    return telegram and telegram.group


def members(data, mode, is_overridden, groups):
    """The demands as JSON has them, in the mode before the event, of a telegram that closed these groups, as JSON has them. The direction is that of
    the telegram's group, if it is one of them."""
    group = group_of(data)
    known = next((one["direction"] for one in groups if (one["country"], one["group"]) == group), None)
    anyway = demanded(data, mode, known or "unknown", is_overridden)
    found = [object_of(words, mode, None) for words in anyway]
    for way in () if known else ("nominal", "reverse"):
        found += [object_of(words, mode, way) for words in demanded(data, mode, way, is_overridden) if words not in anyway]
    return found


def line(demand):
    """.. and for people."""
    only = f", if passed in the {demand['only_in_direction']} direction" if demand["only_in_direction"] else ""
    number = demand["packet"]
    what = TELEGRAMS[demand["finding"]] if number is None else f"packet {number} {names().get(number) or 'without a name'}"
    return f"\n  outside the unit{only}: {ACTIONS[demand['demanded']]} {what} ({demand['section']}, {demand['sureness'].replace('_', ' ')})"
