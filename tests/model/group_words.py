"""What `etcs_lab why` prints of the balise groups that an event closed (SUBSET-026, 3.4.4, 3.16.2 and 4.8; the words are this project's)."""

from links import ACCEPT, IGNORE, SERVICE, TRIP
from modes import used_in
from track_packets import names

# Of each kind its sentence and its section.
KINDS = {
    "announced": ("accepted as announced", "3.4.4"),
    "not_linked": ("accepted, not being linked", "3.4.4"),
    "linking_unused": ("accepted, linking not being in use", "3.4.4"),
    "not_announced": ("not used, since it is not announced while others are", "3.4.4"),
    "wrong_way": ("not used, since it was passed in the wrong direction", "3.16.2.3"),
    "too_early": ("not used, since it came before the place where it is announced", "3.16.2"),
    "balise_missing": ("not used, since a balise of it was not read", "3.16.2"),
    "counters_differ": ("not used, since its message counters do not fit", "3.16.2"),
    "telegrams_differ": ("not used, since its telegrams do not agree", "3.16.2"),
}
OF_CAUSE = {"missing": "balise_missing", "counter": "counters_differ", "mixed": "telegrams_differ"}
ACCEPTED = ("announced", "not_linked", "linking_unused")
DIRECTIONS = {0: "reverse", 1: "nominal", None: None}
SAID = {None: "", "not_known": " (not known)", "infill": " (infill)", "not_in_mode": " (not in this mode)", "other_direction": " (other direction)",
        "group_not_accepted": ""}
KNOWN = (3, 5, 12, 21, 27, 41, 65, 66, 80)


def is_wrong_way(closed, entry):
    return closed.nominal is not None and closed.nominal != entry.nominal


def kind_of(closed, verdict):
    if closed.cause:
        return OF_CAUSE[closed.cause]
    if verdict.kind == IGNORE:
        return "not_announced"
    if verdict.kind == ACCEPT:
        return "announced" if verdict.entry else "linking_unused" if closed.linked else "not_linked"
    return "wrong_way" if is_wrong_way(closed, verdict.entry) else "too_early"


def reaction_of(kind, closed, entry):
    """What is asked for because of the group itself."""
    if kind in ACCEPTED or kind == "not_announced":
        return None
    if kind == "wrong_way":
        return "trip"
    if not entry:
        return None if closed.linked else "service"
    return {TRIP: "trip", SERVICE: "service"}.get(entry.reaction)


def nominal_of(kind, closed, entry):
    """By its balises; that of an accepted group, where only one was read, by its announcement."""
    return entry.nominal if closed.nominal is None and kind == "announced" else closed.nominal


def why_unused(packet, mode, nominal):
    if packet.kind not in KNOWN:
        return "not_known"
    if packet.kind not in used_in(mode):
        return "not_in_mode"
    return None if packet.direction == 2 or packet.direction == nominal else "other_direction"


def packets_of(kind, closed, mode, nominal):
    """Number, name and why it isn't used, of each packet of the message."""
    for packet in closed.packets or ():
        yield packet.kind, names().get(packet.kind), why_unused(packet, mode, nominal) if kind in ACCEPTED else "group_not_accepted"


def members(closed, verdict, mode):
    """A group as JSON has it."""
    kind = kind_of(closed, verdict)
    nominal = nominal_of(kind, closed, verdict.entry)
    return {
        "country": closed.group[0], "group": closed.group[1], "mode": mode, "direction": DIRECTIONS[nominal], "outcome": kind,
        "announcement": verdict.entry.number if verdict.entry else None, "reaction": reaction_of(kind, closed, verdict.entry),
        "section": KINDS[kind][1],
        "packets": [{"packet": number, "name": name, "why": why} for number, name, why in packets_of(kind, closed, mode, nominal)],
    }


def line(closed, verdict, mode):
    """.. and for people."""
    group = members(closed, verdict, mode)
    announced = "" if group["announcement"] is None else f", announcement {group['announcement']}"
    asks = {"trip": ", asks for a trip", "service": ", asks for the service brake", None: ""}[group["reaction"]]
    packets = "".join(f"\n    packet {p['packet']} {p['name'] or 'without a name'}{SAID[p['why']]}" for p in group["packets"])
    return (f"\n  group {group['country']} {group['group']} in mode {mode}, direction {group['direction'] or 'not known'}: {KINDS[group['outcome']][0]}"
            f"{announced}{asks} ({group['section']}){packets}")
