"""Check a track and the steps of a train on it for the items of docs/explain/safety.md.

Each check has the number of its item. It examines the course of a life (`track_messages`) and finds what the item warns of,
with the numbers that decide it. docs/reference/track-checks.md lists the items, and those that no track can show.
"""
from collections.abc import Callable, Iterator
from dataclasses import dataclass
from decimal import Decimal
from itertools import pairwise

from .. import guard, unit
from ..journal import unused_packets
from ..journal.groups import Link, Packet, links_of, name_of
from ..journal.wording import kmh
from ..program import Json
from ..simulation.drives import Drive
from ..telegrams.telegrams import WIDTH, packets_in
from .course import DRIVE, Event
from .track_messages import NATIONAL_SPEED, NEAR_CM, NONE, ONBOARD, ON_SIGHT, SHUNTING, TRIP, Known, Message, Placed, Walked, rounded_up, speed_of

RESTRICTING = (3, 12, 27, 41, 65, 80)
"""Packets that may restrict: if one is lost, something is allowed that it would have forbidden."""
NEVER_S, NO_END_S = 1_023, 255
MARGIN_M_PER_H, EMERGENCY_M_PER_H = 5_000, 10_000
"""How far above the limit the service brake and the emergency brake are commanded."""
FIX_CM, KM_CM, ACKNOWLEDGED_WITHIN_S = 500, 100_000, 5
CM_PER_S2 = 2_592
"""The growth per cm of the square of a speed in m/h, at 1 cm/s2."""
UNKNOWN_GRADIENT, LEVEL_1 = 255, 2
UNKNOWN_GROUP = 16_383
"""NID_BG of a group whose identity isn't known."""
TRIP_MODES = ("FS", "OS", "SR")


@dataclass(frozen=True)
class Finding:
    """A finding for an item of docs/explain/safety.md: where, what was found, and what to do."""

    safety: int
    pointer: str
    found: str
    do: str


@dataclass(frozen=True)
class Judged:
    """The input of the checks: a life that was followed, and its drive in a closed loop, if any."""

    walked: Walked
    drive: Drive | None = None
    has_guard: bool = True
    """Whether the unit's library, which has the guard, is there."""

    @property
    def authorities(self) -> Iterator[tuple[Message, Packet]]:
        """Each packet 12 that was used."""
        return ((message, packet) for message in self.walked.messages for packet in message.packets if packet.number == 12)


Check = Callable[[Judged], Iterator[Finding]]
CHECKS: list[tuple[int, Check]] = []


def item(number: int) -> Callable[[Check], Check]:
    """Registers a check of an item."""
    def add(check: Check) -> Check:
        CHECKS.append((number, check))
        return check
    return add


# ---- quantities

def metres(cm: int) -> str:
    """A distance in m."""
    return f"{f'{cm / 100:.2f}'.rstrip('0').rstrip('.')} m"


def speed(m_per_h: int) -> str:
    """A speed in km/h."""
    return f"{kmh(m_per_h)} km/h"


def way_to_slow(fast: int, slow: int, deceleration: int, reaction_ms: int) -> int:
    """The way in cm from one speed to another."""
    return rounded_up(fast * fast - slow * slow, CM_PER_S2 * deceleration) + rounded_up(fast * reaction_ms, 36_000)


def margin(limit: int, deceleration: int, reaction_ms: int) -> int:
    """How far in cm a train that is braked from 10,000 m/h above a limit overruns (item 14)."""
    return rounded_up(20_000 * limit + 100_000_000, CM_PER_S2 * deceleration) + rounded_up(10_000 * reaction_ms, 36_000)


def is_under(one: Placed, record: Json, length_cm: int) -> bool:
    """Whether a stretch may be under the train."""
    return one.line["start_cm"] <= record["max_safe_front_cm"] and (one.end_cm is None or one.end_cm > record["min_safe_front_cm"] - length_cm)


def is_left(end: int | None, record: Json) -> bool:
    """Whether a stretch isn't yet behind the minimum safe front."""
    return end is None or end > record["min_safe_front_cm"]


def is_refused(record: Json) -> bool:
    """Whether a record is a telegram that the kernel refuses."""
    return record["kind"] == "telegram" and "refused" in record["decoded"]


def packets_sent(record: Json) -> Iterator[tuple[int, str]]:
    """The packets in the telegram of a record, each with its bits, found by their lengths."""
    digits = record["telegram"]
    return packets_in(f"{int(digits, 16):0{4 * len(digits)}b}")


# ---- messages and linking

@item(1)
def timers_that_start_late(judged: Judged) -> Iterator[Finding]:
    """An authority with timers of a group that closes after its last balise."""
    for message, packet in judged.authorities:
        has_loa = (packet.get("V_LOA") or 0) > 0 and packet.get("T_LOA") != NEVER_S
        if message.closed != message.reads[-1].event and (has_loa or any(
                time != NEVER_S for time in packet.all("T_SECTIONTIMER"))):
            way = judged.walked.events[message.closed].place_cm - message.reads[-1].place_cm
            unread = ", ".join(map(str, message.unread))
            yield Finding(1, packet.pointer, f"group {message.name} sends an authority with timers and closes {metres(way)} after "
                          f"its last balise that was read, since N_PIG {unread} wasn't; the timers start there",
                          "send authorities with timers by groups that are whole at their last balise")


def announced(judged: Judged, message: Message) -> Link | None:
    """The announcement of a group, also if it was missed while the group was being read."""
    lost = {one.read.event: one.link for one in judged.walked.lost}
    return message.link or next((lost[read.event] for read in message.reads if read.event in lost), None)


@item(2)
def lost_without_a_sign(judged: Judged) -> Iterator[Finding]:
    """A restriction that is lost without a sign if a group is broken."""
    for message in judged.walked.messages:
        there = sorted({packet.number for packet in message.own if packet.number in RESTRICTING})
        packets = f"packet{'s' if len(there) > 1 else ''} {', '.join(map(str, there))}"
        link = announced(judged, message)
        if there and message.is_linked and link is None and message.size > 1 and (
                message.is_broken or not message.before.links):
            yield Finding(2, message.pointer, f"group {message.name} of {message.size} balises has Q_LINK 1, isn't announced and sends "
                          f"{packets}; if it is broken, that is lost without a brake or a sign",
                          "announce it with a reaction, or send it with Q_LINK 0")
        if there and link and link.reaction == NONE:
            yield Finding(2, link.pointer, f"group {message.name}, which sends {packets}, is announced with Q_LINKREACTION 2; if "
                          "it is missed or broken, nothing brakes", "announce it with Q_LINKREACTION 1 or 0")


@item(3)
def trips_that_have_no_effect(judged: Judged) -> Iterator[Finding]:
    """A group announced with a trip, passed in a mode that doesn't trip."""
    for number, event in enumerate(judged.walked.events):
        mode, start = event.record["mode"], event.record["place_cm"] - event.record.get("movement_cm", 0)
        for link in judged.walked.known_before(number).links:
            if link.reaction == TRIP and mode not in TRIP_MODES and start < link.place_cm <= event.record["place_cm"]:
                yield Finding(3, link.pointer, f"group {name_of(link.group)} is announced with Q_LINKREACTION 0, a trip, and its place at "
                              f"{metres(link.place_cm)} is passed in {mode}, where a trip has no effect",
                              "announce it with Q_LINKREACTION 1")


@item(4)
def one_packet_replaces_another(judged: Judged) -> Iterator[Finding]:
    """Two packets 3, or 41, in one event."""
    by_event: dict[int, list[Message]] = {}
    for message in judged.walked.messages:
        by_event.setdefault(message.closed, []).append(message)
    for messages in by_event.values():
        for number in (3, 41):
            there = [packet for message in messages for packet in message.packets if packet.number == number]
            if len(there) > 1:
                groups = " and ".join(f"group {message.name}" for message in messages)
                yield Finding(4, there[-1].pointer, f"{groups} close{'s' if len(messages) == 1 else ''} in one event with {len(there)} "
                              f"packets {number}; only the last one holds", f"send at most one packet {number} in a message")


MOST_LOCACC_M = 63


def announce_it(length_cm: int, longest_cm: int, is_by_path: bool) -> str:
    """The advice for a group that is longer than its accuracy."""
    needed = rounded_up(length_cm + (NEAR_CM + longest_cm if is_by_path else 0), 100)
    if needed <= MOST_LOCACC_M:
        return f"announce it with Q_LOCACC {needed} or more"
    left = 100 * MOST_LOCACC_M - length_cm - NEAR_CM
    if is_by_path and left > 0:
        return f"announce it with Q_LOCACC {MOST_LOCACC_M}, and read the odometer at least each {metres(left)}"
    return f"make it shorter: the greatest Q_LOCACC is {MOST_LOCACC_M}"


@item(31)
def missed_while_it_is_read(judged: Judged) -> Iterator[Finding]:
    """An announced group that is longer than its accuracy."""
    longest = judged.walked.longest_cm
    for message in judged.walked.messages:
        link = announced(judged, message)
        if link is None or message.is_broken:
            continue
        is_by_path = bool(message.unread) or any(read.header["M_DUP"] for read in message.reads)
        way = message.length_cm + (NEAR_CM + longest if is_by_path else 0)
        uncertainty = message.first.known.uncertainty_cm(way)
        if way <= link.accuracy_cm:
            continue
        closes = f", and without one of its balises closes up to {metres(NEAR_CM + longest)} after the last one" if is_by_path else ""
        over = way - uncertainty
        is_missed = (f"less the uncertainty there, {metres(uncertainty)}, {metres(over)} are left, so it is missed while it is being read"
                     if over > link.accuracy_cm else "if the odometer reads too much, it can be missed while it is being read")
        yield Finding(31, link.pointer, f"group {message.name} is {metres(message.length_cm)} long{closes}, and is announced with Q_LOCACC "
                      f"{link.accuracy_cm // 100} m; {is_missed}", announce_it(message.length_cm, longest, is_by_path))


# ---- places

@item(5)
def fixes_that_leave_old_places(judged: Judged) -> Iterator[Finding]:
    """A fix by a group that isn't announced, with restrictions or areas from before it."""
    for message in judged.walked.messages:
        before = judged.walked.events[message.closed - 1].record if message.closed else None
        now = judged.walked.events[message.closed].record
        if not message.makes_fix or message.link or before is None or before["uncertainty_cm"] <= now["uncertainty_cm"]:
            continue
        for old, name in places_of(message.before):
            if old.message.group != message.group and is_left(old.end_cm, before):
                yield Finding(5, message.pointer, f"group {message.name} isn't announced and makes a fix at {metres(message.place_cm)}, where "
                              f"the uncertainty falls from {metres(before['uncertainty_cm'])} to {metres(now['uncertainty_cm'])}; {name} of "
                              f"group {old.message.name} keeps its old place",
                              f"announce group {message.name}, or lengthen {name} by {metres(before['uncertainty_cm'])}")


def places_of(known: Known) -> Iterator[tuple[Placed, str]]:
    """Restrictions and areas, with their names."""
    yield from ((one, f"restriction {one.line['number']}") for one in known.restrictions)
    yield from ((one, "a Shunting area" if one.line["area"] == SHUNTING else "an On Sight area") for one in known.areas)


@item(32)
def places_that_no_fix_moves(judged: Judged) -> Iterator[Finding]:
    """What a group that isn't announced sent, before a fix by one that is."""
    for fix in judged.walked.messages:
        if not (fix.makes_fix and fix.link):
            continue
        record = judged.walked.events[fix.closed].record
        old = [(one.message, one.packet.pointer, name) for one, name in places_of(fix.before) if is_left(one.end_cm, record)]
        if fix.before.authority and is_left(fix.before.authority[0].place_cm + fix.before.authority[1].end_cm, record):
            old.append((fix.before.authority[0], fix.before.authority[1].pointer, "the authority"))
        for message, pointer, name in old:
            if message.link is None and not message.makes_fix:
                by = message.first.known.uncertainty_cm()
                yield Finding(32, pointer, f"group {message.name} isn't announced; {name} that it sends is at an estimate that may be wrong "
                              f"by {metres(by)}, and the fix by group {fix.name} doesn't move it",
                              f"announce group {message.name}, or leave {metres(by)} more before and after it")


@item(6)
def rear_that_is_forgotten(judged: Judged) -> Iterator[Finding]:
    """A train longer than 1 km that enters Stand By or Shunting over a restriction."""
    for number, event in enumerate(judged.walked.events):
        before = judged.walked.known_before(number)
        if before.train is None or before.train["length_cm"] <= KM_CM or event.record["mode"] not in ("SB", "SH") \
                or judged.walked.mode_before(number) == event.record["mode"]:
            continue
        for one in before.restrictions:
            if is_under(one, event.record, before.train["length_cm"]):
                yield Finding(6, event.pointer, f"a train of {metres(before.train['length_cm'])} enters {event.record['mode']} over restriction "
                              f"{one.line['number']}; restrictions more than 1 km behind the train are forgotten",
                              "let no train longer than 1 km enter SB or SH there")


# ---- modes and limits

@item(7)
def stop_by_main_speed(judged: Judged) -> Iterator[Finding]:
    """V_MAIN 0 with an end of authority ahead."""
    for message, packet in judged.authorities:
        if packet.value("V_MAIN") == 0 and packet.end_cm > 0:
            yield Finding(7, packet.pointer, f"group {message.name} sends V_MAIN 0 with an end of authority {metres(packet.end_cm)} ahead; it "
                          f"trips only if it is used in FS, OS or SR without an override, and here it is used in {message.mode}",
                          "put the end of authority where the train has to stand")


@item(8)
def faster_than_meant(judged: Judged) -> Iterator[Finding]:
    """On Sight between two areas; Shunting over a restriction, or with a slow train."""
    for areas in new_areas(judged):
        for one, other in pairwise(area for area in areas if area.line["area"] == ON_SIGHT):
            if one.end_cm is not None and other.line["start_cm"] > one.end_cm:
                yield Finding(8, other.packet.pointer, f"between two On Sight areas {metres(other.line['start_cm'] - one.end_cm)} are left, from "
                              f"{metres(one.end_cm)} on, where no speed of an area holds", "lay the areas without a gap")
    for number, event in enumerate(judged.walked.events):
        known = judged.walked.known[number]
        if event.record["mode"] != "SH":
            continue
        shunting = known.national["shunting_m_per_h"]
        for one in known.restrictions:
            slow = one.line["speed_m_per_h"]
            if slow < shunting and is_under(one, event.record, 0):
                yield Finding(8, one.packet.pointer, f"restriction {one.line['number']} of {speed(slow)} is met in Shunting, where only "
                              f"V_NVSHUNT, {speed(shunting)}, holds", f"choose V_NVSHUNT no greater than {speed(slow)}")
        if known.train and (slow := known.train["maximum_m_per_h"]) < shunting:
            yield Finding(8, event.pointer, f"a train with a maximum speed of {speed(slow)} runs in Shunting, where V_NVSHUNT, "
                          f"{speed(shunting)}, is the only limit", f"choose V_NVSHUNT no greater than {speed(slow)}")


def new_areas(judged: Judged) -> Iterator[tuple[Placed, ...]]:
    """The areas of each packet 80 that was used."""
    return (known.areas for number, known in enumerate(judged.walked.known) if known.areas != judged.walked.known_before(number).areas)


@item(35)
def shunting_area_speed(judged: Judged) -> Iterator[Finding]:
    """A Shunting area slower than V_NVSHUNT."""
    for number, known in enumerate(judged.walked.known):
        if known.areas == judged.walked.known_before(number).areas:
            continue
        shunting = known.national["shunting_m_per_h"]
        for area in known.areas:
            slow = area.line["speed_m_per_h"]
            if area.line["area"] == SHUNTING and slow is not None and slow < shunting:
                yield Finding(35, area.packet.pointer, f"the Shunting area at {metres(area.line['start_cm'])} has V_MAMODE {speed(slow)}, which "
                              f"counts only ahead of it; in it V_NVSHUNT, {speed(shunting)}, holds", "give no V_MAMODE below V_NVSHUNT")


@item(9)
def override_without_end(judged: Judged) -> Iterator[Finding]:
    """An override whose time has no end."""
    for message in judged.walked.messages:
        for packet in message.packets:
            if packet.number == 3 and packet.get("T_NVOVTRP") == NO_END_S:
                yield Finding(9, packet.pointer, f"T_NVOVTRP 255 of group {message.name} gives an override no time limit, and an override "
                              "suppresses each trip", "choose T_NVOVTRP as small as the procedure allows")


@item(10)
def area_in_place_of_another(judged: Judged) -> Iterator[Finding]:
    """A new area of a kind that the driver may have acknowledged."""
    for number, event in enumerate(judged.walked.events):
        before, now = judged.walked.known_before(number).areas, judged.walked.known[number].areas
        if before == now or not now:
            continue
        for kind, name in ((ON_SIGHT, "On Sight"), (SHUNTING, "Shunting")):
            acknowledged = [area for area in before if area.line["area"] == kind and is_left(area.end_cm, event.record)
                            and event.record["max_safe_front_cm"] >= area.line["acknowledgement_cm"]]
            new = [area for area in now if area.line["area"] == kind and (area.line["start_cm"], area.end_cm) not in {
                (one.line["start_cm"], one.end_cm) for one in acknowledged}]
            if acknowledged and new:
                yield Finding(10, new[0].packet.pointer, f"the {name} area at {metres(new[0].line['start_cm'])} replaces the one at "
                              f"{metres(acknowledged[0].line['start_cm'])}, which the driver may have acknowledged; he isn't asked again",
                              f"let no packet 80 put another {name} area there")


@item(11)
def transitions_in_a_row(judged: Judged) -> Iterator[Finding]:
    """On Sight areas that follow one another within 5 s."""
    for areas in new_areas(judged):
        for one, other in pairwise(area for area in areas if area.line["area"] == ON_SIGHT):
            fast = 30_000 if one.line["speed_m_per_h"] is None else one.line["speed_m_per_h"]
            start, apart = other.line["start_cm"], other.line["start_cm"] - one.line["start_cm"]
            way = fast * ACKNOWLEDGED_WITHIN_S // 36
            if one.end_cm is not None and one.end_cm < start and apart <= way:
                yield Finding(11, other.packet.pointer, f"two On Sight areas begin {metres(apart)} apart, which take at most "
                              f"5 s at {speed(fast)}; the second transition delays the brake of the first",
                              f"keep them more than {metres(way)} apart, or lay them without a gap")


@item(12)
def backward_with_speed_0(judged: Judged) -> Iterator[Finding]:
    """A backward movement in a reading of speed 0."""
    for event in judged.walked.events:
        way = event.record.get("movement_cm", 0)
        if way < 0 and event.record["speed_m_per_h"] == 0:
            yield Finding(12, event.pointer, f"{metres(-way)} backward are read with speed 0, so they don't count against D_NVROLL from there on",
                          "pass speed 0 only at standstill")


@item(33)
def nothing_ahead_is_braked_for(judged: Judged) -> Iterator[Finding]:
    """A restriction that a train meets in Staff Responsible or Unfitted."""
    for number, event in enumerate(judged.walked.events):
        if number == 0 or event.record["mode"] not in ("SR", "UN") or "movement_cm" not in event.record:
            continue
        before, known = judged.walked.events[number - 1].record, judged.walked.known_before(number)
        limit = before["limit_m_per_h"]
        for one in known.restrictions:
            start, slow = one.line["start_cm"], one.line["speed_m_per_h"]
            is_met = before["max_safe_front_cm"] < start <= event.record["max_safe_front_cm"]
            if not is_met or limit - slow <= MARGIN_M_PER_H or before["mode"] != event.record["mode"] or known.train is None:
                continue
            way = way_to_slow(limit + EMERGENCY_M_PER_H, slow, known.train["deceleration_cm_per_s2"], known.train["reaction_ms"])
            yield Finding(33, one.packet.pointer, f"restriction {one.line['number']} at {metres(start)} is met in {event.record['mode']}, where the "
                          f"limit falls from {speed(limit)} to {speed(slow)} within 1 cm and nothing brakes before; from "
                          f"{speed(limit + EMERGENCY_M_PER_H)} the train needs {metres(way)}",
                          f"begin it {metres(way)} earlier, or let the speed fall by at most {speed(MARGIN_M_PER_H)} at once")


# ---- ends of authority

def beyond_the_end(packet: Packet, national: Json) -> dict[str, tuple[int, int]]:
    """The distance of danger point and overlap beyond the end, and their release speeds (0 if there is none)."""
    found: dict[str, tuple[int, int]] = {}
    for name, distance, release in (("danger point", "D_DP", "V_RELEASEDP"), ("overlap", "D_OL", "V_RELEASEOL")):
        way, fast = packet.get(distance), packet.get(release)
        if way is not None and fast is not None:
            found[name] = packet.cm(way), {ONBOARD: 0, NATIONAL_SPEED: national["release_m_per_h"]}.get(fast, speed_of(fast))
    return found


def greatest_limit(message: Message, packet: Packet, train: Json) -> int:
    """The greatest limit that an authority allows."""
    static = [speed_of(steps) for one in message.packets if one.number == 27 for steps in one.all("V_STATIC")]
    return min([int(train["maximum_m_per_h"]), *([speed_of(packet.value("V_MAIN"))] if packet.value("V_MAIN") else []), *([max(static)] if static else [])])


def least_deceleration(message: Message, train: Json) -> int:
    """The deceleration of the train on the steepest downhill gradient of a message."""
    gradients = [element["G_A"] if element["Q_GDIR"] else -element["G_A"] for one in message.packets if one.number == 21
                 for element in one.elements("D_GRADIENT") if element["G_A"] != UNKNOWN_GRADIENT]
    return int(train["deceleration_cm_per_s2"]) + min(981 * gradient // 1000 for gradient in gradients or [0])


def train_at(judged: Judged, message: Message) -> Json | None:
    """The train data for an authority: the valid ones, or those that are entered next."""
    later = (known.train for known in judged.walked.known[message.closed:] if known.train)
    return message.before.train or next(later, None)


@item(14)
def ends_and_margins(judged: Judged) -> Iterator[Finding]:
    """A danger point or an overlap nearer beyond the end than a braked train overruns."""
    for message, packet in judged.authorities:
        train = train_at(judged, message)
        if train is None:
            continue
        limit, least = greatest_limit(message, packet, train), least_deceleration(message, train)
        for name, (distance, _) in beyond_the_end(packet, message.before.national).items():
            needed = margin(limit, least, train["reaction_ms"]) if least > 0 else None
            if needed is None or distance < needed:
                yield Finding(14, packet.pointer, f"the {name} of group {message.name} is {metres(distance)} beyond the end of authority; from "
                              f"{speed(limit)} with {max(least, 0)} cm/s2 and {train['reaction_ms']} ms a braked train overruns by "
                              f"{metres(needed) if needed is not None else 'any distance'}",
                              f"put the end at least {metres(needed)} before the danger" if needed is not None else
                              "let no such train run there")


@item(15)
def clock_that_raises_a_limit(judged: Judged) -> Iterator[Finding]:
    """A timer that gives a permission."""
    for message, packet in judged.authorities:
        beyond, loa = beyond_the_end(packet, message.before.national), speed_of(packet.value("V_LOA"))
        for name, (_, release) in beyond.items():
            if loa and packet.value("T_LOA") != NEVER_S and release > loa:
                yield Finding(15, packet.pointer, f"the release speed of the {name} of group {message.name} is {speed(release)}; when T_LOA, "
                              f"{packet.value('T_LOA')} s, is over, it counts instead of V_LOA, {speed(loa)}",
                              f"choose a release speed no greater than {speed(loa)}")
        if len(beyond) == 2 and packet.value("T_OL") != NEVER_S:
            danger, overlap = beyond["danger point"], beyond["overlap"]
            if danger[0] > overlap[0] or danger[1] > overlap[1]:
                yield Finding(15, packet.pointer, f"when T_OL, {packet.value('T_OL')} s, is over, the danger point of group {message.name}, "
                              f"{metres(danger[0])} at {speed(danger[1])}, counts instead of the overlap, {metres(overlap[0])} at "
                              f"{speed(overlap[1])}", "choose distance and speed of the danger point no greater than those of the overlap")
    for number, event in enumerate(judged.walked.events):
        if number and event.record["kind"] == "clock" and event.record["mode"] == "SR":
            before, now = judged.walked.events[number - 1].record, event.record
            if "overridden" in before["indications"] and "overridden" not in now["indications"] \
                    and now["limit_m_per_h"] > before["limit_m_per_h"]:
                yield Finding(15, event.pointer, f"the time of an override ends, and the limit rises from {speed(before['limit_m_per_h'])} to "
                              f"{speed(now['limit_m_per_h'])}", "choose a V_NVSTFF that is safe there")


def uncertainty_at(message: Message, packet: Packet, links: tuple[Link, ...]) -> int:
    """The uncertainty of a train at the end of an authority: since its group, or since the last group announced before the
    end."""
    place, accuracy = message.place_cm, message.link.accuracy_cm if message.link else 0
    end = place + packet.end_cm
    for link in links:
        if place < link.place_cm <= end:
            place, accuracy = link.place_cm, link.accuracy_cm
    return accuracy + FIX_CM + rounded_up(end - place, 20)


@item(16)
def creeping_past_the_end(judged: Judged) -> Iterator[Finding]:
    """A danger point nearer beyond the end than twice the uncertainty."""
    for message, packet in judged.authorities:
        train = train_at(judged, message)
        beyond = beyond_the_end(packet, message.before.national)
        least = least_deceleration(message, train) if train else 0
        if train is None or least <= 0 or not beyond:
            continue
        uncertainty = uncertainty_at(message, packet, judged.walked.known[message.closed].links)
        needed = 2 * uncertainty + way_to_slow(EMERGENCY_M_PER_H, 0, least, train["reaction_ms"])
        for name, (distance, _) in beyond.items():
            if distance < needed:
                yield Finding(16, packet.pointer, f"the {name} of group {message.name} is {metres(distance)} beyond the end of authority, where "
                              f"the uncertainty may be {metres(uncertainty)}; a creeping train may overrun the end by {metres(needed)}",
                              "announce groups nearer to the end, or put the end farther before the danger")


def gradients_of(packet: Packet) -> list[tuple[int, int]]:
    """The gradients of a packet 21: the distance of each from the group, and its per mille. Ends at the end of the profile."""
    place, found = 0, []
    for element in packet.elements("D_GRADIENT"):
        place += packet.cm(element["D_GRADIENT"])
        if element["G_A"] == UNKNOWN_GRADIENT:
            break
        found.append((place, element["G_A"] if element["Q_GDIR"] else -element["G_A"]))
    return found


@item(38)
def slope_under_the_rear(judged: Judged) -> Iterator[Finding]:
    """A slope that is shorter than the train: beyond it the front is at another gradient while the train is still on the slope."""
    for message in judged.walked.messages:
        train = train_at(judged, message)
        for packet in message.packets if train else ():
            gradients = gradients_of(packet) if packet.number == 21 else []
            for before, here, beyond in zip(gradients, gradients[1:], gradients[2:]):
                way = beyond[0] - here[0]
                if train and before[1] > here[1] < beyond[1] and way < train["length_cm"]:
                    yield Finding(38, packet.pointer, f"group {message.name} sends {here[1]} per mille over {metres(way)}, from {metres(here[0])} "
                                  f"after it on, and {beyond[1]} beyond; a train of {metres(train['length_cm'])} is still on it there",
                                  "send for each place the lowest gradient from there back over the train's length")


@item(40)
def authority_in_level_0(judged: Judged) -> Iterator[Finding]:
    """An authority that is read in level 0, with no level announced."""
    is_announced = False
    for message in judged.walked.messages:
        is_announced = is_announced or any(packet.number == 41 and LEVEL_1 in packet.all("M_LEVELTR") for packet in message.packets)
        level = judged.walked.events[message.closed - 1].record["level"] if message.closed else None
        for packet in message.packets:
            if packet.number == 12 and level == 0 and not is_announced:
                yield Finding(40, packet.pointer, f"group {message.name} sends an authority in level 0, and no level 1 is announced; it is kept, "
                              "and level 1 leads to Full Supervision by it",
                              "send authorities in level 0 only together with the level that they are for")


@item(40)
def group_of_unknown_identity(judged: Judged) -> Iterator[Finding]:
    """An announcement of a repositioning group by NID_BG 16383."""
    for message in judged.walked.messages:
        for packet in message.packets:
            for link in links_of(packet, message.group[0], message.place_cm) if packet.number == 5 else ():
                if link.group[1] == UNKNOWN_GROUP:
                    yield Finding(40, packet.pointer, f"group {message.name} announces NID_BG 16383 at {metres(link.place_cm)}, in issue 2.3.0 a "
                                  "repositioning group whose identity isn't known; here it is a group of that number, which is always missed, "
                                  f"so Q_LINKREACTION {link.reaction} is applied", "announce the group by its own NID_BG")


@item(37)
def overlap_without_end(judged: Judged) -> Iterator[Finding]:
    """An overlap that no standstill ends, and no timer."""
    for message, packet in judged.authorities:
        if packet.get("T_OL") == NEVER_S:
            yield Finding(37, packet.pointer, f"the overlap of group {message.name} has T_OL 1023 and never ends, nor does a standstill end it",
                          "give the overlap a time, and release nothing beyond the end before it is over")


@item(44)
def speed_beyond_the_known_track(judged: Judged) -> Iterator[Finding]:
    """A V_LOA with which a train may run beyond the static speeds that it knows."""
    for number, known in enumerate(judged.walked.known):
        before = judged.walked.known_before(number)
        if known.authority is None or (known.authority, known.speeds_end_cm) == (before.authority, before.speeds_end_cm):
            continue
        message, packet = known.authority
        fast, lasts = speed_of(packet.value("V_LOA")), packet.value("T_LOA")
        if fast and lasts == NEVER_S:
            yield Finding(44, packet.pointer, f"group {message.name} sends V_LOA {speed(fast)} with T_LOA 1023, which never ends; the train may "
                          f"run past the end of authority, {metres(packet.end_cm)} ahead, and past all track that it knows, without a brake",
                          "send a T_LOA that is over before the train can be beyond the static speeds that are sent, or V_LOA 0")
        known_cm = (known.speeds_end_cm or 0) - message.place_cm - packet.end_cm
        way = rounded_up(fast * lasts, 36)
        if known.speeds_end_cm is not None and lasts != NEVER_S and 0 <= known_cm < way:
            yield Finding(44, packet.pointer, f"group {message.name} sends V_LOA {speed(fast)} for T_LOA {lasts} s, in which a train runs "
                          f"{metres(way)}; beyond the end of authority static speeds are known for {metres(known_cm)}",
                          f"send a T_LOA of at most {36 * known_cm // fast} s, or static speeds for {metres(way)} beyond the end")


# ---- packets, countries, trains

INSTALLED = 176
"""The bits of a packet 3 of an installed track without its countries."""


@item(39)
def packet_3_of_installed_tracks(judged: Judged) -> Iterator[Finding]:
    """A telegram that is refused because its packet 3 has more variables."""
    for event in judged.walked.events:
        for number, bits in packets_sent(event.record) if is_refused(event.record) else ():
            # N_ITER is before the first NID_C, or after it (docs/reference/packets.md).
            length, counts = int(bits[10:23], 2), (int(bits[40:45] or "0", 2), 1 + int(bits[50:55] or "0", 2))
            count = next((one for one in counts if length == INSTALLED + WIDTH["NID_C"] * one), None)
            if number == 3 and count is not None:
                yield Finding(39, event.pointer, f"the telegram has a packet 3 of an installed track: {INSTALLED + 10 * count} bits, and "
                              f"{147 + 10 * count} are read here; the whole telegram is refused",
                              "send a packet 3 of this profile (docs/explain/conformance.md)")


BRAKE = "let the equipment around the unit brake there"
GUARD = guard.Finding
OBEYED = {
    GUARD.REPOSITIONING: ("takes L_SECTION from this group on as what is left of its section", "send the authority anew (packet 12) by this group"),
    GUARD.CONDITIONAL_LEVEL: ("changes to a level of the list where its own isn't in it", "order the level by a packet 41"),
    GUARD.SHUNTING_BALISES: ("trips in Shunting at each group that isn't listed", BRAKE),
    GUARD.AXLE_LOAD_SPEEDS: ("runs no faster than the speed for its axle load", "send that speed as a restriction (packet 65), or let no heavier "
                             "train run there"),
    GUARD.ROUTE_SUITABILITY: ("stops before the place that it isn't suitable for", "let only suitable trains run there"),
    GUARD.SLIPPERY_RAIL: ("brakes by what slippery rails allow", "enter a deceleration that they allow, or send a restriction (packet 65)"),
    GUARD.DANGER_FOR_SHUNTING: ("trips in Shunting", BRAKE),
    GUARD.STOP_SHUNTING: ("doesn't go on with Shunting when the desk is opened", "let the driver close the desk, which leads to Stand By"),
    GUARD.STOP_IN_STAFF_RESPONSIBLE: ("trips in Staff Responsible", BRAKE),
    GUARD.SAME_VERSION: ("uses it", "send M_VERSION 16, or announce each such group with a reaction"),
    GUARD.GREATER_VERSION: ("trips", "announce the first such groups with Q_LINKREACTION 0"),
    GUARD.REFUSED_UNLINKED: ("commands the service brake", "send valid values, or announce the group with a reaction"),
}
"""What a train of issue 2.3.0 does by a finding of the guard, and what to do instead. A V_LOA without end has a check of its own (44), and of
other refused telegrams nothing is known."""
TRACKINIT = {GUARD.AXLE_LOAD_SPEEDS: 25, GUARD.ROUTE_SUITABILITY: 25}
"""The place of Q_TRACKINIT in a packet. If it is 1, the packet ends what the unit doesn't have; the guard reports it all the same."""


def asks_guard(event: Event) -> bool:
    """Whether an event is a telegram that the unit doesn't use in full, so that the guard may demand something."""
    return event.record["kind"] == "telegram" and (bool(event.record["unused"]) or is_refused(event.record))


def demands_of(judged: Judged, event: Event, direction: int | None) -> list[guard.Demand]:
    """What the guard demands by a telegram, in the order of its packets, each once. Since trains pass a track in any mode, the mode may be any."""
    if not judged.has_guard or not asks_guard(event):
        return []
    telegram, way = bytes.fromhex(event.record["telegram"]), guard.Direction.NOT_KNOWN if direction is None else guard.Direction(direction)
    found = {(one.start, one.finding): one for mode in unit.Mode for one in guard.demands(telegram, mode, way)}
    return [one for _, one in sorted(found.items()) if one.finding in OBEYED and not ends_a_profile(telegram, one)]


def ends_a_profile(telegram: bytes, demand: guard.Demand) -> bool:
    """Whether a packet only brings an initial state back."""
    place = demand.start + TRACKINIT.get(demand.finding, demand.bits)
    return demand.finding in TRACKINIT and bool(telegram[place // 8] >> (7 - place % 8) & 1)


def obeyed(demand: guard.Demand) -> str:
    """What a train of issue 2.3.0 does by a demand, with the section that says so."""
    return f"a train of issue 2.3.0 {OBEYED[demand.finding][0]} ({demand.section}, {demand.sureness.name.lower().replace('_', ' ')})"


@item(45)
def packets_not_obeyed(judged: Judged) -> Iterator[Finding]:
    """A packet that a train of issue 2.3.0 obeys, and the unit skips."""
    for message in judged.walked.messages:
        for read in message.reads if message.is_used else ():
            for one in demands_of(judged, judged.walked.events[read.event], message.direction):
                if one.packet is not None:
                    yield Finding(45, read.pointer, f"group {message.name} sends packet {unused_packets.name_of(one.packet)}, which is skipped, and is "
                                  f"read in {message.mode}; {obeyed(one)}", OBEYED[one.finding][1])


@item(40)
def refused_telegrams(judged: Judged) -> Iterator[Finding]:
    """A telegram that is refused, and that a train of issue 2.3.0 acts on, or on a packet of it."""
    for event in judged.walked.events:
        for one in demands_of(judged, event, None) if is_refused(event.record) else ():
            what = "" if one.packet is None else f"packet {unused_packets.name_of(one.packet)} of "
            name, version = event.record["decoded"]["refused"]["name"], int(event.record["telegram"][:2], 16) % 128
            yield Finding(40 if one.packet is None else 45, event.pointer, f"{what}the telegram of M_VERSION {version}, version {version // 16}."
                          f"{version % 16}, is refused ({name}) and has no effect; {obeyed(one)}", OBEYED[one.finding][1])


@item(41)
def country_without_values(judged: Judged) -> Iterator[Finding]:
    """A group of a country that no packet 3 lists."""
    for message in judged.walked.messages:
        countries = message.before.line["countries"]
        if message.is_used and countries and message.group[0] not in countries and not any(
                packet.number == 3 for packet in message.packets):
            yield Finding(41, message.pointer, f"group {message.name} is of country {message.group[0]}, and the values in force are for "
                          f"{', '.join(map(str, countries))}; the defaults come into force",
                          "list each country of the line in the packet 3, or send one with the first group of the country")


@item(27)
def train_data_and_train(judged: Judged) -> Iterator[Finding]:
    """Train data that are better than the train of the drive."""
    trains = [known.train for known in judged.walked.known if known.train]
    if judged.drive is None or not trains:
        return
    train, entered = judged.drive.train, trains[-1]
    grip = min((share for share, _, _ in train.adhesion), default=Decimal(1))
    brakes = int(min(train.service or train.emergency, train.emergency) * grip)
    if entered["deceleration_cm_per_s2"] > brakes:
        yield Finding(27, DRIVE, f"the train data have {entered['deceleration_cm_per_s2']} cm/s2, and the train brakes with {brakes}",
                      "enter the least deceleration of the train")
    late = train.reaction_ms + train.build_up_ms
    if entered["reaction_ms"] < late:
        yield Finding(27, DRIVE, f"the train data have a reaction time of {entered['reaction_ms']} ms, and the train has {train.reaction_ms} ms and "
                      f"builds up its brakes within {train.build_up_ms} ms", f"enter {late} ms")


@item(36)
def odometer_beyond_the_formula(judged: Judged) -> Iterator[Finding]:
    """An odometer that is wrong by more than a 20th."""
    if judged.drive and abs(judged.drive.train.odometer - 1) > Decimal("0.05"):
        yield Finding(36, DRIVE, f"the odometer measures {(judged.drive.train.odometer * 100).normalize():f} % of the distance, and the "
                      "confidence interval grows only by 5 % of the path", "show that the odometer keeps to 5 m and 5 %, wheel slide included")


def findings(judged: Judged) -> list[Finding]:
    """The findings of all checks, by their items, each once."""
    found = [finding for _, check in sorted(CHECKS, key=lambda one: one[0]) for finding in check(judged)]
    return list(dict.fromkeys(found))


ITEMS = sorted({number for number, _ in CHECKS})
"""The items of docs/explain/safety.md that have a check."""
