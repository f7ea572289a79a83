"""Follow the balise groups of a course, with what the kernel knows after each event.

What is known, which group was used and which of its packets, are the kernel's own, as `etcs_lab why --known` prints them
(docs/reference/json.md). Here telegrams are put together to groups, and what is known gets the pointers of the packets that sent it.
"""
from collections.abc import Iterable, Iterator, Sequence
from dataclasses import dataclass, field, replace

from ..journal.groups import Group, Link, Packet, links_of, name_of, packets_in_order
from ..program import Json
from .course import Event, Played

NEAR_CM, NOW = 1_300, 32_767
ON_SIGHT, SHUNTING = "on_sight", "shunting"
TRIP, NONE, REACTIONS = 0, 2, ("trip", "service", None)
"""Q_LINKREACTION, and what `etcs_lab why` prints of it."""
NATIONAL_SPEED, ONBOARD, NO_SPEED = 127, 126, 127
USED, BROKEN = ("announced", "not_linked", "linking_unused"), ("balise_missing", "counters_differ", "telegrams_differ")
"""What became of a group that was accepted, and of one that has no message."""
DIRECTIONS = {"reverse": 0, "nominal": 1}


def rounded_up(part: int, whole: int) -> int:
    """A quotient, rounded up."""
    return -(-part // whole)


def speed_of(steps: int) -> int:
    """Steps of 5 km/h in m/h."""
    return 5_000 * steps


@dataclass(frozen=True)
class Placed:
    """A restriction or an area as the kernel knows it, and what sent it."""

    line: Json
    message: "Message"
    packet: Packet

    @property
    def end_cm(self) -> int | None:
        """Its end; None if it has none."""
        end: int | None = self.line["end_cm"]
        return end


@dataclass(frozen=True)
class Known:
    """What is known after an event."""

    line: Json
    """The member `known` of its line."""
    links: tuple[Link, ...] = ()
    restrictions: tuple[Placed, ...] = ()
    areas: tuple[Placed, ...] = ()
    authority: tuple["Message", Packet] | None = None
    speeds_end_cm: int | None = None
    """Where the static speeds that were sent last end; None if no end is sent, or the last speed before it is 0."""

    @property
    def train(self) -> Json | None:
        """The train data; None if none were entered."""
        train: Json | None = self.line["train"]
        return train

    @property
    def national(self) -> Json:
        """The national values in force."""
        values: Json = self.line["national_values"]
        return values

    def uncertainty_cm(self, farther_cm: int = 0) -> int:
        """The uncertainty, now or `farther_cm` farther on without another fix: it grows by a 20th of the path since the last one."""
        path = abs(self.line["since_fix_cm"])
        uncertainty: int = self.line["uncertainty_cm"]
        return uncertainty - rounded_up(path, 20) + rounded_up(path + farther_cm, 20)


@dataclass(frozen=True)
class Read:
    """A telegram that was read: its event, what was known before it, and its real place."""

    event: int
    known: Known
    place_cm: int
    pointer: str
    header: dict[str, int]
    packets: tuple[Packet | None, ...]
    """Up to infill; None for one that isn't known."""

    @property
    def group(self) -> Group:
        """Its group."""
        return self.header["NID_C"], self.header["NID_BG"]


@dataclass(frozen=True, eq=False)
class Message:
    """A group that was read and closed, and how it was used."""

    reads: tuple[Read, ...]
    closed: int
    """The event that closed it."""
    outcome: str
    """What became of it, as `etcs_lab why` prints it."""
    link: Link | None = None
    makes_fix: bool = False
    mode: str = "SB"
    direction: int | None = None
    """The direction in which it was passed, from its own balises or from its announcement."""
    packets: tuple[Packet, ...] = ()
    """The packets that are used, in the order of their use."""
    before: Known = Known({})

    @property
    def group(self) -> Group:
        """Its country and number."""
        return self.reads[0].group

    @property
    def name(self) -> str:
        """Its group, as text."""
        return name_of(self.group)

    @property
    def pointer(self) -> str:
        """The pointer of its telegram that was read first."""
        return self.reads[0].pointer

    @property
    def is_linked(self) -> bool:
        """Q_LINK."""
        return self.reads[0].header["Q_LINK"] == 1

    @property
    def is_used(self) -> bool:
        """Whether it was accepted."""
        return self.outcome in USED

    @property
    def is_broken(self) -> bool:
        """Whether it has no valid message."""
        return self.outcome in BROKEN

    @property
    def size(self) -> int:
        """The number of its balises, as its telegrams give it."""
        return self.reads[0].header["N_TOTAL"] + 1

    @property
    def unread(self) -> list[int]:
        """The balises that weren't read, by N_PIG."""
        there = {read.header["N_PIG"] for read in self.reads}
        return [place for place in range(self.size) if place not in there]

    @property
    def first(self) -> Read:
        """The reading that gives its place: that of balise 1, or else the first one."""
        return next((read for read in self.reads if read.header["N_PIG"] == 0), self.reads[0])

    @property
    def place_cm(self) -> int:
        """The place from which its distances count."""
        return self.link.place_cm if self.link and self.is_used else int(self.first.known.line["place_cm"])

    @property
    def length_cm(self) -> int:
        """The distance on the track from its first reading to the last one."""
        return abs(self.reads[-1].place_cm - self.first.place_cm)

    @property
    def sent(self) -> list[Packet | None]:
        """The packets of its telegrams, in the order of its balises."""
        return [packet for read in sorted(self.reads, key=lambda read: read.header["N_PIG"]) for packet in read.packets]

    @property
    def own(self) -> list[Packet]:
        """All known packets that it sends, by number, used or not."""
        return by_number(filter(None, self.sent))


@dataclass(frozen=True)
class Lost:
    """An announcement that was missed while its group was being read."""

    link: Link
    event: int
    read: Read


@dataclass
class Walked:
    """The course of a life: its events, what is known after each, and the groups in their order."""

    events: list[Event]
    start: Known
    """What is known after the power-up."""
    known: list[Known] = field(default_factory=list)
    messages: list[Message] = field(default_factory=list)
    lost: list[Lost] = field(default_factory=list)

    @property
    def longest_cm(self) -> int:
        """The longest movement of a reading."""
        return max((abs(event.record["movement_cm"]) for event in self.events if "movement_cm" in event.record), default=0)

    def mode_before(self, event: int) -> str:
        """The mode before an event."""
        return str(self.events[event - 1].record["mode"]) if event else "SB"

    def known_before(self, event: int) -> Known:
        """What is known before an event."""
        return self.known[event - 1] if event else self.start


def by_number(packets: Iterable[Packet]) -> list[Packet]:
    """Packets in the order of their use."""
    return sorted(packets, key=lambda packet: packet.number)


class Walk:
    """Follows the events of a life, from what is known after its power-up."""

    def __init__(self, events: list[Event], power_up: Json) -> None:
        self.current: list[Read] = []
        self.left: tuple[Link, ...] = ()
        """The announcements that are left within an event, once some are missed or taken."""
        self.sent: dict[int, tuple[Message, Packet]] = {}
        """The packet of each number that was used last."""
        self.restricted: dict[tuple[int, ...], tuple[Message, Packet]] = {}
        """The packet 65 of each restriction."""
        self.known = self.known_of(power_up, [])
        self.walked = Walked(events, self.known)

    def walk(self) -> Walked:
        """Follows all events."""
        for number, event in enumerate(self.walked.events):
            self.event(number, event)
            self.walked.known.append(self.known)
        return self.walked

    def event(self, number: int, event: Event) -> None:
        """Follows one event."""
        self.left = self.known.links
        closed = []
        if event.record["kind"] == "odometer":
            self.miss(number, event)
        for message in self.closed_by(number, event):
            self.judge(message)
            closed.append(message)
        self.known = self.known_of(event.line, closed)

    # ---- groups

    def closed_by(self, number: int, event: Event) -> Iterator[Message]:
        """The groups that an event closes."""
        record, read = event.record, None
        if record["kind"] == "telegram" and "refused" not in record["decoded"]:
            read = Read(number, self.known, event.place_cm, event.pointer, record["decoded"]["header"],
                        packets_in_order(record["decoded"], event.pointer))
        for line in event.line.get("groups", ()):
            if read and read.group == group_of(line):
                self.join(read)
            yield self.message(number, line)
            self.current = []
        if read and read.group == group_of(event.line["known"]["group_being_read"]):
            self.join(read)

    def join(self, read: Read) -> None:
        """Adds a telegram to the group that is being read; one of a balise that was read already doesn't count."""
        if self.current and self.current[0].group != read.group:
            self.current = []
        if read.header["N_PIG"] not in {one.header["N_PIG"] for one in self.current}:
            self.current.append(read)

    def message(self, number: int, line: Json) -> Message:
        """The group of a line."""
        found = Message(tuple(self.current), number, line["outcome"])
        link = None if line["announcement"] is None else next((one for one in self.left if one.group == found.group), None)
        used = [packet for packet, one in zip(found.sent, line["packets"], strict=True) if packet and one["why"] is None] if line["packets"] else []
        return replace(found, link=link, makes_fix=found.is_used and (link is not None or self.is_free), mode=line["mode"],
                       direction=DIRECTIONS.get(line["direction"]), packets=tuple(by_number(used)), before=replace(self.known, links=self.left))

    @property
    def is_free(self) -> bool:
        """Whether a group that isn't announced makes a fix: the group before it, if it closed in the same event, may have sent places."""
        return self.known.line["is_free"] and not self.left

    # ---- linking

    def miss(self, number: int, event: Event) -> None:
        """Removes announcements that the minimum safe front has passed."""
        movement = event.record["movement_cm"]
        min_front = self.known.line["place_cm"] + movement - self.known.uncertainty_cm(abs(movement))
        missed = [link for link in self.left if min_front > link.place_cm + link.accuracy_cm]
        for link in missed:
            if self.current and self.current[0].group == link.group and self.current[0].header["Q_LINK"] == 1:
                self.walked.lost.append(Lost(link, number, self.current[0]))
        self.left = tuple(link for link in self.left if link not in missed)

    def judge(self, message: Message) -> None:
        """Notes a group, its announcement and its packets."""
        self.walked.messages.append(message)
        if message.link:
            taken = self.left.index(message.link) + 1
            self.left = self.left[taken:] if message.is_used else (*self.left[:taken - 1], *self.left[taken:])
        for packet in message.packets:
            self.use(message, packet)

    def use(self, message: Message, packet: Packet) -> None:
        """Notes a packet that is used."""
        self.sent[packet.number] = message, packet
        if packet.number == 5:
            self.left = tuple(links_of(packet, message.group[0], message.place_cm))

    # ---- what is known

    def known_of(self, line: Json, closed: Sequence[Message]) -> Known:
        """What is known after the event of a line that closed some groups."""
        known = line["known"]
        keys = list(map(key_of, known["restrictions"]))
        for message in closed:
            for packet in message.packets if keys else ():
                fits = [key for key in keys if packet.number == 65 and is_sent_by(key, packet)]
                for key in [key for key in fits if key not in self.restricted] or fits:
                    self.restricted[key] = message, packet
        self.restricted = {key: self.restricted[key] for key in keys}
        links, areas, authority, speeds = (self.sent.get(number) for number in (5, 80, 12, 27))
        return Known(known, tuple(link_of(one, links[1].pointer) for one in known["links"]) if links else (),
                     tuple(Placed(one, *self.restricted[key_of(one)]) for one in known["restrictions"]),
                     tuple(Placed(one, *areas) for one in known["areas"]) if areas else (), authority if known["authority"] else None,
                     speeds_end(speeds[1], speeds[0].place_cm) if speeds else None)


def group_of(line: Json | None) -> Group | None:
    """The group of a line."""
    return (line["country"], line["group"]) if line else None


def key_of(line: Json) -> tuple[int, ...]:
    """What identifies a restriction."""
    return line["number"], line["start_cm"], line["end_cm"], line["speed_m_per_h"]


def is_sent_by(key: tuple[int, ...], packet: Packet) -> bool:
    """Whether it is that of a packet 65."""
    number, start, end, speed = key
    return (number, end - start, speed) == (packet.value("NID_TSR"), packet.cm(packet.value("L_TSR")), speed_of(packet.value("V_TSR")))


def link_of(line: Json, pointer: str) -> Link:
    """An announced group that is left."""
    return Link((line["country"], line["group"]), line["place_cm"], line["accuracy_cm"], DIRECTIONS[line["direction"]],
                REACTIONS.index(line["reaction"]), pointer)


def speeds_end(packet: Packet, place: int) -> int | None:
    """Where the static speeds of a packet 27 end; None if no end is sent, or the train has to stop before it."""
    last = NO_SPEED
    for sent in packet.elements("D_STATIC"):
        place += packet.cm(sent["D_STATIC"])
        if sent["V_STATIC"] == NO_SPEED:
            return place if last else None
        last = sent["V_STATIC"]
    return None


def walk(played: Played) -> Walked:
    """Follows a life that was played."""
    return Walk(played.events, played.power_up).walk()
