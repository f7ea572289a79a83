"""List packets that a track sent and the unit uses in no mode and in no direction. `etcs_lab events` lists them for each telegram (member
`unused`; docs/reference/json.md, docs/reference/packets.md).

This module only counts them. Packets that weren't used because of the mode, the direction or their group aren't among them.
"""
from collections import Counter
from collections.abc import Iterable
from dataclasses import dataclass

from ..program import Json
from ..telegrams import _track_packets

WHERE = {"not_known": "", "infill": " in infill", "refused": " in a telegram that is refused"}
"""The text about a packet for each reason why it isn't used."""


def name_of(number: int) -> str:
    """A packet with its name, as text."""
    return f"{number} {_track_packets.NAMES[number]}" if number in _track_packets.NAMES else str(number)


def is_of_issue(number: int, why: str) -> bool:
    """Whether a balise may send a packet in issue 2.3.0. All packets that the kernel knows are of this issue."""
    return why != "not_known" or number in _track_packets.NOT_OBEYED


def text(unused: Iterable[Json]) -> str:
    """The packets of a telegram as text; an empty text if there are none."""
    return ", ".join(name_of(one["packet"]) + WHERE.get(one["why"], f" ({one['why']})") for one in unused)


def column(telegrams: Iterable[list[Json] | None]) -> list[str | None]:
    """The column of these packets with their reasons, such as `137 not_known, 12 infill`; None if there are none, or no telegram."""
    return [", ".join(f"{one['packet']} {one['why']}" for one in unused) or None if unused else None for unused in telegrams]


@dataclass(frozen=True)
class Summary:
    """The number of telegrams with such packets of issue 2.3.0, and the number of telegrams with each packet, by its number and reason."""

    telegrams: int
    packets: dict[tuple[int, str], int]

    def text(self) -> str:
        """The summary as text."""
        one = self.telegrams == 1
        packets = ", ".join(f"{name_of(number)}{WHERE.get(why, '')} ({count})" for (number, why), count in self.packets.items())
        return (f"{self.telegrams:,} telegram{'' if one else 's'} had packets of issue 2.3.0 that this unit does not obey: {packets}"
                if self.packets else "no telegram had a packet of issue 2.3.0 that this unit does not obey")


def packets_in(text: str) -> set[tuple[int, str]]:
    """The packets of a telegram that are of issue 2.3.0, from its `column`."""
    pairs = [one.split(" ", 1) for one in text.split(", ")]
    return {(int(number), why) for number, why in pairs if is_of_issue(int(number), why)}


def summary(cells: Iterable[str | None]) -> Summary:
    """The summary of telegrams, from their `column`; the most frequent packets come first."""
    found = [packets for one in cells if one and (packets := packets_in(one))]
    counts = Counter(pair for packets in found for pair in packets)
    return Summary(len(found), dict(sorted(counts.items(), key=lambda one: (-one[1], one[0]))))
