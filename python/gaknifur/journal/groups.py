"""Read what telegrams say of balise groups: their packets, the groups that they announce, and the direction in which a group was passed."""
import itertools
from collections.abc import Iterable, Sequence
from dataclasses import dataclass

from ..program import Json
from .wording import SCALES_CM

Group = tuple[int, int]
"""NID_C and NID_BG."""
INFILL = 136
"""The packet that ends the used part of a telegram."""


@dataclass(frozen=True)
class Packet:
    """A packet, and the pointer of its telegram."""

    number: int
    fields: tuple[tuple[str, int], ...]
    pointer: str

    def get(self, name: str) -> int | None:
        """A variable that occurs once; None if the packet doesn't have it."""
        return next((number for one, number in self.fields if one == name), None)

    def value(self, name: str) -> int:
        """A variable that the packet has."""
        number = self.get(name)
        assert number is not None
        return number

    def all(self, name: str) -> list[int]:
        """All values of a variable that occurs in a list."""
        return [number for one, number in self.fields if one == name]

    def cm(self, distance: int) -> int:
        """A distance in the packet's scale."""
        return distance * SCALES_CM[self.value("Q_SCALE")]

    def elements(self, first: str) -> list[dict[str, int]]:
        """The elements of a list, each beginning with the variable `first`."""
        found: list[dict[str, int]] = []
        for name, number in self.fields:
            if name == first:
                found.append({})
            if found:
                found[-1].setdefault(name, number)
        return found

    @property
    def end_cm(self) -> int:
        """The distance from the group to the end of an authority (packet 12)."""
        return self.cm(sum(self.all("L_SECTION") + self.all("L_ENDSECTION")))


@dataclass(frozen=True)
class Link:
    """An announced group, its place and its accuracy."""

    group: Group
    place_cm: int
    accuracy_cm: int
    nominal: int
    reaction: int
    pointer: str


def name_of(group: Group) -> str:
    """A group, as text."""
    return f"{group[0]}/{group[1]}"


def packets_in_order(decoded: Json, pointer: str) -> tuple[Packet | None, ...]:
    """The packets of a telegram before infill; None for each that isn't known."""
    some = itertools.takewhile(lambda packet: packet["packet"] != INFILL, decoded["packets"])
    return tuple(None if "skipped_bits" in one else Packet(one["packet"], tuple((name, number) for name, number in one["fields"]), pointer)
                 for one in some)


def packets_of(decoded: Json, pointer: str) -> tuple[Packet, ...]:
    """The known packets of a telegram before infill."""
    return tuple(filter(None, packets_in_order(decoded, pointer)))


def links_of(packet: Packet, country: int, place: int) -> Iterable[Link]:
    """The groups that a packet 5 announces. Each distance counts from the group before; a missing country is that of the group before."""
    for link in packet.elements("D_LINK"):
        place += packet.cm(link["D_LINK"])
        country = link.get("NID_C", country)
        yield Link((country, link["NID_BG"]), place, 100 * link["Q_LOCACC"], link["Q_LINKORIENTATION"], link["Q_LINKREACTION"],
                   packet.pointer)


def direction(places: Sequence[int], announced: int | None = None) -> int | None:
    """The direction in which a group was passed, 1 is nominal: by the places (N_PIG) of its balises in the order in which they were read,
    or else as it was announced; None if neither is known."""
    return int(places[0] < places[1]) if len(places) > 1 else announced
