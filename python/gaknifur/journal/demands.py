"""List what a guard next to the unit demands by the telegrams of a journal (docs/howto/c-guard.md).

The guard is outside the unit, so the journal doesn't contain its demands. They are worked out anew: by the mode and the override before each
telegram, and by the direction in which its group was passed, as its balises show it, or else the last packet 5 that announced it. A telegram
without the record before it is left out.
"""
from collections.abc import Iterator, Sequence
from itertools import groupby, pairwise
from operator import itemgetter

from .. import guard
from ..guard import Direction
from ..program import Json
from ..units.protocol import MODES
from .groups import Group, direction, links_of, packets_of
from .reading import Journal

ROW = ("event", "life", "mode", "direction", "demanded", "finding", "packet", "section", "sureness")
MODE_OF = {name: mode for mode, name in MODES.items()}


def group_of(record: Json) -> Group:
    """The group of a telegram that was read."""
    header = record["decoded"]["header"]
    return header["NID_C"], header["NID_BG"]


def directions(records: Sequence[Json]) -> dict[int, Direction]:
    """The direction in which the group of each telegram of a life was passed, by its event, if that is known."""
    found: dict[int, Direction] = {}
    announced: dict[Group, int] = {}
    read = [record for record in records if record["kind"] == "telegram" and "refused" not in record["decoded"]]
    for group, telegrams in groupby(read, group_of):
        passed = list(telegrams)
        places = list(dict.fromkeys(one["decoded"]["header"]["N_PIG"] for one in passed))
        nominal = direction(places, announced.get(group))
        if nominal is not None:
            found |= {one["event"]: Direction(nominal) for one in passed}
        for one in passed:
            for packet in packets_of(one["decoded"], ""):
                if packet.number == 5:
                    announced = {link.group: link.nominal for link in links_of(packet, group[0], 0)}
    return found


def rows(journal: Journal) -> Iterator[Json]:
    """A row for each demand, the oldest first."""
    for life, group in groupby(journal.records, itemgetter("life")):
        records = list(group)
        passed = directions(records)
        for before, record in pairwise(records):
            if record["kind"] != "telegram" or record["event"] != before["event"] + 1:
                continue
            known = passed.get(record["event"], Direction.NOT_KNOWN)
            for one in guard.demands(bytes.fromhex(record["telegram"]), MODE_OF[before["mode"]], known,
                                     overridden="overridden" in before["indications"]):
                yield {"event": record["event"], "life": life, "mode": before["mode"], "direction": known.name.lower(),
                       "demanded": one.demanded.name.lower(), "finding": one.finding.name.lower(), "packet": one.packet,
                       "section": one.section, "sureness": one.sureness.name.lower()}
