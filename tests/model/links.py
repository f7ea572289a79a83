"""Linking: the groups that a packet 5 announces (SUBSET-026, 3.4.4 and 3.16.2; what is this project's is so marked)."""
from dataclasses import dataclass

ACCEPT, IGNORE, REACTION = "accept", "ignore", "reaction"
TRIP, SERVICE = 0, 1  # Q_LINKREACTION; 2 is none


@dataclass(eq=False)
class Entry:
    group: tuple
    place: int
    accuracy: int
    nominal: int
    reaction: int
    number: int = 0  # in its list, from 0

    def first_place(self):
        return self.place - self.accuracy

    def last_place(self):
        return self.place + self.accuracy


@dataclass
class Verdict:
    kind: str
    entry: Entry = None  # the one that is meant
    trip: bool = False
    service: bool = False


def entries_of(packet, group, place):
    """The announced groups. Each distance counts from the one before, the first from the group that says the list; so
    does a country that isn't given."""
    entries, country = [], group[0]
    for link in packet.links:
        place += link.distance * packet.scale_cm
        country = country if link.country is None else link.country
        entries.append(Entry((country, link.number), place, 100 * link.accuracy_m, link.nominal, link.reaction, len(entries)))
    return entries


class Links:
    """What is left of the latest list. Linking is in use while an entry is left."""

    def __init__(self):
        self.left = []
        self.has_missed = False  # since the last accepted group that had an entry, or since power-up

    def replace(self, entries):
        self.left = entries

    def meant(self, closed):
        """Of several entries of one group the first; a group with Q_LINK 0 counts as not announced."""
        return next((e for e in self.left if closed.linked and e.group == closed.group), None)

    def miss(self, missed, verdict):
        """Each gives its reaction, and two with none accepted between at least service (this project's)."""
        for entry in missed:
            verdict.trip |= entry.reaction == TRIP
            verdict.service |= entry.reaction == SERVICE or self.has_missed
            self.has_missed = True

    def missed(self, min_front):
        """At a reading of the odometer: entries that lie wholly after the least front are missed, each on its own."""
        verdict = Verdict(IGNORE)
        self.miss([e for e in self.left if min_front > e.last_place()], verdict)
        self.left = [e for e in self.left if min_front <= e.last_place()]
        return verdict

    def broken(self, closed):
        """An announced one gives its own reaction, and its entry goes; one with Q_LINK 0 gives service (this project's)."""
        entry = self.meant(closed)
        if entry:
            self.left.remove(entry)
            return Verdict(REACTION, entry, entry.reaction == TRIP, entry.reaction == SERVICE)
        return Verdict(REACTION, None, False, not closed.linked)

    def judge(self, closed, max_front):
        """What becomes of a whole group, by the greatest front at its reading."""
        if not closed.linked or not self.left:
            return Verdict(ACCEPT)
        entry = self.meant(closed)
        if not entry:
            return Verdict(IGNORE)
        if closed.nominal is not None and closed.nominal != entry.nominal:
            self.left.remove(entry)  # the wrong way is a trip, whatever its own reaction is (3.16.2.3)
            return Verdict(REACTION, entry, True)
        if max_front < entry.first_place():
            self.left.remove(entry)  # too early
            return Verdict(REACTION, entry, entry.reaction == TRIP, entry.reaction == SERVICE)
        verdict, number = Verdict(ACCEPT, entry), self.left.index(entry)
        self.miss(self.left[:number], verdict)
        self.left, self.has_missed = self.left[number + 1:], False
        return verdict
