"""The quantities of a life: all that happened is kept, an entry for each event and a fact for each packet that was used, and each
quantity is worked out anew from these (this project's profile)."""
from collections import namedtuple
from dataclasses import dataclass, field

import authority
import driver
from areas import announced_by, areas_of, is_left, is_met
from items import INVALID, VALID, Item, Kept, MOST_EVENTS, MOST_LIVES, met_by
from modes import fate
from place import stretch
from speed import Situation, Train
from track import Profile, gradient_steps, restrictions_of, speed_steps

FARTHEST_OFFSET_CM = 1 << 41

Fact = namedtuple("Fact", "packet group place moment entry")

# Which row of the statuses deletes the facts of a packet.
ITEM_OF = {12: "authority", 21: "profiles", 27: "profiles", 41: "level-announcement", 65: "restrictions", 66: "restrictions",
           80: "areas"}


@dataclass
class Entry:
    """What became of one event."""

    moment: int
    speed: int  # that of the last reading
    is_reading: bool = False
    moved: int = 0
    overrun: bool = False
    verdicts: list = field(default_factory=list)
    groups: list = field(default_factory=list)  # those that closed, each with its verdict and the mode of then
    accepted: tuple = None  # an action's word and value
    path: int = 0
    values: object = None  # the national values in force as the event began
    came_in: int = None  # the level that came into force
    seen: object = None
    row: int = None  # of the mode table
    entered: str = None  # the mode that it led to
    tripped: list = None  # where that is Trip by rows 3 to 5: which of the conditions of a trip held
    acknowledgements: dict = None
    output: object = None

    def trips(self):
        return any(verdict.trip for verdict in self.verdicts)

    def asks_service(self):
        return any(verdict.service for verdict in self.verdicts)


class History:
    """The entries and facts of a life, and what they say."""

    # ---- what is read off the entries

    @property
    def now(self):
        return self.entries[-1]

    def moment(self):
        return self.now.moment

    def speed(self):
        return self.now.speed

    def mode(self):
        return next((entry.entered for entry in reversed(self.entries) if entry.entered), "SB")

    def item(self, name):
        """What an accepted entry, a confirmation, a level that came into force and the modes entered made of an item."""
        item = self.begun.items[name]
        for entry in self.entries:
            if entry.accepted:
                word, value = entry.accepted
                if driver.ENTERED.get(word) == name:
                    item = Item(VALID, driver.entered(word, value))
                if word == "confirm" and value == name:
                    item = Item(VALID, item.value)
            if name == "level" and entry.came_in is not None:
                item = Item(VALID, entry.came_in)
            if entry.entered:
                item = met_by(item, fate(name, entry.entered))
        return item

    def train(self):
        """None where its data are not valid."""
        item = self.item("train-data")
        return Train(*item.value) if item.status == VALID else None

    def level(self):
        item = self.item("level")
        return item.value if item.status == VALID else None

    def is_tripped(self):
        """A trip is outstanding."""
        tripped = self.begun.kept.trip
        for entry in self.entries:
            if entry.accepted == ("acknowledge", "trip"):
                tripped = False
            if entry.entered == "TR":
                tripped = True
        return tripped

    def revalidation(self):
        """Whether the identity, the level and the train data were given since the power-up, and Stand By was left for Shunting or by a
        start after the train data."""
        accepted = [entry.accepted for entry in self.entries if entry.accepted]
        given = [at for at, (word, value) in enumerate(accepted)
                 if word == "enter-train-data" or (word, value) == ("confirm", "train-data")]
        started = [at for at, (word, _) in enumerate(accepted) if word == "start"]
        words = {word for word, _ in accepted}
        identity = "enter-identity" in words or ("confirm", "identity") in accepted
        level = self.begun.level_stands or "choose-level" in words or ("confirm", "level") in accepted
        return identity, level, bool(given), "choose-shunting" in words or any(one < other for one in given for other in started)

    def is_revalidated(self):
        identity, level, _, left = self.revalidation()
        return identity and level and left

    def override_left(self):
        """What is left of the time (None: it has no end) and of the distance of the last accepted Override, by the values in
        force as it was accepted; None where one of both is over, or there is none."""
        since = None
        for entry in self.entries:
            if entry.accepted and entry.accepted[0] == "override":
                since = entry
            if entry.entered and fate("override", entry.entered) == "D":
                since = None
        if since is None:
            return None
        time = since.values.override_time
        time_left = None if time is None else time - (self.moment() - since.moment)
        distance_left = since.values.override_distance - (self.sums.path - since.path)
        is_over = (time_left is not None and time_left <= 0) or distance_left <= 0
        return None if is_over else (time_left, distance_left)

    def is_overridden(self):
        """Neither the time nor the distance of the last accepted Override is over."""
        return self.override_left() is not None

    def is_too_far(self):
        """The path since Staff Responsible was entered is above D_NVSTFF."""
        farthest = self.national.in_force.values.staff_responsible_distance
        entered = [entry.path for entry in self.entries if entry.entered == "SR"]
        return farthest is not None and bool(entered) and self.sums.path - entered[-1] > farthest

    def acknowledgement(self, kind):
        return next(entry.acknowledgements[kind] for entry in reversed(self.entries) if entry.acknowledgements)

    # ---- what is read off the facts

    def facts_of(self, *kinds):
        """The live facts of some packets: those that no mode entered by their own or a later entry deletes."""
        found = [fact for fact in self.facts if fact.packet.kind in kinds]
        if not found:
            return []
        last = {}
        for at, entry in enumerate(self.entries):
            if entry.entered:
                last.update((kind, at) for kind in kinds if fate(ITEM_OF[kind], entry.entered) == "D")
        return [fact for fact in found if fact.entry > last.get(fact.packet.kind, -1)]

    def gradients(self):
        return Profile([gradient_steps(fact) for fact in self.facts_of(21)], self.mark)

    def speeds(self):
        return Profile([speed_steps(fact) for fact in self.facts_of(27)], self.mark)

    def restrictions(self):
        return restrictions_of(self.facts_of(65, 66))

    def authority(self):
        """By the latest packet 12, and what was seen from the event that accepted it on."""
        facts = self.facts_of(12)
        return authority.Authority(facts[-1], [e.seen for e in self.entries[facts[-1].entry:] if e.seen]) if facts else None

    def end(self):
        authority = self.authority()
        return authority.end(self.moment(), self.national.in_force.values.release) if authority else None

    def areas(self):
        """Those of the latest packet 80 that no packet 12 follows."""
        sent = [fact for fact in self.facts if fact.packet.kind in (12, 80)]
        live = self.facts_of(80)
        return areas_of(live[-1]) if live and sent[-1].packet.kind == 80 else []

    def announcement(self):
        """The latest announced level that did not come into force."""
        announcing = [fact for fact in self.facts_of(41) if announced_by(fact)]
        if not announcing or any(entry.came_in is not None for entry in self.entries[announcing[-1].entry:]):
            return None
        return announced_by(announcing[-1])

    def stretch(self):
        train = self.train()
        return stretch(self.fix, self.sums, train.length if train else 0)

    def situation(self):
        return Situation(self.train(), self.stretch(), self.gradients(), self.speeds(), self.restrictions(), self.areas(),
                         self.mark, self.authority(), self.moment(), self.national.in_force.values)

    def kept(self):
        """What is kept at the end of this life's entries."""
        before = self.begun.kept
        return Kept(self.item("identity").value, self.item("running-number").value, self.item("train-data").value,
                    self.item("level"), self.position(), self.national.in_force, self.is_tripped(),
                    min(before.events + len(self.entries), MOST_EVENTS), min(before.lives + 1, MOST_LIVES))

    def position(self):
        """By the last group that made a fix in this life; else by what it was after the power-up and the way since."""
        if self.fixed_by:
            return Item(VALID, (self.fixed_by, self.fix.estimate(self.sums) - self.fix.at))
        begun = self.begun.items["position"]
        if begun.status != VALID:
            return begun
        group, distance = begun.value
        now = distance + self.fix.estimate(self.sums)
        return Item(VALID, (group, now)) if abs(now) <= FARTHEST_OFFSET_CM else Item(INVALID, (group, distance))

    def place(self):
        """The estimate and its uncertainty."""
        return self.fix.estimate(self.sums), self.fix.uncertainty(self.sums)

    def is_free(self):
        """Nothing lies at a known place: linking is not in use, no authority is stored, and no centimetre has a gradient or
        a static speed."""
        return (not self.links.left and not self.facts_of(12)
                and self.gradients().is_empty() and self.speeds().is_empty())

    # ---- what the rows of the mode table ask for

    def trips(self):
        """The least front is above the end while V_LOA is not in force, linking asks for it, or V_MAIN 0 was used; and no override
        is active."""
        return not self.is_overridden() and bool(self.why_trips())

    def why_trips(self):
        """Which of these hold, but for the override."""
        end = self.end()
        held = {
            "end_passed": end is not None and end.speed == 0 and self.stretch().min_front > end.place,
            "linking": self.now.trips(),
            "stop": any(f.packet.kind == 12 and f.packet.speed == 0 and f.entry == len(self.entries) - 1 for f in self.facts),
        }
        return [name for name, holds in held.items() if holds]

    def is_full(self):
        """An authority is stored, its end is above the greatest front, and static speed and gradient are stored at each centimetre
        from there up to and without the end."""
        end, front = self.end(), self.stretch().max_front
        return end is not None and end.place > front and all(
            profile.at(place) is not None for profile in (self.gradients(), self.speeds())
            for place in {front} | {start for start in profile.starts() if front < start < end.place})

    def is_in(self, kind):
        here = self.stretch()
        return any(area.kind == kind and is_met(area, here.min_front, here.max_front) for area in self.areas())

    # ---- what asks to be acknowledged

    def asks(self, kind, here):
        if kind == "level-0":
            announced = self.announcement()
            return (announced is not None and announced.level == 0 and announced.place is not None
                    and here.max_front >= announced.place - announced.acknowledged)
        return any(area.kind == kind and is_left(area, here.min_front) and here.max_front >= area.start - area.acknowledged
                   for area in self.areas())

    def left(self):
        """Of which kinds an area or an announcement is left."""
        min_front, announced = self.stretch().min_front, self.announcement()
        left = {kind: any(area.kind == kind and is_left(area, min_front) for area in self.areas()) for kind in driver.KINDS}
        left["level-0"] = announced is not None and announced.level == 0
        return left
