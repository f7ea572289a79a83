"""One life: each event is taken sentence by sentence, and kept (this project's profile)."""
from types import SimpleNamespace

import authority
import driver
import links
import telegrams
from acknowledgements import NOTHING
from groups import Assembler, Reading
from history import Entry, Fact, History
from items import VALID, Kept
from modes import fate, row_of, used_in
from national import National
from output import output_of
from place import FARTHEST_CM, POWER_UP, Sums

REMEMBERED_CM = 100_000

TRIPPED = (3, 4, 5)  # the rows that lead to Trip where the train is to be tripped
KIND_OF_ROW = {7: "on-sight", 31: "on-sight", 32: "on-sight", 29: "shunting", 30: "shunting"}


class Life(History):
    def __init__(self, kept=Kept(), cold="unknown"):
        self.begun = SimpleNamespace(kept=kept, items=kept.items(cold),
                                     level_stands=cold == "not-moved" and kept.level.status == VALID)
        self.sums, self.fix, self.fixed_by = Sums(), POWER_UP, None
        self.assembler, self.links, self.national = Assembler(), links.Links(), National(kept.national)
        self.facts = []  # all packets that were used
        power_up = Entry(0, 0, acknowledgements={kind: NOTHING for kind in driver.KINDS})
        self.entries = [power_up]
        self.mark = self.stretch().min_rear - REMEMBERED_CM  # a power-up is a fix, and counts for the mark
        power_up.output = output_of(self)

    # ---- the events

    def take(self, word, value):
        """One event, and its output."""
        accepted = (word, value) if word in driver.ACTIONS and driver.accepts(self, word, value) else None
        self.entries.append(Entry(self.moment(), self.speed(), path=self.sums.path, values=self.national.in_force.values))
        if word == "hear":
            self.hear(bytes.fromhex(value))
        elif word == "move":
            self.move(*map(int, value.split()))
        elif word == "clock":
            self.now.moment = int(value)
        else:
            self.now.accepted = accepted
        self.now.path = self.sums.path
        self.over(accepted)
        return self.now.output

    def hear(self, data):
        """A telegram that is refused is an event without effect."""
        telegram = telegrams.read(data)
        if telegram:
            used = used_in(self.mode())
            for closed in self.assembler.take(Reading(telegram, self.sums)):
                self.use(closed, used)

    def move(self, movement, speed=0):
        """A movement that would take the path or the estimate past the farthest place is not added. Then a group may end,
        missed entries are looked for, and the ended group is judged."""
        self.now.is_reading, self.now.speed = True, speed
        sums = self.sums.after(movement)
        if sums.path <= FARTHEST_CM and abs(self.fix.estimate(sums)) <= FARTHEST_CM:
            self.sums, self.now.moved = sums, movement
        else:
            self.now.overrun = True
        ended = self.assembler.moved(self.sums.path)
        self.now.verdicts.append(self.links.missed(self.stretch().min_front))
        for closed in ended:
            self.use(closed, used_in(self.mode()))

    def over(self, accepted):
        """What follows each event's own effect, in its order."""
        max_front = self.stretch().max_front
        self.national.reach(max_front)
        announced = self.announcement()
        if announced and (announced.place is None or max_front >= announced.place):
            self.now.came_in = announced.level
        self.remember()
        self.now.seen = authority.Sight(self.moment(), self.stretch().min_front, max_front)
        row = row_of(self.mode(), self.conditions(accepted))
        states = self.acknowledgements(accepted, *(row or (None, self.mode())))
        if row:
            if row[0] in TRIPPED:
                self.now.tripped = self.why_trips()
            self.now.row, self.now.entered = row
            if fate("linking", self.mode()) == "D":
                self.links.left = []
            if fate("acknowledgements", self.mode()) == "D":
                states = {kind: states[kind].deleted() for kind in states}
        left = self.left()
        self.now.acknowledgements = {kind: states[kind] if left[kind] else states[kind].settled() for kind in states}
        self.remember()
        self.now.output = output_of(self)

    def remember(self):
        """The forgetting mark never falls. It rises by the place after the event's fixes, before the mode is looked for and after
        what the mode makes of the train data."""
        self.mark = max(self.mark, self.stretch().min_rear - REMEMBERED_CM)

    # ---- the mode

    def conditions(self, accepted):
        word, value = accepted or (None, None)
        held = {
            "overrun": self.now.overrun, "desk_closed": word == "close-desk", "trip": self.trips(),
            "beyond_staff_distance": self.is_too_far(), "level_0": self.level() == 0, "level_1": self.level() == 1,
            "full": self.is_full(), "on_sight_area": self.is_in("on-sight"), "shunting_area": self.is_in("shunting"),
            "trip_acknowledged": (word, value) == ("acknowledge", "trip"), "override_accepted": word == "override",
            "shunting_chosen": word == "choose-shunting", "shunting_left": word == "leave-shunting", "started": word == "start",
        }
        return {name for name, holds in held.items() if holds}

    # ---- acknowledgements

    def acknowledgements(self, accepted, row, mode):
        """The driver's own comes first, then the transition, then what asks where the mode is not the kind's."""
        here, states = self.stretch(), {}
        for kind in driver.KINDS:
            state = self.acknowledgement(kind)
            if accepted == ("acknowledge", kind):
                state = state.acknowledged()
            if KIND_OF_ROW.get(row) == kind or (kind == "level-0" and self.now.came_in == 0):
                state = state.turned(self.moment())
            if self.asks(kind, here) and mode != {"on-sight": "OS", "shunting": "SH"}.get(kind):
                state = state.requested()
            states[kind] = state
        return states

    # ---- a group that closed: judged, fixed, and its packets used

    def use(self, closed, used):
        if closed.cause:
            self.judged(closed, self.links.broken(closed))
            return
        verdict = self.links.judge(closed, self.fix.max_front(closed.sums))
        self.judged(closed, verdict)
        if verdict.kind != links.ACCEPT:
            return
        place = self.fixed(closed, verdict.entry)
        self.national.entered(closed.group[0])
        nominal = closed.nominal
        if nominal is None and verdict.entry:
            nominal = verdict.entry.nominal  # with one place read, what linking announces
        taken = [p for p in closed.packets if p.kind in used and (p.direction == 2 or p.direction == nominal)]
        for packet in sorted(taken, key=lambda packet: packet.kind):
            self.add(Fact(packet, closed.group, place, self.moment(), len(self.entries) - 1))

    def judged(self, closed, verdict):
        self.now.verdicts.append(verdict)
        self.now.groups.append((closed, verdict, self.mode()))

    def fixed(self, closed, entry):
        """An announced group makes a fix at its announced place, another one at its own place where nothing lies at a known
        place. The distances of its message count from there; where no fix is made, from its own place."""
        own = self.fix.estimate(closed.sums)
        fix = None
        if entry:
            fix = self.fix_at(entry.place, entry.accuracy, closed)
        elif self.is_free():
            fix = self.fix_at(own, 0, closed)
        if fix is None or not fix.is_within(self.sums):
            return own
        self.fix, self.fixed_by = fix, closed.group
        return fix.at

    def fix_at(self, place, accuracy, closed):
        return type(self.fix)(place, accuracy, closed.sums, closed.missed)

    def add(self, fact):
        self.facts.append(fact)
        if fact.packet.kind == 3:
            self.national.announce(fact)
        if fact.packet.kind == 5:
            self.links.replace(links.entries_of(fact.packet, fact.group, fact.place))
