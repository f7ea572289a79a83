"""The onboard unit (this project's profile): it accepts events, commits them, and only then releases the kernel's outputs."""
from disk import DeviceFault
from items import Kept
from journal import COLD, Journal, Refused, event_of, kept_in, record_of
from life import Life

MOST_PENDING = 8


class Known:
    """What is known after each list of inputs of a life, worked out once for all runs that have the same beginning."""

    worked_out = {}

    def __init__(self, kept, cold):
        self.kept_before, self.cold, self.inputs = kept, cold, ()
        self.begun, self.live = repr(kept), None
        self.look_up()

    def look_up(self):
        key = self.begun, self.cold, self.inputs
        if key not in self.worked_out:
            life = self.life()
            self.worked_out[key] = life.now.output, life.place(), life.kept(), life.moment()
        self.output, self.place, self.kept, self.moment = self.worked_out[key]

    def life(self):
        """The life itself."""
        if self.live is None:
            self.live = Life(self.kept_before, self.cold), 0
        life, done = self.live
        for word, value in self.inputs[done:]:
            life.take(word, value)
        self.live = life, len(self.inputs)
        return life

    def take(self, word, value):
        self.inputs += ((word, value),)
        self.look_up()


class Unit:
    def __init__(self, disk, cold):
        """Powers up: syncs, finds what is there, and commits the power-up in a block of its own. Refuses by number and name."""
        self.disk, self.failed, self.pending = disk, False, []
        try:
            self.journal = Journal(disk)
            found = self.journal.found
            kept = kept_in(found) if found else Kept()
            word = cold if found is None or found["format"] == 3 else "unknown"
            self.known = Known(kept, word)
            record = record_of(kept.events, ("powerup", COLD.index(word)), 0, self.known.output, self.known.place)
            self.journal.commit(disk, [record], self.known.kept)
        except DeviceFault:
            raise Refused("1 DeviceFault") from None
        except Refused as refused:
            raise Refused("6 WornOut" if "WornOut" in str(refused) else str(refused)) from None

    def accept(self, word, value):
        if self.failed:
            raise Refused("13 Failed")
        if len(self.pending) == MOST_PENDING:
            raise Refused("10 PendingFull")
        if word == "clock" and int(value) < self.known.moment:
            raise Refused("11 ClockBack")
        number = self.known.kept.events
        self.known.take(word, value)
        output, place = self.known.output, self.known.place
        self.pending.append((number, output, record_of(number, event_of(word, value), self.known.moment, output, place)))

    def flush(self):
        """The pairs that are released."""
        if self.failed:
            raise Refused("21 Failed")
        pending = self.pending
        if pending:
            try:
                self.journal.commit(self.disk, [record for *_, record in pending], self.known.kept)
            except DeviceFault:
                self.failed = True
                raise Refused("20 DeviceFault") from None
        self.pending = []
        return [(number, output) for number, output, _ in pending]
