"""The state of an acknowledgement: nothing, requested, done, or owed since a moment (SUBSET-026, 5.7, 5.9 and 5.10; the table is this
project's)."""
from collections import namedtuple

NONE, REQUESTED, DONE, OWED = "nothing", "requested", "done", "owed"
BRAKES_AFTER_MS = 5000

# What becomes of it, by what it was before. What is owed is owed from the moment of the event on.
BECOMES = """
              nothing    requested  done     owed
acknowledged  same       done       same     nothing
entered       owed       owed       nothing  owed
requested     requested  same       same     same
deleted       nothing    nothing    nothing  nothing
settled       nothing    nothing    nothing  same
"""


def cells():
    head, *lines = BECOMES.strip("\n").splitlines()
    for line in lines:
        happening, *cells = line.split()
        yield happening, dict(zip(head.split(), cells))


TABLE = dict(cells())


class Acknowledgement(namedtuple("Acknowledgement", "state since")):
    __slots__ = ()

    def waits(self):
        return self.state in (REQUESTED, OWED)

    def brakes(self, now):
        return self.state == OWED and now - self.since >= BRAKES_AFTER_MS

    def after(self, happening, now=None):
        state = TABLE[happening][self.state]
        return self if state == "same" else Acknowledgement(state, now if state == OWED else None)

    def acknowledged(self):
        return self.after("acknowledged")

    def turned(self, now):
        """The transition: its mode is entered, or an announced level 0 comes into force."""
        return self.after("entered", now)

    def requested(self):
        return self.after("requested")

    def deleted(self):
        """A mode is entered that deletes it."""
        return self.after("deleted")

    def settled(self):
        """No area or announcement of the kind is left."""
        return self.after("settled")


NOTHING = Acknowledgement(NONE, None)
