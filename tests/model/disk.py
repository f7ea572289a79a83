"""A disk of sectors that may lose power (this project's profile): a sector that was written is open until a sync succeeds."""

SECTOR_BYTES = 512


class DeviceFault(Exception):
    """The device failed in this call."""


class Disk:
    def __init__(self, sectors):
        self.held = sectors  # what a read gives
        self.synced = {}  # of each open sector, what it held when it was last synced
        self.handed = {}  # what was last handed in to a write, also to one that failed
        self.changes, self.calls, self.faults = 0, 0, 0  # a write or a sync is a change
        self.cut = self.fail = None  # the number of the change, or ..
        self.cut_any = self.fail_any = None  # .. of the call in which power is lost, or which fails once
        self.is_dead = False

    @classmethod
    def of(cls, data):
        """A disk with the sectors of an image."""
        return cls([data[at:at + SECTOR_BYTES] for at in range(0, len(data) - SECTOR_BYTES + 1, SECTOR_BYTES)])

    def data(self):
        return b"".join(self.held)

    def goes_wrong(self, is_change):
        """Whether this call answers a fault; it may also be the one in which power is lost."""
        call, change = self.calls, self.changes
        self.calls, self.changes = call + 1, change + is_change
        if self.is_dead:
            return True
        self.is_dead = call == self.cut_any or (is_change and change == self.cut)
        return self.is_dead or call == self.fail_any or (is_change and change == self.fail)

    def fault(self):
        self.faults += 1
        raise DeviceFault

    def read(self, first, count=1):
        if self.goes_wrong(False):
            self.fault()
        return b"".join(self.held[first:first + count])

    def write(self, first, data):
        was_dead = self.is_dead
        fails = self.goes_wrong(True)
        for k in range(0 if was_dead else len(data) // SECTOR_BYTES):
            sector, part = first + k, data[SECTOR_BYTES * k:SECTOR_BYTES * (k + 1)]
            self.synced.setdefault(sector, self.held[sector])
            self.handed[sector] = part
            if not fails:
                self.held[sector] = part
        if fails:
            self.fault()

    def sync(self):
        if self.goes_wrong(True):
            self.fault()
        self.synced = {}

    def put(self, first, data):
        self.write(first, data)
        self.sync()

    def open_sectors(self):
        return sorted(self.synced)

    def settled(self, choices=()):
        """What is found when power comes back: Old, New or some bytes for each open sector, in rising order, Old beyond the list."""
        held = list(self.held)
        for sector, choice in zip(self.open_sectors(), list(choices) + ["old"] * len(self.synced)):
            held[sector] = {"old": self.synced[sector], "new": self.handed[sector]}.get(choice, choice)
        return Disk(held)
