"""Commands of the onboard unit's rows as numbers for the module `test_onboard` of the program of rows, and its answers as words.

    format 4                 a disk for so many slots, and an empty journal on it
    less                     the same disk with one sector less
    put 1 0:45544353 ..      makes the six sectors of a slot of these bytes, each run from an offset on; others are zero
    flip 0 11 03             changes the bits of this mask in a sector's byte
    keep                     the disk as it is settled now is what `again` goes back to
    again                    a disk as that one, on which nothing was called
    cut 3                    of the writes and syncs from here on the one of this number, counted from 0, loses power
    fail 3                   .. fails once
    cut-any 3                the same, with reads counted too
    fail-any 3
    open unknown             or moved, not-moved: the unit powers up
    clock 1000               an input: a moment of the clock
    move 100 5000            .. a reading: the movement, and the speed, which is 0 where none is given
    hear 90007F80            .. the bytes of a telegram
    start                    .. an action of the driver (ACTIONS)
    flush                    with each pair that is released: number of the event, mode, level, brake, limit and
                             indications
    close                    hands the disk back: how many writes and syncs it had, and how many faults
    calls                    whether the disk had as many calls as the one that was asked before, reads too
    default                  the pair that no flush released
    live unknown             the inputs and flushes after it are a life
    run                      lives it, and says how it ended and all pairs
    openings 1000 unknown    so many lives without an event
    settle old new ff zeros @7    power comes back: what each open sector holds, in rising order, old beyond the list;
                             @7 is what sector 7 holds
    blocks                   the number of the oldest block that is retained and of the newest, and how many events
    kept level               what the newest block keeps (ITEMS)
    list                     a line for each record that is retained
    bytes                    a digest of all bytes of the blocks that are retained

The numbers stand in program/src/test_onboard.rt.txt. Where it is run, it prints the numbers of the commands on standard input,
which stand on lines with `;` between them: tests/rows/onboard_words.py <ROWS"""
import sys
from functools import lru_cache

from asking import Reply, packed, signed
from kernel_words import BRAKES, COLD, ITEMS, LEVELS, MODES, an_input

SLOT_BYTES = 3_072
MOST_BLOCKS = 4  # that are listed
CHOICES = {"old": 0, "new": 1, "ff": 2, "zeros": 3}
KINDS = {1: "powerup", 2: "telegram", 3: "odometer", 4: "clock", 5: "driver"}

# What is asked with no number, or with numbers alone.
ALONE = {"flush": 3, "close": 4, "calls": 5, "default": 6, "run": 8, "less": 11, "keep": 12, "again": 13, "blocks": 21,
         "bytes": 24}
NUMBERED = {"format": 10, "cut": 15, "fail": 16, "cut-any": 17, "fail-any": 18}

# Refusals by number.
OPEN = {0: "opened", 1: "1 DeviceFault", 2: "2 NotFormatted", 3: "3 Damaged", 4: "4 NoMemory", 6: "6 WornOut",
        30: "no disk", 31: "not done"}
ACCEPT = {0: "accepted", 10: "10 PendingFull", 11: "11 ClockBack", 12: "12 NoMemory", 13: "13 Failed",
          30: "no power", 31: "not done"}
FLUSH = {20: "20 DeviceFault", 21: "21 Failed", 23: "23 WornOut", 30: "no power", 31: "not done"}
SHOW = {1: "1 DeviceFault", 2: "2 NotFormatted", 3: "3 Damaged", 30: "no disk", 31: "not read", 32: "no block",
        33: "| no block"}
REFUSED = (1, 2, 3, 30)  # of these, those that are answered in place of all blocks
CALLS = {0: "another number", 1: "as many as before", 30: "power is on"}


# ---- what is asked

@lru_cache(None)
def questions(said):
    """The rows of numbers that a command asks."""
    word, _, value = said.partition(" ")
    if word in ALONE and not value:
        return ((ALONE[word],),)
    if word in NUMBERED:
        return ((NUMBERED[word], int(value)),)
    if word in ASKED:
        return tuple(map(tuple, ASKED[word](*value.split())))
    return ((2, *an_input(word, value)),)


def openings(times, cold):
    return [[1, COLD[cold]], [14]] * int(times)


def settle(*words):
    return [[14, *(CHOICES[word] if word in CHOICES else 4 + int(word.removeprefix("@")) for word in words)]]


def put(slot, *patches):
    content = bytearray(SLOT_BYTES)
    for offset, digits in (patch.split(":") for patch in patches):
        part = bytes.fromhex(digits)
        if int(offset) + len(part) > SLOT_BYTES:
            raise ValueError("a patch reaches past the bytes")
        content[int(offset):int(offset) + len(part)] = part
    return [[19, int(slot), *packed(bytes(content))]]


def kept(item):
    if item not in ITEMS:
        raise ValueError(f"{item} isn't kept")
    return [[22]]


ASKED = {
    "open": lambda cold: [[1, COLD[cold]]],
    "openings": openings,
    "live": lambda cold: [[7, COLD[cold]]],
    "settle": settle,
    "put": put,
    "flip": lambda sector, offset, mask: [[20, int(sector), int(offset), int(mask, 16)]],
    "kept": kept,
    "list": lambda: [[23, index] for index in range(MOST_BLOCKS + 1)],
}


# ---- what is answered

def answer(said, rows):
    """The words of what a command's rows were answered; where they say none, what is wrong."""
    word = said.partition(" ")[0]
    rows_read = rows if word == "list" else rows[-2 if word == "openings" else -1]
    return words(said if word == "kept" else word, tuple(map(tuple, rows_read)) if word == "list" else tuple(rows_read))


@lru_cache(None)
def words(word, numbers):
    try:
        return listing(numbers) if word == "list" else whole(word, numbers)
    except (ValueError, KeyError, IndexError, OverflowError) as fault:
        return f"no answer ({fault}): {numbers}"


def whole(word, numbers):
    if not numbers:
        return ""
    reply = Reply(numbers)
    text = reader_of(word)(reply)
    reply.end()
    return text


def reader_of(word):
    """Which answer is read as what: one of a command's own, else that of an input or of what is done to the disk."""
    if word.startswith("kept "):
        return lambda reply: kept_words(word.split()[1], reply)
    if word in ANSWERED:
        return ANSWERED[word]
    return done if word in NUMBERED or word in ALONE or word in ASKED else lambda reply: ACCEPT[reply.take()]


def done(reply):
    """What is done to the disk, and a life that is begun, have no answer but this."""
    return {31: "not done"}[reply.take()]


def flushed(reply):
    refusal = reply.take()
    return released(reply) if refusal == 0 else FLUSH[refusal]


def released(reply):
    count = reply.take()
    return ", ".join([f"released {count}", *(pair(*reply.take(6)) for _ in range(count))])


def pair(event, mode, level, brake, limit, indications):
    return f"{event} {MODES[mode]} {LEVELS[level]} {BRAKES[brake]} {limit} {indications}"


def closed(reply):
    state, changes, faults = reply.take(3)
    return {0: f"{changes} writes and syncs, faults {faults}", 30: "no power"}[state]


def lived(reply):
    kind, step, refusal = reply.take(3)
    ends = {
        0: lambda: "done",
        1: lambda: OPEN[refusal],
        2: lambda: f"step {step} {ACCEPT[refusal]}",
        3: lambda: f"step {step} {FLUSH[refusal]}",
        4: lambda: f"step {step} NoMemory",
        30: lambda: "no disk",
    }
    return f"{ends[kind]()}, {released(reply)}"


def after_refusal(text):
    """Reads what follows a 0; another number is a refusal."""
    def read(reply):
        refusal = reply.take()
        return SHOW[refusal] if refusal else text(reply)
    return read


def run_of_blocks(reply):
    return "{} to {}, events {}".format(*reply.take(3))


ANSWERED = {
    "open": lambda reply: OPEN[reply.take()],
    "openings": lambda reply: OPEN[reply.take()],
    "flush": flushed,
    "close": closed,
    "calls": lambda reply: CALLS[reply.take()],
    "default": flushed,
    "run": lived,
    "blocks": after_refusal(run_of_blocks),
    "bytes": after_refusal(lambda reply: f"{reply.take():016x}"),
}


# ---- what is kept

def kept_words(item, reply):
    """One of the items that follow each other in a reply."""
    refusal = reply.take()
    if refusal:
        return SHOW[refusal]
    return {name: text(reply) for name, text in ITEMS.items()}[item]


# ---- the listing

def listing(rows):
    """The records of each block; a refusal where no journal is found."""
    first = rows[0][0]
    if first in REFUSED:
        return SHOW[first]
    if not rows[-1][0]:
        raise ValueError(f"more than {MOST_BLOCKS} blocks")
    return " ".join(text for text in map(block, rows) if text)


def block(numbers):
    reply = Reply(numbers)
    refusal = reply.take()
    if refusal:
        return "" if refusal == 32 else SHOW[refusal]
    number, count = reply.take(2)
    text = " ".join(f"| block {number} {record(reply)}" for _ in range(count))
    reply.end()
    return text


def record(reply):
    event, kind, mode, status, brake, indications = reply.take(6)
    text = f"event {event} {KINDS[kind]} {MODES[mode]} {LEVELS[status]} {BRAKES[brake]} {indications} "
    text += payload(reply) or "-"
    known, estimate, uncertainty, limit = reply.take(4)
    return text + (f" at {signed(estimate)} unc {uncertainty} limit {limit}" if known else "")


def payload(reply):
    size = reply.take()
    data = b"".join(reply.take().to_bytes(8, "big") for _ in range((size + 7) // 8))
    if any(data[size:]):
        raise ValueError("bytes beyond the size")
    return data[:size].hex()


if __name__ == "__main__":
    for line in sys.stdin:
        for said in line.split(";"):
            for numbers in questions(said.strip()):
                print(*numbers)
