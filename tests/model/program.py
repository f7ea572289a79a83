"""What the program prints of a life on an image: a line for each output that is released, and the lines of the journal. It is written
from the tables of the scenario and of the records (this project's profile) over the plain kernel, and doesn't know the bytes of an image."""
import functools
import itertools
import struct

from items import Kept
from life import Life

WORDS = ("unknown", "moved", "not-moved")
MOST_PENDING = 8
LONGEST_CM = 10_000

ITEMS = {1: "identity", 2: "running-number", 3: "train-data", 4: "level"}
KINDS = {1: "trip", 2: "on-sight", 3: "shunting", 4: "level-0"}
ALONE = {6: "start", 7: "choose-shunting", 8: "leave-shunting", 9: "override", 11: "close-desk"}


# ---- the steps of a scenario

def action_of(code, *values):
    """A driver's action as the plain kernel takes it, and its payload after the code."""
    first = values[0] if values else None
    if code == 1:
        return "enter-identity", first, first.encode()
    if code == 2:
        return "enter-running-number", str(first), struct.pack(">I", first)
    if code == 3:
        return "enter-train-data", " ".join(map(str, values)), struct.pack(">IIHHB", *values)
    if code == 4:
        return "choose-level", str(first), bytes([first])
    if code == 5:
        return "confirm", ITEMS[first], bytes([first])
    if code == 10:
        return "acknowledge", KINDS[first], bytes([first])
    return ALONE[code], "", b""


def balises(groups):
    """Where each balise lies, and what it sends, in the order in which a train passes them: equal places in that of the file."""
    laid = [(group["at"] + k * group["spacing"], text) for group in groups for k, text in enumerate(group["balises"])]
    return sorted(laid, key=lambda balise: balise[0])


def readings(cm, speed):
    """A way forward in readings of at most 100 m, the longest ones first."""
    while cm > 0:
        yield "reading", min(cm, LONGEST_CM), speed
        cm -= LONGEST_CM


def drive(laid, front, cm, speed):
    if cm <= 0:
        yield "reading", cm, speed
        return
    here = front
    for at, text in laid:
        if front < at <= front + cm:
            yield from readings(at - here, speed)
            yield "telegram", text
            here = at
    yield from readings(front + cm - here, speed)


def inputs_of(scenario):
    """The inputs of a scenario without faults, in order; None is a flush that it asks for."""
    laid, front = balises(scenario["groups"]), 0
    for step in scenario["steps"]:
        (key, value), = step.items()
        if key == "drive":
            yield from drive(laid, front, *value)
            front += value[0]
        elif key == "flush":
            yield None
        else:
            yield (key, *(value if key == "driver" else [value]))


def event_of(kind, *values):
    """The kind of a record, the plain kernel's word and value, and the payload."""
    if kind == "telegram":
        return "telegram", "hear", values[0], bytes.fromhex(values[0])
    if kind == "reading":
        return "odometer", "move", f"{values[0]} {values[1]}", struct.pack(">iI", *values)
    if kind == "clock":
        return "clock", "clock", str(values[0]), struct.pack(">Q", values[0])
    word, value, payload = action_of(*values)
    return "driver", word, value, bytes(values[:1]) + payload


# ---- an image

@functools.lru_cache(maxsize=4096)
def kept_after(lives):
    """What is kept after lives, each its word and its events: they are lived again, the same ones once."""
    if not lives:
        return Kept()
    *before, (word, taken) = lives
    life = Life(kept_after(tuple(before)), word)
    for event in taken:
        life.take(*event)
    return life.kept()


class Image:
    def __init__(self, slots):
        self.slots, self.lives, self.blocks, self.events = slots, [], [], 0

    def begun(self, cold):
        """The next life, after all that is durable."""
        kept = kept_after(tuple((word, tuple(taken)) for word, taken in self.lives))
        self.lives.append((cold, []))
        return Life(kept, cold)

    def record(self, life, kind, payload):
        output, number = life.now.output, self.events
        self.events += 1
        return number, kind, output, payload, life.place()

    def run(self, scenario):
        """The lines of one life, and its status."""
        cold = scenario.get("cold", 0)
        life, lines, moment, pending = self.begun(WORDS[cold]), [], 0, []
        self.blocks.append([self.record(life, "powerup", bytes([cold]))])

        def flush():
            if pending:
                self.lives[-1][1].extend(event for event, _ in pending)
                self.blocks.append([record for _, record in pending])
                lines.extend(released(record) for _, record in pending)
                pending.clear()

        for asked in inputs_of(scenario):
            if asked is None or len(pending) == MOST_PENDING:
                flush()
            if asked is None:
                continue
            kind, word, value, payload = event_of(*asked)
            if word == "clock":
                if int(value) < moment:
                    self.events -= len(pending)  # what was accepted and not flushed is lost
                    return lines + ["stopped 11 ClockBack"], 1
                moment = int(value)
            life.take(word, value)
            pending.append(((word, value), self.record(life, kind, payload)))
        flush()
        return lines, 0

    def listing(self):
        """A line a record of the blocks that the ring still holds, the oldest first."""
        numbered = itertools.islice(enumerate(self.blocks, 1), max(0, len(self.blocks) - self.slots), None)
        return [listed(block, record) for block, records in numbered for record in records]


# ---- lines

def released(record):
    number, _, output, _, _ = record
    return (f"event {number} mode {output.mode} level {output.level} brake {output.brake} limit {output.limit} "
            f"ind {output.indications}")


def listed(block, record):
    number, kind, output, payload, (estimate, uncertainty) = record
    return (f"block {block} event {number} {kind} {output.mode} {output.level} {output.brake} {output.indications} "
            f"{payload.hex() or '-'} at {estimate} unc {uncertainty} limit {output.limit}")
