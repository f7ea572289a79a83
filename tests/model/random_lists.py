"""Pseudo-random lists of events of several lives, with the answers of the reference model: rows for test_kernel
(make_rows.py)."""
from collections import Counter

import modes
import output
import pools
import rows
from items import VALID
from life import Life
from named import written
from rows import Line, Row

HEADING = """\
# ==== Pseudo-random lists, with the answers of the reference model, made by tests/model/random_lists.py.
"""
LISTS = 400

RESTRICTIONS, GROUPS, TRACK, SUPERVISION = (
    tuple(map(written, pool)) for pool in (pools.RESTRICTIONS, pools.GROUPS, pools.TRACK, pools.SUPERVISION))
LEVEL_0 = written(pools.LEVEL_0)

# name, telegrams, how many lists, events of each life
KINDS = (
    ("restrictions", RESTRICTIONS, 40, 16),
    ("groups", GROUPS, 50, 20),
    ("track", TRACK + SUPERVISION[:2], 80, 22),
    ("supervision", SUPERVISION, 150, 30),
    ("everything", RESTRICTIONS + GROUPS + TRACK + 2 * SUPERVISION, 80, 30),
)

NEAR_BOUNDS_CM = (-2_000, -600, -101, -1, 0, 1, 500, 1_300, 1_301)
SPEEDS = (0, 0, 0, 3_000, 12_000, 20_000, 26_000, 37_000, 52_000, 80_000)
KEPT = ("level", "position", "trip", "counts", "national", "train-data")
COLD = ("unknown", "moved", "not-moved")

ANYWHERE = ("acknowledge on-sight", "acknowledge shunting", "acknowledge level-0", "close-desk")
PLAUSIBLE = {
    "SB": ("enter-identity B 7", "enter-running-number 4711", "choose-level 0", "choose-level 1", "confirm running-number",
           "confirm level", "acknowledge trip", "choose-shunting", "start"),
    "FS": ("override", "choose-shunting", *ANYWHERE, *ANYWHERE),
    "OS": ("override", "choose-shunting", *ANYWHERE, *ANYWHERE),
    "SR": ("override", "override", "choose-shunting", *ANYWHERE),
    "UN": ("choose-shunting", *ANYWHERE),
    "SH": ("leave-shunting", "leave-shunting", *ANYWHERE),
    "TR": ("acknowledge trip", "acknowledge trip", "acknowledge trip", "start"),
    "PT": ("start", "override", "choose-shunting", *ANYWHERE),
    "SF": ("start",),
}
EVERY = tuple(dict.fromkeys(action for actions in PLAUSIBLE.values() for action in actions))


class Numbers:
    """Pseudo-random numbers of a linear congruence, the same wherever they are made."""

    def __init__(self, seed):
        self.last = seed

    def below(self, bound):
        self.last = (self.last * 6_364_136_223_846_793_005 + 1_442_695_040_888_963_407) % 2**64
        return (self.last >> 33) % bound

    def one_of(self, things):
        return things[self.below(len(things))]


def train(numbers):
    """A short train, whose brakes act after up to 1 s."""
    return (f"{100 + numbers.below(900)} {numbers.one_of((60_000, 160_000, 300_000))} {20 + numbers.below(100)} "
            f"{numbers.below(1_001)} {numbers.one_of((3, 5, 15))}")


def preparing(numbers, life):
    """What the driver does next to start."""
    if life.is_tripped():
        return "acknowledge trip"
    for name, entering in (("identity", "enter-identity A"), ("level", f"choose-level {min(1, numbers.below(4))}"),
                           ("train-data", f"enter-train-data {train(numbers)}")):
        item = life.item(name)
        if item.status != VALID:
            return f"confirm {name}" if item.value is not None and numbers.below(2) else entering
    return "start" if life.is_revalidated() or numbers.below(6) else "choose-shunting"


def event(numbers, telegrams, life):
    """Telegrams, movements from -20 to 30 m or near the bounds of groups, moments up to 4 s later, and the driver's actions."""
    if life.mode() == "SB" and life.speed() == 0 and numbers.below(2):
        return preparing(numbers, life)
    if life.mode() == "PT" and numbers.below(6) == 0:
        return "hear " + LEVEL_0
    kind = numbers.below(20)
    if kind < 7:
        return "hear " + numbers.one_of(telegrams)
    if kind < 11:
        movement = numbers.one_of(NEAR_BOUNDS_CM) if numbers.below(3) == 0 else numbers.below(4_001) - 600
        return f"move {movement} {numbers.one_of(SPEEDS)}"
    if kind < 13:
        return f"clock {life.moment() + numbers.below(4_001)}"
    if life.speed() > 0 and numbers.below(2):
        return "move 0 0"
    return numbers.one_of(PLAUSIBLE[life.mode()] if numbers.below(5) else EVERY)


def asked(numbers):
    return "place" if numbers.below(2) else "kept " + numbers.one_of(KEPT)


class RandomList:
    """A list as it is made: each event is chosen by what the plain program knows after the ones before."""

    def __init__(self, name, numbers, telegrams, length):
        self.row, self.life, self.counted = Row(name), None, Counter()
        for number in range(1 + numbers.below(3)):
            self.say("power-up " + (COLD[numbers.below(3)] if number else "unknown"))
            for _ in range(length):
                self.say(event(numbers, telegrams, self.life))
                if numbers.below(8) == 0:
                    self.say(asked(numbers))

    def say(self, text):
        word, _, value = text.partition(" ")
        if word == "power-up":
            self.life = Life(self.life.kept(), value) if self.life else Life()
        elif word not in rows.ASKED:
            self.life.take(word, value)
        line = Line(None, word, value, None)
        self.row.lines.append(line._replace(wanted=rows.answer_to(line, self.life)))
        if word not in rows.ASKED:
            self.count(word, value)

    def count(self, word, value):
        now = self.life.now
        mode, _, brake, limit, _ = now.output
        self.counted[f"mode {mode}"] += 1
        self.counted[f"row {now.row}"] += now.row is not None
        self.counted[f"power-up {value}"] += word == "power-up"
        held = [name for (commanded, name), holds in output.causes(self.life, mode, limit).items() if holds and commanded == brake]
        self.counted.update(f"{brake}: {name}" for name in held)
        if len(held) == 1 and brake == "emergency":
            self.counted[f"alone {brake}: {held[0]}"] += 1

    def text(self):
        said = [f"row {self.row.name}"]
        said += [f"{line.word} {line.value}".strip() + f" -> {line.wanted}" for line in self.row.lines]
        return "\n".join(said) + "\n"


# No list as short as these has a path of 2^40 cm, so row 1 and mode SF do not come up.
WANTED = (
    *(f"mode {mode}" for mode in ("FS", "OS", "SR", "SH", "UN", "SB", "TR", "PT")),
    *(f"row {number}" for number, *_ in modes.TABLE if number > 1),
    *(f"power-up {word}" for word in COLD),
    *(f"{brake}: {cause}" for brake, _, cause, _ in output.TABLE if cause != "mode SF"),
    *(f"alone emergency: {cause}" for cause in ("not revalidated", "above the limit by 10000", "rolled back too far")),
)


def lists(seed):
    numbers = Numbers(2026 + seed)
    for name, telegrams, count, length in KINDS:
        for number in range(count):
            yield RandomList(f"random {name} {number + 1}", numbers, telegrams, length)


def make_rows(seed):
    """Returns the rows, and what they lack: with the seed 0 each mode, row of the mode table and cause to brake comes up."""
    found = list(lists(seed))
    counted = sum((one.counted for one in found), Counter())
    print("of the random lists came up: " + ", ".join(f"{name} {counted[name]}" for name in WANTED))
    faults = [f"in the random lists did not come up: {name}" for name in WANTED if not counted[name] and seed == 0]
    if len(found) != LISTS:
        faults.append(f"there are {len(found)} random lists in place of {LISTS}")
    return HEADING + "".join("\n" + one.text() for one in found), faults
