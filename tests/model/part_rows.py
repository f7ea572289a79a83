"""Rows for test_parts that are too many to write by hand (make_rows.py): groups of balises with one or none missed, and
permitted speeds from the definition, speed by speed and centimetre by centimetre."""
from collections import namedtuple
from functools import lru_cache

HEADING = "# ---- Made by tests/model/part_rows.py.\n"

Gradient = namedtuple("Gradient", "begins changes ends before after")
Train = namedtuple("Train", "deceleration reaction")

# In m/h.
LIMIT, SLOWER = 900, 700
TRAINS = [Train(1, 0), Train(70, 400), Train(300, 10_000)]
GRADIENTS = [Gradient(-5, 9, 21, *both) for both in ((0, 0), (-5, 254), (-254, 12), (33, -71))]
FRONTS = -7, 0, 4


# ---- groups


def balise(place, total, duplicate=0):
    """The words of a balise of group 5: its N_PIG, N_TOTAL and M_DUP."""
    words = {"N_PIG": (place, 0), "N_TOTAL": (total, 1), "M_DUP": (duplicate, 0)}
    differing = (f"{name}={number}" for name, (number, usual) in words.items() if number != usual)
    return " ".join(["balises read", *differing])


def whole(total, missing=None):
    """The message of a group whose balises were read in order, at the start of a life."""
    known = total if missing is None else total - 1
    return f"5 {'nominal' if known else 'unknown'} 0 0" + (" missed" if missing == 0 else "")


def read(total):
    """Groups whose balises are all read."""
    yield "balises new", "done"
    for place in range(total + 1):
        yield balise(place, total), f"own {whole(total)}" if place == total else "nothing"


def missed(total, missing, before, after):
    """Groups of which one balise isn't read, with these M_DUP before and after it: a neighbour repeats it, or not."""
    yield "balises new", "done"
    for place in range(total + 1):
        if place != missing:
            yield balise(place, total, before if place < missing else after), "nothing"
    is_repeated = before == 1 and missing > 0 or after == 2 and missing < total
    yield "balises move 1301", f"left {whole(total, missing)}" if is_repeated else "left 5 broken: missing"


def groups():
    for total in range(8):
        yield from read(total)
    for total in range(1, 8):
        for missing in range(total + 1):
            for before, after in ((0, 0), (1, 0), (0, 2), (2, 1)):
                yield from missed(total, missing, before, after)


# ---- speeds


def slowing(train, gradient, place):
    """The deceleration at a centimetre, in cm/s2, rounded down; 0 where no gradient is known."""
    if not gradient.begins <= place < gradient.ends:
        return 0
    steepness = gradient.before if place < gradient.changes else gradient.after
    return max(0, train.deceleration + 981 * steepness // 1000)


@lru_cache(maxsize=None)
def taken_off(train, gradient, first, end):
    """What the centimetres from one up to another, without it, take off the square of the speed: 1 cm/s is 36 m/h."""
    return sum(2 * 36**2 * slowing(train, gradient, place) for place in range(first, end))


def fits(speed, train, gradient, front, target):
    """The speed is no greater than the target's, or the brakes act before the target and take off enough."""
    place, slower = target
    if speed <= slower:
        return True
    first = front - -speed * train.reaction // 36_000
    return first < place and speed**2 <= slower**2 + taken_off(train, gradient, first, place)


def permitted(train, gradient, front, targets):
    """The greatest speed up to the limit that fits all targets; 0 where none does."""
    def fits_all(speed):
        return all(fits(speed, train, gradient, front, target) for target in targets)

    return next((speed for speed in range(LIMIT, 0, -1) if fits_all(speed)), 0)


def speeds():
    """Before a stop at each distance, and slower track at half of it."""
    for train in TRAINS:
        for gradient in GRADIENTS:
            for distance in range(25):
                targets = (distance, 0), (distance // 2, SLOWER)
                before = [f"{place}={speed}" for place, speed in targets]
                for front in FRONTS:
                    words = ["speed permitted", front, LIMIT, "by", *train, "on", *gradient, "before", *before]
                    yield " ".join(map(str, words)), permitted(train, gradient, front, targets)


def lines():
    yield "\n# balise_groups: groups of one to eight balises, one of them missed or none (SUBSET-026, 3.4.1, 3.16.2)"
    yield from (f"{question}: {answer}" for question, answer in groups())
    yield "\n# braking, brakes: a stop at each distance, and slower track at half of it (this project's profile)"
    yield from (f"{question}: {answer}" for question, answer in speeds())


def make_rows():
    """Returns the rows."""
    return HEADING + "".join(f"{line}\n" for line in lines())
