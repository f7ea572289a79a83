"""What happens in the kernel's rows as numbers for the module `test_kernel` of the program of rows, and its answers as words.

    power-up unknown                 or moved, not-moved: another life begins
    hear 90007F8020017FC0            the bytes of a balise
    move 100 20000                   a movement (cm, 10,000 at most) and the speed (m/h); without a speed it is 0
    clock 4000                       a moment (ms)
    enter-identity A 7               what the driver does: enters an identity,
    enter-running-number 4711
    enter-train-data 20000 160000 70 0 15    length (cm), greatest speed (m/h), deceleration (cm/s^2), reaction (ms),
                                     category
    choose-level 1                   or 0
    confirm identity                 or running-number, train-data, level
    start                            or choose-shunting, leave-shunting, override, close-desk
    acknowledge trip                 or on-sight, shunting, level-0
    place                            asks for the estimate and its uncertainty (cm)
    kept level                       asks for what is kept, also of identity (its bytes), running-number, train-data,
                                     position (a group and the distance beyond it, cm), trip, counts (events and
                                     lives), and national (the values, and the countries that they are of)

An event is answered by the mode, the level, the brake, the limit (m/h) and the indications: `SR 1 none 40000 0`. The
numbers stand in program/src/test_kernel.rt.txt."""
from asking import Reply, packed, signed

NEW = [0]  # equipment that never had power
KNOWN = [3]  # where the train is, and what is kept
WAYS = ("step", "apply", "power_up")
REFUSED = 2  # stands before what is known, where memory was refused

COLD = {"unknown": 0, "moved": 1, "not-moved": 2}
ALONE = {"start": 6, "choose-shunting": 7, "leave-shunting": 8, "override": 9, "close-desk": 11}
CONFIRMED = {"identity": 1, "running-number": 2, "train-data": 3, "level": 4}
ACKNOWLEDGED = {"trip": 1, "on-sight": 2, "shunting": 3, "level-0": 4}
MODES = {0: "FS", 1: "OS", 2: "SR", 3: "SH", 4: "UN", 6: "SB", 7: "TR", 8: "PT", 9: "SF"}
LEVELS = ["0", "1", "-"]
BRAKES = ["none", "service", "emergency"]
STATUS = ["unknown", "valid", "invalid"]


# ---- what is asked

def question(word, value):
    """The row of numbers of a line's word and what follows it."""
    if word == "place" and not value or word == "kept" and value in ITEMS:
        return KNOWN
    return [1, COLD[value]] if word == "power-up" else [2, *an_input(word, value)]


def an_input(word, value):
    if word == "hear":
        return [2, *data(bytes.fromhex(value))]
    if word == "move":
        movement, *speed = map(int, value.split())
        return [3, movement % 2**64, *only(1, speed or [0])]
    return [4, int(value)] if word == "clock" else [5, *an_action(word, value)]


def an_action(word, value):
    if word in ALONE and not value:
        return [ALONE[word]]
    return {
        "enter-identity": lambda: [1, *data(value.encode())],
        "enter-running-number": lambda: [2, int(value)],
        "enter-train-data": lambda: [3, *only(5, list(map(int, value.split())))],
        "choose-level": lambda: [4, int(value)],
        "confirm": lambda: [5, CONFIRMED[value]],
        "acknowledge": lambda: [10, ACKNOWLEDGED[value]],
    }[word]()


def only(count, numbers):
    if len(numbers) != count:
        raise ValueError(f"{count} numbers are wanted")
    return numbers


def data(part):
    """How many bytes there are, and the bytes, eight to a number."""
    return [len(part), *packed(part)]


# ---- what is answered

def answers(word, value, numbers):
    """What each way answers to a line. ValueError and the like where the numbers say nothing."""
    reply = Reply(numbers)
    read = output if question(word, value) != KNOWN else lambda reply: known(reply)[item(word, value)]
    found = [read(reply) for _ in WAYS]
    reply.end()
    return dict(zip(WAYS, found))


def item(word, value):
    return value if word == "kept" else word


def output(reply):
    left, text = taken(reply)
    return text if left is None else "no memory"


def taken(reply):
    """What is known where memory was refused for an event, else None; and the output, or that of the same event again."""
    left = None
    if reply.take() == REFUSED:
        left = known(reply)
        if reply.take() == REFUSED:
            known(reply)
            return left, "no memory"
    return left, shown(reply)


def shown(reply):
    mode, level, brake, limit, indications = reply.take(5)
    return f"{MODES[mode]} {LEVELS[level]} {BRAKES[brake]} {limit} {indications}"


def known(reply):
    """Place and each item that is kept, by name."""
    return {name: words(reply) for name, words in (("place", place), *ITEMS.items())}


def place(reply):
    estimate, uncertainty = reply.take(2)
    return f"{signed(estimate)} {uncertainty}"


def counts(reply):
    return "{} {}".format(*reply.take(2))


def trip(reply):
    return ["no", "yes"][reply.take()]


def identity(reply):
    size = reply.take()
    text = reply.data(size, 2)
    return text.hex() if size else "-"


def running_number(reply):
    is_known, number = reply.take(2)
    return str(number) if is_known else "-"


def train_data(reply):
    is_known, *train = reply.take(6)
    return " ".join(map(str, train)) if is_known else "-"


def level(reply):
    status, number = reply.take(2)
    return f"{STATUS[status]} {number}" if status else STATUS[status]


def position(reply):
    status, country, group, distance = reply.take(4)
    return f"{STATUS[status]} {country} {group} {signed(distance)}" if status else STATUS[status]


def national(reply):
    values = reply.take(9)
    for _ in ("override_time", "staff_responsible_distance"):
        is_known, limit = reply.take(2)
        values.append(limit if is_known else "-")
    return " ".join(map(str, [*values, "of", *(reply.take() for _ in range(reply.take()))]))


# In the order of the reply.
ITEMS = {"counts": counts, "trip": trip, "identity": identity, "running-number": running_number,
         "train-data": train_data, "level": level, "position": position, "national": national}
