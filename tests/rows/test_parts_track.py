"""Rows of places, restrictions, profiles and permitted speeds, in words and in numbers. Places and lengths are
centimetres, speeds km/h, but m/h where they are permitted.

    place new                       a life begins
    place move 9046                 a movement
    place read                      a balise is read: the next fix is at it
    place fix 50000 1000 missed     a fix at a place, with an accuracy; balise 1 was missed
    place fronts                    the minimum and the maximum safe front
    place front                     the estimate of the front, and its uncertainty
    place front read                what both were at the balise
    place front first               what both were at the start of the life
    place rear 20000                the minimum safe rear of a train of this length
    place sums                      of the movements, and of the path

    restriction new                 none is there
    restriction add 7 10000 5000 front 80
                                    one of this number, from a place on, for a length, until the front or the rear has
                                    left it, of a speed
    restriction revoke 7
    restriction forget 14999        all track before a place
    restriction keep                a copy is laid aside
    restriction turn                what was laid aside goes on, and what went on is laid aside
    restriction limit 0 9000 10000 160
                                    the least of a speed and of those for a train with its minimum safe rear, minimum
                                    and maximum safe front at these places

    profile new                     nothing is known
    profile replace 0 0=80 1000=end these steps, from a place on; `end` is an end mark
    profile forget 1000             drops what lies beyond a place
    profile clear
    profile keep, profile turn      as of restrictions
    profile at 999                  the speed there
    profile lasts 0                 up to where the value of a place lasts
    profile since 2000 0            from where on the value of the centimetre before a place holds up to there; nothing
                                    is asked of what lies before the second place
    profile before 2000 0           that value
    profile least 0 1000 160        the least of a speed and of those from one place to another
    profile throughout 0 3000       whether there is a speed at each centimetre from one place up to another
    profile count                   the number of segments

    speed permitted 0 160000 by 70 1000 on -10 0 60000 0 -5 before 100000=0 20000=100000
                                    with the maximum safe front at 0, up to a limit; by brakes of a deceleration (cm/s2)
                                    and a reaction (ms); on a gradient that begins at a place, changes at another and
                                    ends at a third, of so many per mille before the change and after it; before at
                                    most two targets, each a place and a speed
    speed fits 0 356 by .. on .. before 100=0
                                    whether a speed fits a target
    speed deceleration 0            whether there is such a one
    speed reaction 0                whether there is such a one

Both stores of a profile, facts and segments, are asked each row: an answer that they don't share is printed twice.
"""
from asking import signed

REFUSED = "refused"
YES = ["no", "yes"]
# Of each word the number of its operation, and how many numbers come after it.
PLACE = {
    "new": (1, 0), "move": (2, 1), "read": (3, 0), "fix": (4, 2), "fronts": (5, 0), "front": (6, 0),
    "front read": (7, 0), "front first": (8, 0), "rear": (9, 1), "sums": (10, 0),
}
RESTRICTION = {"new": (1, 0), "revoke": (3, 1), "forget": (4, 1), "keep": (5, 0), "turn": (6, 0)}
PROFILE = {
    "new": (1, 0), "forget": (3, 1), "clear": (4, 0), "keep": (5, 0), "turn": (6, 0), "at": (7, 1), "lasts": (8, 1),
    "throughout": (10, 2), "count": (11, 0), "since": (12, 2), "before": (13, 2),
}


def whole(word):
    """The number of a word, those below 0 by their two's complement of 64 bits."""
    return int(word) % 2**64


def bits(width, word):
    """The number of a variable of so many bits."""
    number = int(word)
    if not 0 <= number < 2**width:
        raise ValueError(f"{word} has no {width} bits")
    return number


def called(calls, words):
    """The number of an operation, and of each word after it: as many as it has."""
    name = " ".join(words[:2]) if " ".join(words[:2]) in calls else words[0]
    operation, count = calls[name]
    numbers = words[len(name.split()):]
    if len(numbers) != count:
        raise ValueError(f"{' '.join(words)}: {count} numbers are wanted")
    return [operation, *map(whole, numbers)]


def in_kmh(speed):
    return str(speed // 1_000) if speed % 1_000 == 0 else f"{speed} m/h"


def place(words):
    if words[0] == "fix" and words[-1] == "missed":
        return called(PLACE, words[:-1]) + [1]
    return called(PLACE, words)


def place_answer(words, reply):
    asked, first, second = reply.take(3)
    if not asked:
        return REFUSED
    if words[0] in ("move", "fix"):
        return ["overrun", "done"][first]
    if words[0] in ("new", "read"):
        return "done"
    return str(signed(first)) if words[0] == "rear" else f"{signed(first)} {signed(second)}"


def restriction(words):
    name, *others = words
    if name == "add":
        number, start, length, until, speed = others
        front = {"rear": 0, "front": 1}[until]
        return [2, bits(8, number), whole(start), whole(length), front, 1_000 * int(speed)]
    if name == "limit":
        rear, least, greatest, otherwise = others
        return [7, whole(rear), whole(least), whole(greatest), 1_000 * int(otherwise)]
    return called(RESTRICTION, words)


def restriction_answer(words, reply):
    asked, speed = reply.take(2)
    if not asked:
        return REFUSED
    return in_kmh(speed) if words[0] == "limit" else "done"


def step(word):
    at, value = word.split("=")
    return [whole(at), 0, 0] if value == "end" else [whole(at), 1, 1_000 * int(value)]


def profile(words):
    name, *others = words
    if name == "replace":
        start, *steps = others
        if len(steps) > 8:
            raise ValueError("more than eight steps")
        return [2, whole(start), len(steps), *(number for word in steps for number in step(word))]
    if name == "least":
        first, last, otherwise = others
        return [9, whole(first), whole(last), 1_000 * int(otherwise)]
    return called(PROFILE, words)


def of_both(facts, segments):
    return facts if facts == segments else f"{facts} by the facts, {segments} by the segments"


def profile_answer(words, reply):
    facts, segments = reply.take(2), reply.take(2)
    if words[0] == "count":
        return str(segments[1])
    return of_both(of_profile(words[0], *facts), of_profile(words[0], *segments))


def of_profile(name, kind, number):
    if kind == 0:
        return REFUSED
    if name in ("at", "least", "before"):
        return in_kmh(number) if kind == 1 else "none"
    if name in ("lasts", "since"):
        return str(signed(number)) if kind == 1 else "for ever"
    return YES[number] if name == "throughout" else "done"


def speed(words):
    name, *others = words
    if name in ("deceleration", "reaction"):
        brakes = [int(others[0]), 0] if name == "deceleration" else [1, int(others[0])]
        return [3, 0, 0, *brakes]
    words_between = others[2], others[5], others[11]
    if words_between != ("by", "on", "before"):
        raise ValueError(f"{' '.join(words)}: other words between the numbers")
    targets = [whole(number) for word in others[12:] for number in word.split("=")]
    numbers = [whole(word) for word in others[:2] + others[3:5] + others[6:11]]
    operation = {"permitted": 1, "fits": 2}[name]
    if len(targets) not in ((0, 2, 4) if operation == 1 else (2,)):
        raise ValueError(f"{' '.join(words)}: too many targets")
    return [operation, *numbers, len(targets) // 2, *targets]


def speed_answer(words, reply):
    asked, first, second = reply.take(3)
    if not asked:
        return REFUSED
    if words[0] == "permitted":
        return of_both(str(first), str(second))
    if words[0] == "fits":
        return of_both(YES[first], YES[second])
    return YES[first] if words[0] == "deceleration" else YES[second]
