"""Make random lives for campaigns: scenarios that a unit accepts, with a train that mostly drives forward. The same numbers give the
same life, on each machine. A life takes longer to make than to run, so its JSON is put together from texts that are made once.
"""
import functools
import itertools
import json
import random
from collections.abc import Iterator, Sequence
from typing import Any, TypeVar

from ..telegrams import telegrams

MOST_STEPS, MOST_GROUPS, GROUPS_WITHIN_CM = 60, 4, 400_000
ENTRIES = ([4, 1], [3, 20_000, 160_000, 70, 1_000, 15], [2, 704])
ACTIONS = ([5, 1], [5, 2], [5, 3], [5, 4], [6], [7], [8], [9], [10, 1], [10, 2], [10, 3], [10, 4], [11], [4, 0], [4, 1])
WAYS_CM, BACK_CM = (100, 1_000, 5_000, 20_000), (0, 0, -100, -400)
SPEEDS, BACK_SPEEDS = (5_000, 20_000, 40_000, 80_000, 120_000, 160_000), (0, 0, 3_000)
WAITS_MS = (2_000, 10_000, 40_000)
MOST_PENDING = 8
"""The greatest number of events in a block."""
HEAD_DIGITS, GROUP_SHIFT = 13, 3
"""The digits of a telegram that contain the number of its group, and the bits after it in them."""
GROUP_0 = telegrams.telegram("NID_BG 0").header
One = TypeVar("One")


def pick(numbers: random.Random, some: Sequence[One]) -> One:
    """One of some values."""
    return some[int(numbers.random() * len(some))]


def text_of(value: Any) -> str:
    """The JSON of a value."""
    return json.dumps(value, separators=(",", ":"))


def digits(text: str) -> str:
    """The digits of a telegram."""
    return telegrams.telegram(text).digits


# ---- telegrams

@functools.cache
def variables_of(packet: str) -> telegrams.Pairs:
    """The variables of a packet. Each comes in many telegrams, and to read it takes longer than to write it."""
    return telegrams.telegram(f"NID_BG 0; {packet}").packets[0]


@functools.cache
def of_group_0(packets: str) -> tuple[int, str]:
    """A telegram of group 0 with these packets: the number in its first digits, and the others."""
    found = telegrams.Telegram(GROUP_0, list(map(variables_of, packets.split("; ")))).digits
    return int(found[:HEAD_DIGITS], 16), found[HEAD_DIGITS:]


def telegram(group: int, packets: str) -> str:
    """The digits of a telegram of a group."""
    head, rest = of_group_0(packets)
    return f"{head | group << GROUP_SHIFT:0{HEAD_DIGITS}X}{rest}"


def authorities(way: int) -> list[str]:
    """The packets of authorities for this way, mostly with gradients and speeds."""
    alone = [f"12: V_MAIN {speed}, L_ENDSECTION {way}" for speed in (8, 16, 24, 32)]
    tracks = [f"21: D_GRADIENT 0, Q_GDIR {rises}, G_A {gradient}; 27: D_STATIC 0, V_STATIC {speed}, Q_FRONT {front}, N_ITER 0"
              for rises in range(2) for gradient in (0, 0, 5, 20) for speed in (12, 20, 28) for front in range(2)]
    return [f"{one}; {track}" for one in alone for track in tracks] + alone * (len(tracks) // 9)


AUTHORITIES = [one for way in (200, 500, 1_000, 2_000, 5_000) for one in authorities(way)]
RESTRICTIONS = [f"65: NID_TSR {number}, D_TSR {place}, L_TSR {length}, Q_FRONT {front}, V_TSR {speed}"
                for number in range(4) for place in (0, 100, 400) for length in (50, 300) for front in range(2) for speed in (2, 6, 12)]
RESTRICTIONS += [f"66: NID_TSR {number}" for number in range(4) for _ in range(len(RESTRICTIONS) // 16)]
"""A fifth of them end a restriction."""
ANNOUNCED = (AUTHORITIES, RESTRICTIONS)


def authority(numbers: random.Random, group: int) -> str:
    """A telegram with an authority."""
    return telegram(group, pick(numbers, AUTHORITIES))


def announced(numbers: random.Random, group: int) -> str:
    """A telegram with an authority or about a restriction."""
    return telegram(group, pick(numbers, pick(numbers, ANNOUNCED)))


# ---- steps

CLOCK, HEARD = "a moment of the clock", "a telegram"


def drives(ways: Sequence[int], speeds: Sequence[int]) -> list[str]:
    """Each of these ways at each of these speeds."""
    return [text_of({"drive": [way, speed]}) for way in ways for speed in speeds]


IN_100 = [(55, drives(WAYS_CM, SPEEDS)), (8, drives(BACK_CM, BACK_SPEEDS)), (12, [CLOCK]), (18, [text_of({"driver": one}) for one in ACTIONS]),
          (4, [HEARD]), (3, [text_of({"flush": True})])]
"""The kinds of steps, with how many of a hundred steps are of each."""
STEPS = [one for count, kind in IN_100 for one in kind for _ in range(120 * count // len(kind))]
"""The steps, each as often as its share asks for, so that one number chooses a step."""
ENTERED = [text_of({"driver": one}) for one in (*ENTRIES, [6])]
"""The steps by which a train that has an authority and an identity starts."""


def steps(numbers: random.Random) -> Iterator[str]:
    """The JSON of random steps, without end."""
    draw, count, moment = numbers.random, len(STEPS), 0
    while True:
        one = STEPS[int(draw() * count)]
        if one is CLOCK:
            moment += pick(numbers, WAITS_MS)
            one = f'{{"clock":{moment}}}'
        elif one is HEARD:
            one = f'{{"telegram":"{announced(numbers, 2 + int(8 * draw()))}"}}'
        yield one


def ready(numbers: random.Random) -> list[str]:
    """The steps that make a train ready."""
    identity = text_of({"driver": [1, f"IC {int(1_000 * numbers.random())}"]})
    return [f'{{"telegram":"{authority(numbers, 2)}"}}', identity, *ENTERED]


def groups(numbers: random.Random) -> list[str]:
    """Groups of one balise ahead of the start."""
    places = {1 + int((GROUPS_WITHIN_CM - 1) * numbers.random()) for _ in range(int((MOST_GROUPS + 1) * numbers.random()))}
    return [f'{{"at":{place},"spacing":300,"balises":["{announced(numbers, group)}"]}}' for group, place in enumerate(sorted(places), 10)]


def slots_for(life: bytes) -> int:
    """Slots in which no block of a random life is written over: for its power-up, each flush, and each eight events. A drive of 200 m has two
    readings. A group that is passed makes a telegram and another reading; it is passed once, and twice more for each drive back."""
    objects, drives_on, drives_back, flushes, groups = map(life.count, (b"{", b"[20000,", b"[-", b'"flush"', b'"at"'))
    events = objects - 1 - groups - flushes + drives_on + 2 * groups * (1 + 2 * drives_back)
    return 2 + events // MOST_PENDING + flushes


def scenario(numbers: random.Random) -> bytes:
    """The bytes of a random scenario, on one line; most of them first make the train ready."""
    begin = ready(numbers) if numbers.random() < 0.9 else []
    found = ",".join([*begin, *itertools.islice(steps(numbers), int(MOST_STEPS * numbers.random()))])
    return f'{{"groups":[{",".join(groups(numbers))}],"steps":[{found}],"cold":{int(3 * numbers.random())}}}'.encode()
