"""Make random scenarios: tracks, trains, drivers and losses of power, as strategies of hypothesis.

A file of properties may say what its scenarios are made of (docs/howto/searching.md); this module has the defaults. The first
choice of each strategy is the simplest, towards which hypothesis shrinks. Forward movements are the most frequent: with equal
frequencies a life would stay near its beginning.
"""
from collections.abc import Callable, Iterable
from dataclasses import dataclass, field
from typing import Any

from hypothesis import strategies as st

from ..cases.scenario_text import text_of
from ..simulation import scenarios
from ..simulation.scenarios import ACKNOWLEDGED, CONFIRMED, WITHOUT_VALUE, Shared
from ..telegrams import telegrams
from ..yaml_files import Value

Step = dict[str, Any]
TRACK = "21: D_GRADIENT 0, Q_GDIR 1, G_A 0; 27: D_STATIC 0, V_STATIC 24, Q_FRONT 1"
TELEGRAMS = {
    "authority_100": f"NID_BG 2; 12: V_MAIN 24, L_ENDSECTION 100; {TRACK}",
    "authority_1000": f"NID_BG 2; 12: V_MAIN 24, L_ENDSECTION 1000; {TRACK}",
    "group": "NID_BG 7",
    "broken_group": "NID_BG 8, Q_LINK 0, N_TOTAL 1",
    "restriction": "NID_BG 9; 65: NID_TSR 1, D_TSR 0, L_TSR 300, Q_FRONT 1, V_TSR 4",
    "level_0": "NID_BG 10; 41: D_LEVELTR 32767, M_LEVELTR 0, L_ACKLEVELTR 0",
    "level_1": "NID_BG 11; 41: D_LEVELTR 32767, M_LEVELTR 2, L_ACKLEVELTR 0",
    "on_sight": f"NID_BG 12; 12: V_MAIN 24, L_ENDSECTION 1000; {TRACK}; 80: D_MAMODE 100, M_MAMODE 0, V_MAMODE 6, "
                "L_MAMODE 300, L_ACKMAMODE 100",
    "shunting": f"NID_BG 13; 12: V_MAIN 24, L_ENDSECTION 1000; {TRACK}; 80: D_MAMODE 100, M_MAMODE 1, V_MAMODE 127, "
                "L_MAMODE 32767, L_ACKMAMODE 100",
    "stop": "NID_BG 14; 12: V_MAIN 0, L_ENDSECTION 100",
    "on_sight_here": f"NID_BG 15; 12: V_MAIN 24, L_ENDSECTION 1000; {TRACK}; 80: D_MAMODE 0, M_MAMODE 0, V_MAMODE 6, "
                     "L_MAMODE 300, L_ACKMAMODE 0",
}
"""The default telegrams."""
WAYS_CM, BACK_CM = (100, 1_000, 5_000, 10_000), (100, 300)
SPEEDS, BACK_SPEED = (5_000, 20_000, 40_000, 90_000), 1_000
WAITS_MS = (1_000, 5_000, 60_000)
TRAIN = [20_000, 160_000, 70, 0, 15]
MOST = {"steps": 20, "lives": 2, "groups": 2}
LIMITS = {"steps": 100, "lives": 8, "groups": 16}
TRACK_CM = 50_000
MADE_OF = ("begins", "telegrams", "trains", "ways", "speeds", "waits", "track", *MOST)
FORWARD, READY = 6, 3
"""The weight of a forward movement against each other kind of step, and of a ready beginning against each other one."""


@dataclass
class Made:
    """What scenarios are made of: telegrams in hex, and numbers in the units of a scenario."""

    telegrams: list[str]
    begins: list[list[Step]]
    trains: list[list[int]] = field(default_factory=lambda: [TRAIN])
    ways: tuple[int, ...] = WAYS_CM
    speeds: tuple[int, ...] = SPEEDS
    waits: tuple[int, ...] = WAITS_MS
    track_cm: int = TRACK_CM
    most: dict[str, int] = field(default_factory=lambda: dict(MOST))
    texts: dict[str, tuple[str, str]] = field(default_factory=dict)
    """The name and the variables of each telegram, by its digits."""


def ready(train: list[int], level: int = 1, last: int = 6) -> list[Step]:
    """The steps that make a train ready: the identity, the level, the train data, and the start (6) or the choice of Shunting (7)."""
    return [{"driver": action} for action in ([1, "IC 704"], [4, level], [3, *train], [last])]


def begins_of(digits: dict[str, str], train: list[int]) -> list[list[Step]]:
    """The ways in which a life begins: in Full Supervision with either authority, tripped after 100 m, in Unfitted, Staff Responsible,
    Shunting, Post Trip, and On Sight."""
    short, long, here = ([{"telegram": digits[name]}, *ready(train)] for name in ("authority_100", "authority_1000", "on_sight_here"))
    stand: Step = {"drive": [0, 0]}
    tripped = [*short, {"drive": [10_000, 20_000]}, {"drive": [5_000, 20_000]}, stand]
    return [short, long, tripped, ready(train, 0), ready(train), ready(train, last=7), [*tripped, {"driver": [10, ACKNOWLEDGED["trip"]]}],
            [*here, stand]]


def usual() -> Made:
    """What scenarios are made of by default."""
    texts = {telegrams.telegram(text).digits: (name, text) for name, text in TELEGRAMS.items()}
    return Made(list(texts), begins_of(digits_by_name(), TRAIN), texts=texts)


def digits_by_name() -> dict[str, str]:
    """The digits of the default telegrams."""
    return {name: telegrams.telegram(text).digits for name, text in TELEGRAMS.items()}


# ---- what a file says

def telegrams_of(at: Value, shared: Shared) -> dict[str, tuple[str, str]]:
    """The names and texts of the telegrams of a file, by their digits."""
    found = {}
    for number, one in enumerate(at.elements(), 1):
        name = one.text() if one.is_text() else ""
        telegram = shared.telegrams.get(name, one)
        digits = scenarios.digits_of(one, shared)
        found[digits] = (name if name in shared.telegrams else f"telegram_{number}", telegram.text() if telegram.is_text()
                         else digits)
    return found


def steps_of(at: Value, shared: Shared) -> list[Step]:
    """The steps of a part with which a life may begin."""
    builder = scenarios.Builder(shared)
    name = at.one_of(shared.parts)
    builder.steps(shared.parts[name], 1)
    return builder.built.steps


def quantities(at: Value, kind: str, least: int, most: int) -> tuple[int, ...]:
    """A list of at least one quantity."""
    found = tuple(scenarios.quantity_of(one, kind, least, most) for one in at.elements())
    if not found:
        raise at.fault("the list is empty")
    return found


def made_of(at: Value | None, shared: Shared) -> Made:
    """What the scenarios of a file are made of."""
    made = usual()
    members = at.members((), MADE_OF) if at else {}
    if "telegrams" in members:
        texts = telegrams_of(members["telegrams"], shared)
        made.texts, made.telegrams = made.texts | texts, list(texts)
    if "trains" in members:
        made.trains = [scenarios.train_of(one) for one in members["trains"].elements()] or [TRAIN]
        made.begins = [one for train in made.trains for one in begins_of(digits_by_name(), train)]
    if "begins" in members:
        made.begins = [steps_of(one, shared) for one in members["begins"].elements()]
    if "ways" in members:
        made.ways = quantities(members["ways"], "distance", 1, scenarios.LONGEST_CM)
    if "speeds" in members:
        made.speeds = quantities(members["speeds"], "speed", 1, scenarios.MOST_SPEED)
    if "waits" in members:
        made.waits = quantities(members["waits"], "time", 0, scenarios.MOST_MOMENT >> 8)
    if "track" in members:
        made.track_cm = scenarios.quantity_of(members["track"], "distance", 100, scenarios.MOST_PLACE_CM)
    made.most |= {name: members[name].integer(0 if name == "groups" else 1, LIMITS[name]) for name in MOST if name in members}
    return made


# ---- strategies

ANSWERS = [*[[6]] * 2, *([10, one] for one in ACKNOWLEDGED.values() for _ in range(2)),
           *([one] for one in WITHOUT_VALUE.values() if one != 6)]
"""The actions of a driver without an entry: he starts and acknowledges twice as often as he chooses."""


def entries(made: Made) -> list[list[Any]]:
    """The entries and confirmations of a driver."""
    return [*([5, one] for one in CONFIRMED.values()), [4, 1], [4, 0], [1, "IC 704"],
            *([3, *train] for train in made.trains), [2, 704]]


def of(word: str, values: Iterable[Any]) -> st.SearchStrategy[Step]:
    """A step with one of some values."""
    return st.sampled_from([{word: value} for value in values])


def drive(way: int, speed: int) -> Step:
    """A movement at a speed. (A function, since hypothesis looks up the source of each lambda.)"""
    return {"drive": [way, speed]}


def steps(made: Made) -> st.SearchStrategy[Step]:
    """A step. A wait is given by its duration."""
    forward = st.builds(drive, st.sampled_from(made.ways), st.sampled_from(made.speeds))
    stands, answers = of("drive", [[0, 0]]), of("driver", ANSWERS)
    return st.one_of(*[forward] * FORWARD, stands, stands, answers, answers, answers, of("driver", entries(made)),
                     of("telegram", made.telegrams), of("wait", made.waits),
                     of("drive", [[-way, BACK_SPEED] for way in BACK_CM]))


def group(metres: int, telegram: str) -> Step:
    """A group of one balise."""
    return {"at": 100 * metres, "spacing": 1, "balises": [telegram]}


def place_of(one: Step) -> int:
    """The place of a group."""
    return int(one["at"])


def in_order(found: list[Step]) -> list[Step]:
    """Groups in the order of their places."""
    return sorted(found, key=place_of)


def groups(made: Made) -> st.SearchStrategy[list[Step]]:
    """Groups of one balise on the track, each at a place of its own."""
    if not made.most["groups"]:
        return st.just([])
    one = st.builds(group, st.integers(1, made.track_cm // 100), st.sampled_from(made.telegrams))
    return st.lists(one, max_size=made.most["groups"], unique_by=place_of).map(in_order)


def timed(found: list[Step]) -> list[Step]:
    """Steps with moments instead of waits."""
    moment, steps = 0, []
    for step in found:
        moment = step.get("clock", moment + step.get("wait", 0))
        steps.append({"clock": moment} if "wait" in step else step)
    return steps


def lives(made: Made) -> st.SearchStrategy[tuple[str, ...]]:
    """The scenarios, in JSON, of lives that losses of power separate."""
    begins = st.sampled_from([[], *made.begins * READY]) if made.begins else st.just([])

    @st.composite
    def life(draw: Callable[[Any], Any]) -> str:
        all_steps = draw(begins) + draw(st.lists(steps(made), max_size=made.most["steps"]))
        return text_of({"groups": draw(groups(made)), "steps": timed(all_steps), "cold": draw(st.integers(0, 2))})

    return st.lists(life(), min_size=1, max_size=made.most["lives"]).map(tuple)
