"""The output of an event: mode, level, brake, limit and indications (this project's profile)."""
import re
from collections import namedtuple

NONE, SERVICE, EMERGENCY = "none", "service", "emergency"

Output = namedtuple("Output", "mode level brake limit indications")

# The first row that holds commands its brake. After `from` stands what an event brings, after `until` what ends it; where both
# are at one event it begins. What is above the limit is metres per hour.
ROWS = """
emergency  while  not revalidated
emergency  while  mode TR
emergency  while  mode SF
emergency  while  trip outstanding
emergency  from   above the limit by 10000  until  speed 0 read
emergency  while  rolled back too far
service    from   service asked for         until  speed 0 read
service    from   above the limit by 5000   until  within the limit
service    while  moves in standstill
service    while  owed too long
"""


def table_rows():
    for line in ROWS.strip().splitlines():
        brake, how, *words = re.split(" {2,}", line)
        yield brake, how, words[0], words[2] if how == "from" else None


TABLE = tuple(table_rows())

def limit_of(life, mode):
    values = life.national.in_force.values
    if mode in ("FS", "OS"):
        return life.situation().permitted()
    if mode == "SR":
        override = [values.override_speed] if life.is_overridden() else []
        return life.situation().least(values.staff_responsible, *override)
    if mode == "UN":
        return life.situation().least(values.unfitted)
    return values.shunting if mode == "SH" else 0


def since(ends, moments):
    """The moments from the last one that ends a window on, that one included; all of them where none does."""
    return next((moments[at:] for at in reversed(range(len(moments))) if ends(moments[at])), moments)


def moments_of(life, limit):
    """Each event with the speed and the limit after it; the last one has no output yet."""
    return [(entry, entry.speed, limit if entry.output is None else entry.output.limit) for entry in life.entries]


def stood(moment):
    return moment[0].is_reading and moment[0].speed == 0


HAPPENS = {
    "above the limit by 10000": lambda moment: moment[1] > moment[2] + 10_000,
    "above the limit by 5000": lambda moment: moment[1] > moment[2] + 5_000,
    "within the limit": lambda moment: moment[1] <= moment[2],
    "service asked for": lambda moment: moment[0].asks_service(),
    "speed 0 read": stood,
}

IS_SO = {
    "not revalidated": lambda life, mode, moments: not life.is_revalidated(),
    "mode TR": lambda life, mode, moments: mode == "TR",
    "mode SF": lambda life, mode, moments: mode == "SF",
    "trip outstanding": lambda life, mode, moments: life.is_tripped(),
    "rolled back too far": lambda life, mode, moments: rolled(moments) > life.national.in_force.values.roll,
    "moves in standstill": lambda life, mode, moments: mode in ("SB", "PT") and life.speed() > 0,
    "owed too long": lambda life, mode, moments: any(
        life.acknowledgement(kind).brakes(life.moment()) for kind in ("on-sight", "shunting", "level-0")),
}


def rolled(moments):
    """The backward movements since the last reading with speed 0, that one's included, else since power-up."""
    return sum(-entry.moved for entry, *_ in since(stood, moments) if entry.moved < 0)


def causes(life, mode, limit):
    """Of each row of the table, by its brake and what it asks for, whether it holds."""
    moments = moments_of(life, limit)
    return {
        (brake, wanted): any(map(HAPPENS[wanted], since(HAPPENS[ends], moments))) if how == "from"
        else IS_SO[wanted](life, mode, moments)
        for brake, how, wanted, ends in TABLE
    }


def brake_of(life, mode, limit):
    return next((brake for (brake, _), holds in causes(life, mode, limit).items() if holds), NONE)


def indications_of(life, limit):
    shown = (
        (1, life.acknowledgement("on-sight").waits()), (2, life.acknowledgement("shunting").waits()),
        (4, life.acknowledgement("level-0").waits()), (8, life.is_tripped()), (16, life.is_overridden()),
        (32, not life.is_revalidated()), (64, life.speed() > limit),
    )
    return sum(number for number, holds in shown if holds)


def output_of(life):
    mode, level = life.mode(), life.level()
    limit = limit_of(life, mode)
    return Output(mode, "-" if level is None else str(level), brake_of(life, mode, limit), limit, indications_of(life, limit))
