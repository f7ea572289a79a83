"""Mode areas and the announcement of a level (SUBSET-026, 5.9 and 5.10, 7.4.2.9 and 7.4.2.21; acknowledgements are this
project's)."""
from collections import namedtuple

from national import NOW, speed_of

NO_END = 32767
NATIONAL = 127
KINDS = ("on-sight", "shunting")  # M_MAMODE

Area = namedtuple("Area", "kind start end speed acknowledged")  # `end` is None where it has none, `speed` where it is national
Announced = namedtuple("Announced", "level place acknowledged")  # `place` is None where it holds at once


def areas_of(fact):
    """Each distance counts from the start of the element before, the first from the group."""
    place, areas = fact.place, []
    for element in fact.packet.areas:
        scale = fact.packet.scale_cm
        place += element.distance * scale
        areas.append(Area(KINDS[element.kind], place, None if element.length == NO_END else place + element.length * scale,
                          None if element.speed == NATIONAL else speed_of(element.speed), element.acknowledge * scale))
    return areas


def covers(area, place):
    return area.start <= place and (area.end is None or place < area.end)


def is_met(area, first, last):
    """It meets a centimetre from one to another, both included."""
    place = max(first, area.start)
    return place <= last and covers(area, place)


def is_left(area, min_front):
    """It ends above the least front, or has no end."""
    return area.end is None or area.end > min_front


def announced_by(fact):
    """The first element with level 0 or 1; M_LEVELTR 2 is level 1. None where there is none."""
    for element in fact.packet.levels:
        if element.level in (0, 2):
            scale = fact.packet.scale_cm
            place = None if fact.packet.start == NOW else fact.place + fact.packet.start * scale
            return Announced(0 if element.level == 0 else 1, place, element.acknowledge * scale)
    return None
