"""Gradients, static speeds and restrictions, from all that was announced to a life (SUBSET-026, 3.11; the forgetting mark is
this project's). Each question is answered for one centimetre; `starts` names the centimetres at which an answer may change,
so it is the same from one of them up to the next."""
from collections import namedtuple

from national import speed_of

END = object()  # an end mark

Step = namedtuple("Step", "place value")
StaticSpeed = namedtuple("StaticSpeed", "basic front differences")
Restriction = namedtuple("Restriction", "start end front speed")


def places(fact):
    """Each distance counts from the element before, the first from the group."""
    place = fact.place
    for element in fact.packet.elements:
        place += element.distance * fact.packet.scale_cm
        yield place, element


def gradient_steps(fact):
    """Gradients in per mille, downhill negative; 255 ends."""
    return [Step(place, END if e.steepness == 255 else e.steepness if e.uphill else -e.steepness)
            for place, e in places(fact)]


def speed_steps(fact):
    """Static speeds; V_STATIC 127 ends."""
    return [Step(place, END if e.speed == 127 else StaticSpeed(e.speed, e.front, e.differences))
            for place, e in places(fact)]


def speed_for(static, category):
    """The first NC_DIFF that is the train's category replaces V_STATIC; category 15 matches none."""
    for number, steps in static.differences:
        if number == category != 15:
            return speed_of(steps)
    return speed_of(static.basic)


class Profile:
    """What facts say about each centimetre, the newest fact first."""

    def __init__(self, facts, mark):
        self.facts = facts[::-1]
        self.mark = mark

    def at(self, place):
        """The value of the last element at or below a centimetre, in the latest fact whose first place is at or below it;
        none beyond an end mark of that fact, and none below the forgetting mark."""
        if place < self.mark:
            return None
        for steps in self.facts:
            if steps[0].place <= place:
                passed = [step.value for step in steps if step.place <= place]
                return None if END in passed else passed[-1]
        return None

    def starts(self):
        return {self.mark} | {step.place for steps in self.facts for step in steps}

    def is_empty(self):
        """No centimetre has a value."""
        return all(self.at(place) is None for place in self.starts())


def restrictions_of(facts):
    """The restrictions in force: each packet 65 with no later 65 or 66 of its number; for 255 neither counts."""
    found = []
    for number, fact in enumerate(facts):
        packet = fact.packet
        later = [f.packet.number for f in facts[number + 1:]]
        if packet.kind == 65 and (packet.number == 255 or packet.number not in later):
            start = fact.place + packet.start * packet.scale_cm
            found.append(Restriction(start, start + packet.length * packet.scale_cm, packet.front, speed_of(packet.speed)))
    return found


def covers(restriction, place, mark):
    """It covers its length, without what lies below the forgetting mark."""
    return place >= mark and restriction.start <= place < restriction.end


def restriction_starts(restrictions):
    return {place for r in restrictions for place in (r.start, r.end)}


def pieces(starts, first, last):
    """The centimetres from one to another, both included, at which an answer may be another than just before."""
    return sorted({first} | {place for place in starts if first < place <= last}) if first <= last else []
