"""The cause of the plain unit's limit (SUBSET-026, 3.11 to 3.13 and 4.4; the choice between causes of equal force is this project's
profile). Each candidate is checked by itself for whether it gives the limit. Places are centimetres, speeds metres per hour."""
from collections import namedtuple

import areas
from authority import NATIONAL
from speed import Target
from track import covers, pieces, speed_for

Cause = namedtuple("Cause", "kind speed place number", defaults=(None, None))

# Of each kind what it says, and the sections that it is from.
KINDS = {
    "no_speed": ("no train may run in this mode", "4.4"),
    "no_train_data": ("no train data are valid", "this project's profile"),
    "national_staff_responsible": ("the limit is the national value V_NVSTFF", "3.11.7, 3.18.2"),
    "national_override": ("an override is active, and the limit is the national value V_NVSUPOVTRP", "3.11.7, 3.18.2"),
    "national_shunting": ("the limit is the national value V_NVSHUNT", "3.11.7, 3.18.2"),
    "national_unfitted": ("the limit is the national value V_NVUNFIT", "3.11.7, 3.18.2"),
    "train_maximum": ("the limit is the greatest speed of the train", "3.11.8"),
    "main_speed": ("the limit is V_MAIN of the authority", "3.11.6"),
    "end_speed": ("the limit is V_LOA, the end of authority being reached", "3.8"),
    "static_speed": ("the limit is the static speed over the train", "3.11.3"),
    "restriction": ("the limit is that of a temporary speed restriction over the train", "3.11.5"),
    "mode_area": ("the limit is that of a mode area over the train", "3.12.4"),
    "static_speed_ahead": ("the limit is that of a static speed ahead", "3.11.3, 3.13"),
    "unknown_speed_ahead": ("the limit is that of a stop where no static speed is known", "3.11.3, 3.13"),
    "restriction_ahead": ("the limit is that of a temporary speed restriction ahead", "3.11.5, 3.13"),
    "mode_area_ahead": ("the limit is that of a mode area ahead", "3.12.4, 3.13"),
    "end_of_authority": ("the limit is that of the end of authority", "3.8, 3.13"),
    "supervised_location": ("the limit is that of the supervised location", "3.8, 3.13"),
    "release_speed": ("the limit is the release speed of the authority", "3.8, 3.13"),
    "national_release_speed": ("the limit is the national release speed V_NVREL", "3.8, 3.13"),
}


def numbered(life):
    """The restrictions in force with their numbers, the oldest first."""
    facts = life.facts_of(65, 66)
    numbers = [fact.packet.number for at, fact in enumerate(facts) if fact.packet.kind == 65 and (
        fact.packet.number == 255 or fact.packet.number not in [later.packet.number for later in facts[at + 1:]])]
    return list(zip(life.restrictions(), numbers, strict=True))


def met_restriction(life, it, limit):
    """The first restriction that limits the train to a speed where it is."""
    for restriction, number in numbered(life):
        first = max(it.from_where(restriction.front), restriction.start, it.mark)
        if first <= it.stretch.max_front and covers(restriction, first, it.mark) and restriction.speed == limit:
            return Cause("restriction", limit, restriction.start, number)
    return None


def first_static(it, limit):
    """The first centimetre under the train whose static speed limits it to a speed."""
    for place in pieces(it.speeds.starts() | {it.stretch.min_front}, it.stretch.min_rear, it.stretch.max_front):
        static = it.speeds.at(place)
        if static and place >= it.from_where(static.front) and speed_for(static, it.category) == limit:
            return Cause("static_speed", limit, place)
    return None


def over_train(life, it, limit):
    """What limits the train to a speed where it is."""
    for area in it.areas:
        if areas.is_met(area, it.stretch.min_front, it.stretch.max_front) and it.area_speed(area) == limit:
            return Cause("mode_area", limit, area.start)
    found = met_restriction(life, it, limit) or first_static(it, limit)
    if found:
        return found
    if it.end and it.stretch.max_front >= it.end.place and 0 < it.end.speed == limit:
        return Cause("end_speed", limit)
    return Cause("main_speed" if it.end and it.main == limit else "train_maximum", limit)


def statics_ahead(it):
    first = it.stretch.max_front + 1
    starts = it.speeds.starts() | {first} | ({it.end.place} if it.end else set())
    for place in pieces(starts, first, max(starts)):
        static = it.speeds.at(place)
        if static:
            yield Cause("static_speed_ahead", speed_for(static, it.category), place)
        elif it.end and place < it.end.place:
            yield Cause("unknown_speed_ahead", 0, place)


def targets_ahead(life, it):
    """All that lies ahead along the track; of each restriction and area its first centimetre there."""
    yield from statics_ahead(it)
    first = it.stretch.max_front + 1
    for restriction, number in numbered(life):
        place = max(first, restriction.start, it.mark)
        if covers(restriction, place, it.mark):
            yield Cause("restriction_ahead", restriction.speed, place, number)
    for area in it.areas:
        place = max(first, area.start)
        if areas.covers(area, place):
            yield Cause("mode_area_ahead", it.area_speed(area), place)


def unfit(it, cause, speed):
    return not it.fits(speed, Target(cause.place, cause.speed))


def release_kind(life):
    authority = life.authority()
    _, release = authority.supervised(life.moment())
    return "national_release_speed" if release == NATIONAL else "release_speed"


def supervised(life, limit):
    """In Full Supervision and On Sight. Of what lies ahead that decides which fits the limit, and no greater speed."""
    it = life.situation()
    if limit == it.limit():
        return over_train(life, it, limit)
    ahead = list(targets_ahead(life, it))
    if it.end:
        end, location = Cause("end_of_authority", it.end.speed, it.end.place), Cause("supervised_location", 0, it.end.location)
        if not any(unfit(it, cause, limit) for cause in [*ahead, end]):
            ahead.append(end)
        elif it.end.release == limit and not any(unfit(it, cause, limit + 1) for cause in [*ahead, location]):
            return Cause(release_kind(life), limit)
        else:
            ahead.append(location)
    return next(cause for cause in ahead if not unfit(it, cause, limit) and unfit(it, cause, limit + 1))


def by_values(life, limit, kind, national, override=None):
    """In Staff Responsible and in Unfitted."""
    it = life.situation()
    found = met_restriction(life, it, limit)
    if found:
        return found
    if override == limit:
        return Cause("national_override", limit)
    if limit in it.maximum():
        return Cause("train_maximum", limit)
    assert limit == national
    return Cause(kind, limit)


def limit_cause(life):
    """What decides the limit that was answered to the last event."""
    mode, limit, values = life.mode(), life.now.output.limit, life.national.in_force.values
    if mode in ("FS", "OS"):
        cause = supervised(life, limit) if life.train() else Cause("no_train_data", limit)
    elif mode == "SR":
        override = values.override_speed if life.is_overridden() else None
        cause = by_values(life, limit, "national_staff_responsible", values.staff_responsible, override)
    elif mode == "UN":
        cause = by_values(life, limit, "national_unfitted", values.unfitted)
    else:
        cause = Cause("national_shunting" if mode == "SH" else "no_speed", limit)
    return cause
