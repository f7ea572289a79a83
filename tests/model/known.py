"""What is known of the train and the track after an event of a life, with the members that `etcs_lab why --known` prints."""
import dataclasses

from items import VALID
from national import NOW, speed_of
from speed import Train

DIRECTIONS, REACTIONS = ("reverse", "nominal"), ("trip", "service", None)
UNITS = {"roll": "cm", "override_distance": "cm", "override_time": "ms", "staff_responsible_distance": "cm"}


def name_of(group):
    return group and {"country": group[0], "group": group[1]}


def link(entry):
    return {"announcement": entry.number, **name_of(entry.group), "place_cm": entry.place, "accuracy_cm": entry.accuracy,
            "direction": DIRECTIONS[entry.nominal], "reaction": REACTIONS[entry.reaction]}


def authority(life):
    stored = life.authority()
    if stored is None:
        return None
    end = stored.end(life.moment(), -1)  # no speed stands for the national value
    return {"end_cm": end.place, "end_speed_m_per_h": end.speed, "supervised_cm": end.location,
            "release_m_per_h": None if end.release == -1 else end.release, "main_speed_m_per_h": stored.main_speed()}


def area(one):
    return {"area": one.kind.replace("-", "_"), "start_cm": one.start, "end_cm": one.end, "speed_m_per_h": one.speed,
            "acknowledgement_cm": one.start - one.acknowledged}


def level(announced):
    return announced and {"level": announced.level, "start_cm": announced.place, "acknowledgement_cm": announced.acknowledged}


def restrictions(life):
    """Those of which something is at or above the forgetting mark."""
    facts = life.facts_of(65, 66)
    for at, fact in enumerate(facts):
        packet = fact.packet
        if packet.kind == 65 and (packet.number == 255 or packet.number not in {later.packet.number for later in facts[at + 1:]}):
            start = fact.place + packet.start * packet.scale_cm
            end = start + packet.length * packet.scale_cm
            if end > life.mark:
                yield {"number": packet.number, "start_cm": start, "end_cm": end, "speed_m_per_h": speed_of(packet.speed),
                       "ends_for_front": bool(packet.front)}


def announced_start(announced):
    if announced is None or announced.packet.start == NOW:
        return None
    return announced.place + announced.packet.start * announced.packet.scale_cm


def train(item):
    if item.value is None:
        return None
    data = Train(*item.value)
    return {"length_cm": data.length, "maximum_m_per_h": data.maximum, "category": data.category, "deceleration_cm_per_s2": data.deceleration,
            "reaction_ms": data.reaction_ms, "status": "valid" if item.status == VALID else "invalid"}


def members(life):
    (place, uncertainty), national, reading = life.place(), life.national, life.assembler.current
    return {
        "place_cm": place, "uncertainty_cm": uncertainty, "since_fix_cm": place - life.fix.at, "group_of_fix": name_of(life.fixed_by),
        "group_being_read": name_of(reading and reading.first.group), "links": [link(one) for one in life.links.left],
        "has_missed": life.links.has_missed, "is_free": life.is_free(), "authority": authority(life),
        "areas": [area(one) for one in life.areas()], "announced_level": level(life.announcement()),
        "restrictions": list(restrictions(life)),
        "national_values": {f"{name}_{UNITS.get(name, 'm_per_h')}": value for name, value in dataclasses.asdict(national.in_force.values).items()},
        "countries": list(national.in_force.countries), "announced_values_cm": announced_start(national.announced),
        "train": train(life.item("train-data")),
    }
