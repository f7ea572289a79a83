"""Balise telegrams as the plain kernel uses them (SUBSET-026, chapters 7 and 8; packet 3 in this project's order).

`read(data)` returns the telegram in some bytes, or None. Each value is the number in the bits (`decoded.py`); its meaning is
explained where it is used.
"""
from dataclasses import dataclass, field
from types import SimpleNamespace

import decoded


class Fields:
    """The fields of a packet, of which one after the other is taken by its name."""

    def __init__(self, fields):
        self.left = iter(fields)

    def take(self, name):
        there, number = next(self.left)
        if there != name:
            raise ValueError(f"{there} stands where {name} is wanted")
        return number

    def all(self, names):
        return tuple(self.take(name) for name in names.split())

    def optional(self, asks, names):
        return self.all(names) if self.take(asks) else None

    def elements(self, element, first=()):
        """The elements of a list after the first ones, which stand before N_ITER."""
        return [*first, *(element(self) for _ in range(self.take("N_ITER")))]

    def listed(self, element):
        """The first element, N_ITER, and that many further ones."""
        return self.elements(element, [element(self)])


@dataclass
class Telegram:
    """The header, and the packets before the end mark."""

    place: int  # N_PIG: 0 is balise 1
    last_place: int  # N_TOTAL
    duplicate: int  # M_DUP: 1 of the next balise, 2 of the previous one
    counter: int  # M_MCOUNT
    country: int  # NID_C
    number: int  # NID_BG
    linked: int  # Q_LINK
    packets: list = field(default_factory=list)

    @property
    def group(self):
        return self.country, self.number


def national_values(fields, packet):
    packet.start = fields.take("D_VALIDNV")  # 32767 is now
    packet.countries = fields.elements(lambda fields: fields.take("NID_C"))
    packet.shunting, packet.staff_responsible, packet.on_sight, packet.unfitted, packet.release = fields.all(
        "V_NVSHUNT V_NVSTFF V_NVONSIGHT V_NVUNFIT V_NVREL")
    packet.roll, packet.override_allowed, packet.override_speed, packet.override_distance = fields.all(
        "D_NVROLL V_NVALLOWOVTRP V_NVSUPOVTRP D_NVOVTRP")
    # 255 and 32767 have no end
    packet.override_time_s, packet.staff_responsible_distance = fields.all("T_NVOVTRP D_NVSTFF")


def link(fields):
    distance = fields.take("D_LINK")
    country, = fields.optional("Q_NEWCOUNTRY", "NID_C") or (None,)  # else that of the element before
    number, nominal, reaction, accuracy_m = fields.all("NID_BG Q_LINKORIENTATION Q_LINKREACTION Q_LOCACC")
    # (nominal: 1; reaction: 0 trip, 1 service brake, 2 none)
    return SimpleNamespace(distance=distance, country=country, number=number, nominal=nominal, reaction=reaction,
                           accuracy_m=accuracy_m)


def linking(fields, packet):
    packet.links = fields.listed(link)


def section(fields, name="L_SECTION"):
    """A section with its timer: its time in seconds, and where it stops after the section's entry."""
    length = fields.take(name)
    timer = fields.optional("Q_SECTIONTIMER", "T_SECTIONTIMER D_SECTIONTIMERSTOPLOC")
    return SimpleNamespace(length=length, timer=timer)


def authority(fields, packet):
    packet.speed, packet.end_speed, packet.end_time_s = fields.all("V_MAIN V_LOA T_LOA")
    packet.sections = fields.elements(section)
    packet.end_section = section(fields, "L_ENDSECTION")
    packet.end_timer = fields.optional("Q_ENDTIMER", "T_ENDTIMER D_ENDTIMERSTARTLOC")
    packet.danger_point = fields.optional("Q_DANGERPOINT", "D_DP V_RELEASEDP")
    overlap = fields.optional("Q_OVERLAP", "D_STARTOL T_OL D_OL V_RELEASEOL")
    names = "start", "time_s", "distance", "release"
    packet.overlap = SimpleNamespace(**dict(zip(names, overlap))) if overlap else None


def gradient(fields):
    distance, uphill, steepness = fields.all("D_GRADIENT Q_GDIR G_A")
    return SimpleNamespace(distance=distance, uphill=uphill, steepness=steepness)  # steepness 255 ends


def gradients(fields, packet):
    packet.elements = fields.listed(gradient)


def static_speed(fields):
    distance, speed, front = fields.all("D_STATIC V_STATIC Q_FRONT")  # V_STATIC 127 ends
    differences = fields.elements(lambda fields: fields.all("NC_DIFF V_DIFF"))
    return SimpleNamespace(distance=distance, speed=speed, front=front, differences=differences)


def static_speeds(fields, packet):
    packet.elements = fields.listed(static_speed)


def level(fields):
    number = fields.take("M_LEVELTR")
    if number == 1:
        fields.take("NID_STM")
    return SimpleNamespace(level=number, acknowledge=fields.take("L_ACKLEVELTR"))


def level_transition(fields, packet):
    packet.start = fields.take("D_LEVELTR")  # 32767 is now
    packet.levels = fields.listed(level)


def restriction(fields, packet):
    packet.number, packet.start, packet.length, packet.front, packet.speed = fields.all(
        "NID_TSR D_TSR L_TSR Q_FRONT V_TSR")


def revocation(fields, packet):
    packet.number = fields.take("NID_TSR")


def area(fields):
    distance, kind, speed, length, acknowledge = fields.all("D_MAMODE M_MAMODE V_MAMODE L_MAMODE L_ACKMAMODE")
    return SimpleNamespace(distance=distance, kind=kind, speed=speed, length=length, acknowledge=acknowledge)


def mode_profile(fields, packet):
    packet.areas = fields.listed(area)


KNOWN = {3: national_values, 5: linking, 12: authority, 21: gradients, 27: static_speeds, 41: level_transition,
         65: restriction, 66: revocation, 80: mode_profile}
SCALES_CM = (10, 100, 1000)


def packet_of(from_bits):
    """A packet; of one that is skipped no more than its head is known."""
    fields, packet = Fields(from_bits.fields), SimpleNamespace(kind=from_bits.number)
    packet.direction, _ = fields.all("Q_DIR L_PACKET")  # Q_DIR: 0 reverse, 1 nominal, 2 both
    if not from_bits.is_skipped:
        if from_bits.number != 66:
            packet.scale_cm = SCALES_CM[fields.take("Q_SCALE")]
        KNOWN[from_bits.number](fields, packet)
    return packet


def read(data):
    """The telegram that these bytes carry, or None."""
    try:
        telegram = decoded.telegram_of(data)
    except decoded.Fault:
        return None
    return Telegram(*(number for _, number in telegram.header[3:]), list(map(packet_of, telegram.packets)))
