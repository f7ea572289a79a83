"""Telegrams as `etcs decode` prints them: each field by its name, or the first fault in the order of the bits (SUBSET-026, chapters 7
and 8; packet 3 in this project's order).
"""
from collections import namedtuple

from named import WIDTH

FAULTS = {"Truncated": 1, "WrongLength": 2, "Spare": 3, "OutOfRange": 4, "WrongVersion": 5, "NotUplink": 6, "NotBalise": 7, "NoEnd": 8,
          "TooLong": 9}
LONGEST = 104

# Numbers that are spare or out of range, by the field; a speed is a step of 5 km/h up to 120, or a special number of its field.
SPARE = {"M_DUP": 2, "Q_DIR": 2, "Q_SCALE": 2, "Q_LINKREACTION": 2, "M_LEVELTR": 4, "M_MAMODE": 1}
GREATEST_SPEED = 120
SPECIAL_SPEEDS = {"V_RELEASEDP": (126, 127), "V_RELEASEOL": (126, 127), "V_STATIC": (127,), "V_MAMODE": (127,)}

# The differences of all steps of a packet 27 together.
MOST_DIFFERENCES = 70

# The one number that a field of the header may have.
REQUIRED = {"Q_UPDOWN": (1, "NotUplink"), "M_VERSION": (16, "WrongVersion"), "Q_MEDIA": (0, "NotBalise")}
HEADER = "Q_UPDOWN M_VERSION Q_MEDIA N_PIG N_TOTAL M_DUP M_MCOUNT NID_C NID_BG Q_LINK"
NATIONAL = ("V_NVSHUNT V_NVSTFF V_NVONSIGHT V_NVUNFIT V_NVREL D_NVROLL V_NVALLOWOVTRP V_NVSUPOVTRP D_NVOVTRP T_NVOVTRP D_NVSTFF")


# Fields are pairs of a name and a number; those of a packet begin after NID_PACKET, and of one that is skipped the body isn't read.
Telegram = namedtuple("Telegram", "header packets bits")
Packet = namedtuple("Packet", "number fields is_skipped")


class Fault(Exception):
    """Why bytes carry no telegram."""


class Fields:
    """The fields that were taken, and the bits that are left."""

    def __init__(self, data):
        self.bits = "".join(f"{byte:08b}" for byte in data)
        self.at, self.taken = 0, []

    def left(self):
        return len(self.bits) - self.at

    def number(self, width, fault="Truncated"):
        if width > self.left():
            raise Fault(fault)
        self.at += width
        return int(self.bits[self.at - width:self.at], 2)

    def take(self, name):
        number = self.number(WIDTH[name])
        if name in REQUIRED and number != REQUIRED[name][0]:
            raise Fault(REQUIRED[name][1])
        if number > SPARE.get(name, number):
            raise Fault("Spare")
        if name.startswith("V_") and number > GREATEST_SPEED and number not in SPECIAL_SPEEDS.get(name, ()):
            raise Fault("OutOfRange")
        self.taken.append((name, number))
        return number

    def all(self, names):
        return [self.take(name) for name in names.split()]

    def optional(self, asks, names):
        if self.take(asks):
            self.all(names)

    def listed(self, element):
        """The first element, and as many further ones as N_ITER says."""
        element()
        for _ in range(self.take("N_ITER")):
            element()


def link(fields):
    fields.take("D_LINK")
    fields.optional("Q_NEWCOUNTRY", "NID_C")
    fields.all("NID_BG Q_LINKORIENTATION Q_LINKREACTION Q_LOCACC")


def section(fields, name):
    fields.take(name)
    fields.optional("Q_SECTIONTIMER", "T_SECTIONTIMER D_SECTIONTIMERSTOPLOC")


def authority(fields):
    fields.all("V_MAIN V_LOA T_LOA")
    for _ in range(fields.take("N_ITER")):
        section(fields, "L_SECTION")
    section(fields, "L_ENDSECTION")
    fields.optional("Q_ENDTIMER", "T_ENDTIMER D_ENDTIMERSTARTLOC")
    fields.optional("Q_DANGERPOINT", "D_DP V_RELEASEDP")
    fields.optional("Q_OVERLAP", "D_STARTOL T_OL D_OL V_RELEASEOL")


def static_speed(fields):
    fields.all("D_STATIC V_STATIC Q_FRONT")
    count = fields.take("N_ITER")
    if sum(name == "NC_DIFF" for name, _ in fields.taken) + count > MOST_DIFFERENCES:
        raise Fault("OutOfRange")
    for _ in range(count):
        fields.all("NC_DIFF V_DIFF")


def level(fields):
    if fields.take("M_LEVELTR") == 1:
        fields.take("NID_STM")
    fields.take("L_ACKLEVELTR")


def levels(fields):
    fields.take("D_LEVELTR")
    fields.listed(lambda: level(fields))


def national(fields):
    fields.take("D_VALIDNV")
    for _ in range(fields.take("N_ITER")):
        fields.take("NID_C")
    fields.all(NATIONAL)


BODIES = {
    3: national, 5: lambda fields: fields.listed(lambda: link(fields)), 12: authority,
    21: lambda fields: fields.listed(lambda: fields.all("D_GRADIENT Q_GDIR G_A")),
    27: lambda fields: fields.listed(lambda: static_speed(fields)), 41: levels,
    65: lambda fields: fields.all("NID_TSR D_TSR L_TSR Q_FRONT V_TSR"),
    80: lambda fields: fields.listed(lambda: fields.all("D_MAMODE M_MAMODE V_MAMODE L_MAMODE L_ACKMAMODE")),
}


def packet(fields, number):
    begun, fields.taken = fields.at - 8, []
    if number in BODIES or number == 66:
        fields.take("Q_DIR")
        length = fields.take("L_PACKET")
        if number == 66:
            fields.take("NID_TSR")
        else:
            fields.take("Q_SCALE")
            BODIES[number](fields)
        if fields.at - begun != length:
            raise Fault("WrongLength")
        return Packet(number, fields.taken, False)
    direction, length = fields.number(2), fields.number(13)
    if length < 23:
        raise Fault("WrongLength")
    if length - 23 > fields.left():
        raise Fault("Truncated")
    fields.at += length - 23
    return Packet(number, [("Q_DIR", direction), ("L_PACKET", length)], True)


def header(fields):
    for name in HEADER.split():
        fields.take(name)
        if name == "N_TOTAL" and fields.taken[3][1] > fields.taken[4][1]:
            raise Fault("OutOfRange")
    return fields.taken


def telegram_of(data):
    """The telegram that some bytes carry, or a fault."""
    if len(data) > LONGEST:
        raise Fault("TooLong")
    fields = Fields(data)
    fields_of_header, packets = header(fields), []
    while (number := fields.number(8, "NoEnd")) != 255:
        packets.append(packet(fields, number))
    return Telegram(fields_of_header, packets, fields.at)


def line_of(first, fields):
    return " ".join([first, *(f"{name}={number}" for name, number in fields)])


def lines_of(data):
    telegram = telegram_of(data)
    packets = [line_of(f"packet {one.number}", one.fields) + " skipped" * one.is_skipped for one in telegram.packets]
    return [line_of("telegram", telegram.header), *packets, f"end {telegram.bits}"]


def answer(data):
    """The text that the program prints for some bytes."""
    try:
        return "".join(line + "\n" for line in lines_of(data))
    except Fault as fault:
        return f"refused {FAULTS[str(fault)]} {fault}\n"
