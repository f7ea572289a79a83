"""Telegrams written from named fields (SUBSET-026, 7.4 and 8.4; packet 3 in this project's order, or in that of the issue, with
seven fields more).

A telegram is written as its header and its packets, one after another: `NID_BG 2; 65: NID_TSR 7, D_TSR 100, L_TSR 50, Q_FRONT 1,
V_TSR 4; 66: NID_TSR 8`. The fields of a packet stand in their order, each by its name; of the header and of a packet's head only
unusual values are written. L_PACKET is computed where it isn't given. A packet that is only a number has only its head.

The widths are in python/gaknifur/telegrams/telegrams.py too, on purpose: what tests write doesn't come from the program that they test.
"""
import re

HEADER = {"Q_UPDOWN": 1, "M_VERSION": 16, "Q_MEDIA": 0, "N_PIG": 0, "N_TOTAL": 0, "M_DUP": 0, "M_MCOUNT": 255, "NID_C": 1,
          "NID_BG": None, "Q_LINK": 1}
HEAD = {"Q_DIR": 2, "L_PACKET": None, "Q_SCALE": 1}
WITHOUT_SCALE = (66, 136)

WIDTHS = {
    1: "Q_UPDOWN Q_MEDIA Q_LINK Q_NEWCOUNTRY Q_LINKORIENTATION Q_SECTIONTIMER Q_ENDTIMER Q_DANGERPOINT Q_OVERLAP Q_GDIR Q_FRONT",
    2: "M_DUP Q_DIR Q_SCALE Q_LINKREACTION M_MAMODE",
    3: "N_PIG N_TOTAL M_LEVELTR",
    4: "NC_DIFF",
    5: "N_ITER",
    6: "Q_LOCACC",
    7: "M_VERSION V_MAIN V_LOA V_RELEASEDP V_RELEASEOL V_STATIC V_DIFF V_TSR V_NVSHUNT V_NVSTFF V_NVONSIGHT V_NVUNFIT V_NVREL "
       "V_NVALLOWOVTRP V_NVSUPOVTRP V_MAMODE",
    8: "NID_PACKET M_MCOUNT NID_TSR G_A T_NVOVTRP NID_STM",
    10: "NID_C T_LOA T_SECTIONTIMER T_ENDTIMER T_OL",
    13: "L_PACKET",
    14: "NID_BG",
    15: "D_LINK L_SECTION L_ENDSECTION D_SECTIONTIMERSTOPLOC D_ENDTIMERSTARTLOC D_DP D_STARTOL D_OL D_GRADIENT D_STATIC D_TSR "
        "L_TSR D_VALIDNV D_NVROLL D_NVOVTRP D_NVSTFF D_LEVELTR L_ACKLEVELTR D_MAMODE L_MAMODE L_ACKMAMODE",
}
WIDTH = {name: width for width, names in WIDTHS.items() for name in names.split()}
# What packet 3 of the issue has more.
INSTALLED = {"Q_NVSRBKTRG": 1, "Q_NVEMRRLS": 1, "D_NVPOTRP": 15, "M_NVCONTACT": 2, "T_NVCONTACT": 8, "M_NVDERUN": 1, "Q_NVDRIVER_ADHES": 1}


def bits_of(name, number):
    width = (WIDTH | INSTALLED)[name]
    if not 0 <= number < 1 << width:
        raise ValueError(f"{name} {number}")
    return f"{number:0{width}b}"


def fields_of(text):
    """The names and numbers, in their order."""
    return [(name, int(number)) for name, number in (field.split() for field in text.split(",") if field.strip())]


def header_of(text):
    fields = HEADER | dict(fields_of(text))
    if list(fields) != list(HEADER):
        raise ValueError(text)
    return "".join(bits_of(name, number) for name, number in fields.items())


def packet_of(text):
    number, _, body = text.partition(":")
    fields = fields_of(body)
    head = HEAD | {name: value for name, value in fields if name in HEAD}
    scale = "" if int(number) in WITHOUT_SCALE else bits_of("Q_SCALE", head["Q_SCALE"])
    rest = scale + "".join(bits_of(name, value) for name, value in fields if name not in HEAD)
    length = 23 + len(rest) if head["L_PACKET"] is None else head["L_PACKET"]
    return bits_of("NID_PACKET", int(number)) + bits_of("Q_DIR", head["Q_DIR"]) + bits_of("L_PACKET", length) + rest


def written(text):
    """The bytes of a telegram in hex digits: the end mark comes after the packets, and zeros fill the last byte."""
    header, *packets = re.split(r"\s*;\s*", text.strip())
    bits = header_of(header) + "".join(map(packet_of, packets)) + bits_of("NID_PACKET", 255)
    bits += "0" * (-len(bits) % 8)
    return f"{int(bits, 2):0{len(bits) // 4}X}"
