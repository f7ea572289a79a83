#!/usr/bin/env python3
"""The packets that a track of issue 2.3.0 sends, as `track_packets` lists them (SUBSET-026, 7.4.2; docs/reference/packets.md): their places in
a telegram, by L_PACKET only, and the fields of each.

A layout is a text of names. `(N_ITER ..)` has a counter and the fields that repeat; `[Q_NEWCOUNTRY=1 ..]` the fields that follow where
that field has this number."""
import re
from functools import cache
from pathlib import Path

from decoded import Fault, Fields, packet
from named import WIDTH

HEADER_BITS, HEAD_BITS, MOST = 50, 23, 34
PAGE = Path(__file__).resolve().parents[2] / "docs/reference/packets.md"


@cache
def names():
    """The names of packets by their numbers, as docs/reference/packets.md has them."""
    section = PAGE.read_text(encoding="utf-8").split("## Names")[1].split("\n## ")[0]
    return {int(number): name for number, name in re.findall(r"^- (\d+) (.+) \([SFB](?:, \w+)?\): ", section, re.M)}


WIDTHS = WIDTH | {name: width for width, names in {
    1: "Q_NVSRBKTRG Q_NVEMRRLS M_NVDERUN Q_NVDRIVER_ADHES Q_RBC Q_SLEEPSESSION Q_TRACKINIT Q_LGTLOC M_ADHESION Q_TEXTDISPLAY Q_MPOSITION "
       "Q_ASPECT Q_RIU Q_LOOPDIR Q_SRSTOP",
    2: "M_NVCONTACT Q_SUITABILITY Q_TEXTCLASS Q_TEXTCONFIRM",
    3: "M_LOC M_LEVELTEXTDISPLAY",
    4: "M_TRACKCOND M_MODETEXTDISPLAY Q_SSCODE",
    7: "M_AXLELOAD V_AXLELOAD V_REVERSE",
    8: "T_NVCONTACT M_TRACTION T_MAR T_CYCRQST T_CYCLOC M_LOADINGGAUGE L_TEXT X_TEXT Q_TEXT G_TSR",
    9: "NID_XUSER",
    10: "T_TIMEOUTRQST T_TEXTDISPLAY",
    14: "NID_RBC NID_RIU NID_LOOP",
    15: "D_NVPOTRP D_TRACTION D_TRACKINIT D_AXLELOAD L_AXLELOAD D_CYCLOC D_LOC D_TRACKCOND L_TRACKCOND D_SUITABILITY D_ADHESION L_ADHESION "
        "D_TEXTDISPLAY L_TEXTDISPLAY D_POSOFF D_RBCTR D_INFILL D_LOOP L_LOOP D_STARTREVERSE L_REVERSEAREA D_REVERSE",
    20: "M_POSITION",
    24: "NID_MN",
    32: "NID_OPERATIONAL",
    64: "NID_RADIO",
}.items() for name in names.split()}

NEW_GROUP = "Q_NEWCOUNTRY [Q_NEWCOUNTRY=1 NID_C] NID_BG"
CONDITION = "D_TRACKCOND L_TRACKCOND M_TRACKCOND"
AXLE_LOAD = "D_AXLELOAD L_AXLELOAD Q_FRONT (N_ITER M_AXLELOAD V_AXLELOAD)"
SUITABILITY = ("D_SUITABILITY Q_SUITABILITY [Q_SUITABILITY=0 M_LOADINGGAUGE] [Q_SUITABILITY=1 M_AXLELOAD] "
               "[Q_SUITABILITY=2 M_TRACTION]")
LIMITS = "M_MODETEXTDISPLAY M_LEVELTEXTDISPLAY [M_LEVELTEXTDISPLAY=1 NID_STM]"
TEXT = f"Q_SCALE Q_TEXTCLASS Q_TEXTDISPLAY D_TEXTDISPLAY {LIMITS} L_TEXTDISPLAY T_TEXTDISPLAY {LIMITS} Q_TEXTCONFIRM"
POSITION = f"{NEW_GROUP} D_POSOFF Q_MPOSITION M_POSITION"
CENTRE = "NID_C NID_RBC NID_RADIO Q_SLEEPSESSION"


def initial(element):
    return f"Q_SCALE Q_TRACKINIT [Q_TRACKINIT=1 D_TRACKINIT] [Q_TRACKINIT=0 {element} (N_ITER {element})]"


LAYOUTS = {
    3: "Q_SCALE D_VALIDNV (N_ITER NID_C) V_NVSHUNT V_NVSTFF V_NVONSIGHT V_NVUNFIT V_NVREL D_NVROLL Q_NVSRBKTRG Q_NVEMRRLS "
       "V_NVALLOWOVTRP V_NVSUPOVTRP D_NVOVTRP T_NVOVTRP D_NVPOTRP M_NVCONTACT T_NVCONTACT M_NVDERUN D_NVSTFF Q_NVDRIVER_ADHES",
    16: "Q_SCALE L_SECTION",
    39: "Q_SCALE D_TRACTION M_TRACTION",
    42: f"Q_RBC {CENTRE}",
    44: "NID_XUSER",
    45: "NID_MN",
    46: "M_LEVELTR [M_LEVELTR=1 NID_STM] (N_ITER M_LEVELTR [M_LEVELTR=1 NID_STM])",
    49: f"(N_ITER {NEW_GROUP})",
    51: initial(AXLE_LOAD),
    57: "T_MAR T_TIMEOUTRQST T_CYCRQST",
    58: "Q_SCALE T_CYCLOC D_CYCLOC M_LOC (N_ITER D_LOC Q_LGTLOC)",
    63: f"(N_ITER {NEW_GROUP})",
    67: "Q_SCALE D_TRACKCOND L_TRACKCOND (N_ITER D_TRACKCOND L_TRACKCOND)",
    68: initial(CONDITION),
    70: initial(SUITABILITY),
    71: "Q_SCALE D_ADHESION L_ADHESION M_ADHESION",
    72: f"{TEXT} (L_TEXT X_TEXT)",
    76: f"{TEXT} Q_TEXT",
    79: f"Q_SCALE {POSITION} (N_ITER {POSITION})",
    90: NEW_GROUP,
    131: f"Q_SCALE D_RBCTR {CENTRE}",
    132: "Q_ASPECT",
    133: "Q_SCALE Q_RIU NID_C NID_RIU NID_RADIO D_INFILL NID_C NID_BG",
    134: "Q_SCALE NID_LOOP D_LOOP L_LOOP Q_LOOPDIR Q_SSCODE",
    135: "",
    136: NEW_GROUP,
    137: "Q_SRSTOP",
    138: "Q_SCALE D_STARTREVERSE L_REVERSEAREA",
    139: "Q_SCALE D_REVERSE V_REVERSE",
    140: "NID_OPERATIONAL",
    141: "Q_GDIR G_TSR",
    254: "",
}
WITH_TRAILING_BITS = (44,)

COUNTED = {"L_PACKET", "L_TEXT", "M_VERSION"}
OTHER_UNITS = {"G_A": "per mille", "G_TSR": "per mille", "M_AXLELOAD": "0.5 t", "X_TEXT": "character", "Q_LOCACC": "m"}


def unit_of(name):
    """The unit of a variable's numbers, by its name (SUBSET-026, 7.5.1): D_ distance, L_ length, V_ speed, T_ time; a few of their own."""
    by_letter = {"D": "scale", "L": "scale", "V": "5 km/h", "T": "s"}
    return "" if name in COUNTED else OTHER_UNITS.get(name) or by_letter.get(name[0], "")


def bits_of(data):
    return "".join(f"{byte:08b}" for byte in data)


def parts_of(text):
    """A layout as a list of names, and of pairs of what opens a part and its list."""
    stack = [[]]
    for word in re.findall(r"[()\[\]]|[^\s()\[\]]+", text):
        if word in "([":
            stack.append([word])
        elif word in ")]":
            part = stack.pop()
            stack[-1].append(tuple(part))
        else:
            stack[-1].append(word)
    return stack[0]


class Stopped(Exception):
    """What stops a packet's fields: a name of the fault, the variable (or none), and the place."""


class Walk:
    """The fields of the bits of one packet."""

    def __init__(self, bits):
        self.bits, self.at, self.fields = bits, 0, []

    def take(self, name, is_listed):
        width = WIDTHS[name]
        if self.at + width > len(self.bits):
            raise Stopped("many" if is_listed else "cut", name, self.at)
        number = int(self.bits[self.at:self.at + width], 2)
        self.fields.append((name, self.at, width, number))
        self.at += width
        return number

    def last(self, name):
        return next(number for field, _, _, number in reversed(self.fields) if field == name)

    def all(self, parts, is_listed=False):
        for part in parts:
            if isinstance(part, str):
                self.take(part, is_listed)
            elif part[0] == "(":
                for _ in range(self.take(part[1], is_listed)):
                    self.all(part[2:], True)
            else:
                name, number = part[1].split("=")
                if self.last(name) == int(number):
                    self.all(part[2:], is_listed)


def packets_in_order(data):
    """The packets, each as number, Q_DIR, place and length, and what ends them, with its place."""
    bits, packets, at = bits_of(data), [], HEADER_BITS
    if len(bits) < HEADER_BITS:
        return packets, ("cut", 0)
    while len(packets) < MOST:
        left = bits[at:]
        if len(left) < 8:
            return packets, ("no end", at)
        number = int(left[:8], 2)
        if number == 255:
            return packets, ("end", at)
        if len(left) < HEAD_BITS:
            return packets, ("cut", at)
        length = int(left[10:23], 2)
        if length < HEAD_BITS:
            return packets, ("length", at)
        if length > len(left):
            return packets, ("cut", at)
        packets.append((number, int(left[8:10], 2), at, length))
        at += length
    return packets, ("many", at)


def is_kernels(number, length):
    return number in (5, 12, 21, 27, 41, 65, 66, 80) or (number == 3 and length % 10 == 7)


def kernel_fields(bits):
    """The fields of a packet that the kernel uses, by its plain decoder; its fault where it refuses it."""
    fields = Fields(b"")
    fields.bits, fields.at = bits, 8
    try:
        pairs = packet(fields, int(bits[:8], 2)).fields
    except Fault as fault:
        return None, ("refused", str(fault))
    listed, at = [("NID_PACKET", 0, 8, int(bits[:8], 2))], 8
    for name, number in pairs:
        listed.append((name, at, WIDTH[name], number))
        at += WIDTH[name]
    return listed, ("rest", 0)


def fields_of(data, number, start, length):
    """The fields, each as name, place, width and number, with how many bits are after them; or none, and why."""
    bits = bits_of(data)
    if start + length > len(bits):
        return None, ("not there",)
    if is_kernels(number, length):
        return kernel_fields(bits[start:])
    walk = Walk(bits[start:start + length])
    try:
        walk.all(["NID_PACKET", "Q_DIR", "L_PACKET"])
        walk.all(parts_of(LAYOUTS.get(number, "")))
    except Stopped as stopped:
        return None, stopped.args
    rest = length - walk.at
    if rest and number in LAYOUTS and number not in WITH_TRAILING_BITS:
        return None, ("long", None, walk.at)
    return walk.fields, ("rest", rest)


def data_of(bits):
    bits += "0" * (-len(bits) % 8)
    return int(bits, 2).to_bytes(len(bits) // 8, "big") if bits else b""


