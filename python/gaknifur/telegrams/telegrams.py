"""Encode telegrams that are written with the variables of SUBSET-026, 7.5.1.

A telegram is written as its header and its packets, one after another:

    NID_BG 2; 12: V_MAIN 24, L_ENDSECTION 300; 65: NID_TSR 7, D_TSR 100, L_TSR 50, Q_FRONT 1, V_TSR 4

The variables of a packet are in the order of its layout (docs/explain/conformance.md). Missing variables that follow from the
others are computed: L_PACKET, a counter, and a Q_ that says whether further variables follow. `USUAL` has the defaults of other
variables. A packet that the kernel skips has the layout of docs/reference/packets.md; one without a layout has its head and any
variables after it.
"""
import re
from collections.abc import Iterable, Iterator, Sequence
from dataclasses import dataclass, field

from ..yaml_files import guess, shortened
from . import _track_packets

Pairs = list[tuple[str, int]]

HEADER = {"Q_UPDOWN": 1, "M_VERSION": 16, "Q_MEDIA": 0, "N_PIG": 0, "N_TOTAL": 0, "M_DUP": 0, "M_MCOUNT": 255, "NID_C": 1,
          "NID_BG": None, "Q_LINK": 1}
"""The header of SUBSET-026, 8.4.2.1, in its order, with the defaults."""
HEAD = ("Q_DIR", "L_PACKET", "Q_SCALE")
USUAL = {"Q_DIR": 2, "Q_SCALE": 1, "V_LOA": 0, "T_LOA": 1023}
WITHOUT_SCALE = (66,)
END_MARK = 255
MOST_BYTES, MOST_TEXT = 104, 20_000

WIDTHS = {
    1: "Q_UPDOWN Q_MEDIA Q_LINK Q_NEWCOUNTRY Q_LINKORIENTATION Q_SECTIONTIMER Q_ENDTIMER Q_DANGERPOINT Q_OVERLAP Q_GDIR "
       "Q_FRONT",
    2: "M_DUP Q_DIR Q_SCALE Q_LINKREACTION M_MAMODE",
    3: "N_PIG N_TOTAL M_LEVELTR",
    4: "NC_DIFF",
    5: "N_ITER",
    6: "Q_LOCACC",
    7: "M_VERSION V_MAIN V_LOA V_RELEASEDP V_RELEASEOL V_STATIC V_DIFF V_TSR V_NVSHUNT V_NVSTFF V_NVONSIGHT V_NVUNFIT "
       "V_NVREL V_NVALLOWOVTRP V_NVSUPOVTRP V_MAMODE",
    8: "NID_PACKET M_MCOUNT NID_TSR G_A T_NVOVTRP NID_STM",
    10: "NID_C T_LOA T_SECTIONTIMER T_ENDTIMER T_OL",
    13: "L_PACKET",
    14: "NID_BG",
    15: "D_LINK L_SECTION L_ENDSECTION D_SECTIONTIMERSTOPLOC D_ENDTIMERSTARTLOC D_DP D_STARTOL D_OL D_GRADIENT D_STATIC "
        "D_TSR L_TSR D_VALIDNV D_NVROLL D_NVOVTRP D_NVSTFF D_LEVELTR L_ACKLEVELTR D_MAMODE L_MAMODE L_ACKMAMODE",
}
WIDTH = {name: width for width, names in WIDTHS.items() for name in names.split()} | _track_packets.WIDTHS


class Wrong(Exception):
    """A telegram can't be encoded."""


@dataclass(frozen=True)
class Where:
    """A variable, and those that follow if it has a number."""

    name: str
    number: int
    parts: tuple["Part", ...]


@dataclass(frozen=True)
class Repeated:
    """A list: a counter and that number of elements; with `is_more` one more element before the counter."""

    element: tuple["Part", ...]
    is_more: bool = False
    counter: str = "N_ITER"


@dataclass(frozen=True)
class Choice:
    """Variables that are present if an earlier one has a number."""

    name: str
    number: int
    parts: tuple["Part", ...]


Part = str | Where | Repeated | Choice


def parts(*items: str | Where | Repeated) -> tuple[Part, ...]:
    """A layout of names, several in a text, and other parts."""
    found: list[Part] = []
    for one in items:
        if isinstance(one, str):
            found += one.split()
        else:
            found.append(one)
    return tuple(found)


TIMER = Where("Q_SECTIONTIMER", 1, parts("T_SECTIONTIMER D_SECTIONTIMERSTOPLOC"))
LAYOUTS: dict[int, tuple[Part, ...]] = {
    3: parts("D_VALIDNV", Repeated(parts("NID_C")), "V_NVSHUNT V_NVSTFF V_NVONSIGHT V_NVUNFIT V_NVREL D_NVROLL "
             "V_NVALLOWOVTRP V_NVSUPOVTRP D_NVOVTRP T_NVOVTRP D_NVSTFF"),
    5: parts(Repeated(parts("D_LINK", Where("Q_NEWCOUNTRY", 1, parts("NID_C")),
                            "NID_BG Q_LINKORIENTATION Q_LINKREACTION Q_LOCACC"), True)),
    12: parts("V_MAIN V_LOA T_LOA", Repeated(parts("L_SECTION", TIMER)), "L_ENDSECTION", TIMER,
              Where("Q_ENDTIMER", 1, parts("T_ENDTIMER D_ENDTIMERSTARTLOC")),
              Where("Q_DANGERPOINT", 1, parts("D_DP V_RELEASEDP")),
              Where("Q_OVERLAP", 1, parts("D_STARTOL T_OL D_OL V_RELEASEOL"))),
    21: parts(Repeated(parts("D_GRADIENT Q_GDIR G_A"), True)),
    27: parts(Repeated(parts("D_STATIC V_STATIC Q_FRONT", Repeated(parts("NC_DIFF V_DIFF"))), True)),
    41: parts("D_LEVELTR", Repeated(parts(Where("M_LEVELTR", 1, parts("NID_STM")), "L_ACKLEVELTR"), True)),
    65: parts("NID_TSR D_TSR L_TSR Q_FRONT V_TSR"),
    66: parts("NID_TSR"),
    80: parts(Repeated(parts("D_MAMODE M_MAMODE V_MAMODE L_MAMODE L_ACKMAMODE"), True)),
}


def read_layout(text: str) -> tuple[Part, ...]:
    """The layout in a text, in the notation of docs/reference/packets.md: `(N_ITER ..)` is a list, `[Q_SCALE=1 ..]` a choice."""
    stack: list[list[Part]] = [[]]
    heads: list[str] = []
    for word in re.findall(r"[(\[][A-Z_=0-9]+|[A-Z_0-9]+|[)\]]", text):
        if word[0] in "([":
            heads.append(word)
            stack.append([])
        elif word in ")]":
            inner, head = tuple(stack.pop()), heads.pop()
            name, _, number = head[1:].partition("=")
            stack[-1].append(Choice(name, int(number), inner) if number else Repeated(inner, counter=name))
        else:
            stack[-1].append(word)
    return tuple(stack[0])


SKIPPED = {number: read_layout(text) for number, text in _track_packets.LAYOUTS.items() if number not in LAYOUTS}
"""The layouts of packets that the kernel skips."""


def packets_in(bits: str) -> Iterator[tuple[int, str]]:
    """The packets of a telegram, each with its bits, found only by their lengths."""
    at = 50
    while at + 23 <= len(bits) and (number := int(bits[at:at + 8], 2)) != 255:
        length = int(bits[at + 10:at + 23], 2)
        if length < 23:
            return
        yield number, bits[at:at + length]
        at += length


def first_of(element: tuple[Part, ...]) -> str:
    """The name with which an element begins."""
    part = element[0]
    assert not isinstance(part, Repeated | Choice)
    return part if isinstance(part, str) else part.name


def begins(element: tuple[Part, ...]) -> set[str]:
    """The names with which an element may begin, also those that a missing qualifier would decide."""
    found = {first_of(element)}
    for part in element[1:]:
        if not isinstance(part, Choice):
            return found | ({part} if isinstance(part, str) and len(found) > 1 else set())
        found.add(first_of(part.parts))
    return found


def qualifier_of(name: str, rest: Sequence[Part], comes: str | None) -> int | None:
    """The number of a missing qualifier: that of the choice after it whose first variable comes next."""
    choices = [part for part in rest if isinstance(part, Choice) and part.name == name]
    numbers = [part.number for part in choices if part.parts and first_of(part.parts) == comes]
    spare = [number for number in (0, 1) if number not in {part.number for part in choices}]
    return numbers[0] if numbers else spare[0] if choices and spare and name.startswith("Q_") else None


@dataclass
class Writer:
    """Writes the variables of a packet in the order of its layout."""

    packet: int
    left: Pairs
    written: Pairs = field(default_factory=list)

    def comes(self) -> str | None:
        """The name that is next in the text."""
        return self.left[0][0] if self.left else None

    def take(self, name: str, usual: int | None) -> int:
        """Writes a variable: the number of the text, or the default."""
        if self.comes() == name:
            number = self.left.pop(0)[1]
        elif usual is not None:
            number = usual
        else:
            comes = self.comes()
            raise Wrong(f"packet {self.packet}: {name} is missing" + (f" before {comes}" if comes else " at the end"))
        self.written.append((name, number))
        return number

    def write(self, layout: Sequence[Part]) -> None:
        """Writes the parts of a layout."""
        for at, part in enumerate(layout):
            if isinstance(part, str):
                self.take(part, USUAL.get(part, qualifier_of(part, layout[at + 1:], self.comes())))
            elif isinstance(part, Choice):
                if [number for name, number in self.written if name == part.name][-1:] == [part.number]:
                    self.write(part.parts)
            elif isinstance(part, Where):
                follows = self.comes() == first_of(part.parts)
                usual = None if part.name.startswith("M_") else part.number if follows else 0
                if self.take(part.name, usual) == part.number:
                    self.write(part.parts)
            else:
                self.write_list(part)

    def write_list(self, part: Repeated) -> None:
        """Writes a list; computes its counter if it is missing."""
        if part.is_more:
            self.write(part.element)
        at, written, left = len(self.written), 0, None
        if self.comes() == part.counter:
            left = self.take(part.counter, None)
        names = begins(part.element)
        while left is None and self.comes() in names or left is not None and written < left:
            self.write(part.element)
            written += 1
        if left is None:
            self.written.insert(at, (part.counter, written))


def packet_pairs(number: int, pairs: Pairs) -> Pairs:
    """The variables of a packet in their order, with its head."""
    skipped = SKIPPED.get(number)
    layout = LAYOUTS.get(number) if skipped is None else skipped
    head = dict(pair for pair in pairs if pair[0] in HEAD)
    body = Writer(number, [pair for pair in pairs if pair[0] not in HEAD])
    if skipped is not None:
        scale = [("Q_SCALE", head.pop("Q_SCALE", USUAL["Q_SCALE"]))] if "Q_SCALE" in skipped else []
        body.left = scale + body.left
    if layout is not None:
        body.write(layout)
        if number in _track_packets.THEN_BITS:
            body.written += body.left
        elif body.left:
            name = body.left[0][0]
            raise Wrong(f"packet {number} has no {name} there" if name in WIDTH else f"packet {number} has no {name}; "
                        f"{guess(name, {one for one, _ in body.written})}")
    else:
        body.written = body.left
    if skipped is None and number in LAYOUTS and number not in WITHOUT_SCALE or "Q_SCALE" in head:
        body.written.insert(0, ("Q_SCALE", head.get("Q_SCALE", USUAL["Q_SCALE"])))
    length = 23 + sum(width_of(name) for name, _ in body.written)
    return [("NID_PACKET", number), ("Q_DIR", head.get("Q_DIR", USUAL["Q_DIR"])),
            ("L_PACKET", head.get("L_PACKET", length)), *body.written]


def width_of(name: str) -> int:
    """The number of bits of a variable."""
    if name not in WIDTH:
        raise Wrong(f"there is no variable {name}; {guess(name, WIDTH)}")
    return WIDTH[name]


def bits_of(pairs: Pairs) -> str:
    """The bits of some variables."""
    for name, number in pairs:
        if not 0 <= number < 1 << width_of(name):
            raise Wrong(f"{name} has {WIDTH[name]} bits, from 0 to {(1 << WIDTH[name]) - 1}, and {number} doesn't fit")
    return "".join(f"{number:0{WIDTH[name]}b}" for name, number in pairs)


def all_names(layout: Sequence[Part]) -> set[str]:
    """The variables of a layout, those of its lists too."""
    found = set[str]()
    for part in layout:
        if isinstance(part, str):
            found.add(part)
        elif isinstance(part, Repeated):
            found |= {part.counter, *all_names(part.element)}
        else:
            found |= {part.name, *all_names(part.parts)}
    return found


def names_of(packet: int) -> set[str]:
    """The variables of a packet; all that there are if it has no layout."""
    layout = LAYOUTS.get(packet, SKIPPED.get(packet))
    return set(WIDTH) if layout is None else {*HEAD, *all_names(layout)}


def pairs_of(text: str, names: Iterable[str], what: str) -> Pairs:
    """The names and numbers of a text about `what`, which has these names."""
    found = []
    for one in filter(None, map(str.strip, text.split(","))):
        if not re.fullmatch(r"[A-Z][A-Z_0-9]*\s+[0-9]{1,20}", one):
            raise Wrong(f"\"{shortened(one)}\" is no variable with a number")
        name, number = one.split()
        if name not in WIDTH:
            raise Wrong(f"{what} has no {name}; {guess(name, names)}")
        found.append((name, int(number)))
    return found


@dataclass(frozen=True)
class Telegram:
    """The variables of a telegram: of its header, and of each packet."""

    header: Pairs
    packets: list[Pairs]

    @property
    def digits(self) -> str:
        """Its bytes in hex: the end mark comes after the packets, and zeros fill the last byte."""
        bits = bits_of(self.header) + "".join(map(bits_of, self.packets)) + f"{END_MARK:08b}"
        bits += "0" * (-len(bits) % 8)
        if len(bits) > 8 * MOST_BYTES:
            raise Wrong(f"a telegram has at most {MOST_BYTES} bytes, and this one has {len(bits) // 8}")
        return f"{int(bits, 2):0{len(bits) // 4}X}"

    def lines(self) -> list[str]:
        """The telegram as `etcs decode` prints it, without the last line, which counts its bits."""
        return [" ".join(["telegram", *map(shown, self.header)]), *map(packet_line, self.packets)]


def shown(pair: tuple[str, int]) -> str:
    """A variable as `etcs decode` prints it."""
    return f"{pair[0]}={pair[1]}"


def packet_line(packet: Pairs) -> str:
    """A packet as `etcs decode` prints it: only the head if it has no layout."""
    number = packet[0][1]
    if number in LAYOUTS:
        return " ".join([f"packet {number}", *map(shown, packet[1:])])
    return " ".join([f"packet {number}", *map(shown, packet[1:3]), "skipped"])


def telegram(text: str) -> Telegram:
    """The telegram of a text."""
    if len(text) > MOST_TEXT:
        raise Wrong(f"a telegram is written in at most {MOST_TEXT:,} characters, and this has {len(text):,}")
    first, *rest = text.split(";")
    pairs = pairs_of(first, HEADER, "the header")
    header: dict[str, int | None] = dict(HEADER)
    for name, number in pairs:
        if name not in HEADER:
            raise Wrong(f"the header has no {name}; {guess(name, HEADER)}")
        header[name] = number
    if len(pairs) != len(dict(pairs)):
        raise Wrong("a variable of the header stands twice")
    if header["NID_BG"] is None:
        raise Wrong("the header has no NID_BG")
    packets = []
    for one in rest:
        number_text, _, body = one.strip().partition(":")
        if not re.fullmatch("[0-9]{1,3}", number_text.strip()) or int(number_text) > END_MARK:
            raise Wrong(f"\"{shortened(one.strip())}\" begins with no number of a packet")
        number = int(number_text)
        packets.append(packet_pairs(number, pairs_of(body, names_of(number), f"packet {number}")))
    return Telegram([(name, number or 0) for name, number in header.items()], packets)
