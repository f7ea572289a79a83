"""Rows of national values and of movement authorities, in words and in numbers. Places are centimetres, moments
milliseconds, speeds km/h where nothing else is said.

    national new                    the defaults are in force, and nothing is announced
    national announce 1 0 D_VALIDNV=100 listed=3,4
                                    packet 3 of a group of country 1 at place 0: its variables that differ from `SENT`,
                                    and the countries that it lists
    national reach 9999             the maximum safe front is here
    national enter 2                a group of this country is accepted
    national forget                 what is announced is forgotten
    national power up               a life begins with what is in force
    national keep                   a copy is laid aside
    national turn                   what was laid aside goes on, and what went on is laid aside
    national staff responsible      the speed in Staff Responsible
    national roll                   how far the train may roll
    national countries              those that the values are for
    national values                 all in m/h, cm and ms, in the order of packet 3 from V_NVSHUNT on; `-` has no end
    national told V_NVSTFF=2            those that this packet says

    authority new                   none is stored
    authority accept 0 0 V_LOA=8 T_LOA=20 end=30/200 point=30/4 overlap=100/10/50/4 300 200/60/100 500
                                    packet 12, at a moment, of a group at a place: its variables that differ from
                                    `GRANTED`; T_ENDTIMER and D_ENDTIMERSTARTLOC; D_DP and V_RELEASEDP; D_STARTOL, T_OL,
                                    D_OL and V_RELEASEOL; and its sections, the end section last, each its length, and
                                    T_SECTIONTIMER and D_SECTIONTIMERSTOPLOC where it has a timer; `300*31` are 31 of
                                    them
    authority run 59999 0 39999     a moment, and the minimum and the maximum safe front then
    authority clear
    authority keep, authority turn  as of national values
    authority end                   the end, as `run` says it too: the speed there, the supervised location and the
                                    release speed only where there is one of its own
    authority stored                whether there is one
    authority main speed
"""
from asking import signed
from test_parts_track import REFUSED, YES, bits, called, in_kmh, whole

# The bits of each variable of packet 3, and its number where a row says no other: in metres and in force at once, for
# the country of its group alone.
SENT = {
    "Q_SCALE": (2, 1), "D_VALIDNV": (15, 32_767), "V_NVSHUNT": (7, 1), "V_NVSTFF": (7, 6), "V_NVONSIGHT": (7, 3),
    "V_NVUNFIT": (7, 120), "V_NVREL": (7, 5), "D_NVROLL": (15, 3), "V_NVALLOWOVTRP": (7, 7), "V_NVSUPOVTRP": (7, 8),
    "D_NVOVTRP": (15, 150), "T_NVOVTRP": (8, 254), "D_NVSTFF": (15, 32_766),
}
# .. of packet 12: in metres, of 160 km/h, with no speed at the end.
GRANTED = {"Q_SCALE": (2, 1), "V_MAIN": (7, 32), "V_LOA": (7, 0), "T_LOA": (10, 0)}
# The bits of what may come after these words.
PARTS = {"end": (10, 15), "point": (15, 7), "overlap": (15, 10, 15, 7)}
SECTION = 15, 10, 15
NATIONAL = {
    "new": (1, 0), "reach": (3, 1), "forget": (5, 0), "power up": (6, 0), "keep": (7, 0), "turn": (8, 0),
    "staff responsible": (9, 0), "roll": (9, 0), "countries": (9, 0), "values": (9, 0),
}
AUTHORITY = {
    "new": (1, 0), "run": (3, 3), "clear": (4, 0), "keep": (5, 0), "turn": (6, 0), "end": (7, 0), "stored": (7, 0),
    "main speed": (7, 0),
}


def named(words):
    """The words `NAME=NUMBER`, by name."""
    return dict(word.split("=") for word in words if "=" in word)


def variables(of_packet, given):
    """The numbers of a packet's variables, some of which a row names."""
    return [bits(width, given.pop(name, number)) for name, (width, number) in of_packet.items()]


def packet_3(words):
    given = named(words)
    listed = given.pop("listed", "").replace(",", " ").split()
    numbers = variables(SENT, given)
    if given or len(listed) > 31:
        raise ValueError(f"{' '.join(words)}: no packet 3")
    return [*numbers, len(listed), *(bits(10, word) for word in listed)]


def national(words):
    name, *others = words
    if name == "announce":
        country, place, *packet = others
        return [2, bits(10, country), whole(place), *packet_3(packet)]
    if name == "told":
        return [10, 0, 0, *packet_3(others)]
    return [4, bits(10, others[0])] if name == "enter" else called(NATIONAL, words)


def values(reply):
    numbers = reply.take(9)
    for _ in ("T_NVOVTRP", "D_NVSTFF"):
        has_end, limit = reply.take(2)
        numbers.append(limit if has_end else "-")
    return numbers


def national_answer(words, reply):
    if reply.take() == 0:
        reply.numbers.clear()
        return REFUSED
    if words[0] == "told":
        return " ".join(map(str, values(reply)))
    if words[0] not in ("staff", "roll", "countries", "values"):
        return "done"
    in_force, roll = values(reply), reply.take()
    countries = [str(reply.take()) for _ in range(reply.take())]
    if words[0] == "staff":
        return in_kmh(in_force[1])
    if words[0] == "roll":
        return str(roll)
    return " ".join(countries) or "none" if words[0] == "countries" else " ".join(map(str, in_force))


def part(widths, word):
    """The numbers of a part after a 1; zeros where there is none."""
    if word is None:
        return [0] * (1 + len(widths))
    numbers = word.split("/")
    if len(numbers) != len(widths):
        raise ValueError(f"{word}: other numbers are wanted")
    return [1, *map(bits, widths, numbers)]


def section(word):
    length, *timer = word.split("/")
    return [bits(SECTION[0], length), *part(SECTION[1:], "/".join(timer) or None)]


def sections(words):
    for word in words:
        one, _, times = word.partition("*")
        yield from [section(one)] * int(times or 1)


def packet_12(words):
    given = named(words)
    beyond_end = [number for name, widths in PARTS.items() for number in part(widths, given.pop(name, None))]
    numbers = variables(GRANTED, given)
    *before, end = sections(word for word in words if "=" not in word)
    if given or len(before) > 31:
        raise ValueError(f"{' '.join(words)}: no packet 12")
    return [*numbers, *beyond_end, len(before), *(number for one in [end, *before] for number in one)]


def authority(words):
    if words[0] == "accept":
        return [2, int(words[1]), whole(words[2]), *packet_12(words[3:])]
    return called(AUTHORITY, words)


def authority_answer(words, reply):
    asked, stored, is_speed, speed, *end = reply.take(10)
    if not asked:
        return REFUSED
    if words[0] in ("run", "end"):
        return end_text(*end)
    if words[0] == "main":
        return in_kmh(speed) if is_speed else "none"
    return YES[stored] if words[0] == "stored" else "done"


def end_text(is_end, end, speed, location, kind, release):
    if not is_end:
        return "none"
    text = str(signed(end))
    if speed:
        text += f", speed {in_kmh(speed)}"
    if location != end:
        text += f", location {signed(location)}"
    if (kind, release) != (1, 0):
        text += f", release {in_kmh(release) if kind == 1 else 'national'}"
    return text
