#!/usr/bin/env python3
"""Runs test_track.row over the program of rows (asking.py has the words).

    listing BITS         the packets after a header of 50 bits that are 0, each with number, direction, place and length by L_PACKET,
                         and what ends them; the bits may stand apart
    repeated COUNT       the same of so many packets 135, each of 23 bits, and an end mark
    packet BITS          the fields of the packet that these bits begin with; `-` after them leaves their last byte out
    units BITS           of each field of such a packet its name, its number and its unit
    missing AT LENGTH    a packet from that place on, of so many bits, in 8 bytes
    kind NUMBER          what is known of a packet
    random COUNT SEED    so many telegrams with packets of each layout, altered at times: how many have the packets, and the fields
                         of each with their units, that the plain program (../model/track_packets.py) reports

Questions and replies, in numbers, are described in program/src/test_track.rt.txt."""
import random
import re
import sys

from asking import HERE, main_by_words
from test_decode import take_bytes, of_bytes

sys.path.insert(0, str(HERE.parent / "model"))
import track_packets as plain  # noqa: E402

FAULTS = {1: "Truncated", 2: "WrongLength", 3: "Spare", 4: "OutOfRange"}
DIRECTIONS = ["reverse", "nominal", "both", "spare"]
ENDS = ["end", "no end", "cut", "length", "many"]
SENDERS, ISSUES = ["balise", "radio"], ["this issue", "a later issue"]
BODIES = ["rows", "rows and bits", "bits", "kernel", "kernel or rows", "number alone"]
SURENESS = ["sure", "fairly sure", "name alone"]
UNITS = ["", "scale", "5 km/h", "s", "m", "per mille", "0.5 t", "character"]
MOST_FIELDS = 40


def take_text(reply):
    return take_bytes(reply).decode("ascii")


def take_listing(reply):
    packets = [tuple(reply.take(4)) for _ in range(reply.take())]
    end, at = reply.take(2)
    reply.end()
    return packets, (ENDS[end], at)


def take_fields(reply):
    """As the plain program says them, but for the number of fields, which may be more than the reply has."""
    outcome = reply.take()
    if outcome == 0:
        count, rest = reply.take(2)
        fields = []
        while reply.numbers:
            name = take_text(reply)
            fields.append((name, *reply.take(3)))
        return fields, ("rest", rest), count
    if outcome in (1, 2):
        reply.end()
        return None, ({1: "no memory", 2: "not there"}[outcome],), 0
    if outcome == 3:
        return None, ("refused", FAULTS[reply.take()]), 0
    name = take_text(reply) if outcome in (4, 5) else None
    why = ({4: "cut", 5: "many", 6: "long"}[outcome], name, reply.take())
    reply.end()
    return None, why, 0


def lines_of(fields, why):
    lines = [" ".join(map(str, field)) for field in fields or []]
    return [*lines, " ".join(str(word) for word in why if word is not None)]


def telegram_of(words):
    """A header, the bits, and zeros up to a whole byte."""
    bits = "".join(words)
    if not re.fullmatch("[01]*", bits):
        raise ValueError("no bits")
    return plain.data_of("0" * plain.HEADER_BITS + bits)


def listing(words):
    [reply] = yield [of_bytes(1, telegram_of(words))]
    packets, end = take_listing(reply)
    return [*(f"{number} {DIRECTIONS[direction]} at {at} length {length}" for number, direction, at, length in packets),
            " ".join(map(str, end))]


def repeated(words):
    [reply] = yield [of_bytes(1, telegram_of([f"{135:08b}10{23:013b}" * int(words[0]), "1" * 8]))]
    packets, end = take_listing(reply)
    return [f"{len(packets)} packets", " ".join(map(str, end))]


def packet(words):
    data = telegram_of([word.rstrip("-") for word in words])
    if words[-1].endswith("-"):
        data = data[:-1]
    number, length = (int(bits, 2) for bits in ("".join(words)[:8], "".join(words)[10:23]))
    [reply] = yield [[*of_bytes(2, data), number, plain.HEADER_BITS, length, 0]]
    fields, why, _ = take_fields(reply)
    return lines_of(fields, why)


def take_units(reply):
    return [UNITS[reply.take()] for _ in range(len(reply.numbers))]


def units(words):
    data = telegram_of(words)
    place = [int("".join(words)[:8], 2), plain.HEADER_BITS, int("".join(words)[10:23], 2), 0]
    fields, found = yield [[*of_bytes(2, data), *place], [*of_bytes(4, data), *place]]
    return [f"{name} {number} {unit}".rstrip() for (name, _, _, number), unit in zip(take_fields(fields)[0], take_units(found))]


def missing(words):
    [reply] = yield [[*of_bytes(2, bytes(8)), 132, int(words[0]), int(words[1]), 0]]
    fields, why, _ = take_fields(reply)
    return lines_of(fields, why)


def kind(words):
    [reply] = yield [[3, int(words[0])]]
    if reply.take() == 0:
        return ["no name"]
    name = take_text(reply)
    sender, issue, body, sureness = reply.take(4)
    reply.end()
    return [f"{name}; {SENDERS[sender]}; {ISSUES[issue]}; {BODIES[body]}; {SURENESS[sureness]}"]


def packet_bits(chance, number):
    """Bits that its layout takes, of random numbers; lists are short."""
    def take(name):
        width = plain.WIDTHS[name]
        most = 3 if name in ("N_ITER", "L_TEXT") else (1 << width) - 1
        fields.append((name, chance.randint(0, most)))
        return fields[-1][1]

    def all_of(parts):
        for part in parts:
            if isinstance(part, str):
                take(part)
            elif part[0] == "(":
                for _ in range(take(part[1])):
                    all_of(part[2:])
            else:
                name, wanted = part[1].split("=")
                if [value for other, value in fields if other == name][-1] == int(wanted):
                    all_of(part[2:])

    fields = []
    all_of(plain.parts_of(plain.LAYOUTS.get(number, "")))
    body = "".join(f"{value:0{plain.WIDTHS[name]}b}" for name, value in fields)
    if number in plain.WITH_TRAILING_BITS or number not in plain.LAYOUTS:
        body += "".join(chance.choice("01") for _ in range(chance.randint(0, 30)))
    length = 23 + len(body) + (chance.randint(-20, 20) if chance.random() < 0.1 else 0)
    return f"{number:08b}{chance.randint(0, 3):02b}{max(length, 0):013b}" + body


def telegram(chance):
    """Packets of random numbers after a header, and an end mark; at times bits are turned, or the end is cut off."""
    numbers = [*plain.LAYOUTS, 5, 65, 66, 0, 2, 6, 88, 180, 200]
    bits = "".join(chance.choice("01") for _ in range(plain.HEADER_BITS))
    for _ in range(chance.randint(1, 4)):
        bits += packet_bits(chance, chance.choice(numbers))
    data = bytearray(plain.data_of(bits + "1" * 8))
    for _ in range(chance.choice([0, 0, 0, 1, 2])):
        at = chance.randrange(plain.HEADER_BITS, 8 * len(data))
        data[at // 8] ^= 0x80 >> at % 8
    if chance.random() < 0.1:
        del data[chance.randrange(len(data)):]
    return bytes(data)


def compared(words):
    chance = random.Random(int(words[1]))
    telegrams = [telegram(chance) for _ in range(int(words[0]))]
    wanted = [plain.packets_in_order(data) for data in telegrams]
    places = [(data, place) for data, (packets, _) in zip(telegrams, wanted) for place in packets]
    replies = yield [*(of_bytes(1, data) for data in telegrams),
                  *([*of_bytes(2, data), number, at, length, 0] for data, (number, _, at, length) in places),
                  *([*of_bytes(4, data), number, at, length, 0] for data, (number, _, at, length) in places)]
    alike = sum(take_listing(one) == (packets, end) for one, (packets, end) in zip(replies, wanted))
    of_packets, kinds, faults, alike_units = 0, set(), 0, 0
    units_of_all = replies[len(telegrams) + len(places):]
    for one, counted, (data, (number, _, at, length)) in zip(replies[len(telegrams):], units_of_all, places):
        fields, why = plain.fields_of(data, number, at, length)
        alike_units += take_units(counted) == [plain.unit_of(name) for name, *_ in (fields or [])[:MOST_FIELDS]]
        found, found_why, count = take_fields(one)
        of_packets += (found_why, count) == (why, len(fields or [])) and found == (fields and fields[:MOST_FIELDS])
        kinds.add(number)
        faults += fields is None
    return [f"telegrams alike: {alike} of {len(telegrams)}", f"packets alike: {of_packets} of {len(places)}",
            f"units alike: {alike_units} of {len(places)}",
            f"numbers: {len(kinds)}, with faults: {faults}"]


ASKED = {"listing": listing, "repeated": repeated, "packet": packet, "units": units, "missing": missing,
         "kind": kind, "random": compared}


if __name__ == "__main__":
    sys.exit(main_by_words("test_track", ASKED))
