"""The lines that `etcs_lab events` has to print of an image, worked out from docs/reference/format.md by the plain readers of blocks and telegrams.

Each line is a list of pairs of name and value, so that duplicate names and a wrong order are found.
"""
from functools import cache

import blocks
import decoded
import demand_words
import track_packets
from blocks import SECTOR
from journal import BRAKES, COLD, read_block, record_in, signs_of, slots_in, valid_number
from replay import MODE_WORDS, input_of, run_of

FORMATS = {mark: form for form, mark in blocks.MARKS.items()}
FARTHEST = 2**62
KNOWN, INFILL = (3, 5, 12, 21, 27, 41, 65, 66, 80), 136
"""The packets that the kernel knows (docs/explain/conformance.md), and the one after which none is used."""


class Refused(Exception):
    """The image is refused: no line is printed."""


def snake(word):
    return word.replace("-", "_")


# ---- a record

SAID = {"enter-identity": ("identity", str), "enter-running-number": ("running_number", int), "choose-level": ("chosen_level", int),
        "confirm": ("confirmed", snake), "acknowledge": ("acknowledged", snake)}
HEADER_BITS, HEAD_BITS = 50, 23


def digits_of(data, at, count):
    """So many bits from a place on in hexadecimal digits, padded with zero bits to whole bytes."""
    bits = "".join(f"{byte:08b}" for byte in data)[at:at + count]
    padded = bits + "0" * (-count % 8)
    return "".join(f"{int(padded[i:i + 8], 2):02X}" for i in range(0, len(padded), 8))


def packet_members(data, packet, at):
    """A packet that begins after so many bits."""
    members = [("packet", packet.number), ("fields", [["NID_PACKET", packet.number], *map(list, packet.fields)])]
    if not packet.is_skipped:
        return members
    count = dict(packet.fields)["L_PACKET"] - HEAD_BITS
    return members + [("skipped_bits", count), ("body", digits_of(data, at + HEAD_BITS, count))]


def telegram_members(data):
    try:
        telegram = decoded.telegram_of(data)
    except decoded.Fault as fault:
        return [("refused", [("number", decoded.FAULTS[str(fault)]), ("name", str(fault))])]
    packets, at = [], HEADER_BITS
    for packet in telegram.packets:
        packets.append(packet_members(data, packet, at))
        at += dict(packet.fields)["L_PACKET"]
    return [("header", telegram.header), ("packets", packets), ("bits", telegram.bits)]


def unused_packets(data):
    """The packets of a telegram that no mode uses in any direction."""
    try:
        telegram, why = decoded.telegram_of(data), None
        listed = [(packet.number, dict(packet.fields)["L_PACKET"]) for packet in telegram.packets]
    except decoded.Fault:
        listed, why = [(number, length) for number, _, _, length in track_packets.packets_in_order(data)[0]], "refused"
    found, at, is_after_infill = [], HEADER_BITS, False
    for number, length in listed:
        is_after_infill = is_after_infill or number == INFILL
        reason = why or ("infill" if is_after_infill else None if number in KNOWN else "not_known")
        if reason:
            found.append([("packet", number), ("name", track_packets.names().get(number)), ("bit", at), ("bits", length), ("why", reason)])
        at += length
    return found


@cache
def demanded(data, mode, is_overridden):
    """What a guard demands by a telegram in this mode, where the direction of its group isn't known."""
    return [list(one.items()) for one in demand_words.members(data, mode, is_overridden, [])]


def demands(data, number, before):
    """.. by the telegram of an event of this number; None where the record before isn't that of the event before."""
    if before is None or before["number"] + 1 != number:
        return None
    return demanded(data, MODE_WORDS[before["mode"]], "overridden" in signs_of(before["ind"]))


def action_members(data):
    word, value = input_of(("driver", data))
    action = [("action", snake(word))]
    if word == "enter-train-data":
        length, maximum, deceleration, reaction, category = map(int, value.split())
        return action + [("length_cm", length), ("maximum_m_per_h", maximum), ("category", category),
                         ("deceleration_cm_per_s2", deceleration), ("reaction_ms", reaction)]
    name, of = SAID.get(word, (None, None))
    return action + ([(name, of(value))] if name else [])


def event_members(event, number, before):
    kind, *values = event
    if kind == "powerup":
        return [("word", snake(COLD[values[0]]))]
    if kind == "telegram":
        return [("telegram", values[0].hex()), ("decoded", telegram_members(values[0])),
                ("unused", unused_packets(values[0])), ("demands", demands(values[0], number, before))]
    if kind == "odometer":
        return [("movement_cm", values[0]), ("speed_m_per_h", values[1])]
    if kind == "clock":
        return [("now_ms", values[0])]
    return action_members(values[0])


def place_members(r, form):
    names = ("place_cm", "uncertainty_cm", "min_safe_front_cm", "max_safe_front_cm", "limit_m_per_h")
    if form == 1:
        return [(name, None) for name in names]
    place, way = r["estimate"], r["uncertainty"]
    fronts = (place - way, place + way) if way <= FARTHEST else (None, None)
    return list(zip(names, (place, way, *fronts, r["limit"])))


def width_of(form):
    """The bytes of a record."""
    return 128 if form == 1 else 256


def line_of(r, form, source, block, byte, life, before=None):
    """The line of a record that begins at this byte of the image, after this record of the journal or of its block."""
    return ([("source", source)] if source else []) + [
        ("block", block), ("byte", byte), ("event", r["number"]), ("life", life),
        ("kind", r["event"][0]), ("time_ms", r["moment"]), ("mode", MODE_WORDS[r["mode"]]),
        ("level", None if r["level"] == 255 else r["level"]), ("brake", BRAKES[r["brake"]]),
        ("indications", signs_of(r["ind"])),
        *place_members(r, form), *event_members(r["event"], r["number"], before)]


def lines_of(block, slot, source=None, before=None):
    """The lines of a block's records, after this record. A power-up begins a life, so a record is of the last one less those begun after it."""
    begun, form = [r["event"][0] == "powerup" for r in block["records"]], block["format"]
    for k, r in enumerate(block["records"]):
        byte = SECTOR * (3 + 6 * slot) + width_of(form) * k
        yield line_of(r, form, source, block["number"], byte, max(0, block["lives"] - sum(begun[k + 1:])), before)
        before = r


def record_alone(data, form):
    """The record that bytes spell by themselves, whatever the number of its event; None where they spell none."""
    r = record_in(data, form)
    return r if r and blocks.record(r, form).data() == data else None


def lines_without_block(image, slot):
    """Of a slot that spells no block the lines of the records that are spelled there, in the format that its head begins with."""
    at = SECTOR * (2 + 6 * slot)
    form = FORMATS.get(image[at:at + 8], 3)
    number = int.from_bytes(image[at + 8:at + 16], "big") if image[at:at + 8] in FORMATS else 0
    block = number if 1 <= number <= 2**40 else None
    for byte in range(at + SECTOR, at + 5 * SECTOR, width_of(form)):
        r = record_alone(image[byte:byte + width_of(form)], form)
        if r:
            yield line_of(r, form, "damaged", block, byte, None)


# ---- an image

def read_slot(image, slot):
    """Whether the gate is closed, and the block after it, if there is one."""
    at = SECTOR * (1 + 6 * slot)
    gate, body = image[at:at + SECTOR], image[at + SECTOR:at + 6 * SECTOR]
    return not any(gate), read_block(b"\1".ljust(SECTOR, b"\0") + body)


def image_lines(image, all_blocks):
    """The lines, and whether the image has just the sectors of its slots and each block of the journal is reported."""
    sectors = len(image) // SECTOR
    slots = slots_in(image[:SECTOR]) if sectors else None
    if slots is None:
        raise Refused("NotFormatted")
    there = min(slots, (sectors - 1) // 6)
    numbers = run_of(image, slots, there)
    first, newest = numbers.start, numbers.stop - 1
    run = [("first_block", first), ("newest_block", newest)] if newest else [("first_block", None), ("newest_block", None)]
    journal, parts, others, last, whole = {}, {}, [], [], sectors == 1 + 6 * slots
    for step in range(slots):
        slot = (newest + 1 + step) % slots
        if slot >= there:
            continue
        is_closed, block = read_slot(image, slot)
        if block is None:
            at = SECTOR * (1 + 6 * slot)
            number = valid_number(image[at:at + SECTOR], image[at + SECTOR:at + 2 * SECTOR], slot, slots)
            if number and first <= number:
                parts[number] = list(lines_without_block(image, slot))
            else:
                others += lines_without_block(image, slot)
        elif block["number"] % slots != slot:
            others += lines_of(block, slot, "misplaced")
        elif not is_closed and first <= block["number"] <= newest:
            journal[block["number"]] = block
        elif is_closed and block["number"] == newest + 1:
            last += lines_of(block, slot, "unwritten")
        else:
            others += lines_of(block, slot, "replaced" if is_closed else "after_gap")
    lines = [[("image", [("sectors", sectors), ("slots", slots), *run])]] + (others if all_blocks else [])
    for number in range(first, newest + 1):
        if number in journal:
            before = journal[number - 1]["records"][-1] if number - 1 in journal else None
            lines += lines_of(journal[number], number % slots, "journal" if all_blocks else None, before)
        else:
            lines.append([("unreadable", [("block", number)])])
            lines += parts.get(number, []) if all_blocks else []
            whole = False
    return lines + (last if all_blocks else []) + [[("end", "done")]], whole
