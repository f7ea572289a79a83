#!/usr/bin/env python3
"""Runs test_decode.row over the program of rows (asking.py has the words).

Questions and replies, in numbers, are described in program/src/test_decode.rt.txt. Each word of a row is a function that yields
its questions, is sent the replies, and returns the lines. The rows `decode` and `short` ask the program `etcs`;
so does what is said of the agreement of all ways of reading. $ETCS names another one than that of the full check."""
import os
import resource
import subprocess
import sys
import tempfile
from concurrent.futures import ThreadPoolExecutor

from asking import HERE, main_by_words

FAULTS = {0: "decoded", 1: "Truncated", 2: "WrongLength", 3: "Spare", 4: "OutOfRange", 5: "WrongVersion",
          6: "NotUplink", 7: "NotBalise", 8: "NoEnd", 9: "TooLong"}
COUNTED = [1, 2, 3, 4, 8, 9]
HEADER_BITS, HEADER_BYTES = 50, 7
ETCS = os.environ.get("ETCS") or HERE.parents[1] / "crates/etcs/out/etcs"
KINDS = {"links": 1, "level": 2, "start": 3, "area": 4, "speeds": 5, "other": 6}
TRUTH = ["false", "true"]


def data_of(text):
    return bytes.fromhex(text)


def of_bytes(operation, data):
    padded = data + bytes(-len(data) % 8)
    return [operation, len(data), *(int.from_bytes(padded[at:at + 8], "big") for at in range(0, len(padded), 8))]


def take_bytes(reply):
    size = reply.take()
    numbers = reply.take((size + 7) // 8) if size else []
    numbers = [numbers] if isinstance(numbers, int) else numbers
    return b"".join(number.to_bytes(8, "big") for number in numbers)[:size]


def spell(data):
    return data.hex().upper()


def printed(text):
    """What `etcs decode` prints, and its status."""
    ran = subprocess.run([ETCS, "decode", text], capture_output=True)
    return ran.stdout.decode().splitlines(), ran.returncode


def printed_all(texts):
    with ThreadPoolExecutor(8) as pool:
        return list(pool.map(printed, texts))


def decode(words):
    yield []
    lines, status = printed(words[0])
    return [*lines, f"status {status}"]


def short(words):
    """Where a file takes so many bytes and no more."""
    def limited():
        resource.setrlimit(resource.RLIMIT_FSIZE, (int(words[0]), int(words[0])))
    yield []
    with tempfile.TemporaryFile() as out:
        # (a signal that Python ignores stays ignored)
        ran = subprocess.run([ETCS, "decode", words[1]], stdout=out, stderr=subprocess.DEVNULL,
                             preexec_fn=limited, restore_signals=False)
        if os.fstat(out.fileno()).st_size > int(words[0]):
            return ["more was taken"]
    return [f"status {ran.returncode}"]


def put_over(data, at, width, number):
    """The bytes with a number of so many bits over those from a bit on."""
    bits = 8 * len(data)
    shift = bits - at - width
    whole = int.from_bytes(data, "big") & ~(((1 << width) - 1) << shift) | number << shift
    return whole.to_bytes(len(data), "big")


def numbers(words):
    at, width, data = int(words[0]), int(words[1]), data_of(words[2])
    replies = yield [of_bytes(1, put_over(data, at, width, number)) for number in range(1 << width)]
    faults = [FAULTS[one.take()] for one in replies]
    lines, first = [], 0
    for number in range(1, len(faults) + 1):
        if number == len(faults) or faults[number] != faults[first]:
            lines.append(f"{first} to {number - 1}: {faults[first]}")
            first = number
    return lines


def written(reply):
    """As what a telegram is written, None where it is none."""
    if reply.take() == 0:
        reply.end()
        return None
    data = take_bytes(reply)
    reply.end()
    return data


def without_end(data):
    text = spell(data)
    while text.endswith("55"):
        text = text[:-2]
    return text


def again(words):
    [reply] = yield [of_bytes(2, data_of(words[0]))]
    data = written(reply)
    if data is None:
        return ["no telegram"]
    return [without_end(data)] if len(data) == 104 else [f"{len(data)} bytes"]


def walk_of(reply):
    """The fault's number, and the packets with their places."""
    fault = reply.take()
    packets = []
    if fault == 0:
        for _ in range(reply.take()):
            number, offset = reply.take(2)
            packets.append((number, offset, take_bytes(reply)))
    reply.end()
    return fault, packets


def places(words):
    [reply] = yield [of_bytes(3, data_of(words[0]))]
    fault, packets = walk_of(reply)
    if fault:
        return [FAULTS[fault]]
    return [f"packets: {len(packets)}",
            *(f"packet {number} from bit {offset} of {spell(data)}" for number, offset, data in packets)]


def packet(words):
    [reply] = yield [of_bytes(4, data_of(words[0]))]
    fault = reply.take()
    if fault:
        reply.end()
        return [FAULTS[fault]]
    elements, differences, has_room = reply.take(3)
    data = take_bytes(reply)
    reply.end()
    return [f"{elements} elements, {differences} differences", spell(data) if has_room else "no room"]


def long(words):
    [reply] = yield [of_bytes(5, data_of(words[0]))]
    less, more, found, fits, stays = reply.take(5)
    reply.end()
    return [f"in 160 bytes: {TRUTH[less]}", f"in 161 bytes: {TRUTH[more]}",
            f"in a telegram: {TRUTH[fits]}, array as it was: {TRUTH[stays]}" if found else "no packet"]


def bits(words):
    pairs = [(int(width), int(number)) for width, number in zip(words[::2], words[1::2])]
    [reply] = yield [[6, len(pairs), *(word for pair in pairs for word in pair)]]
    lines = []
    for width, number in pairs:
        has_room, size, *data = reply.take(4)
        lines.append(f"no number of {width} bits: {number}" if has_room == 2
                     else f"{number} in {width} bits: {TRUTH[has_room]}, {spell(bytes(data[:size]))}")
    reply.end()
    return lines


def sizes(words):
    [reply] = yield [[7]]
    packet_is, telegram_is = reply.take(2)
    reply.end()
    return [f"a packet within 480 bytes: {TRUTH[packet_is]}", f"a telegram within 16384 bytes: {TRUTH[telegram_is]}"]


def spelling(words):
    kind, *others = words
    others = [int(word) for word in others]
    if kind == "speeds":
        others = [others[0], len(others) - 1, *others[1:]]
    [reply] = yield [[8, KINDS[kind], *others]]
    found, is_spelled, alone, in_pair = reply.take(4)
    reply.end()
    if not found:
        return []
    return [f"packet: {TRUTH[is_spelled]}", f"telegram, 0 of 0: {TRUTH[alone]}", f"telegram, 1 of 0: {TRUTH[in_pair]}"]


class Chance:
    """Numbers that look random, by shifts of 64 bits."""

    def __init__(self):
        self.state = 0x9E37_79B9_7F4A_7C15

    def below(self, most):
        self.state ^= self.state << 13 & 2**64 - 1
        self.state ^= self.state >> 7
        self.state ^= self.state << 17 & 2**64 - 1
        return (self.state >> 32) % max(most, 1)


def mutated_of(chance, data):
    """Up to three bits turned after the header; at times the bytes after it cut, or made too many."""
    data = bytearray(data)
    for _ in range(chance.below(4)):
        bit = HEADER_BITS + chance.below(8 * len(data) - HEADER_BITS)
        data[bit // 8] ^= 0x80 >> bit % 8
    cut = chance.below(16)
    if cut == 0:
        del data[chance.below(len(data) - HEADER_BYTES) + HEADER_BYTES:]
    elif cut == 1:
        data += bytes(105 - len(data))
    return bytes(data)


def agreeing(all_data, faults, copies, walks):
    """How many telegrams of these all ways of reading agree on."""
    texts = printed_all([spell(data) for data in all_data])
    fronts = [b"" if copy is None else data_of(without_end(copy)) for copy in copies]
    texts_again = printed_all([spell(front) for front in fronts])
    count = 0
    for data, fault, (lines, status), copy, (walk_fault, packets), front, (lines_again, _) in zip(
            all_data, faults, texts, copies, walks, fronts, texts_again):
        if fault:
            count += (lines[0].startswith("refused "), status, copy, walk_fault) == (True, 1, None, fault)
        else:
            count += (copy is not None and not lines[0].startswith("refused ") and status == 0 and walk_fault == 0
                      and len([line for line in lines if line.startswith("packet ")]) == len(packets)
                      and lines_again == lines and data.startswith(front[:-1]))
    return count


def mutated(words):
    chance, data = Chance(), data_of(words[1])
    all_data = [mutated_of(chance, data) for _ in range(int(words[0]))]
    replies = yield [of_bytes(way, data) for way in (1, 2, 3) for data in all_data]
    count = len(all_data)
    faults = [one.take() for one in replies[:count]]
    copies, walks = [written(one) for one in replies[count:2 * count]], [walk_of(one) for one in replies[2 * count:]]
    return [f"decoded: {faults.count(0)}", *(f"refused {FAULTS[fault]}: {faults.count(fault)}" for fault in COUNTED),
            f"in agreement: {agreeing(all_data, faults, copies, walks)}"]


ASKED = {"decode": decode, "short": short, "numbers": numbers, "again": again, "packet": packet, "places": places,
         "long": long, "bits": bits, "sizes": sizes, "spelling": spelling, "mutated": mutated}


if __name__ == "__main__":
    sys.exit(main_by_words("test_decode", ASKED))
