#!/usr/bin/env python3
"""A script of calls for the driver (driver.c), the same in every run, and the comparison of the answers of two machines.

    tests/machines/scripts.py script LIVES CALLS TELEGRAMS [SEED]    print lives with cuts, calls in any order with random numbers, and telegrams
    tests/machines/scripts.py members                                print C that adds each member of each struct to a digest, in any byte order
    tests/machines/scripts.py compare SCRIPT WANTED FOUND..          compare the answers in FOUND with those in WANTED, and print how much was compared

A comparison fails too where the answers show too few lives, cuts, outputs, statuses or telegrams for the lines of the script.
"""
import ctypes
import random
import sys
from collections import Counter
from pathlib import Path

TESTS = Path(__file__).resolve().parents[1]
sys.path[:0] = [str(TESTS), str(TESTS / "c_unit"), str(TESTS / "hostile"), str(TESTS / "model"), str(TESTS.parent / "python")]

from compared import Compared  # noqa: E402
from lives import LIVES, scenario_of, slots_of, word_of  # noqa: E402
from gaknifur import _header  # noqa: E402
from program import inputs_of  # noqa: E402
from random_inputs import headed, mutated  # noqa: E402

PENDING, MOST_SLOTS = 8, 64
CUT_KINDS, LEAST_STATUSES, NULL_CALLS = 21, 22, 53
EDGES = (0, 1, 2, 7, 8, 9, 104, 105, 255, 256, 511, 512, 8_191, 8_192, 10_000, 10_001, 600_000, 600_001, 99_999_999, 100_000_000, (1 << 31) - 1, 1 << 31,
         (1 << 32) - 1, 1 << 32, (1 << 40) - 1, 1 << 40, (1 << 63) - 1, 1 << 63, (1 << 64) - 1)

# The header of a group, and its packet 3 (tests/c_unit/telegrams.c).
INSTALLED = ("1 0010000 0 000 000 00 11111111 0000000001 00000000000010 1 00000011 10 0000010111010 01 111111111111111 00001 0000000111 0000110 0001000 "
             "0000110 0010100 0001000 000000000000010 1 0 0000000 0000110 000000011001000 00111100 000000011001000 01 11111111 1 111111111111111 0")


def wild(r):
    return r.choice((r.choice(EDGES), r.randrange(16), r.randrange(1 << r.randrange(1, 65))))


def life(r):
    """A life on the medium, of a unit over a copy or by sectors: whole, or cut off in one of its flushes. Before some lives power is lost while
    sectors are still to be read, or within the power-up."""
    scenario = scenario_of(r)
    cold = scenario.get("cold", 0)
    lines, pending = [f"kind {r.randrange(2)}"], 0
    if r.randrange(4) == 0:
        lines += [f"stops {cold} {r.randrange(40)}", f"dies {cold} {r.randrange(9)} {r.randrange(4_097)}", "image"]
    lines.append(f"open {cold}")
    for asked in inputs_of(scenario):
        one = word_of(asked)
        if one == "flush" or pending == PENDING:
            lines.append("flush")
            pending = 0
        if one != "flush":
            lines += [one, "keys"]
            pending += 1
    lines.append("flush")
    if r.randrange(2):
        at = r.choice([place for place, one in enumerate(lines) if one == "flush"])
        return [*lines[:at], f"cut {r.randrange(9)} {r.randrange(4_097)}", "image"]
    return [*lines, "state", "explain", "keys", "close", "image"]


def reading(r):
    """What is asked of the image after a life."""
    asked = ["facts", "journal", *["next", "cause"] * r.randrange(12), "journal", *["replay"] * r.randrange(1, 5)]
    return [*asked, *(f"why {r.randrange(1, 40)} {r.randrange(120)}" for _ in range(2)), *(f"slot {r.randrange(40)} {r.randrange(10)}" for _ in range(2)),
            *(f"start {r.randrange(1, 9)} {r.randrange(9)}" for _ in range(3)), f"block {r.randrange(1, 40)}", f"record {r.randrange(1, 40)} {r.randrange(9)}"]


def call(r):
    """A call with numbers of any kind, also where the unit isn't open or its requests are owed."""
    kind = r.randrange(44)
    if kind < 6:
        return r.choice(("prepare", "flush", f"open {r.randrange(4)}", "done", f"release {r.randrange(10)}", "close"))
    if kind < 12:
        return r.choice((f"odometer {r.randrange(-300, 3_000)} {r.randrange(200_000)}", f"clock {r.randrange(1 << 20)}", f"action {r.randrange(17)}",
                         f"telegram {(headed if r.randrange(2) else mutated)(r)[:r.choice((104, 104, 105, 1))].hex()}", "train 20000 160000 70 0 15"))
    if kind < 18:
        return r.choice((f"odometer {wild(r) - (1 << 63) if r.randrange(2) else r.choice((-10_000, -10_001))} {wild(r)}", f"clock {wild(r)}", f"action {wild(r)}",
                         f"identity {r.randbytes(r.randrange(18)).hex()}", f"number {wild(r)}", f"train {' '.join(str(wild(r)) for _ in range(5))}",
                         f"telegram {r.randbytes(r.choice((0, 1, 104, 105, 250))).hex()}"))
    if kind < 24:
        return r.choice((f"request {r.choice((0, 511, 512, 8_192))}", f"request {wild(r)}", "done", f"release {wild(r)}",
                         "state", "explain", "keys", f"version {wild(r)}", f"build {wild(r)}", f"format {wild(r)} {wild(r)} {wild(r)}", f"unit {r.randrange(2)}", f"medium {r.randrange(2)}"))
    if kind < 28:
        return r.choice((f"begins {r.randrange(3)}", f"begins {r.randrange(3)}", "goes 0", f"goes {r.randrange(40)}", f"goes {1 << 10}", f"goes {1 << 10}", "request 8192",
                         f"kind {r.randrange(2)}", f"open {r.randrange(3)}", "done"))
    if kind < 32:
        return r.choice((f"begin {r.choice((0, 1, 12, 13, 25, wild(r)))} {r.choice((0, 1, 2, 3, wild(r)))}", f"provide {r.randrange(30)} 512 {512 * r.randrange(30)}",
                         f"provide {wild(r)} {r.choice((0, 511, 512, 513, wild(r)))} {wild(r)}", "fail", f"stops {r.randrange(4)} {r.randrange(40)}",
                         f"dies {r.randrange(3)} {r.randrange(9)} {r.randrange(4_097)}"))
    if kind < 42:
        return r.choice(("facts", "journal", "next", "next", "replay", f"cursor {wild(r)} {wild(r)} {wild(r)}", f"slot {wild(r)} {wild(r)}", f"start {wild(r)} {wild(r)}", f"block {wild(r)}",
                         f"record {wild(r)} {wild(r)}", f"why {wild(r)} {wild(r)}", f"why {r.randrange(1, 30)} {r.randrange(60)}", f"size {wild(r)}", "whole",
                         "whole"))
    return r.choice(("fail", f"flip {wild(r)} {1 << r.randrange(8)}", f"flip {r.randrange(4_096)} {1 << r.randrange(8)}", "null",
                     f"slots {r.choice((0, 1, 2, 3, 8, MOST_SLOTS, 65, 1 << 20, (1 << 20) + 1))}", f"slots {r.randrange(2, 9)}", "cut 1 100"))


def installed(r):
    """A telegram whose packet 3 is as a track of issue 2.3.0 sends it for one country, and then bits of any kind; at times one bit is turned."""
    bits = INSTALLED.replace(" ", "") + (f"{r.randrange(1 << 40):040b}" if r.randrange(2) else "1" * 8)
    bits += "0" * (-len(bits) % 8)
    data = bytearray(int(bits, 2).to_bytes(len(bits) // 8, "big"))
    if r.randrange(3) == 0:
        data[r.randrange(6, len(data))] ^= 1 << r.randrange(8)
    return bytes(data)


def script(lives, calls, telegrams, seed=2026):
    r, lines = random.Random(seed), ["null", "version 32", "build 160"]
    for number in range(lives):
        if number % LIVES == 0:
            lines.append(f"slots {slots_of(r)}")
        lines += life(r)
        if r.randrange(4) == 0:
            lines += reading(r)
    lines += ["slots 4", *(call(r) for _ in range(calls)), "unit 0", "close", "unit 1", "close", "null"]
    for _ in range(telegrams):
        data = r.choice((headed, mutated, installed))(r)[:256].hex()
        lines += [f"decode {data}", f"unused {r.choice((0, 1, 2, 3, 4, 5, 6, 7, 8, 9))} {r.choice((0, 1, 2, 2, 3))} {r.randrange(4)} {data}"]
    return lines


def members():
    """The functions of C, in the order of the headers. An array is added member by member, a struct within a struct by its own function."""
    for name, kind in vars(_header).items():
        if not (isinstance(kind, type) and issubclass(kind, ctypes.Structure) and kind is not ctypes.Structure) or name == "etcs_unit":
            continue
        yield f"static inline void add_{name}(const {name} *of) {{"
        for field, of, *_ in kind._fields_:
            is_array = hasattr(of, "_length_")
            at = f"of->{field}" + "[i]" * is_array
            inner = of._type_ if is_array else of
            if is_array:
                yield f"    for (size_t i = 0; i < sizeof of->{field} / sizeof of->{field}[0]; i++)"
            yield "    " * (1 + is_array) + (f"add_{inner.__name__}(&{at});" if issubclass(inner, ctypes.Structure) else f"add_number((uint64_t){at}, sizeof {at});")
        yield "}"


def with_kinds(lines):
    """Each word of a script with the kind by which a unit is opened then."""
    kind = "0"
    for one in lines:
        word, *numbers = one.split()
        kind = str(int(numbers[0]) % 2) if word == "kind" else kind
        yield kind, word


def compare(asked, wanted, *found):
    """The first answers are the wanted ones."""
    compared = Compared()
    lines = Path(asked).read_text().splitlines()
    expected = Path(wanted).read_text().splitlines()
    answers = [line.split() for line in expected if line[:1].isdigit()]
    compared.unless(len(answers) == len(lines) and expected[-1:] == ["end"], f"{wanted}: {len(answers)} answers to {len(lines)} lines")
    statuses = Counter(int(status) for _, status, _ in answers)
    words = [line.split()[0] for line in lines]
    causes = sum(word == "cause" and int(status) == 0 for word, (_, status, _) in zip(words, answers))
    cuts = sum(word in ("cut", "dies") and int(status) == CUT_KINDS for word, (_, status, _) in zip(words, answers))
    stopped = sum(word == "stops" and int(status) == CUT_KINDS for word, (_, status, _) in zip(words, answers))
    stops = sum(three == ("stops", "dies", "image") for three in zip(words, words[1:], words[2:]))  # between lives, while no unit is open
    outputs, lives = sum(line.startswith("event ") for line in expected), words.count("open")
    by_sectors = Counter(kind for kind, word in with_kinds(lines) if word == "open")
    decoded = [int(status) for word, (_, status, _) in zip(words, answers) if word == "decode"]
    compared.unless(all(int(status) == NULL_CALLS for word, (_, status, _) in zip(words, answers) if word == "null") and "null" in words, "null pointers aren't answered")
    compared.unless("no such word" not in expected, "a word that the driver doesn't have")
    compared.unless(outputs >= 4 * lives // 3 and cuts >= words.count("cut") // 4 > 0, f"{outputs} outputs of {lives} lives, {cuts} of them cut off")
    compared.unless(min(by_sectors["0"], by_sectors["1"]) >= lives // 4 and 2 * stopped >= stops > 0,
                    f"openings by kind {dict(by_sectors)}, {stopped} cut off while a sector was to be read")
    compared.unless(causes * 10 >= words.count("cause") > 0, f"{causes} of {words.count('cause')} causes are explained")
    compared.unless(len(statuses) >= LEAST_STATUSES, f"{len(statuses)} kinds of answers")
    compared.unless(decoded.count(0) * 10 >= len(decoded) > 0, f"{decoded.count(0)} of {len(decoded)} telegrams can be read")
    for path in found:
        other = Path(path).read_text().splitlines()
        compared.unless(len(other) == len(expected), f"{path}: {len(other)} lines, wanted {len(expected)}")
        compared.same(path, [pair for pair in zip(other, expected) if pair[0] != pair[1]][:5], [])
    return compared.end(f"{len(found)} machines compared with the first: {len(lines)} calls with {outputs} outputs, {lives} openings, {by_sectors['1']} of them by sectors, "
                        f"{cuts} losses of power and {stopped} more while a sector was to be read, "
                        f"{causes} causes, {len(statuses)} kinds of answers, {len(decoded)} telegrams")


if __name__ == "__main__":
    if sys.argv[1] == "script":
        print("\n".join(script(*map(int, sys.argv[2:]))))
    elif sys.argv[1] == "members":
        print("\n".join(members()))
    else:
        sys.exit(compare(*sys.argv[2:]))
