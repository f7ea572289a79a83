#!/usr/bin/env python3
"""Runs test_guard.row over the program of rows (asking.py has the words).

    packets MODE DIRECTION BITS             what a telegram with these packets demands, of group 2 in country 1, with Q_LINK 1, and an end mark
                                            after them; the bits may stand apart. `overridden` after the direction: while an override is active
    telegram MODE DIRECTION BITS            .. of a telegram of these bits, the header with them
    guard POLICY STEP..                     what a guard commands after each step, where the unit commands none, service and emergency:
                                            `stop`, `unlinked` and `go` are telegrams, `moving` and `stands` acknowledgements
    numbers MODE DIRECTION OVERRIDDEN       of a stop in Staff Responsible, by these numbers

What is asked and answered, in numbers, stands in program/src/test_guard.rt.txt."""
import sys

from asking import main_by_words
from test_decode import of_bytes

MODES = {"FS": 0, "OS": 1, "SR": 2, "SH": 3, "UN": 4, "SB": 6, "TR": 7, "PT": 8, "SF": 9}
DIRECTIONS = {"reverse": 0, "nominal": 1, "unknown": 2}
ACTIONS = [None, "trip", "service_brake", "not_obeyed", "unreadable"]
FINDINGS = [None, "stop_in_staff_responsible", "danger_for_shunting", "shunting_balises", "stop_shunting", "repositioning", "conditional_level",
            "axle_load_speeds", "route_suitability", "slippery_rail", "endless_end_speed", "greater_version", "same_version", "lesser_version",
            "refused_unlinked", "refused"]
FAULTS = [None, "Truncated", "WrongLength", "Spare", "OutOfRange", "WrongVersion", "NotUplink", "NotBalise", "NoEnd", "TooLong"]
SURE = [None, "S", "F", "B"]
STEPS = {"stop": 1, "unlinked": 2, "go": 3, "moving": 4, "stands": 5}
POLICIES = {"strict": 1, "warn": 2}
BRAKES = ["none", "service", "emergency"]
END, OUT_OF_RANGE = 38, 255
HEADER = "1" "0010000" "0" "000" "000" "00" "11111111" "0000000001" "00000000000010" "1"
STOP = "10001001" "10" "0000000011000" "0"


def data_of(bits):
    return bytes(int(bits[at:at + 8].ljust(8, "0"), 2) for at in range(0, len(bits), 8))


def demand(numbers):
    action, finding, packet, start, length, fault, chapter, section, clause, sure = numbers
    where = f"refused {FAULTS[fault]}" if packet == 256 else f"{packet} at {start} length {length}"
    place = f"{chapter}.{section}" + (f".{clause}" if clause else "")
    return f"{ACTIONS[action]} {where} {FINDINGS[finding]} {place} {SURE[sure]}"


def demands(answer):
    lines = []
    while len(answer.numbers) > 1:
        lines.append(demand(answer.take(10)))
    status = answer.take()
    if status == OUT_OF_RANGE:
        return ["out of range"]
    if status != END:
        raise ValueError("another status")
    return lines or ["nothing"]


def question_of(data, mode, direction, overridden):
    return [*of_bytes(1, data), mode, direction, overridden]


def by_bits(before, words, after):
    mode, direction, *bits = words
    overridden = bits[:1] == ["overridden"]
    bits = "".join(bits[overridden:])
    if set(bits) - set("01"):
        raise ValueError("no bits")
    return question_of(data_of(before + bits + after), MODES[mode], DIRECTIONS[direction], int(overridden))


def packets(words):
    [answer] = yield [by_bits(HEADER, words, "1" * 8)]
    return demands(answer)


def telegram(words):
    [answer] = yield [by_bits("", words, "")]
    return demands(answer)


def numbers(words):
    [answer] = yield [question_of(data_of(HEADER + STOP + "1" * 8), *map(int, words))]
    return demands(answer)


def guard(words):
    policy, *steps = words
    [answer] = yield [[2, POLICIES.get(policy, 9), *(STEPS[step] for step in steps), 0]]
    status = answer.take()
    if status:
        return ["out of range"] if status == OUT_OF_RANGE else [f"status {status}"]
    return [step + ": " + ", ".join(BRAKES[brake] for brake in answer.take(3)) for step in steps]


ASKED = {"packets": packets, "telegram": telegram, "numbers": numbers, "guard": guard}


if __name__ == "__main__":
    sys.exit(main_by_words("test_guard", ASKED))
