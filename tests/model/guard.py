#!/usr/bin/env python3
"""A plain guard, and its table with planted faults: what a telegram demands by the table in crates/track_guard/README.md, next to the rows by
hand of tests/rows/test_guard.row. The table as it is written has no other answer than the rows; each of the planted faults has one.

    tests/model/guard.py
"""
import re
import sys
from pathlib import Path

from decoded import Fault, telegram_of
from track_packets import bits_of, packets_in_order

TOP = Path(__file__).resolve().parents[2]
sys.path.insert(0, str(TOP / "tests/rows"))
import test_guard  # noqa: E402
from asking import rows_of  # noqa: E402

PAGE = TOP / "crates/track_guard/README.md"
LEAST_ROWS, LEAST_PLANTED = 150, 24
INFILL, REVERSE, NOMINAL, BOTH, SPARE = 136, 0, 1, 2, 3
VALID = {REVERSE: ("reverse",), NOMINAL: ("nominal",), **dict.fromkeys((BOTH, SPARE), ("reverse", "nominal", "unknown"))}
"""The directions in which a packet counts, by its Q_DIR."""
FREE = {71: 56, 132: 24, 137: 24}
"""Packets whose last bit says that they don't restrict, with their length."""
NAMES = {137: "stop_in_staff_responsible", 132: "danger_for_shunting", 49: "shunting_balises", 135: "stop_shunting", 16: "repositioning",
         46: "conditional_level", 51: "axle_load_speeds", 70: "route_suitability", 71: "slippery_rail", 12: "endless_end_speed"}
REFUSED = {"from 32": "greater_version", "17 to 31": "same_version", "below 16": "lesser_version", "Q_LINK 0": "refused_unlinked",
           "another": "refused"}


def table_of(page):
    """The rows of the table, by the names of what is found."""
    table = {}
    for line in page.split("## The table")[1].split("\n\n")[1].splitlines()[2:]:
        found, modes, overridden, action, elsewhere, section, sure = (cell.strip() for cell in line.strip("|").split("|"))
        number = re.match(r"packet (\d+)", found)
        name = NAMES.get(int(number[1]), found) if number else next(name for words, name in REFUSED.items() if words in found)
        table[name] = (list(test_guard.MODES) if modes == "all" else modes.split(), overridden == "yes", action, elsewhere, f"{section} {sure}")
    return table


def demand(table, name, where, mode, is_overridden):
    """The demand of what is found, as a row has it; none where there is none."""
    modes, overridden, action, elsewhere, section = table.get(name, ((), True, "", "", ""))
    demanded = action if mode in modes and (overridden or not is_overridden) else elsewhere
    return [f"  {re.sub('(?<=[a-z])(?=[A-Z])', '_', demanded).lower()} {where} {name} {section}"] if demanded else []


def found_in(number, bits):
    """Whether a packet with these bits restricts."""
    if number == 12:
        return int(bits[32:39] or "0", 2) > 0 and bits[39:49] == "1" * 10
    return number in NAMES and not (FREE.get(number) == len(bits) and bits[-1] == "1")


def refusal_of(bits, fault):
    """What is found in a telegram that is refused."""
    if fault == "WrongVersion":
        version = int(bits[1:8], 2)
        return "greater_version" if version >= 32 else "same_version" if version > 16 else "lesser_version"
    return "refused_unlinked" if fault not in ("NotUplink", "NotBalise") and bits[49:50] == "0" else "refused"


def demands(table, data, mode, direction, is_overridden):
    """The demands of a telegram: first that of one which is refused, then those of its packets before infill."""
    bits, found = bits_of(data), []
    try:
        telegram_of(data)
    except Fault as fault:
        found += demand(table, refusal_of(bits, str(fault)), f"refused {fault}", mode, is_overridden)
    if bits[:1] == "1" and bits[8:9] == "0" and 16 <= int(bits[1:8], 2) <= 31:
        for number, valid, start, length in packets_in_order(data)[0]:
            if number == INFILL:
                break
            if direction in VALID[valid] and found_in(number, bits[start:start + length]):
                found += demand(table, NAMES[number], f"{number} at {start} length {length}", mode, is_overridden)
    return found or ["  nothing"]


def answered(table, question):
    """The answer to a row about a telegram; None to another one."""
    word, *words = question.split(" ")
    if word not in ("packets", "telegram"):
        return None
    mode, direction, *bits = words
    is_overridden = bits[0] == "overridden"
    sent = "".join(bits[is_overridden:])
    data = test_guard.data_of(sent if word == "telegram" else f"{test_guard.HEADER}{sent}{'1' * 8}")
    return demands(table, data, mode, direction, is_overridden)


def row(page, number):
    """The row of a packet in the table."""
    return next(line for line in page.splitlines() if line.startswith(f"| packet {number} "))


def planted(page):
    """Each a wrong table: what is wrong, and the page with it."""
    for number, old, new in ((137, "| SR |", "| SR OS |"), (137, "Trip", "ServiceBrake"), (137, "| no |", "| yes |"), (137, " S |", " F |"),
                             (132, "| SH |", "| SR |"), (132, "Trip", "NotObeyed"), (132, "| no |", "| yes |"), (132, "packet 132", "packet 137"),
                             (49, " UN |", " |"), (49, "OS ", ""), (49, "NotObeyed", "Trip"), (135, "SH SB", "SH"), (135, "5.6", "5.10"),
                             (16, "SB ", ""), (16, "| yes |", "| no |"), (46, " PT", ""), (46, "SB ", "SB TR "), (51, "SR ", ""),
                             (51, "SB UN", "SB UN PT"), (70, "3.12.2", "3.11.4"), (70, "FS ", ""), (71, "OS ", "OS SH "), (71, " F |", " S |"),
                             (12, "NotObeyed", "Unreadable"), (12, " UN", " UN SF")):
        yield f"packet {number}: {old} is {new}", page.replace(row(page, number), row(page, number).replace(old, new, 1))
    for old, new in (("| M_VERSION from 32 on | FS ", "| M_VERSION from 32 on | "), ("SH UN | yes | Trip | Unreadable", "SH UN | yes | Trip | "),
                     ("| M_VERSION 17 to 31 | all | yes | Unreadable", "| M_VERSION 17 to 31 | all | yes | Trip"),
                     ("ServiceBrake | Unreadable", "Trip | Unreadable"), ("ServiceBrake | Unreadable", "ServiceBrake | ")):
        yield f"{old} is {new}", page.replace(old, new, 1)


def main():
    rows, page = rows_of((TOP / "tests/rows/test_guard.row").read_text()), PAGE.read_text()

    def differing(text):
        table = table_of(text)
        return [(place, question, wanted, found) for place, question, wanted in rows if (found := answered(table, question)) not in (None, wanted)]

    wrong = [f"test_guard.row:{place}: {question}: wanted {wanted}, found {found}" for place, question, wanted, found in differing(page)]
    found = {}
    for name, text in planted(page):
        found[name] = text != page and len(differing(text))
        if not found[name]:
            wrong.append(f"no row finds that {name}")
    tried = sum(answered(table_of(page), question) is not None for _, question, _ in rows)
    print("\n".join([*wrong, f"guard: {tried} rows of telegrams, {len(found)} wrong tables, {len(wrong)} wrong"]))
    return 0 if not wrong and tried >= LEAST_ROWS and len(found) >= LEAST_PLANTED else 1


if __name__ == "__main__":
    sys.exit(main())
