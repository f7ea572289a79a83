#!/usr/bin/env python3
"""The stack of each call from C, by the frames in the object code, compared with the number that the headers give: the macro ETCS_STACK_BYTES_.. that the
comment of a call names, or that of its header.

    tests/c_unit/stacks.py COUNTS OUTER    COUNTS is counts.c with the library, OUTER a program that has the calls of the headers which define all of
                                         theirs in themselves as functions

What the C library takes isn't counted, nor what functions of the equipment take.
"""
import re
import sys
from pathlib import Path

TOP = Path(__file__).resolve().parents[2]
sys.dont_write_bytecode = True
sys.path[:0] = [str(TOP / "tests")]

import stack_bound  # noqa: E402
from compared import Compared  # noqa: E402

OF_LIBRARY = dict.fromkeys(("etcs.h", "etcs_unit.h", "etcs_image.h", "etcs_guard.h"), "ETCS_STACK_BYTES")
IN_HEADERS = {"etcs_file.h": "ETCS_STACK_BYTES_FILE", "etcs_executive.h": "ETCS_STACK_BYTES_EXECUTIVE", "etcs_nor.h": "ETCS_STACK_BYTES"}
CALL = re.compile(r"/\*\*((?:[^*]|\*(?!/))*)\*/\n(?:ETCS_MUST_USE\n)?(?:static inline )?\w[\w ]*[ *](etcs_\w+)\(", re.MULTILINE)
NUMBER = re.compile(r"^#define (ETCS_STACK_BYTES\w*) (\d+)$", re.MULTILINE)
LEAST = 110


def main(counts, outer):
    rows, numbers, used = Compared(), {}, set()
    headers = {name: (TOP / "c/include" / name).read_text() for name in (*OF_LIBRARY, *IN_HEADERS)}
    for text in headers.values():
        numbers.update((name, int(number)) for name, number in NUMBER.findall(text))
    for program, places in ((counts, OF_LIBRARY), (outer, IN_HEADERS)):
        functions = stack_bound.functions_of(program)
        for header, otherwise in places.items():
            for comment, call in CALL.findall(headers[header]):
                named = set(re.findall(r"ETCS_STACK_BYTES\w*", comment)) or {otherwise}
                rows.unless(len(named) == 1, f"{call}: its comment names {sorted(named)}")
                used |= named
                most = min(numbers[name] for name in named)
                for name in {call, f"{call}_"} & functions.keys():
                    taken = stack_bound.deepest(functions, name)[0]
                    rows.unless(taken <= most, f"{name}: {taken} bytes of stack, and {header} says {most}")
    rows.same("numbers of stack that no call has", set(numbers) - used, set())
    rows.unless(rows.count >= LEAST, f"{rows.count} comparisons, and there are {LEAST} to be made")
    return rows.end(f"stack of calls: {rows.count} comparisons")


if __name__ == "__main__":
    sys.exit(main(*sys.argv[1:]))
