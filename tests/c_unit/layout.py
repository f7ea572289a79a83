#!/usr/bin/env python3
"""Compares sizes and offsets of the structs in C with those of python/gaknifur/_header.py.

    tests/c_unit/layout.py --program    print a C program that prints them from the headers
    tests/c_unit/layout.py PROGRAM..    compare what this program prints, built in several ways
"""
import ctypes
import subprocess
import sys
from pathlib import Path

sys.path.insert(0, str(Path(__file__).resolve().parents[2] / "python"))
from gaknifur import _header  # noqa: E402

LEAST = 227
PROGRAM = """#include <stddef.h>
#include <stdio.h>
#include "etcs_guard.h"
#include "etcs_image.h"
int main(void) {
%s    return 0;
}
"""


def places():
    """Each struct with its size, and each of its fields with its place, by the C expression for it."""
    for name, struct in vars(_header).items():
        if isinstance(struct, type) and issubclass(struct, ctypes.Structure) and struct is not ctypes.Structure:
            yield f"sizeof({name})", ctypes.sizeof(struct)
            yield from ((f"offsetof({name}, {field})", getattr(struct, field).offset) for field, *_ in struct._fields_)


def main(words):
    wanted = dict(places())
    if words == ["--program"]:
        print(PROGRAM % "".join(f'    printf("{place}: %u\\n", (unsigned){place});\n' for place in wanted), end="")
        return 0
    tried = found = 0
    for program in words:
        lines = subprocess.run([program], capture_output=True, text=True, check=True).stdout.splitlines()
        for name, number in (line.split(": ") for line in lines):
            tried += 1
            if wanted[name] != int(number):
                found += 1
                print(f"{name} is {number}, and from Python {wanted[name]}")
    print(f"layout: {tried} sizes and places, {found} differences")
    return found > 0 or tried < LEAST * len(words) or not words


if __name__ == "__main__":
    sys.exit(main(sys.argv[1:]))
