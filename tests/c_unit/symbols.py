#!/usr/bin/env python3
"""Calls the functions of the headers as symbols of the shared library, without a header: each returns NULL_POINTER where all its arguments are zero, and
a life through them is answered as the header says.

    tests/c_unit/symbols.py LIBRARY NAME..    NAME.. are the names that the library exports
"""
import ctypes
import sys
from pathlib import Path

TOP = Path(__file__).resolve().parents[2]
sys.path[:0] = [str(TOP / "tests")]

from compared import Compared  # noqa: E402

NULL_POINTER, WITHOUT_POINTER = 253, ("etcs_abi", "etcs_build_proof", "etcs_status_classify", "etcs_decode", "etcs_packet_count")  # (and each .._name: names.py)
SECTOR, SLOTS, LEAST = 512, 4, 41


def life(library, same):
    """A format, an opening and a moment: status of each, and the outputs."""
    image, request, room = bytearray(SECTOR * (1 + 6 * SLOTS)), (ctypes.c_uint64 * 3)(), ctypes.create_string_buffer(8192)
    size, long = ctypes.c_size_t(len(room)), ctypes.c_uint64

    def carry_out(ask):
        count = 0
        while (status := ask(count)) == 0:
            if request[2] == 1:
                image[request[0] * SECTOR:(request[0] + request[1]) * SECTOR] = room.raw[:request[1] * SECTOR]
            count += 1
        return status, count

    same("format", carry_out(lambda index: library.etcs_unit_format_request(SLOTS, index, request, room, size))[0], 249)
    unit = (ctypes.c_uint64 * 4)()
    same("open", library.etcs_unit_open(unit, bytes(image), ctypes.c_size_t(len(image)), 0), 0)
    same("open again", library.etcs_unit_open(unit, bytes(image), ctypes.c_size_t(len(image)), 0), 251)
    outputs, many = (ctypes.c_uint64 * 16)(), ctypes.c_uint32(99)
    for moment, events in ((None, 0), (5, 1), (7, 1)):
        if moment is not None:
            same("clock", library.etcs_unit_clock(unit, long(moment)), 0)
            same("prepare", library.etcs_unit_prepare(unit), 0)
        same("owed", (library.etcs_unit_release(unit, outputs, ctypes.c_size_t(8), ctypes.byref(many)), many.value), (22, 99))
        done = []

        def next_request(_index):
            if done:
                same("done", library.etcs_unit_done(unit), 0)
            done.append(library.etcs_unit_request(unit, request, room, size))
            return done[-1]

        same("requests", (carry_out(next_request)[0], len(done) > 1), (249, True))
        same("release", (library.etcs_unit_release(unit, outputs, ctypes.c_size_t(8), ctypes.byref(many)), many.value), (0, events))
        many.value = 99
    same("the event", outputs[0], 2)
    same("close", (library.etcs_unit_close(unit), library.etcs_unit_close(unit)), (0, 250))


def main(path, *names):
    library, compared = ctypes.CDLL(path), Compared()
    tried = 0
    for name in names:
        if not name.endswith(("_", "_name")) and name not in WITHOUT_POINTER:
            compared.same(name, getattr(library, name)(*[ctypes.c_uint64(0)] * 6), NULL_POINTER)
            tried += 1
    compared.unless(tried >= LEAST, f"{tried} calls with null pointers, and there are {LEAST} to be tried")
    life(library, compared.same)
    return compared.end(f"symbols: {tried} calls with null pointers, and {compared.count} answers")


if __name__ == "__main__":
    sys.exit(main(*sys.argv[1:]))
