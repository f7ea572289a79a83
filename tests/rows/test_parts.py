#!/usr/bin/env python3
"""Runs test_parts.row over the program of rows (asking.py has the words).

A row's first word names the part that it is for; `test_parts_track.py`, `test_parts_packets.py` and
`test_parts_groups.py` list what each part is asked; `file 100 3 1 5` fills a disk of 3 sectors over an honest file whose calls
do 100 bytes at most, writes byte 5 to sector 1, syncs, and reads it. A row goes on where the one before of its part ended; `new`
begins anew. Questions and replies, in numbers, are described in program/src/test_parts.rt.txt. The rows of
tests/rows were worked out by hand from SUBSET-026 and this project's profile; tests/model/make_rows.py adds those of
part_rows.py."""
import sys

import test_parts_groups
import test_parts_packets
import test_parts_track
from asking import main

# Of each part its number, what makes numbers of a question's words, and what makes words of the answer.
PARTS = {
    "place": (1, test_parts_track.place, test_parts_track.place_answer),
    "restriction": (2, test_parts_track.restriction, test_parts_track.restriction_answer),
    "profile": (3, test_parts_track.profile, test_parts_track.profile_answer),
    "links": (4, test_parts_groups.links, test_parts_groups.links_answer),
    "national": (5, test_parts_packets.national, test_parts_packets.national_answer),
    "authority": (6, test_parts_packets.authority, test_parts_packets.authority_answer),
    "balises": (7, test_parts_groups.balises, test_parts_groups.balises_answer),
    "speed": (8, test_parts_track.speed, test_parts_track.speed_answer),
    "telegram": (9, test_parts_groups.telegram, test_parts_groups.telegram_answer),
    "file": (10, lambda words: list(map(int, words)), lambda _words, reply: file_answer(reply)),
}


def file_answer(reply):
    is_done, byte = reply.take(2)
    return str(byte) if is_done else test_parts_track.REFUSED


def question(row):
    part, *words = row.split()
    number, numbers_of, _ = PARTS[part]
    return [number, *numbers_of(words)]


def answer(row, reply):
    part, *words = row.split()
    return [PARTS[part][2](words, reply)]


if __name__ == "__main__":
    sys.exit(main("test_parts", question, answer))
