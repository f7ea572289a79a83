#!/usr/bin/python3
"""A unit that gives the answers of records, and in the first lives a wrong one: of another member in each life.

    tests/lab/recorded.py RECORDS WORD

RECORDS are lines of `etcs_lab events`. WORD is `right`: it is never wrong; `wrong`; or `breaks`: it is right, and gives
no answer to the last event.
"""
import json
import sys
from pathlib import Path

ANSWER = ("mode", "level", "brake", "indications", "place_cm", "uncertainty_cm", "limit_m_per_h")


def other(name, value):
    """Another value of a member."""
    if name == "mode":
        return "SF" if value != "SF" else "TR"
    if name == "brake":
        return "service" if value != "service" else "none"
    if name == "indications":
        return value[1:] if value else ["overspeed"]
    return 1 - value if value in (0, 1) else 0 if value is None else value + 1


def say(message):
    print(json.dumps(message), flush=True)


def main(path, word):
    records = [one for one in map(json.loads, Path(path).read_text(encoding="utf-8").splitlines()) if "event" in one]
    sys.stdin.readline()
    say({"protocol": 2, "unit": word, "members": ANSWER})
    for _, record in zip(sys.stdin, records):
        answer = {name: record[name] for name in ("event", *ANSWER)}
        wrong = dict(enumerate(ANSWER, 1)).get(record["life"])
        if word == "wrong" and wrong and record["kind"] != "powerup":
            answer[wrong] = other(wrong, answer[wrong])
        if word == "breaks" and record is records[-1]:
            return
        say(answer)


if __name__ == "__main__":
    main(*sys.argv[1:])
