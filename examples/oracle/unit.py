#!/usr/bin/python3
"""The least unit that speaks the protocol of docs/howto/oracle.md, of Python's own modules alone: it stands, and brakes.

    ./lab test examples/suites --against examples/oracle/unit.py

It knows Stand By, the identity and the level, and says its mode, its level and its brake; it never starts. So it
differs from the proved unit where a train is made ready. Where `Unit` stands, a maker puts his own.
"""
import json
import sys

MEMBERS = ["mode", "level", "brake"]


class Unit:
    """A unit. It is asked event by event, and keeps over a loss of power what it has to keep: here its level alone."""

    def __init__(self):
        self.level = None

    def power_up(self, word):
        """Power comes back, and the driver hasn't confirmed anything yet."""
        self.level = None

    def act(self, action, event):
        """What the driver does."""
        if action == "choose_level":
            self.level = event["chosen_level"]

    def answer(self, event):
        """What it answers to an event."""
        if event["kind"] == "powerup":
            self.power_up(event["word"])
        elif event["kind"] == "driver":
            self.act(event["action"], event)
        elif event["kind"] == "telegram":
            bytes.fromhex(event["telegram"])  # the bits of a balise
        elif event["kind"] == "odometer":
            event["movement_cm"], event["speed_m_per_h"]  # (a movement since the last one, and the speed now)
        elif event["kind"] == "clock":
            event["now_ms"]  # the moment in this life
        return {"event": event["event"], "mode": "SB", "level": self.level, "brake": "emergency"}


def say(message):
    """A line, at once."""
    print(json.dumps(message), flush=True)


def main():
    greeting = json.loads(sys.stdin.readline())
    if greeting["protocol"] != 2:
        sys.exit(f"the protocol {greeting['protocol']} isn't known")
    say({"protocol": 2, "unit": "one that stands", "members": MEMBERS})
    unit = Unit()
    for line in sys.stdin:
        say(unit.answer(json.loads(line)))


if __name__ == "__main__":
    main()
