#!/usr/bin/python3
"""Asks a unit by the protocol of docs/howto/oracle.md, of Python's own modules alone, as the bench of a laboratory may do it:
the proved unit answers what it would do.

    examples/oracle/ask.py ./lab serve <EVENTS

EVENTS has an object on a line for each event, with the members that the page lists; `life` and `event` are counted
here.
"""
import json
import subprocess
import sys


class UnitProcess:
    """A unit that is asked."""

    def __init__(self, words):
        self.process = subprocess.Popen(words, stdin=subprocess.PIPE, stdout=subprocess.PIPE, text=True)
        self.life, self.event = 0, 0
        self.greeting = self.ask({"protocol": 2, "case": "asked by hand"})

    def ask(self, message):
        """The answer to a message."""
        self.process.stdin.write(json.dumps(message) + "\n")
        self.process.stdin.flush()
        answer = self.process.stdout.readline()
        if not answer:
            sys.exit(f"the unit ended with status {self.process.wait()}")
        return json.loads(answer)

    def answer(self, came):
        """What it answers to an event: a power-up begins a life."""
        self.life += came["kind"] == "powerup"
        answer = self.ask({"life": self.life, "event": self.event, **came})
        self.event += 1
        return answer

    def end(self):
        """There are no more events."""
        self.process.stdin.close()
        return self.process.wait()


def main(words):
    unit = UnitProcess(words)
    print(unit.greeting["unit"])
    for line in sys.stdin:
        answer = unit.answer(json.loads(line))
        number, mode, brake, limit = (answer[name] for name in ("event", "mode", "brake", "limit_m_per_h"))
        print(f"event {number}: {mode}, brake {brake}, limit {limit} m/h")
    return unit.end()


if __name__ == "__main__":
    sys.exit(main(sys.argv[1:]))
