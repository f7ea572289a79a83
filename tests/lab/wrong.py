#!/usr/bin/python3
"""A unit that is wrong on purpose: it passes on the answers of another unit, except for one fault.

    tests/lab/wrong.py KIND UNIT..

KIND says what it does at event AT, or from then on. `right` passes on everything unchanged.
"""
import json
import os
import signal
import subprocess
import sys
import time

AT = 8


def write(text):
    sys.stdout.write(text)
    sys.stdout.flush()


def line(message):
    return json.dumps(message) + "\n"


class Wrong:
    """Alters an answer: one method for each kind, which returns the text to write."""

    def __init__(self):
        self.before = None

    def right(self, answer):
        return line(answer)

    def brake_late(self, answer):
        """The brake comes one event late."""
        brake, self.before = self.before or answer["brake"], answer["brake"]
        return line({**answer, "brake": brake})

    def other_mode(self, answer):
        """Post Trip where it should be Trip."""
        return line({**answer, "mode": "PT" if answer["mode"] == "TR" else answer["mode"]})

    def limit_by_one(self, answer):
        """The limit is 1 m/h too high in Full Supervision."""
        return line({**answer, "limit_m_per_h": answer["limit_m_per_h"] + (answer["mode"] == "FS")})

    def level_kept(self, answer):
        """It takes the level as known after each power-up."""
        return line({**answer, "level": 1 if answer["level"] is None else answer["level"]})

    def lower_uncertainty(self, answer):
        """It trusts its odometer by 1 cm too much."""
        return line({**answer, "uncertainty_cm": answer["uncertainty_cm"] - 1})

    def indication_less(self, answer):
        """It never shows a trip."""
        return line({**answer, "indications": [one for one in answer["indications"] if one != "trip"]})

    # ---- from here on the protocol is broken, at event AT

    def missing_answer(self, answer):
        return "" if answer["event"] == AT else line(answer)

    def hangs(self, answer):
        if answer["event"] == AT:
            time.sleep(3600)
        return line(answer)

    def garbage(self, answer):
        return "emergency!\n" if answer["event"] == AT else line(answer)

    def no_object(self, answer):
        return "[8]\n" if answer["event"] == AT else line(answer)

    def no_text(self, answer):
        if answer["event"] == AT:
            sys.stdout.buffer.write(b"\xff\xfe\n")
            sys.stdout.buffer.flush()
            return ""
        return line(answer)

    def crashes(self, answer):
        if answer["event"] == AT:
            print("something is broken", file=sys.stderr, flush=True)
            os.kill(os.getpid(), signal.SIGSEGV)
        return line(answer)

    def ends(self, answer):
        if answer["event"] == AT:
            sys.exit(3)
        return line(answer)

    def half_a_line(self, answer):
        if answer["event"] == AT:
            write('{"event":8,')
            sys.exit(0)
        return line(answer)

    def endless_line(self, answer):
        if answer["event"] == AT:
            try:
                while True:
                    write("x" * 4096)
            except BrokenPipeError:
                os._exit(1)
        return line(answer)

    def closes(self, answer):
        if answer["event"] == AT:
            os.close(1)
            time.sleep(3600)
        return line(answer)

    def other_event(self, answer):
        return line({**answer, "event": answer["event"] - (answer["event"] == AT)})

    def two_answers(self, answer):
        return line(answer) * (2 if answer["event"] == AT else 1)

    def member_less(self, answer):
        if answer["event"] == AT:
            del answer["limit_m_per_h"]
        return line(answer)

    def member_more(self, answer):
        return line({**answer, "limit_mh": 0} if answer["event"] == AT else answer)

    def member_twice(self, answer):
        return line(answer).replace('"brake":', '"brake": "none", "brake":') if answer["event"] == AT else line(answer)

    def unknown_word(self, answer):
        return line({**answer, "mode": "XX"} if answer["event"] == AT else answer)

    def number_as_text(self, answer):
        return line({**answer, "limit_m_per_h": "0"} if answer["event"] == AT else answer)

    def number_with_a_point(self, answer):
        return line({**answer, "limit_m_per_h": 0.0} if answer["event"] == AT else answer)

    def infinite(self, answer):
        return line({**answer, "limit_m_per_h": float("inf")} if answer["event"] == AT else answer)

    def true_for_a_number(self, answer):
        return line({**answer, "level": True} if answer["event"] == AT else answer)


GREETINGS = {
    "other_protocol": lambda answer: line({**answer, "protocol": 1}),
    "members_without_brake": lambda answer: line({**answer, "members": ["mode"]}),
    "unknown_member": lambda answer: line({**answer, "members": [*answer["members"], "colour"]}),
    "nameless": lambda answer: line({**answer, "unit": ""}),
    "greets_not": lambda answer: "hello\n",
    "silent": lambda answer: time.sleep(3600),
}


def ends_badly(kind):
    """Does what its kind does after its standard input is closed."""
    if kind == "keeps_running":
        time.sleep(3600)
    if kind == "bad_status":
        sys.exit(9)
    if kind == "last_word":
        write("bye\n")


def main(kind, *words):
    unit = subprocess.Popen(words, stdin=subprocess.PIPE, stdout=subprocess.PIPE, text=True)
    wrong = Wrong()
    for number, message in enumerate(sys.stdin):
        unit.stdin.write(message)
        unit.stdin.flush()
        answer = json.loads(unit.stdout.readline())
        if number == 0:
            write(GREETINGS.get(kind, line)(answer))
        else:
            write(getattr(wrong, kind, line)(answer))
    unit.stdin.close()
    ends_badly(kind)


if __name__ == "__main__":
    main(*sys.argv[1:])
