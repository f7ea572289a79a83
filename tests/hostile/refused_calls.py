#!/usr/bin/env python3
"""Refuses the requests for memory of the calls of the kernel and of the unit, each in turn, until a run gets no refusal: `step`, `apply`,
`accept`, and `live` over a list of releases. The program of rows (tests/rows), linked with refuse.c, answers the rows. A refused call answers
NoMemory, and no other answer takes its place:

    step, apply    what is known stays; the same event is then answered as in the undisturbed run, and so are all after it
    accept         the same input is then taken, and what is pending is flushed as in the undisturbed run
    live           what was released before is in the list, just that is in the journal, and the unit opens on it again

A refused request of the program's own, for a line, a list or a disk in memory, ends the run, or the program reports what it didn't do.

    tests/hostile/refused_calls.py PROGRAM    the program that tests/rows/tried leaves
"""
import os
import re
import subprocess
import sys
import tempfile
from collections import Counter
from pathlib import Path

HERE = Path(__file__).resolve().parent
sys.path[:0] = [str(HERE.parent), str(HERE.parent / "model"), str(HERE.parent / "rows")]

import kernel_words  # noqa: E402
import onboard_lives  # noqa: E402
import onboard_words  # noqa: E402
import rows  # noqa: E402
import test_kernel  # noqa: E402
import test_onboard  # noqa: E402
from asking import Reply, text_in, text_of  # noqa: E402
from compared import Compared  # noqa: E402

MOST = 100_000
LEAST = {"step": 10, "apply": 3, "power_up": 3, "accept": 3, "live": 3, "accept in live": 3}  # refusals of each call
PROGRAM = "the program's own"
KERNEL_ROWS = ("restriction ahead 1", "an open track", "an area ahead", "an announced group in time")
ACCEPT, LIVE = 2, (8,)  # what is asked of the program
NO_ROOM, REFUSED_STEP, NO_MEMORY, NO_DISK, NOT_DONE = 4, 2, 12, 30, 31  # what it replies

ENTRIES = ("enter-identity A", "choose-level 1", "enter-train-data 20000 160000 70 0 15", "start")
RESTRICTION = ("hear 90007F802001506023A0E0190019427F80", *ENTRIES)
AUTHORITY = ("hear 90007F802001432024A8007FE007D002B00D900010000DC03A400020801FE0", *ENTRIES)
READINGS = ("move 9046", "move 1", "move 7268", "move 1")
ENTERED = "1 SB - emergency 0 32, 2 SB - emergency 0 32, 3 SB 1 emergency 0 32, 4 SB 1 emergency 0 32"
LATER = "2 SB - emergency 0 32, 3 SB - emergency 0 32, 4 SB 1 emergency 0 32, 5 SB 1 emergency 0 32, 6 SR 1 none 40000 0"
LIMITS = "6 SR 1 none 40000 0, 7 SR 1 none 20000 0, 8 SR 1 none 20000 0, 9 SR 1 none 40000 0"

# Whole lives: the steps, and all that is released.
LIVES = {
    "a restriction": ((*RESTRICTION, "flush", *READINGS, "flush"), f"released 9, {ENTERED}, 5 SR 1 none 40000 0, {LIMITS}"),
    "a restriction after a flush": (("clock 1", "flush", *RESTRICTION, "flush"), f"released 6, 1 SB - emergency 0 32, {LATER}"),
    "an authority": ((*AUTHORITY, "flush"), f"released 5, {ENTERED}, 5 FS 1 none 134362 0"),
    "a ring": ([word for moment in range(1, 5) for word in (f"clock {moment}", "flush")],
               "released 4, 1 SB - emergency 0 32, 2 SB - emergency 0 32, 3 SB - emergency 0 32, 4 SB - emergency 0 32"),
}


def taken(*inputs):
    return "; ".join(f"{it} -> accepted" for it in inputs)


def clocks(*moments):
    return "; ".join(f"clock {it} -> accepted; flush -> released 1, {it} SB - emergency 0 32" for it in moments)


def last_number():
    """Puts a block with the last number but one on a disk of two slots."""
    made, last = onboard_lives.RowWriter(), (1 << 40) - 1
    entry = onboard_lives.blocks.entry(last - 1, ("clock", 5), moment=5)
    onboard_lives.image(made, 2, [onboard_lives.blocks.block(3, last, last, 7, [entry])])
    return "; ".join(made.lines)


# The unit, call by call, and what is wanted of each.
CALLS = {
    "a restriction": f"format 4; open unknown -> opened; {taken(*RESTRICTION)}; flush -> released 5, {ENTERED}, 5 SR 1 none 40000 0; "
                     f"{taken(*READINGS)}; flush -> released 4, {LIMITS}",
    "a restriction while a moment is pending": f"format 4; open unknown -> opened; {taken('clock 1', *RESTRICTION)}; "
                                               f"flush -> released 6, 1 SB - emergency 0 32, {LATER}",
    "an authority": f"format 4; open unknown -> opened; {taken(*AUTHORITY)}; flush -> released 5, {ENTERED}, 5 FS 1 none 134362 0",
    "block 5 in slot 1 of 4": f"format 4; open unknown -> opened; {clocks(1, 2, 3, 4)}; blocks -> 2 to 5, events 5",
    "a cut after the old gate is closed": f"format 4; cut 19; open unknown -> opened; {clocks(1, 2, 3)}; clock 4 -> accepted; "
                                          "flush -> 20 DeviceFault; settle; blocks -> 2 to 4, events 4",
    "lives without an event": "format 2; openings 8 unknown -> opened; blocks -> 7 to 8, events 8; kept counts -> 8 8",
    "an overwritten identity": "format 2; open unknown -> opened; enter-identity A -> accepted; flush -> released 1, 1 SB - emergency 0 32; "
                               "openings 3 unknown -> opened; open unknown -> opened; confirm identity -> accepted; "
                               "flush -> released 1, 6 SB - emergency 0 32; close; kept identity -> 41",
    "the last number": f"{last_number()}; open unknown -> opened; clock 1 -> accepted; flush -> 23 WornOut; close; open unknown -> 6 WornOut",
}


class Program:
    """The program of rows, and how often each of its calls was refused memory."""

    def __init__(self, path, room, failures):
        self.path, self.said, self.failures, self.kinds = path, Path(room) / "said", failures, Counter()

    def ask(self, module, questions, refused_at=0):
        """The exit status, the replies, and whether a request was refused."""
        self.said.unlink(missing_ok=True)
        done = subprocess.run([self.path, module], input=text_of(module, questions).encode(), capture_output=True, timeout=60,
                              env=dict(os.environ, REFUSE_AT=str(refused_at), REFUSE_SAYS=str(self.said)))
        return done.returncode, [tuple(map(int, line.split())) for line in done.stdout.decode().splitlines()], self.said.exists()

    def refuse(self, name, module, questions, judged):
        """Refuses each request of a run. `judged` takes the undisturbed replies, those of a refused run, the place of the first that
        differs, and the number of the request; it returns which call was refused, or what is wrong."""
        undisturbed = self.ask(module, questions)[1]
        for at in range(1, MOST):
            status, found, was_refused = self.ask(module, questions, at)
            if not was_refused:
                self.failures.same(f"{name}, with all memory", (status, found), (0, undisturbed))
                return
            place = next((place for place, pair in enumerate(zip(found, undisturbed)) if pair[0] != pair[1]), None)
            if status and place is None:
                kind = PROGRAM
            elif status or place is None:
                kind = f"status {status}, the first other answer is {place}"
            else:
                kind = judged(undisturbed, found, place, at)
            self.kinds[kind] += 1
            self.failures.unless(kind in LEAST or kind == PROGRAM, f"{name}, request {at}: {kind}")


def by_way(read, numbers):
    """What a reply of the kernel's module has of each way."""
    reply = Reply(numbers)
    found = {way: read(reply) for way in kernel_words.WAYS}
    reply.end()
    return found


def refuse_kernel(program, row):
    """Before each event is asked where the train is, and what is kept."""
    questions = [kernel_words.NEW]
    for line in row.lines:
        questions += [kernel_words.KNOWN, kernel_words.question(line.word, line.value)]
    for line, numbers in zip(row.lines, program.ask("test_kernel", questions)[1][2::2]):
        program.failures.same(f"{row.name}, line {line.number}", test_kernel.differences(line, numbers), [])

    def judged(undisturbed, found, place, _):
        if questions[place] == kernel_words.KNOWN:
            return f"question {place}: no answer is NoMemory, and what is known is another"
        answers, wanted = (by_way(kernel_words.taken, replies[place]) for replies in (found, undisturbed))
        refused = [way for way, (left, _) in answers.items() if left is not None]
        if len(refused) != 1:
            return f"question {place}: NoMemory by {refused}"
        if answers[refused[0]][0] != by_way(kernel_words.known, found[place - 1])[refused[0]]:
            return f"question {place}: {refused[0]} changed what is known"
        is_same = found[place + 1:] == undisturbed[place + 1:] and all(answers[way][1] == wanted[way][1] for way in wanted)
        return refused[0] if is_same else f"question {place}: after NoMemory by {refused[0]} an answer is another"

    program.refuse(f"kernel, {row.name}", "test_kernel", questions, judged)


def asked(program, name, commands):
    """The questions of commands of the unit. What is wanted is compared with the undisturbed run."""
    questions = [numbers for said, _ in commands for numbers in onboard_words.questions(said)]
    answers = test_onboard.Answers(program.ask("test_onboard", questions)[1])
    for said, wanted in commands:
        found = answers.take(said)
        if wanted:
            program.failures.same(f"{name}, {said}", found, wanted)
    return questions


def is_own(reply):
    """Whether the program reports that it didn't do what is its own: there was no memory for a disk, or for a step of a list."""
    return reply[0] in (NOT_DONE, NO_DISK)


def refuse_calls(program, name, text):
    questions = asked(program, name, test_onboard.commands_of(text))

    def judged(undisturbed, found, place, at):
        if questions[place][0] != ACCEPT or found[place] != (NO_MEMORY,):
            return PROGRAM if is_own(found[place]) else f"question {place} is answered {found[place]}"
        again = program.ask("test_onboard", questions[:place + 1] + questions[place:], at)[1]
        is_same = again == undisturbed[:place] + [(NO_MEMORY,)] + undisturbed[place:]
        return "accept" if is_same else f"question {place}: after NoMemory an answer is another"

    program.refuse(f"unit, {name}", "test_onboard", questions, judged)


def released_before(steps, step):
    """How many pairs the flushes before a step released."""
    flushes = [at for at in range(step) if steps[at] == "flush"]
    return sum(it != "flush" for it in steps[:flushes[-1]]) if flushes else 0


def records(text):
    """Number, mode, level, brake and indications of each record of a listing, or of each pair, by the number."""
    found = re.findall(r"event (\d+) \w+ (\w+) (\S) (\w+) (\d+)", text) or re.findall(r"(\d+) (\w+) (\S) (\w+) \d+ (\d+)", text)
    return {int(number): tuple(rest) for number, *rest in found}


def refuse_life(program, name, steps, end):
    commands = [(said, "") for said in ("format 4", "live unknown", *steps)]
    commands += [("run", f"done, {end}"), ("list", ""), ("open unknown", "opened")]
    questions = asked(program, name, commands)
    run = questions.index(LIVE)

    def judged(undisturbed, found, place, _):
        if place != run:
            return PROGRAM if is_own(found[place]) else f"question {place} is answered {found[place]}"
        kind, step, refusal, count, *pairs = found[run]
        if (kind, refusal) not in ((NO_ROOM, 0), (REFUSED_STEP, NO_MEMORY)):
            return f"the life ends with {kind, step, refusal}"
        if count != released_before(steps, step) or tuple(pairs) != undisturbed[run][4:4 + len(pairs)]:
            return f"step {step}: {count} pairs are released"
        listed = records(onboard_words.answer("list", found[run + 1:-1]))
        released = records(onboard_words.answer("run", [found[run]]))
        if max(listed) != count or any(listed.get(number, pair) != pair for number, pair in released.items()) or found[-1] != (0,):
            return f"step {step}: the journal has {listed}, and the unit opens with {found[-1]}"
        return "live" if kind == NO_ROOM else "accept in live"

    program.refuse(f"life, {name}", "test_onboard", questions, judged)


def main(path):
    failures = Compared()
    with tempfile.TemporaryDirectory() as room:
        program = Program(path, room, failures)
        for row in rows.read(text_in("test_kernel")):
            if row.name in KERNEL_ROWS:
                refuse_kernel(program, row)
        for name, text in CALLS.items():
            refuse_calls(program, name, text)
        for name, (steps, end) in LIVES.items():
            refuse_life(program, name, steps, end)
    for kind, least in LEAST.items():
        failures.unless(program.kinds[kind] >= least, f"{kind}: only {program.kinds[kind]} requests were refused")
    return failures.end("memory refused: " + ", ".join(f"{count} of {kind}" for kind, count in program.kinds.items() if kind in LEAST))


if __name__ == "__main__":
    sys.exit(main(sys.argv[1]))
