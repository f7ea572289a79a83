"""Another unit under the protocol of docs/howto/oracle.md, and properties of records (docs/howto/searching.md)."""
import contextlib
import json
import os
import resource
import shlex
import socket
import sys
import tempfile
import time
import unittest
from pathlib import Path
from unittest.mock import patch

from gaknifur.cases import case_runner, cases, oracle
from gaknifur.cli import search_commands
from gaknifur.program import Failed, Json
from gaknifur.search import properties
from gaknifur.units import protocol, sandbox
from gaknifur.units.other_unit import Broken, OtherUnit, words_of

from .samples import action, reading, record

ANSWER: Json = {"event": 3, "mode": "FS", "level": 1, "brake": "none", "indications": [], "place_cm": 0,
                "uncertainty_cm": 0,
                "limit_m_per_h": 0}


def line(members: object) -> bytes:
    """A message."""
    return json.dumps(members).encode()


class Messages(unittest.TestCase):
    """What is a message, and what isn't."""

    def wrong(self, message: object, members: tuple[str, ...] = protocol.ANSWER) -> str:
        """The error for an answer that is malformed."""
        with self.assertRaises(protocol.Wrong) as found:
            protocol.checked(message if isinstance(message, bytes) else line(message), 3, members)
        return str(found.exception)

    def test_an_event_is_all_but_the_answer(self) -> None:
        self.assertEqual(protocol.event_of(reading(4, 5)),
                         {"life": 1, "event": 4, "kind": "odometer", "movement_cm": 100, "speed_m_per_h": 5})
        event = protocol.event_of(action(4, "confirm", confirmed="level"))
        self.assertEqual(event, {"life": 1, "event": 4, "kind": "driver", "action": "confirm", "confirmed": "level"})

    def test_an_answer(self) -> None:
        self.assertEqual(protocol.checked(line(ANSWER), 3, protocol.ANSWER), ANSWER)
        self.assertEqual(protocol.checked(line({"event": 3, "mode": "SB", "brake": "none"}), 3,
                                        ("mode", "brake"))["mode"], "SB")

    def test_values_at_their_limits(self) -> None:
        for name, good, bad in (("place_cm", -(1 << 62) + 1, -(1 << 62)), ("uncertainty_cm", 0, -1),
                                ("limit_m_per_h", (1 << 62) - 1, 1 << 62),
                                ("level", None, 2), ("indications", ["trip", "overspeed"], ["trip", "trip"])):
            self.assertEqual(protocol.checked(line(ANSWER | {name: good}), 3, protocol.ANSWER)[name], good)
            self.assertIn(name, self.wrong(ANSWER | {name: bad}))

    def test_what_is_no_answer(self) -> None:
        self.assertIn("no member \"brake\"",
                      self.wrong({name: value for name, value in ANSWER.items() if name != "brake"}))
        self.assertIn("which isn't one of event, mode", self.wrong(ANSWER, ("mode", "brake")))
        self.assertIn("answer to event 4", self.wrong(ANSWER | {"event": 4}))
        self.assertIn("not JSON", self.wrong(b"[" * 100_000))
        self.assertIn("not a JSON object", self.wrong([]))
        self.assertIn("is given twice", self.wrong(line(ANSWER)[:-1] + b', "mode": "FS"}'))

    def test_a_greeting(self) -> None:
        greeting = protocol.greeting_of(line({"protocol": 2, "unit": "x", "members": ["brake", "mode"]}))
        self.assertEqual(greeting.members, ("mode", "brake"))
        self.assertEqual(greeting.leaves_out, ("level", "indications", "place_cm", "uncertainty_cm", "limit_m_per_h"))
        all_wrong: list[Json] = [{"protocol": True}, {"protocol": "2"}, {"members": []},
                                  {"members": ["mode", "brake", "mode"]}, {"unit": "x" * 201}]
        for wrong in all_wrong:
            with self.assertRaises(protocol.Wrong):
                protocol.greeting_of(line({"protocol": 2, "unit": "x", "members": ["brake", "mode"]} | wrong))

    def test_a_unit_of_version_1(self) -> None:
        with self.assertRaisesRegex(protocol.Wrong, "^version 1 of the protocol, and lab speaks version 2$"):
            protocol.greeting_of(line({"protocol": 1, "unit": "x", "says": ["mode", "brake"]}))


class Processes(unittest.TestCase):
    """A unit's process."""

    def test_words(self) -> None:
        self.assertEqual(words_of("a 'b c' d"), ["a", "b c", "d"])
        for wrong in ("", " ", "a 'b"):
            with self.assertRaises(Failed):
                words_of(wrong)

    def test_a_program_that_is_not_there(self) -> None:
        with self.assertRaises(Failed) as found:
            OtherUnit("/nowhere/unit")
        self.assertIn("/nowhere/unit: No such file", str(found.exception))

    def test_no_shell_runs_it(self) -> None:
        with tempfile.TemporaryDirectory() as room, patch.dict(os.environ, {"ROOM": room}):
            with OtherUnit(f"{sys.executable} -c pass ; touch $ROOM/made",
                           60) as unit, self.assertRaises(Broken) as found:
                unit.greet("a")
            self.assertEqual(str(found.exception), "greeting: it ended with status 0")
            self.assertEqual(list(Path(room).iterdir()), [])


NO_SANDBOX = {"GAKNIFUR_UNIT_SANDBOX": "none"}
GREETS = """
import fcntl, json, os, resource, socket, subprocess, sys, time
def say(message):
    sys.stdout.write(json.dumps(message) + "\\n")
    sys.stdout.flush()
def greet(name="x"):
    sys.stdin.readline()
    say({"protocol": 2, "unit": name, "members": ["mode", "brake"]})
"""


class Hostile(unittest.TestCase):
    """Units that mean no good: each call comes back, and says why."""

    def unit(self, text: str, within_s: float = 20.0, **environment: str) -> OtherUnit:
        """A unit of this text."""
        with patch.dict(os.environ, environment):
            return OtherUnit(shlex.join([sys.executable, "-c", GREETS + text]), within_s)

    def name(self, text: str, **environment: str) -> str:
        """The name that a unit of this text gives itself."""
        with self.unit(text, 20.0, **environment) as unit:
            return unit.greet("a").unit

    def test_it_answers_without_reading(self) -> None:
        text = """fcntl.fcntl(0, fcntl.F_SETPIPE_SZ, 4096)
greet()
for number in range(10_000):
    time.sleep(0.01)
    say({"event": number, "mode": "SB", "brake": "none"})
"""
        begun = time.monotonic()
        with self.unit(text, 2.0) as unit, self.assertRaises(Broken) as found:
            unit.greet("a")
            for number in range(10_000):
                unit.answer({"event": number, "kind": "telegram", "telegram": "0" * 200})
        # (which of the two comes first is a matter of how busy the machine is)
        self.assertRegex(str(found.exception), "it doesn't read its input|a line that wasn.t requested")
        self.assertLess(time.monotonic() - begun, 600)

    def test_it_neither_reads_nor_answers(self) -> None:
        begun = time.monotonic()
        with self.unit("fcntl.fcntl(0, fcntl.F_SETPIPE_SZ, 4096)\ngreet()\ntime.sleep(1000)\n", 2.0) as unit, self.assertRaises(Broken) as found:
            unit.greet("a")
            unit.answer({"event": 0, "kind": "telegram", "telegram": "0" * 200_000})
        self.assertIn("it doesn't read its input", str(found.exception))
        self.assertLess(time.monotonic() - begun, 600)

    def test_a_line_at_the_limit(self) -> None:
        text = """sys.stdin.readline()
greeting = json.dumps({"protocol": 2, "unit": "x", "members": ["mode", "brake"]})
sys.stdout.write(greeting + " " * (SIZE - 1 - len(greeting)) + "\\n")
sys.stdout.flush()
time.sleep(60)
"""
        with self.unit(text.replace("SIZE", "65_536")) as unit:
            self.assertEqual(unit.greet("a").unit, "x")
        for size in ("65_537", "131_000"):
            with self.unit(text.replace("SIZE", size)) as unit, self.assertRaises(Broken) as found:
                unit.greet("a")
            self.assertEqual(str(found.exception), "greeting: a line of more than 65,536 bytes")

    def test_its_standard_error_is_bounded(self) -> None:
        self.assertIn("pipe:", self.name("greet(os.readlink('/proc/self/fd/2'))", **NO_SANDBOX))
        text = "sys.stderr.write('a line\\n' * 1_000_000 + 'the last one\\n')\nsys.exit(7)"
        with self.unit(text) as unit, self.assertRaises(Broken) as found:
            unit.greet("a")
        self.assertEqual(str(found.exception), "greeting: it ended with status 7; it said: the last one")
        with self.unit("greet()\nwhile True: sys.stderr.write('on and on\\n')", 2.0) as unit, self.assertRaises(Broken) as found:
            unit.greet("a")
            unit.answer({"event": 0})
        self.assertIn("event 0: no answer within 2 s", str(found.exception))

    def test_it_is_limited(self) -> None:
        code = "greet(' '.join(str(resource.getrlimit(getattr(resource, 'RLIMIT_' + one))[1]) for one in ('CORE', 'FSIZE', 'NOFILE', 'AS')))"
        wanted = f"0 {64 << 20} 256 {4096 << 20}"
        self.assertEqual(self.name(code, **NO_SANDBOX), wanted)
        self.assertEqual(self.name(code), wanted)
        self.assertEqual(self.name(code, GAKNIFUR_UNIT_MEMORY="1000").split()[-1], str(1000 << 20))
        self.assertEqual(self.name(code, GAKNIFUR_UNIT_MEMORY="0").split()[-1], str(resource.getrlimit(resource.RLIMIT_AS)[1]))
        for wrong in ("much", "-1", ""):
            with self.assertRaises(Failed):
                self.unit("", GAKNIFUR_UNIT_MEMORY=wrong)
        text = "greet()\nsys.stdin.readline()\nheld = bytearray(5 << 30)\nsay({'event': 0, 'mode': 'SB', 'brake': 'none'})"
        with self.unit(text) as unit, self.assertRaises(Broken) as found:
            unit.greet("a")
            unit.answer({"event": 0})
        self.assertEqual(str(found.exception), "event 0: it ended with status 1; it said: MemoryError")

    def test_nothing_of_its_session_is_left(self) -> None:
        text = """child = subprocess.Popen([sys.executable, "-c", "import os, time; os.setpgid(0, 0); time.sleep(600)"])
while os.getpgid(child.pid) != child.pid: time.sleep(0.01)
greet(str(child.pid))
time.sleep(600)
"""
        child = int(self.name(text, **NO_SANDBOX))
        for _ in range(500):
            try:
                if Path(f"/proc/{child}/stat").read_text().rpartition(")")[2].split()[0] == "Z":
                    return
            except OSError:
                return
            time.sleep(0.01)
        self.fail("its process is left")

    def test_the_sandbox(self) -> None:
        if sandbox.bubblewrap() is None:
            self.skipTest("bubblewrap doesn't work here")
        text = """def tried(does):
    try:
        does()
        return "done"
    except OSError as error:
        return os.strerror(error.errno)
scratch = os.environ["TMPDIR"]
greet("; ".join((tried(lambda: open(os.environ["GAKNIFUR_A"] + "/made", "w")), tried(lambda: open(scratch + "/../made", "w")),
                 tried(lambda: open(scratch + "/a", "w")),
                 tried(lambda: open(scratch + "/b", "wb").write(bytes(70 << 20))), str(len(socket.if_nameindex())), str(os.getpid() < 10))))
"""
        with tempfile.TemporaryDirectory() as room:
            name = self.name(text, GAKNIFUR_A=room)
            self.assertEqual(name, "Read-only file system; Read-only file system; done; File too large; 1; True")
            self.assertEqual(list(Path(room).iterdir()), [])
        for text, message in (("os.kill(os.getpid(), 11)", "it was ended by signal 11 (SIGSEGV)"), ("sys.exit(3)", "it ended with status 3")):
            with self.unit(text) as unit, self.assertRaises(Broken) as found:
                unit.greet("a")
            self.assertEqual(str(found.exception), f"greeting: {message}")
        with self.assertRaises(Failed) as failed:
            OtherUnit("/nowhere/unit")
        self.assertIn("/nowhere/unit: No such file", str(failed.exception))

    def test_it_has_nothing_of_the_session(self) -> None:
        if sandbox.bubblewrap() is None:
            self.skipTest("bubblewrap doesn't work here")
        folders = [self.enterContext(tempfile.TemporaryDirectory()) for _ in range(2)]
        sockets = [f"{folder}/a" for folder in folders]
        for path in sockets:
            listening = self.enterContext(socket.socket(socket.AF_UNIX))
            listening.bind(path)
            listening.listen()
        text = f"found = [socket.socket(socket.AF_UNIX).connect_ex(path) == 0 for path in {sockets}]\n" + (
            "greet(json.dumps(found + [name in os.environ for name in ('SSH_AUTH_SOCK', 'LANG', 'GAKNIFUR_A')]))")
        session = {"SSH_AUTH_SOCK": sockets[0], "XDG_RUNTIME_DIR": folders[1], "LANG": "C.UTF-8", "GAKNIFUR_A": "a"}
        self.assertEqual(json.loads(self.name(text, **session, **NO_SANDBOX)), [True] * 5)
        self.assertEqual(json.loads(self.name(text, **session)), [False, False, False, True, True])

    def test_the_files_of_its_command_are_there(self) -> None:
        folder, linked, other = (Path(self.enterContext(tempfile.TemporaryDirectory())) for _ in range(3))
        (folder / "own.py").write_text(GREETS)
        (folder / "unit.py").write_text("import os, own, sys\nown.greet(' '.join(str(os.path.exists(one)) for one in sys.argv[1].split(':')))")
        (linked / "link").symlink_to(folder)
        for current, program in ((Path(), folder), (Path(), linked / "link"), (linked, Path("link"))):
            with contextlib.chdir(current), OtherUnit(shlex.join([sys.executable, f"{program}/unit.py", f"{folder}/own.py:{other}"]), 20) as unit:
                self.assertEqual(unit.greet("a").unit, f"True {sandbox.bubblewrap() is None}")

    def test_its_name_is_spelled(self) -> None:
        for name, wanted in (("good\nnothing differs\x1b[8m", "good\\x0anothing differs\\x1b[8m"), ("\ud800", "\\ud800"),
                             ("a\u202eb", "a\\u202eb")):
            comparison = oracle.Comparison([], protocol.Greeting(name, protocol.ANSWER))
            self.assertEqual(next(oracle.lines(comparison)).text, f"the unit {wanted}")

    def test_many_names_are_refused(self) -> None:
        with self.assertRaises(protocol.Wrong):
            protocol.greeting_of(line({f"n{number}": 0 for number in range(12_000)}))


def comparison_of(records: list[Json], **changes: Json) -> oracle.Comparison:
    """What a unit answers that says all, with some answers that are other ones: `e3={..}` of event 3."""
    answers = [protocol.answer_of(one, protocol.ANSWER) | changes.get(f"e{one['event']}", {}) for one in records]
    return oracle.Comparison(records, protocol.Greeting("x", protocol.ANSWER), answers)


class Compared(unittest.TestCase):
    """What is reported of answers."""

    records = [record(0, "powerup"), *(record(event) for event in range(1, 4)), record(4, "powerup", life=2),
               record(5, life=2)]

    def changed(self, **changes: Json) -> list[Json]:
        """The lines after the first one."""
        return [one.members for one in oracle.lines(comparison_of(self.records, **changes))][1:]

    def test_all_agree(self) -> None:
        self.assertTrue(comparison_of(self.records).agrees)
        self.assertEqual(self.changed(), [{"life": 1, "first_event": 0, "last_event": 3, "against": "agrees"},
                                       {"life": 2, "first_event": 4, "last_event": 5, "against": "agrees"},
                                       {"end": "nothing_differs"}])

    def test_the_first_difference_ends_a_life(self) -> None:
        lines = self.changed(e1={"brake": "service"}, e2={"mode": "TR"})
        self.assertEqual([(one.get("against"), one.get("field")) for one in lines],
                         [("agrees", None), ("differs", "brake"), ("not_compared", None), ("agrees", None),
                          (None, None)])
        self.assertEqual(lines[2],
                         {"life": 1, "first_event": 2, "last_event": 3, "against": "not_compared",
                          "reason": "after_difference"})
        self.assertFalse(comparison_of(self.records, e5={"limit_m_per_h": 39_999}).agrees)

    def test_each_member_is_compared(self) -> None:
        for name, value in (("mode", "OS"), ("level", None), ("brake", "service"), ("indications", ["trip"]),
                            ("place_cm", 1), ("uncertainty_cm", 1),
                            ("limit_m_per_h", 1)):
            self.assertEqual(self.changed(e3={name: value})[1]["field"], name)

    def test_the_order_of_indications_says_nothing(self) -> None:
        shown = [record(0, "powerup", indications=["trip", "overspeed"])]
        self.assertTrue(comparison_of(shown, e0={"indications": ["overspeed", "trip"]}).agrees)

    def test_what_is_not_reported(self) -> None:
        self.assertEqual(oracle.not_reported({"limit_kmh", "mode", "shows_trip", "event", "min_safe_front_cm"},
                                       ("mode", "brake", "place_cm")),
                         ["limit_kmh", "min_safe_front_cm", "shows_trip"])

    def test_answers_in_place_of_records(self) -> None:
        answered = oracle.answered(comparison_of([cases.derived(record(0, "powerup") | {"speed_m_per_h": 0})],
                                     e0={"place_cm": 50, "uncertainty_cm": 7, "limit_m_per_h": 1_500,
                                         "indications": ["trip"]}))[0]
        self.assertEqual((answered["min_safe_front_cm"], answered["max_safe_front_cm"], str(answered["limit_kmh"]),
                          answered["shows_trip"]), (43, 57, "1.5", True))


class Properties(unittest.TestCase):
    """What is judged, and what isn't."""

    def judged(self, members: str, records: list[Json]) -> int | str:
        """How many records of some were judged by a property; or which event broke it."""
        with tempfile.TemporaryDirectory() as room:
            path = Path(room) / "x.search.yaml"
            path.write_text(f"search: x\nproperties:\n  - {{note: a, {members}}}\n", encoding="utf-8")
            one, = properties.read(path).properties
        found = properties.derived(case_runner.with_speeds(records))
        try:
            return properties.judge(one, found)
        except properties.Violated as violated:
            return f"event {found[violated.index]['event']}"

    lives = [record(0, "powerup", mode="SB"), record(1, mode="FS"), reading(2, 60_000, mode="FS", brake="emergency"),
             reading(3, 100, mode="TR", brake="emergency"), reading(4, 0, mode="TR"),
             record(5, "powerup", mode="SB", life=2), record(6, mode="FS", life=2)]

    def test_always_and_never(self) -> None:
        for text, wanted in (("always: {mode: [SB, FS, TR]}", 7), ("always: {mode: [SB, FS]}", "event 3"),
                             ("never: {mode: TR}", "event 3"),
                             ("where: {mode: TR}, always: {brake: emergency}", "event 4"),
                             ("where: {mode: PT}, never: {brake: none}", 0)):
            self.assertEqual(self.judged(text, self.lives), wanted, text)

    def test_before_is_of_the_same_life(self) -> None:
        self.assertEqual(self.judged("before: {mode: TR}, always: {mode: TR}", self.lives), 1)
        self.assertEqual(self.judged("before: {mode: SB}, always: {mode: FS}", self.lives), 2)

    def test_since_ends_by_until_and_by_the_life(self) -> None:
        since = "since: {over_limit_m_per_h: {least: 20000}}, until: {kind: odometer, speed_m_per_h: 0}"
        self.assertEqual(self.judged(f"{since}, always: {{brake: emergency}}", self.lives), 2)
        self.assertEqual(self.judged("since: {over_limit_m_per_h: {least: 20000}}, always: {brake: emergency}",
                                     self.lives), "event 4")
        self.assertEqual(self.judged("since: {mode: TR}, always: {life: 1}", self.lives), 2)

    def test_preceded_by_is_of_the_same_life(self) -> None:
        text = "where: {mode: [FS, TR]}, preceded_by: {event: 1}"
        self.assertEqual(self.judged(text, self.lives[:5]), 4)
        self.assertEqual(self.judged(text, self.lives), "event 6")

    def test_leads_to(self) -> None:
        self.assertEqual(self.judged("where: {event: 1}, leads_to: {mode: TR}, within_events: 2", self.lives), 1)
        self.assertEqual(self.judged("where: {event: 1}, leads_to: {mode: TR}, within_events: 1", self.lives),
                         "event 1")
        self.assertEqual(self.judged("where: {event: 4}, leads_to: {mode: PT}, within_events: 9", self.lives), 0)

    def test_how_far_a_train_rolled_back(self) -> None:
        records = [record(0, "powerup"), reading(1, 500) | back(100), reading(2, 500), reading(3, 500) | back(101),
                reading(4, 0) | back(7)]
        for event, cm in enumerate((0, 100, 100, 201, 7)):
            self.assertEqual(self.judged(f"where: {{event: {event}, rolled_back_cm: {cm}}}, always: {{event: {event}}}",
                                         records), 1)

    def test_faults(self) -> None:
        for text in ("always: {mode: FS}, never: {mode: TR}", "where: {mode: FS}",
                     "until: {mode: FS}, always: {mode: FS}", "always: {packet: 12}",
                     "preceded_by: {mode: FS}", "leads_to: {mode: FS}", "always: {mode: FS}, within_ms: 2",
                     "always: {mode: XX}"):
            with self.assertRaises(Failed, msg=text):
                self.judged(text, self.lives)


def back(cm: int) -> Json:
    """A movement backward."""
    return {"movement_cm": -cm}


class Records(unittest.TestCase):
    """Records that somebody has."""

    def error(self, text: str) -> str:
        """The error for a file without records."""
        with tempfile.TemporaryDirectory() as room:
            path = Path(room) / "events"
            path.write_text(text, encoding="utf-8")
            with self.assertRaises(Failed) as found:
                search_commands.records_of(path)
            return str(found.exception).removeprefix(f"{path}:")

    def test_faults(self) -> None:
        self.assertIn("contains no record", self.error('{"image": {}}\n{"end": "done"}\n'))
        self.assertIn("2:1: not JSON", self.error("{}\n{"))
        self.assertIn("1:1: not an object", self.error("[]"))
        self.assertIn("1:1: member life is missing", self.error('{"event": 1}'))
        wrongs: list[Json] = [{"event": "1"}, {"limit_m_per_h": "40"}, {"indications": [1]}, {"decoded": []},
                              {"decoded": {"packets": [{}]}},
                              {"life": None}, {"place_cm": 1.5}]
        for wrong in wrongs:
            self.assertIn("1:1: a value of this record", self.error(json.dumps(record(1) | wrong)), wrong)
