"""Scenarios and test cases in YAML: how they are expanded, and the errors for their faults."""
import contextlib
import io
import json
import re
import time
import unittest
from pathlib import Path
from unittest.mock import patch

from gaknifur.__main__ import main
from gaknifur.cases import case_files, case_runner, cases, coverage
from gaknifur.cases.case_runner import Missed, Played, with_speeds
from gaknifur.cases.cases import derived
from gaknifur.cases.mode_table import page, table_rows
from gaknifur.etcs_run import Released
from gaknifur.program import REFUSED, AllFailed, Failed
from gaknifur.simulation import scenarios
from gaknifur.telegrams import telegrams
from gaknifur.yaml_files import document

from .samples import InFolder, reading, record

CASE = """\
test_case: a
feature: b
sections: [3.10]
rule: c
starting_conditions: d
lives: [{steps: [start, {mark: here}, flush]}]
expected:
"""
RESTRICTION = "NID_BG 2; 65: NID_TSR 7, D_TSR 100, L_TSR 50, Q_FRONT 1, V_TSR 4"
RESTRICTION_DIGITS = "90007F802001506023A0E0190019427F80"
HEADER_BITS = "1 0010000 0 000 000 00 11111111 0000000001 00000000000010 1"
SPEEDS_BITS = "01 111111111111111 00001 0000000111 0000110 0001000 0000110 0010100 0001000 000000000000010"
OVERRIDE_BITS = "0000000 0000110 000000011001000 00111100"

def digits_of(bits: str) -> str:
    """Bits as digits, with zeros up to a whole byte."""
    digits = bits.replace(" ", "")
    digits += "0" * (-len(digits) % 8)
    return f"{int(digits, 2):0{len(digits) // 4}X}"


class InFiles(InFolder):
    """Files of YAML in a folder."""

    def setUp(self) -> None:
        super().setUp()
        self.path = self.room / "x.case.yaml"

    def write(self, text: str) -> Path:
        self.path.write_text(text, encoding="utf-8")
        return self.path

    def error(self, text: str, of_case: bool = False) -> str:
        """The error for a text, without the file."""
        with self.assertRaises(Failed) as found:
            (cases.read if of_case else scenarios.read)(self.write(text))
        return str(found.exception).removeprefix(f"{self.path}:")

    def error_of(self, expected: str) -> str:
        """The error for a case with this expected result."""
        return self.error(CASE + f"  - {expected}\n", True)


class Scenarios(InFiles):
    """`lab build`."""

    def test_all_steps(self) -> None:
        text = """
cold: not_moved
groups: [{at: 4.5 m, spacing: 3 m, balises: ["90", "91"]}]
parts: {both: [start, {clock: 2 s}]}
steps: [{use: both}, {drive: 150.5 m at 36.5 km/h}, {confirm: running_number}, flush, {enter_identity: "no"}, {mark: m},
  {enter_train_data: {length: 200 m, maximum: 160 km/h, deceleration: 0.7 m/s2, reaction: 1 s, category: 3}}]
"""
        built = scenarios.read(self.write(text))
        self.assertEqual(json.loads(built.text()), {
            "cold": 2, "groups": [{"at": 450, "spacing": 300, "balises": ["90", "91"]}],
            "steps": [{"driver": [6]}, {"clock": 2000}, {"drive": [15050, 36500]}, {"driver": [5, 2]}, {"flush": True},
                      {"driver": [1, "no"]}, {"driver": [3, 20000, 160000, 70, 1000, 3]}]})
        # 450, 300 and 14,300 cm are 1, 1 and 2 readings, and there are two telegrams.
        self.assertEqual((built.events, built.marks), (2 + 6 + 1 + 1 + 1, {"m": 10}))

    def test_faults_and_their_places(self) -> None:
        for text, message in (
                ("steps: [{dirve: 1 m}]", '1:10: "dirve" is not allowed here; did you mean "drive"?'),
                ("steps:\n  - drive: 200 m", '2:12: expected a distance and a speed'),
                ("steps:\n  - drive: 200 at 3 km/h", '2:12: expected a distance, a number and cm or m or km'),
                ("steps:\n  - drive: 0.5 cm at 3 km/h", '2:12: "0.5 cm" is not a whole number of cm'),
                ("steps:\n  - drive: 11 km at 3 km/h", '2:12: "11 km" is not between -10,000 and 1,000,000 cm'),
                ("steps: [strat]", '1:9: "strat" is not allowed here; did you mean "start"?'),
                ("steps: [start]\nsteps: []", '2:1: "steps" is given twice, first in line 1'),
                ("steps: [{choose_level: 2}]", "1:24: expected a whole number from 0 to 1"),
                ("steps: [{use: part}]", '1:15: "part" is not allowed here'),
                ("steps: [{mark: a}, {mark: a}]", '1:27: "a" marks line 1 already'),
                ("parts: {a: [{use: a}]}\nsteps: [{use: a}]", "1:19: parts use one another more than 16 deep"),
                ("include: x.case.yaml\nsteps: []", "1:10: x.case.yaml includes itself"),
                ("groups: [{at: 0 m, balises: [a]}]\nsteps: []", '1:15: "0 m" is not between 1 and 100,000,000 cm'),
                ("groups: [{at: 1 m, balises: [\"90\", \"90\"]}]\nsteps: []", "1:10: spacing is missing"),
                ("steps: [{telegram: xy}]", '1:20: no telegram is called "xy"; none is defined'),
                ("telegrams: {there: '90'}\nsteps: [{telegram: three}]", '2:20: no telegram is called "three"; did you mean "there"? known: there'),
                ("steps: [{telegram: '12: V_MAIN 24'}]", "1:20: NID_BG is missing: a telegram begins with its header, such as"),
                ("steps: [{use: nowhere}]", '1:15: "nowhere" is not allowed here; none is defined'),
                ("steps: [{enter_identity: Zürich}]", '1:26: an identity has 1 to 16 printable ASCII characters, found "Zürich"'),
                ("steps: [!!python/name:os.system x]", "1:9: the tag tag:yaml.org,2002:python/name:os.system is not allowed"),
                ("steps: [", "2:1: not YAML")):
            self.assertTrue(self.error(text).startswith(message), f"{text}\n{self.error(text)}\n{message}")

    def test_what_is_at_a_limit_and_one_beyond(self) -> None:
        train = {"length": "77 m", "maximum": "88 km/h", "deceleration": "99 cm/s2", "reaction": "66 ms", "category": "5"}

        def train_data(name: str, value: str) -> str:
            return "steps: [{enter_train_data: {" + ", ".join(f"{one}: {text}" for one, text in {**train, name: value}.items()) + "}}]"

        for at, beyond in (
                ("steps: [{drive: 10 km at 1 km/h}]", "steps: [{drive: 1000001 cm at 1 km/h}]"),
                ("steps: [{drive: -100 m at 1 km/h}]", "steps: [{drive: -10001 cm at 1 km/h}]"),
                ("steps: [{drive: 7 cm at 600 km/h}]", "steps: [{drive: 7 cm at 600001 m/h}]"),
                ("steps: [{clock: 1099511627775 ms}]", "steps: [{clock: 1099511627776 ms}]"),
                ("steps: [{enter_running_number: 99999999}]", "steps: [{enter_running_number: 100000000}]"),
                ("steps: [{choose_level: 1}]", "steps: [{choose_level: 2}]"),
                ("steps: [{enter_identity: ABCDEFGHIJKLMNOP}]", "steps: [{enter_identity: ABCDEFGHIJKLMNOPQ}]"),
                ("groups: [{at: 1000 km, balises: ['90']}]\nsteps: []", "groups: [{at: 100000001 cm, balises: ['90']}]\nsteps: []"),
                ("groups: [{at: 1 cm, balises: ['90']}]\nsteps: []", "groups: [{at: 0 cm, balises: ['90']}]\nsteps: []"),
                ("groups: [{at: 1 m, spacing: 12 m, balises: ['90', '91']}]\nsteps: []",
                 "groups: [{at: 1 m, spacing: 1201 cm, balises: ['90', '91']}]\nsteps: []"),
                (f"steps: [{{telegram: {'90' * 104}}}]", f"steps: [{{telegram: {'90' * 105}}}]"),
                *((train_data(name, at), train_data(name, beyond)) for name, at, beyond in (
                    ("length", "4095 m", "409501 cm"), ("length", "1 cm", "0 cm"), ("maximum", "600 km/h", "600001 m/h"), ("maximum", "1 m/h", "0 m/h"),
                    ("deceleration", "3 m/s2", "301 cm/s2"), ("deceleration", "1 cm/s2", "0 cm/s2"), ("reaction", "10 s", "10001 ms"), ("category", "15", "16")))):
            scenarios.read(self.write(at))
            self.assertRegex(self.error(beyond), r"^\d+:\d+: ", beyond)

    def test_telegrams_are_compared(self) -> None:
        header = "telegram Q_UPDOWN=1 M_VERSION=16 Q_MEDIA=0 N_PIG=0 N_TOTAL=0 M_DUP=0 M_MCOUNT=255 NID_C=1 NID_BG=2 Q_LINK=1"
        packet = "packet 65 Q_DIR=2 L_PACKET=71 Q_SCALE=1 NID_TSR=7 D_TSR=100 L_TSR=50 Q_FRONT=1 V_TSR="
        text = f"telegrams: {{t: '{RESTRICTION}'}}\nsteps: [{{telegram: t}}]"
        with patch("gaknifur.program.decode", return_value=[header, packet + "4", "end 129"]):
            self.assertEqual(scenarios.read(self.write(text)).steps, [{"telegram": RESTRICTION_DIGITS}])
        with patch("gaknifur.program.decode", return_value=[header, packet + "5", "end 129"]):
            self.assertIn("1:16: etcs decode finds another telegram: packet 65", self.error(text))
        with patch("gaknifur.program.decode", return_value=["refused 2 WrongLength"]):
            self.assertIn("1:16: etcs decode says of this telegram: refused 2 WrongLength", self.error(text))
        with patch("gaknifur.program.decode", side_effect=self.decode_speeds):
            self.assertTrue(self.error(text.replace("V_TSR 4", "V_TSR 121")).endswith(
                "1:16: etcs decode says of this telegram: refused 4 OutOfRange; packet 65: V_TSR 121 is not allowed, only 0 to 120, 127"))
        with patch("gaknifur.program.decode", return_value=["refused 4 OutOfRange"]):
            self.assertTrue(self.error(text).endswith("1:16: etcs decode says of this telegram: refused 4 OutOfRange"))
        with patch("gaknifur.program.decode", return_value=["refused 2 WrongLength"]):
            self.assertIn("was to be refused with 3 Spare", self.error(f"steps: [{{telegram: {{fields: '{RESTRICTION}', refused: 3 Spare}}}}]"))

    @staticmethod
    def decode_speeds(digits: str) -> list[str]:
        """Stands in for `etcs decode` of the restriction, whose last seven bits before the end mark are V_TSR."""
        bits = f"{int(digits, 16):0{4 * len(digits)}b}"
        speed = int(bits[114:121], 2)
        return ["telegram", "packet", "end 129"] if speed <= 120 or speed == 127 else ["refused 4 OutOfRange"]


class Bounds(InFiles):
    """What no file may come to: each is refused with one line, at its place, and soon."""

    MOST_SECONDS = 200

    def test_each_is_one_line(self) -> None:
        ten = "\n".join(f"  p{n + 1}: [{', '.join([f'{{use: p{n}}}'] * 10)}]" for n in range(9))
        laughs = "\n".join(f"a{n + 1}: &a{n + 1} [{', '.join([f'*a{n}'] * 10)}]" for n in range(9))
        long = "1" * 300_000
        begun = time.process_time()
        for text, wanted in (
                ("steps: " + "[" * 100_000, "1:72: not YAML: it is more than 64 deep"),
                ("\n".join(" " * deep + "a:" for deep in range(1_000)), "65:65: not YAML: it is more than 64 deep"),
                ("steps: &a [start, *a]", "1:8: this holds itself by an alias"),
                ("x: &a\n  y: [*a]\nsteps: []", "1:4: this holds itself by an alias"),
                (f"a0: &a0 [x]\n{laughs}\nsteps: [start]", "7:5: this has more than 1,048,576 values"),
                (f"parts:\n  p0: [start]\n{ten}\nsteps: [{{use: p7}}]", "2:8: a life has at most 100,000 steps"),
                (f"parts:\n  p0: []\n{ten}\nsteps: [{{use: p9}}]", "3:"),
                (f"steps: [{{choose_level: {long}}}]", "1:24: expected a number of at most 28 digits, found \"1111"),
                (f"steps: [{{clock: {long} s}}]", "1:17: expected a number of at most 28 digits"),
                ("steps: [{drive: 1.0000000000000000000000000001 m at 3 km/h}]", "1:17: expected a number of at most 28 digits"),
                ("steps: [{telegram: 'NID_BG " + "9" * 5_000 + "'}]", '1:20: "NID_BG 999'),
                ("steps: [{telegram: 'NID_BG 2; ²: NID_TSR 1'}]", '1:20: "²: NID_TSR 1" begins with no number'),
                ("steps: [{telegram: 'NID_BG 2; 3: " + "NID_C 1, " * 50_000 + "'}]", "1:20: a telegram is written in at most 20,000 characters"),
                ('include: "a\\0b"\nsteps: []', "1:10: no such file"), ("include: " + "a" * 5_000 + "\nsteps: []", '1:10: "aaaa'),
                ("include: /dev/zero\nsteps: []", "1:10: no such file: /dev/zero"), ("include: .\nsteps: []", "1:10: no such file"),
                ("steps: [\n a\0]", "2:3: not YAML: control characters are not allowed"),
                ('steps: ["\\ud800"]', "1:12: not YAML: found invalid Unicode character escape code"),
                ('steps: ["\\UFFFFFFFF"]', "1:12: not YAML: found invalid Unicode character escape code"),
                ('steps: ["a\\nb\\u202e"]', '1:9: "a\\nb\\u202e" is not allowed here'),
                ("steps: [{" + "x" * 100_000 + "}]", '1:10: "xxxx'), ("", "1:1: the file is empty"),
                ("steps: []\n---\nsteps: []", "3:1: expected one document, found 2")):
            message = self.error(text)
            self.assertTrue(message.startswith(wanted), f"{text[:80]}\n{message[:300]}\n{wanted}")
            self.assertEqual((len(message.splitlines()), len(message) < 500), (1, True), message[:300])
        self.assertLess(time.process_time() - begun, self.MOST_SECONDS)

    def test_steps_are_counted(self) -> None:
        text = "parts:\n  p0: [start]\n  p1: [" + ", ".join(["{use: p0}"] * 1_000) + "]\nsteps: [" + ", ".join(["{use: p1}"] * 50) + "]"
        self.assertIn("a life has at most 100,000 steps, with each use of a part and each mark", self.error(text))
        self.assertEqual(len(scenarios.read(self.write(text.replace("steps: [{use: p1}, ", "steps: ["))).steps), 49_000)

    def test_of_a_case(self) -> None:
        self.assertIn("this holds itself by an alias", self.error_of("{note: x, never: {mode: &m [*m]}}"))
        self.assertIn("no such file", self.error(CASE.replace("{steps: [start, {mark: here}, flush]}", '{scenario: "a\\0.json"}'), True))

    def test_a_file_that_is_too_large_or_no_text(self) -> None:
        self.assertIn("has more than 1,048,576 bytes", self.error("#" * (1 << 20) + "\nsteps: []"))
        self.path.write_bytes(b"steps: [\n \"\xff\"]")
        with self.assertRaises(Failed) as found:
            scenarios.read(self.path)
        self.assertEqual(str(found.exception), f"{self.path}:2:3: this is no text in UTF-8")

    def test_28_digits_are_exact(self) -> None:
        scenario = scenarios.read(self.write("steps: [{clock: 1.000000000000000000000000000 s}, {clock: 0000000000000000000000000020 ms}]"))
        self.assertEqual(scenario.steps, [{"clock": 1000}, {"clock": 20}])
        # 1.666666666666666666666666667 * 60,000 is 100,000.00000000000000000000002
        for text in ("1.000000000000000000000000001 s", "1.666666666666666666666666667 min"):
            self.assertIn("is not a whole number of ms", self.error(f"steps: [{{clock: {text}}}]"))

    def test_a_chain_of_files(self) -> None:
        folder = self.path.parent
        for number in range(20):
            (folder / f"{number}.yaml").write_text(f"include: {number + 1}.yaml")
        (folder / "20.yaml").write_text("parts: {}")
        self.assertIn("files include one another more than 16 deep", str(self.refused("include: 0.yaml\nsteps: []")))
        for number in range(12):
            (folder / f"{number}.yaml").write_text(f"include: [{', '.join([f'{number + 1}.yaml'] * 10)}]")
        (folder / "12.yaml").write_text("parts: {p: [start]}")
        self.assertEqual(scenarios.read(self.write("include: 0.yaml\nsteps: [{use: p}]")).steps, [{"driver": [6]}])

    def refused(self, text: str) -> Failed:
        with self.assertRaises(Failed) as found:
            scenarios.read(self.write(text))
        return found.exception


class Named(InFiles):
    """Which files a case file names."""

    def test_by_its_words_alone(self) -> None:
        folder = self.path.parent
        for name in ("a part.yaml", "commented.yaml", "noted.json", "inner.yaml", "life.json", "other.yaml"):
            (folder / name).write_text("include: [inner.yaml]\nparts: {}" if name == "a part.yaml" else "# commented.yaml\nparts: {}")
        (folder / "life.json").write_text("{}")
        self.write("# see commented.yaml\n" + CASE.replace("rule: c", "rule: as in noted.json\ninclude: a part.yaml").replace(
            "lives: [", "lives: [{scenario: life.json}, {scenario: missing.json}, ") + "  - {note: x, never: {mode: SF}}\n")
        self.assertEqual([path.name for path in case_files.files_of(self.path)][0], self.path.name)
        self.assertEqual({path.name for path in case_files.files_of(self.path)}, {self.path.name, "a part.yaml", "inner.yaml", "life.json"})

    def test_a_file_that_is_no_yaml_names_none(self) -> None:
        self.assertEqual(case_files.files_of(self.write("include: [")), [self.path.resolve()])


class Telegrams(unittest.TestCase):
    """Variables and bits. The digits are those of the examples and the program's rows."""

    def test_what_is_worked_out(self) -> None:
        self.assertEqual(telegrams.telegram(RESTRICTION).digits, RESTRICTION_DIGITS)
        telegram = telegrams.telegram("NID_BG 2; 12: V_MAIN 24, L_ENDSECTION 1500; 21: D_GRADIENT 0, Q_GDIR 1, G_A 0; 27: D_STATIC 0, "
                                  "V_STATIC 24, Q_FRONT 1; 80: D_MAMODE 400, M_MAMODE 0, V_MAMODE 6, L_MAMODE 300, L_ACKMAMODE 100")
        self.assertEqual(telegram.digits, "90007F802001432024A6007FE00BB802B00D900010000DC03A400018800A10151032006025801901FE")

    def test_lists(self) -> None:
        telegram = telegrams.telegram("NID_BG 2; 5: D_LINK 400, NID_BG 3, Q_LINKORIENTATION 1, Q_LINKREACTION 1, Q_LOCACC 5, D_LINK 10, "
                                  "NID_C 2, NID_BG 4, Q_LINKORIENTATION 1, Q_LINKREACTION 1, Q_LOCACC 5")
        self.assertIn(" Q_NEWCOUNTRY=0 NID_BG=3 Q_LINKORIENTATION=1 Q_LINKREACTION=1 Q_LOCACC=5 N_ITER=1 D_LINK=10 Q_NEWCOUNTRY=1 "
                      "NID_C=2 NID_BG=4 ", telegram.lines()[1])

    def test_faults(self) -> None:
        for text, message in (("NID_BG 2; 65: NID_TSR 7, L_TSR 50", "packet 65: D_TSR is missing before L_TSR"),
                           ("NID_BG 2; 65: NID_TSR 256, D_TSR 1, L_TSR 1, Q_FRONT 1, V_TSR 4", "NID_TSR has 8 bits, from 0 to 255"),
                           ("NID_BG 2; 66: NID_TSR 7, NID_TSR 8", "packet 66 has no NID_TSR there"),
                           ("NID_BG 2; 66: NID_TRS 7", 'packet 66 has no NID_TRS; did you mean "NID_TSR"\\? known: L_PACKET, NID_TSR, Q_DIR, Q_SCALE$'),
                           ("NID_BG 2, NID_D 3", 'the header has no NID_D; did you mean "NID_C"\\? known: M_DUP, .*, Q_UPDOWN$'),
                           ("NID_BG 2; 5: D_LINC 4", 'packet 5 has no D_LINC; did you mean "D_LINK"\\? known: D_LINK, .*, Q_SCALE$'),
                           ("NID_C 2", "the header has no NID_BG"), ("NID_BG 2; V_MAIN 3", "\"V_MAIN 3\" begins with no number of a packet")):
            with self.assertRaisesRegex(telegrams.Wrong, f"^{message}"):
                telegrams.telegram(text).digits


class Cases(InFiles):
    """The words of a case."""

    def test_faults_and_their_places(self) -> None:
        for expected, where, wanted in (
                ("{note: x, at: {mode: FS}, expct: {mode: FS}}", "expct", '"expct" is not allowed here; did you mean "expect"?'),
                ("{note: x, at: {mode: FS}, expect: {mode: SF, mode: FS}}", "mode: FS}}", '"mode" is given twice'),
                ("{note: x, at: {mode: XX}, expect: {mode: FS}}", "XX", '"XX" is not allowed here'),
                ("{note: x, at: {mode: FS}, expect: {brakes: none}}", "brakes", '"brakes" is not allowed here; did you mean "brake"?'),
                ("{note: x, at: {mark: there}, expect: {mode: FS}}", "there", '"there" is not allowed here'),
                ("{note: x, never: {shows_trip: on}}", "on}", 'expected true or false, found "on"'),
                ("{note: x, never: {place_cm: 5 m}}", "5 m", "expected a number"),
                ("{note: x, never: {place_cm: {least: 5, most: 4}}}", "{least", "no number is at least 5 and at most 4"),
                ("{note: x, never: {}}", "{}", "a condition needs at least one name"),
                ("{note: x, at: {mode: FS}}", "{note", "expect or row is missing"),
                ("{note: x, at: {mode: FS}, never: {mode: SF}}", "{note", "an expected result is one of"),
                ("{note: x, after: {mode: FS}, expect: {mode: SF}}", "{note", "`after` and `expect` need one of within_events"),
                ("{at: {mode: FS}, expect: {mode: SF}}", "{at", "note is missing"),
                ("{note: x, at: {mode: FS}, row: 99}", "99", "99 is not a row of the mode table"),
                ("{note: x, at: {mode: FS}, row: 16 from FS}", "16 from FS", "16 from FS is not a row of the mode table"),
                ("{note: x, at: {mode: FS}, row: 2}", "2}", 'row 2 leads from several modes; name one, such as "2 from FS"'),
                ("{note: x, never: {level: 2}}", "2}", 'expected level 0, 1 or unknown, found "2"'),
                ("{note: x, never: {level: {least: -1}}}", "-1", 'expected level 0, 1 or unknown, found "-1"'),
                ("{note: x, sections: [9.1], never: {mode: SF}}", "9.1", '"9.1" is not a section of SUBSET-026')):
            message, place = self.error_of(expected), f"8:{5 + expected.index(where)}: "
            self.assertTrue(message.startswith(place + wanted), f"{expected}\n{message}\n{place}{wanted}")

    def test_each_document_s_first_fault(self) -> None:
        wrong = CASE + "  - {note: x, never: {}}\n  - {note: x}\n"
        good = CASE + "  - {note: x, never: {mode: SF}}\n"
        with self.assertRaises(AllFailed) as found:
            cases.read(self.write("---\n".join((wrong, good, wrong))))
        self.assertEqual([one.removeprefix(f"{self.path}:").partition(" ")[0] for one in found.exception.messages()], ["8:22:", "27:22:"])
        errors = io.StringIO()
        with contextlib.redirect_stderr(errors):
            self.assertEqual(main(["lint", str(self.path)]), REFUSED)
        self.assertEqual([line.startswith(f"lab: {self.path}:") for line in errors.getvalue().splitlines()], [True, True])

    def test_a_case_without_results(self) -> None:
        self.assertIn("nothing is expected", self.error(CASE.replace("expected:\n", ""), True))

    def test_what_stays_text(self) -> None:
        case, = cases.read(self.write(CASE + "  - {note: no, never: {mode: SF}}\n"))
        self.assertEqual((case.sections, case.expected[0].note, case.marks()), (["3.10"], "no", {"here": (1, 1)}))


class Judging(InFiles):
    """Expected results over records that were made by hand."""

    PLAYED = Played(with_speeds([
        record(0, "powerup", mode="SB", level=None, brake="emergency", indications=["not_revalidated"], limit_m_per_h=0),
        record(1, mode="FS"), reading(2, 50_000, brake="service", indications=["overspeed"]), record(3, time_ms=4000)]), {"here": 1})

    def judge(self, expected: str) -> str:
        """What is missed; nothing where the result came."""
        case, = cases.read(self.write(CASE + f"  - {expected}\n"))
        try:
            case_runner.judge(case.expected[0], self.PLAYED, {16: (["SB"], "FS"), 1: (["OS", "SR"], "SF")})
        except Missed as missed:
            return str(missed)
        return ""

    def test_what_holds(self) -> None:
        for expected in ("at: {event: 0}, expect: {level: unknown, shows_not_revalidated: true, speed_kmh: 0}",
                         "at: {mark: here}, row: 16, expect: {mode: [FS, OS], place_m: 1}", "at: end, expect: {speed_kmh: 50}",
                         "from: {mode: FS}, always: {mode: FS}", "never: {mode: SF}", "where: {kind: odometer}, always: {brake: service}",
                         "from: {event: 1}, until: {event: 2}, never: {mode: SB}",
                         "after: {mark: here}, within_ms: 0, expect: {brake: service}",
                         "after: {mark: here}, within_cm: 100, expect: {indications: [overspeed]}",
                         "after: {mark: here}, within_events: 2, expect: {time_ms: {least: 4000}}"):
            self.assertEqual(self.judge(f"{{note: x, {expected}}}"), "", expected)

    def test_what_does_not(self) -> None:
        for expected, wanted, found in (
                ("at: {mark: here}, expect: {mode: OS}", "mode OS", "mode FS"),
                ("at: {mode: TR}, expect: {mode: TR}", "a record with mode TR", "none among 4 records"),
                ("at: {event: 2}, row: 16", "row 16 of the mode table: from SB to FS", "from FS to FS"),
                ("at: {event: 0}, expect: {level: 1}", "level 1", "level unknown"),
                ("from: {mode: TR}, never: {mode: SF}", "a record with mode TR", "none among 4 records"),
                ("where: {mode: TR}, never: {mode: SF}", "records to be judged", "there is none with mode TR"),
                ("where: {mode: TR}, always: {mode: TR}", "records to be judged", "there is none with mode TR"),
                ("always: {mode: FS}", "mode FS", "mode SB"), ("never: {brake: service}", "never brake service", "this record has it"),
                ("from: {event: 1}, until: {mode: TR}, never: {mode: SF}", "a record with mode TR", "none among 4 records"),
                ("after: {mark: here}, within_events: 1, expect: {time_ms: 4000}", "time_ms 4000 within 1 events", "no such record")):
            message = self.judge(f"{{note: x, {expected}}}")
            self.assertTrue(message.startswith(f"expected: {wanted}\nfound:    {found}"), f"{expected}: {message}")

    def test_nothing_holds_of_no_record(self) -> None:
        """A journal without records, as of a scenario that was refused."""
        with patch.object(Judging, "PLAYED", Played([], {})):
            for expected in ("never: {mode: SF}", "always: {mode: FS}"):
                self.assertIn("expected: records to be judged", self.judge(f"{{note: x, {expected}}}"))

    def test_outputs_are_those_of_the_records(self) -> None:
        case_runner.check_released([Released(1, "FS", 1, "none", 40000, 0)], self.PLAYED.records)
        for other in (Released(1, "SH", 1, "none", 40000, 0), Released(1, "FS", None, "none", 40000, 0), Released(1, "FS", 0, "none", 40000, 0),
                      Released(1, "FS", 1, "service", 40000, 0), Released(1, "FS", 1, "none", 39999, 0), Released(1, "FS", 1, "none", 40000, 64)):
            with self.assertRaisesRegex(Missed, "this output was released"):
                case_runner.check_released([other], self.PLAYED.records)

    def test_derived(self) -> None:
        self.assertEqual(str(derived(record(5) | {"speed_m_per_h": None})["place_m"]), "5")


class Coverage(InFiles):
    """The page's sections."""

    def test_cells(self) -> None:
        self.assertEqual(coverage.names_of("3.8.1, 3.8.3 to 3.8.5"), ["3.8.1", "3.8.3", "3.8.4", "3.8.5"])
        self.assertEqual(coverage.names_of("7.4.2, packets 21, 27"), ["7.4.2 packet 21", "7.4.2 packet 27"])
        self.assertEqual(coverage.names_of("3.11, all others"), ["3.11 all others"])

    def test_what_another_train_does(self) -> None:
        """Each section that isn't left out says what a train of issue 2.3.0 does, each difference with its sign and how sure it is."""
        text, count = page("explain/conformance.md"), 0
        for heading in ("Chapter 3", "Chapters 4 and 5", "Chapters 7 and 8"):
            for name, _, here, otherwise in table_rows(text, heading):
                if otherwise or not here.startswith("left out"):
                    count += 1
                    self.assertRegex(otherwise, "^(agrees [SFB]|none known|see [0-9]|B: |[-+=] [SFB]: )", name)
                for at in re.finditer(r"(?:^|; )([-+=] .{2}|agrees.{2})", otherwise):
                    self.assertRegex(at[1], "^([-+=] [SFB]:|agrees [SFB])$", name)
        self.assertGreaterEqual(count, 48)

    def test_what_is_missing(self) -> None:
        self.write(CASE.replace("[3.10]", "[3.8.1, 3.99]") + "  - {note: x, at: {mode: FS}, row: 2 from OS}\n")
        faults = "\n".join(coverage.matrix(self.path.parent).faults)
        for message in ("3.99 is not a section of docs/explain/conformance.md", "3.8.3 has no case, and no reason why", "16 from SB has no case"):
            self.assertIn(message, faults)
        for message in ("3.8.1 has no case", "2 from OS has no case"):
            self.assertNotIn(message, faults)

    def test_a_page_that_is_a_document(self) -> None:
        self.assertTrue(document(self.write("a: 1")).is_mapping())


if __name__ == "__main__":
    unittest.main()
