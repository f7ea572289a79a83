"""The command line of `./lab`, and what pytest makes of a suite."""
import contextlib
import io
import json
import os
import pty
import re
import shlex
import subprocess
import tempfile
import unittest
import xml.etree.ElementTree
from collections.abc import Sequence
from dataclasses import asdict
from pathlib import Path
from typing import Any, TextIO
from unittest.mock import patch


from gaknifur.__main__ import main
from gaknifur.cases import case_runner
from gaknifur.cases.case_runner import Keep, Played, with_speeds
from gaknifur.cases.cases import Case
from gaknifur.cli.commands import COMPLETE, SECTIONS, Command, lab
from gaknifur.cli.progress import Terminal
from gaknifur.journal._words import CAUSES, LIMIT_CAUSES, TRIP_CAUSES
from gaknifur.journal.plausibility import Thresholds
from gaknifur.journal.wording import INDICATIONS
from gaknifur.lives import BrakeCause, LimitCause, TripCause
from gaknifur.program import Json
from gaknifur.unit import Indication
from gaknifur.units.other_unit import WITHIN_S

from .samples import InFolder, journal, record

SUITE = """\
test_case: {}
feature: b
sections: [3.10]
rule: c
starting_conditions: d
lives: [{{steps: [start]}}]
expected:
  - {{note: comes, at: {{mode: SB}}, expect: {{mode: SB}}}}
  - {{note: doesn't, at: {{mode: SB}}, expect: {{mode: FS}}}}
"""


def params(words: str) -> dict[str, Any]:
    """The arguments and options of a command line of lab."""
    name, *given = words.split()
    context = lab.commands[name].make_context(name, given)
    return context.params


class Order(unittest.TestCase):
    """Options may come before, between and after the arguments."""

    def test_of_options(self) -> None:
        for words in ("campaign F --jobs 1 O.db", "campaign --jobs 1 F O.db", "campaign F O.db --workers 1"):
            self.assertEqual([params(words)[name] for name in ("folder", "out", "jobs")], [Path("F"), Path("O.db"), 1])
        self.assertEqual(params("campaign --random 3 O.db")["folder"], None)
        self.assertEqual([params("table I --all O.csv")[name] for name in ("image", "out", "other_blocks")], [Path("I"), Path("O.csv"), True])
        self.assertEqual([params("database A --all B O.db")[name] for name in ("images", "out")], [(Path("A"), Path("B")), Path("O.db")])
        self.assertEqual([params("test F -k x --section 3.8 -kthis --lf")[name] for name in ("folder", "others", "section")],
                         [Path("F"), ["-k", "x", "-kthis", "--lf"], ("3.8",)])

    def test_defaults(self) -> None:
        self.assertEqual({name: params("check I")[name] for name in asdict(Thresholds())}, asdict(Thresholds()))
        self.assertEqual(params("against I unit")["answer_within"], WITHIN_S)

    def test_jobs(self) -> None:
        """The number of processes has one name in all commands, and the former one is understood."""
        for words in ("campaign O.db", "search F", "test F"):
            found = [params(f"{words} {more}")["jobs"] for more in ("", "--jobs 3", "--workers 3")]
            self.assertEqual(found, [os.cpu_count(), 3, 3])
            with contextlib.redirect_stderr(io.StringIO()) as errors:
                self.assertEqual(main([*words.split(), "--jobs", "0"]), 2)
            self.assertRegex(errors.getvalue(), "invalid value for '--jobs'.*: has to be 1 to 256")

    def test_wrong_words(self) -> None:
        for words in ("campaign F O.db more", "campaign --random 3", "table", "table I --al O.csv", "table I --all --damaged", "nothing I", "--all table I",
                      "", "test -x", "campaign O.db --random -1"):
            with contextlib.redirect_stderr(io.StringIO()) as errors:
                self.assertEqual((main(words.split()), errors.getvalue() == ""), (2, False), words)


class Wrong(unittest.TestCase):
    """A wrong command or option is named, with the nearest right one; status 2."""

    def test_the_nearest_word(self) -> None:
        for words, message in ((["reprot", "a", "b"], "lab: error: unknown command reprot; did you mean report?"),
                            (["zzz"], "lab: error: unknown command zzz; lab --help lists the commands"),
                            (["report", "a", "b", "--lfe", "3"], "lab report: error: unknown option --lfe; did you mean --life?"),
                            (["report", "a", "b", "--life", "x\n"], "lab report: error: invalid value for '--life': 'x\\n' is not a valid integer"),
                            (["report", "a", "b", "c"], "lab report: error: unexpected argument c")):
            with self.subTest(words=words), contextlib.redirect_stderr(io.StringIO()) as output:
                self.assertEqual((main(words), output.getvalue().splitlines()[-1]), (2, message))

    def test_help_is_natural(self) -> None:
        """Each command and option has a help text in the imperative or as a noun, without the words of the old dialect, and each command an example."""
        dialect = re.compile(r"\b(tells?|told|stands?|behind|beside|alone|so many|puts|makes of|takes apart|words?)\b")
        for name in ("", *lab.commands):
            with contextlib.redirect_stdout(io.StringIO()) as output:
                self.assertEqual(main([*name.split(), "--help"]), 0)
            self.assertEqual(dialect.findall(output.getvalue()), [], name)
            examples = re.findall(r"^  \$ lab (.*)", output.getvalue(), re.MULTILINE)
            self.assertEqual([one.startswith(f"{name} ") or one == name for one in examples], [True] if name else [], name)

    def test_all_commands_are_on_one_screen(self) -> None:
        self.assertEqual(sorted(name for names in SECTIONS.values() for name in names), sorted(lab.commands))
        with contextlib.redirect_stdout(io.StringIO()) as output:
            main(["--help"])
        listed = re.findall(r"^  (\w+)  +[A-Z]", output.getvalue(), re.MULTILINE)
        self.assertEqual((listed, len(output.getvalue().splitlines()) <= 50), ([name for names in SECTIONS.values() for name in names], True))

    def test_examples_are_right(self) -> None:
        for name, command in lab.commands.items():
            assert isinstance(command, Command)
            word, *words = shlex.split(command.example)
            self.assertEqual(word, name)
            command.make_context(name, words)


class Telegrams(unittest.TestCase):
    """`lab telegram`."""

    def test_the_bytes(self) -> None:
        """A revocation of restriction 8 by hand (SUBSET-026, 7.4.2 and 8.4.2): header, packet 66 for both directions, end mark, zeros."""
        bits = "1 0010000 0 000 000 00 11111111 0000000001 00000000000010 1 01000010 10 0000000011111 00001000 11111111 0000000".replace(" ", "")
        with contextlib.redirect_stdout(io.StringIO()) as output:
            self.assertEqual(main(["telegram", "NID_BG 2; 66: NID_TSR 8"]), 0)
        self.assertEqual(output.getvalue(), f"{int(bits, 2):024X}\n")

    def test_a_mistake(self) -> None:
        for text, message in (("NID_BG 2; 66: NID_TRS 8", "lab: telegram: packet 66 has no NID_TRS; did you mean \"NID_TSR\"?"),
                              ("NID_BG 2; 66: Q_DIR 3, NID_TSR 8", "lab: telegram: etcs decode says of this telegram: refused 3 Spare; packet 66: Q_DIR 3 is not allowed, only 0 to 2")):
            with contextlib.redirect_stderr(io.StringIO()) as errors, contextlib.redirect_stdout(io.StringIO()) as output:
                self.assertEqual((main(["telegram", text]), output.getvalue()), (1, ""))
            self.assertTrue(errors.getvalue().startswith(message), errors.getvalue())


class Completion(unittest.TestCase):
    """A shell completes each command and each option of the help, and nothing else."""

    def completed(self, *words: str) -> set[str]:
        """The completions of a last argument of etcs_lab, after which a further one begins."""
        path = Path(__file__).parents[2] / "packaging/completion"
        script = f'. "$0"; COMP_WORDS=(etcs_lab "$@"); COMP_CWORD={len(words)}; _gaknifur; echo "${{COMPREPLY[@]}}"'
        return set(subprocess.run(["bash", "-c", script, path, *words], capture_output=True, text=True,
                                  check=True).stdout.split())

    def test_of_commands_and_options(self) -> None:
        lab_script = Path(__file__).parents[2] / "lab"
        for shell, given in (("bash", {"COMP_WORDS": "lab ", "COMP_CWORD": "1"}), ("zsh", {"COMP_WORDS": "lab ", "COMP_CWORD": "1"}),
                             ("fish", {"COMP_WORDS": "lab ", "COMP_CWORD": ""})):
            done = subprocess.run([lab_script], env=os.environ | given | {COMPLETE: f"{shell}_complete"}, capture_output=True, text=True, check=True)
            found = set(re.findall(r"\w+", done.stdout))
            self.assertLessEqual(set(lab.commands), found, shell)
            source = subprocess.run([lab_script], env=os.environ | {COMPLETE: f"{shell}_source"}, capture_output=True, text=True, check=True)
            self.assertIn(f"{COMPLETE}={shell}_complete", source.stdout)
        done = subprocess.run([lab_script], env=os.environ | {"COMP_WORDS": "lab table -", "COMP_CWORD": "2", COMPLETE: "bash_complete"},
                              capture_output=True, text=True, check=True)
        options = {name for one in lab.commands["table"].params for name in one.opts if name.startswith("-")}
        self.assertEqual({line.split(",")[1] for line in done.stdout.split()}, options)

    def test_of_etcs_lab(self) -> None:
        crates = Path(__file__).parents[2] / "crates"
        output = (crates / "etcs_lab/stdout").read_text(encoding="utf-8")
        words = set(re.findall(r"^  ([a-z]+) +[A-Z]", output, re.MULTILINE))
        options = set(re.findall(r'\(\s*"([a-z]+)",\s*Takes::', (crates / "command_line/src/lab_app.rt").read_text(encoding="utf-8")))
        self.assertEqual(self.completed(""), words | {"--version", "--help"})
        self.assertEqual(self.completed("check", "-"), {f"--{name}" for name in options})


class Progress(unittest.TestCase):
    """The bar on standard error."""

    def shown(self, stderr: TextIO, since: float) -> None:
        """Half of the events are done, some seconds after the beginning."""
        with patch("sys.stderr", stderr), patch.dict(os.environ, {"TERM": "xterm", "COLUMNS": "80"}):
            bar = Terminal()
            bar.start, bar.last = bar.start - since, bar.last - since
            bar("events", 1, 2)
            bar.end()

    def test_only_on_a_terminal_and_not_at_once(self) -> None:
        pipe = io.StringIO()
        self.shown(pipe, 2)
        self.assertEqual(pipe.getvalue(), "")
        for begun, wanted in ((0, False), (2, True)):
            screen, terminal = pty.openpty()
            with open(terminal, "w", encoding="utf-8") as stderr:
                self.shown(stderr, begun)
                stderr.write("end")
                stderr.flush()
                text = ""
                while not text.endswith("end"):  # (a busy terminal hands it over in parts)
                    text += os.read(screen, 65536).decode()
            os.close(screen)
            self.assertEqual(("events" in text, " 50%" in text, text.endswith("end")), (wanted, wanted, True), text)


class Sets(unittest.TestCase):
    """Words that stand along with the numbers of the headers: there is one for each number, in the same order."""

    def test_of_indications(self) -> None:
        wanted, top = {int(one): str(one.name).lower() for one in Indication}, Path(__file__).parents[2]
        self.assertEqual(list(INDICATIONS), list(wanted.values()))
        columns = re.findall(r"^ +shows_(\w+) ", (top / "python/gaknifur/journal/schema.sql").read_text(encoding="utf-8"), re.MULTILINE)
        self.assertEqual(columns, list(wanted.values()))

    def test_of_causes(self) -> None:
        for words, numbers in ((CAUSES, BrakeCause), (LIMIT_CAUSES, LimitCause), (["unknown", *TRIP_CAUSES], TripCause)):
            self.assertEqual(list(words), [one.name.lower() for one in numbers])


class Names(unittest.TestCase):
    """What a name says that `lab` can't write."""

    def test_of_a_table(self) -> None:
        for name in ("out.parquet", "out.ods", "out.xls"):
            with tempfile.TemporaryDirectory() as room, contextlib.redirect_stderr(io.StringIO()) as errors:
                out = Path(room) / name
                self.assertEqual(main(["table", "image", str(out)]), 2)
                self.assertEqual(errors.getvalue(), f"lab: {out}: the name has to end in .csv or .xlsx\n")
                self.assertFalse(out.exists())


CHECKED = "\n".join(map(json.dumps, (journal().examination, {"end": "nothing_differs"}, {"check": {"whole": True, "replay": "nothing_differs"}})))
"""The output of `etcs_lab check --json`."""


class Checks(unittest.TestCase):
    """`lab check` by a stand-in of etcs_lab."""

    def check(self, status: int, printed: str, message: str, *words: str, events: Sequence[Json] = ()) -> tuple[int, str, str]:
        """Status, standard output and standard error."""
        with tempfile.TemporaryDirectory() as room:
            program, image, listing = (Path(room) / name for name in ("etcs_lab", "image", "events"))
            listing.write_text("".join(json.dumps(one) + "\n" for one in events))
            image.touch()
            program.write_text(f"#!/bin/sh\n[ $1 != events ] || exec cat {listing}\n[ $2 != --json ] || exec printf '%s\\n' {shlex.quote(CHECKED)}\n"
                               f"printf '%s' \"{printed}\"\n"
                               + (f"echo \"{message}\" 1>&2\n" if message else "") + f"exit {status}\n")
            program.chmod(0o755)
            out, errors = io.StringIO(), io.StringIO()
            with patch.dict(os.environ, {"GAKNIFUR_ETCS_LAB": str(program)}), contextlib.redirect_stdout(out), contextlib.redirect_stderr(errors):
                return main(["check", *words, str(image)]), out.getvalue(), errors.getvalue().replace(room, "ROOM")

    def test_lines_and_status_are_handed_on(self) -> None:
        nothing = "plausibility: nothing implausible; 0 readings and 0 groups of 0 lives, 0 with moments; thresholds: "
        for status, printed in ((0, "one\ntwo\n"), (4, "the image is not whole\n")):
            found, text, errors = self.check(status, printed, "")
            self.assertEqual((found, text[:len(printed + nothing)], errors), (status, printed + nothing, ""))
        self.assertTrue(self.check(0, "", "", "--json")[1].startswith(CHECKED))

    def test_what_is_implausible_has_a_status(self) -> None:
        standing = [record(0, "powerup"), *(record(at, "odometer", movement_cm=1_000, speed_m_per_h=0) for at in range(1, 5))]
        status, text, _ = self.check(0, "whole\n", "", events=standing)
        self.assertEqual((status, text.splitlines()[:2]), (4, ["whole", "implausible: life 1, events 2 to 4: moved 30 m, and the speeds are 0"]))
        self.assertEqual(self.check(0, "whole\n", "", "--path-cm", "3000", events=standing)[0], 0)
        found = [json.loads(line) for line in self.check(0, "", "", "--json", "--path-cm=9", events=standing)[1].splitlines()[3:]]
        self.assertEqual((found[0]["implausible"], found[1]["plausibility"]["thresholds"]["path_cm"]), ("standing", 9))
        self.assertEqual(found[2], {"verdict": {"status": 4, "says": ["implausible: life 1, events 2 to 4: moved 30 m, and the speeds are 0"]}})
        self.assertEqual(self.check(1, "no image\n", "", events=standing)[:2], (1, "no image\n"))

    def test_what_is_said(self) -> None:
        self.assertEqual(self.check(3, "", "etcs_lab: ROOM/image: no such file")[0], 3)
        self.assertIn("no such file", self.check(3, "", "etcs_lab: x: no such file")[2])


def plays(case: Case, keep: Keep | None = None) -> Played:
    """Stands in for the programs: one life with its power-up alone."""
    if keep:
        keep(b"the image")
    return Played(with_speeds([record(0, "powerup", mode="SB")]), {})


class Suites(InFolder):
    """`lab test` on a suite whose cases are played by a stand-in."""

    def setUp(self) -> None:
        super().setUp()
        (self.room / "suite").mkdir()
        for name in ("one", "two of a/kind"):
            (self.room / "suite" / f"{name[:3]}.case.yaml").write_text(SUITE.format(name))
        self.enterContext(patch.object(case_runner, "play", plays))
        self.enterContext(patch.dict(os.environ, {"XDG_CACHE_HOME": str(self.room / "cache")}))

    def lab(self, *words: str) -> tuple[int, str]:
        """The status, and what was printed on both streams."""
        output = io.StringIO()
        with contextlib.redirect_stdout(output), contextlib.redirect_stderr(output):
            status = main(["test", str(self.room / "suite"), *words])
        return status, output.getvalue()

    def test_a_class_is_a_case(self) -> None:
        out = self.room / "results.xml"
        self.assertEqual(self.lab(f"--junitxml={out}")[0], 4)
        found = [(one.get("classname"), one.get("name")) for one in xml.etree.ElementTree.parse(out).iter("testcase")]
        self.assertEqual(len(found), 6)
        self.assertEqual({name for name, _ in found}, {"one.case.yaml.one", "two.case.yaml.two of a/kind"})
        self.assertIn(("one.case.yaml.one", "[3.10] one: doesn't"), found)

    def test_the_last_failures(self) -> None:
        self.assertIn("2 failed, 4 passed", self.lab()[1])
        self.assertIn("2 failed, 4 deselected", self.lab("--lf")[1])
        self.assertEqual(sorted(path.name for path in (self.room / "suite").iterdir()), ["one.case.yaml", "two.case.yaml"])

    def test_image_and_report_are_kept(self) -> None:
        kept = self.room / "kept"
        with patch("gaknifur.journal.reading.read", lambda path, **words: self.sample(path)):
            self.assertEqual(self.lab("--keep", str(kept))[0], 4)
        self.assertEqual(sorted(str(path.relative_to(kept)) for path in kept.rglob("*")),
                         ["one", "one/image", "one/report.html", "two_of_a_kind", "two_of_a_kind/image", "two_of_a_kind/report.html"])
        self.assertEqual((kept / "one/image").read_bytes(), b"the image")
        self.assertIn("<h1>Journal", (kept / "one/report.html").read_text())

    def test_a_folder_that_exists_is_not_filled(self) -> None:
        (self.room / "kept").mkdir()
        (self.room / "file").touch()
        for name in ("kept", "file"):
            status, output = self.lab("--keep", str(self.room / name))
            self.assertEqual((status, f"{name}: already exists; name a new folder" in output), (2, True))
        self.assertEqual(list((self.room / "kept").iterdir()), [])

    def sample(self, path: Path) -> Any:
        """The journal of the stand-in."""
        self.assertEqual(path.read_bytes(), b"the image")
        return journal(record(0, "powerup", mode="SB"))

    def test_what_comes_is_not_kept(self) -> None:
        kept = self.room / "kept"
        self.assertEqual(self.lab("--keep", str(kept), "-k", "comes")[0], 0)
        self.assertFalse(kept.exists())


if __name__ == "__main__":
    unittest.main()
