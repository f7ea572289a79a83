"""Reading what a stand-in of `etcs_lab` prints."""
import hashlib
import json
import os
import tempfile
import unittest
from pathlib import Path
from unittest.mock import patch

from gaknifur.journal import reading
from gaknifur.journal.reading import Journal, Records, read
from gaknifur.program import Failed, etcs, find, proof
from gaknifur.search import campaign_table

from .samples import InFolder, journal, line, record

STAND_IN = """#!/bin/sh
cat "$0.$1"
cat "$0.$1.said" 1>&2 2>/dev/null
exit "$(cat "$0.$1.status" 2>/dev/null || echo 0)"
"""


class Reading(InFolder):
    """What comes of lines and statuses."""

    def setUp(self) -> None:
        super().setUp()
        self.program = self.room / "etcs_lab"
        self.program.write_text(STAND_IN)
        self.program.chmod(0o755)
        self.image = self.room / "image"
        self.image.write_bytes(b"image")
        before = os.environ.get("GAKNIFUR_ETCS_LAB")
        os.environ["GAKNIFUR_ETCS_LAB"] = str(self.program)
        self.addCleanup(lambda: os.environ.pop("GAKNIFUR_ETCS_LAB") if before is None else
                        os.environ.update(GAKNIFUR_ETCS_LAB=before))
        examination = journal(record(0)).examination
        examination["image"]["sha256"] = hashlib.sha256(b"image").hexdigest()
        self.examination = examination
        self.replayed({"life": 1, "first_event": 0, "last_event": 0, "replay": "agrees"}, {"end": "nothing_differs"})
        self.says("examine", [examination])
        self.says("events", [{"image": {}}, record(0), {"unreadable": {"block": 4}}, {"end": "done"}])
        self.says("why", [line(0, "none")])

    def says(self, word: str, lines: list[object], status: int = 0, errors: str = "") -> None:
        """What the stand-in prints."""
        for end, text in ((f".{word}", "".join(json.dumps(line) + "\n" for line in lines)), (f".{word}.said", errors),
                          (f".{word}.status", str(status))):
            self.program.with_name(self.program.name + end).write_text(text)

    def replayed(self, *lines: object) -> None:
        """What the stand-in prints of a check: the examination, these lines of the replay, and the verdict."""
        self.says("check", [self.examination, *lines, {"check": {"whole": True, "replay": "nothing_differs"}}])

    def read(self) -> Journal:
        return read(self.image, replay=True, why=True)

    def test_all(self) -> None:
        found = self.read()
        self.assertEqual(([one["event"] for one in found.records], found.unreadable), ([0], [4]))
        self.assertEqual([list(one)[-1] for one in found.replay], ["replay", "end"])
        self.assertEqual((list(read(self.image).records), read(self.image).replay), (list(found.records), []))

    def test_the_same_of_a_large_image(self) -> None:
        small = self.read()
        with patch.object(reading, "MOST_SMALL", 0):
            large = self.read()
        self.assertEqual((list(large.records), large.unreadable, large.replay, large.why),
                         (list(small.records), small.unreadable, small.replay, small.why))
        self.says("check", [{}], 1, f"etcs_lab: {self.image}: is not a formatted image\n")
        for most in (0, 1 << 20):
            with patch.object(reading, "MOST_SMALL", most):
                self.assertRaisesRegex(Failed, "image: is not a formatted image$", self.read)

    def test_a_listing_that_was_cut_off(self) -> None:
        self.says("events", [{"image": {}}, record(0)])
        self.assertRaisesRegex(Failed, "cut off", self.read)

    def test_a_replay_that_was_cut_off(self) -> None:
        self.says("check", [self.examination, {"life": 1, "replay": "agrees"}])
        self.assertRaisesRegex(Failed, "cut off", self.read)

    def test_a_replay_that_is_refused(self) -> None:
        self.replayed()
        self.assertEqual(self.read().replay, [])

    def test_events_that_are_refused(self) -> None:
        self.says("events", [], 1, f"etcs_lab: {self.image}: the output can't be written\n")
        self.assertEqual((self.read().refusal, self.read().replay), ("the output can't be written", []))

    def test_causes(self) -> None:
        self.says("events", [{"image": {}}, record(0, brake="service"), record(1, brake="service"), {"end": "done"}])
        self.replayed({"life": 1, "first_event": 0, "last_event": 1, "replay": "agrees"}, {"end": "nothing_differs"})
        self.assertEqual(self.read().why, [line(0, "none")])

    def test_causes_that_are_refused(self) -> None:
        self.says("why", [], 1, f"etcs_lab: {self.image}: there is no memory\n")
        self.assertEqual((self.read().why, self.read().why_refusal), ([], "there is no memory"))

    def test_no_image(self) -> None:
        self.says("check", [{}], 1, f"etcs_lab: {self.image}: is not a formatted image\n")
        self.assertRaisesRegex(Failed, "image: is not a formatted image$", self.read)

    def test_a_name_with_signs_that_are_escaped(self) -> None:
        self.image = self.image.with_name("it's")
        self.image.write_bytes(b"image")
        self.says("check", [{}], 1, f"etcs_lab: {self.image.parent}/it\\'s: is not a formatted image\n")
        self.assertRaisesRegex(Failed, "/it's: is not a formatted image$", self.read)

    def test_a_file_that_changes(self) -> None:
        self.image.write_bytes(b"other")
        self.assertRaisesRegex(Failed, "changed while it was read", self.read)
        self.assertEqual(len(read(self.image, is_own=True).records), 1)

    def test_no_json(self) -> None:
        for text, message in (("event 1\n", "isn't JSON"), ('{"end": "done"}\n[1\n', "isn't JSON"), ('{"end": "done"}\n1\n', "isn't an object"),
                           ('{"end": "done"}, {"end": "done"}\n', "isn't JSON"), ('[1\n2]\n', "isn't JSON")):
            self.program.with_name("etcs_lab.events").write_text(text)
            self.assertRaisesRegex(Failed, message, self.read)


class Missing(unittest.TestCase):
    """A program that isn't there."""

    def test_is_named(self) -> None:
        with patch.dict(os.environ, GAKNIFUR_ETCS="/none/etcs"):
            self.assertRaisesRegex(Failed, "^/none/etcs: No such file or directory$", etcs, "decode", "90")


class Long(unittest.TestCase):
    """Records of a long journal."""

    def test_are_those_that_were_added(self) -> None:
        records = [record(number, identity=f"IC {number}\u2028\u00e9", telegram=None if number % 2 else "90" * 104) for number in range(23)]
        for count in (0, 1, 4, 8, 9, 23):
            found = Records()
            with patch.object(reading, "AT_ONCE", 4):
                for one in records[:count]:
                    found.append(one)
                self.assertEqual((len(found), bool(found), list(found)), (count, count > 0, records[:count]))
                self.assertEqual([one for one, _ in zip(found, found)], records[:count])
                self.assertEqual([found[at] for at in range(-count, count)], 2 * records[:count])
                self.assertEqual((found[3:], found[-2:], found[::5]), (records[:count][3:], records[:count][-2:], records[:count:5]))
                self.assertRaises(IndexError, lambda: found[count])


class Scripts(unittest.TestCase):
    """A script, which compiles the sources if no program is proved."""

    def test_is_asked_once_a_process(self) -> None:
        """Whether or not there is a proved program."""
        for is_proved, place, asked in ((False, "compiled", "--is-proved\n--tried\n"), (True, "crates/etcs/out/etcs", "--is-proved\n")):
            with tempfile.TemporaryDirectory() as folder, patch.dict(os.environ), patch("gaknifur.program.script", lambda name: Path(folder, name)):
                compiled = Path(folder, place)
                compiled.parent.mkdir(parents=True, exist_ok=True)
                for path, text in ((Path(folder, "etcs"), f'#!/bin/sh\necho "$@" >>{folder}/asked\n[ "$1" = --tried ] && echo {compiled} || exit {int(not is_proved)}\n'),
                                   (compiled, "#!/bin/sh\necho ran \"$@\"\n")):
                    path.write_text(text)
                    path.chmod(0o755)
                os.environ.pop("GAKNIFUR_ETCS", None)
                self.assertEqual([etcs("decode", str(number)) for number in range(3)], [(0, [f"ran decode {number}"]) for number in range(3)])
                self.assertEqual((find("etcs"), proof.__wrapped__("etcs")), (str(compiled), is_proved))
                self.assertEqual(Path(folder, "asked").read_text(), asked)

    def test_a_campaign_takes_it(self) -> None:
        """It says so in its table, and compares programs by their digests alone."""
        with tempfile.TemporaryDirectory() as folder, patch.dict(os.environ), \
                patch("gaknifur.program.script", lambda name: Path(folder, name)), patch("gaknifur.program.proof", proof.__wrapped__):
            for name in ("etcs", "etcs_lab"):
                os.environ.pop(f"GAKNIFUR_{name.upper()}", None)
                Path(folder, name).write_text(f"#!/bin/sh\n[ \"$1\" = --tried ] && echo {folder}/compiled\n")
                Path(folder, name).chmod(0o755)
            Path(folder, "compiled").write_text("x")
            settings = campaign_table.settings_of()
            digest = "2d711642b726b04401627ca9fbac32f5c8530fb1903cc4db02258717921a4881"  # (sha256sum of x)
            self.assertEqual(settings, {"etcs_sha256": digest, "etcs_is_proved": "no", "etcs_lab_sha256": digest, "etcs_lab_is_proved": "no"})
            campaign_table.Table(Path(folder, "t.db"), settings).close()
            campaign_table.Table(Path(folder, "t.db"), settings | {"etcs_is_proved": "yes"}).close()
            with self.assertRaisesRegex(Failed, "etcs_sha256"):
                campaign_table.Table(Path(folder, "t.db"), settings | {"etcs_sha256": "other"})

    def test_that_compiles_nothing(self) -> None:
        with tempfile.TemporaryDirectory() as folder, patch.dict(os.environ), \
                patch("gaknifur.program.script", lambda name: Path(folder, name)):
            os.environ.pop("GAKNIFUR_ETCS", None)
            Path(folder, "etcs").write_text("#!/bin/sh\nexit 2\n")
            Path(folder, "etcs").chmod(0o755)
            self.assertRaisesRegex(Failed, "etcs can't be run", etcs, "decode", "90")


if __name__ == "__main__":
    unittest.main()
