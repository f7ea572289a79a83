"""What the size of a file says about the image in it, by numbers worked out by hand: 512 bytes, and 3,072 for each slot."""
import os
import unittest

from gaknifur import layout
from gaknifur.journal import sizes, verdict
from gaknifur.journal.reading import check_size, read
from gaknifur.program import REFUSED, Failed

from .samples import InFolder, journal, record

OF_16 = 49_664
AGAIN = "and here are 30,000. Copy it from the medium again."
READS = "slots: --slots {0} of check, report and why reads it so."


class Sizes(InFolder):
    """Sizes of images."""

    def test_the_right_size(self) -> None:
        self.assertEqual([sizes.wrong(OF_16, 16), sizes.wrong(6_656, 2), sizes.wrong(3_221_225_984, 1_048_576)], [""] * 3)

    def test_another_size(self) -> None:
        of = "by its first sector it has 16 slots, so 49,664 bytes"
        for size, slots, is_given, wanted in (
                (30_000, 16, False, f"ends early: {of}, {AGAIN}"),
                (OF_16 - 3_072, 16, False, f"ends early: {of}, and here are 46,592. Copy it from the medium again. By its size it could have 15 {READS.format(15)}"),
                (OF_16 + 1, 16, False, f"is longer than its journal: {of}, and here are 49,665. Copy its first 49,664 bytes (head -c 49664), and read the copy."),
                (30_000, 16, True, "hasn't the size of 16 slots: they have 49,664 bytes, and here are 30,000.")):
            self.assertEqual(sizes.wrong(size, slots, is_given), wanted)

    def test_the_slots_that_a_size_could_have(self) -> None:
        self.assertEqual([sizes.could_have(size) for size in (0, 3_584, 6_655)], [""] * 3)
        for size, slots in ((6_656, 2), (30_000, 9), (OF_16, 16), (OF_16 + 3_071, 16), (1 << 40, 1_048_576)):
            self.assertEqual(sizes.could_have(size), f"By its size it could have {slots:,} {READS.format(slots)}")

    def test_of_a_verdict(self) -> None:
        lost = "something is lost, damaged or contradicts"
        image = {"bytes": 30_000, "slots": 16}
        cut = journal(record(0, "powerup"), whole=False, image=image)
        self.assertEqual(verdict.faults(cut), [f"{lost}: the file ends early: by its first sector it has 16 slots, so 49,664 bytes, {AGAIN} "
                                               "The records are those of each readable slot"])

    def test_a_file_that_is_longer_than_any_image_is_not_read(self) -> None:
        image = self.room / "image"
        image.write_bytes(layout.first_sector(16))
        os.truncate(image, 1 << 40)
        for slots, why in ((None, "is longer than its journal: by its first sector it has 16 slots"), (4, "hasn't the size of 4 slots")):
            with self.assertRaisesRegex(Failed, f"image: {why}") as caught:
                read(image, slots=slots)
            self.assertEqual(caught.exception.status, REFUSED)
        os.truncate(image, OF_16 + 3_000)
        check_size(image)


if __name__ == "__main__":
    unittest.main()
