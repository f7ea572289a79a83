"""Balise groups in telegrams: the direction in which they were passed, and the groups that they announce."""
import unittest

from gaknifur.journal.demands import directions
from gaknifur.journal.groups import Packet, direction, links_of, packets_of

from .samples import AUTHORITY, record


class Directions(unittest.TestCase):
    """The direction of a group."""

    def test_by_its_balises_or_else_as_announced(self) -> None:
        for places, announced, wanted in (((0, 1), None, 1), ((1, 0), None, 0), ((2, 0, 1), 1, 0), ((1, 2, 0), None, 1), ((0, 2), 0, 1), ((1,), 0, 0), ((0,), 1, 1), ((0,), None, None),
                                          ((), None, None)):
            self.assertEqual(direction(places, announced), wanted, (places, announced))

    def test_in_a_journal(self) -> None:
        for places, wanted in (((0, 1), 1), ((1, 0), 0)):
            headers = [AUTHORITY["header"] | {"N_PIG": place} for place in places]
            records = [record(1 + at, "telegram", decoded={"header": one, "packets": []}) for at, one in enumerate(headers)]
            self.assertEqual(set(directions(records).values()), {wanted})


class Links(unittest.TestCase):
    """Announced groups."""

    def test_places_and_countries_go_on(self) -> None:
        names = ("Q_DIR", "Q_SCALE", "D_LINK", "NID_BG", "Q_LINKORIENTATION", "Q_LINKREACTION", "Q_LOCACC",
                 "D_LINK", "NID_C", "NID_BG", "Q_LINKORIENTATION", "Q_LINKREACTION", "Q_LOCACC", "D_LINK", "NID_BG", "Q_LINKORIENTATION", "Q_LINKREACTION", "Q_LOCACC")
        numbers = (1, 1, 100, 7, 1, 0, 5, 50, 9, 8, 0, 1, 12, 20, 3, 1, 2, 5)
        packet = Packet(5, tuple(zip(names, numbers)), "/p")
        self.assertEqual([(one.group, one.place_cm, one.accuracy_cm, one.nominal, one.reaction) for one in links_of(packet, 1, 1_000)],
                         [((1, 7), 11_000, 500, 1, 0), ((9, 8), 16_000, 1_200, 0, 1), ((9, 3), 18_000, 500, 1, 2)])

    def test_packets_up_to_infill(self) -> None:
        known, skipped, infill = {"packet": 5, "fields": [["Q_DIR", 1]]}, {"packet": 137, "fields": [], "skipped_bits": 24}, {"packet": 136, "fields": []}
        self.assertEqual(packets_of({"packets": [skipped, known, infill, known]}, "/p"), (Packet(5, (("Q_DIR", 1),), "/p"),))


if __name__ == "__main__":
    unittest.main()
