"""A journal as `etcs_lab` might say it, made without any program, and tests in a folder of their own."""
import tempfile
import unittest
from pathlib import Path
from typing import Any

from gaknifur.journal._words import CAUSES
from gaknifur.journal.reading import Journal
from gaknifur.program import Json

AUTHORITY: Json = {
    "header": {"Q_UPDOWN": 1, "M_VERSION": 16, "Q_MEDIA": 0, "N_PIG": 0, "N_TOTAL": 1, "M_DUP": 0, "M_MCOUNT": 255,
               "NID_C": 1, "NID_BG": 2, "Q_LINK": 1},
    "packets": [{"packet": 12, "fields": [["NID_PACKET", 12], ["Q_DIR", 2], ["L_PACKET", 73], ["Q_SCALE", 1],
                                          ["L_SECTION", 200], ["L_ENDSECTION", 100]]}],
    "bits": 243}


class InFolder(unittest.TestCase):
    """Tests in a folder of their own."""

    def setUp(self) -> None:
        self.room = Path(self.enterContext(tempfile.TemporaryDirectory()))


def record(event: int, kind: str = "clock", **more: Any) -> Json:
    """A record; what isn't reported is usual."""
    usual = {"block": 1 + event // 8, "event": event, "life": 1, "kind": kind, "time_ms": 0, "mode": "FS", "level": 1,
             "brake": "none", "indications": [], "place_cm": 100 * event, "uncertainty_cm": 500,
             "min_safe_front_cm": 100 * event - 500, "max_safe_front_cm": 100 * event + 500, "limit_m_per_h": 40_000}
    of_kind: dict[str, Json] = {"clock": {"now_ms": 0}, "powerup": {"word": "unknown"}}
    return usual | of_kind.get(kind, {}) | more


def reading(event: int, speed: int, **more: Any) -> Json:
    """A reading of the odometer."""
    return record(event, "odometer", movement_cm=100, speed_m_per_h=speed, **more)


def action(event: int, what: str, **more: Any) -> Json:
    """An action of the driver."""
    return record(event, "driver", action=what, **more)


def line(event: int, brake: str, **since: int) -> Json:
    """What `etcs_lab why` says about an event: the causes, each since an event."""
    return {"event": event, "brake": brake, "limit_m_per_h": 40_000, "speed_m_per_h": 0, "backward_cm": 0,
            "allowed_backward_cm": 200, **dict.fromkeys(CAUSES), **since}


def journal(*records: Json, **more: Any) -> Journal:
    """A journal of these records."""
    examination: Json = {
        "image": {"bytes": 12_800, "sectors": 25, "slots": 4, "whole_slots": 4, "trailing_bytes": 0, "sha256": "ab" * 32},
        "slots": [], "between": [],
        "journal": {"first_block": 1, "newest_block": 1, "first_event": 0, "last_event": len(records) - 1, "lives": 1},
        "power_up": {"opens": True, "refusal": None, "kept": None}, "whole": True}
    return Journal(Path("image"), examination | more, list(records))
