"""Check that a journal is sound: the image is whole, a replay agrees, and the released outputs are those of the records."""
from collections.abc import Iterable, Sequence
from typing import Any

from ..etcs_run import Released, output_of
from ..journal.reading import Journal
from ..program import Json


class Missed(Exception):
    """An expected result didn't come: what was wanted, what was found, and the record that shows it."""

    def __init__(self, wanted: str, found: str, record: Json | None = None) -> None:
        super().__init__(f"expected: {wanted}\nfound:    {found}" + (f"\nrecord:   {record_text(record)}" if record else ""))

    def __reduce__(self) -> tuple[Any, tuple[str]]:
        """What a process sends to another one."""
        return Missed.of, (str(self),)

    @classmethod
    def of(cls, message: str) -> "Missed":
        """One with a complete message."""
        missed = cls("", "")
        missed.args = (message,)
        return missed


def record_text(record: Json) -> str:
    """A record as text."""
    if "speed_kmh" not in record:
        from .cases import derived  # (a test case takes longer to load than a life to play)
        record = derived({"speed_m_per_h": None} | record)
    speed = f", speed {record['speed_kmh']:f} km/h" if record["speed_kmh"] is not None else ""
    train = f"; the train is at {record['train_place_m']} m, speed {record['train_speed_kmh']} km/h" if "train_place_m" in record else ""
    return (f"event {record['event']} of life {record['life']} ({record['kind']}): {record['mode']}, level "
            f"{'unknown' if record['level'] is None else record['level']}, brake {record['brake']}, at {record['place_m']:f} m, "
            f"{record['time_ms']} ms{speed}, limit {record['limit_kmh']:f} km/h, shows {' '.join(record['indications']) or 'nothing'}"
            f"{train}")


def check_image(journal: Journal) -> None:
    """Fails unless the image is whole and a replay agrees with the journal."""
    if journal.refusal is not None:
        raise Missed("a journal that can be read", journal.refusal)
    if not journal.is_whole:
        raise Missed("a whole image", "etcs_lab examine reports that something is lost, damaged or contradicts")
    if journal.records:
        check_replay(journal.replay)


def check_replay(lines: Sequence[Json]) -> None:
    """Fails unless the lines of a replay agree with the journal."""
    if not lines:
        raise Missed("a replay of the journal", "etcs_lab replay refused it")
    for line in lines:
        if line.get("replay", "agrees") not in ("agrees", "not_replayed"):
            raise Missed("a replay that agrees with the journal", f"etcs_lab replay prints: {line}")
        if line.get("replay") == "not_replayed" and line.get("reason") != "before_oldest_block":
            raise Missed("a replay of all records", f"etcs_lab replay prints: {line}")
    if lines[-1].get("end") != "nothing_differs":
        raise Missed("a replay in which nothing differs", str(lines[-1]))


def check_released(released: Iterable[Released], records: Iterable[Json]) -> None:
    """Fails unless each released output is that of its record. Ignores outputs of blocks that were overwritten."""
    by_event = {record["event"]: record for record in records}
    for output in released:
        record = by_event.get(output.event)
        if record is not None and output != (wanted := output_of(record)):
            raise Missed(f"the output of its record: {wanted.text}", f"this output was released: {output.text}", record)
