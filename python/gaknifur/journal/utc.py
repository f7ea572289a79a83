"""State the time of day of a life: the UTC of its moment 0, which the user gives. The journal has no time of day, and nothing proves this one."""
import datetime
from collections.abc import Mapping

Begun = Mapping[int, datetime.datetime]
"""The UTC of moment 0 of lives."""
EXAMPLE = "1=2026-03-01T10:00:00Z"


def parsed(text: str) -> tuple[int, datetime.datetime]:
    """The life and the time of LIFE=TIME. ValueError if it isn't one, or has no zone, or a year outside 1970 to 9000."""
    life, _, time = text.partition("=")
    found = datetime.datetime.fromisoformat(time)
    if not (life.isascii() and life.isdigit()) or found.tzinfo is None or not 1970 <= found.year <= 9000:
        raise ValueError(text)
    return int(life), found.astimezone(datetime.timezone.utc)


def iso(time: datetime.datetime) -> str:
    """A time of day in ISO 8601, to the millisecond."""
    return time.isoformat(timespec="milliseconds").replace("+00:00", "Z")


def at(begun: Begun, life: int | None, moment_ms: int) -> str | None:
    """The time of day at a moment of a life; None if nothing is stated about the life."""
    return iso(begun[life] + datetime.timedelta(milliseconds=moment_ms)) if life is not None and life in begun else None


def note(begun: Begun) -> str:
    """The note of each output."""
    stated = ", ".join(f"life {life} began at {iso(time)}" for life, time in sorted(begun.items()))
    return f"UTC is as it was stated: {stated} (its moment 0). It is outside the journal and outside the proof"
