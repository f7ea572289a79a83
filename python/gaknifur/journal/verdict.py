"""The verdict of an image: what `etcs_lab check` and plausibility find in it, as the same sentences for every command. docs/reference/lab.md
(The verdict of an image) has the definition.
"""
from dataclasses import dataclass, field

from ..program import NOT_WHOLE, WHOLE, Json
from . import causes, plausibility, sizes
from .reading import Journal

OVERWRITTEN = "before_oldest_block"
"""Why a life whose beginning the ring has overwritten isn't replayed; this is no loss."""


@dataclass(frozen=True)
class Verdict:
    """What is found in an image."""

    faults: list[str] = field(default_factory=list)
    """What isn't whole, or differs from the replay."""
    implausible: list[Json] = field(default_factory=list)
    """The implausible values, as in `lab check`."""

    @property
    def sentences(self) -> list[str]:
        """One sentence for the implausible values, and one for the faults; empty if nothing is found."""
        more = f", and {len(self.implausible) - 1} more" if len(self.implausible) > 1 else ""
        return [*[f"{plausibility.text(one)}{more}" for one in self.implausible[:1]], *(["; ".join(self.faults)] if self.faults else [])]

    @property
    def status(self) -> int:
        """The exit status."""
        return NOT_WHOLE if self.faults or self.implausible else WHOLE

    def as_json(self) -> Json:
        """The verdict as JSON."""
        return {"verdict": {"status": self.status, "says": self.sentences}}


def of(journal: Journal) -> Verdict:
    """The verdict of a journal, with the default thresholds. It is computed once. Of a part, only what is implausible in it counts."""
    if journal.verdict is None:
        records = (one for one in journal.records if one.get("source", "journal") == "journal")
        journal.verdict = Verdict(faults(journal), plausibility.judge(records, train=journal.train).findings)
    return journal.verdict


def faults(journal: Journal) -> list[str]:
    """What isn't whole, or differs from the replay; empty if `etcs_lab examine` and `etcs_lab replay` both find nothing."""
    found = []
    if journal.refusal is not None:
        found.append(f"no event can be listed: {journal.refusal}")
    elif not journal.is_whole:
        found.append(f"something is lost, damaged or contradicts{size_text(journal)}")
    differ = journal.differences
    if differ:
        more = f", and {len(differ) - 1} more" if len(differ) > 1 else ""
        found.append(f"the replay differs: life {differ[0]['life']}, {place_of(differ[0])}, in {differ[0]['field']}{more}")
    if not found:
        found += unreplayed(journal)
    return found


def size_text(journal: Journal) -> str:
    """The text for a file that hasn't the size of its slots; empty for others."""
    slots = journal.image["slots"]
    why = sizes.wrong(journal.image["bytes"], slots, journal.slots_given is not None) if slots else ""
    return f": the file {why} The records are those of each readable slot" if why else ""


def unreplayed(journal: Journal) -> list[str]:
    """What a replay couldn't replay in an image that is whole and doesn't differ."""
    left = [line for line in journal.not_replayed if line["reason"] != OVERWRITTEN]
    if left:
        more = f", and {len(left) - 1} more runs" if len(left) > 1 else ""
        return [f"events {left[0]['first_event']} to {left[0]['last_event']} can't be replayed{more}: "
                f"{causes.REASONS.get(left[0]['reason'], left[0]['reason'])}"]
    is_same = not journal.replay or journal.replay[-1].get("end") == "nothing_differs"
    return [] if is_same else ["the replay reports that something differs or is lost"]


def place_of(line: Json) -> str:
    """The place of a difference."""
    return f"event {line['event']}" if line["replay"] == "record_differs" else f"the head of block {line['block']}"
