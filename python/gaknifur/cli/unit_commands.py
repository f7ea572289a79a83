"""The commands about other units: `serve` and `against` (docs/howto/oracle.md)."""
import sys
from types import SimpleNamespace

from ..cases import oracle
from ..journal.reading import Progress, read
from ..program import NOT_WHOLE, REFUSED, Failed
from ..units import own_unit
from ..units.other_unit import within_of, words_of
from ..units.protocol import line_of


def serve(given: SimpleNamespace, progress: Progress) -> None:
    """Runs `lab serve`."""
    own_unit.serve_streams()


def against(given: SimpleNamespace, progress: Progress) -> int:
    """Runs `lab against`."""
    within_s = within_of(given.answer_within)
    words_of(given.command)
    journal = read(given.image, progress=progress)
    if not journal.is_whole or not journal.records:
        raise Failed(f"{given.image}: the journal is damaged or empty, so the other unit was not started", REFUSED)
    comparison = oracle.ask(given.command, journal.name, list(journal.records), within_s)
    for line in oracle.lines(comparison):
        sys.stdout.write(line_of(line.members) if given.json else line.text + "\n")
    sys.stdout.flush()
    return 0 if comparison.agrees else NOT_WHOLE
