"""A journal without the driver's identity, the running number, the image's name and digest, and whose it is: for `--anonymous`."""
from dataclasses import replace
from pathlib import Path
from typing import TYPE_CHECKING, Any

from . import verdict
from .reading import Journal, Records
from .wording import LEFT_OUT

if TYPE_CHECKING:
    import pandas as pd

ENTRIES = ("identity", "running_number")


def without(value: Any) -> Any:
    """A value of JSON in which each identity and running number is replaced."""
    if isinstance(value, dict):
        return {name: LEFT_OUT if name in ENTRIES and one is not None else without(one) for name, one in value.items()}
    return [without(one) for one in value] if isinstance(value, list) else value


def of(journal: Journal) -> Journal:
    """The journal without these; a running number is missing. Its verdict is that of the journal with them."""
    examination = without(journal.examination)
    examination["image"]["sha256"] = LEFT_OUT
    records = Records()
    for one in journal.records:
        records.append(without(one) | {"running_number": None} if any(one.get(name) is not None for name in ENTRIES) else one)
    return replace(journal, path=Path(LEFT_OUT), examination=examination, records=records, replay=without(journal.replay), strays=[], identity=None,
                   verdict=verdict.of(journal))


def frame(journal: Journal) -> "pd.DataFrame":
    """The table of such a journal."""
    from . import tables
    table = tables.frame(journal)
    table["running_number"] = table["running_number"].astype(object).mask(table["action"] == "enter_running_number", LEFT_OUT)
    return table
