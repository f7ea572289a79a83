"""Make pandas tables of records. A column's name ends in its unit; an unknown value is missing, and never 0.

Columns of `frame`, in their order:

- `block`, `event`, `life`, `stretch`, `kind`, `time_ms`, `mode`, `level`, `brake`, and `source` if other blocks are
  included. Records of one `stretch` are of one life and follow one another without a gap.
- `shows_on_sight` and so on: each indication to the driver.
- `place_cm`, `uncertainty_cm`, `min_safe_front_cm`, `max_safe_front_cm`, `limit_m_per_h`, `limit_kmh`.
- `movement_cm`, `reading_m_per_h`: the values of a reading of the odometer.
- `speed_m_per_h`, `speed_kmh`, `over_limit_kmh`: the speed of the last reading, which holds until the next one of its
  stretch (0 from a power-up on), and how far it is above the limit after the event.
- `word`, `now_ms`, `action` and the driver's entries; `refused`: whether the action can't have been accepted.
- `nid_c`, `nid_bg`, `n_pig`, `n_total`, `m_dup`, `m_mcount`, `q_link`, `packets`, `fault`, `telegram`, `decoded`;
  `not_obeyed`: its packets that the unit uses in no mode and in no direction, each with the reason (module `unused_packets`);
  `unused`: the same as in the record.
- `causes`: the causes of its brake, and the event since which each holds; `causes_not_known`: why they aren't known;
  `trip_cause`, `trip_cause_event`: while a trip isn't acknowledged, why it was entered and by which event; `limit_cause`: the
  kind of what decides the limit; `held`: the causes as a dictionary; `trip`: the trip that isn't acknowledged; `why`: the line
  of `etcs_lab why` (module `causes`). They are missing if they aren't known.
- `utc_stated`: the time of day of `time_ms`, by what the user stated of its life (module `utc`). It is outside the journal and outside the proof.

Columns of `strays`, the records of damaged blocks and of blocks in a wrong slot: `source`; `slot` and `byte`, the place of a
record in the image; and the columns above that the record itself contains. For a damaged block the life is missing, and so is
the block if its head has no number.
"""
import itertools
from collections.abc import Callable, Iterable, Iterator, Sequence
from operator import itemgetter
from typing import Any

import numpy as np
import pandas as pd

from ..layout import SECTOR, SLOT_SECTORS
from ..program import Json
from . import causes, csv_cells, refused_actions, unused_packets, utc
from .reading import Journal
from .wording import INDICATIONS

OF_ALL = ("block", "event", "life", "kind", "time_ms", "mode", "level", "brake", "indications", "place_cm",
          "uncertainty_cm", "min_safe_front_cm", "max_safe_front_cm", "limit_m_per_h")
"""The members of every record."""
NUMBERS = ("now_ms", "running_number", "chosen_level", "length_cm", "maximum_m_per_h", "category",
           "deceleration_cm_per_s2", "reaction_ms")
TEXTS = ("word", "action", "identity", "confirmed", "acknowledged", "telegram")
OF_KIND = {
    "powerup": ("word",), "telegram": ("telegram", "decoded", "unused"), "odometer": ("movement_cm", "speed_m_per_h"),
    "clock": ("now_ms",),
    "driver": ("action", "identity", "running_number", "chosen_level", "confirmed", "acknowledged", "length_cm",
               "maximum_m_per_h", "category", "deceleration_cm_per_s2", "reaction_ms")}
"""The members of records of one kind."""
HEADER = ("NID_C", "NID_BG", "N_PIG", "N_TOTAL", "M_DUP", "M_MCOUNT", "Q_LINK")
AT_ONCE = 8192
"""The number of records that are converted at once."""
SHOWS = tuple(f"shows_{name}" for name in INDICATIONS)


def numbers(values: Sequence[int | None], kind: Any = np.int64) -> Any:
    """A column of whole numbers, some of which may be missing. They never pass through floats."""
    known = np.array([0 if value is None else value for value in values], kind)
    return pd.arrays.IntegerArray(known, np.array([value is None for value in values], bool))


def stretches(event: Sequence[int], life: Sequence[int], source: Sequence[str | None], lead: int = 0) -> Any:
    """The number of each record's stretch, from 0 on. A stretch ends before a record of another life or source, or one that
    isn't the next event. Between the first `lead` records and the next one, events are left out."""
    events, lives = np.asarray(event, np.int64), np.asarray(life, np.int64)
    sources = np.asarray(source, object)
    if not len(events):
        return np.zeros(0, np.int64)
    breaks = np.diff(events) != 1
    breaks[:lead] = False
    breaks |= (np.diff(lives) != 0) | (sources[1:] != sources[:-1])
    return np.concatenate([[0], np.cumsum(breaks)])


def held_speed(kind: Sequence[str], reading: Any, stretch: Any) -> Any:
    """The speed of the last reading of a stretch; 0 from a power-up on."""
    column = pd.Series(reading.copy())
    column[(np.asarray(kind, object) == "powerup")] = 0
    return column.groupby(stretch).ffill().array


def decoded_columns(decoded: Sequence[Json | None]) -> dict[str, Any]:
    """Header, packets and fault of the telegrams."""
    heads = [telegram["header"] if telegram and "header" in telegram else {} for telegram in decoded]
    columns: dict[str, Any] = {name.lower(): numbers([head.get(name) for head in heads]) for name in HEADER}
    columns["packets"] = [
        " ".join(str(packet["packet"]) for packet in telegram["packets"]) if telegram and "packets" in telegram else None
        for telegram in decoded]
    columns["fault"] = [telegram["refused"]["name"] if telegram and "refused" in telegram else None for telegram in decoded]
    return columns


def cause_columns(journal: Journal, records: Iterable[causes.Row]) -> dict[str, Any]:
    """For each record the causes of its brake, why they aren't known, the trip that isn't acknowledged, what decides its limit, and
    its line of `etcs_lab why`."""
    found: dict[str, list[Any]] = {name: [] for name in ("causes_not_known", "limit_cause", "held", "trip", "why")}
    for one in causes.known(journal, records):
        for name, value in zip(found, (one.reason, one.limit, one.held, one.trip, one.line)):
            found[name].append(value)
    texts = {id(held): causes.text(held) for held in found["held"]}
    trips = found["trip"]
    return {"causes": [texts[id(held)] for held in found["held"]], "causes_not_known": found["causes_not_known"],
            "trip_cause": [trip.cause if trip else None for trip in trips],
            "trip_cause_event": numbers([trip.event if trip else None for trip in trips]),
            "limit_cause": found["limit_cause"], "held": found["held"], "trip": trips, "why": found["why"]}


def by_kind(records: Sequence[Json]) -> dict[str, list[Any]]:
    """The members that only records of one kind have; None in all others."""
    columns: dict[str, list[Any]] = {name: [None] * len(records) for names in OF_KIND.values() for name in names}
    for row, record in enumerate(records):
        for name in OF_KIND.get(record["kind"], ()):
            columns[name][row] = record.get(name)
    return columns


def shown_columns(indications: Sequence[Sequence[str]]) -> dict[str, Any]:
    """Whether each indication is shown. There are few different lists of indications, so each is looked up once."""
    lists: dict[tuple[str, ...], int] = {}
    which = np.array([lists.setdefault(tuple(shown), len(lists)) for shown in indications], np.int64)
    return {f"shows_{name}": np.array([name in shown for shown in lists], bool)[which] for name in INDICATIONS}


class Texts:
    """Makes columns of objects in which equal texts are the same object."""

    def __init__(self) -> None:
        self.known: dict[str, str] = {}

    def column(self, values: Iterable[Any]) -> Any:
        """A column."""
        found = [self.known.setdefault(one, one) if isinstance(one, str) else one for one in values]
        column = np.empty(len(found), object)
        column[:] = found
        return column


def columns_of(records: Sequence[Json], texts: Texts) -> dict[str, Any]:
    """The members of some records, as columns."""
    rows = list(map(itemgetter(*OF_ALL), records))
    members: dict[str, Any] = dict(zip(OF_ALL, zip(*rows) if rows else [()] * len(OF_ALL)))
    some = by_kind(records)
    columns: dict[str, Any] = {name: np.asarray(members[name], np.int64) for name in ("block", "event", "life", "time_ms")}
    columns |= {name: texts.column(members[name]) for name in ("kind", "mode", "brake")}
    columns["source"] = texts.column(record.get("source") for record in records)
    columns |= shown_columns(members["indications"])
    columns |= {name: numbers(members[name]) for name in ("level", "place_cm", "min_safe_front_cm", "max_safe_front_cm", "limit_m_per_h")}
    columns |= {"uncertainty_cm": numbers(members["uncertainty_cm"], np.uint64)}
    columns |= {"movement_cm": numbers(some["movement_cm"]), "reading_m_per_h": numbers(some["speed_m_per_h"])}
    columns |= {name: numbers(some[name]) for name in NUMBERS}
    columns |= {name: texts.column(some[name]) for name in (*TEXTS, "decoded", "unused")}
    columns["not_obeyed"] = texts.column(unused_packets.column(some["unused"]))
    heads = decoded_columns(some["decoded"])
    return columns | {name: texts.column(one) if isinstance(one, list) else one for name, one in heads.items()}


def empty_like(part: Any, count: int) -> Any:
    """An empty column of `count` values of the type of a part. Whole numbers are all missing at first, and need no memory."""
    if isinstance(part, pd.arrays.IntegerArray):
        return pd.arrays.IntegerArray(np.zeros(count, part._data.dtype), np.ones(count, bool))
    return np.empty(count, part.dtype)


def put(column: Any, at: int, part: Any) -> None:
    """Copies a part to its place in a column."""
    if not isinstance(part, pd.arrays.IntegerArray):
        column[at:at + len(part)] = part
    elif not part._mask.all():
        column._data[at:at + len(part)] = part._data
        column._mask[at:at + len(part)] = part._mask


def all_columns(records: Sequence[Json]) -> dict[str, Any]:
    """The members of all records, as columns. Only AT_ONCE records are converted at a time, so that a long journal is never in memory
    as objects, and each column is allocated once, at its full length."""
    texts, left, found = Texts(), iter(records), dict[str, Any]()
    for at in range(0, max(len(records), 1), AT_ONCE):
        for name, part in columns_of(list(itertools.islice(left, AT_ONCE)), texts).items():
            if name not in found:
                found[name] = empty_like(part, len(records))
            put(found[name], at, part)
    return found


ORDER = ("block", "event", "life", "stretch", "kind", "time_ms", "mode", "level", "brake", "source", *SHOWS, "place_cm", "uncertainty_cm",
         "min_safe_front_cm", "max_safe_front_cm", "limit_m_per_h", "limit_kmh", "movement_cm", "reading_m_per_h", "speed_m_per_h",
         "speed_kmh", "over_limit_kmh", *NUMBERS, *TEXTS, *(name.lower() for name in HEADER), "packets", "fault", "not_obeyed", "decoded",
         "unused")
"""The columns before those of causes."""


def frame(journal: Journal) -> pd.DataFrame:
    """One row for each record, in the order of `etcs_lab events`."""
    found = all_columns(journal.records)
    found["stretch"] = stretches(found["event"], found["life"], found["source"], journal.lead)
    found["limit_kmh"] = found["limit_m_per_h"].astype("Float64") / 1000
    found["speed_m_per_h"] = held_speed(found["kind"], found["reading_m_per_h"], found["stretch"])
    found["speed_kmh"] = found["speed_m_per_h"].astype("Float64") / 1000
    found["over_limit_kmh"] = (found["speed_m_per_h"] - found["limit_m_per_h"]).astype("Float64") / 1000
    by_cause = cause_columns(journal, zip(map(int, found["event"]), found["kind"], found["brake"], found["source"]))
    if not any(found["source"]):
        del found["source"]
    columns: dict[str, Any] = {name: found.pop(name) for name in ORDER if name in found}
    columns |= by_cause | {"utc_stated": [utc.at(journal.utc, int(life), int(time_ms)) for life, time_ms in zip(columns["life"], columns["time_ms"])]}
    table = pd.DataFrame(columns, copy=False)  # (each column was made for it)
    table.insert(table.columns.get_loc("action") + 1, "refused", refused_actions.refused(table))
    return table


def before(table: pd.DataFrame, name: str) -> Any:
    """The column one record earlier; missing at the beginning of a stretch."""
    return table[name].shift().where(table["stretch"] == table["stretch"].shift())


def after(table: pd.DataFrame, name: str) -> Any:
    """A column of whole numbers one record later; missing at the end of a stretch."""
    return table[name].astype("Int64").shift(-1).where(table["stretch"] == table["stretch"].shift(-1))


def interventions(table: pd.DataFrame) -> pd.DataFrame:
    """One row for each run of records of a stretch that command a brake, in their order.

    `first_row` and `last_row` are rows of the table. `steps` are the commands in their order, such as "service emergency".
    `goes_on` says that the last record of its stretch still commands it. `causes` is a list of `causes.Held`, `trips` one of
    `causes.Trip`.
    """
    brake, stretch = table["brake"].to_numpy(object), table["stretch"].to_numpy()
    commanded = brake != "none"
    new = np.ones(len(table), bool)
    new[1:] = (stretch[1:] != stretch[:-1]) | ~commanded[:-1]
    firsts = np.flatnonzero(commanded & new)
    last = np.ones(len(table), bool)
    last[:-1] = new[1:] & commanded[1:] | ~commanded[1:] | (stretch[1:] != stretch[:-1])
    lasts = np.flatnonzero(commanded & last)
    rows = [intervention(table, brake, int(first), int(last)) for first, last in zip(firsts, lasts)]
    return pd.DataFrame(rows, columns=INTERVENTION)


INTERVENTION = ("first_row", "last_row", "life", "first_block", "first_event", "last_event", "brake", "worst", "steps",
                "kind", "time_ms", "until_ms", "place_cm", "until_cm", "mode_before", "mode", "speed_kmh", "limit_kmh",
                "most_over_kmh", "most_over_row", "goes_on", "causes", "trips", "causes_not_known")


def intervention(table: pd.DataFrame, brake: Any, first: int, last: int) -> Json:
    """The row of an intervention from one row of the table to another one."""
    commands = brake[first:last + 1]
    turns = np.flatnonzero(np.concatenate([[True], commands[1:] != commands[:-1]]))
    over = pd.to_numeric(table["over_limit_kmh"].iloc[first:last + 1]).astype(float).to_numpy()
    farthest = None if np.isnan(over).all() else int(np.nanargmax(over))
    stretch = table["stretch"]
    has_before = first > 0 and stretch.iat[first - 1] == stretch.iat[first]
    value: Callable[[str, int], Any] = lambda name, row: table[name].iat[row]
    return {
        "first_row": first, "last_row": last, "life": value("life", first), "first_block": value("block", first),
        "first_event": value("event", first), "last_event": value("event", last), "brake": commands[0],
        "worst": "emergency" if (commands == "emergency").any() else "service",
        "steps": " ".join(commands[turns]), "kind": value("kind", first), "time_ms": value("time_ms", first),
        "until_ms": value("time_ms", last), "place_cm": value("place_cm", first), "until_cm": value("place_cm", last),
        "mode_before": value("mode", first - 1) if has_before else None, "mode": value("mode", first),
        "speed_kmh": value("speed_kmh", first), "limit_kmh": value("limit_kmh", first),
        "most_over_kmh": None if farthest is None else over[farthest],
        "most_over_row": None if farthest is None else first + farthest,
        "goes_on": last + 1 == len(table) or stretch.iat[last + 1] != stretch.iat[last],
        "causes": causes.of_run(table["event"].iloc[first:last + 1], table["held"].iloc[first:last + 1]),
        "trips": list(dict.fromkeys(trip for trip in table["trip"].iloc[first:last + 1] if trip is not None)),
        "causes_not_known": value("causes_not_known", first)}


def worst_first(found: pd.DataFrame) -> pd.DataFrame:
    """Interventions: those with the emergency brake first, and of each brake those farthest above the limit first."""
    over = pd.to_numeric(found["most_over_kmh"]).astype(float).fillna(-np.inf).to_numpy()
    return found.iloc[np.lexsort((-over, found["worst"].to_numpy(object) != "emergency"))]


def trips(table: pd.DataFrame) -> Any:
    """The rows of the records that entered Trip."""
    mode = before(table, "mode")
    return table.index[(table["mode"] == "TR") & mode.notna() & (mode != "TR")]


def some_of(table: pd.DataFrame, chosen: Any, names: Sequence[str]) -> pd.DataFrame:
    """Some columns of the rows with True. (Selecting rows of the whole table would copy all of it first, since pandas keeps columns of
    one type together.)"""
    return pd.DataFrame({name: table[name][chosen] for name in names})


def is_notable(table: pd.DataFrame) -> Any:
    """Whether a record begins a stretch, changes mode, level, brake or an indication, or is a telegram, an action of the
    driver or a power-up."""
    same = (table["stretch"] == table["stretch"].shift()).to_numpy()
    columns = [table["mode"], table["brake"], table["level"].fillna(-1).astype(int)] + [table[name] for name in SHOWS]
    for column in columns:
        same &= (column == column.shift()).to_numpy(bool)
    return ~same | ~table["kind"].isin(["odometer", "clock"]).to_numpy()


def slot_of(record: Json) -> int:
    """The slot of a record, by its byte (docs/reference/format.md)."""
    return int(record["byte"] // SECTOR - 1) // SLOT_SECTORS


def strays(journal: Journal) -> pd.DataFrame:
    """One row for each record of a damaged block or of a block in a wrong slot, in the order of `etcs_lab events`."""
    records = journal.strays
    some = by_kind(records)
    columns: dict[str, Any] = {"source": [one["source"] for one in records], "slot": [slot_of(one) for one in records]}
    for name in ("byte", *OF_ALL):
        columns |= shown_columns([one[name] for one in records]) if name == "indications" else {name: [one[name] for one in records]}
    columns |= {"movement_cm": some["movement_cm"], "reading_m_per_h": some["speed_m_per_h"]}
    columns |= {name: some[name] for name in (*NUMBERS, *TEXTS)} | decoded_columns(some["decoded"])
    return pd.DataFrame({name: pd.Series(values, dtype=object) for name, values in columns.items()})


def written(table: pd.DataFrame) -> pd.DataFrame:
    """The table for output, without the columns `decoded`, `unused`, `held`, `trip` and `why`."""
    return table.drop(columns=["decoded", "unused", "held", "trip", "why"], errors="ignore")


def guarded_table(table: pd.DataFrame) -> pd.DataFrame:
    """The table with texts that no spreadsheet takes for formulas (module `csv_cells`). Few columns have such texts."""
    texts = [name for name in table if table[name].dtype == object and any(isinstance(one, str) and one.startswith(csv_cells.FORMULA)
                                                                           for one in set(table[name].dropna()))]
    return table.assign(**{name: table[name].map(csv_cells.guarded) for name in texts}) if texts else table


def csv_parts(table: pd.DataFrame) -> Iterator[str]:
    """The table as CSV, AT_ONCE rows at a time; unknown values are empty."""
    for at in range(0, max(len(table), 1), AT_ONCE):
        yield guarded_table(written(table.iloc[at:at + AT_ONCE])).to_csv(index=False, header=at == 0, lineterminator="\n")


def csv_text(table: pd.DataFrame) -> str:
    """The table as CSV, in one text."""
    return "".join(csv_parts(table))
