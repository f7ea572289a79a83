"""Make the report of one journal: one HTML file without scripts that loads nothing from the network, and reads the same on paper."""
import functools
import itertools
from collections.abc import Iterator
from dataclasses import dataclass, field
from typing import Any

import jinja2
import numpy as np
import pandas as pd

from .. import program
from ..program import REFUSED, Failed, Json
from . import braking, braking_charts, causes, charts, plausibility, summary, tables, utc, wording
from .charts import Picture
from .extent import Extent
from .reading import Journal, Progress, silent

MOST_ROWS, MOST_WINDOWS, MOST_LIVES, MOST_LISTED, AROUND, SHORT = 1500, 12, 12, 400, 25, 400
MOST_STRAYS = 800
FIRST_LISTED = 20


@dataclass
class Life:
    """A life on the page."""

    life: int
    table: pd.DataFrame
    pictures: list[str] = field(default_factory=list)
    is_vast: bool = False

    def summary(self) -> Json:
        """Its row in the table of lives."""
        table = self.table
        speed, way = table["speed_kmh"].dropna(), table["movement_cm"].fillna(0).abs().sum()
        return {"life": self.life, "events": len(table), "first": table["event"].iat[0], "last": table["event"].iat[-1],
                "row": table.index[0], "modes": " ".join(dict.fromkeys(table["mode"])), "way_m": float(way) / 100,
                "fastest_kmh": float(speed.max()) if len(speed) else None, "last_ms": int(table["time_ms"].max())}


def lives_of(table: pd.DataFrame) -> list[Life]:
    """The lives of a table, in order. If the records of each life are contiguous, no column is copied."""
    life = table["life"].to_numpy()
    firsts = np.flatnonzero(np.diff(life, prepend=-1))
    if len(firsts) != len(np.unique(life)):
        return [Life(int(number), part) for number, part in table.groupby("life", sort=True)]
    found = [Life(int(life[first]), table.iloc[first:last]) for first, last in zip(firsts, [*firsts[1:], len(table)])]
    return sorted(found, key=lambda one: one.life)


def groups_of(part: pd.DataFrame) -> list[tuple[int, str]]:
    """The places of telegrams, and their groups."""
    heard = tables.some_of(part, (part["kind"] == "telegram") & part["place_cm"].notna(), ("place_cm", "nid_c", "nid_bg"))
    return [(int(place), f"{country}/{group}" if group is not pd.NA else "not decoded")
            for place, country, group in zip(heard["place_cm"], heard["nid_c"], heard["nid_bg"])]


def ends_of(part: pd.DataFrame) -> list[tuple[int, str]]:
    """The ends of authorities, as their telegrams announce them. `etcs_lab` doesn't report yet whether one came into force."""
    heard = tables.some_of(part, (part["kind"] == "telegram") & part["place_cm"].notna(), ("event", "place_cm", "decoded"))
    found = []
    for event, place, decoded in zip(heard["event"], heard["place_cm"], heard["decoded"]):
        ahead = wording.announced_end_cm(decoded)
        if ahead is not None:
            found.append((int(place) + ahead, f"end announced by event {event}"))
    return found


def marks_of(part: pd.DataFrame, shown: set[int]) -> list[int]:
    """The rows with a circle: all that the page lists, or only the changes of mode and brake if these are too many."""
    notable = [row for row in part.index[tables.is_notable(part)] if row in shown]
    if len(notable) <= charts.MOST_MARKS:
        return notable
    changed = (part["brake"] != part["brake"].shift()) | (part["mode"] != part["mode"].shift())
    return [row for row in part.index[changed] if row in shown][:charts.MOST_MARKS]


def draw_life(life: Life, shown: set[int], anchors: set[int]) -> None:
    """Draws the pictures of a life: over distance and over time, or over events if neither shows anything."""
    part = life.table
    if len(part) < 2:
        return
    life.is_vast = len(part) > charts.MOST_DRAWN
    marks = [] if life.is_vast else marks_of(part, shown)
    wants = []
    if part["place_cm"].nunique() > 1:
        wants.append(Picture("distance", f"Life {life.life}: speed over distance", f"d{life.life}",
                             groups=groups_of(part), ends=ends_of(part)))
    if part["time_ms"].nunique() > 2:
        wants.append(Picture("time", f"Life {life.life}: speed over time", f"t{life.life}"))
    if len(wants) < 2 and len(part) <= SHORT:
        wants.append(Picture("event", f"Life {life.life}: speed by event", f"e{life.life}", height=3.4))
    for number, picture in enumerate(wants):
        picture.has_anchors, picture.marks, picture.is_vast = number == 0, marks, life.is_vast
        life.pictures.append(charts.draw(part, picture))
    if wants:
        anchors.update(marks[:charts.MOST_MARKS])


def farthest(found: pd.DataFrame) -> pd.DataFrame:
    """The interventions that get a picture: those farthest above the limit, in their order, without those of power-ups."""
    chosen = found[found["kind"] != "powerup"]
    over = pd.to_numeric(chosen["most_over_kmh"]).fillna(-1e9).astype(float)
    return chosen.loc[sorted(over.nlargest(MOST_WINDOWS).index)]


def windows(table: pd.DataFrame, found: pd.DataFrame) -> Iterator[str]:
    """A picture of the beginning of each of these interventions."""
    stretch = table["stretch"].to_numpy()
    for _, one in found.iterrows():
        at = int(table.index.get_indexer([one["first_row"]])[0])
        part = table.iloc[max(at - AROUND, 0):at + AROUND + 1]
        part = part[part["stretch"] == stretch[at]]
        where = "" if one["place_cm"] is pd.NA else f" at {one['place_cm'] / 100:,.1f} m"
        yield charts.draw(part, Picture("event", f"Event {one['first_event']}: {one['brake']} brake{where}",
                                       f"w{one['first_row']}", marks=[one["first_row"]], has_anchors=False, height=3.0))


def listed(table: pd.DataFrame, linked: set[int]) -> pd.DataFrame:
    """The rows that the page lists, with their lives: first those that are linked to, then changes of mode and brake, and then other
    notable rows, up to MOST_ROWS."""
    notable = tables.is_notable(table)
    changed = ((table["brake"] != table["brake"].shift()) | (table["mode"] != table["mode"].shift())).to_numpy()
    rank = np.where(changed, 1, np.where(notable, 2, 3))
    rank[np.isin(table.index.to_numpy(), list(linked))] = 0
    rows = np.flatnonzero(rank < 3)
    kept = rows[np.argsort(rank[rows], kind="stable")][:MOST_ROWS]
    return table["life"].iloc[np.sort(kept)].to_frame()


def row_of(record: Json, row: int, mode_before: Any, refused: Any) -> Json:
    """A record as a row of the page."""
    return {"row": row, "record": record, "text": wording.event_text(record), "is_new": mode_before != record["mode"],
            "shows": [wording.INDICATIONS.get(name, name) for name in record["indications"]],
            "refused": refused is not pd.NA and bool(refused)}


def event_rows(journal: Journal, table: pd.DataFrame, shown: pd.DataFrame) -> list[Json]:
    """The rows of the page's events, with their speeds."""
    mode_before, refused, speed = tables.before(table, "mode"), table["refused"], table["speed_kmh"]
    rows = []
    for row in shown.index:
        members = row_of(journal.records[row], row, mode_before.at[row], refused.at[row])
        members |= {"speed_kmh": speed.at[row], "begins": pd.isna(mode_before.at[row])}
        rows.append(members)
    return rows


def stray_rows(journal: Journal) -> list[Json]:
    """The rows of records of blocks that are damaged or in a wrong slot."""
    return [{"record": one, "slot": tables.slot_of(one), "text": wording.event_text(one),
             "shows": [wording.INDICATIONS.get(name, name) for name in one["indications"]]}
            for one in journal.strays[:MOST_STRAYS]]


def top_of(table: pd.DataFrame, name: str) -> Json | None:
    """The greatest value of a column, and its row."""
    values = table[name].astype("Float64").to_numpy(float, na_value=np.nan)
    if np.isnan(values).all():
        return None
    at = int(np.nanargmax(values))
    return {"value": float(values[at]), "row": int(table.index[at]), "event": int(table["event"].iat[at])}


def limit_text(table: pd.DataFrame, row: Any) -> str:
    """What decides the limit at a row; empty if it isn't known."""
    line = table["why"].at[row]
    return causes.limit_text(line) if line else ""


def utc_texts(table: pd.DataFrame) -> Json:
    """The time of day of each row whose life's was stated."""
    return {row: time.replace("T", " ").replace("Z", " UTC") for row, time in table["utc_stated"].items() if time is not None}


@functools.cache
def environment() -> jinja2.Environment:
    """The environment of the templates, which escapes all texts."""
    return jinja2.Environment(loader=jinja2.PackageLoader("gaknifur.journal"), autoescape=True, trim_blocks=True,
                              lstrip_blocks=True, undefined=jinja2.StrictUndefined)


def is_usual(one: Any) -> bool:
    """Whether an intervention is the one that follows every power-up until the driver has revalidated, and no other cause is known."""
    causes_held = {held.cause for held in one["causes"]}
    return bool(one["kind"] == "powerup" and causes_held <= {"not_revalidated"})


def in_order(rows: pd.DataFrame, is_newest_first: bool) -> pd.DataFrame:
    """The rows in the requested order: from the first life to the last, or from the last to the first."""
    return rows.sort_values("life", ascending=False, kind="stable") if is_newest_first else rows


def intervention_rows(table: pd.DataFrame) -> pd.DataFrame:
    """The interventions of a part of a journal, by rows of its records."""
    found = tables.interventions(table)
    for name in ("first_row", "last_row", "most_over_row"):
        found[name] = [None if pd.isna(at) else int(table.index[int(at)]) for at in found[name]]
    return found


def interventions(table: pd.DataFrame, is_newest_first: bool) -> tuple[pd.DataFrame, pd.DataFrame]:
    """The interventions of a part of a journal, and separately those that every power-up brings."""
    found = intervention_rows(table)
    usual = np.array([is_usual(one) for one in found.to_dict("records")], bool)
    return in_order(found[~usual], is_newest_first), in_order(found[usual], is_newest_first)


def led_to(listed: pd.DataFrame) -> set[int]:
    """The rows to which interventions link: their first ones, and those of their causes."""
    found = {int(row) for row in listed["first_row"]}
    return found | {int(one["first_row"]) + number - int(one["first_event"]) for _, one in listed.iterrows()
                    for cause in one["causes"] for number in (cause.since, cause.last, cause.gone) if number is not None}


def pictures_of(table: pd.DataFrame, drawn: list[Life], chosen: pd.DataFrame, rows: set[int],
                progress: Progress) -> tuple[list[str], set[int]]:
    """Draws the lives and some interventions; returns the pictures of interventions, and the rows with an anchor in a picture."""
    anchors, pictures, whole = set[int](), list[str](), len(drawn) + len(chosen)
    for number, life in enumerate(drawn):
        progress("charts", number, whole)
        draw_life(life, rows, anchors)
    for number, picture in enumerate(windows(table, chosen)):
        progress("charts", len(drawn) + number, whole)
        pictures.append(picture)
    return pictures, anchors


def braking_of(journal: Journal, table: pd.DataFrame) -> Json:
    """Whether the train braked after each command that begins in a part of a journal, with charts."""
    found = list(braking.rows(journal.records, journal.train, journal.lead))
    rows = list(itertools.compress(found, np.isin([one["first_event"] for one in found], table["event"])))
    drawn = braking_charts.chosen(rows)
    titles = {row["first_event"]: f"Event {row['first_event']}: {row['brake']} brake, {braking.ANSWERS[row['answer']]}" for row in rows if row["first_event"] in drawn}
    # (the readings of all commands may be those of the whole journal, so they are not kept from the first pass)
    measured = braking.measures(journal.records, journal.train, journal.lead) if titles else ()
    return {"rows": [row for row in rows if braking_charts.is_seen(row)][:MOST_LISTED], "all": len(rows),
            "seen": sum(map(braking_charts.is_seen, rows)),
            "pictures": [braking_charts.draw(one, titles[one.command.first_event]) for one in measured if one.command.first_event in titles]}


def extent_of(records: pd.DataFrame) -> str:
    """The events and lives of some records, as text."""
    if records.empty:
        return "none that can be read"
    (first, last), lives = records["event"].agg(["min", "max"]), list(dict.fromkeys(records["life"]))
    return f"events {first} to {last}, of life {lives[0]}" + (f" to {lives[-1]}" if len(lives) > 1 else "")


def brief_of(journal: Journal, records: pd.DataFrame, table: pd.DataFrame) -> summary.Brief:
    """The summary: of the journal, or of the part that was read."""
    shown = table if journal.is_part else records
    return summary.brief(journal, shown, intervention_rows(shown))


def page(journal: Journal, extent: Extent = Extent(), progress: Progress = silent, is_newest_first: bool = False) -> str:
    """The page of a journal, or of a part of it."""
    records = tables.frame(journal)
    table = extent.take(records)
    if table.empty and not extent.is_all:
        raise Failed(f"{journal.path}: the journal has no record {extent.text()}; it has {extent_of(records)}. Nothing was written.", REFUSED)
    at_top = brief_of(journal, records, table)
    found, usual = interventions(table, is_newest_first)
    readings = tables.some_of(table, table["kind"] == "odometer", ("event", "speed_kmh"))
    fastest, over = top_of(readings, "speed_kmh"), top_of(table, "over_limit_kmh")
    most = tables.worst_first(found).head(MOST_LISTED)
    chosen = in_order(farthest(found), is_newest_first) if len(table) > SHORT else found.head(0)
    most = most.assign(limit_text=[limit_text(table, row) for row in most["first_row"]])
    linked = {int(row) for row in chosen["first_row"]} | {top["row"] for top in (fastest, over) if top}
    linked |= led_to(most) | at_top.rows
    shown = in_order(listed(table, linked), is_newest_first)
    lives = lives_of(table)
    drawn = [life for life in lives if len(life.table) > 1][-MOST_LIVES:]
    if is_newest_first:
        lives, drawn = lives[::-1], drawn[::-1]
    rows, notable = set(shown.index), tables.is_notable(table)
    pictures, anchors = pictures_of(table, drawn, chosen, rows, progress)
    return environment().get_template("report.html.j2").render(
        journal=journal, extent=extent, brief=at_top, events=len(table), lives=[life.summary() for life in lives[:MOST_LISTED]],
        more_lives=max(len(lives) - MOST_LISTED, 0), drawn=[life for life in drawn if life.pictures],
        undrawn=len(lives) - len(drawn), found=most.to_dict("records"), more_found=len(found) - len(most),
        usual=usual.head(MOST_LISTED).to_dict("records"), usual_count=len(usual),
        first_listed=FIRST_LISTED, windows=pictures, all_windows=len(found[found["kind"] != "powerup"]),
        braking=braking, braked=braking_of(journal, table), rows=event_rows(journal, table, shown), row_set=rows, anchors=anchors,
        quiet=int((~notable).sum()), left_out=int(notable.sum()) - len(shown),
        fastest=fastest, over=over if over and over["value"] > 0 else None,
        strays=stray_rows(journal), more_strays=max(len(journal.strays) - MOST_STRAYS, 0),
        way_m=float(table["movement_cm"].fillna(0).abs().sum()) / 100, modes=list(dict.fromkeys(table["mode"])),
        service=int((found["worst"] == "service").sum()), emergency=int((found["worst"] == "emergency").sum()),
        causes=causes, words=wording, pd=pd, plausible=plausibility, reader=program.reader(), stated=utc, utc_of=utc_texts(records).get)
