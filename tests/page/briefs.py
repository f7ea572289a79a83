"""The summary: the page says at the top of an image what the report says there, and opens at the last intervention."""
import re
from pathlib import Path
from typing import Any

from asking import CAUSES, TRIPS, example, image
from browsing import Browser
from gaknifur.journal import reading, summary, tables

OUTPUT = """
const { ask } = window.gaknifur, { findings } = ask, known = new Map(findings.counted.filter(([, why]) => typeof why === 'object')), { records } = ask;
const last = [...findings.interventions].reverse().find(one => !one.isPowerUp), all = last ? [...Array(last.last - last.first + 1).keys()].map(n => n + last.first) : [];
const since = new Set(all.flatMap(n => known.get(n) ? known.get(n).holds.map((is, c) => is ? c + ' ' + known.get(n).since[c] : '').filter(one => one) : []));
const rows = [...document.querySelectorAll('#brief dt')].map(one => [one.textContent, one.nextElementSibling.textContent]);
return [last ? [records.event(last.first), records.event(last.last), last.goesOn, last.steps.map(one => one.brake)] : null, [...since].sort(),
    findings.trips.map(n => [records.event(n), known.get(n) ? known.get(n).tripCause : null]), Object.fromEntries(rows), records.event(ask.index)];
"""
BRAKES = ("none", "service", "emergency")


def wanted_of(path: Path) -> tuple[Any, list[str], list[Any], summary.Newest | None]:
    """What the report has in brief: the last intervention, its causes, all trips, and the newest block."""
    journal = reading.read(path, replay=True, why=True)
    records = tables.frame(journal)
    at_top = summary.brief(journal, records, tables.interventions(records))
    one = at_top.intervention
    causes = sorted(f"{CAUSES.index(cause.cause)} {cause.since}" for cause in one["causes"]) if one else []
    found = [one["first_event"], one["last_event"], bool(one["goes_on"]), [BRAKES.index(step) for step in one["steps"].split()]] if one else None
    trips = [(records["event"].at[row], records["trip"].at[row]) for row in tables.trips(records)]
    return found, causes, [[int(event), TRIPS.index(trip.cause) if trip else None] for event, trip in trips], at_top.newest


def said_of(newest: summary.Newest | None) -> str:
    """How the page begins to say whether the newest block's outputs left the unit."""
    if newest is None:
        return "not known"
    if newest.is_power_up:
        return f"block {newest.block:,}, the newest, holds only a power-up"
    if newest.is_released:
        return f"the outputs of block {newest.block:,}, the newest, had left the unit"
    left = "" if newest.left_to is None else f"the outputs of life {newest.life} after its power-up, up to event {newest.left_to:,}, had left the unit; "
    return f"{left}not known: the outputs of block {newest.block:,}, the newest, of events {newest.first_event:,} to {newest.last_event:,};"


def compare_brief(browser: Browser, path: Path, at: str) -> tuple[bool, bool, str]:
    """The last intervention, all its causes, the trips, what is released, and where the page opens; whether there is one, and a trip, and how it says that."""
    one, causes, trips, rows, opened = browser.run(OUTPUT)
    found, since, entered, newest = wanted_of(path)
    assert (one, trips) == (found, entered) and causes == since, (at, one, found, causes, since, trips, entered)
    assert rows["Released"].startswith(said_of(newest)), (at, rows["Released"], newest)
    assert ("None of the outputs" in rows["Released"]) == (newest is not None and newest.unwritten is not None), (at, rows)
    assert opened == (one[0] if one else browser.run("return window.gaknifur.ask.records.event(0)")), (at, opened, one)
    for event, _ in trips[-12:]:
        assert f"event {event:,}" in rows["Trips"], (at, rows["Trips"])
    return bool(one and causes), bool(trips), re.sub(r"\d", "", rows["Released"])[:20]


def by_hand(browser: Browser, _page: Path, folder: Path) -> int:
    """The trip of the example after two other lives: every cause, the trip with its section, and no power-up as an intervention."""
    path = folder / "image"
    path.write_bytes(image(folder, [example("power_cut"), example("power_cut", "restart.json"), example("trip")], 16))
    browser.ask(path)
    rows = browser.run(OUTPUT)[3]
    for says in ("emergency brake, life 3, events 24 to 28, from event 24: place 300.00 m, speed 15.0 km/h, limit 0.0 km/h", "above the limit by more than 10 km/h",
                 "above the limit by more than 5 km/h", "the mode is Trip", "past the end of authority (4.6.3)", "end of authority: 0.0 km/h at 300.00 m"):
        assert says in rows["Last intervention"], (says, rows["Last intervention"])
    assert rows["Trips"].startswith("life 3, event 26, place ") and rows["Power-ups"].startswith("3; after each"), rows
    assert rows["Released"].startswith("the outputs of life 3 after its power-up, up to event 24, had left the unit; not known: the outputs of block"), rows
    assert browser.run("return document.querySelectorAll('#interventions tbody tr').length") == 1
    assert browser.text("event-said").startswith("Event 24 of life 3")
    return 10


CHECKS = {"brief_by_hand": (by_hand, 10)}
