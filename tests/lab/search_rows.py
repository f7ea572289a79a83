#!/usr/bin/env python3
"""Searches that have to find faults: wrong properties, a wrong unit and altered records; and the safety laws, which hold.

    tests/lab/search_rows.py ETCS ETCS_LAB UNIT [all]    `all`: all wrong properties; else the first three

Each wrong property (wrong.search.yaml) is found, is shrunk to fewer than 12 steps, none of which can be left out, and is
kept as a case that fails. The safety laws (examples/suites/safety_laws.search.yaml) are each judged, and hold for the proved unit;
an altered answer breaks each of them; and a search finds one of them broken in a unit whose brake is late.
"""
import copy
import os
import shlex
import sys
import tempfile
import time
from pathlib import Path

TOP = Path(__file__).resolve().parents[2]
sys.path.insert(0, str(TOP / "python"))
from gaknifur.cases import case_runner, cases, mode_table  # noqa: E402
from gaknifur.journal.wording import MODES  # noqa: E402
from gaknifur.search import properties, search, strategies  # noqa: E402

EXAMPLES, SEED, MOST_STEPS, FEW, LEAST_ALTERED = 200, 1, 12, 3, 20
LAW_EXAMPLES, LEAST_RECORDS, LEAST_OF_MODE = 200, 2_500, 100
WRONG, LAWS = TOP / "tests/lab/wrong.search.yaml", TOP / "examples/suites/safety_laws.search.yaml"
OTHERS = {"mode": ["FS", "SR", "UN", "PT", "TR"], "brake": ["none", "service"], "kind": ["clock"],
          "action": ["close_desk"],
          "acknowledged": ["on_sight"], "limit_m_per_h": [700_000], "speed_m_per_h": [700_000]}


class Rows:
    """Counts what was tried, and what was wrong."""

    def __init__(self):
        self.wrong = self.found = self.altered = 0

    def is_so(self, name, holds, said=""):
        if not holds:
            self.wrong += 1
            print(f"tests/lab/search_rows.py: {name}: {said}")

    def wrong_properties(self, few):
        file = properties.read(WRONG)
        made, records = strategies.made_of(file.made_of, file.shared), search.Player(None)
        wanted = file.properties[:few]
        for started in search.survey(wanted, made, records, EXAMPLES, SEED):
            self.wrong_property(started, made, records)
        self.is_so("wrong properties", len(file.properties) == 12 and self.found == len(wanted),
                   f"{self.found} of {len(wanted)} found")

    def wrong_property(self, started, made, records):
        """A wrong property is found, shrunk, and kept as a case in which only its result fails."""
        name, since = started.of.note, time.monotonic()
        if started.first is None:
            return
        self.found += 1
        found = search.shrunk(started, made, EXAMPLES, SEED)
        self.is_so(name, found.lives is not None and found.steps < MOST_STEPS, f"{found.steps} steps")
        for less in search.smaller(found.lives):
            try:
                properties.judge(started.of, records(less))
            except properties.Violated:
                self.is_so(name, False, f"broken by less: {less}")
        with tempfile.TemporaryDirectory() as room:
            path = Path(room) / "found.case.yaml"
            path.write_text(search.case_text(found, made, "found", "Found by a test"), encoding="utf-8")
            case, = cases.read(path)
            played = case_runner.play(case)
            self.is_so(name, len(case.expected) == 1
                       and not case_runner.comes(case.expected[0], played, mode_table.mode_table()), path.read_text())
        print(f"tests/lab/search_rows.py: found, {found.steps} steps, {time.monotonic() - since:.1f} s: {name}")

    def laws(self, unit):
        file = properties.read(LAWS)
        made, records = strategies.made_of(file.made_of, file.shared), search.Player(None)
        for started in search.survey(file.properties, made, records, LAW_EXAMPLES, SEED):
            judged = started.found.judged
            self.is_so(started.of.note, started.first is None, started.first)
            self.is_so(started.of.note, judged > 0 or started.of.unjudged is not None, "no record was judged")
        few = {mode: records.modes[mode] for mode in MODES if mode != "SF" and records.modes[mode] < LEAST_OF_MODE}
        self.is_so("records by mode", not few, few)
        recorded = list(records.kept.values())
        count = sum(map(len, recorded))
        self.is_so("records", count >= LEAST_RECORDS, f"{count} records")
        for one in file.properties:
            self.alter(one, recorded)
        command = shlex.join([str(TOP / "tests/lab/wrong.py"), "brake_late", unit])
        late = search.Player(search.Other(command, 60.0))
        late_found = search.survey(file.properties, made, late, 12, SEED)
        self.is_so("a late brake", any(started.first is not None for started in late_found), "no law is broken")
        return count

    def alter(self, one, recorded):
        """An altered answer breaks the law: each value that it tests, in a record that was judged."""
        if one.requires != "always":
            self.altered += self.forgets(one, recorded)
            return
        for name in one.required.tests:
            chosen = one.chooses.get("where")
            if chosen and name in chosen.tests or name == "mode" and "before" in one.chooses:
                continue
            self.is_so(one.note, self.is_broken(one, name, recorded) or one.unjudged, f"no altered {name} breaks the law")

    def is_broken(self, one, name, recorded):
        for records in recorded:
            for index in properties.chosen(one, case_runner.Played(records, {})):
                for other in changed(records[index], name):
                    altered = [*records[:index], other, *records[index + 1:]]
                    try:
                        properties.judge(one, properties.derived([cases.derived(record) for record in altered]))
                    except properties.Violated as violated:
                        self.altered += 1
                        return violated.index == index
        return False

    def forgets(self, one, recorded):
        """A record breaks the law without the one that has to come before it."""
        for records in recorded:
            if any(True for _ in properties.chosen(one, case_runner.Played(records, {}))):
                others = [copy.deepcopy(record) | {"decoded": {}, "action": None} for record in records]
                try:
                    properties.judge(one, properties.derived(others))
                except properties.Violated:
                    return 1
        self.is_so(one.note, False, "what comes before is never missed")
        return 0


def changed(record, name):
    """A record with other values of a name."""
    if name.startswith("shows_"):
        shown = name.removeprefix("shows_")
        less = [one for one in record["indications"] if one != shown]
        return [record | {"indications": less if shown in record["indications"] else [*less, shown]}]
    return [record | {name: value} for value in OTHERS[name] if value != record.get(name)]


def main(etcs, lab, unit, which=""):
    os.environ |= {"GAKNIFUR_ETCS": str(Path(etcs).resolve()), "GAKNIFUR_ETCS_LAB": str(Path(lab).resolve())}
    rows = Rows()
    rows.wrong_properties(None if which == "all" else FEW)
    count = rows.laws(str(Path(unit).resolve()))
    rows.is_so("altered answers", rows.altered >= LEAST_ALTERED, f"{rows.altered} found")
    print(f"tests/lab/search_rows.py: {rows.found} wrong properties found, the safety laws hold for {count} records, "
          f"{rows.altered} altered answers found, {rows.wrong} wrong")
    return 1 if rows.wrong else 0


if __name__ == "__main__":
    sys.exit(main(*sys.argv[1:]))
