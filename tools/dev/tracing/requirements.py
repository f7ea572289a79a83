"""docs/requirements.yaml, with every name in it found: in crates/, on the pages, among rows and cases. What isn't found is a fault,
with its file, line and column, and with what to do.
"""
import os
import re
from collections import Counter
from dataclasses import dataclass, field
from functools import partial
from pathlib import Path

from gaknifur.cases import coverage
from gaknifur.yaml_files import document
from tracing import pages
from tracing.sources import ROWS, Place

PAGE, PROMISES, CONDITIONS = Path("docs/requirements.yaml"), "docs/explain/promises.md", Path("docs/explain/integration.md")
CONFORMANCE, SAFETY, REFUSALS = "docs/explain/conformance.md", "docs/explain/safety.md", "docs/reference/refusals.md"
PARTS = ("introductions", "sections", "promises", "premises", "not_promised", "own", "safety", "refusals")
HELD = ("defined", "clauses", "laws", "edits", "rows", "tests", "premises", "rests_on", "words", "unnamed", "why_none")
KINDS = ("standard", "profile", "own")


@dataclass
class Requirement:
    """A requirement, and all that holds it: a list for each name of HELD."""

    identity: str
    part: str
    says: str
    kind: str
    place: Place
    by: str = ""
    cases: list = field(default_factory=list)
    held: dict = field(default_factory=dict)


class Reader:
    """The requirements that were read, and the faults."""

    def __init__(self, sources):
        self.sources, self.faults, self.requirements, self.premises, self.not_promised = sources, [], [], {}, []
        self.sections = {one.name: one for one in pages.sections()}
        self.readers = {
            "defined": self.defined, "clauses": self.clauses, "rows": self.rows, "tests": self.tests,
            "laws": partial(self.known, "law", sources.laws), "unnamed": partial(self.known, "law", sources.laws),
            "edits": partial(self.known, "must-fail edit", sources.edits), "premises": partial(self.known, "premise", self.premises),
            "rests_on": self.texts, "words": self.texts,
            "why_none": lambda at: [(name, one.text()) for name, one in at.members((), ("rows", "definitions")).items()],
        }

    def fault(self, at, said):
        """Adds a fault."""
        self.faults.append(f"{PAGE}:{at.line}:{at.column}: {said}")

    # ---- what holds a requirement

    def defined(self, at):
        """The definitions that a mapping names, by file."""
        for page, names in at.entries().items():
            there = self.sources.pages.get(page)
            if there is None:
                self.fault(names, f"crates/{page.replace('.', '/specs/', 1)}.antt isn't there: name the file that has these definitions now")
                continue
            for name in names.text().split():
                if name not in there.definitions:
                    self.fault(names, f"{there.path} has no definition {name}: name the one that says it now")
                else:
                    yield page, name

    def clauses(self, at):
        """The clauses of calls that a mapping names."""
        for item, names in at.entries().items():
            known = {one.name: one for one in self.sources.clauses.get(item, [])}
            if not known:
                self.fault(names, f"there is no public call {item} with clauses: name the call as CRATE::[TYPE::]CALL")
            for name in names.node.value.split() or [""]:
                if known and name not in known:
                    there = ", ".join(one or "one without a name" for one in known)
                    self.fault(names, f"{item} has no clause {name or 'without a name'}: it has {there}")
                elif known:
                    yield known[name]

    def known(self, kind, names, at):
        """The names of a list, each of which has to exist."""
        for one in at.elements():
            if one.text() not in names:
                self.fault(one, f"there is no {kind} {one.text()}: name the one that there is now, or take it out")
            else:
                yield one.text()

    def rows(self, at):
        """The rows of a list, with their places."""
        for one in at.elements():
            place = self.sources.row(one.text())
            if place is None:
                files = " and ".join(ROWS.get(one.text().partition(": ")[0], ROWS[""]))
                self.fault(one, f'there is no row "{one.text()}" in {files}: name the one that shows it now')
            else:
                yield one.text(), place

    def tests(self, at):
        """The commands of a list, which CI runs."""
        gate = Path(".ci/run").read_text(encoding="utf-8")
        for one in at.elements():
            if not re.search(rf"(?<!\S){re.escape(one.text())}(?!\S)", gate) or not os.access(one.text(), os.X_OK):
                self.fault(one, f".ci/run doesn't run {one.text()}, or it isn't there")
            yield one.text()

    def texts(self, at):
        """The texts of a list."""
        return [one.text() for one in at.elements()]

    def hold(self, it, members):
        """Adds a requirement with what holds it: something that is proved or defined, and something that is run, or a reason."""
        it.held = {name: list(read(members[name])) if name in members else [] for name, read in self.readers.items()}
        held = it.held
        self.requirements.append(it)
        at, why = next(iter(members.values())), dict(held["why_none"])
        is_proved, is_tried = held["defined"] or held["clauses"] or held["laws"] or held["rests_on"], held["rows"] or it.cases
        for name, has, wanted in (("definitions", is_proved, "defined, clauses or laws"), ("rows", is_tried, "rows")):
            if not has and name not in why:
                self.fault(at, f"{it.identity} has none of {wanted}: name what holds it, or say why there is none (why_none: {{{name}: ..}})")
            if has and name in why and not (name == "rows" and held["tests"]):
                self.fault(at, f"{it.identity} has {name}, and a reason why there are none: take the reason out")

    # ---- the parts

    def read_sections(self, at):
        """Reads the sentences of sections, and compares the sections with the page in both directions."""
        named, here = at.entries(), [name for name, one in self.sections.items() if not one.is_left_out]
        for name in here:
            if name not in named:
                self.fault(at, f"{CONFORMANCE} has the section {name}, and no requirement is of it: write one, R-{name}-1")
        for name, sentences in named.items():
            if name not in here:
                self.fault(sentences, f"{CONFORMANCE} has no section {name}, or leaves it out: take its requirements out, or mend the page")
            for identity, one in sentences.entries().items():
                members = one.members(("says", "kind"), HELD)
                it = Requirement(identity, "sections", " ".join(members["says"].text().split()), members["kind"].one_of(KINDS), Place(str(PAGE), one.line))
                if it.kind == "standard" and name in here and "standard" not in self.sections[name].here:
                    self.fault(members["kind"], f"{identity} is of the standard, and {CONFORMANCE} has nothing of {name} as the standard has it: "
                               "make it profile, or mend the page")
                short = name.replace(" packet ", ".p").replace(" all others", ".others")
                if not identity.startswith(f"R-{short}-"):
                    self.fault(one, f"{identity} is at the section {name}: its name begins R-{short}-")
                it.cases = [case for case in self.sources.cases if any(self.is_of(section, name) for section in case.sections)]
                self.hold(it, members)

    def is_of(self, section, name):
        """Whether a case of a section is one of the page's section."""
        found = coverage.find_section(section, self.sections)
        return found is not None and found.name == name

    def read_begun(self, at, heading, introductions, make):
        """Reads requirements that are sentences of PROMISES, by their first words, and compares them with the page in both directions."""
        left = {one.key: one for one in pages.blocks(PROMISES, heading) if not one.key.startswith(tuple(introductions))}
        for identity, one in at.entries().items():
            members = one.members(("begins",), ("by", "conditions", *HELD))
            begins = members["begins"].text()
            found = [key for key in left if key.startswith(begins)]
            if len(found) == 1:
                make(identity, one, members, left.pop(found[0]))
            else:
                self.fault(members["begins"], f'{PROMISES} has {len(found)} sentences that begin "{begins}" ({heading}): write how it begins now')
        self.faults += [f'{one.place}: no requirement is of "{one.text[:60]}.." ({heading}): give it an identity in {PAGE}' for one in left.values()]

    def read_promise(self, identity, at, members, said):
        """Reads a promise, and compares its premises and the names in backticks on the page with those of the requirement, in both directions."""
        it = Requirement(identity, "promises", said.text, "own", said.place)
        self.hold(it, members)
        there = {name.rsplit("::", 1)[-1] for name in said.names}
        mine = {name for one in it.held["clauses"] for name in (one.name, one.item.rsplit("::", 1)[-1])} | {name for _, name in it.held["defined"]}
        mine |= {name.split(".")[1] for name in it.held["laws"] if name not in it.held["unnamed"]} | set(it.held["words"])
        for name in sorted(there - mine):
            self.fault(at, f"{PROMISES} names `{name}` in {identity}, and nothing here does: add it to clauses, laws, defined or words")
        for name in sorted(mine - there):
            self.fault(at, f"{identity} names {name}, and {PROMISES} doesn't: name it there, or list its law under unnamed")
        if [f"A-{name}" for name in said.premises if name] != it.held["premises"]:
            self.fault(at, f"{PROMISES} has the premises {', '.join(said.premises)} in {identity}, and not those here: make them the same")

    def read_premise(self, identity, _, members, said):
        """Reads a premise, with who has to meet it, and the conditions for integrators, which are on their page in these words."""
        conditions, text = self.texts(members["conditions"]) if "conditions" in members else [], CONDITIONS.read_text(encoding="utf-8")
        for one in conditions:
            if not re.search(rf"(?<!\w){re.escape(one)}(?!\w)", text):
                self.fault(members["conditions"], f"{CONDITIONS} has no condition {one}: name the one that there is now")
        if "by" not in members:
            self.fault(members["begins"], f"{identity} doesn't say who has to meet it: add by")
        by = members["by"].text() if "by" in members else ""
        self.premises[identity] = (said.text, by + (f" (conditions {', '.join(conditions)})" if conditions else ""))

    def read_not_promised(self, at):
        """Reads what PROMISES doesn't promise."""
        self.not_promised, begins = pages.blocks(PROMISES, "What is not promised"), self.texts(at)
        for one in at.elements():
            if not any(it.key.startswith(one.text()) for it in self.not_promised):
                self.fault(one, f'{PROMISES} has no sentence under "What is not promised" that begins "{one.text()}"')
        self.faults += [f'{it.place}: "{it.text[:60]}.." isn\'t promised, and {PAGE} doesn\'t name it (not_promised)'
                        for it in self.not_promised if not it.key.startswith(tuple(begins))]

    def read_own(self, at):
        """Reads what goes beyond the standard and the promises."""
        for identity, one in at.entries().items():
            members = one.members(("says",), HELD)
            self.hold(Requirement(identity, "own", " ".join(members["says"].text().split()), "own", Place(str(PAGE), one.line)), members)

    def read_safety(self, at):
        """Reads the items of SAFETY, and compares them with the page in both directions."""
        items, named = {f"S-{number}": one for number, one in pages.items().items()}, at.entries()
        self.faults += [f"{said.place}: item {name[2:]} has no requirement: add {name} to {PAGE}" for name, said in items.items() if name not in named]
        for identity, one in named.items():
            members = one.members(("by",), HELD)
            if identity not in items:
                self.fault(one, f"{SAFETY} has no item {identity[2:]}: take {identity} out")
                continue
            said = items[identity]
            it = Requirement(identity, "safety", said.text, "own", said.place, by=members["by"].text())
            it.cases = [case for case in self.sources.cases if identity[2:] in case.shows]
            self.hold(it, members)

    def read_refusals(self, at):
        """Reads the refusals: page and source have the same names and numbers, and each type has what holds it."""
        rows, named = pages.refusals(), at.entries()
        self.faults += [f"{said.place}: the refusals of {kind} have no requirement: add them to {PAGE}" for kind, _, _, said in rows if kind not in named]
        for kind, one in named.items():
            members = one.members((), ("source", "heading", *HELD))
            if "heading" in members:
                mine = [(name, text, said) for name, text, said in pages.texts(members["heading"].text())]
                if not mine:
                    self.fault(members["heading"], f"{REFUSALS} has no table under {members['heading'].text()}: name its heading")
            elif not Path(members["source"].text()).is_file():
                self.fault(members["source"], f"{members['source'].text()} isn't there: name the source that declares {kind}")
                continue
            else:
                mine = [(number, name, said) for of, number, name, said in rows if of == kind]
                self.compare_variants(kind, members["source"], {name: number for number, name, _ in mine})
            for number, name, said in mine:
                self.hold(Requirement(f"E-{kind}-{number}", "refusals", f"{name}: {said.text}", "own", said.place), members)

    def compare_variants(self, kind, at, here):
        """Checks that the page has each name of the enum with its number, and no other."""
        there = pages.variants(kind, at.text())
        for name, number in there.items():
            if here.get(name) is None and not (kind == "etcs_file_answer" and name == "OK"):
                self.fault(at, f"{REFUSALS} has no row for {kind} {name}: add it")
            elif number is not None and name in here and here[name] != number:
                self.fault(at, f"{REFUSALS} has {kind} {name} with {here[name]}, and the source has {number}")
        for name in here:
            if name not in there:
                self.fault(at, f"{REFUSALS} has {kind} {name}, and the source doesn't")

    # ---- the whole

    def check_whole(self):
        """Checks what no part can: names that stand twice or nowhere, and the names on CONFORMANCE."""
        count = Counter(it.identity for it in self.requirements)
        self.faults += [f"{PAGE}: {name} is there twice: give the later one a number of its own" for name, times in count.items() if times > 1]
        self.faults += [f"{it.place}: {it.identity} rests on {one}, which isn't there"
                        for it in self.requirements for one in it.held["rests_on"] if one not in count]
        for key, kind, known in (("laws", "law", self.sources.laws), ("edits", "must-fail edit", self.sources.edits), ("premises", "premise", self.premises)):
            named = {name for it in self.requirements for name in it.held[key]}
            self.faults += [f"{PAGE}: no requirement names the {kind} {name}: name it in the one that it is for" for name in known if name not in named]
        for sentence, names, crate in pages.questions():
            there = {name for page, one in self.sources.pages.items() if page.split(".")[0] == crate for name in one.definitions}
            self.faults += [f'{CONFORMANCE}: "{sentence}" names `{name}` of {crate}, which isn\'t there: mend the page'
                            for name in names if not name.endswith(".antt") and name not in there]

    def read(self):
        """Reads all parts."""
        members = document(PAGE).members(PARTS)
        introductions = self.texts(members["introductions"])
        self.read_begun(members["premises"], "The premises", introductions, self.read_premise)
        self.read_begun(members["promises"], "What is promised", introductions, self.read_promise)
        self.read_not_promised(members["not_promised"])
        self.read_sections(members["sections"])
        self.read_own(members["own"])
        self.read_safety(members["safety"])
        self.read_refusals(members["refusals"])
        self.check_whole()
        return self
