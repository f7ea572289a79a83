"""The assurance case: out/docs/assurance.md, made of docs/assurance.yaml and of the requirements."""
import textwrap
from pathlib import Path

from gaknifur.yaml_files import document
from tracing.sources import tool

SOURCE, PAGE = Path("docs/assurance.yaml"), Path("out/docs/assurance.md")
CLAIM, MORE = ("says", "short", "argument"), ("rests_on", "of", "parts", "open")
TOOL = ("name", "class", "does", "trusted", "wrong", "shown")
PARTS = {"sections": "Sections of SUBSET-026", "promises": "Promises", "own": "Beyond both", "safety": "Items of SAFETY", "refusals": "Refusals"}
HEAD = """# The assurance case

Written by `tools/dev/trace` from [assurance.yaml](../../docs/assurance.yaml) and [requirements.yaml](../../docs/requirements.yaml). For an
assessor by EN 50128 and EN 50129: what is claimed, why, and what it rests on. A leaf is a clause or a law, which is
proved; a must-fail edit, which the prover has to refuse; a test, which CI runs; or a premise, with who has to
meet it. [TRACE](trace.md) has what holds each requirement.

The product isn't certified, and this is no certificate. An open claim is one of which nobody has shown all.
"""


class Case:
    """The claims and the tools of the file, with names that exist."""

    def __init__(self, reader):
        members = document(SOURCE).members(("claims", "tools"))
        self.reader, self.faults, self.claims = reader, [], {}
        unused = tool("unused")
        kit = ", ".join(unused.kit(unused.crates(Path("crates.txt").read_text(encoding="utf-8"))))
        self.tools = [{key: text(one).replace("KIT", kit) for key, one in it.members(TOOL).items()} for it in members["tools"].elements()]
        known, names = {it.identity: it for it in reader.requirements}, members["claims"].entries()
        for name, at in names.items():
            claim = at.members(CLAIM, MORE)
            mine = {key: text(claim[key]) for key in (*CLAIM, "open") if key in claim}
            for key, there in (("rests_on", names), ("of", known), ("parts", PARTS)):
                mine[key] = [one.text() for one in claim[key].elements()] if key in claim else []
                self.faults += [f"{SOURCE}:{at.line}: {name} names {one}, which isn't there: name what there is, or take it out"
                                for one in mine[key] if one not in there]
            mine["its"] = [known[one] for one in mine["of"] if one in known]
            self.claims[name] = mine
            if not (mine["rests_on"] or mine["parts"] or any(it.held["clauses"] or it.held["laws"] for it in mine["its"])):
                self.faults.append(f"{SOURCE}:{at.line}: {name} rests on nothing")
        held = {one for claim in self.claims.values() for one in claim["rests_on"]}
        self.faults += [f"{SOURCE}: nothing rests on {name}" for name in list(names)[1:] if name not in held]
        promised = {one for claim in self.claims.values() for one in claim["of"]}
        self.faults += [f"{SOURCE}: no claim is of the promise {name}: add it to one (of)"
                        for name, it in known.items() if it.part == "promises" and name not in promised]


def text(at):
    """A text on one line."""
    return " ".join(at.text().split())


def wrapped(said, indent=""):
    """A text in lines of at most 120 columns."""
    return textwrap.fill(said, 120, subsequent_indent=indent, break_long_words=False, break_on_hyphens=False)


def table(heads, rows):
    """A table in Markdown."""
    yield f"| {' | '.join(heads)} |"
    yield "|" + "---|" * len(heads)
    yield from (f"| {' | '.join(map(str, row))} |" for row in rows)


def linked(path):
    """A link to a file of the repository."""
    return f"[{path}](../../{path})"


def evidence(case, claim):
    """The leaves of a claim: kind, name and place of each."""
    sources = case.reader.sources
    of = {key: list(dict.fromkeys(one for it in claim["its"] for one in it.held[key])) for key in ("clauses", "laws", "edits", "tests", "rows", "premises")}
    yield from (("clause", f"`{one}`", linked(one.place.path)) for one in of["clauses"])
    yield from (("law", f"`{name}`: {sources.laws[name][0]}", linked(sources.laws[name][1].path)) for name in of["laws"])
    yield from (("edit", f"`{name}`", linked(sources.edits[name])) for name in of["edits"])
    yield from (("test", f"`{name}`", f"{linked(name)}, run by `.ci/run`") for name in of["tests"])
    for path in dict.fromkeys(place.path for _, place in of["rows"]):
        yield "rows", ", ".join(f'"{name}"' for name, place in of["rows"] if place.path == path), linked(path)
    if of["premises"]:
        yield "premises", ", ".join(of["premises"]), "[below](#the-premises)"
    for part in claim["parts"]:
        many = sum(it.part == part for it in case.reader.requirements)
        yield "requirements", f'{many} of the part "{PARTS[part]}"', "each with what holds it: [TRACE](trace.md)"


def page(case):
    """The lines of the page."""
    yield HEAD
    for name, claim in case.claims.items():
        yield f"## {name}. {claim['short']}\n"
        yield wrapped(f"**Claim**: {claim['says']}") + "\n"
        others = f" It rests on {', '.join(claim['rests_on'])}." if claim["rests_on"] else ""
        yield wrapped(f"**Argument**: {claim['argument']}{others}") + "\n"
        if "open" in claim:
            yield wrapped(f"**Open**: {claim['open']}") + "\n"
        yield from table(("Leaf", "What", "Where"), evidence(case, claim))
        yield ""
    yield "## The premises\n"
    yield "[PROMISES](../../docs/explain/promises.md#the-premises) says what happens where one doesn't hold.\n"
    premises = case.reader.premises.items()
    yield from table(("Premise", "Says", "To be met by"), ((name, said.split(". ")[0], by) for name, (said, by) in premises))
    yield "\n## What isn't claimed\n"
    yield from (wrapped(f"- {said.text}", "  ") for said in case.reader.not_promised)
    yield "\n[The README of safety_laws](../../crates/safety_laws/README.md#what-they-dont-say) has what the laws don't say."
    yield "\n## The tools, and what is trusted of them\n"
    yield ("Classes are those of EN 50128: T1, nothing of the tool comes into what runs; T2, a fault of it may hide a\n"
           'fault; T3, a fault of it may put one into what runs. "Runtime" is no tool: it runs with the product. None was\nqualified.\n')
    yield from table(("Tool", "Class", "Does", "Trusted is", "If it were wrong", "What would show it"), ([it[key] for key in TOOL] for it in case.tools))
