#!/usr/bin/env -S /usr/bin/python3 -I -B
"""What a release says of itself: `sbom.spdx.json` (SPDX 2.3) and `provenance.json` (a statement of in-toto with a
predicate of SLSA, version 1), of the artefacts in a folder.

    packaging/statements.py TOP FACTS MADE    FACTS is the folder that tools/release fills: facts, and parts with whether they are proved
"""
import datetime
import hashlib
import json
import os
import re
import subprocess
import sys
from collections.abc import Mapping
from pathlib import Path

KIND = "urn:gaknifur:release:1"
LICENCE = "NONE"


def digest(path: Path) -> str:
    """The SHA-256 of a file."""
    return hashlib.sha256(path.read_bytes()).hexdigest()


def write(path: Path, value: object) -> None:
    """Writes JSON, always the same of the same."""
    path.write_text(json.dumps(value, indent=1, sort_keys=True) + "\n", encoding="utf-8")


def kit_crates(top: Path) -> list[str]:
    """The kit's crates that crates of this repository use, as crates.txt lists them."""
    used: set[str] = set()
    for line in (top / "crates.txt").read_text(encoding="utf-8").splitlines():
        if ":" in line and not line.startswith("#"):
            used.update(line.split(":", 1)[1].split())
    return sorted(name for name in used | {"core", "std"} if not (top / "crates" / name).is_dir())


def debian(names: list[str]) -> dict[str, str]:
    """The versions of these packages of Debian, where they are installed."""
    done = subprocess.run(["dpkg-query", "-W", "-f", "${Package} ${Version}\n", *names], capture_output=True, text=True)
    return dict(line.split(" ", 1) for line in done.stdout.splitlines() if not line.endswith(" "))


def sbom(top: Path, facts: dict[str, str], made: Path, stamp: str) -> dict[str, object]:
    """The bill of materials."""
    def package(name: str, version: str, role: str) -> dict[str, object]:
        return {"SPDXID": "SPDXRef-" + re.sub(r"[^A-Za-z0-9.-]", "-", f"{role}-{name}"), "name": name, "versionInfo": version,
                "downloadLocation": "NOASSERTION", "filesAnalyzed": False, "licenseConcluded": "NOASSERTION",
                "licenseDeclared": LICENCE if role == "product" else "NOASSERTION", "copyrightText": "NOASSERTION"}

    product = package("gaknifur", facts["version"], "product")
    kit = package("rattle-kit", facts["kit"], "kit")
    crates = [package(name, facts["kit"], "kit-crate") for name in kit_crates(top)]
    needs = [package(name, condition or "any", "debian") for name, condition in
             re.findall(r"([a-z0-9.+-]+)(?: \(([^)]*)\))?(?:, |$)", facts["depends"]) if not name.startswith("libetcs-unit")]
    files = [{"SPDXID": "SPDXRef-file-" + re.sub(r"[^A-Za-z0-9.-]", "-", path.name), "fileName": f"./{path.name}",
              "checksums": [{"algorithm": "SHA256", "checksumValue": digest(path)},
                            {"algorithm": "SHA1", "checksumValue": hashlib.sha1(path.read_bytes()).hexdigest()}],
              "licenseConcluded": "NOASSERTION", "copyrightText": "NOASSERTION"} for path in sorted(made.iterdir())]

    def related(one: Mapping[str, object], kind: str, other: Mapping[str, object]) -> dict[str, object]:
        return {"spdxElementId": one["SPDXID"], "relationshipType": kind, "relatedSpdxElement": other["SPDXID"]}

    document: dict[str, object] = {"SPDXID": "SPDXRef-DOCUMENT"}
    relations = [related(document, "DESCRIBES", product), related(kit, "BUILD_TOOL_OF", product)]
    relations += [related(product, "STATIC_LINK", one) for one in crates]
    relations += [related(product, "DEPENDS_ON", one) for one in needs]
    relations += [related(one, "GENERATED_FROM", product) for one in files]
    return document | {
        "spdxVersion": "SPDX-2.3", "dataLicense": "CC0-1.0", "name": f"gaknifur-{facts['version']}",
        "documentNamespace": f"urn:gaknifur:sbom:{facts['version']}:{facts['commit']}",
        "creationInfo": {"created": stamp, "creators": ["Tool: tools/release"]},
        "packages": [product, kit, *crates, *needs], "files": files, "relationships": relations}


def provenance(facts: dict[str, str], parts: dict[str, str], made: Path, stamp: str) -> dict[str, object]:
    """The statement of provenance."""
    tools = debian(["binutils", "dpkg", "gcc", "gzip", "help2man", "python3", "python3-build", "python3-myst-parser",
                    "python3-setuptools", "python3-sphinx", "python3-wheel", "tar"])
    return {
        "_type": "https://in-toto.io/Statement/v1",
        "subject": [{"name": path.name, "digest": {"sha256": digest(path)}} for path in sorted(made.iterdir())],
        "predicateType": "https://slsa.dev/provenance/v1",
        "predicate": {
            "buildDefinition": {
                "buildType": KIND,
                "externalParameters": {"version": facts["version"], "commit": facts["commit"]},
                "internalParameters": {"gate": facts["gate"], "parts": parts,
                                       "proved": all(word != "unproved" for word in parts.values()) and
                                       not facts["version"].endswith("+unproved")},
                "resolvedDependencies": [
                    {"name": "gaknifur", "digest": {"gitCommit": facts["commit"], "sourcesOfTheProof": facts["sources"]}},
                    {"name": "rattle-kit", "annotations": {"version": facts["kit"]}},
                    *({"name": name, "annotations": {"debian": version}} for name, version in sorted(tools.items()))]},
            "runDetails": {"builder": {"id": "urn:gaknifur:tools/release"}, "metadata": {"startedOn": stamp}}}}


def main(top: Path, noted: Path, made: Path) -> None:
    """Writes both."""
    facts = dict(zip(("version", "commit", "sources", "kit", "gate", "depends"),
                     (noted / "facts").read_text(encoding="utf-8").splitlines(), strict=True))
    parts = {name: word for name, _, word in
             (line.partition("=") for line in (noted / "parts").read_text(encoding="utf-8").splitlines())}
    moment = datetime.datetime.fromtimestamp(int(os.environ["SOURCE_DATE_EPOCH"]), datetime.timezone.utc)
    stamp = moment.strftime("%Y-%m-%dT%H:%M:%SZ")
    bill, statement = sbom(top, facts, made, stamp), provenance(facts, parts, made, stamp)
    write(made / "sbom.spdx.json", bill)
    write(made / "provenance.json", statement)


if __name__ == "__main__":
    main(*map(Path, sys.argv[1:4]))
