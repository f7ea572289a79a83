"""Make and verify seals. A seal is a folder with an image byte for byte, what `lab` makes of it, who sealed it, when and with which tools,
and the SHA-512 of each file, perhaps signed by OpenSSH. docs/howto/seal.md lists the files.

A seal shows that nothing changed since it was made. It shows nothing about the time before.
"""
import datetime
import filecmp
import getpass
import json
import os
import platform
import re
import shutil
import sqlite3
import tempfile
from dataclasses import dataclass, field
from importlib import metadata, resources
from pathlib import Path
from typing import Any, BinaryIO

import jsonschema

from .. import files, program
from ..escaping import shown
from ..journal import identity, verdict
from ..journal.reading import Progress, read, silent
from ..journal.verdict import Verdict
from ..program import DEVICE, FOUND, REFUSED, Failed, Json, tool

IMAGE, SEAL, SUMS, SIGNATURE = "image", "seal.json", "SHA512SUMS", "SHA512SUMS.sig"
IDENTITY = IMAGE + identity.ENDING
DRAWN = ("journal.db", "report.html", "table.csv")
"""The files that this package makes of the image, if it is formatted."""
FILES = {IMAGE, IDENTITY, SEAL, *DRAWN}
"""The files that SHA512SUMS may list."""
SMALL, MOST_SMALL = {IDENTITY, SEAL, SUMS, SIGNATURE}, 1 << 16
"""The files that are read into memory, and the greatest size of one in bytes."""
LINE = re.compile(rf"[0-9a-f]{{128}}  ({'|'.join(map(re.escape, sorted(FILES)))})")
"""A line of SHA512SUMS."""
NAMESPACE = "gaknifur-seal"
"""The namespace of the signature."""


def who() -> str:
    """The user who seals, and this machine."""
    try:
        return f"{getpass.getuser()} at {platform.node()}"
    except (KeyError, OSError):
        return f"user {os.getuid()} at {platform.node()}"


def tools() -> Json:
    """What the bytes of table, database and report depend on, besides the image."""
    libraries = [f"{name} {metadata.version(name)}" for name in ("jinja2", "matplotlib", "numpy", "pandas")]
    return {"lab": program.version(), "etcs_lab_sha256": files.digest(Path(program.find())), "python": platform.python_version(),
            "libraries": ", ".join([*libraries, f"sqlite {sqlite3.sqlite_version}"])}


def fault_of(seal: Any) -> str | None:
    """What is wrong with the content of `seal.json`; None if nothing is."""
    schema = json.loads(resources.files(__package__).joinpath("seal.schema.json").read_text(encoding="utf-8"))
    fault = next(jsonschema.Draft202012Validator(schema).iter_errors(seal), None)
    return fault and f"{fault.json_path} doesn't match the schema ({fault.validator}: {str(fault.validator_value)[:100]})"


# ---- making a seal

def copy_image(source: BinaryIO, path: Path, out: Path) -> None:
    """Copies an open image, reading it once."""
    before = os.fstat(source.fileno())
    with out.open("xb") as file:
        shutil.copyfileobj(source, file, 1 << 20)
    after = os.fstat(source.fileno())
    if (before.st_size, before.st_mtime_ns) != (after.st_size, after.st_mtime_ns):
        raise Failed(f"{path}: the file changed while it was read. Nothing was sealed.", DEVICE)


def draw(image: Path, out: Path, name: str, progress: Progress) -> Verdict:
    """Makes table, database and report of a seal's image in a folder, under the image's original name; returns its verdict. An image that
    isn't formatted has none of them."""
    try:
        journal = read(image, replay=True, why=True, progress=progress, strays=True, is_own=True)
        journal.identity = identity.of(image)
    except Failed as failed:
        if failed.status != REFUSED:
            raise
        return Verdict([f"has no table, database and report: {str(failed).removeprefix(f'{image}: ')}"])
    journal.path = Path(name)
    from ..journal import database, report, tables
    table = tables.frame(journal)
    (out / "table.csv").write_text(tables.csv_text(table), encoding="utf-8")
    connection = database.open_database(out / "journal.db")
    try:
        database.add(connection, journal, table)
    finally:
        connection.close()
    (out / "report.html").write_text(report.page(journal, progress=progress), encoding="utf-8")
    return verdict.of(journal)


def run(*words: str | Path, folder: Path) -> list[str]:
    """The output of a tool that must not fail."""
    status, lines = tool(*words, folder=folder)
    if status:
        raise Failed(f"{words[0]}: {'; '.join(lines) or f'status {status}'}. Nothing was sealed.", REFUSED)
    return lines


def check_inputs(image: Path, key: Path | None) -> None:
    """Refuses, before anything is read, what is no image, and a key that can't sign."""
    if image.exists() and not image.is_file() and not image.is_block_device():
        raise Failed(f"{image}: is neither a regular file nor a block device", DEVICE)
    if key is not None:
        with key.open("rb"):
            run("ssh-keygen", "-l", "-f", key.absolute(), folder=Path("/"))


def seal(image: Path, folder: Path, by: str | None = None, medium: str | None = None, key: Path | None = None,
         progress: Progress = silent) -> tuple[Json, Verdict]:
    """Makes a seal of an image; returns the content of `seal.json` and the verdict of the image. `key` is the file of an OpenSSH key."""
    check_inputs(image, key)
    with files.open_to_read(image) as source, files.new_folder(folder) as new:
        progress("copy", 0, 0)
        copy_image(source, image, new / IMAGE)
        if identity.of(image) is not None:
            shutil.copyfile(identity.path_of(image), new / IDENTITY)
        name = shown(image.name)
        judged = draw(new / IMAGE, new, name, progress)
        now = datetime.datetime.now(datetime.timezone.utc).isoformat(timespec="seconds").replace("+00:00", "Z")
        found = {"version": 3, "sealed_at": now, "by": shown(by or who()), "medium": shown(medium) if medium else None,
                 "image": {"name": name, "bytes": (new / IMAGE).stat().st_size, "sha256": files.digest(new / IMAGE)},
                 "tools": tools(), "etcs_lab_is_proved": program.reader_is_proved()}
        if fault := fault_of(found):
            raise Failed(f"{image}: can't be sealed: in {SEAL} {fault}. Nothing was sealed.", REFUSED)
        (new / SEAL).write_text(json.dumps(found, indent=1, ensure_ascii=False) + "\n", encoding="utf-8")
        progress("digests", 0, 0)
        (new / SUMS).write_text("".join(f"{line}\n" for line in run("sha512sum", *sorted(os.listdir(new)), folder=new)))
        if key is not None:
            run("ssh-keygen", "-Y", "sign", "-f", key.absolute(), "-n", NAMESPACE, SUMS, folder=new)
    return found, judged


# ---- verifying a seal

@dataclass
class Verification:
    """A verification of a folder, perhaps with a file of allowed signers: what it prints and what it found."""

    folder: Path
    signers: Path | None
    progress: Progress
    lines: list[str] = field(default_factory=list)
    """The lines of ssh-keygen and sha512sum, and those that begin with `altered`, `unsigned`, `stated`, `shown` and `not shown`."""
    is_refused: bool = False
    """Whether something was altered, or no named signer signed it."""
    image: Verdict = field(default_factory=Verdict)
    """The verdict of the image, if nothing was altered."""

    def refuse(self, line: str) -> None:
        """Adds what was altered."""
        self.lines.append(line)
        self.is_refused = True

    def ssh_keygen(self, *words: str | Path) -> tuple[int, list[str]]:
        """The status and the lines of ssh-keygen about the signature."""
        return tool("ssh-keygen", "-Y", *words, "-n", NAMESPACE, "-s", SIGNATURE, folder=self.folder, given=(self.folder / SUMS).read_bytes())


def verify(folder: Path, signers: Path | None = None, progress: Progress = silent) -> Verification:
    """Verifies a seal: names of files, signature, digests, contents. Each step is done only if the one before found nothing. One of the
    `signers`, a file of allowed signers of OpenSSH, has to have signed it."""
    found = Verification(folder, signers, progress)
    if (folder / "bagit.txt").exists():
        raise Failed(f"{folder}: is a bag (BagIt) by an earlier version of lab, and only seals are verified. Check it in that folder by "
                     "`sha512sum -c tagmanifest-sha512.txt manifest-sha512.txt`, and seal its data/image anew. Nothing was changed.", FOUND)
    for check in (check_names, check_signature, check_digests, check_contents):
        if not found.is_refused:
            check(found)
    found.lines += ["not shown: that the image wasn't altered before it was sealed", f"the seal is {'not ' if found.is_refused else ''}verified"]
    return found


def check_names(found: Verification) -> None:
    """Checks which files there are, without reading any."""
    with os.scandir(found.folder) as entries:
        there = {entry.name: entry for entry in entries}
    for name in sorted({IMAGE, SEAL, SUMS} - there.keys()):
        found.refuse(f"altered: {name}: is missing")
    for name, entry in sorted(there.items()):
        if name not in FILES | SMALL:
            found.refuse(f"altered: {name}: is not a file of a seal")
        elif not entry.is_file(follow_symlinks=False):
            found.refuse(f"altered: {name}: is not a regular file")
        elif name in SMALL and entry.stat().st_size > MOST_SMALL:
            found.refuse(f"altered: {name}: has more than {MOST_SMALL} bytes")


def check_signature(found: Verification) -> None:
    """Checks the signature of SHA512SUMS by ssh-keygen."""
    is_signed, signers = (found.folder / SIGNATURE).exists(), found.signers
    if signers is not None:
        with signers.open("rb"):
            check_signers(found, signers.absolute(), is_signed)
    elif not is_signed:
        found.lines.append("not shown: who sealed it: there is no signature, so whoever altered a file could have sealed it again")
    else:
        status, lines = found.ssh_keygen("check-novalidate")
        found.lines += lines
        if status:
            found.refuse(f"altered: {SIGNATURE}: is no signature of {SUMS}; one of them was changed")
        else:
            found.lines.append("not shown: whose key that is: name the signers that you trust (--signers)")


def check_signers(found: Verification, signers: Path, is_signed: bool) -> None:
    """Checks that one of the allowed signers signed it."""
    status, lines = found.ssh_keygen("find-principals", "-f", signers) if is_signed else (1, [f"{SIGNATURE} is missing"])
    for name in [] if status else lines:
        status, lines = found.ssh_keygen("verify", "-f", signers, "-I", name)
        if not status:
            break
    found.lines += lines
    if status:
        found.refuse(f"unsigned: no signer of {found.signers} signed the seal as it is now, so nothing else in it was read")


def check_digests(found: Verification) -> None:
    """Checks that SHA512SUMS lists each file, and the digests by sha512sum."""
    *lines, end = (found.folder / SUMS).read_bytes().decode(errors="replace").split("\n")
    names = {line.group(1) for line in map(LINE.fullmatch, lines) if line}
    for name in sorted(FILES & set(os.listdir(found.folder)) - names):
        found.refuse(f"altered: {name}: {SUMS} doesn't list it")
    if end or len(names) < len(lines):
        found.refuse(f"altered: {SUMS}: has a line that isn't the digest of a file of a seal, or has one twice")
    if not found.is_refused:
        found.progress("digests", 0, 0)
        status, printed = tool("sha512sum", "--strict", "-c", SUMS, folder=found.folder)
        found.lines += printed
        found.is_refused = status != 0


def check_contents(found: Verification) -> None:
    """Checks `seal.json`, and makes table, database and report again. By the tools that sealed them they have to be the same bytes."""
    try:
        seal = json.loads((found.folder / SEAL).read_bytes())
        fault = fault_of(seal)
    except (ValueError, RecursionError):
        fault = "isn't JSON"
    if fault:
        found.refuse(f"altered: {SEAL}: {fault}")
        return
    image, is_same_tool = found.folder / IMAGE, seal["tools"] == tools()
    if (seal["image"]["bytes"], seal["image"]["sha256"]) != (image.stat().st_size, files.digest(image)):
        found.refuse(f"altered: {IMAGE}: is another image than the one in {SEAL}")
    found.lines.append(f"stated: sealed by {seal['by']} at {seal['sealed_at']}, from {seal['medium'] or 'a medium that is not named'}, "
                       f"with lab {seal['tools']['lab']}; {program.PROOF[seal['etcs_lab_is_proved']]}")
    with tempfile.TemporaryDirectory(prefix="gaknifur-") as room:
        found.image = draw(image, Path(room), seal["image"]["name"], found.progress)
        for name in DRAWN:
            compare(found, Path(room, name), found.folder / name, is_same_tool)


def compare(found: Verification, made: Path, sealed: Path, is_same_tool: bool) -> None:
    """Compares a file of the seal with the one that was made again."""
    if not made.exists() and not sealed.exists():
        return
    if made.exists() and sealed.exists() and filecmp.cmp(made, sealed, shallow=False):
        found.lines.append(f"shown: {made.name} is what lab makes of the image")
    elif is_same_tool:
        found.refuse(f"altered: {made.name}: {'is not what lab makes of the image' if sealed.exists() else 'is missing'}")
    else:
        found.lines.append(f"not shown: that {made.name} is about the image: another version of lab or of its libraries sealed it, and this one makes another file")
