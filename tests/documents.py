#!/usr/bin/env python3
"""Runs the commands of documents in docs/ in their order and compares what each prints, on both streams, with what is below it.
Several documents are run one after another in one folder, as a reader goes through them: no two use the same file names.

    tests/documents.py [--write] DOCUMENT..    as howto/sql or ../README. With --write replace the output in the document

A command follows `$ `, indented by four or in a block of `console`; lines after `> `, or after a backslash, go on
with it. A block of C or Python becomes the file of the HOME that the line above it names. The folder has what the
repository has at its top, and as ./etcs and ./etcs_lab the programs that $ETCS and $ETCS_LAB name, else those of the
full check.
"""
import os
import re
import subprocess
import sys
import tempfile
from pathlib import Path

TOP = Path(__file__).resolve().parents[1]
PROGRAMS = {name: Path(os.environ.get(name.upper()) or TOP / f"crates/{name}/out/{name}").resolve()
            for name in ("etcs", "etcs_lab")}
COMMANDS = {"../README": 3, "start/c": 9, "start/code": 8, "start/investigate": 10, "start/tests": 6, "howto/c-display": 2,
            "howto/c-flash": 2, "howto/c-guard": 2, "howto/c-journal": 6,
            "howto/c-loop": 2, "howto/c-static-memory": 2, "howto/closed-loop": 9,
            "howto/damaged-image": 20, "howto/languages": 5, "howto/lint": 8,
            "howto/oracle": 7, "howto/replay": 11,
            "howto/report": 7, "howto/seal": 10, "howto/searching": 7,
            "howto/sql": 15, "howto/telegrams": 4, "howto/time-of-day": 5,
            "howto/why-did-it-brake": 9, "howto/write-test-cases": 22}
"""How many commands a document has, at least."""
COMMAND = re.compile(r"^(    |)\$ ((?:.*\\\n)*.*\n(?:\1> .*\n)*)((?:(?!\1\$ |```)\1.*\n)*)", re.MULTILINE)
FILE = re.compile(r"`~/([\w.]+)`:\n+```(?:c|python)\n(.*?)^```$", re.DOTALL | re.MULTILINE)


class Document:
    """A document, and the folder in which its commands are run."""

    def __init__(self, name, room):
        self.path, self.room, self.home = TOP / "docs" / f"{name}.md", Path(room), Path(room) / "home"
        self.text = self.path.read_text()
        self.compared = self.differ = 0
        self.environment = os.environ | {f"GAKNIFUR_{name.upper()}": str(path) for name, path in PROGRAMS.items()}
        for entry in TOP.iterdir():
            if not entry.name.startswith(".") and not (self.room / entry.name).is_symlink():
                (self.room / entry.name).symlink_to(PROGRAMS.get(entry.name, entry))
        if "```console" in self.text:
            self.home.mkdir(exist_ok=True)
            # (rustup looks for its toolchain in the HOME of who installed it)
            rustup = os.environ.get("RUSTUP_HOME", str(Path.home() / ".rustup"))
            self.environment |= {"HOME": str(self.home), "RUSTUP_HOME": rustup}
            for name, text in FILE.findall(self.text):
                (self.home / name).write_text(text)

    def run(self, found):
        """Runs a command, and answers it with what it prints."""
        indent, words, wanted = found.groups()
        command = re.sub(rf"^{indent}> ", "", words, flags=re.MULTILINE)
        done = subprocess.run(["bash", "-c", command], cwd=self.room, env=self.environment, stdin=subprocess.DEVNULL,
                              capture_output=True, text=True, timeout=300)
        printed = (done.stdout + done.stderr).replace(str(self.home), "~").replace(f"{self.room}/", "")
        printed = "".join(f"{indent}{line}".rstrip() + "\n" for line in printed.splitlines())
        self.compared += 1
        if printed != wanted:
            self.differ += 1
            print(f"{self.path.name}: {command}prints\n{printed}wanted\n{wanted}")
        return f"{indent}$ {words}{printed}"

    def commands(self):
        """Runs the commands in their order, and returns the document with what they print."""
        return COMMAND.sub(self.run, self.text)


def unrun():
    """Documents whose commands no runner runs."""
    runners = "".join(path.read_text() for path in (TOP / ".ci/run", *TOP.glob("tests/*.sh")))
    for path in sorted((*TOP.glob("docs/start/*.md"), *TOP.glob("docs/howto/*.md"))):
        name = f"{path.parent.name}/{path.stem}"
        if COMMAND.search(path.read_text()) and not (name in COMMANDS and re.search(rf"documents\.py(.|\\\n)* {name}\b(?!-)", runners)):
            yield f"docs/{name}.md: its commands aren't run: name it in COMMANDS, and in a runner of tests/"


def main(words):
    wrong = [*unrun()]
    print(*wrong, sep="\n", end="\n" if wrong else "")
    with tempfile.TemporaryDirectory() as room:
        return in_folder(words, room) or bool(wrong)


def in_folder(words, room):
    """Runs the documents in this folder."""
    is_write, status = words[0] == "--write", 0
    for name in words[is_write:]:
        document = Document(name, room)
        text = document.commands()
        if is_write:
            document.path.write_text(text)
            continue
        there = len(re.findall(r"^ *\$ ", document.text, re.MULTILINE))
        print(f"docs/{name}.md: {document.compared} of {there} commands compared, {document.differ} differ")
        if document.differ or document.compared != there or there < COMMANDS[name]:
            print(f"docs/{name}.md: {COMMANDS[name]} commands are to be compared, and none is to differ")
            status = 1
    return status


if __name__ == "__main__":
    sys.exit(main(sys.argv[1:]))
