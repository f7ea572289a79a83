"""The built program as tests run it, and its inputs. `ETCS` names another one than the full check leaves."""
import os
import struct
import subprocess
import sys
import tempfile
from pathlib import Path

HERE = Path(__file__).resolve().parent
TOP = HERE.parents[1]
PROGRAM = os.environ.get("ETCS") or str(TOP / "crates/etcs/out/etcs")

sys.path[:0] = [str(TOP / "tests/model"), str(TOP / "tests")]

SECTOR = 512
SLOT = 6 * SECTOR

# The life of a restriction ahead: read, the driver's entries and Start, and readings up to its end and after it.
RESTRICTION = "90007F802001506023A0E0190019427F80"
AUTHORITY = "90007F802001432024A8007FE007D002B00D900010000DC03A400020801FE0"
ENTRIES = [{"driver": [1, "A"]}, {"driver": [4, 1]}, {"driver": [3, 20000, 160000, 70, 0, 15]}, {"driver": [6]}]
STAFF_RESPONSIBLE = {"groups": [], "steps": [{"telegram": RESTRICTION}, *ENTRIES, {"drive": [9046, 10000]}, {"drive": [1, 10000]},
                                             {"drive": [7268, 10000]}, {"drive": [1, 10000]}]}
FULL_SUPERVISION = {"groups": [], "steps": [{"telegram": AUTHORITY}, *ENTRIES]}


def run_program(words, preload=None, **environment):
    """Status and text of a run. Nothing is ever written to standard error."""
    env = None
    if preload or environment:
        env = dict(os.environ, **environment) | ({"LD_PRELOAD": preload} if preload else {})
    done = subprocess.run([PROGRAM, *map(str, words)], stdin=subprocess.DEVNULL, capture_output=True, env=env, timeout=60)
    if done.stderr:
        raise SystemExit(f"{words}: standard error has {done.stderr[:200]!r}")
    return done.returncode, done.stdout.decode()


LIBRARIES = tempfile.TemporaryDirectory()


def built(name):
    """The library that one of the C files makes, to be loaded before the program."""
    out = Path(LIBRARIES.name) / f"{name}.so"
    subprocess.run(["gcc", "-Wall", "-O1", "-shared", "-fPIC", "-o", out, HERE / f"{name}.c"], check=True)
    return str(out)


def room():
    """A folder for images and scenarios, in memory where there is one."""
    return tempfile.TemporaryDirectory(dir="/dev/shm" if os.access("/dev/shm", os.W_OK) else None)


def recorded_by(record, image, words, **environment):
    """Status and text of a run, and the calls of an image file and of standard output that it made: letter, place, bytes (record.c)."""
    to = Path(f"{image}.calls")
    to.unlink(missing_ok=True)
    answer = run_program(words, record, RECORD_OF=str(image), RECORD_TO=str(to), **environment)
    return answer, calls_of(to)


def settled(record, image, **environment):
    """Settles an image (tools/settle), and answers the calls of its file."""
    to = Path(f"{image}.calls")
    to.unlink(missing_ok=True)
    subprocess.run([TOP / "tools/settle", image], check=True,
                   env=dict(os.environ, LD_PRELOAD=record, RECORD_OF=str(image), RECORD_TO=str(to), **environment))
    return calls_of(to)


def calls_of(to):
    """The calls that were recorded in a file; of a length that was set, that is the place."""
    data, at, calls = to.read_bytes() if to.exists() else b"", 0, []
    while at < len(data):
        kind, place, length = struct.unpack_from("<cQQ", data, at)
        at += 17
        body = data[at:at + length] if kind in b"wo" else b""
        at += len(body)
        calls.append((kind.decode(), length if kind == b"l" else place, body))
    return calls


class Releases:
    """What a life has released by its calls so far: of the lines that it prints at its end one for each record of a block whose gate is synced, but for
    its power-up's."""

    def __init__(self, text):
        self.lines, self.blocks, self.records, self.is_gate = text.splitlines(keepends=True), [], 0, False

    def note(self, kind, body):
        """Takes one call more."""
        if kind == "w":
            self.records = body[28] if body.startswith(b"ETCSHED") else self.records
            self.is_gate = body.startswith(b"ETCSGATE")
        elif kind == "s" and self.is_gate:
            self.blocks.append(self.records)
            self.is_gate = False

    def text(self):
        return "".join(self.lines[:sum(self.blocks[1:])])


def sectors_of(place, body):
    """The sectors of a write, each with its bytes; the program writes whole sectors."""
    return {(place + k) // SECTOR: body[k:k + SECTOR] for k in range(0, len(body), SECTOR)}


def formatted(path, slots):
    status, text = run_program(["format", path, slots])
    if (status, text) != (0, f"formatted {slots} blocks {SECTOR + SLOT * slots} bytes\n"):
        raise SystemExit(f"format: {status} {text}")
