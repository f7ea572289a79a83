#!/usr/bin/env python3
"""Checks what a library says of its own build: by the calls, in its files, and to pkg-config.

    tests/c_unit/build.py PREFIX PROOF [SOURCES]    PROOF is how it was built: proved, unproved or unknown; SOURCES is the digest, or "unknown"
"""
import os
import re
import shutil
import subprocess
import sys
import tempfile
from pathlib import Path

TOP = Path(__file__).resolve().parents[2]
PREFIX = Path(sys.argv[1])
os.environ["GAKNIFUR_ETCS_UNIT"] = str(PREFIX / "lib/libetcs_unit.so")
sys.path[:0] = [str(TOP / "python"), str(TOP / "tests")]

from compared import Compared  # noqa: E402
from gaknifur import unit  # noqa: E402

SAYS = {"proved": "proved", "unproved": "unproved", "unknown": "proof unknown"}
MARKS = {"proved": "", "unproved": ", unproved", "unknown": ", proof unknown"}


def folders_of(name):
    """Where pkg-config finds headers and libraries of a copy of the files in another folder, from there on."""
    with tempfile.TemporaryDirectory() as room:
        shutil.copytree(PREFIX / "lib/pkgconfig", Path(room) / "lib/pkgconfig")
        found = [subprocess.run(["pkg-config", f"--variable={one}", name], capture_output=True, text=True,
                                env=os.environ | {"PKG_CONFIG_PATH": f"{room}/lib/pkgconfig"}).stdout.strip() for one in ("includedir", "libdir")]
        return [os.path.relpath(os.path.normpath(one), os.path.realpath(room)) for one in found]


def main(proof, sources=None):
    rows, text = Compared(), unit.build_info()
    found = re.fullmatch(r"Gaknifur (\S+), commit ((?:[0-9a-f]+|unknown)(?:, and changes)?), sources ([0-9a-f]{64}|unknown), (.*)", text)
    if rows.unless(found is not None, f"the library says {text!r}"):
        rows.same("version", found[1], unit.version())
        rows.same("sources", found[3], sources or found[3])
        rows.same("proof", found[4], SAYS[proof])
    rows.same("etcs_build_proof", unit.build_proof().name, proof.upper())
    for name in ("libetcs_unit.a", "libetcs_unit_no_malloc.a"):
        done = subprocess.run(["readelf", "-p", ".comment", PREFIX / "lib" / name], capture_output=True, text=True, check=True)
        rows.same(f".comment of {name}", re.findall(r"Gaknifur .*", done.stdout), [text])
    rows.same("the text in libetcs_unit.so", (PREFIX / "lib/libetcs_unit.so").read_bytes().count(text.encode() + b"\0"), 2)
    for name, what in (("etcs_unit", ""), ("etcs_unit_no_malloc", ", without malloc")):
        described = re.search(r"^Description: .*, for C(.*)$", (PREFIX / f"lib/pkgconfig/{name}.pc").read_text(), re.MULTILINE)
        rows.same(f"{name}.pc", described and described[1], what + MARKS[proof])
        rows.same(f"folders of {name}.pc", folders_of(name), ["include", "lib"])
        rows.same(f"proof of {name}.pc", re.findall(r"^proof=(.*)$", (PREFIX / f"lib/pkgconfig/{name}.pc").read_text(), re.MULTILINE), [proof])
    is_proved = re.findall(r"^set\(etcs_unit_PROVED (\w+)\)", (PREFIX / "lib/cmake/etcs_unit/etcs_unit-config.cmake").read_text(), re.MULTILINE)
    rows.same("CMake", is_proved, ["TRUE" if proof == "proved" else "FALSE"])
    return rows.end(f"what a build says of itself ({proof}): {rows.count} comparisons")


if __name__ == "__main__":
    sys.exit(main(*sys.argv[2:]))
