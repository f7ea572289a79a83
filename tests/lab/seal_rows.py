#!/usr/bin/env python3
"""What `./lab seal` makes, and what `./lab verify` says of seals that are altered in one way each, by the real sha512sum and ssh-keygen.

    tests/lab/seal_rows.py ETCS_LAB

- A seal of the example trip is verified, and sha512sum and ssh-keygen find each file and its signature good.
- A byte of each file, a file less, more, cut off, in place of another one, a link, a pipe or 2^40 bytes in its place; lines of SHA512SUMS;
  signatures of others: each is reported, by the name of the file. So is what was closed anew after the alteration.
- The image stays as it is. What is no image, is held by a unit, or has its folder already isn't sealed, and nothing is left, also by a
  signal; images that are damaged or not formatted are sealed.
"""
import fcntl
import hashlib
import json
import os
import shutil
import signal
import subprocess
import sys
import tempfile
from functools import partial
from pathlib import Path

TOP = Path(__file__).resolve().parents[2]
sys.path[:0] = [str(TOP / part) for part in ("python", "tests", "tests/model", "tests/etcs_lab")]

from compared import Compared  # noqa: E402
from gaknifur.evidence import seal  # noqa: E402
from replay_rows import examples  # noqa: E402

LISTED = ["image", "image.identity", "journal.db", "report.html", "seal.json", "table.csv"]
SUMS, SIGNATURE = "SHA512SUMS", "SHA512SUMS.sig"
FILES = [SUMS, SIGNATURE, *LISTED]
ROOM = Path(tempfile.mkdtemp())


def run(*words, status=0, **how):
    done = subprocess.run([str(word) for word in words], capture_output=True, text=True, stdin=subprocess.DEVNULL, **how)
    assert done.returncode == status, (words, done)
    return done.stdout + done.stderr


def sums(folder):
    """The text of SHA512SUMS, by Python's own digests."""
    names = sorted(set(os.listdir(folder)) - {SUMS, SIGNATURE})
    return "".join(f"{hashlib.sha512((folder / name).read_bytes()).hexdigest()}  {name}\n" for name in names)


# ---- alterations

def close(folder, signer=None):
    """Closes a seal after an alteration, as whoever altered it might; perhaps with a signature of his own."""
    (folder / SUMS).write_text(sums(folder))
    (folder / SIGNATURE).unlink(missing_ok=True)
    if signer:
        run("ssh-keygen", "-q", "-Y", "sign", "-f", ROOM / signer, "-n", "gaknifur-seal", folder / SUMS)


def flip(folder, name, at):
    data = bytearray((folder / name).read_bytes())
    data[int(at * (len(data) - 1))] ^= 1
    (folder / name).write_bytes(data)


def calm(folder, name):
    """Takes the emergency brakes out of a file."""
    data = (folder / name).read_bytes()
    assert b"emergency" in data, name
    (folder / name).write_bytes(data.replace(b"emergency", b"none     "))


def put(folder, member, value):
    """Puts a value into seal.json, or removes the member."""
    seal_json = json.loads((folder / "seal.json").read_text())
    *parts, last = member.split(".")
    members = seal_json[parts[0]] if parts else seal_json
    members.pop(last, None)
    members |= {} if value is ... else {last: value}
    (folder / "seal.json").write_text(json.dumps(seal_json))


def each_file():
    """Alterations of one file: a name, what does it, and the line for it, without and with named signers."""
    for name in FILES:
        line = (f"{name}: FAILED",) * 2 if name in LISTED else (f"altered: {SIGNATURE}: is no signature of {SUMS}", "unsigned: ")
        for at in (0.3, 0.8):
            yield f"a byte at {at} of {name}", lambda folder, name=name, at=at: flip(folder, name, at), *line
        yield f"{name} cut off", lambda folder, name=name: os.truncate(folder / name, (folder / name).stat().st_size // 2), *line
        for what, do in (("a link", lambda path: path.symlink_to(ROOM / "sealed" / path.name)), ("/dev/zero", lambda path: path.symlink_to("/dev/zero")),
                         ("a pipe", os.mkfifo), ("a folder", Path.mkdir)):
            yield f"{what} for {name}", lambda folder, name=name, do=do: [(folder / name).unlink(), do(folder / name)], *(f"altered: {name}: is not a regular file",) * 2
        if name != SIGNATURE:
            yield f"{name} less", lambda folder, name=name: (folder / name).unlink(), *(f"altered: {name}: is missing" if name in ("image", "seal.json", SUMS) else line[0],) * 2
    for name in (SUMS, SIGNATURE, "seal.json", "image.identity"):
        yield f"2^40 bytes for {name}", lambda folder, name=name: os.truncate(folder / name, 1 << 40), *(f"altered: {name}: has more than 65536 bytes",) * 2
    for name in ("more", ".more", "image.times", "SHA512SUMS.asc", "data"):
        yield f"{name} more", lambda folder, name=name: os.mkdir(folder / name) if name == "data" else (folder / name).touch(), *(f"altered: {name}: is not a file of a seal",) * 2
    yield "a file more, which SHA512SUMS has", lambda folder: [(folder / "run.sh").touch(), close(folder)], *("altered: run.sh: is not a file of a seal",) * 2
    yield "two files in place of each other", lambda folder: [(folder / "image").rename(folder / "x"), (folder / "table.csv").rename(folder / "image"),
                                                             (folder / "x").rename(folder / "table.csv")], *("table.csv: FAILED",) * 2
    yield "nothing of it", lambda folder: [shutil.rmtree(folder), folder.mkdir()], *(f"altered: {SUMS}: is missing",) * 2


def other_lines():
    """Other texts of SHA512SUMS: what they are, what makes them of its lines."""
    wrong = f"altered: {SUMS}: has a line"
    zero = "0" * 128
    for name, change, line in (
            ("a line less", lambda lines: lines[1:], "altered: image: SHA512SUMS doesn't list it"), ("a line twice", lambda lines: lines + lines[:1], wrong),
            ("two digests of a file", lambda lines: [*lines, zero + lines[0][128:]], wrong), ("no line", lambda lines: [], "altered: image: SHA512SUMS"),
            ("..", lambda lines: [*lines, f"{zero}  ../sealed/image\n"], wrong), ("an absolute path", lambda lines: [*lines, f"{zero}  /etc/passwd\n"], wrong),
            ("/dev/zero", lambda lines: [*lines, f"{zero}  /dev/zero\n"], wrong), ("a file of the seal by a path", lambda lines: [f"{lines[0][:130]}./image\n", *lines[1:]], wrong),
            ("itself", lambda lines: [*lines, f"{zero}  {SUMS}\n"], wrong), ("a short digest", lambda lines: [lines[0][2:], *lines[1:]], wrong),
            ("SHA-256", lambda lines: [lines[0][64:], *lines[1:]], wrong), ("BSD's form", lambda lines: [f"SHA512 (image) = {lines[0][:128]}\n", *lines[1:]], wrong),
            ("a remark", lambda lines: ["# nothing\n", *lines], wrong), ("Windows' ends of lines", lambda lines: [line.replace("\n", "\r\n") for line in lines], wrong),
            ("no end of the last line", lambda lines: [*lines[:-1], lines[-1][:-1]], wrong)):
        yield name, lambda folder, change=change: [(folder / SIGNATURE).unlink(), (folder / SUMS).write_bytes("".join(change((folder / SUMS).read_text().splitlines(True))).encode())], line


def closed_again():
    """Alterations after which the seal was closed again without a signature: what `verify` makes anew, and seal.json, show them."""
    for name in ("table.csv", "report.html", "journal.db"):
        yield f"no emergency in {name}", lambda folder, name=name: calm(folder, name), f"altered: {name}: is not what lab makes"
        yield f"no {name}", lambda folder, name=name: (folder / name).unlink(), f"altered: {name}: is missing"
    for text in ("unit: 18", "driver: me"):
        yield f"another identity, {text}", lambda folder, text=text: (folder / "image.identity").write_text(text), "altered: report.html: is not what lab makes"
    for text in (b"", b"{", b"[]", b"null", b"\xff\xfe", b"[" * 60_000, b'{"a":' * 10_000, b"1" * 5_000):
        yield f"seal.json is {text[:20]!r}", lambda folder, text=text: (folder / "seal.json").write_bytes(text), "altered: seal.json: "
    for member, values in {"version": (2, True, None, ...), "sealed_at": ("now", 5, ...), "by": (None, "", "a\nb", "x" * 1_001, ...), "medium": (7, ["a"], ...),
                           "image": (None, [], ...), "image.name": (5, "a\x1b[2J"), "image.bytes": ("5", -1, 1.5, True, float("inf")), "image.sha256": ("x", "A" * 64),
                           "image.more": (1,), "tools": (None, {}, ...), "tools.lab": (5,), "tools.more": (1,), "etcs_lab_is_proved": ("yes", 1, ...), "more": (1,)}.items():
        for value in values:
            yield f"{member} is {str(value)[:40]!r}", lambda folder, member=member, value=value: put(folder, member, value), "altered: seal.json: "
    for name, step in (("image", lambda folder: flip(folder, "image", 0.1)), ("size", lambda folder: put(folder, "image.bytes", 5)),
                       ("digest", lambda folder: put(folder, "image.sha256", "0" * 64))):
        yield f"another {name}", step, "altered: image: is another image"


def altered(*steps):
    """A copy of the seal that is altered."""
    folder = ROOM / "altered"
    shutil.rmtree(folder, ignore_errors=True)
    shutil.copytree(ROOM / "sealed", folder)
    for name in os.listdir(folder):
        (folder / name).chmod(0o644)
    for step in steps:
        step(folder)
    return folder


def expect(count, name, steps, line, signers=None):
    """An altered seal is refused with a line that begins so."""
    found = seal.verify(altered(*steps), signers and ROOM / signers)
    count.unless(found.is_refused and found.lines[-1] == "the seal is not verified" and any(one.startswith(line) for one in found.lines[:-1]),
                 f"{name}: {line} isn't printed: {found.lines}")


def all_altered(count):
    for name, step, line, line_of_signers in each_file():
        expect(count, name, [step], line)
        expect(count, f"{name}, signers named", [step], line_of_signers, "signers")
    for name, step, line in [*other_lines(), *((name, lambda folder, step=step: [step(folder), close(folder)], line) for name, step, line in closed_again())]:
        expect(count, name, [step], line)
        expect(count, f"{name}, signers named", [step], "unsigned: ", "signers")
    table = partial(calm, name="table.csv")
    for name, step, line in (("signed by others", lambda folder: close(folder, "other"), "unsigned: "), ("no signature", lambda folder: (folder / SIGNATURE).unlink(), "unsigned: "),
                             ("a table, signed again", lambda folder: [table(folder), close(folder, "key")], "altered: table.csv: is not what lab makes")):
        expect(count, name, [step], line, "signers")
    found = run(TOP / "lab", "verify", altered(table, lambda folder: put(folder, "tools.lab", "0.0.1\u202e"), close))
    count.same("a table of another version", ("not shown: that table.csv is about the image" in found, "with lab 0.0.1\\u202e;" in found,
                                              found.splitlines()[-1]), (True, True, "the seal is verified"))


# ---- seals

def whole(count, image):
    """The content of a seal, and what it shows."""
    data, before, folder = image.read_bytes(), image.stat(), ROOM / "sealed"
    text = run(TOP / "lab", "seal", image, folder, "--by", "one", "--medium", "a medium", "--ssh-key", ROOM / "key")
    count.same("seal", text, f"sealed taken, {len(data)} bytes, by one\nsha256 {hashlib.sha256(data).hexdigest()}\n")
    count.same("the image", (image.read_bytes(), image.stat().st_mtime_ns, (folder / "image").read_bytes()), (data, before.st_mtime_ns, data))
    count.same("its files", sorted(os.listdir(folder)), FILES)
    count.same("their modes", {(folder / name).stat().st_mode & 0o777 for name in FILES}, {0o444})
    count.same("the identity", (folder / "image.identity").read_text(), "unit: 17\n")
    count.same("the digests", (folder / SUMS).read_text(), sums(folder))
    found = json.loads((folder / "seal.json").read_text())
    count.same("seal.json", (found["by"], found["medium"], found["image"]), ("one", "a medium", {"name": "taken", "bytes": len(data), "sha256": hashlib.sha256(data).hexdigest()}))
    lines = [f"{name}: OK" for name in LISTED]
    count.same("sha512sum", run("sha512sum", "--strict", "-c", SUMS, cwd=folder).splitlines(), lines)
    good = run("sh", "-c", "ssh-keygen -Y verify -f ../signers -I one@example -n gaknifur-seal -s SHA512SUMS.sig <SHA512SUMS", cwd=folder)
    shown = [f"shown: {name} is what lab makes of the image" for name in ("journal.db", "report.html", "table.csv")]
    last = ["not shown: that the image wasn't altered before it was sealed", "the seal is verified"]
    by_no_name = [good.strip().replace(" for one@example", ""), "not shown: whose key that is: name the signers that you trust (--signers)"]
    for signers, first in (("signers", [good.strip()]), ("both", [good.strip()]), (None, by_no_name)):
        seen = seal.verify(folder, signers and ROOM / signers)
        seen.lines = [line for line in seen.lines if not line.startswith("stated: sealed by one at ")]
        count.same(f"verify, signers {signers}", (seen.is_refused, seen.image.sentences, seen.lines), (False, [], [*first, *lines, *shown, *last]))
    expect(count, "others are trusted", [], "unsigned: no signer of ", "others")


def fails(count, name, words, status, said, left=None, **how):
    """A command fails so, and leaves nothing, or only what has a name that begins so."""
    before = set(os.listdir(ROOM))
    count.unless(said in run(TOP / "lab", *words, status=status, **how), f"{name}: {said} isn't printed")
    count.same(f"{name}: what is left", [left and one[:len(left)] for one in set(os.listdir(ROOM)) - before], [left] if left else [])


def at_the_edges(count, image):
    """What isn't sealed or verified, and images that are damaged or none."""
    os.mkfifo(ROOM / "pipe")
    (ROOM / "text").write_text("text")
    shutil.copy(ROOM / "key.pub", ROOM / "half.pub")
    new, key = ROOM / "new", "--ssh-key"
    for name, words, status, said in (
            ("a pipe", (ROOM / "pipe", new), 3, "neither a regular file nor a block device"), ("a folder", (ROOM, new), 3, "neither a regular"),
            ("/dev/zero", ("/dev/zero", new), 3, "neither a regular"), ("no file", (ROOM / "none", new), 3, "No such file"),
            ("a folder that is there", (image, ROOM / "sealed"), 1, "already exists"), ("no folder around it", (image, ROOM / "none/new"), 3, "No such file"),
            ("no key", (image, new, key, ROOM / "none"), 3, "none: No such file"), ("a key that is none", (image, new, key, ROOM / "text"), 1, "is not a public key file"),
            ("a key that only verifies", (image, new, key, ROOM / "half.pub"), 1, "Nothing was sealed"), ("a long name", (image, new, "--by", "x" * 1_001), 1, "$.by doesn't match the schema (maxLength: 1000)")):
        fails(count, name, ("seal", *words), status, said, env=os.environ | {"SSH_AUTH_SOCK": ""})
    with image.open("r+b") as held:
        fcntl.flock(held, fcntl.LOCK_EX)
        fails(count, "an image that a unit holds", ("seal", image, new), 3, "another program is writing it")
    (ROOM / "bag").mkdir(), (ROOM / "bag/bagit.txt").write_text("BagIt-Version: 1.0\n")
    for name, words, status, said in (("a bag", (ROOM / "bag",), 4, "is a bag (BagIt) by an earlier version"), ("no folder", (new,), 3, "No such file"),
                                      ("a file", (image,), 3, "Not a directory"), ("no signers", (ROOM / "sealed", "--signers", ROOM / "none"), 3, "none: No such file")):
        fails(count, name, ("verify", *words), status, said)
    data = image.read_bytes()
    for name, made, status in (("damaged", data[:2000] + b"\xff" + data[2001:], True), ("cut", data[:5000], True), ("none", b"text", False), ("empty", b"", False)):
        (ROOM / name).write_bytes(made)
        sealed, odd = seal.seal(ROOM / name, ROOM / f"sealed-{name}")
        seen = seal.verify(ROOM / f"sealed-{name}")
        count.same(f"{name}: verified", (seen.is_refused, seen.image.sentences), (False, odd.sentences))
        count.unless(bool(odd.sentences) and str(ROOM) not in str(odd.sentences), f"{name}: {odd.sentences}")
        count.same(f"{name}: a report", (ROOM / f"sealed-{name}/report.html").exists(), status)


def without_tools(count, image):
    """A missing tool, and a signal while the seal is made: nothing is left; by SIGKILL no folder of its name."""
    at = ROOM / "bin"
    at.mkdir()
    for name in ("bash", "sh", "env", "dirname", "readlink", "python3", "git", "sed", "cat"):
        (at / name).symlink_to(shutil.which(name))
    env = os.environ | {"PATH": str(at)}
    fails(count, "no sha512sum", ("seal", image, ROOM / "new"), 3, "sha512sum is missing", env=env)
    fails(count, "no ssh-keygen", ("seal", image, ROOM / "new", "--ssh-key", ROOM / "key"), 3, "ssh-keygen is missing", env=env)
    fails(count, "no ssh-keygen", ("verify", ROOM / "sealed"), 3, "ssh-keygen is missing", env=env)
    for name, status in (("TERM", 143), ("INT", 130), ("KILL", -9)):
        (at / "sha512sum").write_text(f"#!/bin/sh\nkill -{name} $PPID\nexec /bin/sleep 1\n")
        (at / "sha512sum").chmod(0o755)
        fails(count, name, ("seal", image, ROOM / "new"), status, "", env=env, left=".lab-" if name == "KILL" else None)


def main(words):
    signal.signal(signal.SIGINT, signal.default_int_handler)  # (a job in the background begins with SIGINT ignored, and so would ./lab)
    os.environ["GAKNIFUR_ETCS_LAB"] = str(Path(words[0]).resolve())
    for name in ("key", "other"):
        run("ssh-keygen", "-q", "-t", "ed25519", "-N", "", "-C", "", "-f", ROOM / name)
    one, other = (f"{name}@example {(ROOM / f'{key}.pub').read_text()}" for name, key in (("one", "key"), ("other", "other")))
    for name, text in (("signers", one), ("others", other), ("both", f"{other}{one}")):
        (ROOM / name).write_text(text)
    image = ROOM / "taken"
    image.write_bytes(dict(examples())["example trip"])
    (ROOM / "taken.identity").write_text("unit: 17\n")
    count = Compared()
    try:
        whole(count, image)
        all_altered(count)
        at_the_edges(count, image)
        without_tools(count, image)
    finally:
        shutil.rmtree(ROOM)
    return count.end(f"seals: {count.count} comparisons")


if __name__ == "__main__":
    sys.exit(main(sys.argv[1:]))
