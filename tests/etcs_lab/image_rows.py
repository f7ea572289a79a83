#!/usr/bin/env python3
"""Images of each state of a slot, and what `etcs_lab examine` has to print.

    tests/etcs_lab/image_rows.py PROGRAM [ETCS]      run the program on each image, and compare; with the program etcs, the times of both on big images

The images are written from docs/reference/format.md (tests/model/blocks.py), and examined.py, which was written
from the pages too, works out the wanted output. Both forms are compared: lines as text, JSON as a value.
"""
import fcntl
import json
import os
import pty
import signal
import socket
import subprocess
import sys
import tempfile
import threading
import time
from pathlib import Path

HERE = Path(__file__).resolve().parent
sys.path[:0] = [str(HERE), str(HERE.parent), str(HERE.parent / "model")]
from blocks import SECTOR, SLOT, block, data_of, entry, first_sector, image_of, patched  # noqa: E402
from compared import Compared, loaded, run, status_of_full  # noqa: E402
from examined import examined, text_of  # noqa: E402
from image_cases import GROUPS, blocks_of, ring  # noqa: E402

LEAST = 10_300
NOBODY = 65_534


def compare_images(program, room, compared):
    for cases in GROUPS:
        found = {0: 0, 1: 0, 4: 0}
        for name, image, *slots in cases():
            found[compare_image(program, room / "image", name, image, slots[0] if slots else None, compared)] += 1
        print(f"{cases.__name__}: {sum(found.values())} images, of which {found[4]} are not whole, {found[1]} are refused, and of {found[0]} nothing is found")


def compare_image(program, path, name, image, slots, compared):
    """Compares both forms, and answers the status that is wanted."""
    path.write_bytes(image)
    text, status = text_of(image, slots)
    words = [] if slots is None else ["--slots", str(slots)]
    printed, said, got = run(program, ["examine", *words, str(path)])
    compared.same(name, (printed, got), (text, status))
    compared.same(name + ", standard error", bool(said), status == 1)
    printed, said, got = run(program, ["examine", "--json", *words, str(path)])
    compared.same(name + ", json", (loaded(printed), got, printed.count("\n")), (examined(image, slots)[0], status, 1))
    compared.same(name + ", untouched", path.read_bytes() == image, True)
    return status


def compare_help(program, compared):
    """The help, and messages that name the nearest right argument."""
    printed, said, status = run(program, ["--help"])
    compared.same("help", ("examine" in printed, "digest" in printed.split("\n\n")[-1], "copy" in printed.split("\n\n")[-1], said, status), (True, True, True, "", 0))
    for words in (["help"], ["--help", "--help"], ["--help", "look"]):
        compared.same(f"words {words}", run(program, words), (printed, "", 0))
    compared.same("no command", run(program, []), ("", printed, 2))
    help_of_events = """\
Print each event of a journal as a JSON object on its own line, the oldest first

Usage: etcs_lab events [OPTIONS] <IMAGE>

Arguments:
  <IMAGE>  Journal image: a file or a block device

Options:
      --all        Include events of other blocks and of damaged ones, each with its source
      --slots <N>  Read the image as one of N slots, whatever its first sector says
  -h, --help       Print help
"""
    for words in (["help", "events"], ["events", "--help"]):
        compared.same(f"words {words}", run(program, words), (help_of_events, "", 0))
    for words, named in (
        (["evnts", "image"], ("'evnts'", "a similar subcommand exists: 'events'", "Usage: etcs_lab <COMMAND>")),
        (["examine", "--jsn", "image"], ("'--jsn'", "a similar argument exists: '--json'", "Usage: etcs_lab examine")),
        (["examine", "--slots", "1", "image"], ("'1'", "'--slots <N>'", "1 is not in 2..=1048576")),
        (["telegram", "image"], ("'telegram'", "Usage: etcs_lab <COMMAND>")),
        (["lint", "image"], ("'lint'", "Usage: etcs_lab <COMMAND>")),
    ):
        printed, said, status = run(program, words)
        compared.same(f"words {words}", (printed, [one for one in named if one not in said], status), ("", [], 2))


def compare_words(program, room, compared):
    """Words, files that can't be read, a file that can't be written, locks, streams."""
    good = room / "good"
    image = image_of(6, ring(6, blocks_of(11)))
    good.write_bytes(image)
    text = text_of(image)[0]
    wrong = (
        ["examine"], ["examine", "--jso", str(good)], ["examine", str(good), "x"], ["look", str(good)], ["examine", "--json"], ["--json"], [""],
        ["--", "examine", str(good)], ["--json", "examine", str(good)], ["examine", "--json", "--json", str(good)], ["examine", "--json=1", str(good)],
        ["examine", "-j", str(good)], ["examine", "--all", str(good)], ["events", "--json", str(good)], ["why", str(good), "x"],
        ["why", str(good), "-1"], ["why", str(good), "8", "9"], ["check"], ["check", str(good), "x"], ["check", "--all", str(good)], ["decode"],
        ["--slots", "6"], ["--slots", "6", "--help"], ["--slots", "6", "examine", str(good)],
        ["examine", "--slots", "6"], ["examine", str(good), "--slots"], ["examine", "--slots", "6", "--slots", "6", str(good)],
        ["decode", "--slots", "6", "90"], ["run", str(good), "--slots", "6"], ["play", "--slots", "1"], ["play", "--outputs"],
        ["play", "--outputs", "some"], ["play", "--json"], ["examine", "--", "--slots", "6", str(good)],
        *(["examine", "--slots", slots, str(good)] for slots in ("", "1", "1048577", "-6", "6.0", "x", "4294967302")),
        ["events"], ["replay"], ["why"], ["packets"], ["run"], ["replay", "--all", str(good)], ["check", "--known", str(good)], ["why", "--all", str(good)],
        ["packets", "90", "90"], ["run", "--json", str(good)], ["run", str(good), str(good)], ["play", "--images"], ["play", "--slots", "1048577"],
    )
    right = (
        *([word, option, "--slots", "6", str(good)] for word, option in (("examine", "--json"), ("events", "--all"), ("replay", "--json"), ("check", "--json"))),
        ["why", "--known", "--json", "--slots", "6", str(good), "8"], ["decode", "--json", "90"], ["packets", "--json", "90"], ["run", str(good)],
        ["play", "--slots", "2", "--outputs", "none", "--images", str(room), str(good), str(good)],
    )
    for words in right:
        compared.same(f"words {words}", run(program, words)[2] == 2, False)
    for words in wrong:
        printed, said, status = run(program, words)
        compared.same(f"words {words}", (printed, said.startswith("error: "), status), ("", True, 2))
    compare_help(program, compared)
    compared.same("an option after the image", run(program, ["examine", str(good), "--json"]), run(program, ["examine", "--json", str(good)]))
    compared.same("the end of the options after the image", run(program, ["examine", str(good), "--"])[::2], (text, 0))
    compared.same("after --", run(program, ["examine", "--", "-odd"], cwd=room)[2], 3)
    (room / "-odd").write_bytes(image)
    compared.same("after -- a file", run(program, ["examine", "--", "-odd"], cwd=room)[::2], (text, 0))
    for words in (["examine", "--slots", "6", str(good)], ["examine", str(good), "--slots", "6", "--"]):
        compared.same(f"words {words}", run(program, words)[::2], (text, 0))
    good.chmod(0o444)
    room.chmod(0o755)
    nobody = {"user": NOBODY} if os.geteuid() == 0 else {}
    compared.same("a file that can't be written", run(program, ["examine", str(good)], **nobody)[::2], (text, 0))
    with open(good, "rb") as held:
        fcntl.flock(held, fcntl.LOCK_SH)
        compared.same("a file that others read", run(program, ["examine", str(good)])[::2], (text, 0))
        fcntl.flock(held, fcntl.LOCK_EX)
        compared.same("a file that another writes", run(program, ["examine", str(good)])[::2], ("", 3))
    for digits in ("0", "1", "2", "01", "12", "012"):
        closes = " ".join(f"{d}<&-" if d == "0" else f"{d}>&-" for d in digits)
        done = subprocess.run(["sh", "-c", f'"$0" examine "$1" {closes}', program, str(good)], capture_output=True)
        wanted = ("", 1) if "1" in digits else (text, 0)
        compared.same(f"without the streams {digits}", (done.stdout.decode(), done.returncode), wanted)
    for word in ("examine", "check"):
        compared.same(f"{word} on a full device", status_of_full(program, [word, good]), 1)
    compared.same("the file after all", good.read_bytes() == image, True)


STREAM = "is a FIFO, a socket or a character device, not an image"


def compare_files(program, etcs, room, compared):
    """What is no file to read: each has its sentence, at once; `etcs` has its one word."""
    os.mkfifo(room / "fifo")
    with socket.socket(socket.AF_UNIX) as bound:
        bound.bind(str(room / "socket"))
    good, secret = room / "good", room / "secret"
    good.write_bytes(image_of(6, ring(6, blocks_of(11))))
    secret.write_bytes(good.read_bytes())
    secret.chmod(0)
    room.chmod(0o755)
    nobody = {"user": NOBODY} if os.geteuid() == 0 else {}
    kinds = [("none", "there is no such file"), (str(good / "in"), "there is no such file"), (str(room), "is a folder"), (str(room / "fifo"), STREAM),
             (str(room / "socket"), STREAM), ("/dev/zero", STREAM), ("/dev/null", STREAM), (str(secret), "permission denied")]
    for word in ("examine", "events", "replay", "check", "why"):
        for path, sentence in kinds:
            compared.same(f"{word} {path}", run(program, [word, path], **nobody), ("", f"etcs_lab: {path}: {sentence}\n", 3))
        compared.same(f"{word} of a name with signs that can't be seen", run(program, [word, "a\u202e\n\x1b[31m"]),
                      ("", "etcs_lab: a\\u{202e}\\n\\u{1b}[31m: there is no such file\n", 3))
        with open(good, "rb") as held:
            fcntl.flock(held, fcntl.LOCK_EX)
            compared.same(f"{word} of a locked file", run(program, [word, str(good)]), ("", f"etcs_lab: {good}: another program is writing it\n", 3))
    scenario = HERE.parents[1] / "examples/trip/scenario.json"
    for path in ("fifo", "socket"):
        for words in (["journal"], ["run", str(scenario)], ["format"]) if etcs else ():
            words = [*words, str(room / path), *(["16"] if words == ["format"] else [])]
            compared.same(f"etcs {words}", run(etcs, words), ("device\n", "", 3))
    compared.same("the FIFO after all", (room / "fifo").is_fifo(), True)


def compare_cut_off(program, room, compared):
    """A file that ends earlier while it is read: no digest of another file is printed. It is stopped in the middle of its reading."""
    path = room / "cut off"
    with open(path, "wb") as out:
        out.write(first_sector(65_536))
        out.truncate(SECTOR * (1 + 6 * 65_536))
    with subprocess.Popen([program, "examine", str(path)], stdout=subprocess.PIPE, stderr=subprocess.PIPE, text=True) as process:
        while int(Path(f"/proc/{process.pid}/io").read_text().split()[1]) < 2**20:
            time.sleep(0.001)
        process.send_signal(signal.SIGSTOP)
        os.truncate(path, 2**20)
        process.send_signal(signal.SIGCONT)
        printed, said = process.communicate()
    compared.same("a file that is cut off while it is read", (printed, said, process.returncode), ("", f"etcs_lab: {path}: can't be read\n", 3))
    path.unlink()


def compare_given(program, etcs, room, compared):
    """With its slots given, all commands say of an image whose first sector is damaged what they say of it undamaged."""
    image, damaged = room / "lives", room / "damaged"
    for words in (["format", str(image), "16"], *(["run", str(HERE.parents[1] / f"examples/{name}.json"), str(image)] for name in ("power_cut/scenario", "power_cut/restart"))):
        subprocess.run([etcs, *words], check=True, stdout=subprocess.DEVNULL)
    damaged.write_bytes(patched(image.read_bytes(), 2, b"X"))
    for words in (["events"], ["events", "--all"], ["replay"], ["replay", "--json"], ["why"], ["why", "--json"]):
        whole = run(program, [*words, str(image)])
        compared.same(f"{words} without slots", run(program, [*words, str(damaged)])[::2], ("", 1))
        compared.same(f"{words} with slots", (run(program, [*words, "--slots", "16", str(damaged)]), whole[2], len(whole[0]) > 40), (whole, 0, True))
    compared.same("the damaged image after all", damaged.read_bytes(), patched(image.read_bytes(), 2, b"X"))


def compare_swapped(program, room, compared):
    """Another image takes the name of the one that is examined, as soon as it is opened: digest and slots are of one file."""
    hook, first, second = room / "swap.so", room / "swapped", room / "other"
    subprocess.run(["gcc", "-shared", "-fPIC", "-o", hook, str(HERE / "swap.c")], check=True)
    images = [image_of(6, ring(6, blocks_of(number))) for number in (11, 9)]
    first.write_bytes(images[0])
    second.write_bytes(images[1])
    environment = {**os.environ, "LD_PRELOAD": str(hook), "SWAP_NAME": str(first), "SWAP_FOR": str(second)}
    printed = run(program, ["examine", str(first)], env=environment)[::2]
    compared.same("an image whose name another one takes", printed, text_of(images[0]))
    compared.same("the other one took its name", (first.read_bytes() == images[1], second.exists()), (True, False))


def compare_changed(program, room, compared):
    """A byte of the image changes after its digest was taken: the printed digest isn't of the bytes that were examined."""
    hook, path = room / "flip.so", room / "changed"
    subprocess.run(["gcc", "-shared", "-fPIC", "-o", hook, str(HERE / "flip.c")], check=True)
    image = image_of(6, ring(6, blocks_of(11)))
    for command in ("examine", "check"):
        path.write_bytes(image)
        environment = {**os.environ, "LD_PRELOAD": str(hook), "FLIP_NAME": str(path), "FLIP_AFTER": "8"}
        _, said, status = run(program, [command, str(path)], env=environment)
        compared.same(f"{command} of a file that changes", (said, status),
                      (f"etcs_lab: {path}: changed while it was being read; the result is not of one image\n", 3))
        compared.same("the byte was changed", path.read_bytes() == image[:-1] + bytes([image[-1] ^ 1]), True)


def compare_huge(program, room, compared):
    """A terabyte of holes is refused at once, and said to be no image before it is read."""
    path = room / "huge"
    with open(path, "wb") as out:
        out.truncate(2**40)
    before = time.monotonic()
    printed, _, status = run(program, ["examine", str(path)])
    seconds = time.monotonic() - before
    compared.same("a terabyte of holes", (printed.splitlines()[:3], status, seconds < 100),
                  (["image bytes 1099511627776 sectors 2147483648 slots ? whole 0 trailing bytes 1099511627264", "sha256 not taken",
                    "first sector unreadable field mark at byte 0 size of ? slots"], 1, True))
    report = loaded(run(program, ["examine", "--json", str(path)])[0])
    compared.same("a terabyte of holes, json", (report["image"]["sha256"], report["image"]["bytes"]), (None, 2**40))
    path.unlink()


def watch_memory(process, seen):
    """Notes the most memory that a process held, in kB, until it ends. (The figure that a parent gets after its end includes the parent's own memory.)"""
    while True:
        try:
            status = Path(f"/proc/{process}/status").read_text()
        except OSError:
            return
        held = [line.split()[1] for line in status.splitlines() if line.startswith("VmHWM:")]
        if not held:
            return
        seen.append(int(held[0]))
        time.sleep(0.01)


def timed(words, stderr=None):
    """Seconds, megabytes at most, the status and what was printed of a program."""
    before, seen = time.monotonic(), []
    child = subprocess.Popen(words, stdout=subprocess.PIPE, stdin=subprocess.DEVNULL, stderr=stderr)
    watcher = threading.Thread(target=watch_memory, args=(child.pid, seen))
    watcher.start()
    printed = child.stdout.read()
    status = child.wait()
    seconds = time.monotonic() - before
    watcher.join()
    return seconds, max(seen) / 1024, status, printed.decode()


def big_journal(path, slots, newest):
    """An image of as many blocks of eight clock events as slots, after a first one."""
    with open(path, "wb") as out:
        out.write(first_sector(slots))
        out.truncate(SECTOR * (1 + 6 * slots))
        for number in range(newest - slots + 1, newest + 1):
            events = 8 * number - 7
            records = [entry(events - 8 + k, ("clock", 10 * (events - 8 + k)), moment=10 * (events - 8 + k)) for k in range(8)]
            out.seek(SECTOR + SLOT * (number % slots))
            out.write(data_of(block(3, number, events, 1, records)))


def timed_on_terminal(words):
    """The same on a terminal, and what was shown there; it is less than a terminal holds before it is read."""
    shown, terminal = pty.openpty()
    result = timed(words, terminal)
    os.write(terminal, b"end")
    text = b""
    while not text.endswith(b"end"):
        text += os.read(shown, 4_096)
    os.close(terminal)
    os.close(shown)
    return result, text.removesuffix(b"end").decode()


def compare_big(program, etcs, room, compared):
    empty = room / "empty"
    with open(empty, "wb") as out:
        out.write(first_sector(1_048_576))
        out.truncate(SECTOR * (1 + 6 * 1_048_576))
    (seconds, most, status, printed), shown = timed_on_terminal([program, "examine", str(empty)])
    lines = printed.splitlines()
    read = [2**26 * step // 10**6 for step in range(1, 49)]
    compared.same("how far it is read, on a terminal", shown, 2 * ("".join(f"\r{megabytes} of 3221 MB read" for megabytes in read) + f"\r{'':30}\r"))
    compared.same("an empty image of 1,048,576 slots", (lines[0], lines[2:], status),
                  ("image bytes 3221225984 sectors 6291457 slots 1048576 whole 1048576 trailing bytes 0",
                   ["journal empty", "power-up opens", "whole"], 0))
    print(f"an empty image of 1,048,576 slots: {seconds:.1f} s, {most:.0f} MB")
    empty.unlink()
    full_one = room / "full"
    big_journal(full_one, 12_500, 20_000)
    seconds, most, status, printed = timed([program, "examine", str(full_one)])
    lines = printed.splitlines()
    compared.same("100,000 events", (len(lines), lines[-11:-10], lines[-1], status),
                  (12_500 + 13, ["journal blocks 7501..20000 events 59993..159992 lives 1"], "whole", 0))
    print(f"an image of 100,000 events: {seconds:.2f} s, {most:.0f} MB")
    if etcs:
        seconds, most, status, printed = timed([etcs, "journal", str(full_one)])
        compared.same("100,000 events listed", (printed.count("\n"), status), (100_000, 0))
        print(f"etcs journal of it: {seconds:.2f} s, {most:.0f} MB")
    seconds, most, status, printed = timed([program, "events", str(full_one)])
    lines = printed.splitlines()
    compared.same("100,000 events as JSON", (len(lines), lines[0], lines[-1], status),
                  (100_002, '{"image":{"sectors":75001,"slots":12500,"first_block":7501,"newest_block":20000}}', '{"end":"done"}', 0))
    print(f"etcs_lab events of it: {seconds:.2f} s, {most:.0f} MB")
    if etcs:
        compare_long_life(program, etcs, room, compared)


def compare_long_life(program, etcs, room, compared):
    """A life of 100,000 moments of the clock, run again."""
    scenario, image = room / "moments", room / "life"
    scenario.write_text(json.dumps({"groups": [], "steps": [{"clock": moment} for moment in range(100_000)]}))
    subprocess.run([etcs, "format", str(image), "12502"], check=True, stdout=subprocess.DEVNULL)
    subprocess.run([etcs, "run", str(scenario), str(image)], check=True, stdout=subprocess.DEVNULL)
    seconds, most, status, printed = timed([program, "replay", str(image)])
    compared.same("100,000 events run again", (printed, status), ("life 1 events 0..100000 agree\nnothing differs\n", 0))
    print(f"etcs_lab replay of a life of 100,000 events: {seconds:.2f} s, {most:.0f} MB")


def main(words):
    program, *others = (str(Path(word).resolve()) for word in words)
    compared = Compared()
    with tempfile.TemporaryDirectory() as room:
        compare_images(program, Path(room), compared)
        compare_words(program, Path(room), compared)
        compare_files(program, others[0] if others else None, Path(room), compared)
        compare_cut_off(program, Path(room), compared)
        compare_swapped(program, Path(room), compared)
        compare_changed(program, Path(room), compared)
        compare_huge(program, Path(room), compared)
        if others:
            compare_given(program, others[0], Path(room), compared)
        compare_big(program, others[0] if others else None, Path(room), compared)
    print(f"{compared.count} comparisons, {compared.differ} differ")
    return 0 if compared.differ == 0 and compared.count >= LEAST else 1


if __name__ == "__main__":
    sys.exit(main(sys.argv[1:]))
