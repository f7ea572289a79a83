"""Images for `etcs_lab events`: those of the program's rows and examples, as the plain unit leaves them, damaged ones, and images of
pseudo-random blocks in all three formats, which the plain writer of docs/reference/format.md makes.
"""
import json
import struct
import sys

import blocks
import decoded
import format_rows
from blocks import SECTOR, image_of, image_with, patched, shut
from program_rows import TOP, read
from random_lists import Numbers
from track_packets import data_of

order = list(sys.path)
sys.path.append(str(TOP / "tests/rows"))
from asking import rows_of  # noqa: E402

sys.path[:] = order  # tests/model and tests/lab both have a module of rows of tables

MODES = (0, 1, 2, 3, 4, 6, 7, 8, 9)
MARKUP = (b'<b>"\\', b"\"", b"\\", b"\\u0041", b"</script>", b"a\\\\\"b", b"{\"end\":\"done\"", b"' ;--", b"&quot;&#34;", b"%s${x}`y`",
          b"\\n\\t", b"] , [", b" ", b"~" * 16)


# ---- telegrams

def telegrams_in(text):
    """The telegrams of a scenario."""
    scenario = json.loads(text)
    yield from (bytes.fromhex(step["telegram"]) for step in scenario["steps"] if "telegram" in step)
    for group in scenario["groups"]:
        yield from (bytes.fromhex(balise) for balise in group["balises"])


def known_telegrams():
    """The telegrams of all scenarios that come with the product, and those that tests/rows/test_decode.row asks for."""
    found = set()
    for path in sorted([*TOP.glob("tests/etcs/*.json"), *TOP.glob("examples/*/*.json")]):
        try:
            found |= set(telegrams_in(path.read_text()))
        except (KeyError, TypeError, ValueError):
            continue
    rows = rows_of((TOP / "tests/rows/test_decode.row").read_text())
    for word in (word for _, question, _ in rows for word in question.split()):
        try:
            found.add(bytes.fromhex(word))
        except ValueError:
            continue
    return sorted(data for data in found if 1 <= len(data) <= decoded.LONGEST)


def telegram(numbers, known):
    """A known one, such a one with a bit that is flipped or an end that is cut off, or bytes that carry none."""
    data, how = bytearray(numbers.one_of(known)), numbers.below(8)
    if how == 0:
        at = numbers.below(8 * len(data))
        data[at // 8] ^= 1 << at % 8
    elif how == 1:
        data = data[:1 + numbers.below(len(data))]
    elif how == 2:
        data = bytearray(numbers.below(256) for _ in range(1 + numbers.below(104)))
    return bytes(data)


def skipped(number, body_bits, q_dir="10"):
    """A telegram with a packet of this number, which is skipped."""
    bits = "1" + "0010000" + "0" + "000" + "000" + "00" + "11111111" + f"{1:010b}" + f"{2:014b}" + "0"
    bits += f"{number:08b}" + q_dir + f"{23 + body_bits:013b}" + "10" * (body_bits // 2) + "1" * (body_bits % 2) + "11111111"
    return data_of(bits)


def guarded():
    """Telegrams with each packet for which a guard demands something, in each direction."""
    return [skipped(number, bits, f"{q_dir:02b}") for number in (16, 46, 49, 51, 70, 71, 132, 135, 137) for bits in (1, 2) for q_dir in range(4)]


# ---- records

def identity(numbers):
    if numbers.below(3) == 0:
        return numbers.one_of(MARKUP)[:16]
    return bytes(0x20 + numbers.below(95) for _ in range(1 + numbers.below(16)))


def action(numbers):
    code = 1 + numbers.below(11)
    if code == 1:
        return bytes([1]) + identity(numbers)
    if code == 2:
        return struct.pack(">BI", 2, numbers.one_of((0, 99_999_999, numbers.below(99_999_999))))
    if code == 3:
        return struct.pack(">BIIHHB", 3, 1 + numbers.below(409_500), 1 + numbers.below(600_000), 1 + numbers.below(300), numbers.below(10_001),
                           numbers.below(16))
    if code == 4:
        return bytes([4, numbers.below(2)])
    if code in (5, 10):
        return bytes([code, 1 + numbers.below(4)])
    return bytes([code])


def event(numbers, known):
    kind = numbers.below(5)
    if kind == 0:
        return "powerup", numbers.below(3)
    if kind == 1:
        return "telegram", telegram(numbers, known)
    if kind == 2:
        return "odometer", numbers.below(20_001) - 10_000, numbers.below(600_001)
    if kind == 3:
        return "clock", numbers.below(2**40)
    return "driver", action(numbers)


def record(numbers, known, number):
    return blocks.entry(
        number, event(numbers, known), moment=numbers.one_of((0, 2**40 - 1, numbers.below(2**40))), mode=numbers.one_of(MODES),
        level=numbers.one_of((255, 0, 1)), brake=numbers.below(3), ind=numbers.below(128),
        estimate=numbers.one_of((-(2**40), 2**40, numbers.below(2**31) - 2**30)),
        uncertainty=numbers.one_of((0, 500, 2**62, 2**62 + 1, 2**64 - 1, numbers.below(2**31))), limit=numbers.below(600_001))


def block(numbers, known, form, number, events, lives):
    count = 1 + numbers.below(min(16 if form == 1 else 8, 16 * number - events))
    records = [record(numbers, known, events + k) for k in range(count)]
    for r in records:
        if r["event"][0] == "powerup" and form < 3:
            r["event"] = ("powerup", 0)
    return blocks.block(form, number, events + count, lives, records)


def ring(numbers, known):
    """A ring of pseudo-random blocks in mixed formats: some slots are closed, damaged, without a sector, or hold an older block or that of
    another slot."""
    slots, first = 2 + numbers.below(9), 1 + numbers.below(30)
    newest, parts, events, lives = first + numbers.below(slots + 1), [], 16 * (first - 1), numbers.below(5)
    for number in range(first, newest + 1):
        b = block(numbers, known, 1 + numbers.below(3), number, max(events, number - 1), lives)
        events, lives = b["events"], lives + sum(r["event"][0] == "powerup" for r in b["records"])
        data, how = blocks.data_of({**b, "lives": lives}), numbers.below(14)
        place = number
        if how == 0:
            data = shut(data)
        elif how == 1:
            at = SECTOR + numbers.below(5 * SECTOR)
            data = patched(data, at, bytes([data[at] ^ 1 << numbers.below(8)]))
        elif how == 2:
            data = patched(data, 0, bytes([numbers.below(2)]))
        elif how == 3 and number > slots:
            continue
        elif how == 4:
            place = numbers.below(slots)
        elif how == 5:
            at = SECTOR * numbers.below(6)
            data = patched(data, at, bytes(SECTOR))
        parts.append((place, data))
    return image_of(slots, parts)


# ---- all

def example_images():
    """Name and bytes of each listed image of the program's rows and examples, and of damaged ones."""
    paths = sorted([*TOP.glob("tests/etcs/*.row"), *TOP.glob("examples/*/*.row")])
    for path in paths:
        for case in read(path):
            if case.by_hand:
                continue
            for number, image, _ in format_rows.listings(case):
                yield f"{path.parent.name}/{path.name}:{number}", image, format_rows.damaged(image)


def random_images(count, seed):
    numbers, known = Numbers(seed), known_telegrams() + guarded()
    for k in range(count):
        yield f"ring {k} of seed {seed}", ring(numbers, known)
    sizes = Numbers(seed + 1)
    for k in range(count // 3):
        yield f"ring {k} of seed {seed} of another size", resized(sizes, ring(numbers, known))


def resized(numbers, image):
    """An image that is cut off anywhere, within a sector too, or has bytes after its slots."""
    if numbers.below(3):
        return image[:numbers.below(len(image))]
    return image + bytes(numbers.below(2) for _ in range(1 + numbers.below(14 * SECTOR)))


def cut_images():
    """A ring whose run goes on from its last slot in its first, with so many sectors, from none to more than it has."""
    records = [("clock", k) for k in range(9)]
    image = image_of(5, [blocks.block(3, number, 50 + number, 1, [blocks.entry(49 + number, records[number % 9])]) for number in range(6, 11)])
    for sectors in range(len(image) // SECTOR + 9):
        yield f"{sectors} sectors of {len(image) // SECTOR}", image.ljust(sectors * SECTOR, b"\1")[:sectors * SECTOR]


EIGHT = [("powerup", 0), ("clock", 5), ("odometer", 100, 3_600), ("telegram", b"\x90" * 104), ("driver", b"\6"), ("odometer", -7, 0), ("clock", 9),
         ("driver", b"\1A")]


def damaged_images():
    """A ring of three blocks of each format, of which the second, or the newest, has an altered byte in each field of its head and of its
    records, or is without a sector; also after a closed gate, and in a slot of another number."""
    for form in (1, 2, 3):
        events = [("powerup", 0) if kind == "powerup" else (kind, *values) for kind, *values in EIGHT]
        three = [(n, blocks.block(form, n, 8 * n, n, [blocks.entry(8 * n - 8 + k, one, moment=k) for k, one in enumerate(events)])) for n in (1, 2, 3)]
        whole = [(n, blocks.data_of(b)) for n, b in three]
        width = 128 if form == 1 else 256
        places = [SECTOR + at for at in (0, 8, 15, 16, 28, 30, 71, 100, 198, 511)]
        places += [2 * SECTOR + width * k + at for k in range(8) for at in (0, 3, 6, 8, 15, 23, width - 1)]
        for n in (2, 3):
            data = dict(whole)[n]
            changed = [patched(data, at, bytes([data[at] ^ 0x81])) for at in places]
            changed += [patched(data, SECTOR * k, bytes(SECTOR)) for k in range(6)]
            for k, other in enumerate([data, *changed]):
                name = f"format {form}, block {n} altered {k}"
                if n == 2 or k % 3 == 0:
                    yield name, image_of(4, [*whole, (n, other)])
                if k % 3 == n - 2:
                    yield f"{name} after a closed gate", image_of(4, [*whole, (n, shut(other))])
                if k % 3 == n - 1:
                    yield f"{name} in slot 0", image_of(4, [*whole, (4, other)])


def worked_images():
    """Images of one block of each format with a record of each kind of action, each word and each refusal, and each markup."""
    actions = [bytes([1]) + text for text in MARKUP] + [bytes([code]) for code in (6, 7, 8, 9, 11)]
    actions += [bytes([4, level]) for level in (0, 1)] + [bytes([code, k]) for code in (5, 10) for k in (1, 2, 3, 4)]
    actions += [struct.pack(">BI", 2, 4711), struct.pack(">BIIHHB", 3, 409_500, 600_000, 300, 10_000, 15)]
    telegrams = [b"\x90", b"\x10" * 7, b"\x92" * 7, b"\x90\xff" * 4, skipped(72, 40), skipped(0, 0), skipped(254, 700), bytes(104)]
    events = [("driver", data) for data in actions] + [("telegram", data) for data in telegrams] + [("powerup", word) for word in (0, 1, 2)]
    for form in (1, 2, 3):
        for k, event in enumerate(events):
            event = ("powerup", 0) if event[0] == "powerup" and form < 3 else event
            yield f"format {form}, event {k}", image_with(event, form)
