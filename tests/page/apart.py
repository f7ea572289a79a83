"""Telegrams by their variables, and parsed ones: what bits are read as, where a fault is, and the effect of a number that is altered in its field."""
import random
import re
import sys
from pathlib import Path
from typing import Any

import yaml
from asking import image
from browsing import Browser
from desks import TOP
from gaknifur import program
from gaknifur.telegrams import telegrams

sys.path.append(str(TOP / "tests/model"))
import decoded  # noqa: E402
import track_packets  # noqa: E402

READ, SPOILED, ALTERED, CHANGED_TEXTS = 400, 300, 120, 600
DECODE = """
const { telegrams } = window.gaknifur.parts, decoded = telegrams.read(arguments[0]);
let text = telegrams.text(decoded), again = '';
try { again = telegrams.digits(telegrams.parsed(text)); } catch (error) { again = error.message; }
return [decoded.header, decoded.packets, again];
"""
ENCODE = """
const { telegrams } = window.gaknifur.parts;
return arguments[0].map(text => { try { return telegrams.digits(telegrams.parsed(text)); } catch (error) { return '!' + error.constructor.name; } });
"""
TAKE = """
const { telegrams, bitsOf } = window.gaknifur.parts;
return arguments[0].map(digits => { const { end, header, packets } = telegrams.reader.read(bitsOf(digits));
    return [end, header.map(f => [f.name, f.at, f.width]), packets.map(one => [one.at, one.number, telegrams.reader.isKnownWhole(one), [...one.head, ...one.fields].map(f => [f.name, f.at, f.width, String(f.number)])])]; });
"""
FAULT = """
const { telegrams, bitsOf, faultAt } = window.gaknifur.parts, { calls } = window.gaknifur;
return arguments[0].map(digits => { const found = faultAt(calls, telegrams.reader.read(bitsOf(digits))); return found && [found.name, found.at]; });
"""
TYPE = """
const area = document.getElementById(arguments[0]); area.value = arguments[1]; area.dispatchEvent(new Event('input'));
return [document.getElementById('telegram-hex').value, document.getElementById('telegram-said').textContent];
"""
ALTER = """
const [place, number, done] = arguments, inputs = [...document.querySelectorAll('#telegram-form input')];
const input = typeof place === 'number' ? inputs[place] : inputs.filter(one => one.getAttribute('aria-label').startsWith(place[0] + ',')).at(place[1]);
input.value = number; input.dispatchEvent(new Event('change'));
setTimeout(() => done([document.getElementById('telegram-hex').value, document.getElementById('telegram-said').textContent]), 1);
"""
ADD = """
const [number, done] = arguments, select = document.querySelector('#telegram-form select');
select.value = [...select.options].find(one => one.text.startsWith(number + ': ')).value; select.dispatchEvent(new Event('change'));
setTimeout(() => done([document.getElementById('telegram-hex').value, document.getElementById('telegram-said').textContent]), 1);
"""
REMOVE = """
const [number, done] = arguments;
[...document.querySelectorAll('#telegram-form button')].find(one => one.textContent === 'Remove packet ' + number).click();
setTimeout(() => done(document.getElementById('telegram-hex').value), 1);
"""


def texts() -> list[str]:
    """The telegrams of the corpus that are written by their variables."""
    found: list[str] = []

    def walk(value: Any) -> None:
        if isinstance(value, str) and "NID_BG" in value:
            found.append(value)
        for one in value.values() if isinstance(value, dict) else value if isinstance(value, list) else ():
            walk(one)
    for path in sorted([*(TOP / "examples/suites").glob("*.yaml"), *(TOP / "browser/tracks").glob("*.yaml")]):
        for document in yaml.safe_load_all(path.read_text(encoding="utf-8")):
            walk(document)
    return sorted(set(found))


def changed(text: str, dice: random.Random) -> str:
    """A telegram in which a number or a variable is another one, is gone, or is more."""
    parts = re.split("([,;:])", text)
    at = dice.randrange(0, len(parts), 2)
    kind = dice.randrange(5)
    if kind == 0:
        parts[at] = re.sub(r"\d+$", str(dice.choice((0, 1, 2, 3, 15, 127, 255, 32767, 10**6))), parts[at])
    elif kind == 1:
        parts[at] = dice.choice(("", " X 1", " N_ITER 1", " N_ITER 0", " L_PACKET 50", " Q_SCALE 2", " 44", " Q_DIR 1", " NID_C", " D_DP 50"))
    elif kind == 2:
        del parts[at:at + 2]
    else:
        parts[at:at] = [dice.choice((" Q_SCALE 0", " N_ITER 2", " Q_FRONT 1", " 66: NID_TSR 1", " 44: ", " T_LOA 60", " V_LOA 3")), dice.choice(",;")]
    return "".join(parts)


def by_package(text: str) -> str:
    """The digits of a telegram, by the package."""
    try:
        return telegrams.telegram(text).digits
    except telegrams.Wrong:
        return "!Wrong"


def front_of(digits: str, count: int) -> str:
    """The first bits of some digits."""
    return f"{int(digits, 16):0{4 * len(digits)}b}"[:count]


def variables(browser: Browser, _page: Path, _folder: Path) -> int:
    """Telegrams by their variables come to the bits that the package writes, or are refused by both; of bits the fields are those of `etcs decode`."""
    dice, corpus = random.Random(683), texts()
    tried = corpus + [changed(dice.choice(corpus), dice) for _ in range(CHANGED_TEXTS)]
    found = browser.run(ENCODE, tried)
    wanted = [by_package(text) for text in tried]
    wrong = [(text, one, other) for text, one, other in zip(tried, found, wanted) if not (one == other or one[0] == other[0] == "!")]
    assert not wrong and len(corpus) > 100, (len(corpus), wrong[:3])
    refused, known = sum(one[0] == "!" for one in wanted), 0
    for digits in sorted({one for one in wanted if one[0] != "!"})[::2]:
        lines = program.decode(digits)
        if lines[0].startswith("refused"):
            continue
        header, packets, again = browser.run(DECODE, digits)
        shown = [" ".join(["telegram", *(f"{name}={number}" for name, number in header)])]
        for packet in packets:
            number, is_known = packet[0][1], packet[0][1] in telegrams.LAYOUTS
            shown.append(" ".join([f"packet {number}", *(f"{name}={value}" for name, value in packet[1:None if is_known else 3]), *([] if is_known else ["skipped"])]))
        assert shown == lines[:-1], (digits, shown, lines)
        # (what comes after the end mark is no part of the telegram)
        end = int(lines[-1].split()[1])
        is_same = again == digits if 4 * len(digits) - end < 8 else front_of(again, end) == front_of(digits, end)
        assert is_same or any("skipped" in line for line in lines), (digits, again)
        known += 1
    assert refused > 100 and known > 100, (refused, known)
    return len(tried) + known


class RandomFields(track_packets.Walk):
    """A packet that is made up while its layout is walked."""

    def __init__(self, dice: random.Random) -> None:
        super().__init__("")
        self.dice = dice

    def take(self, name: str, is_listed: bool) -> int:
        width = track_packets.WIDTHS[name]
        number = self.dice.choice((0, 1, 2)) if name in ("N_ITER", "L_TEXT") else self.dice.choice((0, 1, self.dice.randrange(2 ** width))) % 2 ** width
        self.bits += f"{number:0{width}b}"
        return int(super().take(name, is_listed))


def packet_of(number: int, dice: random.Random) -> str:
    """The bits of a packet that the kernel skips; now and then with another length."""
    made = RandomFields(dice)
    made.bits, made.at = f"{number:08b}{dice.randrange(4):02b}" + "0" * 13, 23
    made.all(track_packets.parts_of(track_packets.LAYOUTS[number]))
    bits = made.bits + "".join(dice.choice("01") for _ in range(dice.randrange(30) if number in track_packets.WITH_TRAILING_BITS else 0))
    length = max(23, len(bits) + (dice.choice((-5, 1, 7)) if dice.random() < 0.1 else 0))
    return f"{bits[:10]}{length:013b}{bits[23:]}"


def read(browser: Browser, _page: Path, _folder: Path) -> int:
    """Of packets at random, those that the kernel skips too, each variable has the name, place, width and number that a plain program reads."""
    dice, tried, count, refused = random.Random(686), [], 0, 0
    for _ in range(READ):
        bits = "".join(dice.choice("01") for _ in range(50))
        for _ in range(dice.randrange(1, 5)):
            bits += packet_of(dice.choice(list(track_packets.LAYOUTS)), dice)
        data = track_packets.data_of(bits + "1" * 8)
        tried.append(data[:dice.randrange(1, len(data))] if dice.random() < 0.1 else data)
    tried += [bytes.fromhex(telegrams.telegram(text).digits) for text in texts()]
    for data, (end, _, packets) in zip(tried, browser.run(TAKE, [data.hex() for data in tried])):
        listed, (ends, place) = track_packets.packets_in_order(data)
        assert end == (place if ends == "end" else None), (data.hex(), end, ends)
        found = {at: (number, is_decoded, fields) for at, number, is_decoded, fields in packets}
        for number, _, at, length in listed:
            fields, why = track_packets.fields_of(data, number, at, length)
            if number not in track_packets.LAYOUTS and not track_packets.is_kernels(number, length):
                continue
            assert found[at][0] == number, (data.hex(), at, found[at])
            refused += fields is None
            if fields is None:  # (values that the kernel refuses are read all the same)
                assert not found[at][1] or why[0] == "refused", (data.hex(), at, found[at], why)
            else:
                assert found[at][1], (data.hex(), at, found[at])
                assert found[at][2] == [[name, at + place, width, str(one)] for name, place, width, one in fields], (data.hex(), at, found[at])
                count += 1
    assert refused > 20, refused
    return count


def spoiled(digits: str, dice: random.Random) -> bytes:
    """A telegram with another number in a variable."""
    telegram = telegrams.telegram(digits)
    pairs = [*telegram.header, *(pair for packet in telegram.packets for pair in packet)]
    at = dice.randrange(len(pairs))
    name, _ = pairs[at]
    width = telegrams.WIDTH[name]
    pairs[at] = (name, dice.choice((0, 2 ** width - 1, dice.randrange(2 ** width))))
    bits = telegrams.bits_of(pairs) + "1" * 8
    return track_packets.data_of(bits)


def fault_of(data: bytes) -> list[Any] | None:
    """The variable at which a plain decoder finds a fault; none where the bits end, or carry a telegram."""
    fields = decoded.Fields(data)
    begun, takes = [50], []
    take = fields.take

    def noted(name: str) -> Any:
        takes.append([name, fields.at])
        return take(name)
    fields.take = noted
    try:
        decoded.header(fields)
        while (number := fields.number(8, "NoEnd")) != 255:
            begun.append(fields.at - 8)
            decoded.packet(fields, number)
    except decoded.Fault as fault:
        if str(fault) in ("Truncated", "NoEnd"):
            return None
        return ["L_PACKET", begun[-1] + 10] if str(fault) == "WrongLength" else takes[-1]
    return None


def faults(browser: Browser, _page: Path, _folder: Path) -> int:
    """The fault of a telegram is shown at the variable where a plain decoder finds it; the page asks the unit alone."""
    dice, corpus, tried = random.Random(687), texts(), []
    while len(tried) < SPOILED:
        data = spoiled(dice.choice(corpus), dice)
        if fault_of(data):
            tried.append(data)
    found = browser.run(FAULT, [data.hex() for data in tried])
    wrong = [(data.hex(), one, fault_of(data)) for data, one in zip(tried, found) if one != fault_of(data)]
    assert not wrong, (len(wrong), wrong[:4])
    assert len({name for name, _ in found}) > 12
    return len(tried)


def digits_of(text: str) -> str:
    """A telegram in hex, by the package."""
    return telegrams.telegram(text).digits


def by_fields(browser: Browser, _page: Path, folder: Path) -> int:
    """In the tab: numbers, counters, qualifiers and packets are altered by their fields, and the bits are those that the package writes."""
    browser.click("tab-telegram")
    assert browser.run(TYPE, "telegram-words", "NID_BG 2; 12: V_MAIN 24, L_ENDSECTION 300")[0] == digits_of("NID_BG 2; 12: V_MAIN 24, L_ENDSECTION 300")
    assert "120 km/h" in browser.text("telegram-form") and "300.00 m" in browser.text("telegram-form")
    template = "NID_BG 2; 12: V_MAIN {}, N_ITER {}{} L_ENDSECTION 300{}"
    steps: list[tuple[Any, int, str]] = [
        (["Q_DANGERPOINT", 0], 1, template.format(24, 0, ",", ", Q_DANGERPOINT 1, D_DP 0, V_RELEASEDP 0")),
        (["N_ITER", 0], 2, template.format(24, 2, ", L_SECTION 0, L_SECTION 0,", ", Q_DANGERPOINT 1, D_DP 0, V_RELEASEDP 0")),
        (["L_SECTION", 1], 70, template.format(24, 2, ", L_SECTION 0, L_SECTION 70,", ", Q_DANGERPOINT 1, D_DP 0, V_RELEASEDP 0")),
        (["N_ITER", 0], 3, template.format(24, 3, ", L_SECTION 0, L_SECTION 70, L_SECTION 70,", ", Q_DANGERPOINT 1, D_DP 0, V_RELEASEDP 0")),
        (["N_ITER", 0], 1, template.format(24, 1, ", L_SECTION 0,", ", Q_DANGERPOINT 1, D_DP 0, V_RELEASEDP 0")),
        (["Q_DANGERPOINT", 0], 0, template.format(24, 1, ", L_SECTION 0,", "")), (["N_ITER", 0], 0, template.format(24, 0, ",", "")),
        (["Q_SCALE", 0], 0, template.format(24, 0, ",", ", Q_SCALE 0")), (["NID_BG", 0], 77, template.format(24, 0, ",", ", Q_SCALE 0").replace("NID_BG 2", "NID_BG 77"))]
    for place, number, text in steps:
        assert browser.run_later(ALTER, place, str(number))[0] == digits_of(text), (place, number)
    assert "30.00 m" in browser.text("telegram-form")
    assert "4 OutOfRange" in browser.run_later(ALTER, ["V_MAIN", 0], "125")[1]
    assert browser.run("return [...document.querySelectorAll('#telegram-form [aria-invalid]')].map(one => one.getAttribute('aria-label'))") == [
        "V_MAIN, 12: Level 1 Movement Authority"]
    before = browser.run_later(ALTER, ["V_MAIN", 0], "24")[0]
    marked = "return [...document.querySelectorAll('#telegram-form [aria-invalid=true]')].map(one => [one.getAttribute('aria-label'), one.value])"
    for text, says in (("128", "V_MAIN has 7 bits"), ("x", "V_MAIN: \"x\" is no number"), ("", "V_MAIN: \"\" is no number"), ("0x10", "V_MAIN: \"0x10\" is no number")):
        assert browser.run_later(ALTER, ["V_MAIN", 0], text)[0] == before and says in browser.text("telegram-form"), text
        assert browser.run(marked) == [["V_MAIN, 12: Level 1 Movement Authority", text]], (text, browser.run(marked))
    browser.run_later(ALTER, ["V_MAIN", 0], "24")
    assert browser.run(marked) == [] and "is no number" not in browser.text("telegram-form")
    assert "skips packet 72" in browser.run_later(ADD, 72)[1] and "The unit skips this packet." in browser.text("telegram-form")
    digits = browser.run_later(ALTER, ["L_TEXT", 0], "2")[0]
    browser.run_later(ALTER, ["X_TEXT", 0], "72")
    digits = browser.run_later(ALTER, ["X_TEXT", -1], "105")[0]
    assert "“H”" in browser.text("telegram-form") and "“i”" in browser.text("telegram-form")
    listed, _ = track_packets.packets_in_order(bytes.fromhex(digits))
    fields, _ = track_packets.fields_of(bytes.fromhex(digits), *listed[1][0:1], *listed[1][2:])
    assert [number for name, _, _, number in fields if name == "X_TEXT"] == [72, 105]
    browser.run_later(ADD, 65)
    browser.run_later(REMOVE, 72)
    last = template.format(24, 0, ",", ", Q_SCALE 0").replace("NID_BG 2", "NID_BG 77")
    assert browser.run_later(REMOVE, 12) == digits_of("NID_BG 77; 65: NID_TSR 2, D_TSR 300, L_TSR 100, Q_FRONT 1, V_TSR 8"), last
    path = folder / "image"
    path.write_bytes(image(folder, [{"steps": [{"telegram": before}]}], 4))
    browser.ask(path)
    browser.run("window.gaknifur.ask.chooseEvent(1)")
    browser.click("take-apart")
    assert browser.run("return document.getElementById('telegram-hex').value") == before
    return len(steps) + 12


def altered(browser: Browser, _page: Path, _folder: Path) -> int:
    """One number after the other in fields at random, of telegrams at random: the bits are those with that number in its place."""
    dice, corpus, count = random.Random(688), texts(), 0
    browser.click("tab-telegram")
    for text in dice.sample(corpus, ALTERED // 6):
        digits, _ = browser.run(TYPE, "telegram-hex", digits_of(text))
        for _ in range(6):
            _, header, packets = browser.run(TAKE, [digits])[0]
            fields = header + [field for *_, fields in packets for field in fields]
            plain = [n for n, (name, *_) in enumerate(fields) if n < 10 or name[0] != "Q" and name not in ("N_ITER", "M_LEVELTR", "L_PACKET", "NID_PACKET")]
            place = dice.choice(plain)
            at, width = fields[place][1:3]
            number, bits = dice.randrange(2 ** width), track_packets.bits_of(bytes.fromhex(digits))
            wanted = track_packets.data_of(bits[:at] + f"{number:0{width}b}" + bits[at + width:]).hex().upper()
            digits, said = browser.run_later(ALTER, place, str(number))
            assert digits == wanted, (text, fields[place], number)
            assert ("refuses" in said) == program.decode(digits)[0].startswith("refused"), (digits, said)
            count += 1
    return count


CHECKS = {"variables": (variables, CHANGED_TEXTS + 100), "read": (read, READ), "faults": (faults, SPOILED), "by_fields": (by_fields, 20), "altered": (altered, ALTERED)}
