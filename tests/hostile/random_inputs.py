#!/usr/bin/env python3
"""Random telegrams and random scenarios, the same in every run: what the program prints is what the plain program works out.

    tests/hostile/random_inputs.py [TELEGRAMS SCENARIOS [SEED]]    10,000 telegrams, 2,000 scenarios, seed 2026
"""
import json
import random
import sys
from itertools import chain
from pathlib import Path

from built import formatted, run_program, room
from compared import Compared
import decoded
import pools
import program
from named import HEADER, WIDTH, written
from random_lists import Numbers, event

TELEGRAMS = tuple(map(written, (*pools.RESTRICTIONS, *pools.GROUPS, *pools.TRACK, *pools.SUPERVISION)))
# The third step of a static speed profile brings its differences to 70, and to 71. The bits end after its N_ITER. By hand: at random it is rare.
RARE = ("90007F80200146E1F420000A280284510A3148294530A71502A4550AB1582B4570A0142288518A414200C85140142288518A414A298538A81522A8558AC15A2B8500A114428C520A00C851E0",
        "90007F80200146E1F420000A280284510A3148294530A71502A4550AB1582B4570A0142288518A414200C85140142288518A414A298538A81522A8558AC15A2B8500A114428C520A00C851F0")
SLOTS = 64
LIVES = 10  # so many on one image

CODES = {"enter-identity": 1, "enter-running-number": 2, "enter-train-data": 3, "choose-level": 4, "confirm": 5, "acknowledge": 10,
         **{word: code for code, word in program.ALONE.items()}}


def headed(numbers):
    """A header that can be read, and random bits after it; the number of the first packet is mostly one that is known."""
    fields = dict(HEADER, N_TOTAL=numbers.randrange(8), M_DUP=numbers.randrange(3), M_MCOUNT=numbers.randrange(256),
                  NID_C=numbers.randrange(1024), NID_BG=numbers.randrange(1 << 14), Q_LINK=numbers.randrange(2))
    fields["N_PIG"] = numbers.randrange(fields["N_TOTAL"] + 1)
    bits = "".join(f"{number:0{WIDTH[name]}b}" for name, number in fields.items())
    if numbers.randrange(4):
        bits += f"{numbers.choice((3, 5, 12, 21, 27, 41, 65, 66, 80, 44, 136)):08b}"
    bits += "".join(numbers.choice("01") for _ in range(numbers.randrange(832 - len(bits))))
    bits += "0" * (-len(bits) % 8)
    return int(bits, 2).to_bytes(len(bits) // 8, "big")


def mutated(numbers):
    """A telegram some of whose bits after the header are turned, or that lacks its end, or has more."""
    data = bytearray.fromhex(numbers.choice(TELEGRAMS))
    for _ in range(numbers.randrange(4)):
        at = numbers.randrange(50, 8 * len(data))
        data[at // 8] ^= 128 >> at % 8
    way = numbers.randrange(6)
    if way == 0:
        del data[numbers.randrange(len(data)):]
    if way == 1:
        data += numbers.randbytes(numbers.randrange(1, 110))
    return bytes(data)


def telegrams(count, numbers, failures):
    """How many of them can be read."""
    read = 0
    made = ((headed if numbers.randrange(2) else mutated)(numbers) for _ in range(count))
    for data in chain(map(bytes.fromhex, RARE), made):
        wanted = decoded.answer(data)
        status = 1 if wanted.startswith("refused") else 0
        read += status == 0
        found = run_program(["decode", data.hex()])
        failures.unless(found == (status, wanted), f"decode {data.hex()}: {found}, wanted {wanted!r}")
    return read


class Made:
    """A scenario as it is made: each step is chosen by what the plain program knows after the ones before."""

    def __init__(self, numbers, image):
        places = sorted(1 + numbers.below(40_000) for _ in range(numbers.below(5)))
        self.groups = [{"at": place, "spacing": 1 + numbers.below(1_200),
                        "balises": [numbers.one_of(TELEGRAMS) for _ in range(1 + numbers.below(2))]} for place in places]
        self.laid, self.front, self.steps = program.balises(self.groups), 0, []
        self.cold = numbers.below(3)
        self.life = image.begun(program.WORDS[self.cold])
        image.lives.pop()  # it is lived when it is run
        for _ in range(numbers.below(30)):
            if numbers.below(5) == 0:
                self.drive(numbers.below(30_000) - 2_000, numbers.one_of((0, 3_000, 20_000, 80_000)))
            elif numbers.below(9) == 0:
                self.steps.append({"flush": True})
            else:
                self.say(*event(numbers, TELEGRAMS, self.life).partition(" ")[::2])

    def drive(self, way, speed):
        self.steps.append({"drive": [way, speed]})
        for kind, *values in program.drive(self.laid, self.front, way, speed):
            self.life.take(*program.event_of(kind, *values)[1:3])
        self.front += way

    def say(self, word, value):
        if word == "move":
            self.drive(*(int(part) for part in value.split()))
            return
        self.life.take(word, value)
        if word == "hear":
            self.steps.append({"telegram": value})
        elif word == "clock":
            self.steps.append({"clock": int(value)})
        else:
            self.steps.append({"driver": [CODES[word], *self.values(word, value)]})

    @staticmethod
    def values(word, value):
        if word in ("confirm", "acknowledge"):
            names = program.ITEMS if word == "confirm" else program.KINDS
            return [next(code for code, name in names.items() if name == value)]
        if word == "enter-identity":
            return [value]
        return [int(part) for part in value.split()]

    def scenario(self):
        return {"groups": self.groups, "steps": self.steps} | ({"cold": self.cold} if self.cold else {})


def cut_text(text, numbers):
    """The text with a few characters gone or others."""
    for _ in range(1 + numbers.below(3)):
        at = numbers.below(len(text))
        text = text[:at] + numbers.one_of(("", "", "0", "-", "]", ",", '"', "9999999999")) + text[at + 1:]
    return text


def has_value(text):
    """Whether a text is a JSON value."""
    def none(name):
        raise ValueError(name)

    try:
        json.loads(text, parse_constant=none)
        return True
    except ValueError:
        return False


def scenarios(count, numbers, folder, failures):
    """Lives one after the other on one image, made anew now and then; a changed text of each is judged too."""
    image, path = folder / "image", folder / "scenario"
    for number in range(count):
        if number % LIVES == 0:
            formatted(image, SLOTS)
            plain = program.Image(SLOTS)
        scenario = Made(numbers, plain).scenario()
        text = json.dumps(scenario)
        judge(f"scenario {number}, changed", cut_text(text, numbers), path, folder, failures)
        path.write_text(text)
        lines, status = plain.run(scenario)
        found, wanted = run_program(["run", path, image]), (status, "".join(line + "\n" for line in lines))
        failures.unless(found == wanted, f"scenario {number}: {text}\n  printed {found}\n  wanted  {wanted}")
        listing = "".join(line + "\n" for line in plain.listing())
        failures.unless(run_program(["journal", image]) == (0, listing), f"scenario {number}: the journal is another one")


def judge(name, text, path, folder, failures):
    """A text that is no JSON value is refused so; one that is a scenario asks for an image that isn't there, or has another fault."""
    path.write_text(text)
    status, said = run_program(["run", path, folder / "none"])
    is_fault = (status, said) == (1, "refused 1 NotJson\n")
    failures.unless(is_fault != has_value(text), f"{name}: {said!r}")
    failures.unless(is_fault or (status, said) == (3, "device\n") or status == 1 and said.startswith("refused "),
                    f"{name}: {status} {said!r}")


def main(words):
    given = [int(word) for word in words] + [10_000, 2_000, 2026][len(words):]
    failures = Compared()
    with room() as name:
        read = telegrams(given[0], random.Random(given[2]), failures)
        scenarios(given[1], Numbers(given[2]), Path(name), failures)
    return failures.end(f"random inputs: {given[0]} telegrams, {read} of which can be read, {given[1]} scenarios")


if __name__ == "__main__":
    sys.exit(main(sys.argv[1:]))
