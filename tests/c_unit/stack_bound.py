#!/usr/bin/env python3
"""Print the bound of the stack of calls, from the frames in the object code: the deepest path through the calls from each
function.

    tests/c_unit/stack_bound.py PROGRAM PATTERN    for each function whose name matches: its name, the bytes, and the functions on the deepest path
    tests/c_unit/stack_bound.py --help             print this

The program is for x86-64 or aarch64. The bytes are those of the return address, of what is pushed, and of what is subtracted
from the stack pointer, in each function on the path. The bound holds where no function calls itself again, and where each call
names its function; a call through a pointer, or a cycle, is reported instead. What the C library takes (malloc, realloc, free,
memcpy, memset, memcmp) isn't counted.
"""
import re
import subprocess
import sys
from pathlib import Path

sys.path.insert(0, str(Path(__file__).resolve().parents[2] / "tools/dev"))
import usage  # noqa: E402

HEAD = re.compile(r"^[0-9a-f]+ <(.*)>:$")
CODE = re.compile(r"^\s*[0-9a-f]+:\t(\S+)\s*(.*)$")
TARGET = re.compile(r"<(.+)>$")  # names have < and > in them
WITHIN = re.compile(r"\+0x[0-9a-f]+$")


class Function:
    """What the code of a function takes of the stack, line by line, and which functions it calls."""

    frame, by_pointer, is_loop, before = 0, 0, False, ""

    def __init__(self):
        self.calls = set()

    def goes_to(self, name, rest, is_call):
        target = TARGET.search(rest)
        if target and target[1] != name and not WITHIN.search(target[1]):
            self.calls.add(target[1])
        elif is_call and not target:
            self.by_pointer += 1


class X86(Function):
    """Of x86-64: the return address is on the stack, and a large frame is taken piece by piece in a loop, down to %r11."""

    objdump, frame = "objdump", 8

    def line(self, name, word, rest):
        if word == "push":
            self.frame += 8
        elif word == "sub" and (taken := re.match(r"\$0x([0-9a-f]+),%(rsp|r11)$", rest)):
            size = int(taken[1], 16)
            if taken[2] == "r11" and self.before == "%rsp,%r11":
                self.is_loop = True
                self.frame += size
            elif taken[2] == "rsp" and self.is_loop:
                self.is_loop = False
            elif taken[2] == "rsp" and size < 1 << 31:  # (a greater one gives back)
                self.frame += size
        elif word == "call" or word.startswith("j"):
            self.goes_to(name, rest, word == "call")
        self.before = rest


class Arm(Function):
    """Of aarch64: the return address is pushed with other registers, and a large frame is taken in a loop, down to a register."""

    objdump = "aarch64-linux-gnu-objdump"

    def line(self, name, word, rest):
        if pushed := re.search(r"\[sp, #-(\d+)\]!$", rest):
            self.frame += int(pushed[1])
        elif word == "sub" and (taken := re.match(r"(\w+), (\w+), #0x([0-9a-f]+)(, lsl #12)?$", rest)):
            size = int(taken[3], 16) << (12 if taken[4] else 0)
            if taken[2] == "sp" != taken[1]:
                self.is_loop = taken[1]
            if self.is_loop and taken[1] in (self.is_loop, "sp") and taken[2] in (self.is_loop, "sp"):
                # (what the loop takes at once is counted by where it goes down to)
                self.frame += size if taken[1] == self.is_loop else 0
            elif taken[1] == taken[2] == "sp":
                self.frame += size
        elif word == "cmp" and self.is_loop and rest == f"sp, {self.is_loop}":
            self.is_loop = False
        elif word in ("bl", "blr", "b", "cbz", "cbnz", "tbz", "tbnz") or word.startswith("b."):
            self.goes_to(name, rest.partition("  //")[0], word in ("bl", "blr"))


def machine_of(program):
    with open(program, "rb") as file:
        machine = int.from_bytes(file.read(20)[18:], "little")
    return {62: X86, 183: Arm}[machine]


def functions_of(program):
    """Each function of the program, by its name."""
    machine, found, now, name = machine_of(program), {}, None, None
    text = subprocess.run([machine.objdump, "-d", "--no-show-raw-insn", "--demangle=none", program], capture_output=True, text=True, check=True).stdout
    for line in text.splitlines():
        if head := HEAD.match(line):
            name = head[1]
            now = found.setdefault(name, machine())
        elif (code := CODE.match(line)) and now is not None:
            now.line(name, code[1], code[2])
    return found


def deepest(found, name, way=()):
    """The bytes from a function on, and the way."""
    if name in way:
        sys.exit(f"a circle: {' '.join((*way, name))}")
    function = found.get(name)
    if function is None or name.endswith("@plt"):
        return 0, (name,)
    if not hasattr(function, "deepest"):
        below = max((deepest(found, other, (*way, name)) for other in function.calls), default=(0, ()))
        function.deepest = (function.frame + below[0], (name, *below[1]))
    return function.deepest


def main(program, pattern):
    found = functions_of(program)
    for name in sorted(found):
        if re.fullmatch(pattern, name):
            taken, way = deepest(found, name)
            pointers = sum(found[one].by_pointer for one in way if one in found)
            print(name, taken, " > ".join(f"{one} {found[one].frame}" for one in way if one in found),
                  *([f"calls by pointer: {pointers}"] if pointers else []), sep="\t")


if __name__ == "__main__":
    usage.check(__doc__, len(sys.argv) == 3 and Path(sys.argv[1]).is_file())
    main(*sys.argv[1:])
