"""Writes layouts.ts for tools/page: the structs of the headers as the page reads them, with the offsets of gaknifur._header,
and the words and texts of modes, brakes, indications and causes that the package has too."""
import ctypes
import json
import os
import re
import sys
from pathlib import Path

TOP = Path(__file__).resolve().parent.parent
sys.path.insert(0, str(TOP / "python"))
from gaknifur import _header  # noqa: E402
from gaknifur.journal import _words, causes, wording  # noqa: E402

FILE = TOP / "browser/layouts.ts"
# Each struct: its reader, its interface, its name in C, and its members. `name=c_name` has another name in C, `name?` is true or false,
# `name|flag` is null where the flag is 0, `name!` is a bigint
# where a number doesn't have it exactly.
STRUCTS = """
output Output etcs_unit_output: event limit mode level brake indications
request Request etcs_unit_request_info: sector sectors isWrite=kind isRead=kind
state State etcs_unit_state_info: last requests done held hasFailed? pending moment front uncertainty
facts Facts etcs_image: sectors slots whole newest
slot Slot etcs_slot: number faultAt state isSound? hasFault? faultRecord
train TrainData etcs_train_data: length maximum deceleration reaction category
kept Kept etcs_kept: distance train|has_train runningNumber|has_running_number country group identity levelStatus level positionStatus tripOutstanding? national countries
block Block etcs_block: number firstEvent events lives format records kept
record JournalRecord etcs_record: event block moment front|has_place uncertainty!|has_place limit|has_place life format kind mode level brake indications payload
replay Replay etcs_replay: first last block event life verdict field journal kernel journalKept kernelKept
demand Demand etcs_demand: demanded finding
why Why etcs_why: event since tripEvent backward allowedBackward causeAt=limit_cause_cm|has_place restriction|has_restriction limit speed causeSpeed=limit_cause_m_per_h holds? brake tripCause limitCause
"""
SUFFIXES = ("", "_cm", "_ms", "_m_per_h", "_cm_per_s2", "_event")
HEAD = """// The structs of c/include/etcs_unit.h, etcs_image.h and etcs_guard.h, as the calls write them, the readers of their bytes,
// and the words and texts of numbers. All numbers are little-endian. Written by browser/layouts.py.
"""
READER = """
/**
 * Reads the structs at a place of the memory. Numbers of 64 bits are below 2^53 in every answer of the calls, but for
 * the uncertainty of a made image, which `exact` reads, and the distance of one, which is rounded then.
 */
export class Reader {
    constructor(private readonly view: DataView) {}

    u64(at: number): number { return Number(this.view.getBigUint64(at, true)); }
    i64(at: number): number { return Number(this.view.getBigInt64(at, true)); }
    exact(at: number): number|bigint {
        const number = this.view.getBigUint64(at, true);
        return number > Number.MAX_SAFE_INTEGER ? number : Number(number);
    }
    u32(at: number): number { return this.view.getUint32(at, true); }
    u16(at: number): number { return this.view.getUint16(at, true); }
    u8(at: number): number { return this.view.getUint8(at); }
    bytes(at: number, count: number): Uint8Array {
        return new Uint8Array(this.view.buffer, this.view.byteOffset + at, count).slice();
    }
    numbers(count: number, read: (n: number) => number): number[] {
        return Array.from({ length: count }, (_, n) => read(n));
    }
"""
ROWS = [(*head.split(), members.split()) for head, members in (line.split(": ") for line in STRUCTS.strip().splitlines())]
READERS = {of_c: (reader, name) for reader, name, of_c, _ in ROWS}
READS = {ctypes.c_uint64: "u64", ctypes.c_int64: "i64", ctypes.c_uint32: "u32", ctypes.c_uint16: "u16", ctypes.c_uint8: "u8"}


def read(kind, at):
    """The type of a member, and what reads it; `at` is its place in TypeScript."""
    if issubclass(kind, ctypes.Array):
        _, element = read(kind._type_, f"{at} + {ctypes.sizeof(kind._type_)} * n")
        return "number[]", f"this.numbers({kind._length_}, n => {element})"
    if issubclass(kind, ctypes.Structure):
        reader, name = READERS[kind.__name__]
        return name, f"this.{reader}({at})"
    return "number", f"this.{READS[kind]}({at})"


def special(struct, name):
    """The members whose form is none of a struct in C: a text, the values of packet 3 as a list, and bytes of some length."""
    def at(member):
        return f"at + {getattr(struct, member).offset}"
    if name == "payload":
        return "Uint8Array", f"this.bytes({at('payload')}, this.u8({at('payload_len')}))"
    if name == "identity":
        size = f"this.u8({at('identity_len')})"
        return "string|null", f"{size} ? new TextDecoder().decode(this.bytes({at('identity')}, {size})) : null"
    if name in ("national", "countries"):
        national = _header.etcs_national
        count, begin = (getattr(national, member).offset for member in ("count", "countries"))
        if name == "national":
            return "number[]", f"this.numbers({count // 4}, n => this.u32({at('national')} + 4 * n))"
        return "number[]", f"this.numbers(this.u32({at('national')} + {count}), n => this.u16({at('national')} + {begin} + 2 * n))"
    return None


def member(struct, text):
    """A member's name, its type, and what reads it."""
    text, _, flag = text.partition("|")
    name, _, of_c = text.rstrip("?!").partition("=")
    if found := special(struct, name):
        return name, *found
    snake = of_c or re.sub("([A-Z])", lambda letter: f"_{letter[0].lower()}", name)
    kinds = dict(struct._fields_)
    of_c = next(one for suffix in SUFFIXES if (one := f"{snake}{suffix}") in kinds)
    kind, value = read(kinds[of_c], f"at + {getattr(struct, of_c).offset}")
    if name in ("isWrite", "isRead"):
        kind, value = "boolean", f"{value} === {_header.RequestKind[name[2:].upper()]}"
    elif text.endswith("!"):
        kind, value = "number|bigint", value.replace("this.u64(", "this.exact(")
    elif text.endswith("?"):
        kind, value = ("boolean[]", f"{value}.map(one => one !== 0)") if "[]" in kind else ("boolean", f"{value} !== 0")
    if flag:
        kind, value = f"{kind}|null", f"this.u8(at + {getattr(struct, flag).offset}) ? {value} : null"
    return name, kind, value


def table(says, name, kind, rows):
    """A constant with a list."""
    return "\n".join([f"/** {says} */", f"export const {name}: {kind}[] = [", *(f"    {json.dumps(row, ensure_ascii=False)}," for row in rows), "];"])


def words():
    """The constants with words and texts."""
    modes = {name.upper().replace(" ", "_"): (letters, name) for letters, name in wording.MODES.items()}
    trips = [causes.TRIP_BEFORE, *(f"{says} ({section})" for says, section in _words.TRIP_CAUSES.values())]
    rows = ",\n".join(f"    {mode:d}: {json.dumps(modes[mode.name])}" for mode in _header.Mode)
    signs = zip(_header.Indication, wording.INDICATIONS.items(), strict=True)
    yield f"/** The letters and the name of each mode. */\nexport const MODES: Record<number, [string, string]> = {{\n{rows}\n}};"
    yield table("Each brake command as `etcs_lab` and test cases have it.", "BRAKE_WORDS", "string", [one.name.lower() for one in _header.Brake])
    yield table("Each indication: its number, its word there, and its text.", "INDICATIONS", "[number, string, string]",
                [(int(sign), *texts) for sign, texts in signs])
    yield table("Each cause of a brake, and how it ends.", "CAUSES", "[string, string]", _words.CAUSES.values())
    yield table("Why the train was tripped.", "TRIPS", "string", trips)
    yield table("Each kind of what decides a limit, and its sections.", "LIMITS", "[string, string]", [("", ""), *_words.LIMIT_CAUSES.values()])


def text():
    """The text of browser/layouts.ts."""
    interfaces, readers = [], []
    for reader, name, of_c, members in ROWS:
        found = [member(getattr(_header, of_c), one) for one in members]
        interfaces.append("\n".join([f"export interface {name} {{", *(f"    {one}: {kind};" for one, kind, _ in found), "}"]))
        readers.append("\n".join([f"    {reader}(at: number): {name} {{", "        return {",
                                  *(f"            {one}: {value}," for one, _, value in found), "        };", "    }"]))
    record = _header.etcs_record
    readers.append("    /** Of a record only its level, and whether it has a place and a limit. */\n"
                   f"    level(at: number): number {{ return this.u8(at + {record.level.offset}); }}\n"
                   f"    hasPlace(at: number): boolean {{ return this.u8(at + {record.has_place.offset}) !== 0; }}")
    sizes = {reader: ctypes.sizeof(getattr(_header, of_c)) for reader, _, of_c, _ in ROWS}
    sizes |= {"journal": ctypes.sizeof(_header.etcs_journal), "unit": ctypes.sizeof(_header.etcs_unit), "room": _header.REQUEST_BYTES}
    kinds = ", ".join(f"{one} = {_header.Kind[one]:d}" for one in ("POWER_UP", "TELEGRAM", "ODOMETER", "DRIVER"))
    modes = ", ".join(f"{one} = {_header.Mode[one]:d}" for one in ("STAND_BY", "TRIP"))
    return "\n".join([HEAD, *interfaces, "", *words(), f"\nexport const SECTOR = {_header.SECTOR};", "/** The kinds of events that the page looks for. */",
                      f"export const {kinds};", "/** The modes Stand By and Trip. */", f"export const {modes};", "export const BYTES = {",
                      *(f"    {name}: {size}," for name, size in sizes.items()), "};", READER, "\n\n".join(readers), "}\n"])


if __name__ == "__main__":
    wanted = text()
    if not FILE.exists() or FILE.read_text() != wanted:
        new = FILE.with_name(f".layouts.{os.getpid()}")
        new.write_text(wanted)
        new.replace(FILE)
