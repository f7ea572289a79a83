"""The crates for Rust that tools/dev/bindings writes: the declarations of etcs-unit-sys, and the enums of etcs-unit."""
import ctypes
from pathlib import Path

from pycparser import c_ast

NUMBERS = {"uint8_t": "u8", "uint16_t": "u16", "uint32_t": "u32", "uint64_t": "u64", "int64_t": "i64", "size_t": "usize",
           "char": "c_char", "void": "c_void"}
HANDLES = ("etcs_unit",)
SYS_HEAD = """//! What c/include/etcs.h, etcs_unit.h, etcs_image.h and etcs_guard.h declare, under the names of C. Written by `tools/dev/bindings`.
//!
//! The headers say what each call answers, and what its caller owes. The calls whose names end with `_` test no pointers.
#![allow(non_camel_case_types)]
use std::mem::{size_of, zeroed};
use std::os::raw::{c_char, c_void};
"""
ENUMS_HEAD = """//! The enums of the headers. Written by `tools/dev/bindings`.
use etcs_unit_sys as sys;"""


def type_of(declared):
    """A type, as Rust has it."""
    if isinstance(declared, c_ast.ArrayDecl):
        return f"[{type_of(declared.type)}; {declared.dim.value}]"
    if isinstance(declared, c_ast.PtrDecl):
        return f"*{'const' if 'const' in declared.type.quals else 'mut'} {type_of(declared.type)}"
    name, = declared.type.names
    return NUMBERS.get(name, name)


def struct_of(name, declared, size):
    """The lines of a struct. Zeros are a value of each."""
    yield f"\n#[repr(C)]\n#[derive({'Debug' if name in HANDLES else 'Clone, Copy, Debug'})]\npub struct {name} {{"
    yield from (f"    pub {one.name}: {type_of(one.type)}," for one in declared.decls)
    yield f"}}\n\nimpl Default for {name} {{\n    fn default() -> Self {{"
    yield "        // SAFETY: of numbers, arrays of numbers and pointers all zeros are a value.\n        unsafe { zeroed() }\n    }\n}\n"
    yield f"const _: () = assert!(size_of::<{name}>() == {size});"


def call_of(declared):
    """The line of a call."""
    words = [f"{one.name}: {type_of(one.type)}" for one in declared.type.args.params if getattr(one.type.type, "names", None) != ["void"]]
    return f"    pub fn {declared.name}({', '.join(words)}) -> {type_of(declared.type.type)};"


def calls(declared):
    """The calls: those of the library, and of the headers' own each that has no such counterpart."""
    own = [one.decl for one in declared if isinstance(one, c_ast.FuncDef)]
    library = [one for one in declared if isinstance(one, c_ast.Decl) and isinstance(one.type, c_ast.FuncDecl)]
    names = {one.name for one in library}
    return library + [one for one in own if not one.name.endswith("_") and f"{one.name}_" not in names]


def sys_crate(declared, numbers, header):
    """The text of etcs-unit-sys; `header` has the structs as ctypes has them."""
    lines = [SYS_HEAD, *(f"pub const {name}: u32 = {number};" for name, number in numbers)]
    for one in declared:
        if isinstance(one, c_ast.Decl) and isinstance(one.type, c_ast.Enum):
            lines += ["", *(f"pub const {member.name}: u32 = {member.value.value};" for member in one.type.values.enumerators)]
        elif isinstance(one, c_ast.Typedef) and isinstance(one.type.type, c_ast.Struct):
            lines += struct_of(one.name, one.type.type, ctypes.sizeof(header[one.name]))
    return "\n".join([*lines, '\nextern "C" {', *map(call_of, calls(declared)), "}\n"])


def camel(name):
    return "".join(map(str.title, name.split("_")))


def enum_of(name, members, text, has_name):
    """The lines of an enum; `members` are its short names with those of C."""
    yield f"\n/// {text}\n#[derive(Clone, Copy, Debug, Eq, Hash, Ord, PartialEq, PartialOrd)]\n#[repr(u32)]\npub enum {name} {{"
    yield from (f"    {camel(short)} = sys::{of_c}," for short, of_c in members)
    yield f"}}\n\nimpl {name} {{\n    /// The value with this number, if there is one.\n    pub fn of(number: u32) -> Option<{name}> {{\n        match number {{"
    yield from (f"            sys::{of_c} => Some({name}::{camel(short)})," for short, of_c in members)
    yield "            _ => None,\n        }\n    }"
    if has_name:
        yield "\n    /// Its name, as the programs print it.\n    pub fn name(self) -> &'static str {\n        // SAFETY: it returns the name of any number."
        yield f"        crate::text(unsafe {{ sys::{has_name}(self as u32) }})\n    }}"
    yield "}"


def enums_module(enums, declared):
    """The text of etcs-unit's enums: of each the name, the members with their names in C, and a sentence."""
    names = {one.name for one in calls(declared)}
    lines = [ENUMS_HEAD]
    for of_c, name, members, text in enums:
        call = "etcs_status_name" if of_c == "etcs_unit_status" else f"{of_c}_name"
        lines += enum_of(name, members, text, call if call in names else None)
    return "\n".join(lines) + "\n"


def paths(top: Path):
    """Where the two texts belong."""
    return top / "c/rust/etcs-unit-sys/src/declared.rs", top / "c/rust/etcs-unit/src/numbers.rs"
