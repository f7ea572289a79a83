"""The package Etcs_C for Ada that tools/dev/bindings writes: the numbers, enums, structs and calls of the headers."""
import ctypes
import textwrap
from pathlib import Path

from pycparser import c_ast

NUMBERS = {"uint8_t": "Unsigned_8", "uint16_t": "Unsigned_16", "uint32_t": "Unsigned_32", "uint64_t": "Unsigned_64", "int64_t": "Integer_64",
           "size_t": "Unsigned_64"}
RESERVED = frozenset("""
abort abs abstract accept access aliased all and array at begin body case constant declare delay delta digits do else
elsif end entry exception exit for function generic goto if in interface is limited loop mod new not null of or others
out overriding package parallel pragma private procedure protected raise range record rem renames requeue return reverse
select separate some subtype synchronized tagged task terminate then type until use when while with xor""".split())
HEAD = """--  What c/include/etcs.h, etcs_unit.h, etcs_image.h and etcs_guard.h declare. Written by tools/dev/bindings.
--  The headers say what each call answers, and what its caller owes. A pointer is an address; a struct is handed as its address.
with Interfaces; use Interfaces;
with System;

package Etcs_C is
   pragma Preelaborate;
"""


def ada(name):
    """A name as Ada writes it: no reserved word, no underscore at its end."""
    name = "_".join(map(str.capitalize, name.removeprefix("etcs_").removesuffix("_t").strip("_").split("_")))
    return f"{name}_It" if name.lower() in RESERVED else name


def type_of(declared, arrays):
    """A type; an array of a new form gets a name."""
    if isinstance(declared, c_ast.ArrayDecl):
        element, last = type_of(declared.type, arrays), int(declared.dim.value) - 1
        name = f"{element}_Array_{last + 1}"
        arrays[name] = f"   type {name} is array (0 .. {last}) of {element} with Convention => C;"
        return name
    if isinstance(declared, c_ast.PtrDecl):
        return "System.Address"
    name, = declared.type.names
    return NUMBERS.get(name) or f"{ada(name)}_Struct"


def enum_of(name, members):
    """The lines of an enum; `members` are the short names with their numbers."""
    yield f"\n   type {name} is ("
    yield ",\n".join(f"      {ada(short)}" for short, _ in members) + ")"
    yield "   with Size => 32;"
    yield f"   for {name} use ("
    yield ",\n".join(f"      {ada(short)} => {number}" for short, number in members) + ");"


def struct_of(name, declared, size):
    """The lines of a struct, after those of its arrays."""
    arrays = {}
    fields = [f"      {ada(one.name)} : {type_of(one.type, arrays)};" for one in declared.decls]
    yield ""
    yield from arrays.items()
    yield from (f"   type {ada(name)}_Struct is record", *fields, "   end record with Convention => C;")
    yield f'   pragma Compile_Time_Error ({ada(name)}_Struct\'Size /= {8 * size}, "the library has another layout");'


def call_of(declared):
    """The lines of a call."""
    params = [one for one in declared.type.args.params if getattr(one.type.type, "names", None) != ["void"]]
    words = "; ".join(f"{ada(one.name)} : {type_of(one.type, {})}" for one in params)
    line = f"function {ada(declared.name)}{f' ({words})' if words else ''} return {type_of(declared.type.type, {})}"
    yield "\n" + textwrap.fill(line, 120, initial_indent=3 * " ", subsequent_indent=6 * " ")
    yield f'   with Import, Convention => C, External_Name => "{declared.name}";'


def package(declared, numbers, enums, calls, header):
    """The text of the package; `header` has the structs as ctypes has them; `enums` have a name each, and members with their short names, names in C and numbers."""
    lines, arrays = [HEAD], set()
    for name, number in numbers:
        value = f"16#{number[2:]}#" if number.startswith("0x") else number
        lines.append(f"   {'_'.join(map(str.capitalize, name.split('_')[1:]))} : constant := {value};")
    types = {ada(name) for name, _ in enums}
    for name, members in enums:
        # (a name that is a type's own is that of C)
        lines += enum_of(ada(name), [(of_c.removeprefix("ETCS_") if ada(short) in types else short, number) for short, of_c, number in members])
    for one in declared:
        if isinstance(one, c_ast.Typedef) and isinstance(one.type.type, c_ast.Struct):
            for line in struct_of(one.name, one.type.type, ctypes.sizeof(header[one.name])):
                if isinstance(line, str):
                    lines.append(line)
                elif line[0] not in arrays:
                    arrays.add(line[0])
                    lines.append(line[1])
    for one in calls:
        lines += call_of(one)
    return "\n".join([*lines, "\nend Etcs_C;\n"])


def path(top: Path):
    """Where the package belongs."""
    return top / "c/ada/etcs_c.ads"
