"""Print untrusted text safely: characters that could move the cursor, reverse a line or hide in it are escaped."""
import unicodedata

HIDDEN = ("Cc", "Cf", "Cs", "Co", "Cn", "Zl", "Zp")
"""Categories of invisible characters: controls, direction marks, bytes that are not UTF-8, unassigned characters."""


def escape(character: str) -> str:
    """The escape of a character, or of a byte that is not UTF-8."""
    number = ord(character)
    if 0xDC80 <= number <= 0xDCFF:
        return f"\\x{number - 0xDC00:02x}"
    return f"\\x{number:02x}" if number < 0x100 else f"\\u{number:04x}" if number < 0x10000 else f"\\U{number:08x}"


def shown(text: object) -> str:
    """A text on one line, with each invisible character escaped."""
    line = str(text)
    if line.isascii() and line.isprintable():
        return line
    return "".join(escape(one) if unicodedata.category(one) in HIDDEN else one for one in line)
