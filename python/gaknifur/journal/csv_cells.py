"""Protect CSV cells from being taken for formulas by a spreadsheet.

A text that begins with `=`, `+`, `-`, `@`, a tab, a carriage return or an apostrophe gets a leading apostrophe, with which a
spreadsheet marks a text. A reader of the file removes one leading apostrophe and has the original text. Numbers are unchanged.
"""
from typing import Any

FORMULA = ("=", "+", "-", "@", "\t", "\r", "'")


def guarded(value: Any) -> Any:
    """A value as a cell."""
    return f"'{value}" if isinstance(value, str) and value.startswith(FORMULA) else value
