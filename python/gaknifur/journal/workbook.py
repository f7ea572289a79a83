"""Make a workbook (XLSX) of a table: numbers as numbers and everything else as text, so that nothing is a formula. A second sheet has notes."""
import io

import pandas as pd

from ..files import MAKER
from ..program import REFUSED, Failed

SETTINGS = {"constant_memory": True, "strings_to_formulas": False, "strings_to_urls": False, "strings_to_numbers": False}
AT_ONCE = 4096
"""The number of rows that are converted at once."""
MOST_ROWS = 1_048_575
"""The rows that a sheet has below the names of its columns."""


def workbook(table: pd.DataFrame, notes: list[str]) -> bytes:
    """The workbook of a table, with notes. Unknown values are empty cells."""
    from xlsxwriter import Workbook
    if len(table) > MOST_ROWS:
        raise Failed(f"a workbook has at most {MOST_ROWS:,} rows, and the table has {len(table):,}; name a .csv file", REFUSED)
    out = io.BytesIO()
    with Workbook(out, SETTINGS) as book:
        book.set_properties({"author": MAKER})
        text = book.add_format({"num_format": "@"})  # (a text stays one, also when its cell is edited)
        sheet = book.add_worksheet("events")
        sheet.write_row(0, 0, list(table), text)
        for at in range(0, len(table), AT_ONCE):
            for row, values in enumerate(table.iloc[at:at + AT_ONCE].itertuples(index=False, name=None), at + 1):
                for column, value in enumerate(values):
                    if isinstance(value, str):
                        sheet.write_string(row, column, value, text)
                    elif not pd.isna(value):
                        sheet.write(row, column, value)
        sheet = book.add_worksheet("notes")
        for row, note in enumerate(notes):
            sheet.write_string(row, 0, note, text)
    return out.getvalue()
