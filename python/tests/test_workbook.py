"""Tables as workbooks."""
import unittest

import openpyxl
import pandas as pd
from openpyxl.utils.escape import unescape

from gaknifur import files
from gaknifur.files import Out
from gaknifur.journal import tables, workbook
from gaknifur.journal.reading import Journal
from gaknifur.program import Failed

from .samples import InFolder, action, journal, reading, record

BAD = ('=cmd|"/C calc"!A0', "+1", "-1", "@SUM(A1)", "\ta", "a,b\"c")


class Workbooks(InFolder):
    """Tables as workbooks."""

    def sample(self) -> Journal:
        """A journal of two lives."""
        return journal(record(0, "powerup"), reading(1, 36_000, time_ms=1_500), *(action(at, "enter_identity", identity=text) for at, text in enumerate(BAD, 2)),
                       record(8, "powerup", life=2))

    def test_numbers_are_numbers_and_texts_are_texts(self) -> None:
        table = tables.written(tables.frame(self.sample()))
        path = self.room / "out.xlsx"
        files.write(Out(path), workbook.workbook(table, ["=note", "sha256 ab"]))
        files.write(Out(path, True), workbook.workbook(table, ["=note", "sha256 ab"]))
        book = openpyxl.load_workbook(path)
        rows = list(book["events"].iter_rows())
        at = {cell.value: place for place, cell in enumerate(rows[0])}
        self.assertEqual(list(at), list(table))
        self.assertEqual([row[at["identity"]].value for row in rows[3:9]], list(BAD))
        self.assertFalse([cell.coordinate for row in rows for cell in row if cell.data_type == "f"])
        self.assertEqual((rows[2][at["movement_cm"]].value, rows[2][at["speed_kmh"]].value, rows[1][at["movement_cm"]].value), (100, 36.0, None))
        self.assertEqual([cell.value for row in book["notes"].iter_rows() for cell in row], ["=note", "sha256 ab"])
        self.assertFalse([row for row in book["notes"].iter_rows() if row[0].data_type == "f"])

    def test_each_cell(self) -> None:
        """Cells read back: texts are texts in the format that keeps them so, numbers and truth values are those of the table."""
        texts = [*BAD, " a ", "<b>&amp;", "a\r\nb", "#N/A", "TRUE", "1e3", "'7", "a\x1b", None]
        count = workbook.AT_ONCE + len(texts)
        table = pd.DataFrame({"text": (texts * count)[:count], "whole": pd.array([None, 0, -2**40, 7] * count, "Int64")[:count],
                              "real": pd.array([0.1, 36.0, None] * count, "Float64")[:count],
                              "has": pd.array([True, False, None] * count, "boolean")[:count], "is": [True] * count, "none": [None] * count})
        (self.room / "got.xlsx").write_bytes(workbook.workbook(table, []))
        head, *rows = openpyxl.load_workbook(self.room / "got.xlsx")["events"].iter_rows()
        self.assertEqual([cell.value for cell in head], list(table))
        self.assertEqual(len(rows), count)
        for wanted, row in zip(table.itertuples(index=False, name=None), rows):
            values = [None if pd.isna(one) else one for one in wanted]
            self.assertEqual([unescape(cell.value) if cell.data_type == "s" else cell.value for cell in row], values)
            self.assertEqual([cell.data_type for cell in row if cell.value is not None], ["s" if isinstance(one, str) else "b" if isinstance(one, bool) else "n" for one in values if one is not None])
            self.assertEqual({cell.number_format for cell in row if cell.data_type == "s"} - {"@"}, set())

    def test_what_a_cell_or_a_sheet_cannot_hold(self) -> None:
        (self.room / "got.xlsx").write_bytes(workbook.workbook(pd.DataFrame({"text": ["x" * 40_000]}), []))
        self.assertEqual(openpyxl.load_workbook(self.room / "got.xlsx")["events"]["A2"].value, "x" * 32_767)
        with self.assertRaisesRegex(Failed, "a workbook has at most 1,048,575 rows, and the table has 1,048,576; name a .csv file"):
            workbook.workbook(pd.DataFrame({"whole": range(1 << 20)}), [])


if __name__ == "__main__":
    unittest.main()
