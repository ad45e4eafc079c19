"""Tables as they are sent, over the library that is found (STAKEBOOK_LIBRARY, or `make`'s in the checkout).

    python3 python/tests/test_import.py
"""

import codecs
import itertools
import os
import sys
import tempfile
import unittest
from pathlib import Path

ROOT = Path(__file__).resolve().parents[2]
sys.path.insert(0, str(ROOT / "python"))

from stakebook.exporting import to_calls, to_csv, to_frame
from stakebook.importing import MISSING, RefusedField, TableError, decimal_point, read_table
from stakebook.season import NewRow, SeasonFile
from stakebook.seasonfile import SeasonError

ROWS = [("0.10", "212"), ("0.30", "240.5"), ("-0.5", "-251"), ("1", "287")]


def table(text, **options):
    return read_table("pit.csv", data=text if isinstance(text, bytes) else text.encode(), **options)


def numbers(read):
    return [(row.x, row.y) for row in read.rows]


class WhatTheAlpsSend(unittest.TestCase):
    def test_every_delimiter_mark_line_end_and_encoding(self):
        encodings = {
            "UTF-8": lambda text: text.encode(),
            "UTF-8 ": lambda text: codecs.BOM_UTF8 + text.encode(),
            "UTF-16": lambda text: codecs.BOM_UTF16_LE + text.encode("utf-16-le"),
            "UTF-16 ": lambda text: codecs.BOM_UTF16_BE + text.encode("utf-16-be"),
            "Windows-1252": lambda text: text.encode("windows-1252"),
        }
        signs = {"\t": "tab", ";": "semicolon", ",": "comma"}
        for sign, comma, end, (name, encode), last in itertools.product(signs, (False, True), ("\n", "\r\n", "\r"), encodings.items(), (True, False)):
            with self.subTest(sign=sign, comma=comma, end=end, encoding=name, last=last):
                lines = [f"Höhe{sign}tiefe (m){sign}Dichte [kg/m³]"]
                for x, y in ROWS:
                    fields = [x.replace(".", ","), y.replace(".", ",")] if comma else [x, y]
                    if sign == "," and comma:
                        fields = [f'"{field}"' for field in fields]
                    lines.append(sign.join(["2900"] + fields))
                text = end.join(lines) + (end if last else "")
                read = table(encode(text))
                self.assertEqual(numbers(read), ROWS)
                self.assertEqual([row.line for row in read.rows], [2, 3, 4, 5])
                self.assertEqual(read.columns, ("tiefe (m)", "Dichte [kg/m³]", None, None))
                self.assertEqual((read.delimiter, read.decimal_comma, read.encoding), (signs[sign], comma, name.strip()))
                self.assertEqual(read.missing, [])

    def test_numbers_stand_as_they_were_written(self):
        read = table("x;y\n0,10;212,50\n007;-0\n  1,5  ;\t2 \n")
        self.assertEqual(numbers(read), [("0.10", "212.50"), ("007", "-0"), ("1.5", "2")])

    def test_exact_numbers_of_programs(self):
        read = table("x,y\n0x1.8p+1,-0x1.5d00000000000p+7\n")
        self.assertEqual(numbers(read), [("0x1.8p+1", "-0x1.5d00000000000p+7")])

    def test_what_is_missing_is_left_out_and_counted(self):
        signs = list(MISSING) + ["NA", "N/A", "NaN", "NULL", "None", "  ", "-"]
        text = "x;y;w\n" + "".join(f"{i};{sign};1\n{sign};{i};1\n{i};{i};{sign}\n" for i, sign in enumerate(signs))
        read = table(text)
        self.assertEqual(len(read.rows), len(signs))
        self.assertEqual(len(read.missing), 2 * len(signs))
        read = table(text, weight="w")
        self.assertEqual((len(read.rows), len(read.missing)), (0, 3 * len(signs)))

    def test_what_else_is_missing_is_told(self):
        with self.assertRaises(RefusedField):
            table("x;y\n1;2\n1;n.d.\n3;-9999\n")
        read = table("x;y\n1;2\n1;n.d.\n3;-9999\n", missing=["N.D.", "-9999"])
        self.assertEqual((numbers(read), read.missing), ([("1", "2")], [3, 4]))
        # a number that some take for missing is one unless it is told
        self.assertEqual(numbers(table("x;y\n3;-9999\n")), [("3", "-9999")])

    def test_blank_lines_and_fields_behind_the_last(self):
        read = table("\n\nx;y\n\n1;2\n;\n\n3;4;;\n;;;\n\n")
        self.assertEqual([(row.x, row.line) for row in read.rows], [("1", 5), ("3", 8)])
        self.assertEqual(read.missing, [])

    def test_comments_and_excels_line_before_the_heading(self):
        read = table("# station, Rhône; 2026\r\n#\r\nx,y\r\n1,2\r\n")
        self.assertEqual([(row.x, row.line) for row in read.rows], [("1", 4)])
        read = table("sep=;\nx, here;y, there\n1;2\n", x="x, here", y="y, there")
        self.assertEqual([(row.x, row.line) for row in read.rows], [("1", 3)])

    def test_quotes(self):
        read = table('name;"x";"y";note\n"A;1";"1";2;"he said ""no"";\nand went"\nA2; "3";4;\n')
        self.assertEqual(read.rows, [NewRow("1", "2", None, 2, "A;1", 'he said "no";\nand went'), NewRow("3", "4", None, 4, "A2")])

    def test_a_delimiter_in_quoted_headings_does_not_count(self):
        read = table('"depth; m","density; kg"\n"0,5","1,5"\n', x="depth; m", y="density; kg")
        self.assertEqual((numbers(read), read.delimiter), ([("0.5", "1.5")], "comma"))

    def test_which_sign_parts_the_fields(self):
        self.assertEqual(numbers(table("x;place, name;y\n1,5;a, b;2\n")), [("1.5", "2")])
        self.assertEqual(numbers(table("x\tplace, name; height\ty\n1,5\ta;b, c\t2\n")), [("1.5", "2")])

    def test_decimal_commas_as_text(self):
        for text, point in (("0,25", "0.25"), ("-1,5", "-1.5"), ("1,5,0", "1,5,0"), ("1.000,5", "1.000,5"), ("7", "7"), (",5", ".5"), ("x,y", "x.y")):
            self.assertEqual(decimal_point(text), point)


class Columns(unittest.TestCase):
    def test_by_name(self):
        text = "Year;Depth;DEPTH;y;w\n2026;1;2;3;4\n"
        self.assertEqual(numbers(table(text, x="Depth")), [("1", "3")])
        self.assertEqual(numbers(table(text, x="DEPTH")), [("2", "3")])
        self.assertEqual(numbers(table(text, x="year", y=" W ")), [("2026", "4")])
        read = table(text, x="Year", weight="w")
        self.assertEqual((read.rows[0].weight, read.columns), ("4", ("Year", "y", "w", None)))

    def test_found_by_their_headings(self):
        for x, y in (("x", "y"), ("X", "Y"), ("Depth (m)", "Density [kg m-3]"), ("Tiefe", "Dichte"), ("profondeur", "densité"), ("profondità", "densità")):
            self.assertEqual(numbers(table(f"{y};{x}\n1;2\n")), [("2", "1")])

    def test_a_weight_is_taken_only_where_it_is_asked_for(self):
        text = "x;y;weight\n1;2;3\n"
        self.assertIsNone(table(text).rows[0].weight)
        self.assertEqual(table(text, weight="weight").rows[0].weight, "3")

    def test_own_names_and_remarks(self):
        text = "Name;x;y;Remarks;who\nA1;1;2;wet;Ann\n;3;4;;\n"
        self.assertEqual(table(text).rows, [NewRow("1", "2", None, 2, "A1", "wet"), NewRow("3", "4", None, 3)])
        self.assertEqual(table(text, name="who", remarks="Name").rows[0], NewRow("1", "2", None, 2, "Ann", "A1"))

    def wrong(self, text, words, **options):
        with self.assertRaises(TableError) as raised:
            table(text, **options)
        self.assertIn(words, str(raised.exception))

    def test_what_can_not_be_found_is_said_with_the_headings(self):
        self.wrong("a;b\n1;2\n", "pit.csv:1: give --x COLUMN: of the headings none is known as that of x; they are 'a', 'b'")
        self.wrong("x;b\n1;2\n", "pit.csv:1: give --y COLUMN")
        self.wrong("# c\nx;depth;y\n1;2;3\n", "pit.csv:2: give --x COLUMN: of the headings more than one may be that of x; they are 'x', 'depth', 'y'")
        self.wrong("x;y\n1;2\n", "pit.csv:1: no column is headed 'z'; the headings are 'x', 'y'", x="z")
        self.wrong("x;x;y\n1;2;3\n", "more than one column is headed 'x'", x="x")
        self.wrong("x;y\n1;2\n", "no column is headed 'who'", name="who")
        self.wrong("x;y\n1;2\n", "pit.csv:1: one column can't be two", y="x")
        self.wrong("x;y\n1;2\n", "one column can't be two", weight="y")


class AllOrNothing(unittest.TestCase):
    def setUp(self):
        folder = tempfile.TemporaryDirectory()
        self.addCleanup(folder.cleanup)
        self.path = os.path.join(folder.name, "s.stake")

    def wrong(self, text, words):
        with self.assertRaises(TableError) as raised:
            table(text)
        self.assertEqual(str(raised.exception), words)

    def test_what_is_wrong_is_said_with_file_and_line(self):
        self.wrong("", "pit.csv:1: there is no line of headings in it")
        self.wrong("# only\n\n", "pit.csv:1: there is no line of headings in it")
        self.wrong("depth\n1\n", "pit.csv:1: there is no tab, semicolon or comma between headings: 'depth'")
        self.wrong("x;y\n1;2\n1\n", "pit.csv:3: it has 1 field, and the heading has 2")
        self.wrong("x;y\n1;2\n\n1;2;3\n", "pit.csv:4: it has 3 fields, and the heading has 2")
        self.wrong("x;y\n1,5;2\n2;3\n1.5;2\n", "pit.csv:4: line 2 has a decimal comma and line 4 a decimal point; a table has one of them")
        self.wrong('x;y\n1;2\n1;"2\n3;4\n', "pit.csv:4: unexpected end of data")
        self.wrong('x;y\n1;"2"2\n', "pit.csv:2: ';' expected after '\"'")
        self.wrong(b"x;y\n1;2\0\n", "pit.csv:2: it has a byte 0, and so it is no text")
        self.wrong(b"x;y\n1;2\n\x81\xff;\x8f\n", "pit.csv:3: it is neither UTF-8 nor Windows-1252")
        self.wrong(codecs.BOM_UTF8 + b"x;y\n\xff;1\n", "pit.csv:2: it is not UTF-8")

    def test_a_refused_number_is_said_with_its_place(self):
        for field, number in (("4l2", 13), ("1 2", 13), ("+3", 13), (".5", 13), ("1e3", 13), ("1'234", 13), ("−3", 13), ("1,2,3", 13), ("1234567890123456", 14)):
            with self.subTest(field=field), self.assertRaises(RefusedField) as raised:
                table(f"# c\nx;density (kg)\n1;2\n2;{field}\n3;4\n", y="density (kg)")
            self.assertEqual((raised.exception.number, raised.exception.text), (number, field))
            self.assertEqual(raised.exception.where, "pit.csv:4: column 'density (kg)'")
        # that a field breaks over two lines is no way round the reader
        with self.assertRaises(RefusedField) as raised:
            table('x;y\n1;2\n"1 2\n3";4\n5;6\n')
        self.assertEqual((raised.exception.number, raised.exception.where), (13, "pit.csv:3: column 'x'"))
        with self.assertRaises(RefusedField) as raised:
            table("x;y;w\n1;2;3\n2;3;x\n", weight="w")
        self.assertEqual((raised.exception.number, raised.exception.where), (13, "pit.csv:3: column 'w'"))

    def test_a_file_that_is_not_there(self):
        with self.assertRaisesRegex(TableError, "No such file or directory"):
            read_table("/nowhere/pit.csv")
        with self.assertRaisesRegex(TableError, "Is a directory"):
            read_table("/")

    def test_there_and_back(self):
        season = SeasonFile.create(self.path)
        season.add_rows([NewRow("0.10", "212", "2", 2, 'A "1"', "wet;\nsnow"), NewRow("0.30", "240.5"), NewRow("-0x1.8p+1", "007")], source="a.csv")
        season.add(1 / 3, 2 / 3)
        season.withdraw("r2")
        other = SeasonFile.create(self.path + "2")
        read = read_table("export.csv", weight="weight", data=to_csv(season))
        other.add_rows(read.rows, read.columns, read.source)
        self.assertEqual(other.book.bits(), season.book.bits())
        self.assertEqual([(r.x_text, r.y_text, r.called, r.note) for r in other.standing], [(r.x_text, r.y_text, r.called, r.note) for r in season.standing])

    def test_a_frame_is_what_the_library_reads(self):
        from stakebook import Book

        season = SeasonFile.create(self.path)
        self.assertEqual(to_frame(season), b"\x00\x01\x02")
        season.add_rows([NewRow(str(i), "0.1", "0.5") for i in range(2731)])
        with self.assertRaisesRegex(SeasonError, "at most 2,730 readings"):
            to_frame(season)
        season.withdraw("r5")
        book = Book()
        book.add_frame(to_frame(season))
        self.assertEqual(book.bits(), season.book.bits())

    def test_the_calls_in_force(self):
        season = SeasonFile.create(self.path)
        season.add("1", "-0.1", "2")
        season.add("3", "4")
        season.correct("r2", "5")
        season.undo()
        season.correct("r2", "6")
        season.withdraw("r1")
        lines = to_calls(season).decode().splitlines()
        # the bits are those of IEEE 754, by hand: 1, -0.1, 2; 3, 4, 1; 6
        self.assertEqual(
            lines[:6],
            [
                "# s.stake: the calls in force, for journal (docs/JOURNAL.md)",
                "open",
                "add 3FF0000000000000 BFB999999999999A 4000000000000000",
                "add 4008000000000000 4010000000000000 3FF0000000000000",
                "correct 1 4018000000000000",
                "withdraw 0",
            ],
        )
        self.assertEqual(lines[6], "report relaxed 0 bic p95 0000000000000000 none 0000000000000000 size")


if __name__ == "__main__":
    unittest.main()
