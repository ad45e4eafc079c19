"""The season file, over the library that is found (STAKEBOOK_LIBRARY, or `make`'s in the checkout).

    python3 python/tests/test_season.py

What a file means is said twice: by the module, and by `second_reader` below, written from docs/SEASON.md alone. What a season holds after a list of
calls is said by `Model`, plain lists that know nothing of files or books. A decimal's double comes from Python's float(), which is none of the module's.
"""

import doctest
import fcntl
import json
import os
import random
import sys
import tempfile
import threading
import unittest
from pathlib import Path
from unittest import mock

ROOT = Path(__file__).resolve().parents[2]
sys.path.insert(0, str(ROOT / "python"))

from stakebook import Book, Refused, Settings, _library, season as season_module, seasonfile
from stakebook.season import NewRow, RefusedName, RefusedRow, SeasonFile, check, leave_out
from stakebook.seasonfile import Numbers, NotSaved, RefusedText, SeasonError, SettingsText, written

AT = "2026-03-14T09:00:00Z"
SECONDS = "1773478800"
FIRST = "stake season 1"
SETTINGS = "settings bound 2 criterion bic confidence P95 tolerance none pruning size"


def crc(data):
    """CRC-32, bit by bit."""
    value = 0xFFFFFFFF
    for byte in data:
        value ^= byte
        for _ in range(8):
            value = value >> 1 ^ (0xEDB88320 if value & 1 else 0)
    return value ^ 0xFFFFFFFF


def line(body):
    return f"{body} {crc(body.encode()):08x}\n".encode()


def text_of(*bodies):
    """A file: the first line, settings, and these bodies, each with its number and check."""
    lines = [line(FIRST)] + [line(f"{i} {body}") for i, body in enumerate((SETTINGS,) + bodies, 2)]
    return b"".join(lines)


# ---- a second reader


class NoSeason(Exception):
    pass


def fields_of(body):
    """A body's fields; a text is a pair."""
    fields, at = [], 0
    while at <= len(body):
        if body[at : at + 1] == '"':
            value, end = json.JSONDecoder().raw_decode(body, at)
            fields.append(("text", value))
        else:
            end = body.find(" ", at)
            end = len(body) if end < 0 else end
            fields.append(body[at:end])
        if end < len(body) and body[end] != " ":
            return None
        at = end + 1
    return fields


def good_fields(place, raw):
    """A good line's fields behind its number, else None. Forms are looked at as far as the tests go."""
    try:
        text = raw.decode()
        body, check_digits = text[:-9], text[-8:]
        fields = fields_of(body)
    except ValueError:
        return None
    if text[-9:-8] != " " or check_digits != f"{crc(body.encode()):08x}" or not fields or len(fields) < 2:
        return None
    return fields[1:] if fields[0] == str(place) else ["moved"] + fields[1:]


def second_reader(data):
    """The readings that stand, as (name, x, y, weight), the settings line's fields, and the first line of a torn tail."""
    lines = data.split(b"\n")
    ended = lines.pop() == b""
    if not lines or lines[0] + b"\n" != line(FIRST):
        raise NoSeason
    count = len(lines) + (not ended)
    good = {place: good_fields(place, raw) for place, raw in enumerate(lines, 1) if place > 1}
    moved = {place for place, fields in good.items() if fields and fields[0] == "moved" and fields[1] != "row"}
    good = {place: fields for place, fields in good.items() if fields and fields[0] != "moved"}
    marked = {
        place for fields in good.values() if fields and fields[0] == "left-out" for place in range(int(fields[1]), int(fields[2]) + 1)
    }
    if not good.get(2) or good[2][0] != "settings":
        raise NoSeason
    stack, place, torn = [], 2, None
    while place <= count:
        fields = good.get(place)
        unit = [place]
        if place in marked:
            place += 1
            continue
        whole = bool(fields) and fields[0] != "row"
        if whole and fields[0] == "import":
            unit = list(range(place, place + 1 + int(fields[1])))
            whole = all(row <= count and (row in marked or (good.get(row) or ["no"])[0] == "row") for row in unit[1:])
        if not whole:
            if moved - marked or any(later in good and good[later][0] != "row" for later in range(place + 1, count + 1)):
                raise NoSeason
            torn = place
            break
        if fields[0] == "undo":
            if int(fields[1]) != stack[-1][0]:
                raise NoSeason
            stack.pop()
        elif fields[0] != "left-out" and place != 2:
            stack.append((place, [good[row] for row in unit if row not in marked]))
        place = unit[-1] + 1
    standing, settings = [], good[2][1:11]
    for _, call in stack:
        word = call[0][0]
        if word == "settings":
            settings = call[0][1:11]
        elif word == "correct":
            (at,) = [i for i, row in enumerate(standing) if row[0] == call[0][1]]
            standing[at] = standing[at][:2] + (call[0][2],) + standing[at][3:]
        elif word == "withdraw":
            (at,) = [i for i, row in enumerate(standing) if row[0] == call[0][1]]
            del standing[at]
        else:
            for row in call[word == "import" :]:
                weight = row[5] if row[4:5] == ["weight"] else "1"
                standing.append((row[1], row[2], row[3], weight))
    return standing, settings, torn


def standing_of(season):
    return [(r.name, r.x_text, r.y_text, r.weight_text) for r in season.standing]


def seen(season):
    """All that a reader sees of a season."""
    readings = [vars(reading) for reading in season.readings]
    calls = [(c.line, c.call, c.text, c.time, c.note, c.source, c.undone, c.name) for c in season.history]
    return readings, calls, season.settings, season.book.bits(), season.torn, list(season.left_out)


class Folder(unittest.TestCase):
    def setUp(self):
        # Memory is a file system too, and a quick one.
        folder = tempfile.TemporaryDirectory(dir="/dev/shm" if os.access("/dev/shm", os.W_OK) else None)
        self.addCleanup(folder.cleanup)
        self.folder = folder.name
        self.path = os.path.join(folder.name, "pit.stake")
        clock = mock.patch.dict(os.environ, SOURCE_DATE_EPOCH=SECONDS)
        clock.start()
        self.addCleanup(clock.stop)

    def put(self, data, path=None):
        with open(path or self.path, "wb") as file:
            file.write(data)

    def data(self):
        with open(self.path, "rb") as file:
            return file.read()

    def season(self):
        """A small one with every kind of call."""
        season = SeasonFile.create(self.path, SettingsText(bound="2"))
        rows = [NewRow("0.10", "212", None, 2, "A1"), NewRow("0.30", "240.5", "2", 3, "A2", "dug by two"), NewRow("0.50", "251", None, 5)]
        season.add_rows(rows, ("depth (m)", "density (kg m-3)", None), "pit.csv", "from the hut")
        season.add("0.70", "287", source="field book, page 12")
        season.correct("r4", "278", note='"mistyped"\n')
        season.withdraw("r2", note="Föhn 🏔")
        season.undo(source="hut", note="no wind")
        season.add(0.1 + 0.2, 2, 0.5)
        season.set(SettingsText("relaxed", "aic", "1.5", "absolute 0.25", "positive"))
        season.withdraw("r1")
        return season


# ---- the text


class Format(Folder):
    def test_a_season_as_it_stands_in_the_file(self):
        self.season()
        bodies = [
            f'import 3 x "depth (m)" y "density (kg m-3)" source "pit.csv" note "from the hut" at {AT}',
            'row r1 0.10 212 line 2 called "A1"',
            'row r2 0.30 240.5 weight 2 line 3 called "A2" note "dug by two"',
            "row r3 0.50 251 line 5",
            f'add r4 0.70 287 source "field book, page 12" at {AT}',
            f'correct r4 278 note "\\"mistyped\\"\\n" at {AT}',
            f'withdraw r2 note "Föhn 🏔" at {AT}',
            f'undo 9 source "hut" note "no wind" at {AT}',
            f"add r5 0x1.3333333333334p-2 2 weight 0x1p-1 at {AT}",
            f"settings bound relaxed criterion aic confidence 1.5 tolerance absolute 0.25 pruning positive at {AT}",
            f"withdraw r1 at {AT}",
        ]
        lines = [line(FIRST)] + [line(f"{i} {body}") for i, body in enumerate([f"{SETTINGS} at {AT}"] + bodies, 2)]
        self.assertEqual(self.data(), b"".join(lines))

    def test_what_a_reader_sees(self):
        season = self.season()
        again = SeasonFile.open(self.path)
        self.assertEqual(seen(again), seen(season))
        self.assertEqual(second_reader(self.data())[0], standing_of(again))
        self.assertEqual(again.settings, Settings("relaxed", "aic", 1.5, ("absolute", 0.25), "positive"))
        self.assertEqual([r.name for r in again.readings], ["r1", "r2", "r3", "r4", "r5"])
        self.assertEqual([r.state for r in again.readings], ["withdrawn", "stands", "stands", "corrected", "stands"])
        self.assertEqual([r.index for r in again.readings], [None, 0, 1, 2, 3])
        self.assertEqual([r.source for r in again.readings], ["pit.csv:2", "pit.csv:3", "pit.csv:5", "field book, page 12", None])
        self.assertEqual([r.called for r in again.readings], ["A1", "A2", None, None, None])
        self.assertEqual(again.readings[3].was, ("287",))
        self.assertEqual(again.readings[1].note, "dug by two")
        self.assertEqual((again.x_name, again.y_name, again.weight_name), ("depth (m)", "density (kg m-3)", None))
        self.assertEqual(again.book.xs, [0.3, 0.5, 0.7, 0.1 + 0.2])
        self.assertEqual(again.book.ys, [240.5, 251.0, 278.0, 2.0])
        self.assertEqual(again.book.ws, [2.0, 1.0, 1.0, 0.5])
        self.assertEqual([c.call for c in again.history], ["new", "import", "add", "correct", "withdraw", "undo", "add", "settings", "withdraw"])
        self.assertEqual([c.line for c in again.history if c.undone], [9])
        self.assertEqual({c.time for c in again.history}, {AT})
        self.assertEqual([c.note for c in again.history][1:5], ["from the hut", None, '"mistyped"\n', "Föhn 🏔"])
        self.assertEqual(again.history[5].text, "undo of line 9: withdraw r2")
        self.assertEqual(again.history[3].text, "correct r4: y 278, was 287")

    def test_the_example_of_the_guide_is_a_season(self):
        guide = (ROOT / "docs" / "SEASON.md").read_text(encoding="utf-8")
        example = guide.split("```\n")[1].encode()
        self.put(example)
        season = SeasonFile.open(self.path)
        self.assertEqual(second_reader(example)[0], standing_of(season))
        self.assertEqual(standing_of(season), [("r1", "0.10", "212", "1"), ("r2", "0.30", "240.5", "1"), ("r3", "0.50", "251", "2"), ("r4", "0.70", "278", "1")])

    def test_names_are_never_given_twice(self):
        season = SeasonFile.create(self.path)
        for _ in range(2):
            season.add("1", "2")
            season.undo()
        season.add_rows([NewRow("1", "2"), NewRow("2", "3")])
        season.withdraw("r4")
        season.add("3", "4")
        self.assertEqual([(r.name, r.state) for r in season.readings], [("r3", "stands"), ("r4", "withdrawn"), ("r5", "stands")])
        self.assertEqual(SeasonFile.open(self.path).add("4", "5").name, "r6")

    def test_the_earliest_call_is_undone_last_and_then_there_is_none(self):
        season = self.season()
        calls = [season.undo().line for _ in range(6)]
        self.assertEqual(calls, [13, 12, 11, 8, 7, 3])
        with self.assertRaisesRegex(SeasonError, "nothing to undo"):
            season.undo()
        self.assertEqual(season.readings, [])
        self.assertEqual(season.settings.bound, 2)
        self.assertEqual(seen(SeasonFile.open(self.path)), seen(season))

    def test_a_note_may_hold_any_text(self):
        season = SeasonFile.create(self.path)
        notes = ["\\", '"', "\n\r\t\0\x1f\x7f", "at 2026", "\u2028\u0085", "日本 🏔", " ", "x" * 10000, "source", "r1 00000000"]
        for note in notes:
            season.add("1", "2", note=note, source=note[::-1])
        again = SeasonFile.open(self.path)
        self.assertEqual([r.note for r in again.readings], notes)
        self.assertEqual([r.source for r in again.readings], [note[::-1] for note in notes])
        with self.assertRaisesRegex(SeasonError, "UTF-8 does not have"):
            season.add("1", "2", note="\udc80")
        self.assertEqual(seen(SeasonFile.open(self.path)), seen(season))

    def test_files_of_other_programs(self):
        # half a pair in JSON, which UTF-8 can't hold; a path's slash escaped; a call without a time
        self.put(text_of('add r7 1 2 source "a\\/b" note "\\ud800 \\u00fc \\ud83c\\udfd4"', "add r9 0x1p+0 -0x0p+0"))
        season = SeasonFile.open(self.path)
        self.assertEqual([(r.name, r.source, r.note) for r in season.readings], [("r7", "a/b", "\ufffd ü 🏔"), ("r9", None, None)])
        self.assertEqual(str(season.book.ys), "[2.0, -0.0]")
        self.assertIsNone(season.history[1].time)
        self.assertEqual(season.add("1", "1").name, "r10")


class WhatIsNoSeason(Folder):
    def refused(self, data, words):
        self.put(data)
        with self.assertRaisesRegex(SeasonError, words):
            SeasonFile.open(self.path)

    def test_by_its_first_lines(self):
        self.refused(b"", "cut off while it was made")
        self.refused(b"stake sea", "cut off while it was made")
        self.refused(line(FIRST), "cut off while it was made")
        self.refused(line(FIRST) + b"2 settings bound", "cut off while it was made")
        self.refused(b"x,y\n1,2\n", "it is no season")
        self.refused(b"\0" * 100, "it is no season")
        self.refused(line("stake season 3"), "is of version 3")
        self.refused(line("stake season 12"), "is of version 12")
        self.refused(text_of("add r1 1 2").replace(b"\n", b"\r\n"), "line ends were changed to those of Windows")
        self.refused(line(FIRST) + line("2 add r1 1 2") + line("3 add r2 1 2"), "line 2 does not have the season's settings")

    def test_by_what_it_says(self):
        add = "add r1 1 2"
        for bodies, words in (
            ((add, add), "line 4: the name r1 comes after r1"),
            (("add r2 1 2", add), "line 4: the name r1 comes after r2"),
            ((add, "correct r2 1"), "line 4: there is no reading r2 to correct"),
            ((add, "withdraw r1", "correct r1 1"), "line 5: there is no reading r1 to correct"),
            ((add, "withdraw r1", "withdraw r1"), "line 5: there is no reading r1 to withdraw"),
            ((add, "undo 3", "correct r1 1"), "line 5: there is no reading r1 to correct"),
            # also where it was taken back later
            ((add, "correct r2 1", "undo 4"), "line 4: there is no reading r2"),
            ((add, "undo 2"), "line 4: it takes back line 2"),
            (("undo 2",), "line 3: it takes back line 2"),
            ((add, "undo 3", "undo 3"), "line 5: it takes back line 3"),
            ((add, "add r2 1 1.2.3"), "line 4: '1.2.3': refused by 13"),
            ((add, "add r2 1 1234567890.123456"), "line 4: '1234567890.123456': refused by 14"),
            ((add, "correct r1 inf"), "line 4: 'inf': refused by 13"),
            (("settings bound 2 criterion aic confidence nan tolerance none pruning size", add), "line 3: 'nan': refused by 13"),
            ((add, "add r2 1 2 weight 0"), "line 4: refused by 15"),
            (("import 2", "row r1 1 2", "row r2 1 2 weight -1"), "line 5: refused by 15"),
            ((add, "left-out 2 3"), "line 4 leaves out lines 2 to 3"),
            ((add, "left-out 3 4"), "line 4 leaves out lines 3 to 4"),
            ((add, "left-out 3 3", "left-out 4 4"), "line 5 leaves out lines 4 to 4"),
        ):
            with self.subTest(bodies=bodies):
                self.refused(text_of(*bodies), words)

    def test_lines_that_are_not_of_a_form(self):
        after = "add r9 1 2"
        for body in (
            "add r1 1",
            "add r1 1 2 ",
            "add r1 1  2",
            "add r01 1 2",
            "add r0 1 2",
            "add s1 1 2",
            "add r1 1 2 weight",
            "add r1 1 2 note x",
            'add r1 1 2 note "x',
            'add r1 1 2 note "\\x"',
            'add r1 1 2 note "a" source "b"',
            "add r1 1 2 at now",
            "add r1 1 2 line 3",
            "erase r1",
            "import 0",
            "undo",
            "settings bound none criterion aic confidence P95 tolerance none pruning size",
            "settings bound 2 criterion aic confidence P96 tolerance none pruning size",
            "settings bound 2 criterion aic confidence P95 tolerance absolute pruning size",
            "settings bound 2 criterion r2 confidence P95 tolerance none pruning size",
        ):
            with self.subTest(body=body):
                self.refused(text_of(body, after), "line 3 is damaged: (it is no call|what follows)")

    def test_more_readings_than_a_book_holds(self):
        self.put(text_of(*[f"add r{i} {i} 1" for i in range(1, 4098)]))
        with self.assertRaisesRegex(SeasonError, "line 4099: refused by 5"):
            SeasonFile.open(self.path)

    def test_what_is_no_file(self):
        for path, words in ((self.folder, "not a file"), (self.path, "No such file"), ("/dev/zero", "not a file")):
            with self.assertRaisesRegex(SeasonError, words):
                SeasonFile.open(path)
        fifo = os.path.join(self.folder, "fifo")
        os.mkfifo(fifo)
        with self.assertRaisesRegex(SeasonError, "not a file"):
            SeasonFile.open(fifo)


# ---- numbers


class NumberTexts(unittest.TestCase):
    def test_decimals_are_the_nearest_doubles(self):
        rng = random.Random(1)
        texts = ["0", "-0", "0.1", "-212.5", "000123.4500", "999999999999999", "0." + "0" * 21 + "1"]
        while len(texts) < 9001:
            digits = "".join(rng.choice("0123456789") for _ in range(rng.randint(1, 15)))
            cut = rng.randint(1, len(digits))
            texts.append(rng.choice(["", "-"]) + digits[:cut] + ("." + digits[cut:] if cut < len(digits) else ""))
        numbers = Numbers()
        numbers.read(texts)
        for text in texts:
            self.assertEqual(numbers[text].hex(), float(text).hex(), text)

    def test_what_is_refused_is_named(self):
        many = [str(i) for i in range(9000)]
        for text, number in (
            ("1,5", 13),
            ("", 13),
            ("+1", 13),
            (".5", 13),
            ("5.", 13),
            ("1e3", 13),
            ("nan", 13),
            ("1 2", 13),
            ("1 2\n3", 13),
            ("1\n", 13),
            ("½", 13),
            ("١", 13),
            ("\udc80", 13),
            ("1234567890123456", 14),
            ("0." + "0" * 22 + "1", 14),
        ):
            for texts in ([text], many + [text] + many[:10]):
                with self.subTest(text=text, texts=len(texts)), self.assertRaises(RefusedText) as raised:
                    Numbers().read(texts)
                self.assertEqual((raised.exception.number, raised.exception.text), (number, text))

    def test_hexadecimal_ones_are_exact(self):
        rng = random.Random(2)
        values = [0.0, -0.0, 5e-324, -5e-324, 2.2250738585072014e-308, 1.7976931348623157e308, 1.0, 3.0]
        values += [rng.choice((-1, 1)) * rng.random() * 2.0 ** rng.randint(-1074, 1000) for _ in range(1000)]
        texts = [value.hex() for value in values] + [written(value) for value in values]
        numbers = Numbers()
        numbers.read(texts)
        for text, value in zip(texts, values + values):
            self.assertEqual(numbers[text].hex(), value.hex(), text)
        self.assertEqual(written(3.0), "0x1.8p+1")
        self.assertEqual(written(-0.0), "-0x0p+0")
        self.assertEqual([written(7), written(-(10**15) + 1), written(10**15)], ["7", "-999999999999999", "0x1.c6bf52634p+49"])

    def test_hexadecimal_ones_that_would_be_rounded_are_no_numbers(self):
        for text in ("0x1.00000000000001p+0", "0x3p+0", "0x1p+1024", "0x1p-1023", "0x0.8p+0", "0x1", "0x1.p+0", "0X1p+0", "0x1.Ap+0", "0x1p1", "+0x1p+0", "0xinf"):
            with self.subTest(text=text), self.assertRaises(RefusedText) as raised:
                Numbers().read([text])
            self.assertEqual(raised.exception.number, 13)


# ---- calls


class Model:
    """What a season holds, by plain lists."""

    def __init__(self):
        self.rows, self.gone, self.given, self.saved = [], {}, 0, []

    def keep(self):
        self.saved.append(([list(row) for row in self.rows], dict(self.gone)))

    def add(self, *rows):
        self.keep()
        for x, y, weight in rows:
            self.given += 1
            self.rows.append([f"r{self.given}", x, y, weight])

    def place(self, name):
        return next((i for i, row in enumerate(self.rows) if row[0] == name), None)

    def undo(self):
        self.rows, self.gone = self.saved.pop()


class ListsOfCalls(Folder):
    def test_any_list_of_calls_and_the_book_again(self):
        rng = random.Random(3)
        for _ in range(12):
            season, model = SeasonFile.create(self.path, Settings(bound=3)), Model()
            for step in range(50):
                self.step(rng, season, model)
                self.assertEqual([list(row) for row in standing_of(season)], model.rows)
                if step % 5 == 0:
                    again = SeasonFile.open(self.path)
                    self.assertEqual(seen(again), seen(season))
                    self.assertEqual(second_reader(self.data())[0], standing_of(season))
            found = check(self.path)
            self.assertTrue(found.good)
            self.assertEqual(found.readings, len(model.rows))
            self.afresh(season, model)
            os.unlink(self.path)

    def step(self, rng, season, model):
        name = f"r{rng.randint(1, model.given + 1)}"
        number = f"{rng.randint(-9999, 9999)}.{rng.randint(0, 99):02}"
        kind = rng.choice(["add"] * 4 + ["rows", "correct", "correct", "withdraw", "undo", "set", "weight", "bad rows"])
        if kind == "add":
            season.add(number, "1.5")
            model.add((number, "1.5", "1"))
        elif kind == "rows":
            rows = [(str(i), number, rng.choice(["1", "2.5"])) for i in range(rng.randint(1, 3))]
            season.add_rows([NewRow(x, y, w if w != "1" else None) for x, y, w in rows], source="a.csv")
            model.add(*rows)
        elif kind == "correct":
            place = model.place(name)
            if place is None:
                with self.assertRaises(RefusedName) as raised:
                    season.correct(name, number)
                self.assertEqual(raised.exception.number, 6)
            else:
                season.correct(name, number)
                model.keep()
                model.rows[place][2] = number
        elif kind == "withdraw":
            place = model.place(name)
            if place is None:
                with self.assertRaises(RefusedName) as raised:
                    season.withdraw(name)
                self.assertEqual(raised.exception.number, 6)
            else:
                season.withdraw(name)
                model.keep()
                del model.rows[place]
        elif kind == "set":
            season.set(Settings(bound=rng.randint(0, 4), tolerance=("absolute", 0.1)))
            model.keep()
        elif kind == "weight":
            with self.assertRaises(Refused) as raised:
                season.add(number, "1", rng.choice(["0", "-1", "-0"]))
            self.assertEqual(raised.exception.number, 15)
        elif kind == "bad rows":
            with self.assertRaises(RefusedRow) as raised:
                season.add_rows([NewRow("1", "2"), NewRow("1", "2", "0"), NewRow("1", "2")])
            self.assertEqual((raised.exception.number, raised.exception.row), (15, 1))
        elif model.saved:
            season.undo()
            model.undo()

    def afresh(self, season, model):
        """The sums are those of the readings that stand: nothing of the others is left in them."""
        book = Book()
        book.extend(*zip(*[map(float, row[1:]) for row in model.rows])) if model.rows else None
        self.assertEqual(season.book.bits(), book.bits())

    def test_two_that_write_in_turns(self):
        one, two = SeasonFile.create(self.path), SeasonFile.open(self.path)
        for i in range(6):
            (one, two)[i % 2].add(str(i), "1")
        self.assertEqual([r.name for r in two.readings], [f"r{i}" for i in range(1, 7)])
        one.undo()
        with self.assertRaises(RefusedName):
            two.withdraw("r6")
        two.withdraw("r1")
        self.assertEqual(seen(SeasonFile.open(self.path)), seen(two))

    def test_two_threads(self):
        SeasonFile.create(self.path)

        def write(sign):
            for i in range(40):
                SeasonFile.open(self.path).add(f"{sign}{i}", "1")

        threads = [threading.Thread(target=write, args=(sign,)) for sign in ("", "-")]
        for thread in threads:
            thread.start()
        for thread in threads:
            thread.join()
        season = SeasonFile.open(self.path)
        self.assertEqual([r.name for r in season.readings], [f"r{i}" for i in range(1, 81)])
        self.assertEqual({r.x_text for r in season.readings}, {f"{sign}{i}" for sign in ("", "-") for i in range(40)})

    def test_a_reader_waits_for_a_writer(self):
        # the half of a line that a writer has written so far is never taken for a torn one
        season = SeasonFile.create(self.path)
        halves, write = threading.Event(), os.write

        def slowly(descriptor, data):
            written_now = write(descriptor, bytes(data)[:20])
            halves.set()
            threading.Event().wait(0.05)
            return written_now

        with mock.patch.object(seasonfile.os, "write", slowly):
            thread = threading.Thread(target=season.add, args=("1", "2"))
            thread.start()
            halves.wait()
            seasons = [SeasonFile.open(self.path) for _ in range(3)]
            thread.join()
        self.assertEqual([(s.torn, s.book.count) for s in seasons], [(None, 1)] * 3)

    def test_a_file_that_another_takes_the_place_of_while_one_waits(self):
        waits = threading.Event()
        season = SeasonFile.create(self.path)
        season.add("1", "1")
        season = SeasonFile.open(self.path, waits.set)
        other = SeasonFile.create(self.path + "2")
        other.add_rows([NewRow("5", "6"), NewRow("7", "8")])
        with open(self.path, "rb") as file:
            fcntl.flock(file, fcntl.LOCK_EX)
            thread = threading.Thread(target=season.add, args=("2", "2"))
            thread.start()
            self.assertTrue(waits.wait(30))
            os.replace(self.path + "2", self.path)
            fcntl.flock(file, fcntl.LOCK_UN)
            thread.join()
            self.assertEqual(len(file.read().splitlines()), 3)
        self.assertEqual([(r.name, r.x_text) for r in SeasonFile.open(self.path).readings], [("r1", "5"), ("r2", "7"), ("r3", "2")])
        self.assertEqual(seen(SeasonFile.open(self.path)), seen(season))

    def test_what_a_full_book_refuses(self):
        season = SeasonFile.create(self.path)
        season.add_rows([NewRow(str(i), "1") for i in range(4095)])
        with self.assertRaises(RefusedRow) as raised:
            season.add_rows([NewRow("1", "1"), NewRow("1", "1")])
        self.assertEqual((raised.exception.number, raised.exception.row), (5, 1))
        season.add("1", "1")
        with self.assertRaises(Refused) as raised:
            season.add("1", "1")
        self.assertEqual(raised.exception.number, 5)
        season.withdraw("r17")
        season.add("1", "1")
        self.assertEqual(seen(SeasonFile.open(self.path)), seen(season))

    def test_numbers_of_programs_that_the_library_refuses(self):
        season = SeasonFile.create(self.path)
        season.add(1.0, 2.0)
        for call in (lambda: season.add(float("inf"), 1.0), lambda: season.add(1.0, 1.0, float("nan")), lambda: season.correct("r1", float("nan"))):
            with self.assertRaises(Refused) as raised:
                call()
            self.assertEqual(raised.exception.number, 4)
        with self.assertRaises(Refused) as raised:
            season.set(Settings(confidence=float("inf")))
        self.assertEqual(raised.exception.number, 4)
        with self.assertRaises(Refused) as raised:
            season.set(Settings(bound=16))
        self.assertEqual(raised.exception.number, 8)
        self.assertEqual(len(self.data().splitlines()), 3)
        self.assertEqual(seen(SeasonFile.open(self.path)), seen(season))


# ---- saving


class Saving(Folder):
    def test_it_is_on_disk_before_it_is_said(self):
        order, fsync = [], os.fsync

        def synced(descriptor):
            fsync(descriptor)
            status = os.fstat(descriptor)
            order.append("folder" if os.path.isdir(f"/proc/self/fd/{descriptor}") else status.st_size)

        with mock.patch.object(seasonfile.os, "fsync", synced):
            season = SeasonFile.create(self.path)
            self.assertEqual(order, [len(self.data()), "folder"])
            for call, *given in ((season.add, "1", "2"), (season.correct, "r1", "3"), (season.withdraw, "r1"), (season.undo,), (season.set, Settings())):
                order.clear()
                before = len(self.data())
                call(*given)
                self.assertEqual(order, [len(self.data())])
                self.assertGreater(order[0], before)

    def test_a_season_is_not_written_over(self):
        self.season()
        before = self.data()
        with self.assertRaisesRegex(SeasonError, "there already"):
            SeasonFile.create(self.path)
        self.assertEqual(self.data(), before)

    def test_a_write_that_fails(self):
        for short in (0, 1, 30):
            season = self.season()
            before, was, write = self.data(), seen(season), os.write

            def full(descriptor, data, left=[short]):
                if not left[0]:
                    raise OSError(28, "No space left on device")
                taken, left[0] = min(left[0], len(data)), 0
                return write(descriptor, bytes(data)[:taken])

            with mock.patch.object(seasonfile.os, "write", full), self.assertRaisesRegex(NotSaved, "No space left on device: nothing was saved"):
                season.add("0.9", "290")
            self.assertEqual(len(self.data()), len(before) + short)
            self.assertEqual(seen(season), was)
            again = SeasonFile.open(self.path)
            self.assertEqual(seen(again)[:4], was[:4])
            self.assertEqual(again.torn is not None, short > 0)
            self.assertEqual(season.add("0.9", "290").name, "r6")
            self.assertEqual(standing_of(SeasonFile.open(self.path)), standing_of(season))
            self.assertTrue(self.data().startswith(before))
            os.unlink(self.path)

    def test_a_sync_that_fails(self):
        season = self.season()
        with mock.patch.object(seasonfile.os, "fsync", side_effect=OSError(5, "Input/output error")):
            with self.assertRaisesRegex(NotSaved, "perhaps not to the disk"):
                season.add("0.9", "290")
        # it is in the file, as far as anybody can see
        season.add("1", "1")
        self.assertEqual([r.name for r in season.readings][-2:], ["r6", "r7"])
        self.assertEqual(seen(SeasonFile.open(self.path)), seen(season))

    def test_a_new_season_that_can_not_be_written(self):
        with mock.patch.object(seasonfile.os, "write", side_effect=OSError(28, "No space left on device")):
            with self.assertRaisesRegex(NotSaved, "no season was made"):
                SeasonFile.create(self.path)
        self.assertEqual(os.listdir(self.folder), [])


class Torn(Folder):
    """A file that is cut off, at every byte."""

    def states(self, change):
        """The file before a change, and after."""
        season = self.season()
        before = self.data()
        change(season)
        after = self.data()
        self.assertTrue(after.startswith(before))
        return before, after

    def cut(self, before, after, step=1):
        self.put(before)
        old = SeasonFile.open(self.path)
        self.put(after)
        new = SeasonFile.open(self.path)
        for end in range(len(before), len(after) + 1, step):
            self.put(after[:end])
            season = SeasonFile.open(self.path)
            whole = end == len(after)
            expected = new if whole else old
            self.assertEqual(standing_of(season), standing_of(expected), end)
            self.assertEqual(season.book.bits(), expected.book.bits(), end)
            self.assertEqual(season.settings, expected.settings, end)
            self.assertEqual(second_reader(after[:end])[0], standing_of(season), end)
            torn = end not in (len(before), len(after))
            self.assertEqual(season.torn is not None, torn, end)
            if torn:
                first = before.count(b"\n") + 1
                last = after[:end].count(b"\n") + (after[end - 1 : end] != b"\n")
                self.assertIn(f"line {first} left" if first == last else f"lines {first} to {last} left", season.torn)
            # and the next writer goes on
            name = season.add("2", "300").name
            again = SeasonFile.open(self.path)
            self.assertEqual(standing_of(again), standing_of(expected) + [(name, "2", "300", "1")], end)
            self.assertEqual(again.book.bits(), season.book.bits(), end)
            self.assertIsNone(again.torn, end)
            self.assertEqual(len(again.left_out), torn, end)
            self.assertEqual(seen(again), seen(season), end)
            data = self.data()
            self.assertTrue(data.startswith(after[:end]))
            self.assertEqual(second_reader(data)[0], standing_of(again), end)

    def test_an_add(self):
        self.cut(*self.states(lambda season: season.add("0.9", "290", note="n")))

    def test_a_correction(self):
        self.cut(*self.states(lambda season: season.correct("r3", "290")))

    def test_a_withdrawal(self):
        self.cut(*self.states(lambda season: season.withdraw("r3")))

    def test_an_undo(self):
        self.cut(*self.states(lambda season: season.undo()))

    def test_settings(self):
        self.cut(*self.states(lambda season: season.set(Settings(bound=1))))

    def test_an_import(self):
        rows = [NewRow("1", "2", None, 2), NewRow("2", "3", "4", 3, "A", "n"), NewRow("3", "4")]
        self.cut(*self.states(lambda season: season.add_rows(rows, ("x", "y", None), "a.csv")))

    def test_the_line_that_tells_of_a_torn_tail_is_torn_too(self):
        before, after = self.states(lambda season: season.add_rows([NewRow("1", "2", None, 2), NewRow("2", "3")]))
        head = after.index(b"\n", len(before)) + 1
        # cut in the head, at the end of the head, before the last newline of all
        for end in (len(before) + 9, head, len(after) - 1):
            self.put(after[:end])
            season = SeasonFile.open(self.path)
            season.add("0.9", "290")
            whole = self.data()
            self.put(after[:end])
            old = SeasonFile.open(self.path)
            for cut in range(end, len(whole)):
                self.put(whole[:cut])
                season = SeasonFile.open(self.path)
                self.assertEqual(standing_of(season), standing_of(old), (end, cut))
                self.assertEqual(second_reader(whole[:cut])[0], standing_of(old), (end, cut))
                season.withdraw("r3")
                again = SeasonFile.open(self.path)
                self.assertEqual(standing_of(again), [row for row in standing_of(old) if row[0] != "r3"], (end, cut))
                self.assertEqual(seen(again), seen(season))
                self.assertEqual(second_reader(self.data())[0], standing_of(again), (end, cut))
                self.assertTrue(self.data().startswith(whole[:cut]))

    def test_a_new_season_that_is_cut_off_is_none(self):
        SeasonFile.create(self.path)
        whole = self.data()
        for end in range(len(whole)):
            self.put(whole[:end])
            with self.assertRaisesRegex(SeasonError, "cut off while it was made"):
                SeasonFile.open(self.path)


class Damage(Folder):
    def test_a_byte_that_changed_is_found_wherever_it_is(self):
        self.season()
        whole = self.data()
        good = seen(SeasonFile.open(self.path))
        last = whole.rindex(b"\n", 0, -1) + 1
        for at in range(len(whole)):
            for flip in (1, 0x20):
                self.put(whole[:at] + bytes([whole[at] ^ flip]) + whole[at + 1 :])
                if at >= last - 1:
                    # the last line may be one that is torn: it is left out and named, and the rest stands; two that became one are one
                    season = SeasonFile.open(self.path)
                    self.assertIn("line 13 left out" if at >= last else "line 12 left out", season.torn)
                    self.assertEqual(len(season.history), len(good[1]) - (1 if at >= last else 2))
                else:
                    with self.assertRaises(SeasonError):
                        SeasonFile.open(self.path)

    def test_a_line_that_is_taken_out_put_in_or_moved_is_found(self):
        self.season()
        lines = self.data().splitlines(True)
        for i in range(len(lines) - 1):
            for changed in (lines[:i] + lines[i + 1 :], lines[: i + 1] + lines[i:], lines[:i] + [lines[i + 1], lines[i]] + lines[i + 2 :]):
                self.put(b"".join(changed))
                with self.assertRaises(SeasonError):
                    SeasonFile.open(self.path)
                with self.assertRaises(NoSeason):
                    second_reader(self.data())
        # of the last line nobody can tell that it was there
        self.put(b"".join(lines[:-1]))
        self.assertEqual(SeasonFile.open(self.path).book.count, 5)

    def test_a_moved_line_that_was_given_up_does_not_make_a_torn_tail_a_damaged_one(self):
        whole = text_of("add r1 1 2", "add r2 3 4")
        self.put(whole + line("4 add r2 3 4"))
        self.assertEqual(check(self.path).damaged, [(5, "it says that it is line 4")])
        leave_out(self.path, [5])
        SeasonFile.open(self.path).add("5", "6")
        whole = self.data()
        self.put(whole[:-1])
        self.assertIn("line 7 left out: it is cut off", SeasonFile.open(self.path).torn)
        self.assertEqual(second_reader(self.data())[2], 7)

    def test_what_a_check_says_and_how_lines_are_given_up(self):
        self.season()
        lines = self.data().splitlines(True)
        for place in (5, 11):
            lines[place - 1] = lines[place - 1].replace(b"0", b"9", 1)
        self.put(b"".join(lines))
        found = check(self.path)
        self.assertFalse(found.good)
        self.assertEqual(found.damaged, [(5, "it does not match its check"), (11, "it does not match its check")])
        with self.assertRaisesRegex(SeasonError, "line 5 is damaged: it does not match its check .2 lines in all."):
            SeasonFile.open(self.path)
        for wrong in ([5], [5, 6], [5, 11, 12]):
            with self.assertRaisesRegex(SeasonError, "the damaged lines are 5, 11"):
                leave_out(self.path, wrong)
        self.assertEqual(self.data(), b"".join(lines))
        # line 9 withdraws the reading of line 5, and so the season would not open
        with self.assertRaisesRegex(SeasonError, "line 9: there is no reading r2 to withdraw"):
            leave_out(self.path, [5, 11])
        self.assertEqual(self.data(), b"".join(lines))

    def test_a_row_of_an_import_that_is_given_up(self):
        self.season()
        lines = self.data().splitlines(True)
        lines[5] = lines[5][:-3] + b"zz\n"
        self.put(b"".join(lines))
        leave_out(self.path, [6])
        season = SeasonFile.open(self.path)
        self.assertEqual([r.name for r in season.readings], ["r1", "r2", "r4", "r5"])
        self.assertEqual(second_reader(self.data())[0], standing_of(season))
        self.assertTrue(self.data().startswith(b"".join(lines)))
        found = check(self.path)
        self.assertTrue(found.good)
        self.assertEqual(found.left_out, ["line 6 left out"])
        with self.assertRaisesRegex(SeasonError, "no line is damaged"):
            leave_out(self.path, [7])

    def test_the_head_of_an_import_that_is_given_up_takes_its_rows(self):
        self.put(text_of("import 2", "row r1 1 2", "row r2 3 4", "add r3 5 6").replace(b"import 2", b"import 3"))
        self.assertEqual([line for line, _ in check(self.path).damaged], [3, 4, 5])
        leave_out(self.path, [3, 4, 5])
        self.assertEqual(standing_of(SeasonFile.open(self.path)), [("r3", "5", "6", "1")])

    def test_an_import_that_lacks_rows_in_the_middle(self):
        self.put(text_of("import 2", "row r1 1 2", "add r3 5 6"))
        self.assertEqual(check(self.path).damaged, [(3, "its import has 1 of its 2 rows"), (4, "it is a row with no import before it")])
        with self.assertRaisesRegex(SeasonError, "line 3 is damaged: its import has 1 of its 2 rows"):
            SeasonFile.open(self.path)

    def test_a_check_compares_books(self):
        self.season()
        found = check(self.path)
        self.assertEqual((found.good, found.lines, found.calls, found.readings, [same for _, same in found.compared]), (True, 13, 7, 4, [True, True]))
        # a book that is made otherwise is seen
        replay = Book.replay

        def other(calls):
            book, answers = replay(calls)
            book.correct(0, 1.0)
            return book, answers

        with mock.patch.object(season_module.Book, "replay", other):
            found = check(self.path)
        self.assertEqual((found.good, [same for _, same in found.compared]), (False, [False, False]))


@unittest.skipUnless(_library.library().surface_report, "the library has no surfaces")
class Surfaces(Folder):
    """Seasons whose readings have a z."""

    def surface(self):
        season = SeasonFile.create(self.path, SettingsText(bound="2"), surface=True)
        rows = [NewRow("0.2", "251", None, 2, "A1", None, "-2"), NewRow("0.6", "293", None, 3, None, None, "-2"), NewRow("0.2", "251", z="0")]
        season.add_rows(rows, ("depth (m)", "density", None, "elevation"), "pits.csv")
        season.add("0.6", "268", z="0.5", note="windy")
        season.correct("r4", "286")
        season.withdraw("r1")
        season.undo()
        season.add(0.5, 241, z=0.1 + 0.2)
        season.withdraw("r2")
        season.set(Settings(bound=1, criterion="aic"))
        return season

    def test_lines(self):
        """Each line as docs/SEASON.md has it."""
        self.surface()
        bodies = [
            "settings surface bound 2 criterion bic confidence P95 tolerance none pruning size at " + AT,
            f'import 3 x "depth (m)" y "density" z "elevation" source "pits.csv" at {AT}',
            'row r1 0.2 251 z -2 line 2 called "A1"',
            "row r2 0.6 293 z -2 line 3",
            "row r3 0.2 251 z 0",
            f'add r4 0.6 268 z 0.5 note "windy" at {AT}',
            f"correct r4 286 at {AT}",
            f"withdraw r1 at {AT}",
            f"undo 9 at {AT}",
            f"add r5 0x1p-1 241 z 0x1.3333333333334p-2 at {AT}",
            f"withdraw r2 at {AT}",
            "settings surface bound 1 criterion aic confidence P95 tolerance none pruning size at " + AT,
        ]
        self.assertEqual(self.data(), line(FIRST) + b"".join(line(f"{i} {body}") for i, body in enumerate(bodies, 2)))

    def test_the_example_of_the_guide_is_a_season(self):
        example = (ROOT / "docs" / "SEASON.md").read_text(encoding="utf-8").split("```\n")[3].encode()
        self.put(example)
        book = SeasonFile.open(self.path).book
        self.assertEqual((book.xs, book.zs, book.ys), ([0.2, 1.5], [-2.0, 2.0], [251.0, 370.0]))

    def test_opened_again(self):
        made = self.surface()
        for season in (made, SeasonFile.open(self.path)):
            self.assertTrue(season.surface)
            self.assertEqual((season.book.xs, season.book.zs, season.book.ys), ([0.2, 0.2, 0.6, 0.5], [-2.0, 0.0, 0.5, 0.1 + 0.2], [251.0, 251.0, 286.0, 241.0]))
            self.assertEqual([reading.name for reading in season.standing], ["r1", "r3", "r4", "r5"])
            self.assertEqual([(reading.z_text, reading.z) for reading in season.readings[:2]], [("-2", -2.0), ("-2", -2.0)])
            self.assertEqual((season.x_name, season.z_name, season.y_name), ("depth (m)", "elevation", "density"))
            self.assertEqual(season.settings, Settings(bound=1, criterion="aic"))
            self.assertEqual(season.book.bits(), made.book.bits())
            self.assertEqual(season.report().terms, ["1", "x", "z"][: len(season.report().coefficients)])
        found = check(self.path)
        self.assertTrue(found.good)
        self.assertEqual((found.what, [same for _, same in found.compared]), ("x's, z's and y's", [True, True]))

    def test_cut_off(self):
        """A season that is cut off in its last line is the one before it."""
        self.surface()
        whole = self.data()
        before = whole[: whole[:-1].rindex(b"\n") + 1]
        for end in range(len(before), len(whole)):
            self.put(whole[:end])
            self.assertEqual(SeasonFile.open(self.path).settings, Settings(bound=2))

    def test_one_kind_or_the_other(self):
        season = self.surface()
        data = self.data()
        for words, call in (
            ("has a z", lambda: season.add("1", "2")),
            ("no weight", lambda: season.add("1", "2", "3", z="4")),
            ("has a z", lambda: season.add_rows([NewRow("1", "2", z="3"), NewRow("1", "2")])),
            ("no scores", season.scores),
        ):
            with self.assertRaisesRegex(SeasonError, words):
                call()
            self.assertEqual((self.data(), season.book.count), (data, 4))
        curve = SeasonFile.create(self.path + "2")
        with self.assertRaisesRegex(SeasonError, "no z"):
            curve.add("1", "2", z="3")
        with self.assertRaisesRegex(SeasonError, "no z"):
            curve.add_rows([NewRow("1", "2", z="3")])
        self.assertEqual(curve.book.count, 0)

    def test_refused(self):
        season = self.surface()
        data = self.data()
        for number, call in (
            (4, lambda: season.add("1", "2", z=float("nan"))),
            (13, lambda: season.add("1", "2", z="1e3")),
            (14, lambda: season.add("1", "2", z="1.0000000000000000")),
            (8, lambda: season.set(Settings(bound=5))),
            (6, lambda: season.correct("r2", "1")),
        ):
            with self.assertRaises(Refused) as caught:
                call()
            self.assertEqual((caught.exception.number, self.data(), season.book.count), (number, data, 4))
        with self.assertRaises(Refused) as caught:
            SeasonFile.create(self.path + "2", Settings(bound=5), surface=True)
        self.assertEqual((caught.exception.number, os.path.exists(self.path + "2")), (8, False))

    def test_files_that_mix(self):
        """Lines of the other kind make no season."""
        head = "settings surface bound 2 criterion bic confidence P95 tolerance none pruning size"
        curve = head.replace("surface ", "")
        for bodies, words in (
            ((head, "add r1 1 2"), "line 3: a reading of a surface has a z"),
            ((head, "add r1 1 2 z 3 weight 2"), "line 3: a reading of a surface has no weight"),
            ((head, "import 1", "row r1 1 2"), "line 4: a reading of a surface has a z"),
            ((curve, "add r1 1 2 z 3"), "line 3: a reading of a curve has no z"),
            ((head, curve), "line 3: a season is of curves or of a surface"),
            ((curve, head), "line 3: a season is of curves or of a surface"),
            ((head, "add r1 1 2 z 1e3"), "line 3: '1e3': refused by 13"),
        ):
            self.put(line(FIRST) + b"".join(line(f"{i} {body}") for i, body in enumerate(bodies, 2)))
            with self.assertRaisesRegex(SeasonError, words):
                SeasonFile.open(self.path)

    def test_warnings(self):
        season = SeasonFile.create(self.path, SettingsText(bound="relaxed"), surface=True)
        season.add_rows([NewRow(str(i), str(i * i), z=str(i % 3)) for i in range(6)])
        said = season.warnings()
        self.assertIn("allows degree 0 alone at 6 readings", said[0])
        self.assertIn("the mean surface", said[1])


class Warnings(Folder):
    """Where numbers can mislead. The scores are put in by hand, so that each case is the warning's alone."""

    def warned(self, season, settings, bound, unsolved=()):
        from stakebook import DegreeScore, Scores

        report = season.report(settings)
        degrees = [DegreeScore(d, d not in unsolved, None if d in unsolved else 1.0) for d in range(bound + 1)]
        scores = Scores(settings, report.n, report.degree, bound, 1.0, len(degrees) - len(unsolved), degrees, 0)
        return season.warnings(report, scores)

    def test_each(self):
        season = SeasonFile.create(self.path)
        season.add_rows([NewRow(str(i), str(i)) for i in range(8)])
        # on a line, so that nothing lies outside
        self.assertEqual(self.warned(season, Settings(bound=1), 1), [])
        (words,) = [w for w in self.warned(season, Settings(), 0) if "bound" in w]
        self.assertIn("'relaxed' allows degree 0 alone at 8 readings", words)
        self.assertIn("--bound 2", words)
        self.assertNotIn("allows", str(self.warned(season, Settings(bound=0), 0)))
        (words,) = self.warned(season, Settings(bound=1), 4, (3, 4))
        self.assertIn("Of the degrees 0 to 4, 2 could not be solved (3, 4): x lies far from 0 beside its spread. Subtract the middle", words)

    def test_few_different_x(self):
        season = SeasonFile.create(self.path)
        season.add_rows([NewRow(str(i % 2), str(i % 2)) for i in range(8)])
        words = self.warned(season, Settings(bound=1, tolerance=("absolute", 1)), 3, (2, 3))
        few = "there are 2 different values of x, and a degree needs one more than its number."
        self.assertEqual(words, [f"Of the degrees 0 to 3, 2 could not be solved (2, 3): {few}"])

    def test_outliers_and_no_freedom(self):
        season = SeasonFile.create(self.path)
        # 1 and 3 lie 1 below and above the mean 2; its error is the root of 4 / 3 (the squares, by n - k) over 4, so 0.577, and 1.959 times that is 1.13
        season.add_rows([NewRow(str(i), str(1 + 2 * (i % 2))) for i in range(4)])
        self.assertEqual(self.warned(season, Settings(bound=0), 0), [])
        (words,) = self.warned(season, Settings(bound=0, confidence=1.0), 0)
        self.assertTrue(words.startswith("4 of 4 readings lie outside the band. It is the band of the mean curve"), words)
        season.add("4", "2")
        (words,) = self.warned(season, Settings(bound=0, confidence=0.5, tolerance=("absolute", 0.7)), 0)
        self.assertTrue(words.startswith("4 of 5 readings lie"), words)
        season = SeasonFile.create(self.path + "2")
        season.add("1", "1")
        (words,) = self.warned(season, Settings(bound=0), 0)
        self.assertIn("as many coefficients as readings", words)

    def test_a_short_break(self):
        season = SeasonFile.create(self.path)
        season.add_rows([NewRow(str(i), y) for i, y in enumerate("0 1.1 1.9 3.05 2.95 2.1 0.9 0.02".split())])
        settings = Settings(bound=1, criterion="aic")
        split = season.book.split(settings)
        from stakebook import DegreeScore, Scores

        scores = Scores(settings, 8, 0, 1, 1.0, 2, [DegreeScore(0, True, 1.0), DegreeScore(1, True, 1.0)], 0)
        words = season.warnings(season.report(settings), scores, split)[-1]
        self.assertIn("One side of the break has 3 readings", words)


def load_tests(loader, tests, _):
    for module in (season_module, seasonfile):
        tests.addTests(doctest.DocTestSuite(module, optionflags=doctest.ELLIPSIS | doctest.IGNORE_EXCEPTION_DETAIL))
    return tests


if __name__ == "__main__":
    unittest.main()
