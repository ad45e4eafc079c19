"""Season files of a glacier of several stakes, and `stake` on them: file, answers and page, which is opened in headless Chromium.

    python3 python/tests/test_stakes.py

What is expected of a stake comes from a season file, or a book, of its readings alone, whose answers other tests compare with the judge's. Files are
written out by hand.
"""

import contextlib
import io
import json
import os
import random
import re
import sys
import unittest
from pathlib import Path
from unittest import mock

ROOT = Path(__file__).resolve().parents[2]
sys.path[:0] = [str(Path(__file__).resolve().parent), str(ROOT / "python")]

from browser import Browser
from stakebook import WORDS, Book, Refused, Settings, command
from stakebook.season import NewRow, RefusedRow, SeasonFile, check, leave_out
from stakebook.seasonfile import SeasonError
from test_page import COMPLAINTS, ONE_BY_ONE
from test_season import Folder, line

STAKES = 32
PIT = [0.1, 0.3, 0.5, 0.7, 0.9, 1.1], [212, 240.5, 251, 287, 290, 322.5]

FIRST = "stake season 2"
SETTINGS = "settings bound 2 criterion bic confidence P95 tolerance none pruning size"


def text_of(*bodies, settings=SETTINGS, first=FIRST):
    return b"".join([line(first)] + [line(f"{i} {body}") for i, body in enumerate((settings,) + bodies, 2)])


#: A file by hand, and its stakes' readings as they stand.
BY_HAND = (
    'import 3 x "depth (m)" y "density" stake 4 source "a.csv"', "row r1 0.1 212 line 2", "row r2 0.3 240.5 stake 7 line 3", "row r3 0.5 251 weight 2 line 4",
    "add r4 0.7 287", "add r5 0.2 230 weight 3 stake 7", "correct r2 241", "withdraw r1", "add r6 0.9 290 stake 31", "undo 11",
    "add r7 1.1 322.5 stake 4",
)  # fmt: skip
STANDING = {0: [("r4", 0.7, 287, 1)], 4: [("r3", 0.5, 251, 2), ("r7", 1.1, 322.5, 1)], 7: [("r2", 0.3, 241, 1), ("r5", 0.2, 230, 3)]}


class File(Folder):
    def refused(self, data, words):
        self.put(data)
        with self.assertRaises(SeasonError) as caught:
            SeasonFile.open(self.path)
        self.assertIn(words, str(caught.exception))

    def test_by_hand(self):
        self.put(text_of(*BY_HAND))
        season = SeasonFile.open(self.path)
        self.assertTrue(season.glacier)
        for stake in range(STAKES):
            book, expected = season.book[stake], STANDING.get(stake, [])
            self.assertEqual(list(zip(book.xs, book.ys, book.ws)), [each[1:] for each in expected], stake)
            one = season.stake(stake)
            self.assertEqual([reading.name for reading in one.standing], [each[0] for each in expected])
            self.assertEqual([reading.index for reading in one.standing], list(range(len(expected))))
        self.assertEqual([(r.name, r.stake) for r in season.standing], [("r4", 0), ("r3", 4), ("r7", 4), ("r2", 7), ("r5", 7)])
        self.assertEqual((season.stake(4).x_name, season.stake(7).y_name, season.stake(0).x_name), ("depth (m)", "density", None))
        self.assertEqual([call.text for call in season.history][1:3], ["import of 3 readings (r1 to r3) from a.csv, stakes 4, 7", "add r4: x 0.7, y 287, stake 0"])
        told = check(self.path)
        self.assertTrue(told.good)
        self.assertEqual((told.calls, told.readings, len(told.compared)), (8, 5, 2))

    def test_the_example_of_the_guide_is_a_glacier(self):
        self.put((ROOT / "docs" / "SEASON.md").read_text(encoding="utf-8").split("```\n")[5].encode())
        book = SeasonFile.open(self.path).book
        held = {each.stake: (each.xs, each.ys) for each in book if each.count}
        self.assertEqual(held, {3: ([0.1, 0.3, 0.5], [212, 241, 251]), 7: ([0.2, 0.4], [231, 244.5])})

    def test_the_next_name_runs_through_the_file(self):
        self.put(text_of(*BY_HAND))
        season = SeasonFile.open(self.path)
        self.assertEqual(season.add("1", "2", stake=9).name, "r8")
        self.assertEqual([r.name for r in season.add_rows([NewRow("1", "2"), NewRow("1", "2", stake=3)], stake=5)], ["r9", "r10"])
        with open(self.path, encoding="utf-8") as file:
            lines = [each.rsplit(" ", 1)[0].split(" at ")[0] for each in file.read().splitlines()]
        self.assertEqual(lines[-4:], ["14 add r8 1 2 stake 9", "15 import 2 stake 5", "16 row r9 1 2", "17 row r10 1 2 stake 3"])
        again = SeasonFile.open(self.path)
        self.assertEqual((again.book.bits(), again.book.counts[3:10]), (season.book.bits(), [1, 2, 1, 0, 2, 0, 1]))

    def test_version_1_stays_as_it_is(self):
        """A stake's number is no part of a line of version 1."""
        for body in ("add r1 1 2 stake 3", 'import 1 stake 3', "row r1 1 2 stake 3"):
            self.put(text_of(body, "add r2 1 2", first="stake season 1"))
            self.assertEqual(check(self.path).damaged[0][0], 3)
            self.refused(text_of(body, "add r2 1 2", first="stake season 1"), "line 3 is damaged")
        self.put(text_of("add r1 1 2", first="stake season 1"))
        season = SeasonFile.open(self.path)
        self.assertFalse(season.glacier)
        self.assertIsInstance(season.book, Book)
        for call in (lambda: season.add("1", "2", stake=0), lambda: season.stake(0), season.reports):
            self.assertRaisesRegex(SeasonError, "one stake", call)
        season.add("2", "3")
        with open(self.path, "rb") as file:
            self.assertEqual(file.read().split(b" at ")[0], text_of("add r1 1 2", first="stake season 1") + b"4 add r2 2 3")

    def test_what_is_no_glacier(self):
        self.refused(text_of("add r1 1 2", "add r2 1 2 stake 32"), "line 4: refused by 18: a stake's number is above 31")
        self.refused(text_of('import 2 stake 999', "row r1 1 2 stake 3", "row r2 1 2"), "line 5: refused by 18")
        self.refused(text_of("add r1 1 2 stake 3", "withdraw r2"), "no reading r2")
        self.refused(text_of("add r1 1 2 stake 3", "add r1 1 2 stake 4"), "comes after r1")
        self.refused(text_of(settings="settings surface bound 2 criterion bic confidence P95 tolerance none pruning size"), "no surfaces by stakes")
        self.refused(text_of("add r1 1 2 z 3 stake 4"), "has no z")
        for body in ("add r1 1 2 stake 03", "add r1 1 2 stake -1", "add r1 1 2 stake x", "add r1 1 2 stake", "add r1 1 2 stake 3 weight 2", "correct r1 2 stake 3"):
            self.refused(text_of(body, "add r2 1 2"), "line 3 is damaged")
        self.refused(line("stake season 3"), "is of version 3, and this program reads versions 1 and 2")
        self.refused(line(FIRST), "cut off while it was made")
        self.refused(line(FIRST)[:-4], "cut off while it was made")
        self.refused(text_of().replace(b"\n", b"\r\n"), "Windows")
        self.refused(text_of().replace(b"season 2", b"season 2!", 1), "line 1 is damaged")
        self.assertRaisesRegex(SeasonError, "no surfaces by stakes", SeasonFile.create, self.path + "2", glacier=True, surface=True)
        self.assertFalse(os.path.exists(self.path + "2"))

    def test_refused_changes_leave_all_as_it_was(self):
        season = SeasonFile.create(self.path, Settings(bound=2), glacier=True)
        season.add_rows([NewRow(str(x), str(y)) for x, y in zip(*PIT)], stake=3)
        before, book = self.data(), season.book.bits()
        for number, change in (
            (18, lambda: season.add("1", "2", stake=32)),
            (18, lambda: season.add_rows([NewRow("1", "2", stake=3), NewRow("1", "2", stake=50)])),
            (15, lambda: season.add("1", "2", "0", stake=31)),
            (6, lambda: season.withdraw("r7")),
            (13, lambda: season.correct("r1", "x")),
            (4, lambda: season.add(1.0, float("nan"), stake=4)),
        ):
            with self.assertRaises(Refused) as caught:
                change()
            self.assertEqual(caught.exception.number, number)
            self.assertEqual((self.data(), season.book.bits()), (before, book))
        with self.assertRaises(RefusedRow) as caught:
            season.add_rows([NewRow("1", "2", stake=3), NewRow("1", "2", stake=50)])
        self.assertEqual((caught.exception.row, caught.exception.number), (1, 18))
        self.assertRaisesRegex(SeasonError, "give --stake", season.add, "1", "2")
        self.assertRaisesRegex(SeasonError, "ask one of them", season.report)
        self.assertRaisesRegex(SeasonError, "ask one of them", season.scores)
        with self.assertRaises(Refused) as caught:
            season.stake(32)
        self.assertEqual(caught.exception.number, 18)
        self.assertEqual((self.data(), season.book.bits()), (before, book))

    def test_random_against_seasons_of_one_stake(self):
        """A glacier's stake is the season of its readings alone, after every call."""
        rng = random.Random(141)
        season, alone = SeasonFile.create(self.path, Settings(bound=2), glacier=True), {}
        names = {}  # of the glacier's readings: stake, and name in the season of that stake
        for stake in (0, 5, 31):
            alone[stake] = SeasonFile.create(f"{self.path}{stake}", Settings(bound=2))
        last = []
        for turn in range(120):
            stake, kind = rng.choice(list(alone)), rng.choice(["add", "add", "rows", "correct", "withdraw", "undo"])
            x, y = f"{rng.uniform(0, 3):.3f}", f"{rng.uniform(200, 300):.1f}"
            if kind == "add":
                names[season.add(x, y, "2", stake=stake).name] = stake, alone[stake].add(x, y, "2").name
                last.append([stake])
            elif kind == "rows":
                rows = [NewRow(f"{i}.5", y, stake=each) for i, each in enumerate(alone)]
                for reading in season.add_rows(rows):
                    made = alone[reading.stake].add(reading.x_text, reading.y_text)
                    names[reading.name] = reading.stake, made.name
                last.append(list(alone))
            elif kind == "undo":
                if last:
                    season.undo()
                    for each in last.pop():
                        alone[each].undo()
            elif season.standing:
                name = rng.choice(season.standing).name
                of, theirs = names[name]
                for each, called in ((season, name), (alone[of], theirs)):
                    each.correct(called, y) if kind == "correct" else each.withdraw(called)
                last.append([of])
            if turn % 10 == 9:
                again = SeasonFile.open(self.path)
                for each in (season, again):
                    self.assertEqual([each.book[of].bits() for of in alone], [other.book.bits() for other in alone.values()])
        self.assertGreater(season.book.count, 20)
        self.assertTrue(check(self.path).good)

    def test_a_cut_at_every_byte(self):
        season = SeasonFile.create(self.path, Settings(bound=2), glacier=True)
        season.add_rows([NewRow("0.1", "212", stake=3), NewRow("0.3", "240.5", stake=9)])
        before, whole = len(self.data()), season.book.bits()
        season.add_rows([NewRow("0.5", "251"), NewRow("0.7", "287", stake=9)], stake=3)
        data, after = self.data(), season.book.bits()
        for cut in range(before, len(data) + 1):
            self.put(data[:cut])
            again = SeasonFile.open(self.path)
            self.assertEqual(again.book.bits(), after if cut == len(data) else whole)
            self.assertEqual(again.torn is None, cut in (before, len(data)))
        self.put(data[:-7])
        again = SeasonFile.open(self.path)
        self.assertEqual(again.add("1", "2", stake=0).name, "r3")
        self.assertEqual(SeasonFile.open(self.path).book.counts[:10], [1, 0, 0, 1, 0, 0, 0, 0, 0, 1])

    def test_leaving_a_damaged_line_out(self):
        data = text_of(*BY_HAND)
        self.put(data.replace(b"0.2 230", b"0.2 231"))
        self.assertEqual([place for place, _ in check(self.path).damaged], [8])
        leave_out(self.path, [8])
        self.assertEqual(SeasonFile.open(self.path).book.counts[7], 1)

    def test_check_finds_a_difference(self):
        self.put(text_of(*BY_HAND))
        with mock.patch.object(Book, "replay", lambda calls: (Book(), [])):
            found = check(self.path)
        self.assertEqual((found.good, [same for _, same in found.compared]), (False, [False, True]))


# ---- the command

TABLE = """stake;depth (m);density;people;name
0;0,10;212;1;A
0;0,30;240,5;1;B
3;0,2;231;1;C
0;0,50;251;1;D
3;0,4;244,5;2;E
0;0,70;287;1;F
3;0,8;NA;1;G
0;0,90;290;1;H
3;0,6;262;1;I
0;1,10;322,5;1;J
9;1,00;301;1;K
"""


class OnGlacier(Folder):
    """What the tests of `stake` on a glacier have alike: it, and seasons of one stake with the same readings in the same order."""

    def setUp(self):
        super().setUp()
        self.glacier = os.path.join(self.folder, "g.stake")
        self.table = self.file("t.csv", TABLE)

    def file(self, name, text):
        path = os.path.join(self.folder, name)
        self.put(text.encode(), path)
        return path

    def run_stake(self, *words):
        out, err = io.TextIOWrapper(io.BytesIO(), "utf-8", newline=""), io.StringIO()
        with contextlib.redirect_stdout(out), contextlib.redirect_stderr(err):
            try:
                status = command.main([str(word) for word in words])
            except SystemExit as error:
                status = error.code
        out.flush()
        return status, out.buffer.getvalue().decode(), err.getvalue()

    def stake(self, *words):
        status, out, err = self.run_stake(*words)
        self.assertEqual((status, err), (0, ""), words)
        return out

    def fails(self, status, words, *call):
        before = Path(self.glacier).read_bytes() if os.path.exists(self.glacier) else None
        found, out, err = self.run_stake(*call)
        self.assertEqual((found, out), (status, ""), (call, err))
        self.assertIn(words, err)
        self.assertEqual(Path(self.glacier).read_bytes() if os.path.exists(self.glacier) else None, before)

    def made(self, *settings):
        self.stake("new", self.glacier, "--glacier", *(settings or ("--bound", "2")))
        self.stake("import", self.glacier, self.table, "--stake-column", "stake", "--weight", "people")

    def alone(self, stake, *settings):
        """A season of one stake's readings, from a table of its own."""
        head, *rows = TABLE.splitlines()
        kept = [row if row.startswith(f"{stake};") else ";;;;" for row in rows]
        path = os.path.join(self.folder, f"only{stake}.stake")
        self.stake("new", path, *(settings or ("--bound", "2")))
        os.mkdir(os.path.join(self.folder, str(stake)))
        # the lines are in the places that they have in the whole table
        self.stake("import", path, self.file(f"{stake}/t.csv", "\n".join([head] + kept) + "\n"), "--weight", "people")
        return path

    def empty(self):
        path = os.path.join(self.folder, "empty.stake")
        self.stake("new", path, "--glacier")
        return path


class Command(OnGlacier):
    def test_new_and_import(self):
        said = self.stake("new", self.glacier, "--glacier", "--bound", "2")
        self.assertEqual(said, f"{self.glacier}: a new season of a glacier of 32 stakes, degrees up to 2, BIC, P95, no tolerance, terms pruned by size\n")
        self.assertEqual(Path(self.glacier).read_bytes().split(b"\n")[0] + b"\n", line(FIRST))
        said = self.stake("import", self.glacier, self.table, "--stake-column", "stake", "--weight", "people")
        self.assertIn("10 readings saved from t.csv, r1 to r10, of stakes 0, 3, 9\n", said)
        self.assertIn("1 line left out, where a number is missing: 8\n", said)
        season = SeasonFile.open(self.glacier)
        self.assertEqual([(each.stake, each.count) for each in season.book if each.count], [(0, 6), (3, 3), (9, 1)])
        self.assertEqual((season.book[3].xs, season.book[3].ys, season.book[3].ws), ([0.2, 0.4, 0.6], [231, 244.5, 262], [1, 2, 1]))
        self.assertIn("2 readings saved from u.csv, r11 to r12, of stake 31\n", self.stake("import", self.glacier, self.file("u.csv", "x,y\n1,2\n3,4\n"), "--stake", "31"))
        self.assertEqual(self.stake("add", self.glacier, "5", "6", "--stake", "31"), f"{self.glacier}: r13 saved: x 5, y 6; 3 readings of stake 31\n")
        self.assertEqual(self.stake("correct", self.glacier, "r13", "7"), f"{self.glacier}: r13 of stake 31 saved: y 7, was 6\n")
        self.assertEqual(self.stake("withdraw", self.glacier, "r11"), f"{self.glacier}: r11 withdrawn and saved; 2 readings of stake 31\n")
        self.assertEqual(SeasonFile.open(self.glacier).book[31].ys, [4, 7])
        self.assertIn("withdraw r11; 13 readings", self.stake("undo", self.glacier))
        self.assertEqual(SeasonFile.open(self.glacier).book[31].ys, [2, 4, 7])

    def test_a_stake_prints_what_its_own_season_prints(self):
        self.made()
        for stake in (0, 3, 9):
            alone = self.alone(stake)
            season = SeasonFile.open(self.glacier)
            # readings are named through the whole file
            names = {theirs.name: ours.name for theirs, ours in zip(SeasonFile.open(alone).readings, season.stake(stake).readings)}

            def renamed(text):
                return re.sub(r"\br[0-9]+\b", lambda found: names[found.group()], text.replace(alone, self.glacier))

            for words in (
                ("report",), ("report", "--json"), ("report", "--bound", "1", "--criterion", "aic", "--tolerance", "absolute=3"), ("scores",),
                ("scores", "--json"), ("report", "--at", "0.3") if stake == 0 else ("report", "--at", "1" if stake == 9 else "0,5"), ("export", "--format", "csv"),
            ):  # fmt: skip
                ours, theirs = (self.run_stake(words[0], path, *words[1:], *more) for path, more in ((self.glacier, ("--stake", stake)), (alone, ())))
                self.assertEqual(ours[0], 0, ours)
                lines = [[re.sub(" +", " ", each) for each in text.splitlines()] for text in (ours[1], renamed(theirs[1]))]
                self.assertEqual(lines[0], lines[1], words)
            for kind in ("frame", "calls"):
                files = [os.path.join(self.folder, f"{kind}{i}") for i in range(2)]
                self.stake("export", self.glacier, "--stake", stake, "--format", kind, "--output", files[0])
                self.stake("export", alone, "--format", kind, "--output", files[1])
                ours, theirs = (Path(file).read_bytes() for file in files)
                self.assertEqual(ours, theirs.replace(b"only%d" % stake, b"g"))
            ours, theirs = self.stake("mirror-check", self.glacier, "--stake", stake), self.stake("mirror-check", alone)
            self.assertEqual(ours.split(": ", 2)[2], theirs.split(": ", 1)[1])
        ours, theirs = (self.stake("report", path, "--split", "--folds", "2", *more) for path, more in ((self.glacier, ("--stake", "0")), (os.path.join(self.folder, "only0.stake"), ())))
        self.assertEqual(re.sub(r"\br[0-9]+\b", "r", ours.split(":", 1)[1]), re.sub(r"\br[0-9]+\b", "r", theirs.split(":", 1)[1]))

    def test_report_of_all(self):
        self.made("--bound", "3")
        for path in ("0", "3", "9"):
            self.alone(path, "--bound", "3")
        expected = []
        for stake in (0, 3, 9):
            report = SeasonFile.open(os.path.join(self.folder, f"only{stake}.stake")).report()
            pruned = [term for term, mark in zip(("1", "x", "x^2", "x^3"), report.pruned) if mark]
            told = f"pruned: {', '.join(pruned)}" if pruned else "no term pruned"
            readings = "1 reading" if report.n == 1 else f"{report.n} readings"
            expected.append(f"stake {stake}: {readings}, degree {report.degree}, {sum(report.outliers)} outside the band, {told}")
        said = self.stake("report", self.glacier).splitlines()
        self.assertEqual(said[0], f"{self.glacier}: 10 readings; degrees up to 3, BIC, P95, no tolerance, terms pruned by size")
        self.assertEqual(said[1:5], expected + ["stakes 1 to 2, 4 to 8, 10 to 31: no readings"])
        self.assertEqual(said[5].split(".")[0], "3 of 32 stakes are not refused")
        # a refusal, said in words: a bound by name is none, and one above 15 is refused where there are readings
        season = SeasonFile.open(self.glacier)
        season.add_rows([NewRow(str(i), str(i % 3)) for i in range(20)], stake=2)
        said = self.stake("report", self.glacier, "--bound", "16")
        self.assertIn(f"stake 2: refused by 8: {WORDS[8]}", " ".join(said.split()))
        found = json.loads(self.stake("report", self.glacier, "--bound", "16", "--json"))
        self.assertEqual([each["stake"] for each in found["stakes"]], list(range(STAKES)))
        self.assertEqual(found["stakes"][2]["refused"], {"number": 8, "words": WORDS[8]})
        self.assertEqual(found["stakes"][31]["refused"]["number"], 7)
        alone = json.loads(self.stake("report", os.path.join(self.folder, "only0.stake"), "--bound", "16", "--json"))
        self.assertEqual(found["stakes"][0]["report"], alone["report"])
        self.assertEqual(found["answered"], sum("report" in each for each in found["stakes"]))

    def test_list_and_the_rest(self):
        self.made()
        head, first, *_, last, count = self.stake("list", self.glacier).splitlines()
        self.assertEqual(head.split(), ["name", "stake", "own", "name", "x", "y", "weight", "state", "source", "note"])
        self.assertEqual((first.split(), last.split(), count), (["r1", "0", "A", "0.10", "212", "1", "stands", "t.csv:2"], ["r10", "9", "K", "1.00", "301", "1", "stands", "t.csv:12"], "10 readings"))
        self.assertEqual([each.split()[0] for each in self.stake("list", self.glacier, "--stake", "3").splitlines()], ["name", "r3", "r5", "r8", "3"])
        self.assertEqual([each["stake"] for each in json.loads(self.stake("list", self.glacier, "--json"))["readings"]], [0, 0, 3, 0, 3, 0, 0, 3, 0, 9])
        self.assertIn("import of 10 readings (r1 to r10) from t.csv, stakes 0, 3, 9", self.stake("list", self.glacier, "--history"))
        self.stake("add", self.glacier, "1", "2", "--stake", "4")
        self.assertIn("add r11: x 1, y 2, stake 4", self.stake("list", self.glacier, "--history"))
        self.assertNotIn("r11", self.stake("list", self.glacier, "--history", "--stake", "0"))
        said = self.stake("check", self.glacier)
        self.assertIn("11 calls in force, 11 readings", said)
        self.assertIn("each stake's calls, replayed as one book's: 11 x's, y's and weights and 32 times 272 sums are the same, bit for bit", said)
        said = self.stake("mirror-check", self.glacier)
        self.assertEqual((said.count("All agree.\n"), re.findall(r"stake: stake (\d+):", said)), (4, ["0", "3", "4", "9"]))
        found = json.loads(self.stake("mirror-check", self.glacier, "--json"))
        self.assertEqual((found["good"], [each["stake"] for each in found["stakes"]]), (True, [0, 3, 4, 9]))
        self.stake("settings", self.glacier, "--bound", "1")
        self.assertIn("degrees up to 1", self.stake("report", self.glacier))
        # a glacier's csv has the stakes, and comes back as the same glacier
        table = os.path.join(self.folder, "all.csv")
        self.stake("export", self.glacier, "--output", table)
        other = os.path.join(self.folder, "other.stake")
        self.stake("new", other, "--glacier")
        self.stake("import", other, table, "--stake-column", "stake", "--weight", "weight")
        self.assertEqual(SeasonFile.open(other).book.bits(), SeasonFile.open(self.glacier).book.bits())

    def test_refusals_in_words(self):
        self.fails(1, "no surfaces by stakes", "new", self.glacier, "--glacier", "--surface")
        self.assertFalse(os.path.exists(self.glacier))
        self.made()
        above = "refused by 18: a stake's number is above 31"
        self.fails(1, above, "add", self.glacier, "1", "2", "--stake", "32")
        self.fails(1, above, "import", self.glacier, self.table, "--stake", "77", "--x", "depth (m)", "--y", "density")
        self.fails(1, f"u.csv:3: {above}", "import", self.glacier, self.file("u.csv", "s,x,y\n3,1,2\n32,1,2\n"), "--stake-column", "s")
        self.fails(1, "u.csv:2: column 's': 'A' is no whole number", "import", self.glacier, self.file("u.csv", "s,x,y\nA,1,2\n"), "--stake-column", "s")
        for words in (("report",), ("scores",), ("list",), ("export",), ("mirror-check",), ("plot", "p.svg"), ("page", "p.html")):
            self.fails(1, above, words[0], self.glacier, *(os.path.join(self.folder, each) for each in words[1:]), "--stake", "32")
        self.assertFalse(os.path.exists(os.path.join(self.folder, "p.svg")))
        self.fails(1, f"{self.glacier}: stake 5: refused by 7: {WORDS[7]}", "report", self.glacier, "--stake", "5")
        for words in (("scores",), ("plot", "p.svg"), ("export", "--format", "frame"), ("export", "--format", "calls"), ("report", "--at", "1"), ("report", "--split"), ("report", "--folds", "2")):
            self.fails(2, "give --stake N, 0 to 31", words[0], self.glacier, *words[1:])
        self.fails(1, "give --stake", "add", self.glacier, "1", "2")
        self.fails(1, "give --stake", "import", self.glacier, self.file("v.csv", "x,y\n1,2\n"))
        self.fails(2, "not both", "import", self.glacier, self.table, "--stake", "3", "--stake-column", "stake")
        self.fails(1, "has no z", "add", self.glacier, "1", "2", "--z", "3", "--stake", "4")
        self.fails(2, "a curve has no z", "report", self.glacier, "--stake", "0", "--at", "1", "--z", "3")
        one = os.path.join(self.folder, "one.stake")
        self.stake("new", one)
        for words in (("add", "1", "2"), ("report",), ("list",), ("scores",), ("export",), ("mirror-check",)):
            self.fails(1, "it is a season of one stake", words[0], one, *words[1:], "--stake", "0")
        empty = self.empty()
        self.assertEqual(self.stake("mirror-check", empty).split(": ")[1], "no readings, and so nothing to compare\n")
        self.assertIn("stakes 0 to 31: no readings\n0 of 32 stakes are not refused", self.stake("report", empty))


class Page(OnGlacier):
    """The page in a browser, and a stake's picture and page."""

    @classmethod
    def setUpClass(cls):
        super().setUpClass()
        cls.browser = Browser()
        cls.browser.__enter__()
        cls.addClassCleanup(cls.browser.__exit__)

    def shown(self, path, width):
        self.browser.show(path, width)
        self.assertEqual(self.browser.requested, ["file://" + path])
        self.assertEqual(self.browser.ask(COMPLAINTS), [], width)
        self.assertEqual(self.browser.ask(ONE_BY_ONE), [])

    def text(self, selector):
        return [" ".join(text.split()) for text in self.browser.ask("[...document.querySelectorAll('%s')].map((e) => e.textContent)" % selector)]

    def test_a_small_picture_of_each_stake(self):
        self.made()
        season = SeasonFile.open(self.glacier)
        # a stake whose report is refused
        season.add_rows([NewRow("0", "0x1.fffffffffffffp+1023")] * 4, stake=12)
        path = os.path.join(self.folder, "g.html")
        self.stake("page", self.glacier, path)
        book = Book()
        book.extend([0.0] * 4, [sys.float_info.max] * 4)
        with self.assertRaises(Refused) as caught:
            book.report(Settings(bound=2))
        refused = caught.exception
        for width in (360, 700, 1280):
            self.shown(path, width)
        self.assertEqual(self.text(".stakes h3"), ["Stake 0", "Stake 3", "Stake 9", "Stake 12"])
        for stake in (0, 3, 9):
            report = SeasonFile.open(self.alone(stake)).report()
            readings = "1 reading" if report.n == 1 else f"{report.n} readings"
            said = f"{readings}, degree {report.degree} by BIC, {sum(report.outliers)} outside the band."
            self.assertEqual(self.text(f"#stake-{stake} figcaption"), [said])
            marks = self.browser.ask(f"[...document.querySelectorAll('#stake-{stake} [id^=mark-r]')].map((e) => e.id)")
            self.assertEqual(sorted(marks), sorted(f"mark-{r.name}" for r in season.stake(stake).readings))
            self.assertEqual(self.browser.ask(f"document.querySelectorAll('#stake-{stake} svg[role=img]').length"), 1)
        self.assertEqual(self.text("#stake-12 figcaption"), [f"4 readings, no report. Refusal {refused.number}: {WORDS[refused.number]}."])
        self.assertIn("Stakes 1 to 2, 4 to 8, 10 to 11, 13 to 31: no readings.", self.text("#summary p")[0])
        self.assertEqual(self.text("header .short"), ["14 readings, 3 of 32 stakes with a report."])
        self.assertEqual(self.text("#reports tbody th"), ["0", "3", "9", "12"])
        self.assertEqual(self.text("#reports tbody tr:last-child td"), ["4", "none", "", ""])

    def test_all_stakes_and_none(self):
        season = SeasonFile.create(self.glacier, Settings(bound=1), glacier=True)
        for width in (360, 1280):
            self.stake("page", self.glacier, self.glacier + ".html")
            self.shown(self.glacier + ".html", width)
        self.assertIn("Stakes 0 to 31: no readings.", self.text("#summary p")[0])
        season.add_rows([NewRow(f"{i}.5", str(200 + i * 7 % 5 + 30 * i), stake=stake) for stake in range(STAKES) for i in range(5)])
        self.stake("page", self.glacier, self.glacier + ".html")
        for width in (360, 1280):
            self.shown(self.glacier + ".html", width)
        self.assertEqual(self.browser.ask("document.querySelectorAll('.stakes svg').length"), STAKES)
        self.assertEqual(self.text("header .short"), ["160 readings, 32 of 32 stakes with a report."])

    def test_a_stakes_own_page_and_picture(self):
        self.made()
        alone = self.alone(0)
        files = [os.path.join(self.folder, name) for name in ("a.html", "b.html", "a.svg", "b.svg")]
        for file, path, more in zip(files, (self.glacier, alone) * 2, (("--stake", "0"), ()) * 2):
            self.stake("page" if file.endswith("html") else "plot", path, file, *more)
        self.shown(files[0], 1280)
        self.assertEqual(self.text("h1"), ["g, stake 0"])
        pages = [Path(file).read_text("utf-8") for file in files]
        # the title, the file's name, the readings' names and the history are each one's own; all numbers are the same
        for ours, theirs in ((pages[0].split('id="history"')[0], pages[1].split('id="history"')[0]), pages[2:]):
            plain = [re.sub(r"\br\d+\b", "r", text.replace("g, stake 0", "only0").replace("g.stake", "only0.stake")) for text in (ours, theirs)]
            self.assertEqual(plain[0], plain[1])


if __name__ == "__main__":
    unittest.main()
