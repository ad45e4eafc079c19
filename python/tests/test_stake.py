"""The command `stake`, run as a program, over the library that is found (STAKEBOOK_LIBRARY, or `make`'s in the checkout).

    python3 python/tests/test_stake.py
    python3 python/tests/test_stake.py --guide      writes the answers of the session in docs/STAKE.md anew

A report's numbers are compared with the judge's (tests/season.answers), words of refusals with include/refusals.txt.

The command always runs in a process of its own, with its own output and exit status. A whole season is run from the script; the many short calls of
other tests are forked, which spares each of them the start of Python.
"""

import contextlib
import dataclasses
import io
import json
import os
import pty
import re
import resource
import shlex
import shutil
import signal
import struct
import subprocess
import sys
import tempfile
import textwrap
import time
import traceback
import types
import unittest
from pathlib import Path
from unittest import mock

ROOT = Path(__file__).resolve().parents[2]
sys.path.insert(0, str(ROOT / "python"))

import stakebook
from stakebook import Book, Refused, Settings, _library, command, mirror
from stakebook.season import SeasonFile

STAKE = str(ROOT / "bin" / "stake")
LIBRARY = _library.library().path
WORDS = dict(line.split("\t") for line in (ROOT / "include" / "refusals.txt").read_text(encoding="utf-8").splitlines())
GUIDE = ROOT / "docs" / "STAKE.md"
EPOCH = "1773478800"
WRITE, FSYNC = os.write, os.fsync


def environment(**more):
    return {**os.environ, "STAKEBOOK_LIBRARY": LIBRARY, "SOURCE_DATE_EPOCH": EPOCH, "PYTHONPATH": "", **more}


def forked(words, folder, prepare=None, terminal=None):
    """The command in a process of its own that begins where this one is, with all modules loaded. Standard error may be a terminal."""
    with tempfile.TemporaryFile() as out, tempfile.TemporaryFile() as err:
        child = os.fork()
        if not child:
            status = 70
            try:
                os.dup2(out.fileno(), 1)
                os.dup2(err.fileno() if terminal is None else terminal, 2)
                sys.stdout, sys.stderr = open(1, "w", encoding="utf-8", closefd=False), open(2, "w", encoding="utf-8", closefd=False)
                os.chdir(folder)
                os.environ["SOURCE_DATE_EPOCH"] = EPOCH
                if prepare is not None:
                    prepare()
                try:
                    status = command.main(list(words))
                except SystemExit as error:
                    status = error.code
            except BaseException:
                traceback.print_exc()
            finally:
                sys.stdout.flush()
                sys.stderr.flush()
                os._exit(status)
        end = time.monotonic() + 60
        while True:
            done, how = os.waitpid(child, os.WNOHANG)
            if done:
                break
            if time.monotonic() > end:
                os.kill(child, signal.SIGKILL)
            time.sleep(0.001)
        out.seek(0)
        err.seek(0)
        status = os.WEXITSTATUS(how) if os.WIFEXITED(how) else -os.WTERMSIG(how)
        return subprocess.CompletedProcess(words, status, out.read(), err.read())


def started(words, folder, **more):
    """The script."""
    return subprocess.run([sys.executable, STAKE, *words], stdout=subprocess.PIPE, stderr=subprocess.PIPE, env=environment(**more), cwd=folder, timeout=60)


def double(bits):
    return struct.unpack(">d", bytes.fromhex(bits))[0]


class Command(unittest.TestCase):
    def setUp(self):
        folder = tempfile.TemporaryDirectory()
        self.addCleanup(folder.cleanup)
        self.folder = folder.name
        self.season = os.path.join(folder.name, "s.stake")

    def file(self, name, text):
        path = os.path.join(self.folder, name)
        with open(path, "wb") as file:
            file.write(text if isinstance(text, bytes) else text.encode())
        return path

    def data(self):
        with open(self.season, "rb") as file:
            return file.read()

    #: Whether calls are forked, or run from the script.
    forks = True

    def run_stake(self, *words, status=0, prepare=None):
        done = forked(words, self.folder, prepare) if self.forks else started(words, self.folder)
        self.assertEqual(done.returncode, status, (words, done.stdout, done.stderr))
        self.assertNotIn(b"Traceback", done.stderr)
        return done

    def stake(self, *words, **options):
        """What it printed."""
        done = self.run_stake(*words, **options)
        self.assertEqual(done.stderr, b"", words)
        return done.stdout.decode()

    def fails(self, *words, status=1, **options):
        """What it said on standard error."""
        done = self.run_stake(*words, status=status, **options)
        self.assertEqual(done.stdout, b"", words)
        return done.stderr.decode()

    def json(self, *words):
        return json.loads(self.stake(*words, "--json"), parse_constant=self.fail)

    def made(self, *rows, **settings):
        """A season with these readings, made without the command."""
        season = SeasonFile.create(self.season, command.SettingsText(**settings))
        if rows:
            from stakebook.season import NewRow

            season.add_rows([NewRow(*row) for row in rows])
        return season


def judged(name, until):
    """Calls of a list of tests/ with the judge's answers, up to a call."""
    answers = iter((ROOT / "tests" / f"{name}.answers").read_text().splitlines())
    pairs = []
    for call in (ROOT / "tests" / f"{name}.calls").read_text().splitlines():
        if call and not call.startswith("#"):
            pairs.append((call, next(answers)))
            if call == until:
                return pairs
    raise AssertionError(until)


class WholeSeason(Command):
    forks = False

    def test_from_a_table_to_a_report_with_the_judges_numbers(self):
        pairs = judged("season", "show sums 0 272")
        adds = [tuple(map(double, call.split()[1:3])) for call, _ in pairs if call.startswith("add ")]
        (frame,) = [bytes.fromhex(call.split()[1]) for call, _ in pairs if call.startswith("frame ")]
        logged = list(struct.iter_unpack(">2d", frame[3:]))
        lines = ["\ufeffname;Tiefe [m];Dichte;note"] + [f"P{i};{x!r};{y!r};".replace(".", ",") for i, (x, y) in enumerate(adds)]
        lines.insert(3, "PX;NA;230,5;lost")
        self.file("march.csv", "\r\n".join(lines) + "\r\n")
        self.file("logger.tsv", "when\tx\ty\n" + "".join(f"t\t{x!r}\t{y!r}\n" for x, y in logged))

        reports = [(call, [answer for _, answer in pairs[i : i + 7]]) for i, (call, _) in enumerate(pairs) if call.startswith("report ")]
        self.assertIn("a new season", self.stake("new", "s.stake", "--bound", "1", "--criterion", "aic", "--pruning", "positive"))
        said = self.stake("import", "s.stake", "march.csv")
        self.assertIn("6 readings saved from march.csv, r1 to r6", said)
        self.assertIn("x 'Tiefe [m]', y 'Dichte', weight 1 (semicolon, decimal comma)", said)
        self.assertIn("1 line left out, where a number is missing: 4", said)
        self.compare(reports[0], self.json("report", "s.stake"))
        self.assertIn("5 readings saved from logger.tsv, r7 to r11", self.stake("import", "s.stake", "logger.tsv"))
        self.stake("settings", "s.stake", "--bound", "3")
        self.compare(reports[1], self.json("report", "s.stake"))
        self.assertIn("r4 saved: y 278, was 287", self.stake("correct", "s.stake", "r4", "278", "--note", "mistyped"))
        self.compare(reports[2], self.json("report", "s.stake"))
        self.assertIn("r5 withdrawn and saved; 10 readings", self.stake("withdraw", "s.stake", "r5"))

        # the book is the judge's too, to the last bit of the sums
        book = SeasonFile.open(self.season).book
        shown = {answer.split()[0]: list(map(double, answer.split()[1:])) for _, answer in pairs[-3:]}
        self.assertEqual((book.xs, book.ys, book.sums), (shown["xs"][:10], shown["ys"][:10], shown["sums"]))

        listed = self.stake("list", "s.stake")
        self.assertRegex(listed, r"r4 +P3 +0\.7 +278 +1 +corrected, y was 287(\.0)? +march\.csv:6")
        self.assertRegex(listed, r"r5 +P4 +0\.9 +290\.0 +1 +withdrawn +march\.csv:7")
        self.assertIn("10 readings, 1 withdrawn", listed)
        self.assertIn("import of 5 readings (r7 to r11) from logger.tsv", self.stake("list", "s.stake", "--history"))

        text = self.stake("report", "s.stake", "--at", "1", "--bound", "2")
        self.assertIn("10 readings, 1 withdrawn; degrees up to 2, AIC, P95, no tolerance, only positive terms pruned", text)
        self.assertIn("x is 'Tiefe [m]', y is 'Dichte'", text)
        self.assertIn("8 degrees of freedom: 10 readings less 2 coefficients", text)

        found = self.stake("check", "s.stake")
        self.assertIn("none damaged", found)
        self.assertEqual(found.count("10 x's, y's and weights and 272 sums are the same, bit for bit"), 2)

    def test_the_sessions_of_the_guide(self):
        for which in range(SESSIONS):
            for words, expected, printed in guide_session(self.folder, which):
                self.assertEqual(printed, expected, words)

    def compare(self, report, printed):
        """A report's JSON with what the judge printed: report, coefficients, errors, pruned, lower, upper, outliers."""
        (call, answers), told = report, printed["report"]
        self.assertEqual(told["settings"]["bound"], int(call.split()[2]))
        _, degree, solved, outliers, pruned = map(int, answers[0].replace("report", "0").split())
        self.assertEqual((told["degree"], told["solved"], sum(told["outliers"]), sum(told["pruned"])), (degree, solved, outliers, pruned))
        shown = {answer.split()[0]: answer.split()[1:] for answer in answers[1:]}
        n, k = told["n"], degree + 1
        for name, count in (("coefficients", k), ("errors", k), ("lower", n), ("upper", n)):
            self.assertEqual(told[name], list(map(double, shown[name][:count])), name)
        self.assertEqual(told["outliers"], [mark == "1" for mark in shown["outliers"][:n]])
        outside = [name for name, mark in zip(printed["readings"], shown["outliers"]) if mark == "1"]
        self.assertEqual(printed["outside"], outside)
        self.assertEqual(told["df"], n - k)
        self.assertEqual(printed["scores"]["degree"], degree)
        self.assertEqual(printed["scores"]["solved"], solved)


class Seasons(Command):
    def test_what_a_report_says(self):
        # a parabola with noise; r6 lies far off
        ys = [1.0, 2.1, 4.9, 10.2, 16.9, 46.0, 37.1, 50.0, 64.9, 82.1]
        self.made(*[(str(x), str(y)) for x, y in enumerate(ys)], bound="3")
        told = self.json("report", "s.stake")
        scores = told["scores"]
        rows = {row["degree"]: row["score"] for row in scores["degrees"]}
        self.assertEqual(sorted(rows), [0, 1, 2, 3])
        self.assertEqual(scores["least"], min(rows.values()))
        self.assertEqual(scores["within"], [degree for degree in sorted(rows) if rows[degree] - scores["least"] <= 2])
        self.assertEqual(scores["degree"], scores["within"][0])
        self.assertEqual(told["report"]["degree"], scores["degree"])
        text = self.stake("report", "s.stake")
        self.assertIn(f"Degree {scores['degree']}: the lowest whose BIC is at most 2 above the least of the degrees 0 to 3.", text)
        for degree, score in rows.items():
            cells = [re.escape(format(value, ".6g")) for value in (score, score - scores["least"])]
            self.assertRegex(text, rf"\n  {degree} +{cells[0]} +{cells[1]}\b")
        self.assertRegex(text, rf"\n  {scores['degree']} .*chosen\n")
        for name, c, e, t, pruned in zip(("1", "x", "x^2", "x^3"), *[told["report"][key] for key in ("coefficients", "errors", "t", "pruned")]):
            self.assertEqual(t, abs(c) / e)
            mark = " +pruned" if pruned else ""
            self.assertRegex(text, rf"\n  {re.escape(name)} +{re.escape(f'{c:.6g}')} +{re.escape(f'{e:.6g}')} +{re.escape(f'{t:.6g}')}{mark}\n")
        self.assertIn("is where the curve itself lies, not where single readings do", text)
        self.assertIn("r6", told["outside"])
        self.assertRegex(text.replace("\n", " "), rf"Outside it lies? {len(told['outside'])} of 10 readings: {', '.join(told['outside'])}\.")
        self.assertEqual(len(told["warnings"]), 1)
        self.assertIn("Take care:\n- ", text)
        # a reading is named by its name, whatever its place has become
        self.stake("withdraw", "s.stake", "r1")
        told = self.json("report", "s.stake")
        self.assertEqual(told["readings"][:2], ["r2", "r3"])
        self.assertEqual(told["outside"], [name for name, outside in zip(told["readings"], told["report"]["outliers"]) if outside])
        self.assertIn("r6", told["outside"])
        self.assertIn(f"readings: {', '.join(told['outside'])}.", " ".join(self.stake("report", "s.stake").split()))
        self.assertIn("mean curve", " ".join(text.split()))

    def test_where_numbers_can_mislead(self):
        self.made(*[(str(x), str(x * 3)) for x in range(8)])
        (first, *_) = self.json("report", "s.stake")["warnings"]
        self.assertIn("The bound 'relaxed' allows degree 0 alone at 8 readings", first)
        os.unlink(self.season)
        # the header: years 2000 to 2020 leave every degree from 3 on unsolved; less their middle, none
        ys = [(year - 2010) ** 2 + (year * 7919 % 13) for year in range(2000, 2021)]
        self.made(*[(str(year), str(y)) for year, y in zip(range(2000, 2021), ys)], bound="5")
        told = self.json("report", "s.stake")
        self.assertIn("Of the degrees 0 to 5, 3 could not be solved (3, 4, 5): x lies far from 0 beside its spread. Subtract the middle", told["warnings"][0])
        self.assertIn("unsolved", self.stake("scores", "s.stake"))
        os.unlink(self.season)
        self.made(*[(str(year - 2010), str(y)) for year, y in zip(range(2000, 2021), ys)], bound="5")
        self.assertNotIn("solved", str(self.json("report", "s.stake")["warnings"]))

    def test_the_break_in_two_and_validation(self):
        self.made(*[(str(x), y) for x, y in enumerate("0 1.1 1.9 3.05 2.95 2.1 0.9 0.02".split())], bound="1", criterion="aic")
        told = self.json("report", "s.stake", "--split", "--folds", "4", "--at", "0,5", "--at", "7")
        # include/stakebook.h has the break, its total and its tests
        self.assertEqual([told["split"][key] for key in ("at", "total", "tests")], [3, -113.35496093152223, 30])
        self.assertEqual([band["x"] for band in told["bands"]], [0.5, 7.0])
        self.assertEqual(told["validation"]["folds"], 4)
        self.assertIn("One side of the break has 3 readings", told["warnings"][-1])
        text = self.stake("report", "s.stake", "--split", "--folds", "4", "--at", "0,5")
        self.assertIn("The list breaks between r3 and r4 (total -113.355, 30 pivot tests)", text)
        self.assertIn("8 readings in 4 folds", text)
        self.assertRegex(text, r"\nat x .*\n0\.5 ")

    def test_settings_are_shown_changed_and_taken_back(self):
        self.stake("new", "s.stake", "--confidence", "p99", "--tolerance", "absolute=2,5")
        first = self.json("settings", "s.stake")
        self.assertEqual(first, {"bound": "relaxed", "criterion": "bic", "confidence": "P99", "tolerance": ["absolute", 2.5], "pruning": "size"})
        before = self.data()
        self.stake("settings", "s.stake", "--bound", "relaxed")
        self.assertEqual(self.data(), before)
        self.stake("settings", "s.stake", "--bound", "4", "--confidence", "1,96", "--tolerance", "none", "--criterion", "aic", "--pruning", "positive")
        self.assertEqual(self.json("settings", "s.stake"), {"bound": 4, "criterion": "aic", "confidence": 1.96, "tolerance": None, "pruning": "positive"})
        self.assertIn(b"settings bound 4 criterion aic confidence 1.96 tolerance none pruning positive", self.data())
        self.stake("undo", "s.stake")
        self.assertEqual(self.json("settings", "s.stake"), first)

    def test_numbers_below_zero_and_exact_ones(self):
        self.stake("new", "s.stake")
        self.stake("add", "s.stake", "-0,5", "-212.5")
        self.stake("add", "s.stake", "-0x1.8p+1", "-0", "--weight", "0x1p-1")
        self.stake("correct", "s.stake", "r1", "-1,25")
        listed = self.json("list", "s.stake")["readings"]
        shown = [(r["x_text"], r["y_text"], r["weight_text"], r["x"], r["y"]) for r in listed]
        self.assertEqual(shown, [("-0.5", "-1.25", "1", -0.5, -1.25), ("-0x1.8p+1", "-0", "0x1p-1", -3.0, 0.0)])

    def test_every_change_keeps_its_source_and_note(self):
        self.file("a.csv", "x,y\n1,2\n")
        kept = ("--source", "book 3", "--note", "by Ann")
        self.stake("new", "s.stake", *kept)
        for words in ("import s.stake a.csv", "add s.stake 1 2", "correct s.stake r1 3", "withdraw s.stake r1", "settings s.stake --bound 1", "undo s.stake"):
            self.stake(*words.split(), *kept)
        told = self.json("list", "s.stake")
        self.assertEqual({(call["source"], call["note"]) for call in told["history"]}, {("book 3", "by Ann")})
        self.assertEqual(len(told["history"]), 7)
        self.assertEqual([reading["source"] for reading in told["readings"]], ["book 3:2", "book 3"])

    def test_the_example_of_the_guide_for_python(self):
        text = GUIDE.read_text(encoding="utf-8")
        code = text.split("```python\n")[1].split("```")[0]
        done = subprocess.run([sys.executable, "-c", code], stdout=subprocess.PIPE, env=environment(PYTHONPATH=str(ROOT / "python")), cwd=self.folder)
        self.assertEqual((done.returncode, done.stdout.splitlines()[0][:10]), (0, b"2 readings"))

    def test_a_table_on_standard_input(self):
        self.stake("new", "s.stake")
        done = subprocess.run([sys.executable, STAKE, "import", "s.stake", "-"], input=b"x\ty\n1\t2\n", stdout=subprocess.PIPE, env=environment(), cwd=self.folder)
        self.assertIn(b"1 reading saved from standard input, r1", done.stdout)
        self.assertEqual(self.json("list", "s.stake")["readings"][0]["source"], "standard input:2")

    def test_a_note_does_not_move_the_cursor(self):
        self.made()
        self.stake("add", "s.stake", "1", "2", "--note", "a\x1b[2J\nb\u202e", "--source", "Föhn")
        listed = self.stake("list", "s.stake")
        self.assertIn("Föhn    a\\x1b[2J\\nb\\u202e\n", listed)
        self.assertEqual(self.json("list", "s.stake")["readings"][0]["note"], "a\x1b[2J\nb\u202e")

    def test_what_a_list_has_for_programs(self):
        self.made(("1", "2"), ("3", "4", "2"))
        self.stake("correct", "s.stake", "r1", "5", "--note", "n", "--source", "s")
        self.stake("undo", "s.stake")
        told = self.json("list", "s.stake")
        self.assertEqual(
            told["readings"][1],
            {
                **dict(name="r2", called=None, x_text="3", y_text="4", weight_text="2", x=3.0, y=4.0, weight=2.0),
                **dict(state="stands", index=1, was=[], source=None, note=None, line=5),
            },
        )
        calls = [(c["line"], c["lines"], c["call"], c["undone"]) for c in told["history"]]
        self.assertEqual(calls, [(2, 1, "new", False), (3, 3, "import", False), (6, 1, "correct", True), (7, 1, "undo", False)])
        self.assertEqual([told["history"][2][key] for key in ("name", "text", "note", "source")], ["r1", "correct r1: y 5, was 2", "n", "s"])


@unittest.skipUnless(_library.library().surface_report, "the library has no surfaces")
class SurfaceSeason(Command):
    """Depth and elevation, end to end."""

    def setUp(self):
        super().setUp()
        self.stake("new", self.season, "--surface", "--bound", "4")
        # density = 200 + 100 depth - 10 elevation, but for one reading
        rows = [(x, z, 200 + 100 * x - 10 * z + (40 if (x, z) == (2, 1) else 0)) for x in range(4) for z in range(4)]
        self.table = self.file("pits.csv", "depth;elevation;density\n" + "".join(f"{x},5;{z};{y}\n" for x, z, y in rows))

    def test_session(self):
        said = self.stake("import", self.season, self.table, "--z", "elevation")
        self.assertIn("16 readings saved from pits.csv, r1 to r16", said)
        self.assertIn("z 'elevation'", said)
        self.assertIn("r17 saved: x 1.5, z 2.5, y 275; 17 readings", self.stake("add", self.season, "1,5", "275", "--z", "2,5"))
        self.assertIn("y 325", self.stake("correct", self.season, "r17", "325"))
        self.stake("withdraw", self.season, "r17")
        listed = self.stake("list", self.season).splitlines()
        self.assertEqual(listed[0].split(), ["name", "x", "z", "y", "state", "source", "note"])
        self.assertEqual(listed[1].split()[:4], ["r1", "0.5", "0", "200"])
        report = self.json("report", self.season, "--bound", "1", "--at", "1", "--z", "2", "--tolerance", "absolute=20")
        self.assertEqual((report["report"]["degree"], report["report"]["terms"], report["scores"]), (1, ["1", "x", "z"], None))
        self.assertEqual(report["outside"], ["r10"])
        # least squares of the plane by hand: the odd reading's 40 moves it by 40 / 16 and by its lever arms
        level = 40 / 16
        by_x, by_z = 40 * 0.5 / 20, 40 * -0.5 / 20
        expected = 200 - 50 + 100 - 20 + level + by_x * (1 - 2) + by_z * (2 - 1.5)
        self.assertAlmostEqual(report["bands"][0]["value"], expected, places=9)
        text = self.stake("report", self.season, "--bound", "1", "--at", "1", "--z", "2")
        for words in ("Total degree 1: the lowest whose BIC", "The surface (x is 'depth', z is 'elevation', y is 'density'):", "less 3 coefficients"):
            self.assertIn(words, text)
        self.assertIn("x's, z's and y's are the same, bit for bit", self.stake("check", self.season))
        exported = self.stake("export", self.season).splitlines()
        self.assertEqual((exported[0], exported[1]), ("reading,x,y,z,name,source,note", "r1,0.5,200,0,,pits.csv:2,"))
        self.assertIn("a new season of a surface", self.stake("list", self.season, "--history"))

    def test_mirror_image(self):
        self.stake("import", self.season, self.table, "--z", "elevation")
        self.stake("correct", self.season, "r3", "171,25")
        self.stake("withdraw", self.season, "r8")
        before = self.data()
        said = self.stake("mirror-check", self.season)
        self.assertIn("18 calls, 15 readings, and the same with the sign of every y changed; degrees up to 4", said)
        self.assertIn("  15 bands: lower and upper have changed places and sign\n", said)
        self.assertTrue(said.endswith("\nAll agree.\n"), said)
        self.assertEqual(self.data(), before)

        def not_mirrored():
            mirror._image = lambda calls: calls

        self.assertIn("They DIFFER, first in this: coefficient 0: ", self.run_stake("mirror-check", self.season, status=1, prepare=not_mirrored).stdout.decode())

    def test_csv_comes_back(self):
        self.stake("import", self.season, self.table, "--z", "elevation")
        out = self.file("again.csv", self.stake("export", self.season))
        first = SeasonFile.open(self.season).book.bits()
        self.season += "2"
        self.stake("new", self.season, "--surface")
        self.stake("import", self.season, out, "--z", "z")
        self.assertEqual(SeasonFile.open(self.season).book.bits(), first)

    def test_what_a_surface_has_not(self):
        self.stake("import", self.season, self.table, "--z", "elevation")
        before = self.data()
        for status, words, call in (
            (1, "has a z: give --z", ("add", self.season, "1", "2")),
            (1, "no weight", ("add", self.season, "1", "2", "--z", "3", "--weight", "2")),
            (1, "has a z: give --z", ("import", self.season, self.table)),
            (1, "no column is headed 'height'", ("import", self.season, self.table, "--z", "height")),
            (1, "can't be two of x, y, z", ("import", self.season, self.table, "--z", "depth")),
            (1, "no scores of a surface", ("scores", self.season)),
            (1, "no place for a z", ("export", self.season, "--format", "frame")),
            (1, "no place for a z", ("export", self.season, "--format", "calls")),
            (1, f"refused by 9: {WORDS['9']}", ("report", self.season, "--at", "1", "--z", "9")),
            (1, f"refused by 8: {WORDS['8']}", ("settings", self.season, "--bound", "5")),
            (1, f"refused by 8: {WORDS['8']}", ("report", self.season, "--bound", "5")),
            (2, "give a --z for each --at", ("report", self.season, "--at", "1")),
            (2, "neither validated nor broken", ("report", self.season, "--split")),
            (2, "neither validated nor broken", ("report", self.season, "--folds", "2")),
        ):
            self.assertIn(words, self.fails(*call, status=status))
            self.assertEqual(self.data(), before)

    def test_a_number_that_is_none(self):
        path = self.file("bad.csv", "x;z;y\n1;1e3;2\n")
        self.assertIn("bad.csv:2: column 'z': '1e3': refused by 13", self.fails("import", self.season, path, "--z", "z"))

    def test_a_curve_has_no_z(self):
        self.season += "2"
        self.stake("new", self.season, "--bound", "1")
        self.assertIn("a reading of a curve has no z", self.fails("add", self.season, "1", "2", "--z", "3"))
        self.assertIn("a reading of a curve has no z", self.fails("import", self.season, self.table, "--z", "elevation"))
        self.stake("add", self.season, "1", "2")
        self.assertIn("a curve has no z", self.fails("report", self.season, "--z", "3", status=2))


SESSIONS = 2  # of a season, and of a glacier


def guide_blocks(which):
    """The guide before a session, the session, and what follows."""
    text = GUIDE.read_text(encoding="utf-8")
    begin = [found.end() for found in re.finditer("```console\n", text)][which]
    end = text.index("```", begin)
    return text[:begin], text[begin:end], text[end:]


def guide_session(folder, which=0):
    """Each command of a session of the guide, what the guide says that it prints, and what it prints."""
    for part in re.split(r"^\$ ", guide_blocks(which)[1], flags=re.M)[1:]:
        words, _, expected = part.partition("\n")
        split = shlex.split(words)
        if split[0] == "cat":
            Path(folder, split[1]).write_text(expected, encoding="utf-8")
            printed = expected
        else:
            done = forked(split[1:], folder)
            # no command of the session says something on both
            printed = (done.stdout + done.stderr).decode()
        yield words, expected, printed


def write_guide():
    for which in range(SESSIONS):
        before, _, after = guide_blocks(which)
        with tempfile.TemporaryDirectory() as folder:
            session = "".join(f"$ {words}\n{printed}" for words, _, printed in guide_session(folder, which))
        GUIDE.write_text(before + session + after, encoding="utf-8")


class Refusals(Command):
    """Each refusal that the command can reach: all but 1 (it always lends enough), 2 and 3 (it gives no frames) and 4 (it reads no number that is not
    finite; test_season.py has that of Python programs). Words are those of include/refusals.txt."""

    def refused(self, number, *words, where="", made=True):
        before = self.data() if made else None
        said = self.fails(*words)
        self.assertIn(f"{where}refused by {number}: {WORDS[str(number)]}", said)
        self.assertTrue(said.endswith("stake: the season is unchanged\n" if made else "stake: no season was made\n"), said)
        self.assertEqual(len(said.splitlines()), 2, said)
        if made:
            self.assertEqual(self.data(), before)
        else:
            self.assertFalse(os.path.exists(self.season))

    def test_5_more_readings_than_a_book_holds(self):
        self.stake("new", "s.stake")
        self.file("many.csv", "x,y\n" + "".join(f"{i},{i}\n" for i in range(4097)))
        self.refused(5, "import", "s.stake", "many.csv", where="many.csv:4098: ")
        self.file("all.csv", "x,y\n" + "".join(f"{i},{i}\n" for i in range(4096)))
        self.assertIn("4,096 readings saved from all.csv, r1 to r4096", self.stake("import", "s.stake", "all.csv"))
        self.refused(5, "add", "s.stake", "1", "2")

    def test_6_a_name_that_is_not_in_the_book(self):
        self.made(("1", "2"), ("3", "4"))
        self.refused(6, "correct", "s.stake", "r3", "1")
        self.assertIn("there is no reading r3; the last one is r2", self.fails("withdraw", "s.stake", "r3"))
        self.stake("withdraw", "s.stake", "r1")
        self.assertIn("r1 was withdrawn on line 6", self.fails("correct", "s.stake", "r1", "1"))
        self.stake("add", "s.stake", "1", "1")
        self.stake("undo", "s.stake")
        self.assertIn("r3 was taken back by an undo", self.fails("withdraw", "s.stake", "r3"))

    def test_7_too_few_readings(self):
        self.stake("new", "s.stake", "--bound", "1")
        for words in (("report",), ("scores",)):
            self.refused(7, *words, "s.stake")
        self.stake("add", "s.stake", "1", "2")
        self.stake("add", "s.stake", "2", "3")
        self.refused(7, "report", "s.stake", "--split")
        self.refused(7, "report", "s.stake", "--folds", "1")
        self.refused(7, "report", "s.stake", "--folds", "3")

    def test_8_a_bound_above_15(self):
        self.refused(8, "new", "s.stake", "--bound", "16", made=False)
        self.made(*[(str(i), str(i % 7)) for i in range(136)], bound="15")
        self.refused(8, "settings", "s.stake", "--bound", "16")
        self.refused(8, "report", "s.stake", "--bound", "aggressive")
        self.refused(8, "scores", "s.stake", "--bound", "aggressive")

    def test_9_a_band_outside_the_readings(self):
        self.made(("1", "2"), ("3", "4"), ("5", "7"), bound="1")
        self.refused(9, "report", "s.stake", "--at", "5,1")

    def test_10_the_degree_that_validation_chose_is_unsolved(self):
        # tests/season.calls, "refused by 10"
        self.made(("0", "0"), ("1", "1"), ("2", "4"), ("3", "9"), ("4", "16"), ("1000000000", "0"), bound="2", criterion="aic")
        self.refused(10, "report", "s.stake", "--folds", "2")

    def test_11_no_degree_is_chosen(self):
        # tests/season.calls, "refused by 11"
        self.made(*[("0", "0x1.fffffffffffffp+1023")] * 4, bound="1", criterion="aic")
        self.refused(11, "report", "s.stake")
        self.refused(11, "scores", "s.stake")

    def test_12_no_error_can_be_worked_out(self):
        # a frame of 15 readings for which the judge refuses a report up to degree 14 by 12 (found by the comparison)
        frame = bytes.fromhex(
            "00F101BFD67BA3634610D03FB17DDF506B62E0BFCFB0CBA5C8C50CBFCCEB46D4C6E040BFC259191F7B403C3FAB52E8E8340200BFA2C64312"
            "FC22C03FE8A09EACF37A323FB270FB4F23DE40BFEFAC9E4357D8BC3FC5D9814990F2A63FC50974368F9B283FD1521E6ADF689D3FCF222DD3"
            "8223F83FD7A69071514A163FD0DB07F0EBF75C3FDEC537A0314B583FDE8B4EE37257E43FE309B9F8DBDBCA3FE4DC8F8C6004783FE65DEDC6"
            "C87CC8BFD3C1C5E5C06F603FE93AFE6B0CE91E3FE9FBC3E4015A7A3FECD1B2B34A87233FEADF06099153EC3FEFE8DEA5E71CBBBF9292E26A"
            "9B9BC03FF19E25161AA084BFA980B9FC1B7C80"
        )
        self.made(*[(x.hex(), y.hex()) for x, y in struct.iter_unpack(">2d", frame[3:])], bound="14", criterion="aic")
        self.refused(12, "report", "s.stake")
        said = self.stake("mirror-check", "s.stake")
        self.assertIn(f"  the report: both refused by 12: {WORDS['12']}\n", said)
        self.assertTrue(said.endswith("\nAll agree.\n"), said)

    def test_13_and_14_numbers_that_are_none(self):
        self.stake("new", "s.stake")
        self.stake("add", "s.stake", "1", "2")
        self.refused(13, "add", "s.stake", "1", "4l2", where="'4l2': ")
        self.refused(13, "add", "s.stake", "-1e3", "2", where="'-1e3': ")
        self.refused(14, "add", "s.stake", "1", "1234567890123456", where="'1234567890123456': ")
        self.refused(13, "add", "s.stake", "1", "2", "--weight", "1/2")
        self.refused(13, "correct", "s.stake", "r1", "+3")
        self.refused(13, "report", "s.stake", "--at", "")
        self.refused(13, "settings", "s.stake", "--tolerance", "absolute=x")
        self.refused(14, "settings", "s.stake", "--confidence", "1.00000000000000000000001")
        self.file("bad.csv", "x;y\n1;2\n3;4.5.6\n")
        self.refused(13, "import", "s.stake", "bad.csv", where="bad.csv:3: column 'y': '4.5.6': ")
        self.file("bad.csv", "x;y\n1;2\n1234567890123456;4\n")
        self.refused(14, "import", "s.stake", "bad.csv", where="bad.csv:3: column 'x': '1234567890123456': ")

    def test_15_a_weight_that_is_not_above_zero(self):
        self.stake("new", "s.stake")
        self.refused(15, "add", "s.stake", "1", "2", "--weight", "0")
        self.refused(15, "add", "s.stake", "1", "2", "--weight", "-0,5")
        self.file("bad.csv", "x;y;w\n1;2;1\n1;2;NA\n1;2;0\n3;4;1\n")
        self.refused(15, "import", "s.stake", "bad.csv", "--weight", "w", where="bad.csv:4: ")

    def test_16_a_limit_that_is_too_low(self):
        self.made(*[(str(x), y) for x, y in enumerate("0 1.1 1.9 3.05 2.95 2.1 0.9 0.02".split())], bound="1", criterion="aic")
        self.refused(16, "report", "s.stake", "--split", "--limit", "29")
        self.stake("report", "s.stake", "--split", "--limit", "30")

    def test_a_refusal_for_programs(self):
        self.stake("new", "s.stake")
        for words in (("report",), ("scores",)):
            done = self.run_stake(*words, "s.stake", "--json", status=1)
            self.assertEqual(json.loads(done.stdout), {"refused": {"number": 7, "words": WORDS["7"]}})


class MirrorImage(Command):
    """Document 02, E13: with the sign of every y changed, what is equal stays equal, and the rest changes sign."""

    ROWS = [("0.1", "212"), ("0.3", "240.5"), ("0.5", "251"), ("0.7", "287", "2"), ("0.9", "290"), ("1.1", "322.5"), ("1.3", "331")]
    #: About zero, and bent.
    MIXED = [("-3", "7.5"), ("-2", "2.25"), ("-1", "-2"), ("0", "0"), ("1", "-1.75", "0.5"), ("2", "3"), ("3", "8.125")]

    def agree(self, *words):
        before, files = self.data(), sorted(os.listdir(self.folder))
        said = self.stake("mirror-check", "s.stake")
        self.assertTrue(said.endswith("\nAll agree.\n"), said)
        for each in words:
            self.assertIn(each, said)
        self.assertEqual((self.data(), sorted(os.listdir(self.folder))), (before, files))

    def differ(self, words, prepare):
        before = self.data()
        done = self.run_stake("mirror-check", "s.stake", status=1, prepare=prepare)
        said = done.stdout.decode()
        self.assertIn(f"\nThey DIFFER, first in this: {words}", said)
        self.assertNotIn("All agree", said)
        found = json.loads(self.run_stake("mirror-check", "s.stake", "--json", status=1, prepare=prepare).stdout)
        self.assertFalse(found["good"])
        self.assertTrue(found["difference"].startswith(words), found)
        self.assertEqual(self.data(), before)

    def test_a_season(self):
        season = self.made(*self.ROWS, bound="3", pruning="positive")
        season.correct("r3", "-1")
        season.correct("r3", "248")
        season.withdraw("r2")
        season.withdraw("r7")
        season.undo()
        self.agree(
            "s.stake: 10 calls, 6 readings, and the same with the sign of every y changed; degrees up to 3, BIC, P95, no tolerance, terms pruned by size\n",
            "  10 calls: 0 refused, the same by number\n",
            "  the number of solved degrees, 4, and the chosen degree, 1, are equal\n",
            "  2 coefficients: of opposite sign\n",
            "  6 bands: lower and upper have changed places and sign\n",
            "  6 outlier marks: equal\n",
            "  4 scores by degree: equal\n",
        )
        found = self.json("mirror-check", "s.stake")
        self.assertEqual((found["good"], found["difference"], found["calls"], found["readings"]), (True, None, 10, 6))

    def test_settings(self):
        season = self.made(*self.MIXED)
        for tolerance in (None, ("absolute", 5), ("variance", 0.1), ("measurement", 0.02)):
            for criterion in ("aic", "bic"):
                season.set(Settings(bound=4, criterion=criterion, tolerance=tolerance, confidence=1.5))
                self.agree("7 outlier marks: equal")

    def test_zeros_and_a_curve_through_all(self):
        self.made(("0", "0"), ("1", "0"), ("2", "0"), bound="2")
        self.agree("3 bands")
        self.season = os.path.join(self.folder, "t.stake")
        self.made(("0", "1"), ("1", "5"), bound="1")
        self.assertIn("All agree.", self.stake("mirror-check", "t.stake"))

    def test_refusals(self):
        self.made(bound="1")
        self.agree(f"the report: both refused by 7: {WORDS['7']}\n", f"the scores: both refused by 7: {WORDS['7']}\n")
        self.season = os.path.join(self.folder, "t.stake")
        self.made(*[("0", "0x1.fffffffffffffp+1023")] * 4, bound="1", criterion="aic")
        self.assertIn(f"the report: both refused by 11: {WORDS['11']}\n", self.stake("mirror-check", "t.stake"))

    def test_an_image_that_is_none(self):
        """Calls that are not mirrored, and a library that would not answer alike."""
        self.made(*self.ROWS, bound="3")

        def not_mirrored():
            mirror._image = lambda calls: calls

        self.differ("coefficient 0: ", not_mirrored)
        plain = Book.report, Book.scores, Book.replay

        def refuses():
            def report(book, settings):
                if book.ys[0] < 0:
                    raise Refused(12)
                return plain[0](book, settings)

            Book.report = report

        self.differ("the report: answered here, refused by 12 in the mirror image", refuses)

        def scores_less():
            def scores(book, settings):
                answer = plain[1](book, settings)
                if book.ys[0] < 0:
                    degrees = [dataclasses.replace(each, score=each.score * (1 - 2**-52 * (each.degree == 2))) for each in answer.degrees]
                    answer = dataclasses.replace(answer, degrees=degrees)
                return answer

            Book.scores = scores

        self.differ("score of degree 2: ", scores_less)

        def refuses_a_call():
            def replay(calls):
                book, answers = plain[2](calls)
                if book.ys[0] < 0:
                    answers[4] = answers[4]._replace(refusal=5)
                return book, answers

            Book.replay = replay

        self.differ("refusal of call 4: 0 here, 5 in the mirror image, where 0 is due", refuses_a_call)

    def test_every_part_of_a_report(self):
        ours = self.made(*self.ROWS, bound="3").report(Settings(bound=3))
        opposite = mirror._opposite
        theirs = dataclasses.replace(ours, coefficients=opposite(ours.coefficients), lower=opposite(ours.upper), upper=opposite(ours.lower))
        self.assertEqual(len(mirror.compare_reports(ours, theirs)), 5)

        def changed(name):
            value = getattr(theirs, name)
            if isinstance(value, int):
                return value + 1
            last = value[-1]
            return value[:-1] + [not last if isinstance(last, bool) else last * (1 + 2**-51) + 1e-9]

        for name, words in dict(
            n="readings",
            solved="solved degrees",
            degree="chosen degree",
            coefficients="coefficient 1",
            errors="error 1",
            pruned="pruned term 1",
            upper="lower end of the band, there the upper, at reading 6",
            lower="upper end of the band, there the lower, at reading 6",
            outliers="outlier mark of reading 6",
        ).items():
            with self.assertRaises(mirror._Differs, msg=name) as caught:
                mirror.compare_reports(ours, dataclasses.replace(theirs, **{name: changed(name)}))
            self.assertTrue(str(caught.exception).startswith(words), str(caught.exception))

    def test_numbers(self):
        nan, inf = float("nan"), float("inf")
        for one, other, same in (
            (0.0, -0.0, True),
            (nan, nan, True),
            (nan, -nan, True),
            (inf, inf, True),
            (inf, -inf, False),
            (nan, 0.0, False),
            (0.0, nan, False),
            (1.0, -1.0, False),
            (1.0, 1.0 + 2**-52, False),
            (0.0, 5e-324, False),
        ):
            self.assertEqual(mirror._same(one, other), same, (one, other))
        with self.assertRaisesRegex(mirror._Differs, "^error: 2 here, 1 in the mirror image$"):
            mirror._compare("error", [1.0, 2.0], [1.0])


class Wrong(Command):
    def test_usage(self):
        self.made(("1", "2"))
        before = self.data()
        for words in (
            (),
            ("erase", "s.stake"),
            ("add", "s.stake", "1"),
            ("add", "s.stake", "1", "2", "3"),
            ("add", "s.stake", "1", "2", "--wei", "3"),
            ("correct", "s.stake", "1", "2"),
            ("withdraw", "s.stake", "r0"),
            ("withdraw", "s.stake", "R1"),
            ("new", "t.stake", "--bound", "many"),
            ("new", "t.stake", "--bound", "-1"),
            ("new", "t.stake", "--confidence", "P96"),
            ("new", "t.stake", "--tolerance", "absolute"),
            ("new", "t.stake", "--criterion", "cp"),
            ("report", "s.stake", "--folds", "two"),
            ("export", "s.stake", "--format", "xls"),
            ("export", "s.stake", "--output", "s.stake"),
            ("page", "s.stake", "s.stake"),
        ):
            with self.subTest(words=words):
                said = self.fails(*words, status=2)
                self.assertIn("usage: stake", said)
        self.assertEqual(self.data(), before)
        self.assertEqual(os.listdir(self.folder), ["s.stake"])

    def test_help(self):
        text = self.stake("--help")
        for name in "new settings import add correct withdraw undo list report scores plot page export check mirror-check".split():
            self.assertRegex(text, rf"\n    {name}[ \n]")
        self.assertIn("--leave-out", self.stake("check", "--help"))

    def test_files_that_can_not_be_read(self):
        self.file("table.csv", "x,y\n1,2\n")
        self.file("cut.stake", b"stake season 1 2b18")
        self.file("crlf.stake", b"")
        for words, text in (
            (("list", "none.stake"), "none.stake: No such file or directory"),
            (("report", "."), ".: it is not a file"),
            (("report", "table.csv"), "table.csv: it is no season"),
            (("list", "cut.stake"), "cut.stake: the season was cut off while it was made"),
            (("check", "table.csv"), "table.csv: it is no season"),
            (("new", "table.csv"), "table.csv: it is there already, and is left as it is"),
            (("new", "none/s.stake"), "none/s.stake: No such file or directory"),
        ):
            with self.subTest(words=words):
                self.assertEqual(self.fails(*words).splitlines()[0][: 7 + len(text)], f"stake: {text}")
        self.made(("1", "2"))
        for words, text in (
            (("import", "s.stake", "none.csv"), "none.csv: No such file or directory"),
            (("import", "s.stake", "s.stake"), "s.stake:1: there is no tab, semicolon or comma"),
            (("import", "table.csv", "table.csv"), "table.csv: it is no season"),
        ):
            with self.subTest(words=words):
                said = self.fails(*words)
                self.assertIn(f"stake: {text}", said)
                self.assertIn("stake: the season is unchanged\n", said)
        self.file("empty.csv", "x;y\nNA;1\n2;\n")
        self.assertIn("empty.csv: there are no readings in it; 2 lines left out, where a number is missing: 2 to 3", self.fails("import", "s.stake", "empty.csv"))

    def test_damage(self):
        self.made(("1", "2"), ("3", "4"))
        self.stake("add", "s.stake", "5", "6")
        whole = self.data()
        self.file("s.stake", whole.replace(b"row r1 1 2", b"row r1 1 3"))
        said = self.fails("list", "s.stake")
        self.assertIn("s.stake: line 4 is damaged: it does not match its check; `stake check` says more", said)
        self.assertIn("the season is unchanged", self.fails("add", "s.stake", "1", "2"))
        found = self.run_stake("check", "s.stake", status=1).stdout.decode()
        self.assertIn("  line 4: it does not match its check\n", found)
        self.assertIn("stake check s.stake --leave-out 4\n", found)
        told = json.loads(self.run_stake("check", "s.stake", "--json", status=1).stdout)
        self.assertEqual(told["damaged"], [{"line": 4, "why": "it does not match its check"}])
        self.assertIn("the damaged lines are 4", self.fails("check", "s.stake", "--leave-out", "5"))
        self.assertIn("line 4 left out, as a later line says", self.stake("check", "s.stake", "--leave-out", "4"))
        self.assertEqual([r["name"] for r in self.json("list", "s.stake")["readings"]], ["r2", "r3"])

    def test_a_torn_tail_is_told_until_a_line_tells_of_it(self):
        self.made(("1", "2"), ("3", "4"))
        whole = self.data()
        self.file("s.stake", whole + b"6 add r3 5")
        done = self.run_stake("list", "s.stake")
        self.assertEqual(done.stderr, b"stake: s.stake: line 6 left out: it is cut off. Everything before stands\n")
        self.assertIn(b"2 readings", done.stdout)
        self.assertIn("line 6 left out: it is cut off. Everything before stands, and the next call will say so in the file", self.stake("check", "s.stake"))
        self.assertIn(b"r3 saved", self.run_stake("add", "s.stake", "7", "8").stdout)
        self.assertIn("line 6 left out", self.stake("list", "s.stake", "--history"))
        self.assertTrue(self.data().startswith(whole + b"6 add r3 5"))
        self.assertIn("line 6 left out, as a later line says", self.stake("check", "s.stake"))

    def test_no_library(self):
        for library in ("/nowhere/libstakebook.so", STAKE):
            done = started(["new", "s.stake"], self.folder, STAKEBOOK_LIBRARY=library)
            self.assertEqual(done.returncode, 1)
            self.assertRegex(done.stderr.decode(), rf"\Astake: the library {library} can't be loaded: .*\n\Z")

    def test_where_it_can_not_say_what_it_has_to_say(self):
        self.made(("1", "2"))
        with open("/dev/full", "wb") as full:
            done = subprocess.run([sys.executable, STAKE, "list", "s.stake"], stdout=full, stderr=subprocess.PIPE, env=environment(), cwd=self.folder)
        self.assertEqual((done.returncode, done.stderr), (1, b"stake: standard output: No space left on device\n"))
        ours, theirs = os.pipe()
        os.close(ours)
        done = subprocess.run([sys.executable, STAKE, "list", "s.stake"], stdout=theirs, stderr=subprocess.PIPE, env=environment(), cwd=self.folder)
        os.close(theirs)
        self.assertEqual((done.returncode, done.stderr), (1, b""))

    def test_a_terminal_without_the_letters(self):
        self.made()
        SeasonFile.open(self.season).add("1", "2", note="Föhn 🏔")
        done = started(["list", "s.stake"], self.folder, PYTHONIOENCODING="latin-1")
        self.assertEqual(done.returncode, 0)
        self.assertIn("Föhn \\U0001f3d4".encode("latin-1"), done.stdout)

    def test_an_interrupt(self):
        self.made(("1", "2"))
        said = io.StringIO()
        with mock.patch.object(command.SeasonFile, "undo", side_effect=KeyboardInterrupt), contextlib.redirect_stderr(said):
            self.assertEqual(command.main(["undo", self.season]), 130)
        self.assertIn("interrupted; `stake list` says whether the call was saved", said.getvalue())


class Files(Command):
    def test_exports(self):
        self.made(("0.10", "212", "2"), ("0.30", "240.5"), bound="1")
        self.assertEqual(self.stake("export", "s.stake"), "reading,x,y,weight,name,source,note\nr1,0.10,212,2,,,\nr2,0.30,240.5,1,,,\n")
        self.assertIn("out.csv written: 2 readings", self.stake("export", "s.stake", "--output", "out.csv"))
        self.assertEqual(Path(self.folder, "out.csv").read_text(), self.stake("export", "s.stake"))
        frame = self.run_stake("export", "s.stake", "--format", "frame").stdout
        self.assertEqual(frame[:3], bytes([0, 49, 2]))
        self.assertEqual(struct.unpack(">6d", frame[3:]), (0.1, 212.0, 2.0, 0.3, 240.5, 1.0))
        self.assertIn("none/out.csv: No such file", self.fails("export", "s.stake", "--output", "none/out.csv"))
        self.assertEqual(sorted(os.listdir(self.folder)), ["out.csv", "s.stake"])

    def test_the_journal_answers_alike(self):
        self.made(*[(str(x), str(y)) for x, y in zip(range(12), (5, 1, 4, 4, 9, 3, 8, 6, 7, 2, 2, 9))], bound="2")
        self.stake("correct", "s.stake", "r4", "0,25")
        self.stake("withdraw", "s.stake", "r7")
        self.stake("add", "s.stake", "5,5", "1", "--weight", "2,5")
        calls = self.stake("export", "s.stake", "--format", "calls")
        told = self.json("report", "s.stake")["report"]
        # read as docs/JOURNAL.md has it
        book = Book()
        for word, *fields in map(str.split, calls.splitlines()):
            if word == "add":
                book.add(*map(double, fields))
            elif word == "correct":
                book.correct(int(fields[0]), double(fields[1]))
            elif word == "withdraw":
                book.withdraw(int(fields[0]))
            elif word == "report":
                self.assertEqual(" ".join(fields), "custom 2 bic p95 0000000000000000 none 0000000000000000 size")
        self.assertEqual(book.bits(), SeasonFile.open(self.season).book.bits())
        # and by the program itself where it is built
        for journal in (ROOT / "target-rust/release/journal", ROOT / "target/release/journal"):
            for flag in ([], ["--judge"]) if journal.exists() else ():
                answers = subprocess.run([str(journal), *flag], input=calls.encode(), stdout=subprocess.PIPE, timeout=60).stdout.decode().splitlines()
                self.assertEqual(answers[:1] + answers[-8:-7], ["book 0", "book 12"])
                k = told["degree"] + 1
                self.assertEqual(answers[-7], f"report {told['degree']} {told['solved']} {sum(told['outliers'])} {sum(told['pruned'])}")
                shown = {answer.split()[0]: answer.split()[1:] for answer in answers[-6:]}
                for name, count in (("coefficients", k), ("errors", k), ("lower", 12), ("upper", 12)):
                    self.assertEqual(told[name], list(map(double, shown[name][:count])), (flag, name))
                self.assertEqual(told["outliers"], [mark == "1" for mark in shown["outliers"]])

    def test_what_becomes_of_pictures_and_pages(self):
        # test_pictures.py and test_page.py draw real ones by this command; here their part is played by another
        self.made(("1", "2"))

        def played():
            for name, call in (("pictures", "plot"), ("page", "write")):
                module = types.ModuleType(f"stakebook.{name}")
                setattr(module, call, lambda season, path, name=name: draw(season, path, name))
                sys.modules[module.__name__] = module
                setattr(stakebook, name, module)

        def draw(season, path, name):
            if path.endswith(".gif"):
                raise ValueError(f"{path} is no picture")
            if path.endswith("refused"):
                raise Refused(7)
            with open(path, "w") as file:
                file.write(f"{name} of {season.book.count} in {os.path.basename(season.path)}")

        for word, name in (("plot", "pictures"), ("page", "page")):
            self.assertEqual(self.stake(word, "s.stake", "made.svg", prepare=played), "made.svg written\n")
            self.assertEqual(Path(self.folder, "made.svg").read_text(), f"{name} of 1 in s.stake")
            self.assertIn(f"stake {word}: error: a.gif is no picture\n", self.fails(word, "s.stake", "a.gif", status=2, prepare=played))
            self.assertEqual(self.fails(word, "s.stake", "none/a.svg", prepare=played), "stake: none/a.svg: No such file or directory\n")
            self.assertIn(f"refused by 7: {WORDS['7']}\nstake: the season is unchanged\n", self.fails(word, "s.stake", "refused", prepare=played))

    def test_pictures_without_matplotlib(self):
        self.made(("1", "2"), ("2", "4"), ("3", "7"), bound="1")
        os.mkdir(os.path.join(self.folder, "without"))
        self.file("without/matplotlib.py", "raise ModuleNotFoundError('no', name='matplotlib')\n")
        for words in (("plot", "s.stake", "s.svg"), ("page", "s.stake", "s.html")):
            done = started(words, self.folder, PYTHONPATH=os.path.join(self.folder, "without"))
            self.assertEqual((done.returncode, done.stderr.decode()), (1, "stake: matplotlib is missing: install the Debian package python3-matplotlib\n"))

    def test_the_script_itself(self):
        done = subprocess.run([STAKE, "new", "s.stake"], stdout=subprocess.PIPE, env=environment(), cwd=self.folder)
        self.assertEqual(done.returncode, 0)
        words, path = [sys.executable, "-m", "stakebook", "list", "s.stake"], str(ROOT / "python")
        module = subprocess.run(words, stdout=subprocess.PIPE, env=environment(PYTHONPATH=path), cwd=self.folder)
        self.assertEqual((module.returncode, module.stdout.splitlines()[-1]), (0, b"0 readings"))
        # installed, by a link from another folder
        os.makedirs(os.path.join(self.folder, "usr/bin"))
        os.makedirs(os.path.join(self.folder, "usr/lib/python3/dist-packages"))
        shutil.copy(STAKE, os.path.join(self.folder, "usr/bin/stake"))
        os.symlink(ROOT / "python" / "stakebook", os.path.join(self.folder, "usr/lib/python3/dist-packages/stakebook"))
        os.symlink("usr/bin/stake", os.path.join(self.folder, "linked"))
        done = subprocess.run([sys.executable, "./linked", "list", "s.stake"], stdout=subprocess.PIPE, env=environment(), cwd=self.folder)
        self.assertEqual((done.returncode, done.stdout.splitlines()[-1]), (0, b"0 readings"))


class Saving(Command):
    def test_a_kill_in_the_middle_of_a_write(self):
        for part in (1, 17, -1):
            self.made(("1", "2"), ("3", "4"))
            before = self.data()

            def half(descriptor, data):
                WRITE(descriptor, bytes(data)[:part])
                os.kill(os.getpid(), signal.SIGKILL)

            done = self.run_stake("add", "s.stake", "5", "6", status=-signal.SIGKILL, prepare=lambda: setattr(os, "write", half))
            self.assertEqual(done.stdout, b"")
            self.assertTrue(self.data().startswith(before) and len(self.data()) > len(before))
            said = self.run_stake("list", "s.stake", "--json")
            self.assertIn(b"line 6 left out: it is cut off", said.stderr)
            self.assertEqual([r["name"] for r in json.loads(said.stdout)["readings"]], ["r1", "r2"])
            self.assertIn(b"r3 saved", self.run_stake("add", "s.stake", "7", "8").stdout)
            self.assertEqual([(r["name"], r["y"]) for r in self.json("list", "s.stake")["readings"]], [("r1", 2.0), ("r2", 4.0), ("r3", 8.0)])
            os.unlink(self.season)

    def test_a_kill_between_two_writes(self):
        # a write that was short, and the rest never comes: the block of an import is left out whole
        self.made(("1", "2"))
        self.file("more.csv", "x,y\n" + "".join(f"{i},{i}\n" for i in range(50)))
        written = []

        def short(descriptor, data):
            if written:
                os.kill(os.getpid(), signal.SIGKILL)
            written.append(WRITE(descriptor, bytes(data)[:700]))
            return written[0]

        done = self.run_stake("import", "s.stake", "more.csv", status=-signal.SIGKILL, prepare=lambda: setattr(os, "write", short))
        self.assertEqual(done.stdout, b"")
        said = self.run_stake("list", "s.stake")
        self.assertRegex(said.stderr.decode(), r"lines 5 to \d+ left out: its import has \d+ of its 50 rows")
        self.assertIn(b"1 reading\n", said.stdout)
        self.assertIn(b"50 readings saved from more.csv, r2 to r51", self.run_stake("import", "s.stake", "more.csv").stdout)
        self.assertTrue(self.json("check", "s.stake")["good"])

    def test_what_was_synced_is_there_though_nothing_was_said(self):
        self.made(("1", "2"))

        def last(descriptor):
            FSYNC(descriptor)
            os.kill(os.getpid(), signal.SIGKILL)

        done = self.run_stake("add", "s.stake", "5", "6", status=-signal.SIGKILL, prepare=lambda: setattr(os, "fsync", last))
        self.assertEqual(done.stdout, b"")
        self.assertEqual([r["name"] for r in self.json("list", "s.stake")["readings"]], ["r1", "r2"])

    def test_two_writers_at_once(self):
        self.made()
        code = """
            for i in range(50):
                if command.main(["add", "s.stake", str(i), sys.argv[1]]):
                    sys.exit(1)
            """
        text = f"import sys\nsys.path.insert(0, {str(ROOT / 'python')!r})\nfrom stakebook import command\n" + textwrap.dedent(code)
        pipes = dict(stdout=subprocess.PIPE, stderr=subprocess.PIPE)
        writers = [subprocess.Popen([sys.executable, "-c", text, y], **pipes, env=environment(), cwd=self.folder) for y in "12"]
        said = [writer.communicate(timeout=60) for writer in writers]
        self.assertEqual([(writer.returncode, err) for writer, (_, err) in zip(writers, said)], [(0, b"")] * 2)
        season = SeasonFile.open(self.season)
        self.assertEqual([r.name for r in season.readings], [f"r{i}" for i in range(1, 101)])
        for y, (out, _) in zip("12", said):
            mine = [r for r in season.readings if r.y_text == y]
            self.assertEqual([r.x_text for r in mine], [str(i) for i in range(50)])
            # and each was told the name that its reading has
            self.assertEqual(re.findall(r": (r\d+) saved", out.decode()), [r.name for r in mine])
        self.assertTrue(self.json("check", "s.stake")["good"])

    def test_a_file_that_can_not_grow(self):
        self.made(("1", "2"), ("3", "4"))
        before = self.data()

        def limit():
            resource.setrlimit(resource.RLIMIT_FSIZE, (len(before) + 20, resource.RLIM_INFINITY))

        for _ in range(2):
            done = self.run_stake("add", "s.stake", "5", "6", status=1, prepare=limit)
            self.assertEqual(done.stdout, b"")
            self.assertIn(b"s.stake: File too large: nothing was saved. What was written of it is left out, and the season is unchanged\n", done.stderr)
            self.assertEqual(len(self.data()), len(before) + 20)
        self.assertIn(b"r3 saved", self.run_stake("add", "s.stake", "7", "8").stdout)
        self.assertTrue(self.data().startswith(before))
        self.assertEqual([(r["name"], r["y"]) for r in self.json("list", "s.stake")["readings"]], [("r1", 2.0), ("r2", 4.0), ("r3", 8.0)])

        def none():
            resource.setrlimit(resource.RLIMIT_FSIZE, (100, resource.RLIM_INFINITY))

        said = self.fails("new", "t.stake", prepare=none)
        self.assertEqual(said, "stake: t.stake: File too large: no season was made\n")
        self.assertEqual(os.listdir(self.folder), ["s.stake"])

    def test_a_full_disk(self):
        disk = os.path.join(self.folder, "disk")
        os.mkdir(disk)
        # a small file system where one may be mounted, else a limit: the words of the system differ, and nothing else
        mounted = subprocess.run(["mount", "-t", "tmpfs", "-o", "size=64k", "tmpfs", disk], stdout=subprocess.PIPE, stderr=subprocess.PIPE).returncode == 0
        prepare, full = None, "No space left on device"
        try:
            season = SeasonFile.create(os.path.join(disk, "s.stake"))
            season.add("1", "2")
            if mounted:
                with contextlib.suppress(OSError), open(os.path.join(disk, "rest"), "wb", buffering=0) as rest:
                    while True:
                        rest.write(b"x" * 512)
            else:
                prepare, full = (lambda: resource.setrlimit(resource.RLIMIT_FSIZE, (4096, resource.RLIM_INFINITY))), "File too large"
            self.file("more.csv", "x,y,note\n" + "".join(f"{i},{i},{'n' * 90}\n" for i in range(100)))
            before = Path(season.path).read_bytes()
            said = self.fails("import", "disk/s.stake", "more.csv", prepare=prepare)
            self.assertIn(f"disk/s.stake: {full}: nothing was saved. What was written of it is left out, and the season is unchanged\n", said)
            if mounted:
                self.assertEqual(self.fails("new", "disk/t.stake"), f"stake: disk/t.stake: {full}: no season was made\n")
            data = Path(season.path).read_bytes()
            self.assertTrue(data.startswith(before) and len(data) > len(before))
            with contextlib.suppress(FileNotFoundError):
                os.unlink(os.path.join(disk, "rest"))
            done = self.run_stake("import", "disk/s.stake", "more.csv")
            self.assertIn(b"100 readings saved from more.csv, r2 to r101", done.stdout)
            self.assertEqual(SeasonFile.open(season.path).book.count, 101)
            self.assertTrue(Path(season.path).read_bytes().startswith(data))
        finally:
            if mounted:
                subprocess.run(["umount", disk], check=True)


class Terminal(Command):
    def on_terminal(self, *words, prepare=None):
        """What goes to a terminal on standard error, and to a file on standard output."""
        ours, theirs = pty.openpty()
        seen = []

        def read():
            # a terminal that nobody has open any more is an error to read
            with contextlib.suppress(OSError):
                while True:
                    seen.append(os.read(ours, 4096))

        done = forked(words, self.folder, prepare, theirs)
        os.close(theirs)
        read()
        os.close(ours)
        self.assertEqual(done.returncode, 0)
        return b"".join(seen).decode(), done.stdout.decode()

    def test_progress_on_a_terminal_and_none_in_a_pipe(self):
        self.made(*[(str(i), str(i * 7919 % 101)) for i in range(1000)], bound="3")

        def at_once():
            command._Progress._AFTER = 0.0

        words = ("report", "s.stake", "--split")
        seen, out = self.on_terminal(*words, prepare=at_once)
        self.assertRegex(seen, r"\rstake: looking for the break \.\. \d+\.\d s")
        # the line is wiped away
        self.assertTrue(seen.endswith("\r") and seen.split("\r")[-2].strip() == "", seen)
        self.assertEqual(out, self.stake(*words, prepare=at_once))
        self.file("more.csv", "x,y\n" + "".join(f"{i},{i}\n" for i in range(3000)))
        seen, out = self.on_terminal("import", "s.stake", "more.csv", prepare=at_once)
        self.assertRegex(seen, r"importing more\.csv")

    def test_what_is_quick_shows_nothing(self):
        self.made(("1", "2"))
        self.assertEqual(self.on_terminal("settings", "s.stake", prepare=lambda: setattr(command._Progress, "_AFTER", 30.0))[0], "")
        # so does what is not: a third of a second
        self.assertEqual(command._Progress._AFTER, 0.3)

    def test_a_frame_is_not_for_a_terminal(self):
        self.made(("1", "2"))
        ours, theirs = pty.openpty()
        words = [sys.executable, STAKE, "export", "s.stake", "--format", "frame"]
        done = subprocess.run(words, stdout=theirs, stderr=subprocess.PIPE, env=environment(), cwd=self.folder)
        os.close(theirs)
        os.close(ours)
        self.assertEqual(done.returncode, 2)
        self.assertIn(b"give --output FILE", done.stderr)

    def test_waiting_for_another_writer_is_said(self):
        self.made(("1", "2"))
        other = "import fcntl, sys, time\nfile = open(sys.argv[1])\nfcntl.flock(file, fcntl.LOCK_EX)\nprint('has it', flush=True)\ntime.sleep(0.7)"
        with subprocess.Popen([sys.executable, "-c", other, self.season], stdout=subprocess.PIPE) as holder:
            self.assertEqual(holder.stdout.readline(), b"has it\n")
            seen, out = self.on_terminal("list", "s.stake")
        self.assertIn("waiting for another program that has the season", seen)
        self.assertIn("1 reading", out)


if __name__ == "__main__":
    if sys.argv[1:] == ["--guide"]:
        write_guide()
    else:
        unittest.main()
