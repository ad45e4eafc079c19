"""The season book of 32 stakes from Python.

    python3 python/tests/test_glacier.py

What is expected of a stake comes from the judge (tests/*.answers) and from a book of its readings alone; none from the season itself.
"""

import json
import pickle
import random
import struct
import sys
import threading
import types
import unittest
from pathlib import Path
from unittest import mock

ROOT = Path(__file__).resolve().parents[2]
sys.path[:0] = [str(Path(__file__).resolve().parent), str(ROOT / "python")]

import test_book
from stakebook import MOST, WORDS, Book, LibraryError, Refused, Report, Season, SeasonReport, Settings, _library

NAN, INF = float("nan"), float("inf")
STAKES = 32
PIT = [0.1, 0.3, 0.5, 0.7, 0.9, 1.1], [212, 240.5, 251, 287, 290, 322.5]
ASKED = Settings(bound=3, criterion="aic")


def refusal(call, *arguments):
    """A call's answer, or the number of its refusal."""
    try:
        return call(*arguments)
    except Refused as refused:
        return f"refused by {refused.number}"


def bits(value):
    """All numbers of an answer, bit for bit."""
    if isinstance(value, float):
        return struct.pack(">d", value).hex()
    if isinstance(value, (list, tuple)):
        return [bits(each) for each in value]
    if hasattr(value, "__dataclass_fields__"):
        return {name: bits(getattr(value, name)) for name in value.__dataclass_fields__ if name != "settings"}
    return value


class StakePlayer(test_book.Player):
    """Plays a list of calls on a stake between two others that hold something."""

    STAKE = 19

    def __init__(self):
        super().__init__()
        self.seasons = {}

    def made(self, capacity, stake=STAKE):
        if capacity not in self.seasons:
            season = self.seasons[capacity] = Season(capacity)
            for other in (self.STAKE - 1, self.STAKE + 1):
                season.extend(other, range(min(capacity, 6)), [3 - i * i for i in range(min(capacity, 6))])
            self.seasons[capacity, "before"] = self.others(season)
        season = self.seasons[capacity]
        season.open_stake(stake)
        return season[stake]

    def others(self, season):
        return [bits(season.report(stake, ASKED)) if season[stake].count else season[stake].bits() for stake in range(STAKES) if stake not in (19, 31)] + [
            each.bits() for each in season if each.stake not in (19, 31)
        ]

    def copied(self):
        other = self.made(self.book.capacity, 31)
        for to, of in zip(other._kept, self.book._kept):
            to[:] = of
        other._count = self.book.count
        return other


class JudgedStake(test_book.Judged):
    """A stake answers as the judge's book, bit for bit, and changes no other stake."""

    player = StakePlayer

    def play(self, calls, least):
        player = super().play(calls, least)
        for capacity in [key for key in player.seasons if isinstance(key, int)]:
            self.assertEqual(player.others(player.seasons[capacity]), player.seasons[capacity, "before"])


class Stakes(unittest.TestCase):
    """Each stake of a season against a book of its own."""

    def test_random_calls(self):
        rng = random.Random(14)
        season, books = Season(40), [Book(40) for _ in range(STAKES)]
        used = [0, 1, 2, 9, 30, 31]
        refused = 0
        for _ in range(1500):
            stake = rng.choice(used)
            x, y, w = rng.uniform(0, 3), rng.uniform(200, 400), rng.choice([1, 1, 2.5, 0, INF])
            many = [rng.uniform(0, 3) for _ in range(rng.randrange(4))]
            name, arguments = rng.choice(
                [
                    ("add", (x, y, w)),
                    ("add", (x, rng.choice([y, NAN]))),
                    ("extend", (many, [2 * each for each in many])),
                    ("extend", (many, many, [w] * len(many))),
                    ("add_window", (x, y, w)),
                    ("add_lines", (rng.choice(["0.5 210\n", "0.5 210\n0.7 2e3\n", "1 2\n3 4\n"]),)),
                    ("add_frame", (bytes.fromhex(rng.choice(["0011013FF4CCCCCCCCCCCD4074B00000000000", "001101", "000107"])),)),
                    ("correct", (rng.randrange(30), y)),
                    ("withdraw", (rng.randrange(30),)),
                ]
            )
            ours = refusal(getattr(season, name), stake, *arguments)
            self.assertEqual(ours, refusal(getattr(books[stake], name), *arguments), (name, arguments))
            refused += isinstance(ours, str)
            self.assertEqual(season.counts, [book.count for book in books])
        self.assertGreater(refused, 200)
        self.assertEqual([season[i].bits() for i in range(STAKES)], [book.bits() for book in books])
        self.assertEqual(season.count, sum(book.count for book in books))
        self.assertEqual([each.stake for each in season], list(range(STAKES)))
        for stake in used + [5]:
            for name, arguments in (
                ("fit", (2,)), ("fit", (15,)), ("fit", (40,)), ("validate", (3, ASKED)), ("validate", (1, ASKED)), ("losses", (ASKED,)),
                ("scores", (ASKED,)), ("report", (ASKED,)), ("report", (Settings(bound=16),)), ("report", (Settings(confidence=NAN),)),
                ("split", (Settings(bound=1),)), ("split", (Settings(bound=1), 3)), ("band", (1.0, 1)), ("band", (-50.0, 1)), ("band", ([0.9, 1.1], 2, ASKED)),
            ):  # fmt: skip
                ours, theirs = refusal(getattr(season, name), stake, *arguments), refusal(getattr(books[stake], name), *arguments)
                self.assertEqual(bits(ours), bits(theirs), (stake, name, arguments))

    def test_the_reports_of_all(self):
        season, books = Season(), [Book() for _ in range(STAKES)]
        for stake in range(STAKES):
            if stake % 4:  # every fourth is unused
                for book in (season[stake], books[stake]):
                    book.extend([i / 8 for i in range(stake)], [200 + i * i % 7 - stake * i / 5 for i in range(stake)])
        for asked in (ASKED, Settings(), Settings(bound=16), Settings(bound=2, tolerance=("absolute", 1.5), pruning="positive")):
            expected = [refusal(book.report, asked) for book in books]
            found = season.report(settings=asked)
            self.assertIsInstance(found, SeasonReport)
            ours = [f"refused by {each.number}" if isinstance(each, Refused) else each for each in found.reports]
            self.assertEqual(bits(ours), bits(expected))
            self.assertEqual(found.answered, sum(isinstance(each, Report) for each in expected))
            for each in found.reports:
                if isinstance(each, Refused):
                    self.assertEqual(each.words, WORDS[each.number])
        self.assertEqual([f"refused by {7 if stake % 4 == 0 else 8}" for stake in (0, 20, 21)], [refusal(season.report, stake, Settings(bound=16)) for stake in (0, 20, 21)])

    def test_the_users_case(self):
        """One stake is corrected between two season reports: the other 31 keep their bits."""
        season = Season(64)
        rng = random.Random(3)
        for stake in season:
            xs = sorted(rng.uniform(0, 3) for _ in range(20))
            stake.extend(xs, [250 + 60 * x + rng.gauss(0, 4) for x in xs])
        before = [(bits(report), stake.bits()) for report, stake in zip(season.report(settings=ASKED).reports, season)]
        season.correct(11, 7, 900)
        after = [(bits(report), stake.bits()) for report, stake in zip(season.report(settings=ASKED).reports, season)]
        self.assertEqual([one != other for one, other in zip(before, after)], [stake == 11 for stake in range(STAKES)])

    def test_stake_above_31(self):
        """18, before every other check."""
        season = Season(4)
        season.extend(31, *[column[:4] for column in PIT])
        before = season.bits()
        for stake in (32, 33, 1000, _library.SIZE_MAX):
            for name, arguments in (
                ("add", (NAN, 0, 0)), ("extend", ([NAN], [1])), ("extend", ([], [])), ("add_lines", ("x",)), ("add_frame", (b"",)),
                ("add_window", (0, NAN)), ("correct", (9, NAN)), ("withdraw", (9,)), ("fit", (99,)), ("validate", (0, Settings(bound=99))),
                ("band", (NAN, 99)), ("band", ([NAN], 99)), ("losses", (Settings(bound=99),)), ("scores", (Settings(bound=99),)),
                ("split", (Settings(bound=99), 0)), ("report", (Settings(confidence=NAN),)), ("open_stake", ()),
            ):  # fmt: skip
                with self.assertRaises(Refused) as caught:
                    getattr(season, name)(stake, *arguments)
                self.assertEqual((caught.exception.number, str(caught.exception)), (18, "refused by 18: a stake's number is above 31"), name)
        self.assertEqual(season.bits(), before)
        for stake in (32, _library.SIZE_MAX):
            self.assertRaisesRegex(IndexError, "0 to 31", lambda: season[stake])
            self.assertRaisesRegex(IndexError, "0 to 31", season.columns, stake)
        for wrong in (-1, 2**64):
            self.assertRaisesRegex(ValueError, "a stake is a whole number", season.add, wrong, 0, 1)
        self.assertRaises(TypeError, season.add, "3", 0, 1)

    def test_parts(self):
        """Each stake has its own places of one memory, capacity of each, and no more."""
        season = Season(3)
        for stake in (0, 1, 31):
            season.extend(stake, [stake, 1, 2], [stake, 8, 9])
            self.assertEqual(refusal(season.add, stake, 0, 0), "refused by 5")
        self.assertEqual([season[stake].xs for stake in (0, 1, 2, 31)], [[0, 1, 2], [1, 1, 2], [], [31, 1, 2]])
        self.assertEqual(season.columns(31)[1][0], 31)
        self.assertEqual((season.capacity, season[4].capacity, len(season[1])), (3, 3, 3))
        self.assertEqual(refusal(season[1].add_window, 5, 5), 3)
        self.assertEqual((season[0].xs, season[1].xs), ([0, 1, 2], [1, 2, 5]))
        season.open_stake(1)
        self.assertEqual(season.counts, [3, 0] + [0] * 29 + [3])
        self.assertEqual((season[1].sums, season[2].sums), ([0] * 272, [0] * 272))
        self.assertEqual(season[0].sums[:2], [3, 3])
        season.open()
        self.assertEqual((season.counts, season.bits()), ([0] * STAKES, Season(3).bits()))
        nothing = Season(0)
        self.assertEqual((refusal(nothing.add, 0, 1, 1), refusal(nothing.report, 3), nothing.columns(2)[0].tolist()), ("refused by 5", "refused by 7", []))
        self.assertRaises(ValueError, Season, MOST + 1)

    def test_full(self):
        season, book = Season(), Book()
        xs = [i / 1000 for i in range(MOST)]
        for stake in (0, 31):
            self.assertEqual(season.extend(stake, xs, [x * x for x in xs], [1.5] * MOST), MOST)
        book.extend(xs, [x * x for x in xs], [1.5] * MOST)
        self.assertEqual((season[31].bits(), refusal(season.add, 31, 0, 0)), (book.bits(), "refused by 5"))
        self.assertEqual(bits(season.report(31, ASKED)), bits(book.report(ASKED)))
        self.assertEqual(bits(season.losses(31, ASKED)), bits(book.losses(ASKED)))

    def test_interrupt(self):
        """Ctrl-C in a change is raised behind the library's call; the change is taken back, with the count that the library wrote."""
        for change in (
            lambda s: s.add(3, 3, 1), lambda s: s.extend(3, [3], [1]), lambda s: s.add_lines(3, "3 1\n"), lambda s: s.correct(3, 0, 1),
            lambda s: s.withdraw(3, 0), lambda s: s.add_window(3, 3, 1), lambda s: s.add(40, 3, 1),
        ):  # fmt: skip
            season = Season(6)
            season.extend(3, *[column[:5] for column in PIT])
            season.extend(4, *PIT)
            before, real = season.bits(), season._of_stakes

            def interrupted(name):
                def call(*arguments):
                    getattr(real, name)(*arguments)
                    raise KeyboardInterrupt

                return call

            season._of_stakes = season[3]._library = types.SimpleNamespace(**{name: interrupted(name) for name in _library._STAKE})
            self.assertRaises(KeyboardInterrupt, change, season)
            self.assertEqual((season.bits(), season.counts[3:5]), (before, [5, 6]))

    def test_threads(self):
        season = Season()

        def work(stake):
            for i in range(300):
                season.add(stake, i, stake * i)
                season.report(stake, Settings(bound=1))

        threads = [threading.Thread(target=work, args=(stake,)) for stake in range(4)]
        for thread in threads:
            thread.start()
        for thread in threads:
            thread.join()
        self.assertEqual(season.counts[:5], [300] * 4 + [0])
        self.assertEqual(season[3].ys, [3 * i for i in range(300)])

    def test_what_it_is_not(self):
        season = Season()
        for thing in (season, season[3]):
            self.assertRaisesRegex(TypeError, "pickled", pickle.dumps, thing)
        for name in ("copy", "replay"):
            self.assertFalse(hasattr(season[3], name))
        self.assertRaises(TypeError, lambda: season[3].report(ASKED, group=1, allowance=None))
        season.add(3, 1, 1)
        self.assertEqual((repr(season), repr(season[3])), ("<Season: 1 readings of 1 stakes>", "<Stake 3: 1 of 4096 readings>"))
        told = json.loads(json.dumps(season.report(settings=Settings(bound=0)).as_dict()))
        self.assertEqual((told["answered"], told["reports"][3]["coefficients"], told["reports"][4]["refused"]["number"]), (1, [1.0], 7))

    def test_earlier_library(self):
        with mock.patch.object(_library.library(), "season_report", None), self.assertRaisesRegex(LibraryError, "stakebook_season_report: it is of an earlier"):
            Season().report()
        with mock.patch.object(_library.library(), "season_add", None), self.assertRaisesRegex(LibraryError, "stakebook_season_add"):
            Season()


if __name__ == "__main__":
    unittest.main()
