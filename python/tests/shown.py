"""Seasons for the tests of pictures and page: the real book, with readings that need no file."""

from types import SimpleNamespace
from typing import Any, Callable, List, Optional, Sequence

from stakebook import Book, Settings, Surface


class Shown:
    """What pictures and page take of a season. An answer can be put in place of the book's, a refusal say."""

    def __init__(
        self,
        xs: Sequence[float],
        ys: Sequence[float],
        ws: Optional[Sequence[float]] = None,
        settings: Settings = Settings(),
        scores: Optional[Callable[[], Any]] = None,
        report: Optional[Callable[[], Any]] = None,
    ) -> None:
        self.path = "shown.stake"
        self.glacier = False
        self.settings = settings
        self.x_name: Optional[str] = None
        self.y_name: Optional[str] = None
        self.weight_name: Optional[str] = None
        self.book = Book()
        ws = [1.0] * len(xs) if ws is None else ws
        self.book.extend(list(xs), list(ys), list(ws))
        self.readings: List[Any] = [reading("r%d" % (i + 1), x, y, w, i) for i, (x, y, w) in enumerate(zip(xs, ys, ws))]
        self.history: List[Any] = [SimpleNamespace(line=2, call="new", text="a new season", time=None, note=None, source=None, undone=False, name=None)]
        self.left_out: List[str] = []
        self.said: List[str] = []
        self.report = report or (lambda: self.book.report(self.settings))
        self.scores = scores or (lambda: self.book.scores(self.settings))

    def warnings(self, report: Any = None, scores: Any = None) -> List[str]:
        return self.said


class ShownSurface(Shown):
    """The same of a surface."""

    def __init__(self, xs: Sequence[float], zs: Sequence[float], ys: Sequence[float], settings: Settings, **answers: Any) -> None:
        super().__init__(xs, ys, None, settings, **answers)
        self.z_name: Optional[str] = None
        self.book: Any = Surface()
        self.book.extend(xs, zs, ys)
        for each, z in zip(self.readings, zs):
            each.z, each.z_text = z, repr(z)


def reading(name: str, x: float, y: float, weight: float, index: Optional[int]) -> Any:
    texts = dict(x_text=repr(x), y_text=repr(y), weight_text="%g" % weight)
    return SimpleNamespace(name=name, x=x, y=y, weight=weight, index=index, source=None, note=None, called=None, line=3, was=(), **texts)


def raising(why: Exception) -> Callable[[], Any]:
    def call() -> Any:
        raise why

    return call
