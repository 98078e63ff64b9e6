"""Curves: built from traded averages, grown, or built in sheets; and what is asked of them.

Every price and every total comes from a proved function of the library. Python lends the buffers and hands the answers on.
"""

import ctypes
import math
from array import array
from dataclasses import dataclass, field
from typing import Any, Callable, Iterable, NamedTuple, Optional, Tuple, Type

from . import _numbers
from ._library import MOST_POINTS, SLOTS, Told, load
from ._numbers import Kind, Lent, Many
from .months import Month, month_range
from .refusals import Refused
from .section import Section


def sqrt(a: float) -> float:
    """The square root, correctly rounded. Below zero there is none, and a NaN comes back."""
    return float(load().havgrunel_sqrt(_numbers.one(a, "a")))


def _default(setting: str) -> Any:
    """A field of Method whose default is the library's own."""

    def asked() -> Any:
        return getattr(load(), f"havgrunel_default_{setting}")()

    return field(default_factory=asked)


# When positivity splits a parabola, each by its number in c/havgrunel.h: wherever the two tests of the original pass; only where the period then keeps its
# average; or where it would fall below 0, whatever rounding does. Both defaults have the first.
SPLITS = ("original", "careful", "safe")


@dataclass(frozen=True)
class Method:
    """The settings of the method; what is left out is what the library itself takes: 0.3, 0.7, positivity off and the original split.

    quadraticity -- from 0 to 1: how much of each section is a parabola
    monotonicity -- from 0 to 1: how monotone the rest is
    positivity   -- whether prices are held above zero; docs/SHAPES.md says where that fails
    split        -- "original"; "careful": positivity then splits no parabola that would lose its average by it; or "safe": with positivity no price is
                    then below 0 and no average is lost, and an average below 0 is refused. Without positivity all three are the same
    """

    quadraticity: float = _default("quadraticity")
    monotonicity: float = _default("monotonicity")
    positivity: bool = _default("positivity")
    split: str = SPLITS[0]

    def __post_init__(self) -> None:
        object.__setattr__(self, "quadraticity", _numbers.one(self.quadraticity, "the quadraticity"))
        object.__setattr__(self, "monotonicity", _numbers.one(self.monotonicity, "the monotonicity"))
        object.__setattr__(self, "positivity", _numbers.switch(self.positivity, "the positivity"))
        object.__setattr__(self, "split", _numbers.word(self.split, "the split", SPLITS))

    @classmethod
    def gas(cls, **others: Any) -> "Method":
        """The library's gas default, 0.3, 0.7, positivity on and the original split; others may be given by name, as in Method.gas(split="safe")."""
        library = load()
        default = {setting: getattr(library, f"havgrunel_gas_{setting}")() for setting in ("quadraticity", "monotonicity", "positivity")}
        return cls(**{**default, **others})


class Tail(NamedTuple):
    """What answers from the last knot on: a constant price, the total where it starts, and where that is."""

    value: float
    total: float
    from_: float


class _Room:
    """Buffers for the curve of so many points, and for its column where one is asked for; empty ones for a number that is refused whatever room there
    is."""

    def __init__(self, points: int, column: bool = False) -> None:
        points = points if 2 <= points <= MOST_POINTS else 0
        sections = max(points - 1, 0)
        self.nodes = _numbers.zeros(points)
        self.tags = array("H", bytes(2 * sections))
        self.slots = _numbers.zeros(SLOTS * sections)
        self.sections = ctypes.c_size_t()
        self.tail = (ctypes.c_double * 3)()
        self.column = _numbers.zeros(points) if column else None

    def lent(self) -> Tuple[Any, ...]:
        curve = (*_lent(self.nodes), *_lent(self.tags), *_lent(self.slots), ctypes.byref(self.sections), 1, self.tail, 3)
        return curve if self.column is None else (*curve, *_lent(self.column))


def _lent(own: "array[Any]") -> Tuple[Any, int]:
    """A pointer to an array's entries, and their count."""
    if not own:
        return None, 0
    entry: Any = ctypes.c_double if own.typecode == "d" else ctypes.c_uint16
    return ctypes.pointer(entry.from_buffer(own)), len(own)


class Curve:
    """A curve through the averages that periods traded at. It does not change, and may be asked from several threads.

    What it answers is finite: a price, a total or an average that is infinite or no number is refused by 21. Such a curve is built all the same, and what it
    is made of, its nodes, sections, tail and column, is told as it is.

    knots       -- numbers that rise: where the periods meet, in days, hours or whatever is counted
    averages    -- as many: at each knot the average of the period that ends there. The first is not read, but must be finite
    method      -- the settings; Method() where there are none
    hold        -- the last period stays flat at its average
    seam        -- (count, node): the node at that knot is given, for a curve that goes on from another
    extrapolate -- whether points outside the knots are answered
    column      -- whether the total up to each knot is kept beside the curve, for strip_between and total_at

    Raises Refused, with the number and the words of the reason.
    """

    __slots__ = ("_knots", "_traded", "_nodes", "_tags", "_slots", "_tail", "_method", "_hold", "_extrapolate", "_column", "_asked", "_sections")

    def __init__(
        self,
        knots: Many,
        averages: Many,
        method: Optional[Method] = None,
        *,
        hold: bool = False,
        seam: Optional[Tuple[int, float]] = None,
        extrapolate: bool = False,
        column: bool = False,
    ) -> None:
        library = load()
        method = _method(method)
        xs, ys = _own(knots, "knots"), _own(averages, "averages")
        room = _Room(len(xs), bool(column))
        build = library.havgrunel_build_with_column if column else library.havgrunel_build
        number = build(*_table(xs, ys, method), bool(hold), *_seam(seam), *room.lent())
        _build_refusal(number, xs, ys)
        self._hold_all(xs, ys, room, method, bool(hold), bool(extrapolate))

    def _hold_all(self, xs: "array[float]", ys: "array[float]", room: _Room, method: Method, hold: bool, extrapolate: bool) -> None:
        self._set(xs, ys, room.nodes, room.tags, room.slots, Tail(*room.tail), method, hold, extrapolate, room.column)

    def _set(
        self,
        knots: "array[float]",
        traded: "array[float]",
        nodes: "array[float]",
        tags: "array[int]",
        slots: "array[float]",
        tail: Tail,
        method: Method,
        hold: bool,
        extrapolate: bool,
        column: "Optional[array[float]]" = None,
    ) -> None:
        self._knots, self._traded, self._nodes, self._tags, self._slots = knots, traded, nodes, tags, slots
        self._tail, self._method, self._hold, self._extrapolate, self._column = tail, method, hold, extrapolate, column
        self._asked = (*_lent(knots), *_lent(tags), *_lent(slots), *tail, extrapolate)
        self._sections: Optional[Tuple[Section, ...]] = None

    # ---- Other ways to a curve ----

    @classmethod
    def in_sheets(
        cls, knots: Many, averages: Many, cuts: Iterable[int], method: Optional[Method] = None, *, extrapolate: bool = False
    ) -> "Curve":
        """The curve of a table, built in sheets that end at the cuts: numbers of inner knots, counted from 0, each above the one before.

        It is the curve that Curve(knots, averages, method) is, bit for bit. It has no column.
        """
        library = load()
        method = _method(method)
        xs, ys = _own(knots, "knots"), _own(averages, "averages")
        ends = [_numbers.whole(cut, f"cuts: entry {k}") for k, cut in enumerate(cuts)]
        # A number that no count of the library can hold is no inner knot either.
        lent = (ctypes.c_size_t * len(ends))(*(cut if 0 <= cut <= MOST_POINTS else MOST_POINTS for cut in ends))
        room = _Room(len(xs))
        number = library.havgrunel_build_in_sheets(*_table(xs, ys, method), lent, len(ends), *room.lent())
        _build_refusal(number, xs, ys, ends)
        curve = cls.__new__(cls)
        curve._hold_all(xs, ys, room, method, False, bool(extrapolate))
        return curve

    @classmethod
    def of_months(
        cls,
        first: Month,
        last: Month,
        averages: Many,
        method: Optional[Method] = None,
        *,
        size: str = "month",
        hold: bool = False,
        seam: Optional[Tuple[int, float]] = None,
        extrapolate: bool = False,
    ) -> "Curve":
        """The curve of delivery months, quarters or years from the first month to the last, both included, with one average to each period: none is left
        unread, and the curve's `traded` has a 0.0 in front of them.

        Months and the size of a period are given as month_knots takes them, and the knots are those that it answers: days from 1 January 2000 on, where
        day_number has a date. It is the curve that Curve(knots, [0.0, *averages], method) is, bit for bit. It has no column.

        Refused by 19, before all else, unless the months are whole periods; by 1 unless there is an average to each. The index of a refusal is that of one
        of these averages.
        """
        library = load()
        method = _method(method)
        months = month_range(first, last, size)
        ys = _numbers.zeros(1) + _own(averages, "averages")
        xs, room = _numbers.zeros(len(ys)), _Room(len(ys))
        number = library.havgrunel_build_months(*months, *_lent(ys), *_settings(method), bool(hold), *_seam(seam), *_lent(xs), *room.lent())
        try:
            _build_refusal(number, xs, ys)
        except Refused as refused:
            raise Refused(refused.number, None if refused.index is None else refused.index - 1) from None
        curve = cls.__new__(cls)
        curve._hold_all(xs, ys, room, method, bool(hold), bool(extrapolate))
        return curve

    @classmethod
    def first_window(
        cls,
        knots: Many,
        averages: Many,
        localisation: int,
        final_size: int,
        method: Optional[Method] = None,
        *,
        extrapolate: bool = False,
        column: bool = False,
    ) -> "Curve":
        """The first curve of a table that grows by a point at a time: its first localisation + 1 points, which stand alone.

        The last period is held until there are final_size points. `grow` makes the next curve of this one.
        """
        return cls._grown(None, knots, averages, localisation, final_size, _method(method), bool(extrapolate), bool(column))

    def grow(self, knots: Many, averages: Many, localisation: int, final_size: int, *, column: Optional[bool] = None) -> "Curve":
        """The next curve of a growing table: `knots` and `averages` are the whole table, a point longer than this curve's.

        It has this curve's method, and goes on where this curve's last section that was not held ended. It has a column where this curve has one, unless
        `column` says otherwise.
        """
        with_column = self._column is not None if column is None else bool(column)
        return self._grown(self, knots, averages, localisation, final_size, self._method, self._extrapolate, with_column)

    @classmethod
    def _grown(
        cls,
        previous: Optional["Curve"],
        knots: Many,
        averages: Many,
        localisation: int,
        final_size: int,
        method: Method,
        extrapolate: bool,
        column: bool,
    ) -> "Curve":
        library = load()
        xs, ys = _own(knots, "knots"), _own(averages, "averages")
        window, final = _numbers.count(localisation, "the localisation"), _numbers.count(final_size, "the final size")
        kept: Tuple[Any, ...] = (False, 0, False, None, 0, None, 0)
        if previous is not None:
            kept = (True, len(previous._tags), previous._hold, *_lent(previous._tags), *_lent(previous._slots))
        room = _Room(len(xs), column)
        grow = library.havgrunel_grow_with_column if column else library.havgrunel_grow
        number = grow(*_table(xs, ys, method), window, final, *kept, *room.lent())
        _build_refusal(number, xs, ys)
        curve = cls.__new__(cls)
        curve._hold_all(xs, ys, room, method, len(xs) != final, extrapolate)
        return curve

    def with_extrapolation(self, on: bool = True) -> "Curve":
        """The same curve, with points outside the knots answered or not."""
        other = type(self).__new__(type(self))
        other._set(
            self._knots, self._traded, self._nodes, self._tags, self._slots, self._tail, self._method, self._hold, bool(on), self._column
        )
        return other

    # ---- What it is made of ----

    @property
    def knots(self) -> "array[float]":
        """A copy of the knots."""
        return self._knots[:]

    @property
    def traded(self) -> "array[float]":
        """A copy of the averages, as they were given."""
        return self._traded[:]

    @property
    def nodes(self) -> "array[float]":
        """A copy of the nodes: the price that the method puts at each knot."""
        return self._nodes[:]

    @property
    def method(self) -> Method:
        """The settings."""
        return self._method

    @property
    def hold(self) -> bool:
        """Whether the last period is held flat at its average."""
        return self._hold

    @property
    def extrapolate(self) -> bool:
        """Whether points outside the knots are answered."""
        return self._extrapolate

    @property
    def tail(self) -> Tail:
        """What answers from the last knot on."""
        return self._tail

    @property
    def column(self) -> "Optional[array[float]]":
        """A copy of the column, which has the total up to each knot: what `primitive` answers there, and where it is refused by 21 the infinity or NaN
        that it was refused for. None for a curve without one."""
        return None if self._column is None else self._column[:]

    @property
    def sections(self) -> Tuple[Section, ...]:
        """The sections, one to a period."""
        if self._sections is None:
            self._sections = tuple(
                Section(tag, tuple(self._slots[SLOTS * k : SLOTS * (k + 1)]), self._knots[k], self._knots[k + 1])
                for k, tag in enumerate(self._tags)
            )
        return self._sections

    # ---- What is asked of it ----

    def value(self, x: float) -> float:
        """The price at x. Refused by 21 where it is not finite."""
        return self._told(load().havgrunel_value, _numbers.one(x, "x"))

    def primitive(self, x: float) -> float:
        """The total of all prices from the first knot up to x. Refused by 21 where it is not finite, whether the price there is or not."""
        return self._told(load().havgrunel_primitive, _numbers.one(x, "x"))

    def strip(self, a: float, b: float) -> float:
        """The average price from a to b: (total at b - total at a) / (b - a), where each of the three steps is rounded once.

        Refused for a's own reasons first, then for b's, then by 18 unless a is below b, then by 21 where the average is not finite: two finite totals may
        make an infinite average.
        """
        return self._told(load().havgrunel_strip, _numbers.one(a, "a"), _numbers.one(b, "b"))

    def strip_between(self, i: int, j: int) -> float:
        """The average price from knot i to knot j, both counted from 0: strip(knots[i], knots[j]), bit for bit, by two entries of the column.

        Refused by 11 on a curve without a column, by 18 unless i is below j and j is the number of a knot, and by 21 where the average is not finite.
        """
        places = _numbers.count(i, "the first place"), _numbers.count(j, "the second place")
        return _single(load().havgrunel_strip_between, *_lent(self._knots), *self._column_lent(), *places)

    def total_at(self, i: int) -> float:
        """The total up to knot i, counted from 0: primitive(knots[i]), bit for bit, by an entry of the column.

        Refused by 11 on a curve without a column or where i is not the number of a knot, and by 21 where the total is not finite.
        """
        return _single(load().havgrunel_column_entry, *self._column_lent(), _numbers.count(i, "the place"))

    def _column_lent(self) -> Tuple[Any, int]:
        return (None, 0) if self._column is None else _lent(self._column)

    def values(self, xs: Many) -> Any:
        """The price at each of xs, as the kind of sequence that xs is: a list, an array, a numpy array or a pandas Series with the index of xs.

        All or nothing: where one is refused, Refused says which was the first. A price that is not finite is refused by 21.
        """
        lent = _numbers.many(xs, "xs")
        return self._told_all(load().havgrunel_values, lent.like, lent.count, *lent.whole())

    def primitives(self, xs: Many) -> Any:
        """The total of all prices from the first knot up to each of xs, as `values` has it."""
        lent = _numbers.many(xs, "xs")
        return self._told_all(load().havgrunel_primitives, lent.like, lent.count, *lent.whole())

    def strips(self, starts: Many, ends: Many) -> Any:
        """The average price from each of starts to the entry beside it in ends, each what `strip` answers, as the kind of sequence that starts is.

        All or nothing: where one is refused, Refused says which strip was the first. Refused by 1 where there are more of one than of the other.
        """
        first, second = _numbers.many(starts, "starts"), _numbers.many(ends, "ends")
        if first.count != second.count:
            raise Refused(1)
        return self._told_all(load().havgrunel_strips, first.like, first.count, *first.whole(), *second.whole())

    def averages(self, edges: Many) -> Any:
        """The average price from each edge to the next, each what `strip` answers: one answer less than there are edges, which must rise.

        It comes as the kind of sequence that the edges are; a pandas Series has the index of the left edges. All or nothing: where one is refused,
        Refused says which edge is to blame. Of an average that is not finite, refused by 21, it is the edge whose total is not, and the right one where
        both totals are finite and only their difference is not.
        """
        lent = _numbers.many(edges, "edges")
        if lent.count == 0:
            raise ValueError("there are no edges, and averages lie between them")
        try:
            return self._told_all(load().havgrunel_strip_run, lent.like, lent.count - 1, *lent.whole())
        except Refused as refused:
            raise Refused(refused.number, self._edge_to_blame(lent, refused)) from None

    def _told(self, function: Callable[..., int], *points: float) -> float:
        return _single(function, *self._asked, *points)

    def _told_all(self, function: Callable[..., Told], like: Kind, count: int, *lent: Any) -> Any:
        """So many answers of one call. Where it is refused, it says itself for which, and tells the count of all where none is to blame."""
        answers = like.room(count)
        told = function(*self._asked, *lent, _numbers.pointer(answers, 0, count), count)
        if told.refusal:
            raise Refused(told.refusal, told.query if told.query < count else None)
        return like.given(answers)

    def _edge_to_blame(self, edges: Lent, refused: Refused) -> Optional[int]:
        """The edge for which a strip of a run is refused: the right one, unless the left one is the first edge of all and is refused so by itself. The left
        edge of any other strip is the right one of a strip that was answered, so its total is there, and finite."""
        strip = refused.index
        if strip is None:
            return None
        answer = ctypes.c_double()
        first = strip == 0 and load().havgrunel_primitives(*self._asked, *edges.part(0, 1), ctypes.byref(answer), 1).refusal == refused.number
        return 0 if first else strip + 1

    # ---- As an object ----

    def __repr__(self) -> str:
        settings = f"quadraticity {self._method.quadraticity:g}, monotonicity {self._method.monotonicity:g}"
        periods = len(self._tags)
        split = f", {self._method.split} split" if self._method.split != SPLITS[0] else ""
        return (
            f"<Curve of {periods} period{'s' * (periods != 1)} from {self._knots[0]:g} to {self._knots[-1]:g}, {settings}, "
            f"positivity {'on' if self._method.positivity else 'off'}{split}>"
        )

    def __reduce__(self) -> Tuple[Any, ...]:
        buffers = (self._knots, self._traded, self._nodes, self._tags, self._slots)
        return _again, (type(self), *buffers, self._tail, self._method, self._hold, self._extrapolate, self._column)


def _again(cls: Type[Curve], *parts: Any) -> Curve:
    """A curve from its parts, for pickle. One that was pickled by a version with other records cannot be asked by this one."""
    curve = cls.__new__(cls)
    curve._set(*parts)
    if len(curve._slots) != SLOTS * len(curve._tags):
        raise ValueError(f"the curve was pickled with {len(curve._slots) // len(curve._tags)} slots to a record, and there are {SLOTS} now: build it again")
    return curve


def _single(function: Callable[..., int], *lent: Any) -> float:
    """The one number that a call answers."""
    answer = ctypes.c_double()
    number = function(*lent, ctypes.byref(answer), 1)
    if number:
        raise Refused(number)
    return answer.value


def _method(method: Optional[Method]) -> Method:
    if method is None:
        return Method()
    if not isinstance(method, Method):
        raise TypeError(f"the method is a {type(method).__name__}, and a Method is meant, as Method(quadraticity=0.3)")
    return method


def _own(numbers: Many, what: str) -> "array[float]":
    """A copy of the caller's numbers that is the curve's own."""
    return _numbers.many(numbers, what).copy()


def _table(xs: "array[float]", ys: "array[float]", method: Method) -> Tuple[Any, ...]:
    return (*_lent(xs), *_lent(ys), *_settings(method))


def _settings(method: Method) -> Tuple[Any, ...]:
    return method.quadraticity, method.monotonicity, method.positivity, SPLITS.index(method.split)


def _seam(seam: Optional[Tuple[int, float]]) -> Tuple[bool, int, float]:
    """Whether there is a seam, its count and its node."""
    return (False, 0, 0.0) if seam is None else (True, _numbers.count(seam[0], "the seam's count"), _numbers.one(seam[1], "the seam's node"))


def _build_refusal(number: int, xs: "array[float]", ys: "array[float]", cuts: Iterable[int] = ()) -> None:
    """Raises the refusal of a build, with the knot, average or cut that is to blame."""
    if number == 0:
        return
    to_blame = {
        5: (not math.isfinite(x) for x in xs),
        6: (not math.isfinite(y) for y in ys),
        7: (k > 0 and not xs[k - 1] < x for k, x in enumerate(xs)),
        29: (k > 0 and y < 0 for k, y in enumerate(ys)),
        28: (not before < cut < len(xs) - 1 for before, cut in zip([0, *cuts], cuts)),
    }
    raise Refused(number, next((k for k, fault in enumerate(to_blame.get(number, ())) if fault), None))
