"""The lines of a table, of a text or of a CSV file, as knots and averages.

A table has one of two forms, told by its first line. By knots: one knot alone, then a knot and the average of the period that ends there. By periods: a
period by its name and its price, START END PRICE, where END is where the next period starts, or months, quarters or years in a row with a price to each.
"""

import calendar
import datetime
import re
from dataclasses import dataclass
from typing import List, Optional, Tuple, Union

from .faults import Bad, BadByRefusal, Located, clipped, of, quoted
from .months import A_DAY
from .periods import NAMES, Item, Moment, Months, first_days, items, number, span, two_ends, unknown, whole_year
from .refusals import Refused

Point = Union[float, Moment]

KNOTS, PERIODS = "knots", "periods"

# The word that a row of periods starts with: the size of one of them, and which months make a row, as is told where the library refuses them.
ROWS = {
    "months": ("month", "the last month of a row may not come before its first"),
    "quarters": ("quarter", "a row of quarters starts in January, April, July or October, and its last month ends a quarter"),
    "years": ("year", "a row of years starts in January and ends in December"),
}
ROW = re.compile(rf"\s*({'|'.join(ROWS)})\b\s*:?([^:]*)(?::(.*))?", re.IGNORECASE | re.DOTALL)
ROW_FORM = "periods in a row are written months 2026-10 to 2027-03: 29.40 31.85 .., and quarters or years likewise"


def kind_of(found: Item) -> str:
    return "a number" if found.kind == "number" else "a timestamp" if found.clocked else "a day"


def price(found: Item) -> float:
    """The number in a price's place."""
    if found.kind in ("moment", "period"):
        raise Bad(f"{quoted(found.text)} is {'a period' if found.kind == 'period' else kind_of(found)}, and a price stands here")
    return number(found.text)


def year(found: Item) -> Optional[Months]:
    return whole_year(found.text) if found.kind == "number" else None


def is_year_line(found: List[Item]) -> bool:
    """Whether a line is a year by its four digits and its price."""
    return len(found) == 2 and year(found[0]) is not None


def is_row(text: str) -> bool:
    """Whether a line has periods in a row."""
    return ROW.match(text) is not None


@dataclass
class Row:
    """Periods of one size in a row: what its line calls them, and where each ends. `given` counts the averages so far."""

    text: str
    size: str
    line: int
    ends: List[Moment]
    given: int = 0

    def told(self, given: int) -> str:
        """What is told of a row with so many averages."""
        return f"{quoted(self.text)} takes {of(len(self.ends), 'average')}, one to each {self.size}, and has {given}"


def told(point: Point, clocked: bool) -> str:
    """A start or an end in a message."""
    if isinstance(point, float):
        return repr(point)[:-2] if repr(point).endswith(".0") else repr(point)
    return point.isoformat(" ", "minutes") if clocked or (point.hour, point.minute, point.second) != (0, 0, 0) else point.date().isoformat()


class Quotes:
    """Knots and averages as lines give them, each with its line. The first average stands for no period."""

    def __init__(self, first_not_read: bool = False) -> None:
        self.first_not_read = first_not_read
        self.form: Optional[str] = None
        self.points: List[Point] = []
        self.averages: List[float] = []
        # The line of each knot, and of the average that stands with it.
        self.lines: List[int] = []
        self.clocked = False
        self.by_ends = False
        # The row that the lines go on with, until another period starts.
        self.row: Optional[Row] = None
        # Lines that may say something else than was meant.
        self.doubts: List[Tuple[int, str]] = []

    def add(self, found: List[Item], line: int) -> None:
        """Takes one line."""
        if self.row is not None and self.goes_on(self.row, found):
            self.fill(self.row, found, line)
            return
        self.end_row()
        if self.form is None:
            self.form = self.form_of(found)
        if self.form == KNOTS:
            self.add_knot(found, line)
        else:
            self.add_period(found, line)

    def form_of(self, found: List[Item]) -> str:
        first = found[0]
        if self.first_not_read:
            return KNOTS
        if first.kind == "other":
            raise unknown(first)
        if first.kind == "period" or is_year_line(found):
            return PERIODS
        if len(found) == 1:
            return KNOTS
        if len(found) == 3 and found[1].is_point:
            return PERIODS
        if len(found) == 2:
            price(found[1])
            raise Bad(first_average(first, found[1]))
        raise Bad("a table's first line is a knot alone, a period and its price, or START END PRICE")

    def point(self, found: Item) -> Point:
        """A knot, a start or an end. All are numbers, or all are days and timestamps."""
        if found.kind == "other":
            raise unknown(found)
        if found.kind == "period":
            if self.form == KNOTS:
                raise Bad(f"{quoted(found.text)} is a period, and a knot stands here; in a table of periods the first line has a price too")
            raise Bad(f"{quoted(found.text)} is a period, and a day stands here")
        if self.points and isinstance(self.points[0], float) != (found.kind == "number"):
            raise Bad(f"{quoted(found.text)} is {kind_of(found)}, and the first knot is {'a number' if isinstance(self.points[0], float) else 'a date'}")
        self.clocked = self.clocked or found.clocked
        return number(found.text) if found.moment is None else found.moment

    def add_knot(self, found: List[Item], line: int) -> None:
        if len(found) > 2:
            raise Bad("a knot's line has the knot and one average")
        knot = self.point(found[0])
        if self.points and len(found) == 1:
            raise Bad("the period that ends at this knot has no average")
        self.averages.append(price(found[1]) if len(found) == 2 else 0.0)
        self.keep(knot, line)

    def keep(self, knot: Point, line: int) -> None:
        self.points.append(knot)
        self.lines.append(line)

    def add_period(self, found: List[Item], line: int) -> None:
        start, end, by_ends = self.ends(found)
        if not start < end:
            raise Bad(f"the period ends at {told(end, self.clocked)}, which is not after its start, {told(start, self.clocked)}")
        if self.points:
            self.adjoin(start, end)
        else:
            self.averages.append(0.0)
            self.keep(start, line)
        self.averages.append(price(found[-1]))
        self.keep(end, line)
        self.by_ends = by_ends
        doubt = doubted(start, end, "period") if by_ends else ""
        if doubt:
            self.doubts.append((line, doubt))

    def add_row(self, text: str, line: int) -> None:
        """Takes the line that a row of periods starts with. Its averages stand there, in the lines that follow, or both."""
        self.end_row()
        parts = ROW.fullmatch(text)
        assert parts is not None
        word, ends = parts[1].lower(), two_ends(parts[2])
        if ends is None:
            raise Bad(ROW_FORM)
        called = f"{word} {ends[0].text} to {ends[1].text}"
        if self.form == KNOTS or self.first_not_read:
            raise Bad(f"{quoted(called)} is a row of periods, and a knot stands here")
        if self.counts():
            raise Bad(f"{quoted(called)} is a row of periods, and the first knot is a number")
        start, *rest = row_days(word, *ends, called)
        if self.points:
            self.adjoin(start, rest[-1])
        else:
            self.form = PERIODS
            self.averages.append(0.0)
            self.keep(start, line)
        self.by_ends = False
        self.row = Row(called, ROWS[word][0], line, rest)
        self.fill(self.row, items(parts[3] or ""), line)

    def goes_on(self, row: Row, found: List[Item]) -> bool:
        """Whether a line has more averages of the row. A year and its price are a period of their own. A word that is nothing is a slip in an average, unless
        the row has them all."""
        if found[0].kind == "other":
            return row.given < len(row.ends)
        return found[0].kind == "number" and not is_year_line(found)

    def fill(self, row: Row, found: List[Item], line: int) -> None:
        prices = [price(one) for one in found]
        if row.given + len(prices) > len(row.ends):
            raise Bad(row.told(row.given + len(prices)))
        for one in prices:
            self.averages.append(one)
            self.keep(row.ends[row.given], line)
            row.given += 1

    def end_row(self) -> None:
        """The end of a row, where there is one: it has all its averages."""
        row, self.row = self.row, None
        if row is not None and row.given < len(row.ends):
            raise Located(row.line, row.told(row.given))

    def ends(self, found: List[Item]) -> Tuple[Point, Point, bool]:
        """Where a line's period starts and ends, and whether it says so itself."""
        first = found[0]
        named = first.months or (year(first) if len(found) < 3 and not self.counts() else None)
        if named is not None:
            if self.counts():
                raise Bad(f"{quoted(first.text)} is a period, and the first knot is a number")
            if len(found) == 1:
                raise Bad(f"the period {quoted(first.text)} has no price")
            if len(found) > 2:
                raise Bad("a period by its name has one price, and nothing else stands in its line")
            return (*span(named), False)
        if first.kind == "other":
            raise unknown(first)
        if len(found) != 3:
            raise Bad(f"{quoted(first.text)} is no period: a line is a period and its price, or START END PRICE; periods are {NAMES}")
        start = self.point(first)
        if not self.points:
            # The second point is of the first one's kind, though nothing is kept yet.
            if found[1].is_point and (found[1].kind == "number") != (first.kind == "number"):
                raise Bad(f"{quoted(found[1].text)} is {kind_of(found[1])}, and the period starts at {kind_of(first)}")
        return start, self.point(found[1]), True

    def counts(self) -> bool:
        """Whether the knots so far are numbers."""
        return bool(self.points) and isinstance(self.points[0], float)

    def adjoin(self, start: Point, end: Point) -> None:
        """A period starts where the one before it ends."""
        before, after, line = self.points[-2], self.points[-1], self.lines[-1]
        if start == after:
            return
        if (start, end) == (before, after):
            raise Bad(f"the period of line {line} stands here again")
        here, there = self.told_span(start, end), self.told_span(before, after)
        if end <= before:
            raise Bad(f"this period ({here}) comes before that of line {line} ({there}); periods stand in the order of time")
        if start < after:
            raise Bad(f"this period ({here}) and that of line {line} ({there}) overlap")
        ends, starts = told(after, self.clocked), told(start, self.clocked)
        what = f"there is a gap between line {line} and this one: that period ends at {ends}, and this one starts at {starts}"
        if self.by_ends and not self.counts() and start - after == A_DAY:
            what += "; END is the day after the last day, where the next period starts"
        raise Bad(what)

    def told_span(self, start: Point, end: Point) -> str:
        return f"{told(start, self.clocked)} to {told(end, self.clocked)}"

    def knots(self) -> List[float]:
        """The knots as numbers: days since the first where all are days, hours since the first where one is a timestamp."""
        if not self.points or self.counts():
            return list(self.points)
        return [distance(self.points[0], point, self.clocked) for point in self.points]


def row_days(word: str, first: Item, last: Item, called: str) -> List[Moment]:
    """Where the periods of a row start and the last one ends: from the first month of one name to the last month of the other."""
    months = []
    for one in first, last:
        named = one.months or year(one)
        if named is None:
            raise Bad(f"{quoted(one.text)} is no month, quarter, season or year; {ROW_FORM}")
        months.append(named)
    size, whole = ROWS[word]
    try:
        return first_days(months[0][0], months[1][0] + months[1][1] - 1, size)
    except Refused as refused:
        raise BadByRefusal(called, refused, f"; {whole}") from None


def distance(start: Moment, moment: Moment, hours: bool) -> float:
    """Days or hours from the start on, rounded once."""
    passed = moment - start
    return (passed.days * 86400 + passed.seconds) / (3600 if hours else 86400)


def doubted(start: Point, end: Point, what: str) -> str:
    """What is told of an end that was written as the last day, by the looks of it; nothing of others."""
    if not isinstance(start, datetime.datetime) or not isinstance(end, datetime.datetime) or not is_last_day(start, end):
        return ""
    return f"END is the day after the last day, so that {told(end, False)} is no part of this {what}"


def is_last_day(start: Moment, end: Moment) -> bool:
    """Whether a period of whole months was written with its last day for its end, by the looks of it."""
    return start.day == 1 and end.day == calendar.monthrange(end.year, end.month)[1] and (end.hour, end.minute, end.second) == (0, 0, 0)


def first_average(first: Item, second: Item) -> str:
    """What is told of an average on the first knot. A list of months by their first days was read one month off by it."""
    if first.kind == "moment":
        ways = f"name the periods ({first.moment.year:04}-{first.moment.month:02} {clipped(second.text)}), write START END PRICE"
    else:
        ways = "write START END PRICE"
    return f"the first knot has an average, and no period ends there: {ways}, or set 'first average: not read'"
