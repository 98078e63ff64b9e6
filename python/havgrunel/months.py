"""Delivery months: the days on which months, quarters and years from 2000 to 2099 start, as a proved function of the library has them.

A month is a whole number, January 2000 being 0, and a knot counts days from 1 January 2000 on. Which months make whole periods, and where those start, the
library decides; Python only reads what a caller calls a month.
"""

import ctypes
import datetime
import re
from array import array
from typing import Tuple, Union

from . import _numbers
from ._library import load
from .faults import quoted
from .refusals import Refused

Month = Union[int, str, datetime.date]

# How many months a period of each size has.
SIZES = {"month": 1, "quarter": 3, "year": 12}

# Where months and days are counted from, and how many months there are up to December 2099.
START = datetime.datetime(2000, 1, 1)
MONTHS = 1200

A_DAY = datetime.timedelta(1)
ISO_MONTH = re.compile(r"([0-9]{4})-([0-9]{2})")

# The whole numbers that the library takes for a month.
_LEAST, _MOST = -(2**63), 2**63 - 1


def month_knots(first: Month, last: Month, size: str = "month") -> "array[float]":
    """The knots of delivery periods from the first month to the last, both included: the first day of each period, and the day after the last one.

    A month is a text as "2026-10", a date or datetime, which stands for its month, or a whole number counted from January 2000, which is 0. The size of a
    period is "month", "quarter" or "year". A knot counts days from 1 January 2000, which is 0.0.

    Refused by 19 unless the months are whole periods: between January 2000 and December 2099, from the first month of a period to the last of one.
    """
    library = load()
    # There is room for all months, so that the library alone counts the knots.
    knots, count = _numbers.zeros(MONTHS + 1), ctypes.c_size_t()
    number = library.havgrunel_month_knots(*month_range(first, last, size), _numbers.pointer(knots, 0, len(knots)), len(knots), ctypes.byref(count), 1)
    if number:
        raise Refused(number)
    return knots[: count.value]


def day_number(day: datetime.date) -> float:
    """Where a curve of months has a day: how many days it lies after 1 January 2000. Of a datetime, which has no zone, the hours count as part of a day."""
    moment = day if isinstance(day, datetime.datetime) else datetime.datetime(day.year, day.month, day.day)
    return (moment - START) / A_DAY


def month_number(year: int, month: int) -> int:
    """A month of a year, from 1 to 12, as the library counts months."""
    return (year - START.year) * 12 + month - 1


def month_range(first: Month, last: Month, size: str) -> Tuple[int, int, int]:
    """The first month, the last and the months of a period, as a call takes them."""
    months = SIZES[_numbers.word(size, "the size", tuple(SIZES))]
    return _number(first, "the first month"), _number(last, "the last month"), months


def _number(month: Month, what: str) -> int:
    """A month as a number that the library takes. One that 64 bits don't hold lies in no year that it knows, and neither does the last that they hold."""
    if isinstance(month, str):
        found = ISO_MONTH.fullmatch(month)
        if found is None or not 1 <= int(found[2]) <= 12:
            raise ValueError(f"{what} is {quoted(month)}, and a month is written as 2026-10, from 01 to 12")
        return month_number(int(found[1]), int(found[2]))
    number = _numbers.whole(month_number(month.year, month.month) if isinstance(month, datetime.date) else month, what)
    return min(max(number, _LEAST), _MOST)
