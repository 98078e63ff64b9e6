"""The marks of an axis and their labels: round numbers, first days of months, days, hours.

A mark is a pair: where it stands, in the axis's own numbers, and its label.
"""

import datetime
import math
from decimal import ROUND_CEILING, Decimal
from typing import Callable, Iterator, List, Optional, Tuple

Mark = Tuple[float, str]
# Says of marks whether their labels have room beside each other.
Fits = Callable[[List[Mark]], bool]

MONTHS = ("Jan", "Feb", "Mar", "Apr", "May", "Jun", "Jul", "Aug", "Sep", "Oct", "Nov", "Dec")
# How far marks may lie apart: in minutes up to two weeks, and then in months.
_MINUTES = (1, 5, 15, 30, 60, 120, 180, 360, 720, 1440, 2880, 10080, 20160)
_APART = (1, 2, 3, 6, 12, 24, 60, 120, 240, 600, 1200)
_DAY = 1440


def numbers(low: float, high: float, most: int) -> List[Mark]:
    """Round numbers from low to high, at most so many and one more."""
    span = Decimal(high) - Decimal(low)
    exponent = (span / most).adjusted()
    for size in ("1", "2", "2.5", "5", "10"):
        step = Decimal(size).scaleb(exponent)
        if span / step <= most:
            break
    first = (Decimal(low) / step).to_integral_value(ROUND_CEILING)
    found: List[Decimal] = []
    while (first + len(found)) * step <= Decimal(high):
        found.append((first + len(found)) * step)
    return list(zip(map(float, found), _labels(found, step)))


def _labels(found: List[Decimal], step: Decimal) -> List[str]:
    """The labels of round numbers: as they are where that is short, else in millions (1.2M) or with a power of ten that all share (3e-7)."""
    plain = _written(found, step, 0, "")
    power = max(abs(number) for number in found).adjusted()
    if 6 <= power < 9:
        short = _written(found, step, 6, "M")
    else:
        short = _written(found, step, power, f"e{power}")
    longest = max(map(len, plain))
    return plain if longest <= 6 or longest <= max(map(len, short)) else short


def _written(found: List[Decimal], step: Decimal, power: int, sign: str) -> List[str]:
    digits = max(0, -int(step.scaleb(-power).normalize().as_tuple().exponent))
    texts = [f"{number.scaleb(-power):.{digits}f}{sign}" if number else "0" for number in found]
    return [text.replace("-", "−") for text in texts]


def fitting_numbers(low: float, high: float, fits: Fits) -> List[Mark]:
    """As many round numbers as have room, ten at the most."""
    for most in (10, 8, 6, 5, 4, 3, 2):
        marks = numbers(low, high, most)
        if fits(marks):
            return marks
    return marks[:1]


def moments(start: datetime.date, minutes: int, low: float, high: float, fits: Fits) -> List[Mark]:
    """Round times from low to high, as many as have room: first days of months where there are three, else days or hours. An axis counts in so many
    minutes since the start."""
    began = datetime.datetime(start.year, start.month, start.day)
    if isinstance(start, datetime.datetime):
        began = start
    none: List[Mark] = []
    months = next((marks for marks in _by_months(began, minutes, low, high) if fits(marks)), none)
    if len(months) >= 3:
        return months
    return next((marks for marks in _by_clock(began, minutes, low, high) if marks and fits(marks)), months)


def _by_months(began: datetime.datetime, minutes: int, low: float, high: float) -> Iterator[List[Mark]]:
    """Months, the closest first, but for those that are far too many."""
    for apart in _APART:
        if (high - low) * minutes / _DAY / 31 / apart <= 40:
            yield _month_marks(began, minutes, low, high, apart)


def _by_clock(began: datetime.datetime, minutes: int, low: float, high: float) -> Iterator[List[Mark]]:
    """Days and hours, the closest first. A table of days has hours only where it is of two days at the most."""
    for apart in _MINUTES:
        if (high - low) * minutes / apart <= 40 and (apart >= _DAY or minutes < _DAY or high - low <= 2):
            yield _clock_marks(began, minutes, low, high, apart)


def _clock_marks(began: datetime.datetime, minutes: int, low: float, high: float, apart: int) -> List[Mark]:
    """Times that lie so many minutes apart, counted from a midnight; weeks begin on Mondays. The first label tells the year where it is a day's."""
    anchor = datetime.datetime(began.year, began.month, began.day)
    if apart % (7 * _DAY) == 0:
        anchor -= datetime.timedelta(anchor.weekday())
    offset = (anchor - began) / datetime.timedelta(minutes=1)
    count = math.ceil((low * minutes - offset) / apart)
    marks: List[Mark] = []
    while offset + count * apart <= high * minutes:
        at = (offset + count * apart) / minutes
        marks.append((at, _clock_label(anchor + datetime.timedelta(minutes=count * apart), not marks)))
        count += 1
    return marks


def _clock_label(moment: datetime.datetime, first: bool) -> str:
    day = f"{moment.day} {MONTHS[moment.month - 1]}"
    clock = f"{moment.hour:02}:{moment.minute:02}"
    if clock == "00:00":
        return f"{day} {moment.year}" if first else day
    return f"{day} {clock}" if first else clock


def _month_marks(began: datetime.datetime, minutes: int, low: float, high: float, apart: int) -> List[Mark]:
    """First days of months, so many months apart."""
    at = _time(began, minutes, low)
    if at is None:
        return []
    month = -(-(at.year * 12 + at.month - 1) // apart) * apart
    marks: List[Mark] = []
    while month // 12 <= 9999:
        moment = datetime.datetime(month // 12, month % 12 + 1, 1)
        place = (moment - began) / datetime.timedelta(minutes=minutes)
        if place > high:
            break
        if place >= low:
            marks.append((place, f"{MONTHS[month % 12]} {month // 12}"))
        month += apart
    return marks


def _time(began: datetime.datetime, minutes: int, at: float) -> Optional[datetime.datetime]:
    try:
        return began + datetime.timedelta(minutes=at * minutes)
    except OverflowError:
        return None
