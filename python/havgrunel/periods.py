"""The words of a table: numbers, days, timestamps and the names of periods.

Where a named period starts and ends is read from the library's table of months, and beyond its years from Python's calendar, which otherwise only names those
days.
"""

import datetime
import functools
import math
import re
from dataclasses import dataclass
from typing import List, Optional, Tuple

from ._library import load
from .faults import Bad, quoted
from .months import A_DAY, ISO_MONTH, MONTHS, START, month_knots, month_number

Moment = datetime.datetime
Span = Tuple[Moment, Moment]
# A period by its name: its first month, as the library counts them, and how many it has.
Months = Tuple[int, int]

# What messages show of the forms that are taken.
NAMES = "2026-10, Oct-26, 2026-Q4, Q4-26, winter 2026, Win-26, summer 2027, Sum-27, 2027, Cal-27"
FORMS = f"2026-10-01, 2026-10-01 14:00, {NAMES}, or a number"

WHOLE_NAMES = ["january", "february", "march", "april", "may", "june", "july", "august", "september", "october", "november", "december"]
MONTH_NAMES = {name: k + 1 for k, whole in enumerate(WHOLE_NAMES) for name in (whole, whole[:3])}
MONTH_NAMES["sept"] = 9
# A season's first month: gas has its winter from October to March, and its summer from April to September.
SEASONS = {"winter": 10, "win": 10, "summer": 4, "sum": 4}

NUMBER = re.compile(r"[+-]?([0-9]+(\.[0-9]*)?|\.[0-9]+)([eE][+-]?[0-9]+)?")
NO_NUMBER = re.compile(r"[+-]?(nan|inf)", re.IGNORECASE)
DAY = re.compile(r"[0-9]{4}-[0-9]{2}-[0-9]{2}")
CLOCK = r"([0-9]{1,2}):([0-9]{2})(?::([0-9]{2})(?:\.0+)?)?"
ZONE = r"(Z|UTC|GMT|[+-][0-9]{2}:?[0-9]{2})?"
TIME = re.compile(CLOCK + ZONE, re.IGNORECASE)
STAMP = re.compile(r"([0-9]{4}-[0-9]{2}-[0-9]{2})[T ]" + CLOCK + ZONE, re.IGNORECASE)
YEAR = re.compile(r"(?:19|20|21)[0-9]{2}")
ISO_QUARTER = re.compile(r"([0-9]{4})[- ]?Q([1-4])", re.IGNORECASE)
QUARTER = re.compile(r"Q([1-4])[- ]([0-9]{4}|[0-9]{2})", re.IGNORECASE)
NAMED = re.compile(r"([a-z]+)[- ]?([0-9]{4}|[0-9]{2})(?:/([0-9]{4}|[0-9]{2}))?", re.IGNORECASE)


@dataclass(frozen=True)
class Item:
    """One word of a line, or two that belong together: 'number', 'moment', 'period' or 'other'. A clocked moment was written with its time of day."""

    kind: str
    text: str
    moment: Optional[Moment] = None
    months: Optional[Months] = None
    clocked: bool = False

    @property
    def is_point(self) -> bool:
        return self.kind in ("number", "moment")


def number(word: str) -> float:
    """The number that a word says. Python's own reader takes more than a person means by one: 1_000, or 1e999 for infinity."""
    if NO_NUMBER.fullmatch(word):
        return float(word)
    if not NUMBER.fullmatch(word):
        raise Bad(f"{quoted(word)} is not a number{number_hint(word)}")
    value = float(word)
    if math.isinf(value):
        raise Bad(f"{quoted(word)} is too large for a 64-bit float")
    if value == 0 and re.search("[1-9]", re.split("[eE]", word)[0]):
        raise Bad(f"{quoted(word)} is too small for a 64-bit float")
    return value


def number_hint(word: str) -> str:
    """Why a word that looks much like a number is none."""
    if re.fullmatch(r"[+-]?[0-9][0-9.,_']*", word) and re.search(r"[,_'][0-9]", word) and not re.search(r"[,.]$", word):
        return ": the decimal sign is a point, and digits are not grouped"
    return separator_hint(word)


def separator_hint(word: str) -> str:
    """A comma or semicolon between two words was meant to part them."""
    if "," in word or ";" in word or "|" in word:
        return ": words are parted by blanks here; commas and semicolons are for a file whose name ends in .csv"
    return ""


def day(word: str) -> Moment:
    try:
        return datetime.datetime.fromisoformat(word)
    except ValueError:
        raise Bad(f"there is no day {quoted(word)}") from None


def stamp(text: str) -> Moment:
    """The moment of a timestamp, which has no zone."""
    found = STAMP.fullmatch(text)
    if found is None:
        raise Bad(f"{quoted(text)} is no timestamp; one is 2026-10-01 14:00")
    date, hour, minute, second, zone = found.groups()
    if zone:
        raise Bad(f"{quoted(text)} has a zone; timestamps are taken without one, and clock changes are not handled")
    if int(hour) > 23 or int(minute) > 59 or int(second or 0) > 59:
        raise Bad(f"there is no time {quoted(text[11:])}" + ("; the end of a day is 00:00 of the next" if int(hour) == 24 else ""))
    return day(date) + datetime.timedelta(hours=int(hour), minutes=int(minute), seconds=int(second or 0))


def full_year(word: str) -> int:
    return 2000 + int(word) if len(word) == 2 else int(word)


def whole_year(text: str) -> Optional[Months]:
    """The months of a year that is written as four digits, and nothing where the word is none."""
    return (month_number(int(text), 1), 12) if YEAR.fullmatch(text) else None


def months_of(text: str) -> Optional[Months]:
    """The months of a period by name, and nothing where the text is no such name. A year by its four digits alone is a number here."""
    found = ISO_MONTH.fullmatch(text)
    if found:
        if not 1 <= int(found[2]) <= 12:
            raise Bad(f"there is no month {quoted(text)}")
        return month_number(int(found[1]), int(found[2])), 1
    found = ISO_QUARTER.fullmatch(text)
    if found:
        return month_number(int(found[1]), 3 * int(found[2]) - 2), 3
    found = QUARTER.fullmatch(text)
    if found:
        return month_number(full_year(found[2]), 3 * int(found[1]) - 2), 3
    found = NAMED.fullmatch(text)
    if found:
        return named_months(found[1].lower(), full_year(found[2]), found[3])
    return None


def named_months(name: str, year: int, until: Optional[str]) -> Optional[Months]:
    """The months of a month, a season or a year by its name. A winter may tell both of its years: winter 2026/27."""
    if until is not None and (SEASONS.get(name) != 10 or full_year(until) != year + 1):
        return None
    if name in MONTH_NAMES:
        return month_number(year, MONTH_NAMES[name]), 1
    if name in SEASONS:
        return month_number(year, SEASONS[name]), 6
    return (month_number(year, 1), 12) if name == "cal" else None


def first_days(first: int, last: int, size: str = "month") -> List[Moment]:
    """The day on which each period from one month to another starts, and the day after the last, by the library. Where that is still to be made, it is
    shown."""
    load(progress=True)
    return [START + days * A_DAY for days in month_knots(first, last, size)]


@functools.lru_cache(maxsize=None)
def all_first_days() -> List[Moment]:
    """Those of all months that the library knows. They are asked for once, when a period is first named."""
    return first_days(0, MONTHS - 1)


def first_day(month: int) -> Moment:
    """The first day of a month by Python's calendar, for periods beyond the library's years."""
    return datetime.datetime(START.year + month // 12, month % 12 + 1, 1)


def in_calendar(text: str, months: Months) -> Months:
    """The months of a period that ends within the years that Python's calendar has."""
    try:
        first_day(months[0]), first_day(sum(months))
    except ValueError:
        raise Bad(f"{quoted(text)} is beyond the calendar") from None
    return months


def span(months: Months) -> Span:
    """Where a period of so many months starts and ends: by the library's table, and beyond its years by Python's calendar."""
    (first, count), days = months, all_first_days()
    if 0 <= first < first + count < len(days):
        return days[first], days[first + count]
    return first_day(first), first_day(first + count)


def item(text: str) -> Item:
    """What one text says, be it one word or two."""
    if NUMBER.fullmatch(text) or NO_NUMBER.fullmatch(text):
        return Item("number", text)
    if DAY.fullmatch(text):
        return Item("moment", text, moment=day(text))
    if STAMP.fullmatch(text):
        return Item("moment", text, moment=stamp(text), clocked=True)
    months = months_of(text)
    return Item("other", text) if months is None else Item("period", text, months=in_calendar(text, months))


def items(text: str) -> List[Item]:
    """The words of a line; a day and its time are one item, and so are a period's name and its year."""
    words = text.replace("\u2212", "-").split()
    found, k = [], 0
    while k < len(words):
        two = " ".join(words[k : k + 2])
        joined = item(two) if k + 1 < len(words) and may_join(words[k], words[k + 1]) else None
        if joined is not None and joined.kind in ("moment", "period"):
            found.append(joined)
            k += 2
        else:
            found.append(item(words[k]))
            k += 1
    return found


def may_join(first: str, second: str) -> bool:
    """Two words that may be one item: a day and a time, a name and a year, a year and a quarter."""
    if DAY.fullmatch(first):
        return TIME.fullmatch(second) is not None
    return re.fullmatch(r"[A-Za-z]+|Q[1-4]", first, re.IGNORECASE) is not None or re.fullmatch("Q[1-4]", second, re.IGNORECASE) is not None


def two_ends(text: str) -> Optional[Tuple[Item, Item]]:
    """The two items of 'START to END', and nothing where the text is not so."""
    parts = [items(part) for part in re.split(r"\bto\b", text, flags=re.IGNORECASE)]
    return (parts[0][0], parts[1][0]) if [len(part) for part in parts] == [1, 1] else None


def unknown(found: Item) -> Bad:
    """What is told of a word that stands where a knot or a period should."""
    low = found.text.lower()
    if low in MONTH_NAMES or low in SEASONS or low == "cal" or re.fullmatch("q[1-4]", low):
        return Bad(f"{quoted(found.text)} has no year; taken are {FORMS}")
    if found.text.isalpha():
        return Bad(f"{quoted(found.text)} is neither a word that asks (daily, hourly, every STEP, at POINT .., strip: START to END) nor a knot or period; those are {FORMS}")
    hint = separator_hint(found.text)
    if hint:
        return Bad(f"{quoted(found.text)} is no knot and no period{hint}")
    return Bad(f"{quoted(found.text)} is not a number, a day or a period; taken are {FORMS}")
