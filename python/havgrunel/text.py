"""An order as a person writes it: settings, a table, and what is asked, with the line of each."""

import datetime
import math
import re
from dataclasses import dataclass, field
from fractions import Fraction
from typing import Callable, Collection, Dict, List, Optional, Sequence, Tuple, Union

from .curve import SPLITS
from .faults import Bad, Located, Stop, clipped, quoted
from .periods import Item, items, number, two_ends, unknown
from .quotes import Quotes, distance, doubted, is_row, kind_of

# A century of days and more, or four years of hours. It keeps a slip in a date from asking for rows without end.
MOST_ROWS = 40000

# Where something was said: a line of the file, or an option of the command line.
Line = Union[int, str]


@dataclass
class Points:
    """Points that are asked for one by one, of all lines that ask so: as numbers, as they were written, and the line of each."""

    at: List[float]
    shown: List[str]
    lines: List[Line]
    word = "at"

    def add(self, more: "Points") -> None:
        self.at += more.at
        self.shown += more.shown
        self.lines += more.lines


class Strips(Points):
    """Strips, of all lines that ask for one: the start and the end of each, one after the other, as points are."""

    word = "strip"

    @property
    def starts(self) -> List[float]:
        return self.at[::2]

    @property
    def ends(self) -> List[float]:
        return self.at[1::2]


@dataclass
class Rows:
    """Rows from the first knot to the last: 'daily', 'hourly' or 'every 0.25', and the edges between them. The last row may be shorter than the others."""

    line: Line
    word: str
    step: float
    at: List[float]

    @property
    def lines(self) -> List[Line]:
        return [self.line] * len(self.at)


@dataclass
class Knots:
    """The knots themselves, with the price at either side of each."""

    at: List[float]


# What is asked has its points in `at`, whatever is told of them.
Asked = Union[Points, Strips, Rows, Knots]


@dataclass
class Order:
    """An order, as it was read. The first average is 0.0 where it was left out. With dates, knots count days or hours from the start on."""

    name: str
    settings: Dict[str, object]
    unit: str = ""
    dates: bool = False
    start: Union[datetime.date, datetime.datetime, None] = None
    knots: List[float] = field(default_factory=list)
    averages: List[float] = field(default_factory=list)
    asked: List[Asked] = field(default_factory=list)
    knot_lines: List[int] = field(default_factory=list)
    average_lines: List[int] = field(default_factory=list)
    setting_lines: Dict[str, Line] = field(default_factory=dict)
    doubts: List[Tuple[Line, str]] = field(default_factory=list)

    def place(self, line: Optional[Line]) -> str:
        """Where a message points to."""
        return self.name if line is None else f"{self.name}:{line}" if isinstance(line, int) else f"{self.name}: {line}"

    def bad(self, line: Optional[Line], what: object) -> Stop:
        return Stop(what.status if isinstance(what, Bad) else Bad.status, f"{self.place(line)}: {what}", placed=True)


# ---- How a point is shown ----


def plain(x: float) -> str:
    """The shortest text that reads back as the same number."""
    text = repr(float(x))
    return text[:-2] if text.endswith(".0") else text


def moment(order: Order, x: float) -> Optional[datetime.datetime]:
    """The moment of a point of a table of dates, to the microsecond, and nothing where the calendar has none."""
    if order.start is None or not math.isfinite(x):
        return None
    length = 3600 if order.unit == "hours" else 86400
    try:
        count = round(x * length * 1e6)
        # A thirtieth of a day has no exact float; what is left of that is no part of the time.
        whole = round(count, -6)
        start = datetime.datetime(order.start.year, order.start.month, order.start.day)
        if isinstance(order.start, datetime.datetime):
            start = order.start
        return start + datetime.timedelta(microseconds=whole if abs(count - whole) <= 50 else count)
    except OverflowError:
        return None


def on_a_day(when: Optional[datetime.datetime]) -> bool:
    return when is None or (when.hour, when.minute, when.second, when.microsecond) == (0, 0, 0, 0)


def show(order: Order, x: float, clock: bool = False) -> str:
    """A point as a person writes it: a date, a timestamp or a number. A day is told with its time where the table has times, or where one is asked for."""
    when = moment(order, x)
    if when is None:
        return plain(x)
    if on_a_day(when) and order.unit == "days" and not clock:
        return when.date().isoformat()
    return when.isoformat(" ", "minutes" if when.second == when.microsecond == 0 else "auto")


def needs_clock(order: Order, xs: Sequence[float]) -> bool:
    """Whether one of these points is no whole day, so that all of them are told with their time."""
    return order.start is not None and any(not on_a_day(moment(order, x)) for x in xs)


# ---- Settings ----


def words(value: str) -> str:
    if not value:
        raise Bad("the setting has no value")
    return value


def switch(value: str) -> bool:
    if value.lower() not in ("on", "off"):
        raise Bad(f"{quoted(value)} is neither 'on' nor 'off'")
    return value.lower() == "on"


def one_of(names: Collection[str]) -> Callable[[str], str]:
    """How one of these words is read."""

    def read(value: str) -> str:
        if value.lower() not in names:
            raise Bad(f"{quoted(value)} is neither {' nor '.join(map(quoted, names))}")
        return value.lower()

    return read


def not_read(value: str) -> str:
    if " ".join(value.lower().split()) != "not read":
        raise Bad(f"the first average can be said to be 'not read', and this says {quoted(value)}")
    return "not read"


def figure(value: str) -> float:
    return number(value.replace("\u2212", "-"))


# The two defaults of the library, with its own numbers. A text that names neither has the first.
DEFAULTS: Dict[str, Dict[str, object]] = {
    "default": {"quadraticity": 0.3, "monotonicity": 0.7, "positivity": False, "split": SPLITS[0]},
    "gas": {"quadraticity": 0.3, "monotonicity": 0.7, "positivity": True, "split": SPLITS[0]},
}

# Each setting: how its value is read, and what it is where it is left out and no default is named.
SETTINGS: Dict[str, Tuple[Callable[[str], object], object]] = {
    "title": (words, ""),
    "price": (words, ""),
    "time": (words, ""),
    "settings": (one_of(DEFAULTS), "default"),
    "quadraticity": (figure, DEFAULTS["default"]["quadraticity"]),
    "monotonicity": (figure, DEFAULTS["default"]["monotonicity"]),
    "positivity": (switch, DEFAULTS["default"]["positivity"]),
    "split": (one_of(SPLITS), DEFAULTS["default"]["split"]),
    "hold last period": (switch, False),
    "extrapolation": (switch, False),
    "first average": (not_read, ""),
}

# Those that shape the curve. A table's heading tells the first three always, and the others where they are not what they are when left out.
METHOD = ["quadraticity", "monotonicity", "positivity", "split", "hold last period", "extrapolation"]


def in_words(key: str, value: object) -> str:
    """A setting that shapes the curve, as headings and legends tell it."""
    if isinstance(value, str):
        return f"{value} {key}"
    return f"{key} {plain(value)}" if isinstance(value, float) else f"{key} {'on' if value else 'off'}"


def default_name(order: Order) -> str:
    """The default that an order goes by in what it does not set."""
    name = order.settings["settings"]
    return "default" if name == "default" else f"{name} default"


# A setting's line starts with words and a colon. What is asked and knots have a digit before any colon.
SETTING = re.compile(r"\s*([^\W\d_][^\d:#]*):(.*)", re.DOTALL)


def split_setting(text: str) -> Optional[Tuple[str, str]]:
    """The key and the value of a setting's line, without its comment, and nothing where the line is none. In words of the user's own a number sign
    before a letter or a digit belongs to them: title: Gas #1."""
    found = SETTING.fullmatch(text)
    if found is None:
        return None
    key = " ".join(found[1].lower().split())
    comment = r"(^|\s)#(?=\s|$).*" if key in ("title", "price", "time") else r"(^|\s)#.*"
    return key, re.sub(comment, "", found[2]).strip()


def read_setting(order: Order, key: str, value: str, line: Line) -> None:
    if key not in SETTINGS:
        raise Bad(f"there is no setting {quoted(key)}; there are: {', '.join(SETTINGS)}")
    if key in order.setting_lines:
        first = order.setting_lines[key]
        raise Bad(f"'{key}' is set twice, first {f'in line {first}' if isinstance(first, int) else f'by {first}'}")
    order.setting_lines[key] = line
    order.settings[key] = SETTINGS[key][0](value)
    if key == "settings":
        # What has a line of its own stays as that line says, wherever it stands.
        named = DEFAULTS[str(order.settings[key])]
        order.settings.update({other: held for other, held in named.items() if other not in order.setting_lines})


# ---- What is asked ----

ASKING = ("at", "daily", "hourly", "every", "strip")
WHAT_ASKS = "'daily', 'hourly', 'every STEP', 'at POINT ..' or 'strip: START to END'"
STRIP_FORM = "a strip goes from one point to another, as strip: 2026-11-01 to 2026-11-16"


def without_colon(text: str) -> str:
    """A line that asks for a strip without its colon, as the other words that ask have none. A colon is what settings have."""
    return re.sub(r"^(\s*strip)\s*:", r"\1 ", text, flags=re.IGNORECASE)


def edges(first: float, last: float, step: Fraction) -> List[float]:
    """Edges from the first knot to the last, a step apart, each the float that is nearest to it: decimals count as they are written, and a day of 24ths
    ends on the day."""
    begin, end = Fraction(repr(first)), Fraction(repr(last))
    common = math.lcm(begin.denominator, step.denominator)
    start, stride = int(begin * common), int(step * common)
    return [(start + k * stride) / common for k in range(math.ceil((end - begin) / step))] + [last]


def step_of(order: Order, word: str, parts: List[str]) -> Fraction:
    """The length of a row in the table's own unit."""
    if word == "every":
        if len(parts) != 2:
            raise Bad(f"'every' has one step, a number of {order.unit or order.settings['time'] or 'the unit of the knots'}")
        value = number(parts[1].replace("\u2212", "-"))
        if not (math.isfinite(value) and value > 0):
            raise Bad(f"a step is above 0, and this is {quoted(parts[1])}")
        # A decimal counts as it is written; one with more digits than a float has counts as the float.
        return Fraction(parts[1] if len(parts[1]) <= 40 else value)
    if len(parts) > 1:
        raise Bad(f"'{word}' stands alone in its line")
    if order.unit == "":
        said = quoted(str(order.settings["time"]))
        raise Bad(f"'{word}' needs knots that count days or hours, and the time is in {said}; 'every STEP' asks for rows in that unit")
    return {"days": {"daily": Fraction(1), "hourly": Fraction(1, 24)}, "hours": {"daily": Fraction(24), "hourly": Fraction(1)}}[order.unit][word]


def read_rows(order: Order, word: str, parts: List[str], line: Line) -> Rows:
    """The rows of one line. Where the knots have no rows the build is refused, and nothing needs asking."""
    step = step_of(order, word, parts)
    told = " ".join([word, *parts[1:]])
    if len(order.knots) < 2 or not (math.isfinite(order.knots[0]) and math.isfinite(order.knots[-1]) and order.knots[0] < order.knots[-1]):
        return Rows(line, told, float(step), [])
    count = (Fraction(order.knots[-1]) - Fraction(order.knots[0])) / step
    if count > MOST_ROWS:
        raise Bad(f"{quoted(told)} asks for {short(count)} rows, and at most {MOST_ROWS} are answered")
    found = edges(order.knots[0], order.knots[-1], step)
    if not all(a < b for a, b in zip(found, found[1:])):
        raise Bad(f"{quoted(told)} is too small a step beside knots of {plain(order.knots[-1])}")
    return Rows(line, told, float(step), found)


def short(count: Fraction) -> str:
    whole = math.ceil(count)
    return str(whole) if whole < 10**15 else "more than 10^15"


def read_points(order: Order, found: List[Item], line: Line) -> Points:
    if not found:
        raise Bad("'at' has no points")
    return Points(*asked_points(order, found, line, "'at' takes points, as 2026-10-15"))


def read_strip(order: Order, text: str, line: Line) -> Strips:
    """The strip of one line. Its end is where what comes after it starts, as the end of a period is."""
    ends = two_ends(text)
    if ends is None:
        raise Bad(STRIP_FORM)
    start, end = ends
    for one in ends:
        if one.kind == "other" and order.dates:
            raise Bad(f"{quoted(one.text)} is no day, and {STRIP_FORM}")
    strip = Strips(*asked_points(order, [start, end], line, STRIP_FORM))
    if strip.at[0] >= strip.at[1]:
        raise Bad(f"the strip ends at {clipped(end.text)}, which is not after its start, {clipped(start.text)}")
    if start.moment is not None and end.moment is not None:
        doubt = doubted(start.moment, end.moment, "strip")
        order.doubts += [(line, doubt)] if doubt else []
    return strip


def asked_points(order: Order, found: List[Item], line: Line, form: str) -> Tuple[List[float], List[str], List[Line]]:
    """Points as numbers and as they were written, and the line of each."""
    return [point(order, one, form) for one in found], [one.text for one in found], [line] * len(found)


def point(order: Order, found: Item, form: str) -> float:
    """A point that is asked for, in the table's own unit. `form` says how points are written there."""
    if found.kind == "period":
        raise Bad(f"{quoted(found.text)} is a period, and {form}")
    if found.kind == "other":
        raise unknown(found) if order.dates else Bad(str(number_fault(found.text)))
    if order.knots and (found.kind == "moment") != order.dates:
        raise Bad(f"{quoted(found.text)} is {kind_of(found)}, and the first knot is {'a date' if order.dates else 'a number'}")
    if found.moment is None:
        return number(found.text)
    if order.start is None:
        return 0.0
    start = order.start if isinstance(order.start, datetime.datetime) else datetime.datetime(order.start.year, order.start.month, order.start.day)
    return distance(start, found.moment, order.unit == "hours")


def number_fault(word: str) -> Bad:
    try:
        number(word)
    except Bad as fault:
        return fault
    return Bad(f"{quoted(word)} is not a number")


def read_asked(order: Order, text: str, line: Line) -> Union[Points, Strips, Rows]:
    """One line that asks."""
    parts = text.split()
    word = parts[0].lower()
    if word == "at":
        return read_points(order, items(" ".join(parts[1:])), line)
    if word == "strip":
        return read_strip(order, " ".join(parts[1:]), line)
    return read_rows(order, word, parts, line)


# ---- The whole ----


def begin(name: str, sets: Sequence[str]) -> Order:
    """An order by the default, and with the settings of the command line."""
    order = Order(name, {key: default for key, (_, default) in SETTINGS.items()})
    for text in sets:
        line = f"--set {quoted(text)}"
        found = split_setting(text)
        try:
            if found is None:
                raise Bad("a setting is a key, a colon and a value")
            read_setting(order, *found, line)
        except Bad as fault:
            raise order.bad(line, fault) from None
    return order


def unit_of(order: Order, quotes: Quotes, asked: Sequence[Tuple[Line, str]]) -> str:
    """What a knot counts: 'days', 'hours', or '' where nobody says."""
    said = str(order.settings["time"]).lower()
    if order.dates:
        unit = "hours" if quotes.clocked else "days"
        if said and said != unit:
            kind = "timestamps" if quotes.clocked else "dates"
            what = f"the knots are {kind} and count {unit}, and the time is said to be in {quoted(str(order.settings['time']))}"
            raise order.bad(order.setting_lines["time"], what)
        return unit
    if said:
        return said if said in ("days", "hours") else ""
    unit = ""
    for line, text in asked:
        word = {"daily": "days", "hourly": "hours"}.get(text.split()[0].lower(), unit)
        if unit and word != unit:
            what = "'daily' and 'hourly' are both asked of knots that are numbers: a setting 'time: days' or 'time: hours' says what they count"
            raise order.bad(line, what)
        unit = word
    return unit


def finish(order: Order, quotes: Quotes, asked: Sequence[Tuple[Line, str]], knots: bool) -> Order:
    """The order, once its table is whole. Where the knots are asked for, they are in place of all else that is asked."""
    try:
        quotes.end_row()
    except Located as fault:
        raise order.bad(fault.line, fault) from None
    order.dates = bool(quotes.points) and not quotes.counts()
    order.knots, order.averages = quotes.knots(), quotes.averages
    order.knot_lines = order.average_lines = quotes.lines
    order.doubts = quotes.doubts
    order.unit = unit_of(order, quotes, asked)
    if order.dates:
        start = quotes.points[0]
        assert isinstance(start, datetime.datetime)
        order.start = start if quotes.clocked else start.date()
    for line, text in asked:
        try:
            ask(order, read_asked(order, text, line))
        except Bad as fault:
            raise order.bad(line, fault) from None
    if knots:
        order.asked = [Knots(order.knots)]
    return order


def ask(order: Order, more: Union[Points, Strips, Rows]) -> None:
    """Asks one thing more. Points make one table, however many lines ask for them, and so do strips."""
    before = next((one for one in order.asked if type(one) is type(more)), None)
    if isinstance(more, Points) and isinstance(before, Points):
        before.add(more)
    else:
        order.asked.append(more)


def options_asked(order: Order, asks: Sequence[str]) -> List[Tuple[Line, str]]:
    """What the command line asks."""
    found: List[Tuple[Line, str]] = []
    for text in asks:
        line, text = f"--ask {quoted(text)}", without_colon(text)
        if not text.split() or text.split()[0].lower() not in ASKING:
            raise order.bad(line, f"what is asked is {WHAT_ASKS}")
        found.append((line, text))
    return found


def read_order(name: str, data: bytes, sets: Sequence[str] = (), asks: Sequence[str] = (), knots: bool = False) -> Order:
    """The order that a text says. `sets` and `asks` are settings and lines that ask, of the command line, and `knots` whether it asks for the knots."""
    order = begin(name, sets)
    more = options_asked(order, asks)
    try:
        text = data.decode("utf-8-sig")
    except UnicodeDecodeError as fault:
        raise order.bad(data.count(b"\n", 0, fault.start) + 1, "this is not UTF-8 text") from None
    quotes: Optional[Quotes] = None
    asked: List[Tuple[Line, str]] = []
    line = 1
    for line, whole in enumerate(text.rstrip("\n").split("\n"), 1):
        try:
            quotes = read_line(order, quotes, asked, whole, line)
        except Located as fault:
            raise order.bad(fault.line, fault) from None
        except Bad as fault:
            raise order.bad(line, fault) from None
    if not asked and not more and not knots:
        raise order.bad(line, f"nothing is asked: a line {WHAT_ASKS} is missing")
    return finish(order, quotes or Quotes(), asked + more, knots)


def read_line(order: Order, quotes: Optional[Quotes], asked: List[Tuple[Line, str]], whole: str, line: int) -> Optional[Quotes]:
    """Takes one line of a text; answers the table so far."""
    whole = without_colon(whole)
    setting = None if is_row(whole) else split_setting(whole)
    if setting is not None:
        if quotes is not None or asked:
            raise Bad("settings come before the first knot")
        read_setting(order, *setting, line)
        return quotes
    kept = re.sub(r"(^|\s)#.*", "", whole).strip()
    if not kept:
        return quotes
    if kept.split()[0].lower() in ASKING:
        if len(kept.split()) == 1 and kept.lower() == "at":
            raise Bad("'at' has no points")
        asked.append((line, kept))
        return quotes
    if asked:
        raise Bad("knots come before what is asked")
    key = next((key for key in SETTINGS if " ".join(kept.lower().split()).startswith(key + " ")), None)
    if key is not None:
        raise Bad(f"'{key}' is a setting, and a colon stands behind it: {key}: {clipped(kept.split()[-1])}")
    quotes = quotes or Quotes(order.settings["first average"] == "not read")
    if is_row(kept):
        quotes.add_row(kept, line)
    else:
        quotes.add(items(kept), line)
    return quotes
