"""An order's answer: its curve, the rows that are asked for, what each period holds, and what a reader should be told.

Every price, every total and the average over every row and strip comes from a proved function. Where the library refuses one since it is not finite, its
mark stands in the row, and all others are answered.
"""

import bisect
import math
from dataclasses import dataclass, field, replace
from typing import Callable, Dict, List, NamedTuple, Optional, Sequence, Tuple, Union

from .curve import Curve, Method
from .faults import Stop, clipped
from .finite import NOT_FINITE, Number, all_marked, first_marked, marked
from .refusals import Refused
from .section import Section
from .text import Asked, Knots, Order, Points, Rows, Strips, moment, needs_clock, show

# How far what a period holds may lie from what it traded at before it counts as lost, as a part of the largest of its average and its two nodes. In 10,000
# drawn strips with positivity off rounding alone came to 4.9e-12 up to monotonicity 0.99, and in 3,000 each to 3.1e-10 at 0.999, 1.3e-8 at 0.9999 and
# 2.9e-9 at 1. In 10,000 with positivity, what was lost came to 9.9e-3 at least where all averages are above 0, and to 5.3e-7 where they are not.
# tests/test_answers.py draws such strips again.
ROUNDING = 1e-7
# What is rounded off the totals at a period's ends, as a part of them. It counts where a short period stands late in a long strip.
BLUR = 2.0**-50

# How far apart the two prices at a knot may lie before the curve jumps there, as a part of the largest of the two periods' averages and their three nodes.
# In the drawn strips that docs/SHAPES.md counts rounding alone came to 1.6e-15, and the smallest jump to 1.0e-4. tests/test_knots.py draws them again.
JUMP = 1e-12

# Above this monotonicity what rounding takes from an average grows to what counts as lost.
HIGHEST = 0.99

# Inner points of a period where its lowest price is looked for.
LOOKS = 20

# So many lines of one kind are told; the rest is counted.
MOST_TOLD = 12


class AtPoint(NamedTuple):
    """An answer to 'at': the point, its price and the total up to it."""

    at: float
    price: Number
    total: Number


class OverRow(NamedTuple):
    """An answer to 'daily' and its kin: a row's start and end, its average, the price at its start and the total at its end."""

    start: float
    end: float
    average: Number
    price: Number
    total: Number


class OverStrip(NamedTuple):
    """An answer to 'strip': its start and end, its average, and the lowest and the highest that a period which it touches traded at. Outside the table it
    touches none."""

    start: float
    end: float
    average: Number
    lowest: Optional[float]
    highest: Optional[float]


class AtKnot(NamedTuple):
    """A knot: the price of the section that ends there, the price of the one that starts there, the total up to it, and whether the curve jumps. The first
    knot has no price from the left, and the last none from the right."""

    at: float
    left: Optional[Number]
    right: Optional[Number]
    total: Number
    jump: bool


Row = Union[AtPoint, OverRow, OverStrip, AtKnot]


@dataclass
class Answered:
    """One thing that was asked, and its answers."""

    asked: Asked
    rows: Sequence[Row]

    @property
    def not_finite(self) -> int:
        """How many rows have an answer that is not finite."""
        return sum(NOT_FINITE in row for row in self.rows)


@dataclass
class Held:
    """What a period traded at, and what the curve holds over it, if that is finite. `scale` is the largest of its average and its two nodes, and `blur` what
    the rounding of the totals at its ends may come to."""

    period: int
    traded: float
    held: Number
    scale: float
    blur: float = 0.0

    @property
    def kept(self) -> bool:
        return isinstance(self.held, float) and abs(self.held - self.traded) <= ROUNDING * self.scale + self.blur


@dataclass
class Answer:
    """All that is answered of an order. `before` and `after` are lines that are told around the table. `keeping` is the setting with which no period
    would lose its average, where one has lost it and there is such a setting."""

    order: Order
    curve: Curve
    tables: List[Answered]
    held: List[Held]
    before: List[str] = field(default_factory=list)
    after: List[str] = field(default_factory=list)
    not_finite: int = 0
    keeping: str = ""

    @property
    def lost(self) -> List[Held]:
        return [one for one in self.held if not one.kept]

    @property
    def status(self) -> int:
        return 4 if self.lost or self.not_finite else 0


# ---- The curve and its rows ----


def method_of(order: Order) -> Method:
    s = order.settings
    return Method(s["quadraticity"], s["monotonicity"], s["positivity"], s["split"])


def curve_of(order: Order, method: Optional[Method] = None) -> Curve:
    """The curve of an order's table, by the order's method where there is no other. A refusal is told with the line that caused it."""
    s = order.settings
    method = method or method_of(order)
    try:
        return Curve(order.knots, order.averages, method, hold=bool(s["hold last period"]), extrapolate=bool(s["extrapolation"]))
    except Refused as refused:
        line = blamed(order, refused)
        lines = [f"{order.place(line)}: refused: {refused.words} (refusal {refused.number})"]
        if refused.number == 29 and refused.index is not None:
            traded = f"{period(order, refused.index)} traded at {short(order.averages[refused.index])}"
            lines.append(f"{order.place(line)}: {traded}; 'positivity: off' is for averages below 0")
        raise Stop(1, *lines, placed=True) from None


def blamed(order: Order, refused: Refused) -> Optional[Union[int, str]]:
    """The line of the text that a refusal is about, where there is one."""
    if refused.number in (2, 3):
        return order.setting_lines.get("monotonicity" if refused.number == 2 else "quadraticity")
    if refused.number == 10:
        return order.knot_lines[4096]
    if refused.number in (5, 7) and refused.index is not None:
        return order.knot_lines[refused.index]
    if refused.number in (6, 29) and refused.index is not None:
        return order.average_lines[refused.index]
    return None


def at_points(order: Order, curve: Curve, asked: Points) -> List[AtPoint]:
    try:
        return [AtPoint(*row) for row in zip(asked.at, all_marked(curve.values, asked.at), all_marked(curve.primitives, asked.at))]
    except Refused:
        raise Stop(1, *refused_points(order, curve, asked), placed=True) from None


def refused_points(order: Order, curve: Curve, asked: Points) -> List[str]:
    """A line for each point that is refused. One without a finite price is answered, by its mark."""
    lines = []
    for x, shown, line in zip(asked.at, asked.shown, asked.lines):
        try:
            marked(curve.value, x)
        except Refused as refused:
            lines.append(f"{order.place(line)}: refused at {clipped(shown)}: {refused.words} (refusal {refused.number})")
    return lines


def over_rows(curve: Curve, asked: Rows) -> List[OverRow]:
    starts, ends = asked.at[:-1], asked.at[1:]
    answers = all_marked(curve.strips, starts, ends), all_marked(curve.values, starts), all_marked(curve.primitives, ends)
    return [OverRow(*row) for row in zip(starts, ends, *answers)]


def over_strips(order: Order, curve: Curve, asked: Strips) -> List[OverStrip]:
    try:
        prices = all_marked(curve.strips, asked.starts, asked.ends)
    except Refused:
        raise Stop(1, *refused_points(order, curve, asked), placed=True) from None
    return [OverStrip(a, b, price, *traded_range(order, a, b)) for a, b, price in zip(asked.starts, asked.ends, prices)]


def traded_range(order: Order, start: float, end: float) -> Tuple[Optional[float], Optional[float]]:
    """The lowest and the highest that a period between two points traded at."""
    touched = [average for a, b, average in zip(order.knots, order.knots[1:], order.averages[1:]) if a < end and start < b]
    return (min(touched), max(touched)) if touched else (None, None)


def at_knots(curve: Curve) -> List[AtKnot]:
    """All knots, by the prices of the sections beside them and the totals of their records. Up to the first the total is 0: nothing lies before it."""
    sections, sizes = curve.sections, scales(curve)
    lefts = [marked(section.value, section.x_prev) for section in sections]
    rights = [marked(section.value, section.x_next) for section in sections]
    totals = [running_total(section) for section in sections]
    first, last = sections[0], sections[-1]
    inner = [
        AtKnot(section.x_next, left, right, total, jumps(left, right, max(beside)))
        for section, left, right, total, *beside in zip(sections, rights, lefts[1:], totals, sizes, sizes[1:])
    ]
    return [AtKnot(first.x_prev, None, lefts[0], 0.0, False), *inner, AtKnot(last.x_next, rights[-1], None, totals[-1], False)]


def running_total(section: Section) -> Number:
    """The total after a section's period, as its record has it. No mark stands beside it there, so it is looked at here."""
    return section.total if math.isfinite(section.total) else NOT_FINITE


def jumps(left: Number, right: Number, scale: float) -> bool:
    """Whether the two prices at a knot differ by more than rounding. One that is not finite differs from any other."""
    return not (isinstance(left, float) and isinstance(right, float) and abs(left - right) <= JUMP * scale < math.inf)


def rows_of(order: Order, curve: Curve, asked: Asked) -> Sequence[Row]:
    """The answers to one thing that is asked."""
    if isinstance(asked, Knots):
        return at_knots(curve)
    if isinstance(asked, Strips):
        return over_strips(order, curve, asked)
    return at_points(order, curve, asked) if isinstance(asked, Points) else over_rows(curve, asked)


def answer(order: Order) -> Answer:
    """The whole answer. Raises Stop where the table or a point is refused."""
    curve = curve_of(order)
    tables = [Answered(asked, rows_of(order, curve, asked)) for asked in order.asked]
    found = Answer(order, curve, tables, holdings(order, curve))
    found.keeping = keeping(order) if found.lost else ""
    found.before = [f"{order.place(line)}: {what}" for line, what in order.doubts] + left_out(order) + below_averages(order)
    found.not_finite, lines = not_finite(found)
    below = below_prices(found)
    found.after = lines + below + advice(found, bool(lines), bool(below))
    return found


# ---- What a period holds ----


def scales(curve: Curve) -> List[float]:
    """What rounding is judged by in each period: the largest of its average and its two nodes."""
    nodes = curve.nodes
    return [max(map(abs, three)) for three in zip(curve.traded[1:], nodes, nodes[1:])]


def holdings(order: Order, curve: Curve) -> List[Held]:
    """What each period holds, by its own section: at its right knot a query is answered by the next one, which starts from the traded total."""
    found = []
    for k, (section, scale) in enumerate(zip(curve.sections, scales(curve))):
        looked = look_inside(section, 0.0, k + 1, order.averages[k + 1], scale)
        found.append(looked if looked.kept else look_again(section, looked, scale))
    return found


def keeping(order: Order) -> str:
    """The setting with which the order would keep every average: another split, the safe one first, or a lower monotonicity. Nothing where there is none."""
    curves = {f"split: {split}": curve_by(order, split) for split in ("safe", "careful")}
    if method_of(order).monotonicity > HIGHEST:
        curves[f"monotonicity: {HIGHEST}"] = curve_of(order, replace(method_of(order), monotonicity=HIGHEST))
    return next((setting for setting, curve in curves.items() if curve is not None and all(one.kept for one in holdings(order, curve))), "")


def curve_by(order: Order, split: str) -> Optional[Curve]:
    """The curve by another split than the order's own, and nothing where that has none or is no other: without positivity all are one."""
    if split == order.settings["split"] or not order.settings["positivity"]:
        return None
    try:
        return curve_of(order, replace(method_of(order), split=split))
    except Stop:
        return None


def look_inside(section: Section, gap: float, number: int, traded: float, scale: float) -> Held:
    """What a section holds from knot to knot; with a gap, from so far inside on, where the price inside stands for that of the gap."""
    a, b = section.x_prev + gap, section.x_next - gap
    length = section.x_next - section.x_prev
    try:
        start, end = section.primitive(a), section.primitive(b)
        if gap:
            start, end = start - section.value(a) * (a - section.x_prev), end + section.value(b) * (section.x_next - b)
    except Refused:
        return Held(number, traded, NOT_FINITE, scale)
    held = (end - start) / length
    return Held(number, traded, held if math.isfinite(held) else NOT_FINITE, scale, BLUR * (abs(start) + abs(end)) / length)


def look_again(section: Section, looked: Held, scale: float) -> Held:
    """At monotonicity 1, or with an average of 0, the bend may lie on the knot but for rounding, and the formula then has no total at the knot itself. A
    billionth of the period inside it has. A loss is seen there as well."""
    inside = look_inside(section, (section.x_next - section.x_prev) * 2.0**-30, looked.period, looked.traded, scale)
    return inside if inside.kept or looked.held is NOT_FINITE else looked


def period(order: Order, number: int) -> str:
    """A period as messages name it."""
    ends = order.knots[number - 1 : number + 1]
    clock = needs_clock(order, ends)
    return f"{show(order, ends[0], clock)} to {show(order, ends[1], clock)}"


# ---- What is told besides ----


def told(lines: List[str], order: Order, what: str) -> List[str]:
    """The first lines, and how many more there are."""
    if len(lines) <= MOST_TOLD:
        return lines
    return [*lines[:MOST_TOLD], f"{order.name}: and {len(lines) - MOST_TOLD} more {what}"]


def left_out(order: Order) -> List[str]:
    """What is told of positivity that is off. Where an order sets neither it nor a default: that it is off by the default, which had it on once, so that an
    order of that time does not change its meaning unseen. And where a careful or safe split is set: that it does nothing."""
    s, lines = order.settings, []
    if "positivity" not in order.setting_lines and "settings" not in order.setting_lines:
        lines.append(f"{order.name}: positivity is not set, and is off by the default; 'settings: gas' has it on")
    if s["split"] != "original" and not s["positivity"]:
        lines.append(f"{order.place(order.setting_lines['split'])}: a {s['split']} split does nothing while positivity is off")
    return lines


def below_averages(order: Order) -> List[str]:
    """Averages at or below 0 with positivity on, which no curve above 0 can hold. The safe split takes 0, and is refused below it."""
    if not order.settings["positivity"] or order.settings["split"] == "safe":
        return []
    lines = [
        f"{order.place(order.average_lines[k])}: {period(order, k)} traded at {short(average)}, and positivity is for averages above 0"
        for k, average in enumerate(order.averages)
        if k > 0 and average <= 0
    ]
    return told(lines, order, "averages at or below 0")


def short(x: float) -> str:
    """A number in a message."""
    return f"{x:.4f}" if 1e-3 <= abs(x) < 1e12 or x == 0 else f"{x:.4g}"


def period_at(order: Order, x: float) -> int:
    """The number of the period that answers at x, from 1 on."""
    return min(max(bisect.bisect_right(order.knots, x), 1), len(order.knots) - 1)


def looks(order: Order) -> List[List[float]]:
    """The points of each period where its prices are looked at: its left knot and inner points."""
    found = []
    for a, b in zip(order.knots, order.knots[1:]):
        inner = [a + (b - a) * (k / (LOOKS + 1)) for k in range(LOOKS + 1)]
        found.append([x for x in inner if a <= x < b])
    return found


def near(order: Order, x: float) -> str:
    """A point that nobody asked for, told as closely as it helps: a day, a minute, or six digits."""
    when = moment(order, x)
    if when is None:
        return f"{x:.6g}"
    return when.date().isoformat() if order.unit == "days" else when.isoformat(" ", "minutes")


def not_finite(found: Answer) -> Tuple[int, List[str]]:
    """How many answers are not finite, printed or looked at, and a line to each period that has one."""
    order, curve = found.order, found.curve
    printed = sum(table.not_finite for table in found.tables)
    groups: List[List[float]] = [[] for _ in order.averages[1:]]
    for x in asked_points(found) + [x for inside in looks(order) for x in inside]:
        groups[period_at(order, x) - 1].append(x)
    places: Dict[int, str] = {}
    for k, (xs, price, total) in enumerate(zip(groups, first_marked(curve.values, groups), first_marked(curve.primitives, groups)), 1):
        if price is not None and (total is None or price <= total):
            places[k] = f"no finite price at {near(order, xs[price])}"
        elif total is not None:
            places[k] = f"no finite total at {near(order, xs[total])}"
    for table in found.tables:
        # The period that ends on a knot has the knot's own number.
        for k, row in enumerate(table.rows):
            if isinstance(row, AtKnot) and row.left is NOT_FINITE:
                places.setdefault(k, f"no finite price just before {show(order, row.at)}")
    lines = [f"{order.place(order.average_lines[k])}: {what}: {period(order, k)} {cause(order, k)}" for k, what in sorted(places.items())]
    lines = told(lines, order, "periods with no finite price")
    if printed:
        count = sum(len(table.rows) for table in found.tables)
        noun = "answer" if count == 1 else "answers"
        lines.append(f"{order.name}: {printed} of {count} {noun} {'is' if printed == 1 else 'are'} not finite; docs/SHAPES.md says which tables do that")
    return max(printed, len(places)), lines


def asked_points(found: Answer) -> List[float]:
    return [x for table in found.tables for x in table.asked.at]


def cause(order: Order, k: int) -> str:
    """Why a period has a price that is not finite."""
    average, s = order.averages[k], order.settings
    if s["positivity"] and s["split"] != "safe" and average == 0:
        return "traded at exactly 0, with positivity on"
    if s["positivity"] and average < 0:
        return "traded below 0, with positivity on"
    beside = [order.averages[j] for j in (k - 1, k + 1) if 1 <= j < len(order.averages)]
    if s["monotonicity"] == 1 and average in beside:
        return "traded as its neighbour did, at monotonicity 1"
    return "has numbers that are too large or too small for a 64-bit float"


def below_prices(found: Answer) -> List[str]:
    """Prices and averages below 0 with positivity on: the lowest of each period, printed or not."""
    order, curve = found.order, found.curve
    if not order.settings["positivity"]:
        return []
    lowest: Dict[int, Tuple[float, str]] = {}

    def look(x: float, value: Number, what: Callable[[], str]) -> None:
        if not (isinstance(value, float) and value < 0):
            return
        k = period_at(order, x)
        if value < -ROUNDING * found.held[k - 1].scale and value < lowest.get(k, (0.0, ""))[0]:
            lowest[k] = (value, what())

    inner = [x for inside in looks(order) for x in inside]
    for x, price in zip(inner, all_marked(curve.values, inner)):
        look(x, price, lambda: f"the price near {near(order, x)}")
    for section in curve.sections:
        look(section.x_prev, marked(section.value, section.x_next), lambda: f"the price just before {show(order, section.x_next)}")
    for table in found.tables:
        for row in table.rows:
            if isinstance(row, (OverRow, OverStrip)):
                look(row.start, row.average, lambda: f"the average from {show(order, row.start)} to {show(order, row.end)}")
            if isinstance(row, OverRow):
                look(row.start, row.price, lambda: f"the price at {show(order, row.start)}")
            elif isinstance(row, AtPoint):
                look(row.at, row.price, lambda: f"the price at {show(order, row.at)}")
    lines = [
        f"{order.place(order.average_lines[k])}: {what} is {short(value)}, below 0 although positivity is on"
        for k, (value, what) in sorted(lowest.items())
    ]
    return told(lines, order, "periods with a price below 0")


def advice(found: Answer, missing: bool, below: bool) -> List[str]:
    """A line that names the safe split where prices are missing or below 0, and with it none would be."""
    curve = curve_by(found.order, "safe") if missing or below else None
    if curve is None:
        return []
    xs = asked_points(found) + [x for inside in looks(found.order) for x in inside]
    lowest = -ROUNDING * max(found.order.averages[1:])
    try:
        prices, _ = curve.values(xs), curve.primitives(xs)
    except Refused:
        return []
    if min(prices) < lowest:
        return []
    ways = ["has a price everywhere"] * missing + ["holds all prices at 0 or above"] * below
    return [f"{found.order.name}: 'split: safe' {' and '.join(ways)}"]
