"""Orders and their curves as a picture: draw(orders, curves) is the text of an SVG.

The traded averages are steps, a curve is a line, and where one order asks for rows (daily, hourly, every) each row's average is a bar, as it is printed;
where it asks for strips, each is a level line over its days. A picture shows one table, under one set of settings or several. It is light or dark as its
reader's screen is, and carries its title and a sentence of description for readers who don't see it.
"""

import math
import os
import zlib
from array import array
from dataclasses import dataclass
from typing import Dict, Iterable, List, NamedTuple, Optional, Sequence, Tuple
from xml.sax.saxutils import escape

from .curve import Curve
from .finite import NOT_FINITE, Number, all_marked
from .lettering import width, wrap
from .text import METHOD, Order, Points, Rows, Strips, in_words, plain, show
from .ticks import Mark, fitting_numbers, moments, numbers

Scale = Tuple[float, float]

# ---- Colours ----

# What is painted, and how: the attribute, its colour on a light ground and on a dark one. Any two of the colours of the curves and of the steps lie 40 apart
# in CIE Lab on a light ground and 45 on a dark one, to eyes that see all colours and to those that lack one of the three receptors, and each stands out from
# the ground and from a period's area by 3 to 1. python/tests/test_picture.py measures both.
COLOURS: Dict[str, Tuple[str, str, str]] = {
    "ground": ("fill", "#ffffff", "#12161c"),
    "ink": ("fill", "#222222", "#e6e6e6"),
    "axis": ("stroke", "#222222", "#e6e6e6"),
    "grid": ("stroke", "#dcdcdc", "#343b45"),
    "zero": ("stroke", "#666666", "#a3acb8"),
    "month": ("fill", "#f7f2ea", "#24221d"),
    "step": ("stroke", "#796052", "#a8706a"),
    "row": ("fill", "#c3d6fa", "#17324a"),
    "top": ("stroke", "#88a9ef", "#3a77a8"),
    "curve1": ("stroke", "#1a46f5", "#41c1fd"),
    "curve2": ("stroke", "#f5480f", "#ff6a14"),
    "curve3": ("stroke", "#07062e", "#ffffb9"),
    "curve4": ("stroke", "#dd55cc", "#7e3cff"),
    "fault": ("stroke", "#c1121f", "#ff6b6b"),
}
# What names begin with, so that a page that holds the picture has none of them.
PREFIX = "havgrunel-"
# Curves that lie over each other show through each other's gaps.
DASHES = ("", "9 4", "3 4", "12 3 2 3")


def painted(*roles: str) -> str:
    """The class and the attributes of something. The attributes hold where no style is understood, and are those of a light ground."""
    light = " ".join(f'{COLOURS[role][0]}="{COLOURS[role][1]}"' for role in roles)
    return f'class="{" ".join(f"{PREFIX}{role}" for role in roles)}" {light}'


def style() -> str:
    """The colours of a dark screen. Paper is light."""
    dark = "".join(f".{PREFIX}{role}{{{attribute}:{colour}}}" for role, (attribute, _, colour) in COLOURS.items())
    return f"<style>@media screen and (prefers-color-scheme:dark){{{dark}}}</style>"


def line(k: int, wide: float = 2.5) -> str:
    """How the curve of a number is drawn."""
    dashes = f' stroke-dasharray="{DASHES[k]}"' if DASHES[k] else ""
    return f'{painted(f"curve{k + 1}")} stroke-width="{at(wide)}"{dashes}'


# ---- Numbers of the curves ----

# Points to a whole picture; to a period at the least, so that a bend is drawn round; and to all periods where there are very many.
FINE, ROUND, MOST = 500, 12, 6000
# A row narrower than this is not seen.
LEAST_ROW = 1.5


@dataclass
class Drawn:
    """A curve as stretches of (point, price), each drawn as one line, and whether a point was asked for that lies too far out to be drawn."""

    stretches: List[List[Tuple[float, Number]]]
    cut: bool


def edges_of(order: Order) -> Tuple[List[float], bool]:
    """The knots and, with extrapolation, how far out points are asked for: the length of the table at the most, on either side."""
    knots = list(order.knots)
    if not order.settings["extrapolation"]:
        return knots, False
    asked = [x for one in order.asked if isinstance(one, Points) for x in one.at if math.isfinite(x)]
    first, last = min([knots[0], *asked]), max([knots[-1], *asked])
    least, most = knots[0] - (knots[-1] - knots[0]), knots[-1] + (knots[-1] - knots[0])
    left, right = max(first, least), min(last, most)
    return [left] * (left < knots[0]) + knots + [right] * (right > knots[-1]), first < least or last > most


def sampled(order: Order, curve: Curve) -> Drawn:
    """Points for drawing. A stretch ends just before its knot, where the next one starts: what is drawn at a knot from the left is the left section, even
    where the curve jumps."""
    edges, cut = edges_of(order)
    least = max(3, min(ROUND, MOST // len(edges)))
    xs = array("d")
    counts = []
    for a, b in zip(edges, edges[1:]):
        fine = max(least, math.ceil(FINE * ((b - a) / (edges[-1] - edges[0]))))
        inside = [a + (b - a) * (k / fine) for k in range(fine)]
        stretch = [x for x in inside if x < b] + [math.nextafter(b, a)]
        xs.extend(stretch)
        counts.append(len(stretch))
    xs.append(edges[-1])
    counts[-1] += 1
    pairs = iter(zip(xs, all_marked(curve.values, xs)))
    return Drawn([[next(pairs) for _ in range(count)] for count in counts], cut)


class Level(NamedTuple):
    """A strip that is asked for, with its price."""

    start: float
    end: float
    price: Number


@dataclass
class Bars:
    """Rows that are asked for, with their averages."""

    name: str
    edges: List[float]
    averages: List[Number]


def bars(orders: Sequence[Order], curves: Sequence[Curve], reach: float) -> Optional[Bars]:
    """The rows of a picture of one curve, where one can see them."""
    if len(orders) > 1:
        return None
    order = orders[0]
    for rows in order.asked:
        if isinstance(rows, Rows) and len(rows.at) > 1 and rows.step / reach * (WIDE - LEFT - RIGHT) >= LEAST_ROW:
            unit = order.unit or str(order.settings["time"])
            name = {"daily": "day average", "hourly": "hour average"}.get(rows.word, f"average, {rows.word} {unit}".strip())
            return Bars(name, rows.at, all_marked(curves[0].strips, rows.at[:-1], rows.at[1:]))
    return None


def levels(orders: Sequence[Order], curves: Sequence[Curve]) -> List[Level]:
    """The strips of a picture of one curve."""
    asked = next((one for one in orders[0].asked if isinstance(one, Strips)), None) if len(orders) == 1 else None
    if asked is None:
        return []
    return [Level(*strip) for strip in zip(asked.starts, asked.ends, all_marked(curves[0].strips, asked.starts, asked.ends))]


def finite(answers: Iterable[Number]) -> List[float]:
    """Those that can be drawn."""
    return [one for one in answers if isinstance(one, float)]


# ---- The scales ----


@dataclass
class Content:
    """All that a picture shows, in numbers."""

    orders: Sequence[Order]
    drawn: List[Drawn]
    rows: Optional[Bars]
    strips: List[Level]
    left: float
    right: float

    @property
    def first(self) -> Order:
        return self.orders[0]


def content(orders: Sequence[Order], curves: Sequence[Curve]) -> Content:
    first = orders[0]
    for order in orders[1:]:
        if (order.knots, order.averages[1:], order.dates, order.start) != (first.knots, first.averages[1:], first.dates, first.start):
            raise ValueError(f"one picture shows one table under several settings, and {order.name} has another table than {first.name}")
    if len(orders) > len(DASHES):
        raise ValueError(f"one picture shows at most {len(DASHES)} curves")
    if not math.isfinite((first.knots[-1] - first.knots[0]) * 3):
        raise ValueError("the knots lie too far apart to be drawn")
    drawn = [sampled(order, curve) for order, curve in zip(orders, curves)]
    left = min(curve.stretches[0][0][0] for curve in drawn)
    right = max(curve.stretches[-1][-1][0] for curve in drawn)
    return Content(orders, drawn, bars(orders, curves, right - left), levels(orders, curves), left, right)


def heights(shown: Content) -> Scale:
    """The lowest price and the highest that a picture shows, with some air. What is carried on beyond the ends is shown as far as the table's own height
    below and above it, and is cut off there: nothing holds it."""
    first, last = shown.first.knots[0], shown.first.knots[-1]
    within: List[float] = list(shown.first.averages[1:])
    beyond: List[float] = []
    for curve in shown.drawn:
        for x, price in (pair for stretch in curve.stretches for pair in stretch):
            if isinstance(price, float):
                (within if first <= x <= last else beyond).append(price)
    if shown.rows:
        within += finite(shown.rows.averages)
    for a, b, price in shown.strips:
        if isinstance(price, float):
            (within if first <= a and b <= last else beyond).append(price)
    low, high = min(within), max(within)
    reach = high - low or abs(high) or 1.0
    low, high = max(min([low, *beyond]), low - reach), min(max([high, *beyond]), high + reach)
    pad = (high - low) * 0.06 or abs(high) * 0.1 or 1.0
    # Air does not reach over 0 where no price does.
    least = 0.0 if low >= 0 else -math.inf
    most = 0.0 if low < 0 and high <= 0 else math.inf
    low, high = max(low - pad, least), min(high + pad, most)
    if not math.isfinite((high - low) * 4):
        raise ValueError("the prices lie too far apart to be drawn")
    return low, high


def scale_of(orders: Sequence[Order], curves: Sequence[Curve]) -> Scale:
    """The scale that a picture has by itself. Pictures that are compared take the lowest and the highest of theirs."""
    return heights(content(orders, curves))


# ---- The page ----

WIDE, HIGH = 760, 280
# What is left beside the plot; on the left more where the labels are long.
LEFT, RIGHT, EDGE = 62, 36, 16
FONT = 14
TITLE_FONT = 18


@dataclass
class Frame:
    """Where the plot lies on the page, and what it spans."""

    left: float
    right: float
    low: float
    high: float
    begin: float
    top: float

    @property
    def end(self) -> float:
        return WIDE - RIGHT

    @property
    def foot(self) -> float:
        return self.top + HIGH

    def across(self, x: float) -> float:
        return self.begin + (x - self.left) / (self.right - self.left) * (self.end - self.begin)

    def down(self, y: float) -> float:
        """The place of a price. One far outside is kept near enough for a renderer's numbers."""
        return min(max(self.foot - (y - self.low) / (self.high - self.low) * HIGH, -9999.0), 9999.0)


def at(place: float) -> str:
    """A place on the page, to a hundredth."""
    text = f"{place:.2f}".rstrip("0").rstrip(".")
    return "0" if text == "-0" else text


def clean(text: str) -> str:
    """A text of the user's for XML: signs that no XML may hold become question marks."""
    return escape("".join(sign if sign >= " " and sign not in "\ufffe\uffff" and not "\ud800" <= sign <= "\udfff" else "?" for sign in text))


def text_at(x: float, y: float, text: str, more: str = "") -> str:
    return f'<text x="{at(x)}" y="{at(y)}"{more}>{clean(text)}</text>'


def draw(orders: Sequence[Order], curves: Sequence[Curve], scale: Optional[Scale] = None) -> str:
    """The picture of orders with one table, and of their curves. A scale is the lowest price and the highest that it shows. Raises ValueError, in words,
    where there is nothing that can be drawn."""
    shown = content(orders, curves)
    low, high = scale or heights(shown)
    if not (low < high and math.isfinite((high - low) * 4)):
        raise ValueError(f"a picture's scale goes from a lower price to a higher one, and this goes from {plain(low)} to {plain(high)}")
    head, below = heading(shown, low, high)
    marks = numbers(low, high, 6)
    begin = max(float(LEFT), max(width(label, FONT) for _, label in marks) + EDGE + 2)
    frame = Frame(shown.left, shown.right, low, high, begin, below + 14)
    foot = footing(shown, frame)
    about = description(shown)
    name = f"{PREFIX}{zlib.crc32(repr((head, about, low, high)).encode('utf-8', 'replace')):08x}"
    title = str(shown.first.settings["title"]) or os.path.basename(shown.first.name)
    out = [
        f'<svg xmlns="http://www.w3.org/2000/svg" viewBox="0 0 {WIDE} {at(foot[1])}" width="{WIDE}" height="{at(foot[1])}" role="img"'
        f' aria-labelledby="{name}-title {name}-about" font-family="DejaVu Sans, Verdana, Arial, sans-serif" font-size="{FONT}" {painted("ink")}>',
        f'<title id="{name}-title">{clean(title)}</title>',
        f'<desc id="{name}-about">{clean(about)}</desc>',
        style(),
        f'<clipPath id="{name}-plot"><rect x="{at(begin - 2)}" y="{at(frame.top - 2)}" width="{at(frame.end - begin + 4)}" height="{HIGH + 4}"/></clipPath>',
        f'<rect width="{WIDE}" height="{at(foot[1])}" {painted("ground")}/>',
        *head,
        f'<g clip-path="url(#{name}-plot)" fill="none">',
        *ground(shown, frame, marks),
        f'<path d="M{at(begin)} {at(frame.top)}V{at(frame.foot)}H{at(frame.end)}" {painted("axis")}/>',
        steps(shown.first, frame),
        *strip_lines(shown.strips, frame),
        *(curve_path(curve, frame, k) for k, curve in enumerate(shown.drawn)),
        "</g>",
        *(text_at(begin - 8, frame.down(y) + 5, label, ' text-anchor="end"') for y, label in marks),
        *rings(shown, frame),
        *foot[0],
    ]
    return "\n".join(out) + "\n</svg>\n"


def description(shown: Content) -> str:
    """What a picture shows, in words."""
    order = shown.first
    averages = order.averages[1:]
    unit = f" {order.settings['price']}" if order.settings["price"] else ""
    periods = f"{len(averages)} periods" if len(averages) > 1 else "1 period"
    told = [f"{periods} from {show(order, order.knots[0])} to {show(order, order.knots[-1])}, traded from {short(min(averages))} to {short(max(averages))}{unit}."]
    for curve, name in zip(shown.drawn, names(shown.orders)):
        prices = finite(price for stretch in curve.stretches for _, price in stretch)
        if prices:
            told.append(f"Line, {name}: from {short(min(prices))} to {short(max(prices))}.")
    if shown.rows:
        told.append(f"Bars: {shown.rows.name}.")
    prices = finite(strip.price for strip in shown.strips)
    if prices:
        told.append(f"Level lines, strip price: from {short(min(prices))} to {short(max(prices))}.")
    return " ".join(told)


def short(price: float) -> str:
    return f"{price:.6g}"


# ---- What lies in the plot ----


def ground(shown: Content, frame: Frame, marks: List[Mark]) -> List[str]:
    """What lies under all else: the periods' areas, the rows and the grid."""
    floor = frame.down(min(max(0.0, frame.low), frame.high))
    periods = list(zip(shown.first.knots, shown.first.knots[1:], shown.first.averages[1:]))
    out = [f'<path d="{"".join(block(frame, a, b, average, floor) for a, b, average in periods)}" {painted("month")}/>']
    if shown.rows:
        out += row_blocks(shown.rows, frame, floor)
    lines = "".join(f"M{at(frame.begin)} {at(frame.down(y))}H{at(frame.end)}" for y, _ in marks if y != 0)
    out.append(f'<path d="{lines}" {painted("grid")} stroke-opacity="0.7"/>')
    if frame.low <= 0 <= frame.high:
        out.append(f'<path d="M{at(frame.begin)} {at(frame.down(0.0))}H{at(frame.end)}" {painted("zero")}/>')
    return out


def steps(order: Order, frame: Frame) -> str:
    """The traded averages."""
    periods = zip(order.knots, order.knots[1:], order.averages[1:])
    path = "".join(level(frame, a, b, average) for a, b, average in periods)
    return f'<path d="{path}" {painted("step")} stroke-width="2.5"/>'


def level(frame: Frame, a: float, b: float, height: float) -> str:
    """A level line."""
    return f"M{at(frame.across(a))} {at(frame.down(height))}H{at(frame.across(b))}"


# A strip stands out from the bars under it; its colour is that of a third curve, which is never drawn with it.
LEVEL = f'{painted("curve3")} stroke-width="5"'


def strip_lines(strips: Sequence[Level], frame: Frame) -> List[str]:
    """A level line over the days of each strip whose price is a number."""
    path = "".join(level(frame, a, b, price) for a, b, price in strips if isinstance(price, float))
    return [f'<path d="{path}" {LEVEL}/>'] if path else []


def block(frame: Frame, a: float, b: float, height: float, floor: float, gap: float = 0.0) -> str:
    """A rectangle from the floor to a height."""
    left, right = frame.across(a) + gap / 2, frame.across(b) - gap / 2
    return f"M{at(left)} {at(floor)}V{at(frame.down(height))}H{at(right)}V{at(floor)}Z"


def row_blocks(rows: Bars, frame: Frame, floor: float) -> List[str]:
    """A bar to each row whose average is a number, with a gap beside it by which the eye tells two of them apart, and a line on it."""
    blocks, tops = [], []
    for a, b, average in zip(rows.edges, rows.edges[1:], rows.averages):
        if isinstance(average, float):
            blocks.append(block(frame, a, b, average, floor, min(1.0, 0.3 * (frame.across(b) - frame.across(a)))))
            tops.append(level(frame, a, b, average))
    return [f'<path d="{"".join(blocks)}" {painted("row")}/>', f'<path d="{"".join(tops)}" {painted("top")}/>']


def curve_path(curve: Drawn, frame: Frame, k: int) -> str:
    """A curve as one path. It is interrupted by a price that is not finite, and where the curve jumps."""
    path: List[str] = []
    before: Optional[Tuple[float, float]] = None
    for stretch in curve.stretches:
        places = [(frame.across(x), frame.down(price)) if isinstance(price, float) else None for x, price in stretch]
        for n, place in enumerate(thinned(places)):
            if place is None:
                before = None
                continue
            jumps = before is None or (n == 0 and abs(place[1] - before[1]) > 0.25)
            path.append(f"{'M' if jumps else 'L'}{at(place[0])} {at(place[1])}")
            before = place
    # Where periods are narrow a thinner line keeps them apart.
    narrow = (frame.end - frame.begin) / len(curve.stretches)
    return f'<path d="{"".join(path)}" {line(k, 2.5 if narrow >= 8 else 1.5 if narrow >= 2 else 0.75)} stroke-linejoin="round"/>'


def thinned(places: List[Optional[Tuple[float, float]]]) -> List[Optional[Tuple[float, float]]]:
    """A stretch without what nobody sees: one that is narrower than half a dot keeps its first, lowest, highest and last place."""
    found = [place for place in places if place is not None]
    if len(found) < len(places) or found[-1][0] - found[0][0] >= 0.5:
        return places
    rising = sorted(range(len(found)), key=lambda k: found[k][1])
    return [found[k] for k in sorted({0, rising[0], rising[-1], len(found) - 1})]


def faults(shown: Content) -> List[float]:
    """The points with no finite price, or the starts of rows and strips with no finite average."""
    found = {x for curve in shown.drawn for stretch in curve.stretches for x, price in stretch if price is NOT_FINITE}
    if shown.rows:
        found |= {a for a, average in zip(shown.rows.edges, shown.rows.averages) if average is NOT_FINITE}
    found |= {strip.start for strip in shown.strips if strip.price is NOT_FINITE}
    return sorted(found)


def rings(shown: Content, frame: Frame) -> List[str]:
    """A ring at the foot for each fault that is not right beside another."""
    out = []
    last = -math.inf
    for x in map(frame.across, faults(shown)):
        if x - last >= 3:
            out.append(ring(x, frame.foot))
            last = x
    return out


def ring(x: float, y: float) -> str:
    return f'<circle cx="{at(x)}" cy="{at(y)}" r="5" {painted("ground", "fault")} stroke-width="2.5"/>'


# ---- What stands around it ----


def names(orders: Sequence[Order]) -> List[str]:
    """A curve among several goes by the settings in which they differ, or by its order's name."""
    if len(orders) == 1:
        return ["price at each moment"]
    differ = [key for key in METHOD if len({order.settings[key] for order in orders}) > 1]
    found = [", ".join(in_words(key, order.settings[key]) for key in differ) for order in orders]
    if len(set(found)) < len(found):
        return [f"{os.path.basename(order.name)}{': ' if name else ''}{name}" for order, name in zip(orders, found)]
    return found


def heading(shown: Content, low: float, high: float) -> Tuple[List[str], float]:
    """The title, the legend and the price's unit, in as many lines as they need, and where the last of them stands."""
    y = 6.0
    out = []
    for text in wrap(str(shown.first.settings["title"]) or os.path.basename(shown.first.name), WIDE - 2 * EDGE, TITLE_FONT, bold=True):
        y += 24
        out.append(text_at(EDGE, y, text, f' font-size="{TITLE_FONT}" font-weight="bold"'))
    found, y = legend(entries(shown, low, high), y + 28)
    out += found
    units = wrap(str(shown.first.settings["price"]), WIDE - 2 * EDGE, FONT)
    y += 12
    for text in units:
        y += 20
        out.append(text_at(EDGE, y, text))
    return out, y


def entries(shown: Content, low: float, high: float) -> List[Tuple[str, str]]:
    """The marks of the legend with their names. Notes have no mark."""
    found = [(f'<path d="M0 -5h30" {line(k)}/>', name) for k, name in enumerate(names(shown.orders))]
    if shown.rows:
        found.append((f'<path d="M2 0v-9h8v9zM11 0v-11h8v11zM20 0v-10h8v10z" {painted("row")}/><path d="M2 -9h8m1 -2h8m1 1h8" {painted("top")}/>', shown.rows.name))
    found.append((f'<path d="M0 -5h30" {painted("step")} stroke-width="2.5"/>', "traded average"))
    if shown.strips:
        found.append((f'<path d="M0 -5h30" {LEVEL}/>', "strip price"))
    if faults(shown):
        found.append((ring(15, -5), "no finite price"))
    if any(curve.cut for curve in shown.drawn):
        found.append(("", f"drawn from {show(shown.first, shown.left)} to {show(shown.first, shown.right)}"))
    prices = [price for curve in shown.drawn for stretch in curve.stretches for _, price in stretch]
    rows = shown.rows.averages if shown.rows else []
    strips = [strip.price for strip in shown.strips]
    if not all(low <= price <= high for price in [*shown.first.averages[1:], *finite([*prices, *rows, *strips])]):
        found.append(("", "cut off at the edge"))
    return found


def legend(found: List[Tuple[str, str]], y: float) -> Tuple[List[str], float]:
    """The entries side by side as far as they fit, then in the next line; a name that is too long for a line has several."""
    out = []
    x = float(EDGE)
    for mark, name in found:
        indent = 37 if mark else 0
        texts = wrap(name, WIDE - 2 * EDGE - indent, FONT) or [""]
        wide = indent + max(width(text, FONT) for text in texts)
        if x > EDGE and x + wide > WIDE - EDGE:
            x, y = float(EDGE), y + 22
        lines = "".join(text_at(indent, 20 * k, text) for k, text in enumerate(texts))
        out.append(f'<g transform="translate({at(x)} {at(y)})">{mark}{lines}</g>')
        x += wide + 24
        y += 20 * (len(texts) - 1)
    return out, y


def footing(shown: Content, frame: Frame) -> Tuple[List[str], float]:
    """The marks of the time, its unit, and how high the page is."""
    out = []
    for x, label in time_marks(shown.first, frame):
        out.append(f'<path d="M{at(frame.across(x))} {at(frame.foot)}v5" {painted("axis")}/>')
        out.append(text_at(centre(frame, x, label), frame.foot + 21, label, ' text-anchor="middle"'))
    y = frame.foot + 24
    unit = "" if shown.first.dates else str(shown.first.settings["time"]) or shown.first.unit
    for text in wrap(unit, WIDE - 2 * EDGE, FONT):
        y += 20
        out.append(text_at((frame.begin + frame.end) / 2, y, text, ' text-anchor="middle"'))
    return out, y + 16


def centre(frame: Frame, x: float, label: str) -> float:
    """Where a label stands: under its mark, but for one that would run over the page's edge."""
    half = width(label, FONT) / 2 + 4
    return min(max(frame.across(x), half), WIDE - half)


def time_marks(order: Order, frame: Frame) -> List[Mark]:
    """Round times where the table has dates, else the knots themselves where there is room for their labels, else round numbers."""

    def fits(marks: List[Mark]) -> bool:
        ends = [(centre(frame, x, label), width(label, FONT) / 2) for x, label in marks]
        return all(b - a >= left + right + 8 for (a, left), (b, right) in zip(ends, ends[1:]))

    if order.dates and order.start is not None:
        return moments(order.start, 60 if order.unit == "hours" else 1440, frame.left, frame.right, fits)
    knots = [(x, plain(x).replace("-", "−")) for x in order.knots]
    return knots if len(knots) < 100 and fits(knots) else fitting_numbers(frame.left, frame.right, fits)
