"""Answers as a printed table, with the check of each period under it, and as the rows of a CSV file."""

from typing import List, Optional, Sequence, Tuple

from .answers import Answer, Answered, AtKnot, AtPoint, OverRow, OverStrip, period, short
from .csvfile import KNOT_NAMES, POINT_NAMES, ROW_NAMES, STRIP_NAMES, full, written
from .faults import of
from .finite import Number
from .text import METHOD, SETTINGS, Knots, Order, Points, Rows, Strips, default_name, in_words, needs_clock, plain, show

# What the first column of rows is called.
ROW_HEADS = {"daily": "day", "hourly": "hour"}


def shown(x: Optional[Number], exact: bool) -> str:
    """A number of the table, a word where it is not finite, and a dash where none is asked for."""
    if x is None:
        return "-"
    if not isinstance(x, float):
        return "no-number"
    if exact:
        return plain(x)
    if abs(x) >= 1e12:
        return f"{x:.10e}"
    text = f"{x:.4f}"
    return text[1:] if float(text) == 0 and text[0] == "-" else text


def heading(order: Order) -> List[str]:
    """The title, where there is one, and the settings of the method: first those that the order sets, then the rest, with the default that they are of."""
    s = order.settings
    told = [key for k, key in enumerate(METHOD) if k < 3 or s[key] != SETTINGS[key][1]]
    line = ", ".join([of(len(order.knots) - 1, "period"), *(in_words(key, s[key]) for key in told if key in order.setting_lines)])
    rest = ", ".join(in_words(key, s[key]) for key in told if key not in order.setting_lines)
    return [*([str(s["title"])] if s["title"] else []), f"{line}; {default_name(order)}: {rest}" if rest else line]


def units(order: Order) -> Tuple[str, str, str]:
    """The units of a point, of a price and of a total. Dates need none."""
    price, time = str(order.settings["price"]), str(order.settings["time"]) or order.unit
    return "" if order.dates else time, price, f"{price} x {time}" if price and time else ""


def laid_out(heads: Sequence[Sequence[str]], rows: Sequence[Sequence[str]]) -> List[str]:
    """Columns under their heads, the first to the left and the others to the right."""
    wide = [max(len(row[k]) for row in [*heads, *rows]) for k in range(len(heads[0]))]

    def line(row: Sequence[str]) -> str:
        return "   ".join(f"{cell:>{w}}" if k else f"{cell:<{w}}" for k, (cell, w) in enumerate(zip(row, wide))).rstrip()

    dashes = "  ".join("-" * (w + (1 if k else 0)) for k, w in enumerate(wide))
    return [*map(line, heads), dashes, *map(line, rows)]


def point_table(order: Order, table: Answered, exact: bool) -> List[str]:
    point, price, total = units(order)
    heads = [("day" if order.unit == "days" and order.dates else "point", "price", "running total")]
    if price or point or total:
        heads.append((point, price, total))
    assert isinstance(table.asked, Points)
    rows = []
    for row, written_as in zip(table.rows, table.asked.shown):
        assert isinstance(row, AtPoint)
        rows.append((written_as, shown(row.price, exact), shown(row.total, exact)))
    return laid_out(heads, rows)


def row_table(order: Order, table: Answered, exact: bool) -> List[str]:
    """Averages first: a price at a day's start is no price of the day."""
    assert isinstance(table.asked, Rows)
    point, price, total = units(order)
    heads = [(ROW_HEADS.get(table.asked.word, "from"), "average", "price at its start", "running total at its end")]
    if price or point or total:
        heads.append((point, price, price, total))
    clock = needs_clock(order, table.asked.at)
    rows = []
    for row in table.rows:
        assert isinstance(row, OverRow)
        rows.append((show(order, row.start, clock), *(shown(x, exact) for x in row[2:])))
    lines = laid_out(heads, rows)
    note = short_last(order, table.asked)
    return [*lines, note] if note else lines


def strip_table(order: Order, table: Answered, exact: bool) -> List[str]:
    """Each strip's price beside what was traded: of several periods the lowest and the highest."""
    assert isinstance(table.asked, Strips)
    point, price, _ = units(order)
    heads = [("strip from", "to", "average", "traded")]
    if price or point:
        heads.append((point, point, price, price))
    ends = table.asked.shown
    rows = []
    for row, start, end in zip(table.rows, ends[::2], ends[1::2]):
        assert isinstance(row, OverStrip)
        traded = " to ".join(shown(x, exact) for x in sorted({row.lowest, row.highest} - {None})) or shown(None, exact)
        rows.append((start, end, shown(row.average, exact), traded))
    return laid_out(heads, rows)


def knot_table(order: Order, table: Answered, exact: bool) -> List[str]:
    assert isinstance(table.asked, Knots)
    point, price, total = units(order)
    heads = [("knot", "price from the left", "price from the right", "running total", "jump")]
    if price or point or total:
        heads.append((point, price, price, total, ""))
    clock = needs_clock(order, table.asked.at)
    rows = []
    for row in table.rows:
        assert isinstance(row, AtKnot)
        rows.append((show(order, row.at, clock), *(shown(x, exact) for x in row[1:4]), "yes" if row.jump else ""))
    return laid_out(heads, rows)


def short_last(order: Order, asked: Rows) -> str:
    """A note on a last row that is shorter than the others."""
    if len(asked.at) < 2 or len(asked.at) == 2 and asked.at[1] - asked.at[0] >= asked.step:
        return ""
    length = asked.at[-1] - asked.at[-2]
    if length >= asked.step * (1 - 1e-9):
        return ""
    return f"The last row is shorter than the others: it ends at {show(order, asked.at[-1])}."


def check(answer: Answer) -> List[str]:
    """What each period holds beside what it traded at: one line where all averages are kept, and else a line for each that is not."""
    count, lost = len(answer.held), answer.lost
    if not lost:
        return ["the average is kept" if count == 1 else f"all {count} averages kept"]
    lines = [f"{len(lost)} of {of(count, 'average')} not kept:"]
    order = answer.order
    for one in lost:
        # As many digits as it takes to see the difference.
        form, held = short, "has no finite total"
        if isinstance(one.held, float):
            form = short if short(one.traded) != short(one.held) else plain
            held = f"holds {form(one.held)}"
        lines.append(f"  {period(order, one.period)} traded at {form(one.traded)} and {held} (line {order.average_lines[one.period]})")
    if any(isinstance(one.held, float) for one in lost):
        way = f"'{answer.keeping}' avoids this" if answer.keeping else "docs/SHAPES.md says how to avoid this"
        lines.append(f"  The rows around its ends carry the difference; {way}.")
    return lines


def printed(answer: Answer, exact: bool = False) -> str:
    """The whole text: heading, tables and check."""
    lines = heading(answer.order)
    for table in answer.tables:
        lay_out = {Points: point_table, Strips: strip_table, Rows: row_table, Knots: knot_table}[type(table.asked)]
        lines += ["", *lay_out(answer.order, table, exact)]
    return "\n".join([*lines, "", *check(answer)]) + "\n"


def file_text(answer: Answer, separator: str) -> str:
    """One table as CSV or TSV, every digit of it."""
    order, table = answer.order, answer.tables[0]
    clock = needs_clock(order, table.asked.at)
    if isinstance(table.asked, Knots):
        return written(KNOT_NAMES, ([show(order, row[0], clock), *map(full, row[1:4]), str(int(row[4]))] for row in table.rows), separator)
    names = {Points: POINT_NAMES, Strips: STRIP_NAMES, Rows: ROW_NAMES}[type(table.asked)]
    points = 1 if names is POINT_NAMES else 2
    return written(names, ([*(show(order, x, clock) for x in row[:points]), *map(full, row[points:])] for row in table.rows), separator)
