"""A table of quotes as a spreadsheet has it: a CSV file as an order, and answers as CSV or TSV.

What a file does not say of itself is found out: which sign parts its cells, whether decimals have a comma, whether rows stand above the table that belong
to no period. Where that leaves a choice between two numbers, the row is told and nothing is read.
"""

import csv
import io
import re
from typing import Iterable, List, Optional, Sequence, Tuple

from .faults import Bad, Located, clipped, quoted
from .finite import Number
from .periods import Item, item, items
from .quotes import Quotes
from .text import Order, begin, finish, options_asked

# A sign that parts cells, in the order in which they are tried: a comma last, since it may be a decimal sign.
SEPARATORS = ["\t", ";", "|", ","]

ROW_NAMES = ["start", "end", "average", "price_at_start", "total_at_end"]
POINT_NAMES = ["point", "price", "total"]
KNOT_NAMES = ["knot", "price_from_left", "price_from_right", "total", "jump"]
STRIP_NAMES = ["start", "end", "average", "lowest_traded", "highest_traded"]

ROW_FORMS = "a row is a period and its price, START, END and a price, or a knot and its average"

Row = Tuple[int, List[str]]

DIGITS = re.compile(r"[+-]?[0-9][0-9.,']*|[+-]?[.,][0-9]+")
NUMERIC = re.compile(r"[+-]?([0-9]+([.,][0-9]*)?|[.,][0-9]+|[0-9]{1,3}(\.[0-9]{3})+(,[0-9]*)?|[0-9]{1,3}(,[0-9]{3})+(\.[0-9]*)?)")
GROUPED = {",": re.compile(r"[+-]?[0-9]{1,3}(\.[0-9]{3})+(,[0-9]*)?"), ".": re.compile(r"[+-]?[0-9]{1,3}(,[0-9]{3})+(\.[0-9]*)?")}
THREE = re.compile(r"[+-]?[1-9][0-9]{0,2},[0-9]{3}")


def is_table(name: str) -> bool:
    """Whether a file's name is that of a table without settings."""
    return name.lower().endswith((".csv", ".tsv"))


# ---- In ----


def decoded(data: bytes) -> str:
    """The text of a file. Spreadsheets write UTF-8, UTF-16 or Windows-1252; a table's own signs are the same in all of them."""
    if data[:2] in (b"\xff\xfe", b"\xfe\xff"):
        return data.decode("utf-16", "replace")
    try:
        return data.decode("utf-8-sig")
    except UnicodeDecodeError:
        return data.decode("cp1252", "replace")


def split_rows(text: str, separator: str) -> List[Row]:
    """The rows that are not empty, with their lines; empty cells at a row's end are dropped."""
    reader = csv.reader(io.StringIO(text, newline=""), delimiter=separator, skipinitialspace=True, strict=True)
    rows: List[Row] = []
    line = 1
    try:
        for cells in reader:
            cells = [" ".join(cell.replace("\u2212", "-").split()) for cell in cells]
            while cells and not cells[-1]:
                cells.pop()
            if cells:
                rows.append((line, cells))
            line = reader.line_num + 1
    except csv.Error as fault:
        raise Located(reader.line_num, f"the row cannot be taken apart: {fault}") from None
    return rows


def is_heading(cells: Sequence[str]) -> bool:
    """A row above the table: no cell of it is a number, a day or a period."""
    return not any(cell and (known(cell) or NUMERIC.fullmatch(cell)) for cell in cells)


def known(cell: str) -> bool:
    try:
        return item(cell).kind != "other"
    except Bad:
        return True


def table_rows(rows: List[Row]) -> Tuple[List[str], List[Row]]:
    """The last row above the table, or none, and the table's rows."""
    first = next((k for k, (_, cells) in enumerate(rows) if not is_heading(cells)), len(rows))
    return (rows[first - 1][1] if first else []), rows[first:]


def parted(text: str) -> Tuple[str, List[str], List[Row]]:
    """The separator, the heading and the table's rows. It is the sign that parts the most rows of the table, and among equals the first."""
    best: Tuple[int, str, List[str], List[Row]] = (0, "", [], [])
    fault = Located(1, "the file has no row of a table")
    for separator in SEPARATORS:
        try:
            heading, rows = table_rows(split_rows(text, separator))
        except Located as broken:
            fault = broken
            continue
        count = sum(len(cells) > 1 for _, cells in rows)
        if count > best[0]:
            best = (count, separator, heading, rows)
        elif rows and not best[0]:
            fault = Located(rows[0][0], f"{quoted(rows[0][1][0])} stands alone in its row: {ROW_FORMS}")
    if not best[0]:
        raise fault
    return best[1:]


def chosen(heading: List[str], rows: List[Row]) -> List[Row]:
    """The columns that say something. Of a file that this command wrote they are the start, the end and the average."""
    if [name.lower() for name in heading] in (ROW_NAMES, STRIP_NAMES):
        return [(line, [*cells, "", ""][:3]) for line, cells in rows]
    width = max(len(cells) for _, cells in rows)
    filled = [k for k in range(width) if any(k < len(cells) and cells[k] for _, cells in rows)]
    return [(line, [cells[k] for k in filled if k < len(cells)]) for line, cells in rows]


def decimal_sign(rows: Iterable[Row], separator: str) -> str:
    """The sign before a number's decimals, found out from all numbers of the table."""
    cells = [(line, cell) for line, row in rows for cell in row if DIGITS.fullmatch(cell)]
    commas = [(line, cell) for line, cell in cells if "," in cell]
    if not commas:
        return "."
    points = [cell for _, cell in cells if "." in cell and "," not in cell]
    last = {max(",.", key=cell.rfind) for _, cell in commas if "." in cell}
    if len(last) == 1:
        return last.pop()
    if points or len(last) > 1:
        raise Located(commas[0][0], f"{quoted(commas[0][1])} has a comma, and other numbers of the file have a point: one of them is the decimal sign")
    if separator != ";" and all(THREE.fullmatch(cell) for _, cell in commas):
        line, cell = commas[0]
        two = f"{clipped(cell.replace(',', '.'))} or {clipped(cell.replace(',', ''))}"
        raise Located(line, f"{quoted(cell)} may be {two}: write it with another number of decimals, or without the comma")
    return ","


def cell_item(cell: str, sign: str) -> Item:
    """What one cell says, its decimals after a point."""
    if DIGITS.fullmatch(cell):
        grouping = "." if sign == "," else ","
        if grouping in cell and GROUPED[sign].fullmatch(cell):
            if sign not in cell:
                two = f"{clipped(cell.replace(grouping, '.'))} or {clipped(cell.replace(grouping, ''))}"
                raise Bad(f"{quoted(cell)} may be {two}, since the file's decimal sign is a {'comma' if sign == ',' else 'point'}")
            cell = cell.replace(grouping, "")
        if sign == "," and "." not in cell:
            cell = cell.replace(",", ".")
    found = items(cell)
    return found[0] if len(found) == 1 else Item("other", cell)


def read_rows(quotes: Quotes, text: str) -> None:
    separator, heading, rows = parted(text)
    rows = chosen(heading, rows)
    sign = decimal_sign(rows, separator)
    for line, cells in rows:
        try:
            if "" in cells:
                raise Bad("a cell of this row is empty")
            quotes.add([cell_item(cell, sign) for cell in cells], line)
        except Located:
            raise
        except Bad as fault:
            raise Located(line, fault) from None


def read_csv(name: str, data: bytes, sets: Sequence[str] = (), asks: Sequence[str] = (), knots: bool = False) -> Order:
    """The order that a CSV file says. It has no settings but those of the command line, and asks 'daily' where that asks nothing."""
    order = begin(name, sets)
    asked = options_asked(order, asks)
    if not asked and not knots:
        asked = [("daily, as nothing else is asked", "daily")]
    quotes = Quotes(order.settings["first average"] == "not read")
    try:
        read_rows(quotes, decoded(data))
    except Located as fault:
        raise order.bad(fault.line, fault) from None
    return finish(order, quotes, asked, knots)


# ---- Out ----


def written(names: Sequence[str], rows: Iterable[Sequence[str]], separator: str) -> str:
    """Rows as a file has them. Their cells are numbers, dates and timestamps, which need no quotes."""
    return "".join(separator.join(row) + "\n" for row in [names, *rows])


def is_own(start: bytes) -> bool:
    """Whether a file begins as one that this command writes."""
    first = start.partition(b"\n")[0].rstrip(b"\r")
    return first in {separator.join(names).encode() for names in (ROW_NAMES, POINT_NAMES, KNOT_NAMES, STRIP_NAMES) for separator in ",\t"}


def full(x: Optional[Number]) -> str:
    """Every digit of a number: the shortest text that reads back as the same float. An empty cell, which a spreadsheet leaves blank and pandas takes for
    missing, where it is not finite or none is asked for."""
    return repr(x) if isinstance(x, float) else ""
