"""Answers traded averages: day by day, hour by hour, at points or as one price
from day to day, as a table, a CSV file or a picture.

An order is a short text. Settings come first, then the table, then what is
asked:

    title: Gas, winter 2026/27   # every setting may be left out
    price: EUR/MWh               # the unit of a price
    time: days                   # what a knot counts, where it is a number
    settings: gas                # or default: gives what the text leaves out
    quadraticity: 0.3            # from 0 to 1
    monotonicity: 0.7            # from 0 to 1
    positivity: on               # on or off
    split: original              # or careful or safe: what positivity may do
    hold last period: off        # on: the last period is flat at its average
    extrapolation: off           # on: points outside the knots are answered

    2026-10  29.40               # a period by its name, and what it traded at
    Nov-26   31.85
    2026-12-01 2027-01-01 33.60  # or START END PRICE
    Q1-27    32.50

    daily                        # also: hourly, every 0.25
    at 2026-10-15 2026-11-15     # points, as many lines as you like
    strip: 2026-11-01 to 2026-11-16   # one price from START to END, likewise

The library has two defaults. 'settings: gas' names the values above. Where no
default is named, positivity is off, and all else is the same: that is for
power, which trades below 0. The heading of a table tells which default it has.

Periods are named 2026-10, Oct-26, Oct 2026, 2026-Q4, Q4-26, winter 2026, Win-26
(October to March), summer 2027, Sum-27 (April to September), 2027 or Cal-27.
They must adjoin, and END is where the next one starts: the day after the last
day. So it is with a strip. The library has the days on which named periods
start, from January 2000 to December 2099; other names go by Python's calendar.

Months, quarters or years may stand in a row, with an average to each in the
same line, in lines that follow, or both. The first month of the one name and
the last month of the other are the row's ends. Other periods may stand before
and after a row; a year and its price in one line are such a period:

    months 2026-10 to 2027-03: 29.40 31.85 33.60 34.25 33.10 30.20
    quarters 2027-Q2 to 2027-Q4: 27.10 26.80 29.90
    years 2028 to 2030: 28.40 27.20 26.75

A table may also have a knot to a line, with the average of the period that
ends there. The first knot stands alone:

    2026-10-01
    2026-11-01  29.40
    2026-12-01  31.85

A knot is a number, a day (2026-10-01) or a timestamp (2026-10-01 14:00). With
timestamps, knots count hours; with days alone, days. A timestamp has no zone:
clock changes are not handled, and every day has 24 hours. An average on the
first knot is an error, unless 'first average: not read' says that it stands
for nothing. The case of words does not matter. From # on, at the start of a
line or after a space, is a comment.

With positivity on, a period may be split: it gets a stretch at 0. By the
original split a period can lose its average or fall below 0, and one that
traded at 0 may have no price. A careful split loses no average. A safe split
loses none, holds every price at 0 or above, and takes averages of 0; it refuses
averages below 0.

'daily' tells of each day the average over it, the price at its start and the
running total at its end; 'at' the price at a point and the running total up to
it; 'strip' the average from START to END beside what was traded there: of
several periods the lowest and the highest. Under a table stands whether each
period kept its average.

Some tables leave a point or a row without a finite price, average or total: the
library refuses it by 21. The others are answered all the same. It is no-number
in a table, an empty cell in a CSV file and a ring in a picture, and a line on
standard error tells the period and the cause.

--knots tells of each knot the price that the curve comes to from the left, the
price that it goes on with to the right, and the running total up to it. It
needs nothing to be asked. 'yes' in the last column marks a jump: the two prices
differ by more than 1e-12 of the largest average or node of the two periods, or
one of them is not finite. What is less is rounding.

A file whose name ends in .csv or .tsv is a table alone, in rows of (period,
price), (start, end, price) or (knot, average). Its separator, its decimal sign
and the rows above it are found out. It asks 'daily' where --ask asks nothing.
"""

import argparse
import os
import sys
import traceback
from typing import List, Optional, Sequence, Tuple

from . import __version__
from ._library import LibraryMissing, load
from .answers import Answer, answer, left_out
from .csvfile import is_table, read_csv
from .faults import Bad, Stop, quoted
from .files import guard, read, tell, write
from .orderbytes import whole
from .periods import number
from .tables import check, file_text, printed
from .text import Order, read_order

STATUSES = """\
exit status:
  0  answered
  1  refused, by the number of a refusal
  2  the text or the command line is wrong
  3  something could not be read, written or made
  4  answered, with a period that lost its average or a price that is not finite
"""

# One picture shows so many curves.
MOST_CURVES = 4


class Shown(argparse.Action):
    """An option that prints a text and ends the command."""

    def __call__(self, parser: argparse.ArgumentParser, namespace: object, values: object, option_string: Optional[str] = None) -> None:
        write("-", (self.const or parser.format_help()).encode())
        raise Stop(0)


def parser_of(prog: str) -> argparse.ArgumentParser:
    about, _, text = (__doc__ or "").partition("\n\n")
    parser = argparse.ArgumentParser(
        prog=prog,
        description=about,
        epilog=f"{text}\n{STATUSES}",
        formatter_class=argparse.RawDescriptionHelpFormatter,
        allow_abbrev=False,
        add_help=False,
    )
    file_help = "an order, or a table as .csv or .tsv; '-' is an order on standard input. Several are for --plot: one table under several settings"
    parser.add_argument("files", metavar="FILE", nargs="+", help=file_help)
    instead = parser.add_mutually_exclusive_group()
    instead.add_argument("--plot", metavar="SVG", help="draw the curve into this file instead ('-' is standard output)")
    instead.add_argument("--csv", metavar="FILE", help="write the table with every digit into this file instead ('-' is standard output)")
    instead.add_argument("--tsv", metavar="FILE", help="the same with tabs")
    instead.add_argument("--bytes", metavar="FILE", help="write the order's bytes, as crates/curveorder/out/curveorder takes them, into this file instead; a careful or safe split has none")
    instead.add_argument("--exact", action="store_true", help="print each number so that it reads back as the same float")
    set_help = "a setting besides those of the text, as 'settings: gas'; may be given several times"
    parser.add_argument("--set", metavar="SETTING", action="append", default=[], help=set_help)
    ask_help = "what is asked besides what the text asks, as 'hourly' or 'at 2026-10-15'; may be given several times"
    parser.add_argument("--ask", metavar="WORDS", action="append", default=[], help=ask_help)
    parser.add_argument("--knots", action="store_true", help="tell the price at either side of each knot instead of what is asked")
    parser.add_argument("--scale", metavar="LOW:HIGH", help="the prices that a picture's axis spans, so that two pictures can be compared")
    parser.add_argument("--version", action=Shown, nargs=0, const=f"havgrunel {__version__}\n", help="print the version")
    parser.add_argument("-h", "--help", action=Shown, nargs=0, help="print this")
    return parser


def read_one(path: str, sets: Sequence[str], asks: Sequence[str], knots: bool) -> Order:
    data = read(path)
    name = "standard input" if path == "-" else path
    return (read_csv if is_table(path) else read_order)(name, data, sets, asks, knots)


def one_table(orders: Sequence[Order]) -> None:
    """A picture shows one table under several settings."""
    if len(orders) > MOST_CURVES:
        raise Stop(2, f"one picture shows at most {MOST_CURVES} curves")
    first = orders[0]
    for order in orders[1:]:
        if (order.knots, order.averages[1:], order.dates, order.start) != (first.knots, first.averages[1:], first.dates, first.start):
            raise Stop(2, f"one picture shows one table under several settings, and {order.name} has another table than {first.name}")


def scale_of(text: Optional[str]) -> Optional[tuple]:
    """The two prices of --scale."""
    if text is None:
        return None
    low, colon, high = text.replace("\u2212", "-").partition(":")
    try:
        found = number(low), number(high)
    except Bad as fault:
        raise Stop(2, f"--scale {quoted(text)}: {fault}; a scale is LOW:HIGH") from None
    if not colon or not found[0] < found[1]:
        raise Stop(2, f"--scale {quoted(text)}: a scale is LOW:HIGH, the lower price first")
    return found


def drawn(answers: Sequence[Answer], scale: Optional[tuple]) -> bytes:
    from . import picture

    try:
        text = picture.draw([one.order for one in answers], [one.curve for one in answers], scale)
    except ValueError as fault:
        raise Stop(3, str(fault)) from None
    return text.encode("utf-8", "surrogateescape")


def only_table(order: Order, option: str) -> None:
    """A file has one table."""
    if len(order.asked) > 1:
        kinds = [quoted(one.word) for one in order.asked]
        raise Stop(2, f"{order.name} asks for {' and '.join(kinds)}, and {option} writes one table: ask for one of them", placed=True)


def tell_all(answers: Sequence[Answer], checked: bool) -> None:
    """What is told after the table, and the check where no table shows it."""
    for one in answers:
        for line in one.after:
            tell(line)
        if not checked and one.lost:
            for line in check(one):
                tell(f"{one.order.name}: {line.strip()}")


def written_to(asked: argparse.Namespace) -> Tuple[Optional[str], str]:
    """The option that says what is written in the table's place, and where to; without one the table goes to standard output."""
    for name in ("plot", "csv", "tsv", "bytes"):
        if getattr(asked, name) is not None:
            return f"--{name}", getattr(asked, name)
    return None, "-"


def run(asked: argparse.Namespace) -> int:
    """Answers the command line; what goes wrong is raised as Stop."""
    option, target = written_to(asked)
    if len(asked.files) > 1 and option != "--plot":
        raise Stop(2, "several files are for --plot")
    if asked.scale is not None and option != "--plot":
        raise Stop(2, "--scale is for --plot")
    if asked.knots and option in ("--plot", "--bytes"):
        raise Stop(2, f"--knots is for a table, and {option} writes none")
    if asked.knots and asked.ask:
        raise Stop(2, "--knots tells of the knots instead of what is asked: leave --ask out")
    scale = scale_of(asked.scale)
    orders = [read_one(path, asked.set, asked.ask, asked.knots) for path in asked.files]
    if option == "--plot":
        one_table(orders)
    if option in ("--csv", "--tsv"):
        only_table(orders[0], option)
    if option is not None and target != "-":
        guard(target, option, asked.files)
    if option == "--bytes":
        told = whole(orders[0])
        for line in left_out(orders[0]):
            tell(line)
        write(target, told)
        return 0
    load(progress=True)
    answers = [answer(order) for order in orders]
    for one in answers:
        for line in one.before:
            tell(line)
    if option == "--plot":
        write(target, drawn(answers, scale))
    elif option is not None:
        write(target, file_text(answers[0], "," if option == "--csv" else "\t").encode())
    else:
        write(target, printed(answers[0], asked.exact).encode("utf-8", "surrogateescape"))
    tell_all(answers, option is None)
    return max(one.status for one in answers)


def name_of(program: str) -> str:
    name = os.path.basename(program)
    return "havgrunel" if name in ("", "__main__.py", "-c", "-m") else name


def main(argv: Optional[List[str]] = None) -> int:
    """The command: answers its exit status. Nothing that a user does ends in a traceback."""
    prog = name_of(sys.argv[0] if sys.argv else "")
    try:
        return run(parser_of(prog).parse_args(argv))
    except Stop as stop:
        for line in stop.lines:
            tell(line if stop.placed else f"{prog}: {line}")
        return stop.status
    except LibraryMissing as missing:
        for line in str(missing).splitlines():
            tell(line)
        return 3
    except KeyboardInterrupt:
        tell(f"{prog}: stopped by Ctrl-C")
        return 130
    except MemoryError:
        tell(f"{prog}: there is not enough memory")
        return 3
    except Exception as fault:
        place = traceback.extract_tb(fault.__traceback__)[-1]
        where = f"{os.path.basename(place.filename)}:{place.lineno}"
        tell(f"{prog}: this is a fault of the command itself, please report it: {type(fault).__name__} in {where}: {fault}")
        return 3
