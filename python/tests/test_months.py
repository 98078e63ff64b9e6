"""Delivery months: their knots and curves, the periods that an order names, and periods in a row."""

import copy
import ctypes
import datetime
import random
import unittest
import unittest.mock
from array import array

from havgrunel import Curve, Method, Refused, day_number, month_knots, periods
from havgrunel._library import SLOTS, load
from havgrunel.csvfile import read_csv
from havgrunel.faults import Stop
from havgrunel.text import read_order
from runs import InAFolder, run

SIZES = {"month": 1, "quarter": 3, "year": 12}
WINTER = [29.40, 31.85, 33.60, 34.25, 33.10, 30.20]
ROW_FORM = "periods in a row are written months 2026-10 to 2027-03: 29.40 31.85 .., and quarters or years likewise"
NAMES = ["Jan", "Feb", "Mar", "Apr", "May", "Jun", "Jul", "Aug", "Sep", "Oct", "Nov", "Dec"]


def refused_at(name):
    """What the command tells of a period or a row that the library refuses."""
    return f"refused at {name}: the months are not whole periods of 1, 3 or 12 months between January 2000 and December 2099 (refusal 19)"


def bits(numbers):
    return array("d", numbers).tobytes()


def first_day(month):
    """A month's first day by Python's calendar; the month is counted from January 2000."""
    return datetime.date(2000 + month // 12, month % 12 + 1, 1)


def due(first, last, months):
    """The knots by Python's calendar, and nothing where the months are refused."""
    if months not in (1, 3, 12) or not 0 <= first <= last < 1200:
        return None
    starts = [k for k in range(1200) if first_day(k).month in range(1, 13, months)]
    inside = [k for k in starts if first <= k <= last]
    if first not in inside or last + 1 not in [*starts, 1200]:
        return None
    return [float((first_day(k) - datetime.date(2000, 1, 1)).days) for k in [*inside, last + 1]]


def refusal(call, *words, **named):
    try:
        call(*words, **named)
    except Refused as refused:
        return refused.number, refused.index
    return 0, None


def parts(curve):
    return bits(curve.knots), bits(curve.traded), bits(curve.nodes), curve._tags, bits(curve._slots), bits(curve.tail)


class Knots(unittest.TestCase):
    def test_every_month_of_the_century(self):
        knots = month_knots("2000-01", "2099-12")
        self.assertEqual((type(knots), knots.typecode, len(knots), knots[-1]), (array, "d", 1201, 36525.0))
        for k, knot in enumerate(knots):
            self.assertEqual(datetime.date(2000, 1, 1) + datetime.timedelta(knot), first_day(k))

    def test_drawn_ranges(self):
        """Those that are answered and those that are refused, against a rule of its own."""
        draw, counts = random.Random(19), {True: 0, False: 0}
        ranges = [(a, b, size) for a in range(-2, 14) for b in range(-2, 26) for size in SIZES]
        ranges += [(a, b, size) for a in range(1174, 1202) for b in range(1186, 1203) for size in SIZES]
        for _ in range(6000):
            size = draw.choice(sorted(SIZES))
            first, months = draw.randint(-30, 1230), SIZES[size]
            last = first + draw.randint(-12, 400)
            if draw.random() < 0.7:
                first, last = first - first % months, last - (last + 1) % months
            ranges.append((first, last, size))
        for first, last, size in ranges:
            knots = due(first, last, SIZES[size])
            counts[knots is not None] += 1
            if knots is None:
                self.assertEqual(refusal(month_knots, first, last, size), (19, None), (first, last, size))
            else:
                self.assertEqual(month_knots(first, last, size).tolist(), knots, (first, last, size))
        self.assertGreater(min(counts.values()), 2500)

    def test_other_sizes_by_the_library(self):
        """The package has no words for them."""
        knots, count = (ctypes.c_double * 1201)(), ctypes.c_size_t()
        for months in range(256):
            number = load().havgrunel_month_knots(0, 11, months, knots, 1201, ctypes.byref(count), 1)
            self.assertEqual(number, 0 if months in (1, 3, 12) else 19, months)

    def test_every_way_to_say_a_month(self):
        for first in "2026-10", datetime.date(2026, 10, 31), datetime.datetime(2026, 10, 1, 23, 59), 321:
            for last in "2027-03", datetime.date(2027, 3, 1), datetime.datetime(2027, 3, 31), 326:
                self.assertEqual(month_knots(first, last).tolist(), due(321, 326, 1))

    def test_outside_the_years(self):
        outside = ["1999-12", "2100-01", "0000-01", "9999-12", datetime.date.min, datetime.date(1999, 12, 31), datetime.datetime.max]
        outside += [-1, 1200, 2**63 - 1, -(2**63), 2**63, -(2**63) - 1, 2**64, 2**64 + 321, 10**400, -(10**400)]
        for month in outside:
            for first, last in (month, "2027-03"), ("2026-10", month), (month, month):
                for size in SIZES:
                    with self.subTest(first=first, last=last, size=size):
                        self.assertEqual(refusal(month_knots, first, last, size), (19, None))
                        self.assertEqual(refusal(Curve.of_months, first, last, [1.0], size=size), (19, None))
        with self.assertRaises(Refused) as caught:
            month_knots("2026-11", "2027-03", "quarter")
        self.assertEqual((refused_at("x"), caught.exception.name), (f"refused at x: {caught.exception}", "MONTHS_NOT_PERIODS"))

    def test_what_is_no_month(self):
        for month in "2026-13", "2026-00", "2026-1", "Oct-26", "", " 2026-10", "2026-10\n", "٢٠٢٦-10", "2026-10-01", "9" * 400:
            with self.subTest(month=month), self.assertRaisesRegex(ValueError, "^the last month is '.*, and a month is written as 2026-10") as caught:
                month_knots("2026-10", month)
            self.assertNotIsInstance(caught.exception, Refused)
            self.assertLess(len(str(caught.exception)), 150)
        for month in 321.0, None, b"2026-10", [321], float("nan"):
            with self.subTest(month=month), self.assertRaisesRegex(TypeError, "^the first month is .*, which is not a whole number"):
                month_knots(month, "2027-03")
        for size in "months", "Month", "week", "":
            with self.assertRaisesRegex(ValueError, "^the size is '.*', and 'month', 'quarter' or 'year' is meant"):
                month_knots(0, 11, size)
            with self.assertRaises(ValueError):
                Curve.of_months(0, 0, [1.0], size=size)
        with self.assertRaisesRegex(TypeError, "^the size is 3, and "):
            month_knots(0, 11, 3)

    def test_room(self):
        """Through ctypes: 11 for a buffer that is too short, after 19; nothing is written where it is refused, and nothing behind the last knot."""
        call = load().havgrunel_month_knots
        for first, last, months, room, counts, number in (
            (0, 1199, 1, 1201, 1, 0), (0, 1199, 1, 1200, 1, 11), (0, 1199, 1, 1201, 0, 11), (321, 326, 1, 7, 1, 0), (321, 326, 1, 6, 1, 11),
            (321, 326, 3, 3, 1, 0), (321, 326, 3, 2, 1, 11), (321, 326, 3, 0, 0, 11), (321, 326, 12, 0, 0, 19), (324, 335, 12, 2, 1, 0),
            (324, 335, 12, 1, 1, 11), (-1, 5, 1, 0, 0, 19), (0, 1200, 1, 5000, 1, 19), (5, 4, 1, 5000, 1, 19), (0, 2, 2, 5000, 1, 19),
        ):
            with self.subTest(first=first, last=last, months=months, room=room, counts=counts):
                knots, count = (ctypes.c_double * 5000)(*[-7.5] * 5000), (ctypes.c_size_t * 1)(77)
                self.assertEqual(call(first, last, months, knots, room, count, counts), number)
                written = due(first, last, months) if number == 0 else []
                self.assertEqual(list(knots), written + [-7.5] * (5000 - len(written)))
                self.assertEqual(count[0], len(written) if number == 0 else 77)

    def test_the_number_of_a_day(self):
        for month in range(1200):
            self.assertEqual(day_number(first_day(month)), due(month, month, 1)[0])
        self.assertEqual(day_number(datetime.datetime(2026, 10, 1, 18)), day_number(datetime.date(2026, 10, 1)) + 0.75)
        self.assertEqual((day_number(datetime.date(1999, 12, 31)), type(day_number(datetime.date(2000, 1, 1)))), (-1.0, float))
        with self.assertRaises(TypeError):
            day_number(datetime.datetime(2026, 10, 1, tzinfo=datetime.timezone.utc))


class Builds(unittest.TestCase):
    def test_it_is_the_curve_over_the_same_knots(self):
        draw = random.Random(2)
        for _ in range(600):
            size = draw.choice(sorted(SIZES))
            months, count = SIZES[size], draw.choice([1, 1, 2, 3, 6, 12, 24, 40])
            first = draw.randrange(0, 1200 - months * count + 1, months)
            last = first + months * count - 1
            averages = [draw.choice([0.0, 30.0, round(draw.uniform(0.0, 60.0), 2)]) for _ in range(count)]
            split = draw.choice(["original", "careful", "safe"])
            method = Method(draw.choice([0.0, 0.3, 1.0]), draw.choice([0.0, 0.7, 1.0]), draw.random() < 0.5, split)
            seam = draw.choice([None, None, (draw.randrange(count), 25.0)])
            named = {"hold": draw.random() < 0.3, "seam": seam, "extrapolate": draw.random() < 0.3}
            curve = Curve.of_months(first, last, averages, method, size=size, **named)
            other = Curve(month_knots(first, last, size), [0.0, *averages], method, **named)
            self.assertEqual(parts(curve), parts(other))
            self.assertEqual(
                (curve.method, curve.hold, curve.extrapolate, curve.column, repr(curve)),
                (other.method, other.hold, other.extrapolate, other.column, repr(other)),
            )
            points = [draw.uniform(curve.knots[0], curve.knots[-1]) for _ in range(5)]
            for ask in "value", "primitive":
                for x in [*points, *curve.knots]:
                    self.assertEqual(self.answered(curve, ask, x), self.answered(other, ask, x))

    def answered(self, curve, ask, x):
        try:
            return bits([getattr(curve, ask)(x)])
        except Refused as refused:
            return refused.number

    def test_the_whole_century(self):
        draw = random.Random(5)
        averages = [round(draw.uniform(20, 40), 2) for _ in range(1200)]
        curve = Curve.of_months(0, 1199, averages)
        self.assertEqual(parts(curve), parts(Curve(month_knots(0, 1199), [0.0, *averages])))
        self.assertEqual((len(curve.sections), curve.tail.from_), (1200, 36525.0))

    def test_the_days_of_a_month_average_what_it_traded_at(self):
        curve = Curve.of_months("2026-10", datetime.date(2027, 3, 31), WINTER, Method.gas())
        for month, traded in enumerate(WINTER, 321):
            start, end = (int(day_number(first_day(k))) for k in (month, month + 1))
            days = curve.averages(range(start, end + 1))
            self.assertAlmostEqual(sum(days) / len(days), traded, 10)
        self.assertEqual(curve.traded.tolist(), [0.0, *WINTER])
        quarters = Curve.of_months("2026-10", "2027-09", [31.6, 32.5, 27.1, 26.8], size="quarter")
        self.assertAlmostEqual(quarters.strip(day_number(datetime.date(2027, 1, 1)), day_number(datetime.date(2027, 4, 1))), 32.5, 10)
        years = Curve.of_months(datetime.date(2027, 1, 1), datetime.date(2029, 12, 31), array("d", [45.1, 46.0, 44.2]), size="year")
        self.assertEqual(years.knots.tolist(), [9862.0, 10227.0, 10593.0, 10958.0])
        self.assertAlmostEqual(years.strip(10227, 10593), 46.0, 10)

    def test_as_other_curves(self):
        class Mine(Curve):
            pass

        curve = Mine.of_months("2026-10", "2027-03", WINTER)
        self.assertEqual((type(curve), parts(copy.deepcopy(curve)), curve.method), (Mine, parts(curve), Method()))
        self.assertEqual(curve.with_extrapolation().value(curve.knots[-1] + 400), curve.value(curve.knots[-1]))
        self.assertEqual(refusal(curve.strip_between, 0, 1), (11, None))
        with self.assertRaisesRegex(TypeError, "^averages: entry 1 is '31.85', which is not a number"):
            Curve.of_months("2026-10", "2026-11", [29.40, "31.85"])
        with self.assertRaisesRegex(TypeError, "^the method is a str"):
            Curve.of_months("2026-10", "2026-11", [29.40, 31.85], "gas")

    def test_refusals(self):
        """The index is that of an average as it was given."""
        nan, safe = float("nan"), Method.gas(split="safe")
        for averages, method, named, expected in (
            ([1.0, 2.0, 3.0], None, {"last": "2026-09"}, (19, None)),
            ([nan], Method(2, 2), {"last": "2026-09"}, (19, None)),
            ([], None, {}, (1, None)),
            ([1.0, 2.0], Method(2, 2), {}, (1, None)),
            ([1.0, 2.0, 3.0, 4.0], None, {}, (1, None)),
            ([1.0] * 5000, None, {}, (1, None)),
            ([1.0, 2.0, nan], Method(2, 2), {}, (2, None)),
            ([1.0, 2.0, nan], Method(2, 0.5), {}, (3, None)),
            ([nan, 2.0, nan], None, {"seam": (9, 1.0)}, (6, 0)),
            ([1.0, 2.0, nan], safe, {}, (6, 2)),
            ([1.0, 2.0, -3.0], safe, {"seam": (9, 1.0)}, (8, None)),
            ([1.0, 2.0, -3.0], safe, {}, (29, 2)),
            ([-1.0, 2.0, -3.0], safe, {}, (29, 0)),
            ([-1.0, 2.0, -3.0], Method.gas(), {}, (0, None)),
        ):
            with self.subTest(averages=averages[:4], method=method, named=named):
                self.assertEqual(refusal(Curve.of_months, **{"first": "2026-10", "last": "2026-12", "averages": averages, "method": method, **named}), expected)

    def test_refusals_in_order_through_ctypes(self):
        """With each two faults at once the first in this order is told, and nothing is written."""
        nan, inf = float("nan"), float("inf")
        sound = {"first": 321, "last": 323, "months": 1, "averages": [0.0, 1.0, 2.0, 3.0], "quadraticity": 0.3, "monotonicity": 0.7, "split": 2, "seam": 0, "room": 4}
        # The knots of months are two at least, finite and rising, and at most 1,201: 4, 5, 7 and 10 cannot come.
        faults = [
            (19, {"first": -1}), (19, {"last": 1200}), (19, {"last": 320}), (19, {"months": 3, "last": 324}), (19, {"months": 3, "first": 322}), (19, {"months": 12}),
            (19, {"months": 0}), (19, {"months": 255}), (30, {"split": 3}), (1, {"averages": [0.0, 1.0, 2.0]}), (1, {"averages": [0.0, nan, -2.0, 3.0, 4.0]}),
            (2, {"monotonicity": nan}), (3, {"quadraticity": -0.25}), (6, {"averages": [inf, 1.0, 2.0, 3.0]}), (6, {"averages": [0.0, 1.0, -2.0, nan]}), (8, {"seam": 4}),
            (29, {"averages": [0.0, 1.0, 2.0, -3.0]}), (11, {"room": 3}), (11, {"room": 0}),
        ]
        for k, (number, fault) in enumerate(faults):
            self.assertEqual(self.lent(**{**sound, **fault}), number, fault)
            for _, more in faults[k:]:
                if not set(fault) & set(more):
                    self.assertEqual(self.lent(**{**more, **sound, **more, **fault}), number, (fault, more))
        self.assertEqual(self.lent(**sound), 0)
        for short in "knots", "nodes", "tags", "slots", "sections", "tail":
            self.assertEqual(self.lent(**sound, short=short), 11, short)

    def lent(self, first, last, months, averages, quadraticity, monotonicity, split, seam, room, short=""):
        """The refusal of one call with room for so many knots, and one entry less of what is to be short."""
        sizes = {"knots": room, "nodes": room, "tags": max(room - 1, 0), "slots": SLOTS * max(room - 1, 0), "sections": 1, "tail": 3}
        kinds = {"tags": ctypes.c_uint16, "sections": ctypes.c_size_t}
        buffers = {name: (kinds.get(name, ctypes.c_double) * (size + 1))(*[77] * (size + 1)) for name, size in sizes.items()}
        before = {name: bytes(buffer) for name, buffer in buffers.items()}
        out = [word for name, buffer in buffers.items() for word in (buffer, sizes[name] - (name == short))]
        ys = (ctypes.c_double * len(averages))(*averages)
        seamed = (True, seam, 1.0) if seam else (False, 0, 0.0)
        number = load().havgrunel_build_months(first, last, months, ys, len(ys), quadraticity, monotonicity, True, split, False, *seamed, *out)
        after = {name: bytes(buffer) for name, buffer in buffers.items()}
        if number:
            self.assertEqual(after, before)
        else:
            self.assertEqual(list(buffers["knots"]), [*due(first, last, months), 77.0])
        return number


def read(text, **options):
    return read_order("x", text.encode(), **options)


class Named(InAFolder):
    """The periods that an order names."""

    def spans(self, first, count):
        """Every name of the period of so many months from a month on."""
        year, month = 2000 + first // 12, first % 12 + 1
        if count == 1:
            return [f"{year}-{month:02}", f"{NAMES[month - 1]}-{year % 100:02}"]
        if count == 3:
            return [f"{year}-Q{month // 3 + 1}", f"Q{month // 3 + 1}-{year % 100:02}"]
        if count == 6:
            return [f"winter {year}", f"Win-{year % 100:02}"] if month == 10 else [f"summer {year}", f"Sum-{year % 100:02}"]
        return [f"{year}", f"Cal-{year % 100:02}"]

    def test_every_period_of_the_century(self):
        count = 0
        for months in 1, 3, 6, 12:
            for first in range(3 if months == 6 else 0, 1201 - months, months):
                start, end = first_day(first), first_day(first + months)
                for name in self.spans(first, months):
                    order = read(f"{name} 3\nat {start}\n")
                    self.assertEqual((order.start, order.knots, order.asked[0].at), (start, [0.0, float((end - start).days)], [0.0]), name)
                    count += 1
        self.assertEqual(count, 2 * (1200 + 400 + 199 + 100))

    def test_the_table_is_read_once_and_followed(self):
        """A stand-in for another calendar, with months of 30 days: the periods are its own."""
        other = unittest.mock.Mock(return_value=array("d", [30.0 * k for k in range(1201)]))
        self.addCleanup(periods.all_first_days.cache_clear)
        periods.all_first_days.cache_clear()
        with unittest.mock.patch.object(periods, "month_knots", other):
            self.assertEqual(read("0\n1 3\nat 0\n").knots + read("2026-10-01 2026-11-01 3\ndaily\n").knots, [0.0, 1.0, 0.0, 31.0])
            self.assertEqual(other.call_count, 0)
            for text in "Oct-26 3\n2026-11 3\nQ4-26 3\n".replace("Q4-26", "2026-12"), "winter 2026 3\n2027-Q2 3\n", "2027 3\n":
                order = read(text + "daily\n", knots=True)
                self.assertTrue(all(knot % 30 == 0 for knot in order.knots), order.knots)
        other.assert_called_once_with(0, 1199, "month")

    def test_outside_the_years(self):
        """Names beyond the library's table are read by Python's calendar, and those beyond that are told so."""
        for name, days in (
            ("1999-12", 31), ("Dec-1999", 31), ("2100-01", 31), ("1999-Q4", 92), ("Q1 2100", 90), ("winter 2099", 182), ("Win-99", 182), ("winter 1999", 183),
            ("summer 2100", 183), ("1999", 365), ("2100", 365), ("Cal-2100", 365), ("0001-01", 31), ("9999-11", 30),
        ):
            with self.subTest(name=name):
                self.assertEqual(read(f"{name} 3\ndaily\n").knots, [0.0, float(days)])
        for name in "9999-12", "0000-01":
            with self.subTest(name=name):
                told = f"'{name}' is beyond the calendar\n"
                self.assertEqual(run("-", text=f"{name} 3\ndaily\n"), (2, "", f"standard input:1: {told}"))
                self.assertEqual(run("-", text=f"# a\nDec-99 2\n{name} 3\ndaily\n"), (2, "", f"standard input:3: {told}"))
                self.assertEqual(run(self.written("x.csv", f"month;price\n{name};3\n")), (2, "", f"{self.path('x.csv')}:2: {told}"))

    def test_where_no_period_stands_it_is_not_asked_for(self):
        for text, what in (
            ("2026-10 3\nat 1999-12\n", "2: '1999-12' is a period, and 'at' takes points, as 2026-10-15"),
            ("2026-10 1999-12\ndaily\n", "1: '1999-12' is a period, and a price stands here"),
            ("1999-12\ndaily\n", "1: the period '1999-12' has no price"),
            ("2026-10-01\n2100-01 3\ndaily\n", "2: '2100-01' is a period, and a knot stands here; in a table of periods the first line has a price too"),
        ):
            self.assertEqual(run("-", text=text), (2, "", f"standard input:{what}\n"))

    def test_days_and_numbers_are_not_limited(self):
        for text, knots in (
            ("1900-02-01 1900-03-01 3\ndaily\n", [0.0, 28.0]),
            ("2099-12-01\n2100-03-01 3\ndaily\n", [0.0, 90.0]),
            ("2100\n2101 3\nat 2100\n", [2100.0, 2101.0]),
            ("1999 2000 3\nat 1999\n", [1999.0, 2000.0]),
            ("2150-01-01 00:00\n2150-01-02 3\nhourly\n", [0.0, 24.0]),
        ):
            self.assertEqual(read(text).knots, knots)


# Each way to write the winter of 2026 in a row.
SPELLINGS = [
    "months 2026-10 to 2027-03: 29.40 31.85 33.60 34.25 33.10 30.20",
    "months Oct-26 to Mar-27: 29.40 31.85 33.60 34.25 33.10 30.20   # a row",
    "Months  October 2026  TO  March 2027 :29.40 31.85 33.60 34.25 33.10 30.20",
    "months: 2026-10 to 2027-03: 29.40 31.85 33.60 34.25 33.10 30.20",
    "months 2026-Q4 to Q1-27: 29.40 31.85 33.60 34.25 33.10 30.20",
    "months winter 2026 to Win-26: 29.40 31.85 33.60 34.25 33.10 30.20",
    "months 2026-10 to 2027-03: 29.40 31.85 33.60\n# the new year\n\n34.25 33.10\n30.20",
    "months 2026-10 to 2027-03\n29.40 31.85 33.60 34.25 33.10 30.20",
    "months 2026-10 to 2027-03:\n29.40\n31.85\n33.60\n34.25\n33.10\n30.20",
    "MONTHS:\t2026-10 to 2027-03\n29.4 31.850\n+33.6 3425e-2 33.10 30.2",
]

BAD_ROWS = [
    ("months 2026-10 to 2027-03: 1 2 3\ndaily\n", 2, 1, "'months 2026-10 to 2027-03' takes 6 averages, one to each month, and has 3"),
    ("\nmonths 2026-10 to 2027-03:\n1 2\n3\ndaily\n", 2, 2, "'months 2026-10 to 2027-03' takes 6 averages, one to each month, and has 3"),
    ("months 2026-10 to 2027-03\ndaily\n", 2, 1, "'months 2026-10 to 2027-03' takes 6 averages, one to each month, and has 0"),
    ("months 2026-10 to 2027-03: 1 2 3 4 5 6 7\ndaily\n", 2, 1, "'months 2026-10 to 2027-03' takes 6 averages, one to each month, and has 7"),
    ("months Oct-26 to Mar-27: 1 2 3\n4 5 6 7 8\ndaily\n", 2, 2, "'months Oct-26 to Mar-27' takes 6 averages, one to each month, and has 8"),
    ("months Oct-26 to Oct-26: 1\n2\ndaily\n", 2, 2, "'months Oct-26 to Oct-26' takes 1 average, one to each month, and has 2"),
    ("quarters 2026-Q4 to 2027-Q3: 1 2 3\ndaily\n", 2, 1, "'quarters 2026-Q4 to 2027-Q3' takes 4 averages, one to each quarter, and has 3"),
    ("years 2027 to 2029: 1 2 3 4\ndaily\n", 2, 1, "'years 2027 to 2029' takes 3 averages, one to each year, and has 4"),
    # A year and its price are no averages of a row, and neither are other periods.
    ("years 2026 to 2028: 45.10\n2029 46.20\ndaily\n", 2, 1, "'years 2026 to 2028' takes 3 averages, one to each year, and has 1"),
    ("months 2026-10 to 2027-03: 1 2 3\n2027-04 4\ndaily\n", 2, 1, "'months 2026-10 to 2027-03' takes 6 averages, one to each month, and has 3"),
    ("months 2026-10 to 2026-12: 1\nyears 2027 to 2027: 2\ndaily\n", 2, 1, "'months 2026-10 to 2026-12' takes 3 averages, one to each month, and has 1"),
    # Refused by the library.
    ("quarters 2026-11 to 2027-03: 1\ndaily\n", 1, 1, f"{refused_at('quarters 2026-11 to 2027-03')}; a row of quarters starts in January, April, July or October, and its last month ends a quarter"),
    ("quarters 2026-10 to 2027-01: 1 2\ndaily\n", 1, 1, f"{refused_at('quarters 2026-10 to 2027-01')}; a row of quarters starts in January, April, July or October, and its last month ends a quarter"),
    ("\nyears winter 2026 to 2029: 1 2\ndaily\n", 1, 2, f"{refused_at('years winter 2026 to 2029')}; a row of years starts in January and ends in December"),
    ("months 2027-03 to 2026-10: 1\ndaily\n", 1, 1, f"{refused_at('months 2027-03 to 2026-10')}; the last month of a row may not come before its first"),
    ("months 1999-12 to 2000-01: 1 2\ndaily\n", 1, 1, f"{refused_at('months 1999-12 to 2000-01')}; the last month of a row may not come before its first"),
    ("years 2099 to 2100: 1 2\ndaily\n", 1, 1, f"{refused_at('years 2099 to 2100')}; a row of years starts in January and ends in December"),
    # What stands where a name or an average should.
    ("months 2026-10: 1\ndaily\n", 2, 1, ROW_FORM),
    ("months\ndaily\n", 2, 1, ROW_FORM),
    ("months:\ndaily\n", 2, 1, ROW_FORM),
    ("months 2026-10 2027-03: 1\ndaily\n", 2, 1, ROW_FORM),
    ("months 2026-10 to 2027-03 1 2 3 4 5 6\ndaily\n", 2, 1, ROW_FORM),
    ("months 2026-10 to 2027-03 to 2027-04: 1\ndaily\n", 2, 1, ROW_FORM),
    ("months from x to y: 1\ndaily\n", 2, 1, ROW_FORM),
    ("months x to y: 1\ndaily\n", 2, 1, f"'x' is no month, quarter, season or year; {ROW_FORM}"),
    ("months Oct to Mar-27: 1\ndaily\n", 2, 1, f"'Oct' is no month, quarter, season or year; {ROW_FORM}"),
    ("months 2026-10-01 to 2027-03: 1\ndaily\n", 2, 1, f"'2026-10-01' is no month, quarter, season or year; {ROW_FORM}"),
    ("years 27 to 2029: 1\ndaily\n", 2, 1, f"'27' is no month, quarter, season or year; {ROW_FORM}"),
    ("months 2026-13 to 2027-03: 1\ndaily\n", 2, 1, "there is no month '2026-13'"),
    ("months 2026-10 to 2026-12: 1 x 3\ndaily\n", 2, 1, "'x' is not a number"),
    ("months 2026-10 to 2026-12: 1\n2,5 3\ndaily\n", 2, 2, "'2,5' is not a number: the decimal sign is a point, and digits are not grouped"),
    ("months 2026-10 to 2026-12: 1, 2, 3\ndaily\n", 2, 1, "'1,' is not a number: words are parted by blanks here; commas and semicolons are for a file whose name ends in .csv"),
    ("months 2026-10 to 2026-12: 1 2026-11 3\ndaily\n", 2, 1, "'2026-11' is a period, and a price stands here"),
    ("months 2026-10 to 2026-12: 1\n2 2026-11-01\ndaily\n", 2, 2, "'2026-11-01' is a day, and a price stands here"),
    # A row among other lines.
    ("2026-10-01\nmonths 2026-10 to 2026-12: 1 2 3\ndaily\n", 2, 2, "'months 2026-10 to 2026-12' is a row of periods, and a knot stands here"),
    ("first average: not read\nmonths 2026-10 to 2026-12: 1 2 3\ndaily\n", 2, 2, "'months 2026-10 to 2026-12' is a row of periods, and a knot stands here"),
    ("0 4 38\nmonths 2026-10 to 2026-12: 1 2 3\ndaily\n", 2, 2, "'months 2026-10 to 2026-12' is a row of periods, and the first knot is a number"),
    ("2026-09 3\nmonths 2026-11 to 2026-12: 1 2\ndaily\n", 2, 2, "there is a gap between line 1 and this one: that period ends at 2026-10-01, and this one starts at 2026-11-01"),
    ("2026-10 3\nmonths 2026-10 to 2026-12: 1 2 3\ndaily\n", 2, 2, "this period (2026-10-01 to 2027-01-01) and that of line 1 (2026-10-01 to 2026-11-01) overlap"),
    ("months 2026-10 to 2026-12: 1\n2 3\n2027-02 4\ndaily\n", 2, 3, "there is a gap between line 2 and this one: that period ends at 2027-01-01, and this one starts at 2027-02-01"),
    ("daily\nmonths 2026-10 to 2026-12: 1 2 3\n", 2, 2, "knots come before what is asked"),
    ("months 2026-10 to 2026-12: 1 2 3\ntitle: x\ndaily\n", 2, 2, "settings come before the first knot"),
    ("months 2026-10 to 2026-12: 1 2 3\n", 2, 1, "nothing is asked: a line 'daily', 'hourly', 'every STEP', 'at POINT ..' or 'strip: START to END' is missing"),
]


def by_lines(size, first, averages):
    """The same periods, each with a line of its own by its start and its end."""
    ends = [first_day(first + k * SIZES[size]) for k in range(len(averages) + 1)]
    return "".join(f"{a} {b} {average}\n" for a, b, average in zip(ends, ends[1:], averages))


class Rows(InAFolder):
    """Periods in a row."""

    def test_every_spelling(self):
        lines = read("".join(f"{month} {average}\n" for month, average in zip(["2026-10", "2026-11", "2026-12", "2027-01", "2027-02", "2027-03"], WINTER)) + "daily\n")
        for text in SPELLINGS:
            with self.subTest(text=text):
                order = read(f"{text}\ndaily\n")
                self.assertEqual((order.knots, order.averages, order.start, order.unit, order.dates), (lines.knots, lines.averages, lines.start, lines.unit, lines.dates))
                self.assertEqual((order.asked[0].at, len(order.knot_lines), order.doubts), (lines.asked[0].at, 7, []))

    def test_quarters_and_years(self):
        for text in "quarters 2026-Q4 to 2027-Q3", "quarters Q4-26 to Q3-27", "quarters 2026-10 to 2027-09", "quarters winter 2026 to summer 2027", "QUARTERS Oct-26 to Q3 2027":
            self.assertEqual(read(f"{text}: 1 2 3 4\ndaily\n").knots, read("2026-Q4 1\n2027-Q1 2\n2027-Q2 3\n2027-Q3 4\ndaily\n").knots)
        for text in "years 2027 to 2029", "years Cal-27 to Cal 2029", "years 2027-01 to 2029-Q4", "Years: 2027 to Dec-29":
            self.assertEqual(read(f"{text}: 1 2 3\ndaily\n").knots, read("2027 1\n2028 2\n2029 3\ndaily\n").knots)

    def test_each_message(self):
        for text, status, line, what in BAD_ROWS:
            with self.subTest(text=text):
                self.assertEqual(run("-", text=text), (status, "", f"standard input:{line}: {what}\n"))

    def test_lines_that_a_message_points_to(self):
        text = "settings: gas\nmonths 2026-10 to 2026-12: 3\n4 nan\ndaily\n"
        self.assertEqual(run("-", text=text), (1, "", "standard input:3: refused: an average is infinite or not a number (refusal 6)\n"))
        safe = run("-", text="settings: gas\nsplit: safe\nmonths 2026-10 to 2026-12: 3\n4\n-5\ndaily\n")
        self.assertEqual((safe.status, safe.told.splitlines()[1]), (1, "standard input:5: 2026-12-01 to 2027-01-01 traded at -5.0000; 'positivity: off' is for averages below 0"))
        order = read("2026-09 1\nmonths 2026-10 to 2026-12: 3\n4\n5\n2027 6\ndaily\n")
        self.assertEqual((order.knot_lines, order.average_lines), ([1, 1, 2, 3, 4, 5], [1, 1, 2, 3, 4, 5]))

    def test_the_same_bytes_as_a_line_for_each(self):
        """In every form that the command writes, for drawn rows of all three sizes."""
        draw = random.Random(8)
        for trial in range(40):
            size = draw.choice(sorted(SIZES))
            months, count = SIZES[size], draw.choice([1, 2, 3, 6, 12])
            first = draw.randrange(0, 1200 - months * count + 1, months)
            averages = [round(draw.uniform(20, 40), 2) for _ in range(count)]
            start, end = first_day(first), first_day(first + months * count)
            last = first_day(first + months * count - 1)
            row = f"{size}s {start:%Y-%m} to {last:%Y-%m}: {' '.join(map(str, averages))}\n"
            asked = draw.choice(["daily\n", f"at {start} {last}\n", f"strip: {start} to {end}\n", "every 7.5\n"])
            texts = [f"settings: gas\n{table}{asked}" for table in (row, by_lines(size, first, averages))]
            for words in [], ["--exact"], ["--csv", "-"], ["--tsv", "-"], ["--knots"], ["--plot", "-"]:
                one, other = (run(*words, "-", text=text) for text in texts)
                self.assertEqual(one, other, (texts, words))
                self.assertEqual((one.status, one.told), (0, ""), texts)
            if count > 1 or trial % 2:
                bytes_of = [self.order_bytes(text) for text in (f"{table}strip: {start} to {end}\n" for table in (row, by_lines(size, first, averages)))]
                self.assertEqual(*bytes_of)

    def order_bytes(self, text):
        self.assertEqual(run("--set", "positivity: off", "--bytes", self.path("out"), "-", text=text), (0, "", ""))
        return self.read("out")

    def test_losses_are_told_with_the_line_of_the_average(self):
        row, lines = "settings: gas\nquadraticity: 0\nmonths 2026-10 to 2026-12: 5\n3\n1\ndaily\n", "settings: gas\nquadraticity: 0\n2026-10 5\n2026-11 3\n2026-12 1\ndaily\n"
        one, other = run("-", text=row), run("-", text=lines)
        self.assertEqual((one.status, one), (4, other))

    def test_rows_among_other_periods(self):
        """The front by months, then quarters, then years, as a market quotes them."""
        mixed = "2026-09 28\nmonths 2026-10 to 2026-12: 29.40 31.85 33.60\nquarters 2027-Q1 to 2027-Q4: 32.50 27.10\n26.80 29.90\n2028 28.40\nyears 2029 to 2030: 27.20 27\n2031-01-01 2031-02-01 30\n"
        lines = "2026-09 28\n2026-10 29.40\n2026-11 31.85\n2026-12 33.60\n2027-Q1 32.50\n2027-Q2 27.10\n2027-Q3 26.80\n2027-Q4 29.90\n2028 28.40\n2029 27.20\n2030 27\n2031-01 30\n"
        one, other = (run("--exact", "-", text=f"settings: gas\n{table}daily\nat 2027-01-15\nstrip: 2026-11-01 to 2029-01-01\n") for table in (mixed, lines))
        self.assertEqual((one, one.status), (other, 0))

    def test_a_csv_file_has_none(self):
        with self.assertRaises(Stop) as stopped:
            read_csv("x.csv", b"months 2026-10 to 2026-12;1;2;3\n")
        self.assertEqual(stopped.exception.status, 2)


if __name__ == "__main__":
    unittest.main()
