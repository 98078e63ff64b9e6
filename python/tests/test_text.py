"""What an order's text says, and what is told of one that is wrong."""

import datetime
import unittest

from havgrunel.faults import Stop
from havgrunel.text import MOST_ROWS, Points, Rows, read_order, show

FORMS = "2026-10-01, 2026-10-01 14:00, 2026-10, Oct-26, 2026-Q4, Q4-26, winter 2026, Win-26, summer 2027, Sum-27, 2027, Cal-27, or a number"
BLANKS = "words are parted by blanks here; commas and semicolons are for a file whose name ends in .csv"
POINT_SIGN = "the decimal sign is a point, and digits are not grouped"
FIRST = "the first knot has an average, and no period ends there"
NAMES = "a line is a period and its price, or START END PRICE; periods are 2026-10, Oct-26, 2026-Q4, Q4-26, winter 2026, Win-26, summer 2027, Sum-27, 2027, Cal-27"
ASKS = "'daily', 'hourly', 'every STEP', 'at POINT ..' or 'strip: START to END'"
NOTHING = f"nothing is asked: a line {ASKS} is missing"
SETTINGS = "title, price, time, settings, quadraticity, monotonicity, positivity, split, hold last period, extrapolation, first average"

# What is wrong with a text, where that is said, and how.
BAD = [
    # Numbers.
    ("0\n1 x\nat 0\n", 2, "'x' is not a number"),
    ("0\n1 1_000\nat 0\n", 2, f"'1_000' is not a number: {POINT_SIGN}"),
    ("0\n1 3,5\nat 0\n", 2, f"'3,5' is not a number: {POINT_SIGN}"),
    ("0\n1 1,000.50\nat 0\n", 2, f"'1,000.50' is not a number: {POINT_SIGN}"),
    ("0\n1 0x10\nat 0\n", 2, "'0x10' is not a number"),
    ("0\n1 infinity\nat 0\n", 2, "'infinity' is not a number"),
    ("0\n1 1e999\nat 0\n", 2, "'1e999' is too large for a 64-bit float"),
    ("0\n1 1e-999\nat 0\n", 2, "'1e-999' is too small for a 64-bit float"),
    ("0\n1 ١\nat 0\n", 2, "'١' is not a number"),
    (f"0\n1 {'9a' * 200}\nat 0\n", 2, f"'{'9a' * 20}..' is not a number"),
    ("0\n1 2026-10\nat 0\n", 2, "'2026-10' is a period, and a price stands here"),
    ("2026-10 2026-11-01\n", 1, "'2026-11-01' is a day, and a price stands here"),
    # A comma that separates is no decimal comma.
    ("2026-10, 29.40\ndaily\n", 1, f"'2026-10,' is no knot and no period: {BLANKS}"),
    ("2026-10;29,40\ndaily\n", 1, f"'2026-10;29,40' is no knot and no period: {BLANKS}"),
    ("0\n1 2\nat 0, 1\n", 3, f"'0,' is not a number: {BLANKS}"),
    # Knots.
    ("0\n1\nat 0\n", 2, "the period that ends at this knot has no average"),
    ("0\n1 2 3\nat 0\n", 2, "a knot's line has the knot and one average"),
    ("0 9\n2 2\nat 1\n", 1, f"{FIRST}: write START END PRICE, or set 'first average: not read'"),
    ("2026-10-01 29.40\n", 1, f"{FIRST}: name the periods (2026-10 29.40), write START END PRICE, or set 'first average: not read'"),
    ("2026-10-01 2026-11-01\n", 1, "'2026-11-01' is a day, and a price stands here"),
    ("0\n2026-10-01 3\n", 2, "'2026-10-01' is a day, and the first knot is a number"),
    ("2026-10-01\n31 3\n", 2, "'31' is a number, and the first knot is a date"),
    ("2026-10-01\n2026-10-02 3\nat 0.5\n", 3, "'0.5' is a number, and the first knot is a date"),
    ("0\n1 3\nat 2026-10-01 14:00\n", 3, "'2026-10-01 14:00' is a timestamp, and the first knot is a number"),
    ("2026-02-29\n", 1, "there is no day '2026-02-29'"),
    ("2026-10-01\n2026-11 3\n", 2, "'2026-11' is a period, and a knot stands here; in a table of periods the first line has a price too"),
    ("2026-10-01 25:00\n", 1, "there is no time '25:00'"),
    ("2026-10-01 24:00\n", 1, "there is no time '24:00'; the end of a day is 00:00 of the next"),
    ("2026-10-01T14:00Z\n", 1, "'2026-10-01T14:00Z' has a zone; timestamps are taken without one, and clock changes are not handled"),
    ("2026-10-01 14:00+02:00\n", 1, "'2026-10-01 14:00+02:00' has a zone; timestamps are taken without one, and clock changes are not handled"),
    # Periods.
    ("01.10.2026 30\n", 1, f"'01.10.2026' is not a number, a day or a period; taken are {FORMS}"),
    ("10/2026 30\n", 1, f"'10/2026' is not a number, a day or a period; taken are {FORMS}"),
    ("Oct 29.40\n", 1, f"'Oct' has no year; taken are {FORMS}"),
    ("winter 29.40\n", 1, f"'winter' has no year; taken are {FORMS}"),
    ("weekly\n", 1, f"'weekly' is neither a word that asks (daily, hourly, every STEP, at POINT .., strip: START to END) nor a knot or period; those are {FORMS}"),
    ("2026-13 3\n", 1, "there is no month '2026-13'"),
    ("9999-12 3\n", 1, "'9999-12' is beyond the calendar"),
    ("2026-10\n", 1, "the period '2026-10' has no price"),
    ("2026-10 3 4\n", 1, "a period by its name has one price, and nothing else stands in its line"),
    ("2026-10 3\n2026-11-01 4\n", 2, f"'2026-11-01' is no period: {NAMES}"),
    ("0 4 38\n4 40\n", 2, f"'4' is no period: {NAMES}"),
    ("0 4 38\n2026-10 40\n", 2, "'2026-10' is a period, and the first knot is a number"),
    ("0 2026-10-01 38\n", 1, "'2026-10-01' is a day, and the period starts at a number"),
    ("0 1 2 3\n", 1, "a table's first line is a knot alone, a period and its price, or START END PRICE"),
    ("2026-10-01 2026-10-01 3\n", 1, "the period ends at 2026-10-01, which is not after its start, 2026-10-01"),
    ("2026-10 3\n2026-12 4\n", 2, "there is a gap between line 1 and this one: that period ends at 2026-11-01, and this one starts at 2026-12-01"),
    ("2026-10-01 2026-10-31 3\n2026-11-01 2026-12-01 4\n", 2, "there is a gap between line 1 and this one: that period ends at 2026-10-31, and this one starts at 2026-11-01; END is the day after the last day, where the next period starts"),
    ("# a\n0 4 38\n\n12 16 40\n", 4, "there is a gap between line 2 and this one: that period ends at 4, and this one starts at 12"),
    ("2026-06-01 00:00 2026-06-01 04:00 3\n2026-06-01 05:00 2026-06-02 3\n", 2, "there is a gap between line 1 and this one: that period ends at 2026-06-01 04:00, and this one starts at 2026-06-01 05:00"),
    ("2026-10 3\n2026-Q4 4\n", 2, "this period (2026-10-01 to 2027-01-01) and that of line 1 (2026-10-01 to 2026-11-01) overlap"),
    ("2026-10 3\n2026-09 4\n", 2, "this period (2026-09-01 to 2026-10-01) comes before that of line 1 (2026-10-01 to 2026-11-01); periods stand in the order of time"),
    ("2026-10 3\nOct-26 4\n", 2, "the period of line 1 stands here again"),
    # What is asked.
    ("0\n\n# why\n1 2\nat\n", 5, "'at' has no points"),
    ("0\n1 2\nDaily 3\n", 3, "'daily' stands alone in its line"),
    ("0\n1 2\nat 0\n2 3\n", 4, "knots come before what is asked"),
    ("2026-10 3\nat 2026-10\n", 2, "'2026-10' is a period, and 'at' takes points, as 2026-10-15"),
    ("0\n1 2\nat noon\n", 3, "'noon' is not a number"),
    ("0\n1 2\nevery\n", 3, "'every' has one step, a number of the unit of the knots"),
    ("2026-10 2\nevery 2 days\n", 2, "'every' has one step, a number of days"),
    ("0\n1 2\nevery 0\n", 3, "a step is above 0, and this is '0'"),
    ("0\n1 2\nevery −1\n", 3, "a step is above 0, and this is '−1'"),
    ("0\n1 2\nevery inf\n", 3, "a step is above 0, and this is 'inf'"),
    ("0\n1e17 2\nevery 1e13\n1", 4, "knots come before what is asked"),
    ("1e17\n100000000000000064 2\nevery 1\n", 3, "'every 1' is too small a step beside knots of 1.0000000000000006e+17"),
    ("time: months\n0\n1 2\ndaily\n", 4, "'daily' needs knots that count days or hours, and the time is in 'months'; 'every STEP' asks for rows in that unit"),
    ("0\n1 2\ndaily\nat 0\nHourly\n", 5, "'daily' and 'hourly' are both asked of knots that are numbers: a setting 'time: days' or 'time: hours' says what they count"),
    ("0\n1e6 2\ndaily\n", 3, "'daily' asks for 1000000 rows, and at most 40000 are answered"),
    ("Cal-26 3\nCal-27 3\nCal-28 3\nCal-29 3\nCal-30 3\nhourly\n", 6, "'hourly' asks for 43824 rows, and at most 40000 are answered"),
    ("0\n1 2\n", 2, NOTHING),
    ("", 1, NOTHING),
    # Settings.
    ("0\nquadraticity: 1\n1 2\nat 0\n", 2, "settings come before the first knot"),
    ("positivity: on\nPOSITIVITY: off\n", 2, "'positivity' is set twice, first in line 1"),
    ("positivity: yes\n", 1, "'yes' is neither 'on' nor 'off'"),
    ("split: on\n", 1, "'on' is neither 'original' nor 'careful' nor 'safe'"),
    ("split:\n", 1, "'' is neither 'original' nor 'careful' nor 'safe'"),
    ("split: careful\n\nSplit: original\n", 3, "'split' is set twice, first in line 1"),
    ("split careful\n0\n1 2\n", 1, "'split' is a setting, and a colon stands behind it: split: careful"),
    ("0\nsplit: careful\n1 2\nat 0\n", 2, "settings come before the first knot"),
    ("settings: power\n", 1, "'power' is neither 'default' nor 'gas'"),
    ("settings:\n", 1, "'' is neither 'default' nor 'gas'"),
    ("settings: gas\n\nSettings: default\n", 3, "'settings' is set twice, first in line 1"),
    ("settings gas\n0\n1 2\n", 1, "'settings' is a setting, and a colon stands behind it: settings: gas"),
    ("0\nsettings: gas\n1 2\nat 0\n", 2, "settings come before the first knot"),
    ("title:\n", 1, "the setting has no value"),
    ("quadraticity:\n", 1, "'' is not a number"),
    ("convexity: 1\n", 1, f"there is no setting 'convexity'; there are: {SETTINGS}"),
    ("quadraticity 0.3\n0\n1 2\n", 1, "'quadraticity' is a setting, and a colon stands behind it: quadraticity: 0.3"),
    ("first average: read\n", 1, "the first average can be said to be 'not read', and this says 'read'"),
    ("time: hours\n2026-10 3\ndaily\n", 1, "the knots are dates and count days, and the time is said to be in 'hours'"),
    (b"0\n1 2\xff\n", 2, "this is not UTF-8 text"),
]


def read(text, **options):
    return read_order("x", text if isinstance(text, bytes) else text.encode(), **options)


class Wrong(unittest.TestCase):
    def test_each_message(self):
        for text, line, what in BAD:
            with self.subTest(text=text):
                with self.assertRaises(Stop) as stopped:
                    read(text)
                self.assertEqual((stopped.exception.status, stopped.exception.lines), (2, (f"x:{line}: {what}",)))

    def test_options(self):
        cases = [
            ({"sets": ["convexity: 1"]}, "x: --set 'convexity: 1': there is no setting 'convexity'"),
            ({"sets": ["positivity"]}, "x: --set 'positivity': a setting is a key, a colon and a value"),
            ({"sets": ["split: never"]}, "x: --set 'split: never': 'never' is neither 'original' nor 'careful' nor 'safe'"),
            ({"sets": ["split: careful", "split: original"]}, "x: --set 'split: original': 'split' is set twice, first by --set 'split: careful'"),
            ({"sets": ["price: EUR"]}, "x:1: 'price' is set twice, first by --set 'price: EUR'"),
            ({"asks": ["weekly"]}, f"x: --ask 'weekly': what is asked is {ASKS}"),
            ({"asks": ["at 2026-10"]}, "x: --ask 'at 2026-10': '2026-10' is a period"),
        ]
        for options, said in cases:
            with self.subTest(options=options), self.assertRaises(Stop) as stopped:
                read("price: p\n0\n1 2\nat 0\n", **options)
            self.assertEqual(stopped.exception.lines[0][: len(said)], said)


class Read(unittest.TestCase):
    def spans(self, *names):
        """The knots of a table of periods, as dates."""
        order = read("".join(f"{name} 3\n" for name in names) + "at 2026-10-01\n")
        return [show(order, x) for x in order.knots]

    def test_every_name_of_a_period(self):
        forms = {
            ("2026-10-01", "2026-11-01"): ["2026-10", "Oct-26", "OCT-26", "oct-2026", "Oct 2026", "Oct 26", "October 2026", "Oct26"],
            ("2026-10-01", "2027-01-01"): ["2026-Q4", "2026Q4", "Q4-26", "q4-2026", "Q4 2026", "2026 Q4"],
            ("2026-10-01", "2027-04-01"): ["winter 2026", "Winter 26", "Win-26", "WIN 26", "winter 2026/27", "Win-26/27"],
            ("2027-04-01", "2027-10-01"): ["summer 2027", "Sum-27", "sum 2027"],
            ("2027-01-01", "2028-01-01"): ["2027", "Cal-27", "cal 27", "Cal-2027", "CAL27"],
            ("2028-02-01", "2028-03-01"): ["2028-02", "Feb-28", "february 2028"],
            ("2026-10-01", "2026-10-05"): ["2026-10-01 2026-10-05"],
        }
        for expected, names in forms.items():
            for name in names:
                with self.subTest(name=name):
                    self.assertEqual(tuple(self.spans(name)), expected)

    def test_names_may_be_mixed(self):
        self.assertEqual(
            self.spans("Nov-26", "2026-12", "Q1-27", "Sum-27", "2027-10-01 2028-01-01", "2028", "Cal-29"),
            ["2026-11-01", "2026-12-01", "2027-01-01", "2027-04-01", "2027-10-01", "2028-01-01", "2029-01-01", "2030-01-01"],
        )

    def test_periods_are_knots_with_the_average_of_what_ends_there(self):
        names = read("2026-10 29.40\n2026-11 31.85\ndaily\n")
        knots = read("2026-10-01\n2026-11-01 29.40\n2026-12-01 31.85\ndaily\n")
        self.assertEqual((names.knots, names.averages, names.start, names.unit), (knots.knots, knots.averages, knots.start, knots.unit))
        self.assertEqual((names.knot_lines, knots.knot_lines), ([1, 1, 2], [1, 2, 3]))
        self.assertEqual(names.asked[0].at, [float(k) for k in range(62)])

    def test_a_year_or_a_knot(self):
        self.assertEqual(read("2027 45.10\n2028 46\nat 2027-01-01\n").knots, [0.0, 365.0, 731.0])
        self.assertEqual(read("2027\n2028 46\nat 2027\n").knots, [2027.0, 2028.0])
        self.assertEqual(read("2027 2028 46\nat 2027\n").knots, [2027.0, 2028.0])

    def test_first_average_not_read(self):
        order = read("First Average: Not  Read\n2027 9\n2028 2\nat 2027\n")
        self.assertEqual((order.knots, order.averages), ([2027.0, 2028.0], [9.0, 2.0]))

    def test_timestamps_count_hours(self):
        order = read("2026-06-01 06:00\n2026-06-01T18:00 64\n2026-06-02 -3\nhourly\nat 2026-06-01 07:30 2026-06-02\n")
        self.assertEqual((order.unit, order.start, order.knots), ("hours", datetime.datetime(2026, 6, 1, 6), [0.0, 12.0, 18.0]))
        self.assertEqual(order.asked[1].at, [1.5, 18.0])
        self.assertEqual([show(order, x) for x in (0.0, 1.5, 18.0)], ["2026-06-01 06:00", "2026-06-01 07:30", "2026-06-02 00:00"])
        self.assertEqual(read("2026-06-01\n2026-06-02 3\nat 2026-06-01 18:00\n").asked[0].at, [0.75])

    def test_rows(self):
        def edges(text):
            return next(one.at for one in read(text).asked if isinstance(one, Rows))

        self.assertEqual(edges("0\n2.5 1\ndaily\n"), [0.0, 1.0, 2.0, 2.5])
        self.assertEqual(edges("0\n2 1\nhourly\n"), [0.0, 1.0, 2.0])
        self.assertEqual(edges("time: Days\n0\n1 1\nhourly\n"), [k / 24 for k in range(25)])
        self.assertEqual(edges("time: hours\n0\n36 1\nDAILY\n"), [0.0, 24.0, 36.0])
        self.assertEqual(edges("2026-10-01\n2026-10-02 1\nhourly\n"), [k / 24 for k in range(25)])
        self.assertEqual(edges("0.1\n0.5 1\nevery 0.1\n"), [0.1, 0.2, 0.3, 0.4, 0.5])
        self.assertEqual(edges("time: months\n0\n1 1\nevery 1e-1\n"), [k / 10 for k in range(11)])
        self.assertEqual(edges("0\n1 1\nevery 0.5" + "0" * 5000), [0.0, 0.5, 1.0])
        self.assertEqual(len(edges(f"0\n{MOST_ROWS} 1\ndaily\n")), MOST_ROWS + 1)

    def test_points_of_all_lines_are_one_table(self):
        order = read("0\n4 1\nat 1 2\ndaily\nAT 3\n")
        self.assertEqual([type(one) for one in order.asked], [Points, Rows])
        self.assertEqual((order.asked[0].at, order.asked[0].shown, order.asked[0].lines), ([1.0, 2.0, 3.0], ["1", "2", "3"], [3, 3, 5]))

    def test_words_of_settings(self):
        order = read("TITLE: Gas #1 # of two\nPrice: #/MWh #\npositivity: OFF # why\nHold  Last Period: On\nquadraticity: 0#\n".replace("0#", "0 #no") + "0\n1 −2.5\nat 0\n")
        s = order.settings
        self.assertEqual((s["title"], s["price"], s["positivity"], s["hold last period"], s["quadraticity"]), ("Gas #1", "#/MWh", False, True, 0.0))
        self.assertEqual(order.averages, [0.0, -2.5])
        self.assertEqual(order.setting_lines["positivity"], 3)

    def test_the_split(self):
        for text, split in ("", "original"), ("split: original\n", "original"), ("split: careful # only\n", "careful"), ("SPLIT: Careful\n", "careful"), ("Split: SAFE\n", "safe"):
            with self.subTest(text=text):
                self.assertEqual(read(f"{text}0\n1 2\nat 0\n").settings["split"], split)
        for split in "careful", "safe":
            self.assertEqual(read("0\n1 2\nat 0\n", sets=[f"split: {split}"]).settings["split"], split)

    def test_signs_that_editors_write(self):
        order = read("\ufefftitle: x\r\n2026-10\u00a029.40\r\n\r\ndaily\r\n")
        self.assertEqual((order.settings["title"], order.averages), ("x", [0.0, 29.4]))

    def test_options_serve_any_order(self):
        order = read("0\n1 2\nat 0\n", sets=["quadraticity: 0"], asks=["daily"])
        self.assertEqual((order.settings["quadraticity"], len(order.asked)), (0.0, 2))


if __name__ == "__main__":
    unittest.main()
