"""Lines of an order that ask for a strip: how they are read, and the table, the file and the picture that they make."""

import unittest

from havgrunel.answers import answer, curve_of
from havgrunel.csvfile import STRIP_NAMES, read_csv
from havgrunel.orderbytes import points
from havgrunel.text import read_order
from runs import InAFolder, example, run, run_gas, table_rows
from test_picture import drawn, lengths, texts_of

STRIPS = example("winter-strips.txt")
MONTHS = "2026-10 29.40\n2026-11 31.85\n2026-12 33.60\n"
FORM = "a strip goes from one point to another, as strip: 2026-11-01 to 2026-11-16"

# Wrong lines under the table of MONTHS, and what is told of each.
WRONG = [
    ("strip: 2026-11-16 to 2026-11-01", "the strip ends at 2026-11-01, which is not after its start, 2026-11-16"),
    ("strip: 2026-11-16 to 2026-11-16", "the strip ends at 2026-11-16, which is not after its start, 2026-11-16"),
    ("strip: 2026-11-16 to 2026-11-15 23:59", "the strip ends at 2026-11-15 23:59, which is not after its start, 2026-11-16"),
    ("strip: soon to 2026-11-01", f"'soon' is no day, and {FORM}"),
    ("strip: 2026-11-01 to 16.11.2026", f"'16.11.2026' is no day, and {FORM}"),
    ("strip: 2026-11-01 to 2026-11-31", "there is no day '2026-11-31'"),
    ("strip: 2026-11 to 2026-12", f"'2026-11' is a period, and {FORM}"),
    ("strip: 0 to 31", "'0' is a number, and the first knot is a date"),
    ("strip:", FORM),
    ("strip: 2026-11-01", FORM),
    ("strip: 2026-11-01 2026-11-16", FORM),
    ("strip: 2026-11-01 to 2026-11-16 31.50", FORM),
    ("strip: 2026-11-01 to 2026-11-16 to 2026-12-01", FORM),
]
OUTSIDE = "the point that is asked for lies outside the knots, and extrapolation is off (refusal 13)"


def read(text):
    return read_order("x", text.encode())


class Reading(unittest.TestCase):
    def test_wrong_lines(self):
        for line, what in WRONG:
            with self.subTest(line=line):
                self.assertEqual(tuple(run_gas("-", text=f"{MONTHS}{line}\n")), (2, "", f"standard input:4: {what}\n"))
                words = run_gas("--ask", line, "-", text=f"{MONTHS}daily\n")
                self.assertEqual((words.status, words.told.partition(f"': {what}")[1:]), (2, (f"': {what}", "\n")))

    def test_outside_the_table(self):
        """Each end that is refused is told, and nothing is printed."""
        for line, ends in (
            ("strip: 2026-09-30 to 2026-10-02", ["2026-09-30"]),
            ("strip: 2026-12-31 to 2027-01-02", ["2027-01-02"]),
            ("strip: 2026-09-01 to 2027-09-01", ["2026-09-01", "2027-09-01"]),
        ):
            told = "".join(f"standard input:5: refused at {end}: {OUTSIDE}\n" for end in ends)
            self.assertEqual(tuple(run_gas("-", text=f"{MONTHS}strip: 2026-11-01 to 2026-11-16\n{line}\n")), (1, "", told))
        self.assertEqual(run_gas("--set", "extrapolation: on", "-", text=f"{MONTHS}strip: 2026-09-30 to 2026-10-02\n").status, 0)

    def test_an_end_that_is_no_number(self):
        ran = run_gas("-", text="0\n31 2\nstrip: 1 to nan\n")
        self.assertEqual(tuple(ran), (1, "", "standard input:3: refused at nan: the point that is asked for is not a number (refusal 12)\n"))

    def test_ways_to_write_one(self):
        due = table_rows(run_gas("-", text=f"{MONTHS}strip: 2026-11-01 to 2026-11-16\n").out)
        for line in "strip 2026-11-01 to 2026-11-16", "STRIP:2026-11-01 TO 2026-11-16", "  strip : 2026-11-01  to  2026-11-16  # a half":
            self.assertEqual(table_rows(run_gas("-", text=f"{MONTHS}{line}\n").out), due, line)

    def test_a_strip_is_asked_after_the_table(self):
        self.assertEqual(run_gas("-", text=f"strip: 2026-11-01 to 2026-11-16\n{MONTHS}").told, "standard input:2: knots come before what is asked\n")

    def test_strips_make_one_table(self):
        order = read(f"{MONTHS}strip: 2026-11-01 to 2026-11-16\nat 2026-11-05\nstrip: 2026-10-01 to 2027-01-01\n")
        self.assertEqual([(one.word, one.at, one.lines) for one in order.asked], [("strip", [31.0, 46.0, 0.0, 92.0], [4, 4, 6, 6]), ("at", [35.0], [5])])
        self.assertEqual(points(order), [31.0, 46.0, 0.0, 92.0, 35.0])

    def test_a_last_day_for_an_end(self):
        """The end is the day after the last day, as in a table of START END PRICE, and a line says so where it looks otherwise."""
        for end, doubt in ("2026-11-30", True), ("2026-12-01", False), ("2026-12-31", True), ("2026-11-16", False):
            ran = run_gas("-", text=f"{MONTHS}strip: 2026-11-01 to {end}\n")
            told = f"standard input:4: END is the day after the last day, so that {end} is no part of this strip\n"
            self.assertEqual((ran.status, ran.told), (0, told if doubt else ""))

    def test_knots_that_are_numbers_or_timestamps(self):
        self.assertEqual(table_rows(run_gas("-", text="0\n31 29.40\n61 31.85\n92 33.60\nstrip: 31 to 61\n").out), [["31", "61", "31.8500", "31.8500"]])
        hours = "2026-10-01 00:00 2026-10-01 12:00 40\n2026-10-01 12:00 2026-10-02 00:00 60\nstrip: 2026-10-01 12:00 to 2026-10-02\n"
        self.assertEqual(table_rows(run("-", text=hours).out), [["2026-10-01 12:00", "2026-10-02", "60.0000", "60.0000"]])


class Answering(InAFolder):
    def test_the_numbers_are_the_curve_s(self):
        found = answer(read(MONTHS + "strip: 2026-11-01 to 2026-11-16\nstrip: 2026-10-17 to 2026-12-05\nstrip: 2026-11-16 to 2026-12-01\n"))
        rows = found.tables[0].rows
        self.assertEqual([row[:2] for row in rows], [(31.0, 46.0), (16.0, 65.0), (46.0, 61.0)])
        self.assertEqual([row.average for row in rows], [found.curve.strip(*row[:2]) for row in rows])
        self.assertEqual([row[3:] for row in rows], [(31.85, 31.85), (29.4, 33.6), (31.85, 31.85)])
        self.assertEqual(found.tables[0].not_finite, 0)

    def test_what_a_strip_touches(self):
        """A strip that ends on a knot does not touch the period that starts there; one outside the table touches none."""
        text = "extrapolation: on\n0\n10 1\n20 2\n30 3\n" + "".join(f"strip: {a} to {b}\n" for a, b in ((0, 10), (10, 20), (9, 21), (-5, 0), (30, 35), (-5, 1), (29, 40)))
        due = ["1.0000", "2.0000", "1.0000 to 3.0000", "-", "-", "1.0000", "3.0000"]
        self.assertEqual([row[3] for row in table_rows(run_gas("-", text=text).out)], due)
        cells = [line.split(",")[3:] for line in run_gas("--csv", "-", "-", text=text).out.splitlines()[1:]]
        self.assertEqual(cells[2:4], [["1.0", "3.0"], ["", ""]])

    def test_the_table(self):
        ran = run(STRIPS)
        self.assertEqual((ran.status, ran.told), (0, ""))
        self.assertEqual([line.split() for line in ran.out.splitlines()[3:5]], [["strip", "from", "to", "average", "traded"], ["EUR/MWh", "EUR/MWh"]])
        self.assertEqual(table_rows(ran.out)[0], ["2026-11-01", "2026-11-16", "31.3336", "31.8500"])
        self.assertIn("31.333606557377053", run("--exact", STRIPS).out)

    def test_beside_the_days(self):
        """The strip is what its days average, but for rounding, and stands in a table of its own."""
        ran = run_gas("-", text=f"{MONTHS}daily\nstrip: 2026-11-01 to 2026-11-16\n")
        days, strip = ran.out.split("\n\n")[1:3]
        found = [float(line.split()[1]) for line in days.splitlines() if "2026-11-01" <= line[:10] < "2026-11-16"]
        self.assertEqual(len(found), 15)
        self.assertAlmostEqual(sum(found) / 15, float(strip.splitlines()[-1].split()[2]), 3)

    def test_files(self):
        for option, separator in ("--csv", ","), ("--tsv", "\t"):
            lines = run(option, "-", STRIPS).out.splitlines()
            self.assertEqual(lines[0].split(separator), STRIP_NAMES)
            self.assertEqual(lines[1].split(separator), ["2026-11-01", "2026-11-16", "31.333606557377053", "31.85", "31.85"])
            # A file of this kind is written over; one of another kind is not.
            path = self.path("out.csv")
            self.assertEqual([run(option, path, STRIPS).status for _ in "12"], [0, 0])
        self.assertEqual(run("--csv", self.written("notes.csv", "mine\n"), STRIPS).status, 3)
        both = run_gas("--csv", "-", "-", text=f"{MONTHS}daily\nstrip: 2026-11-01 to 2026-11-16\n")
        self.assertEqual((both.status, both.told), (2, "standard input asks for 'daily' and 'strip', and --csv writes one table: ask for one of them\n"))

    def test_a_file_of_strips_that_adjoin_is_a_table(self):
        out = run_gas("--csv", "-", "-", text=f"{MONTHS}strip: 2026-10-01 to 2026-10-11\nstrip: 2026-10-11 to 2026-11-01\n").out
        order = read_csv("strips.csv", out.encode())
        self.assertEqual(order.knots, [0.0, 10.0, 31.0])
        self.assertEqual(order.averages[1:], curve_of(read(f"settings: gas\n{MONTHS}daily\n")).averages([0, 10, 31]))

    def test_a_strip_without_a_number(self):
        ran = run_gas("-", text="0\n1 2\n2 0\n3 2\nstrip: 0 to 1\nstrip: 0 to 2\n")
        self.assertEqual((ran.status, [row[2] for row in table_rows(ran.out)]), (4, ["no-number", "1.0000"]))
        self.assertIn("standard input: 1 of 2 answers is not finite", ran.told)

    def test_a_strip_below_0(self):
        """The cheap first month, of which the first days average below 0 although positivity is on."""
        ran = run_gas("-", text="0\n28 0.62\n56 59.03\n85 47.69\nstrip: 8.9 to 9.1\n")
        self.assertEqual(table_rows(ran.out), [["8.9", "9.1", "-2.7352", "0.6200"]])
        self.assertIn("standard input:2: the average from 8.9 to 9.1 is -2.7352, below 0 although positivity is on\n", ran.told)

    def test_too_many_for_the_bytes(self):
        text = f"settings: gas\n{MONTHS}" + "strip: 2026-11-01 to 2026-11-16\n" * 33
        told = "standard input:37: an order's bytes ask for at most 64 points, and this asks for 66\n"
        self.assertEqual(tuple(run("--bytes", "-", "-", text=text)), (2, "", told))


class Drawing(unittest.TestCase):
    def test_a_level_line_over_its_days(self):
        order = read(MONTHS + "strip: 2026-11-01 to 2026-11-16\nstrip: 2026-12-01 to 2027-01-01\n")
        svg = drawn(MONTHS + "strip: 2026-11-01 to 2026-11-16\nstrip: 2026-12-01 to 2027-01-01\n")
        (path,) = lengths(svg, "curve3")
        self.assertEqual((path.count("M"), path.count("H")), (2, 2))
        steps = [piece.replace("H", " ").split() for piece in lengths(svg, "step")[0].split("M")[1:]]
        first, second = [piece.replace("H", " ").split() for piece in path.split("M")[1:]]
        # The first starts where November does and is lower; the second is December, from end to end.
        self.assertEqual((first[0], second), (steps[1][0], steps[2]))
        self.assertGreater(float(first[1]), float(steps[1][1]))
        self.assertIn("strip price", texts_of(svg))
        low = curve_of(order).strip(31, 46)
        self.assertIn(f"Level lines, strip price: from {low:.6g} to 33.6.", svg)

    def test_with_several_curves_there_are_none(self):
        text = MONTHS + "strip: 2026-11-01 to 2026-11-16\n"
        svg = drawn(text, "quadraticity: 1\n" + text)
        self.assertEqual((lengths(svg, "curve3"), "strip price" in texts_of(svg)), ([], False))

    def test_a_price_that_the_curve_never_has(self):
        """The last day of a month that lost its average carries the loss. The scale reaches it, and where another scale is given it is cut off."""
        text = "settings: gas\nquadraticity: 0\n2026-10 29.40\n2026-11 31.85\n2026-12 33.60\n2027-01 34.25\nstrip: 2026-11-30 to 2026-12-01\n"
        self.assertGreater(curve_of(read(text)).strip(60, 61), 500)
        self.assertIn("500", texts_of(drawn(text)))
        for shown, high in (True, 60.0), (False, 600.0):
            self.assertEqual("cut off at the edge" in texts_of(drawn(text, scale=(0.0, high))), shown)

    def test_as_far_out_as_a_strip_goes(self):
        text = "extrapolation: on\n0\n10 1\n20 2\nat 5\n"
        near, far = (drawn(text + more) for more in ("", "strip: 20 to 30\n"))
        end = lengths(near, "step")[0].rpartition("H")[2]
        self.assertEqual(lengths(far, "curve3")[0].rpartition("H")[2], end)
        self.assertLess(float(lengths(far, "step")[0].rpartition("H")[2]), float(end))

    def test_a_strip_without_a_number_has_a_ring(self):
        """At its start, besides the one at the point that has no price."""
        at_points, of_strips = (drawn(f"positivity: on\n0\n1 2\n2 0\n3 2\n{asked}\n") for asked in ("at 1", "strip: 0 to 1"))
        self.assertEqual((lengths(of_strips, "curve3"), of_strips.count("<circle")), ([], at_points.count("<circle") + 1))


if __name__ == "__main__":
    unittest.main()
