"""What an order answers: days that keep their month, what each period holds, and what is told besides."""

import math
import random
import struct
import unittest
from fractions import Fraction

from havgrunel import Curve, Method
from havgrunel.answers import ROUNDING, Held, answer, holdings
from havgrunel.text import Order, read_order
from runs import example, run, run_gas, table_rows


def read(text):
    return read_order("x", text.encode(), ["settings: gas"])


def drawn(draw):
    """A strip as a desk may have it, or stranger: knots and averages."""
    kind = draw.randrange(4)
    knots = [[0.0, draw.uniform(-1e3, 1e3), 46000.0, draw.uniform(-10, 10)][kind]]
    lengths = [[28.0, 30.0, 31.0, 90.0, 365.0], [1.0, 4.0, 24.0], [28.0, 30.0, 31.0], [0.25, 1.0, draw.uniform(0.01, 100)]][kind]
    for _ in range(draw.randint(2, 24)):
        knots.append(knots[-1] + draw.choice(lengths))
    size, low = draw.choice([1, 10, 50, 1e-3, 1e6]), -1 if draw.random() < 0.4 else 0.01
    return knots, [0.0] + [round(size * draw.uniform(low, 1), draw.choice([2, 4, 9])) for _ in knots[1:]]


def parts_lost(knots, averages, method):
    """How far each period lies from its average, as a part of what rounding is judged by."""
    order = Order("drawn", {}, knots=knots, averages=averages)
    return [max(0.0, abs(one.held - one.traded) - one.blur) / (one.scale or 1.0) for one in holdings(order, Curve(knots, averages, method))]


class Days(unittest.TestCase):
    def test_days_of_october_average_what_october_traded_at(self):
        rows = [row for row in table_rows(run(example("winter-gas.txt")).out) if row[0].startswith("2026-10")]
        self.assertEqual(len(rows), 31)
        average = sum(Fraction(row[1]) for row in rows) / 31
        self.assertEqual(f"{float(average):.4f}", "29.4000")
        self.assertLess(abs(average - Fraction("29.40")), Fraction(1, 20000))

    def test_every_month_and_every_digit(self):
        traded = {"2026-10": "29.40", "2026-11": "31.85", "2026-12": "33.60", "2027-01": "34.25", "2027-02": "33.10", "2027-03": "30.20"}
        rows = table_rows(run("--exact", example("winter-gas.txt")).out)
        self.assertEqual(len(rows), 182)
        for month, price in traded.items():
            days = [Fraction(float(row[1])) for row in rows if row[0].startswith(month)]
            self.assertLess(abs(sum(days) / len(days) - Fraction(price)), Fraction(1, 10**12), month)

    def test_hours_of_a_block_average_what_the_block_traded_at(self):
        rows = table_rows(run("--ask", "hourly", example("desk", "power-blocks.csv")).out)
        block = [Fraction(row[1]) for row in rows if "2026-06-01 16:00" <= row[0] < "2026-06-01 20:00"]
        self.assertEqual((len(rows), len(block)), (24, 4))
        self.assertEqual(f"{float(sum(block) / 4):.4f}", "64.0000")

    def test_the_end_of_the_strip_is_no_day(self):
        out = run_gas("-", text="0\n2.5 3\ndaily\n").out
        self.assertEqual([row[0] for row in table_rows(out)], ["0", "1", "2"])
        self.assertIn("The last row is shorter than the others: it ends at 2.5.\n", out)

    def test_a_row_is_the_curve_over_it(self):
        found = answer(read("2026-10 29.40\n2026-11 31.85\nhourly\nat 2026-10-15 06:00\n"))
        rows, points = found.tables[0].rows, found.tables[1].rows
        self.assertEqual(len(rows), 61 * 24)
        for row in rows[:50]:
            held = (found.curve.primitive(row.end) - found.curve.primitive(row.start)) / (row.end - row.start)
            self.assertEqual((row.average, row.price, row.total), (held, found.curve.value(row.start), found.curve.primitive(row.end)))
        self.assertEqual(points[0], (14.25, found.curve.value(14.25), found.curve.primitive(14.25)))


class Kept(unittest.TestCase):
    def test_rounding_is_never_told_as_a_loss(self):
        draw, worst, periods = random.Random(16), 0.0, 0
        for _ in range(10000):
            knots, averages = drawn(draw)
            method = Method(draw.choice([0.0, 0.001, 0.1, 0.3, 0.7, 1.0]), draw.choice([0.0, 0.3, 0.7, 0.9, 0.99]), False)
            parts = parts_lost(knots, averages, method)
            worst, periods = max(worst, *parts), periods + len(parts)
        self.assertLess(worst, ROUNDING / 10000)
        self.assertGreater(periods, 100000)

    def test_a_loss_is_always_told(self):
        draw, losses = random.Random(17), []
        for _ in range(2000):
            knots, averages = drawn(draw)
            averages = [0.0] + [abs(average) + 0.01 for average in averages[1:]]
            losses += [part for part in parts_lost(knots, averages, Method(0.0, draw.choice([0.0, 0.7, 0.99]), True)) if part > ROUNDING / 100]
        self.assertGreater(len(losses), 1000)
        self.assertGreater(min(losses), ROUNDING * 10000)

    def test_a_loss_late_in_a_long_strip(self):
        """A day that loses its average after thousands of others is told, and no other day is."""
        text = "quadraticity: 0\n0\n" + "".join(f"{k} 50\n" for k in range(1, 4000)) + "4000 5\n4001 3\n4001.25 0.5\nat 0\n"
        found = answer(read(text))
        self.assertEqual([one.period for one in found.lost], [4001])
        self.assertAlmostEqual(found.lost[0].held, 7 / 3, 9)

    def test_the_lines_of_periods_that_lose(self):
        ran = run(example("falling-month-splits.txt"))
        self.assertEqual((ran.status, ran.told), (4, ""))
        self.assertEqual(
            ran.out.splitlines()[-4:-1],
            ["2 of 3 averages not kept:", "  0 to 1 traded at 5.0000 and holds 2.8796 (line 9)", "  1 to 2 traded at 3.0000 and holds 2.3333 (line 10)"],
        )
        self.assertEqual(ran.out.splitlines()[-1], "  The rows around its ends carry the difference; 'split: safe' avoids this.")
        for name in "falling-month.txt", "falling-month-careful.txt":
            self.assertEqual(run(example(name)).out.splitlines()[-1], "all 3 averages kept")

    def test_a_setting_is_named_where_it_helps(self):
        """The safe split; the careful one where a month traded below 0 and keeps its average all the same; a lower monotonicity where that is to blame.
        Elsewhere the document is."""
        table = "0\n1 5\n2 3\n2.25 0.5\nat 0\n"
        below = "0\n4 38\n8 45\n12 12\n16 -18\n20 64\n24 52\nat 0\n"
        for text, last in (
            (f"quadraticity: 0\n{table}", "'split: safe' avoids this."),
            (f"quadraticity: 0\nhold last period: on\n{table}", "'split: safe' avoids this."),
            ("quadraticity: 1\n0\n1 6\n2 -2\nat 0\n", "'split: careful' avoids this."),
            ("split: safe\nquadraticity: 0\nmonotonicity: 0.9999999\n0\n28 30\n56 30\n87 7\nat 0\n", "'monotonicity: 0.99' avoids this."),
            (below, "docs/SHAPES.md says how to avoid this."),
            (f"split: careful\n{below}", "docs/SHAPES.md says how to avoid this."),
        ):
            with self.subTest(text=text):
                ran = run_gas("-", text=text)
                self.assertEqual((ran.status, ran.out.splitlines()[-1]), (4, f"  The rows around its ends carry the difference; {last}"))
                lines = run_gas("--csv", "-", "-", text=text).told.splitlines()
                self.assertEqual(lines[-1], f"standard input: The rows around its ends carry the difference; {last}")
        for split in "careful", "safe":
            self.assertEqual(run_gas("-", text=f"quadraticity: 0\nsplit: {split}\n{table}").status, 0)

    def test_a_spike_in_the_last_day(self):
        """What a month lost is in the row that ends it, so that its rows still average what it traded at."""
        ran = run_gas("-", text="quadraticity: 0\n2027-04 33.01\n2027-05 32.50\n2027-06 32.20\n2027-07 32.30\n2027-08 32.60\n2027-09 33.40\ndaily\n")
        april = [float(row[1]) for row in table_rows(ran.out) if row[0] < "2027-05"]
        self.assertEqual(ran.status, 4)
        self.assertAlmostEqual(sum(april) / 30, 33.01, 4)
        self.assertGreater(april[-1], 500)

    def test_a_bend_on_the_knot(self):
        """A node that is one bit off its average puts the bend on the knot, where the section's formula has no total. The period holds its average."""
        alike = "positivity: off\nquadraticity: 0\nmonotonicity: 1\n0\n31 32.629999999999995\n61 31.63\n92 31.63\n123 33.629999999999995\nat 0\n"
        found = answer(read(alike))
        section = found.curve.sections[2]
        self.assertGreater(abs(section.primitive(section.x_next)), 1e12)
        self.assertEqual((found.lost, found.status), ([], 0))

    def test_no_number_at_a_knot_is_no_loss(self):
        ran = run(example("zero-hour.txt"))
        self.assertEqual((ran.status, ran.out.splitlines()[-1]), (4, "all 3 averages kept"))

    def test_held(self):
        self.assertTrue(Held(1, 3.0, 3.0 + 1e-12, 3.0).kept)
        self.assertFalse(Held(1, 3.0, 2.9999, 3.0).kept)
        self.assertFalse(Held(1, 3.0, math.nan, 3.0).kept)


class Told(unittest.TestCase):
    def test_averages_at_or_below_0_with_positivity(self):
        ran = run_gas("-", text="0\n1 2\n2 0\n3 -1\n4 2\nat 0.5\n")
        self.assertIn("standard input:3: 1 to 2 traded at 0.0000, and positivity is for averages above 0\n", ran.told)
        self.assertIn("standard input:4: 2 to 3 traded at -1.0000, and positivity", ran.told)
        self.assertEqual(run_gas("-", text="positivity: off\n0\n1 2\n2 0\n3 -1\n4 2\nat 0.5\n").told, "")

    def test_an_end_that_may_be_meant_as_a_last_day(self):
        ran = run_gas("-", text="2026-10 3\n2026-11-01 2026-11-30 4\ndaily\n")
        self.assertEqual((ran.status, ran.told), (0, "standard input:2: END is the day after the last day, so that 2026-11-30 is no part of this period\n"))
        self.assertEqual(run_gas("-", text="2026-10 3\n2026-11-01 2026-12-01 4\ndaily\n").told, "")

    def test_a_price_below_0_between_the_points(self):
        """The cheap first month: its lowest price is found, though no day is asked."""
        ran = run_gas("-", text="0\n28 0.62\n56 59.03\n85 47.69\nat 0 28\n")
        self.assertEqual((ran.status, ran.out.splitlines()[-1]), (0, "all 3 averages kept"))
        told = ran.told.splitlines()
        self.assertRegex(told[0], r"^standard input:2: the price near [0-9.]+ is -2\.[67][0-9]+, below 0 although positivity is on$")
        self.assertEqual(told[1:], ["standard input: 'split: safe' holds all prices at 0 or above"])

    def test_a_price_below_0_with_its_day(self):
        ran = run_gas("-", text="2026-02-01 2026-03-01 0.62\n2026-03-01 2026-03-29 59.03\n2026-03-29 2026-04-27 47.69\ndaily\n")
        self.assertRegex(ran.told, r"^standard input:1: the (price|average) (near|at|from) 2026-02-1[0-9]( to 2026-02-1[0-9])? is -2\.[67][0-9]+, below 0 although positivity is on\n")

    def test_no_finite_price(self):
        cases = [
            ("0\n1 2\n2 0\n3 2\nat 1\n", 3, "price at 1: 1 to 2 traded at exactly 0, with positivity on"),
            ("quadraticity: 0\nmonotonicity: 1\npositivity: off\n0\n1 2\n2 1\n3 1\nat 1\n", 6, "price at 1: 1 to 2 traded as its neighbour did, at monotonicity 1"),
            ("0\n1 1\n2 -1\n3 1\nat 1.5\n", 3, "total at 1.[0-9]+: 1 to 2 traded below 0, with positivity on"),
            ("positivity: off\n0\n10 1e308\n20 1e308\nat 15\n", 3, "0 to 10 has numbers that are too large or too small for a 64-bit float"),
        ]
        for text, line, cause in cases:
            with self.subTest(text=text):
                ran = run_gas("-", text=text)
                self.assertEqual(ran.status, 4)
                self.assertRegex(ran.told, rf"(?m)^standard input:{line}: no finite .*{cause}$")

    def test_not_finite_where_nothing_is_printed_of_it(self):
        ran = run_gas("-", text="0\n1 2\n2 0\n3 2\nat 0.5\n")
        self.assertEqual(ran.status, 4)
        self.assertIn("no finite price at 1: 1 to 2 traded at exactly 0", ran.told)

    def test_the_safe_split_is_named_where_it_helps(self):
        """Where a price is missing or below 0 and it would not be with the safe split; not where a month traded below 0, or at monotonicity 1."""
        name = "standard input: 'split: safe'"
        for text, last in (
            ("0\n1 2\n2 0\n3 2\nat 0\n", f"{name} has a price everywhere"),
            ("split: careful\n0\n1 2\n2 0\n3 2\nat 0\n", f"{name} has a price everywhere and holds all prices at 0 or above"),
            ("split: careful\nquadraticity: 1\n0\n1 2\n2 0\n3 2\nat 0\n", f"{name} holds all prices at 0 or above"),
            ("0\n1 2\n2 0\n3 2\n4 -1\nat 0\n", None),
            ("quadraticity: 0\nmonotonicity: 1\n0\n1 2\n2 1\n3 1\nat 1\n", None),
            ("extrapolation: on\n0\n28 0.62\n56 59.03\n85 47.69\nat -3 0 90\n", f"{name} holds all prices at 0 or above"),
        ):
            with self.subTest(text=text):
                told = run_gas("-", text=text).told.splitlines()
                self.assertEqual([line for line in told if "safe" in line], told[-1:] if last else [])
                self.assertTrue(last is None or told[-1] == last, told)

    def test_the_safe_split_has_nothing_to_tell(self):
        for text in "0\n1 2\n2 0\n3 2\nat 0 1 1.5 2\n", "0\n28 0.62\n56 59.03\n85 47.69\nevery 1\n", "hold last period: on\n0\n1 0\n2 3\n3 -0.0\nat 3\n":
            ran = run_gas("-", text=f"split: safe\n{text}")
            self.assertEqual((ran.status, ran.told, ran.out.splitlines()[-1]), (0, "", "all 3 averages kept"))
        ran = run_gas("-", text="split: safe\nquadraticity: 0\nmonotonicity: 1\n0\n1 2\n2 1\n3 1\nat 1\n")
        self.assertIn("standard input:6: no finite price at 1: 1 to 2 traded as its neighbour did, at monotonicity 1\n", ran.told)

    def test_many_lines_are_counted(self):
        text = "".join(f"{k} {k + 1} -1\n" for k in range(30)) + "at 0\n"
        ran = run_gas("-", text=text)
        self.assertIn("standard input: and 18 more averages at or below 0\n", ran.told)


class Refused(unittest.TestCase):
    def test_the_line_that_caused_it(self):
        many = "".join(f"{k} {k + 1} 1\n" for k in range(4096))
        cases = [
            ("\nmonotonicity: 1.5\n0\n1 2\nat 0\n", ":2: refused: the monotonicity is not a number from 0 to 1 (refusal 2)"),
            ("quadraticity: nan\n0\n1 2\nat 0\n", ":1: refused: the quadraticity is not a number from 0 to 1 (refusal 3)"),
            ("0\nat 0\n", ": refused: there are fewer than two knots (refusal 4)"),
            ("0\n1 2\ninf 2\ndaily\n", ":3: refused: a knot is infinite or not a number (refusal 5)"),
            ("0\n1 2\n2 -inf\nat 0\n", ":3: refused: an average is infinite or not a number (refusal 6)"),
            ("2026-10 nan\nat 2026-10-01\n", ":1: refused: an average is infinite or not a number (refusal 6)"),
            ("0\n2 2\n# here\n1 2\ndaily\n", ":4: refused: a knot is not above the one before it (refusal 7)"),
            (many + "at 0\n", ":4096: refused: there are more than 4096 knots (refusal 10)"),
            ("0\n1 2\nat 0 5\nat NaN\n", ":3: refused at 5: the point that is asked for lies outside the knots, and extrapolation is off (refusal 13)"),
        ]
        for text, said in cases:
            with self.subTest(text=text[:60]):
                ran = run_gas("-", text=text)
                self.assertEqual((ran.status, ran.out, ran.told.splitlines()[0]), (1, "", f"standard input{said}"))

    def test_an_average_below_0_with_the_safe_split(self):
        """The line of the average, in the library's words and in the desk's own. Without positivity it is answered."""
        words = "refused: an average is below 0, and no curve at or above 0 can keep it, as the safe split promises (refusal 29)"
        ran = run_gas("-", text="split: safe\n2026-10 3\n# cheap\n2026-11 -0.5\n2026-12 -1\ndaily\n")
        traded = "2026-11-01 to 2026-12-01 traded at -0.5000; 'positivity: off' is for averages below 0"
        self.assertEqual(ran, (1, "", f"standard input:4: {words}\nstandard input:4: {traded}\n"))
        self.assertEqual(run_gas("-", text="split: safe\npositivity: off\n2026-10 3\n2026-11 -0.5\ndaily\n").status, 0)
        file = example("power-negative-positivity.txt")
        ran = run("--set", "split: safe", file)
        self.assertEqual((ran.status, ran.out, ran.told.splitlines()[0]), (1, "", f"{file}:11: {words}"))

    def test_an_option_that_caused_it(self):
        ran = run("--set", "quadraticity: 2", example("winter-gas.txt"))
        self.assertEqual(ran, (1, "", f"{example('winter-gas.txt')}: --set 'quadraticity: 2': refused: the quadraticity is not a number from 0 to 1 (refusal 3)\n"))


class Large(unittest.TestCase):
    def test_4095_periods_and_40000_rows(self):
        text = "".join(f"{k} {k + 1} {20 + k % 7}\n" for k in range(4095)) + "every 0.1024\n"
        ran = run_gas("-", text=text)
        self.assertEqual((ran.status, ran.told, ran.out.splitlines()[-1]), (0, "", "all 4095 averages kept"))
        self.assertEqual(len(table_rows(ran.out)), 39991)

    def test_one_point_is_what_many_are(self):
        order = read("2026-10 29.40\n2026-11 31.85\nat 2026-10-03 2026-11-30\n")
        many = answer(order).tables[0].rows
        for row in many:
            alone = read(f"2026-10 29.40\n2026-11 31.85\nat {['2026-10-03', '2026-11-30'][row.at > 10]}\n")
            self.assertEqual(struct.pack("2d", *answer(alone).tables[0].rows[0][1:]), struct.pack("2d", *row[1:]))


if __name__ == "__main__":
    unittest.main()
