"""Answers that are not finite: refused by 21 in every call, marked by the command, and no reason to lose the others."""

import math
import random
import re
import time
import unittest
from array import array

from havgrunel import Curve, Method, Refused
from havgrunel.answers import answer
from havgrunel.finite import LEAST, NOT_FINITE, all_marked, first_marked, marked
from havgrunel.text import read_order
from runs import InAFolder, example, run, run_gas, table_rows
from test_curve import FREE, THREE, Refusing, bits

NAN = math.nan
ZERO_HOUR = example("zero-hour.txt")
# Two hours that traded alike at monotonicity 1, where the first of them has no price at its start.
ALIKE = "quadraticity: 0\nmonotonicity: 1\npositivity: off\n0\n1 2\n2 1\n3 1\n"
# Hours at a price that is not too large for a float, as their total is from the fourth on.
HUGE = "positivity: off\n0\n" + "".join(f"{k} 5e307\n" for k in range(1, 6))


def free(**more):
    """The hours of which the second traded at exactly 0: at 1 there is no price and no total."""
    return Curve(*FREE, Method.gas(), column=True, **more)


class Asked(Refusing):
    def test_its_words(self):
        self.assertEqual((str(Refused(21)), Refused(21).name), ("the answer is infinite or not a number (refusal 21)", "NOT_FINITE"))

    def test_each_method_with_its_index(self):
        curve = free()
        self.refused(21, None, curve.value, 1)
        self.refused(21, None, curve.primitive, 1)
        self.refused(21, None, curve.strip, 0.5, 1)
        self.refused(21, None, curve.strip, 1, 1.5)
        self.refused(21, None, curve.strip_between, 0, 1)
        self.refused(21, None, curve.strip_between, 1, 3)
        self.refused(21, None, curve.total_at, 1)
        for kind in list, tuple, lambda xs: array("d", xs):
            self.refused(21, 2, curve.values, kind([0.5, 0.75, 1, 1, 2]))
            self.refused(21, 0, curve.primitives, kind([1, 0.5]))
            self.refused(21, 1, curve.strips, kind([0, 0.5, 1]), kind([2, 1, 2]))
            self.refused(21, 2, curve.averages, kind([0, 0.5, 1, 1.5]))

    def test_the_others_are_answered(self):
        curve = free()
        self.assertEqual(curve.values([0.5, 1.5, 2]), [2.125, 0.0, 1.0])
        self.assertEqual((curve.primitives([0.5, 1.5, 3]), curve.strip(0, 2), curve.strip_between(0, 3)), ([1.1875, 2.0, 4.0], 1.0, 4 / 3))
        self.assertEqual([curve.total_at(i) for i in (0, 2, 3)], [0.0, 2.0, 4.0])

    def test_after_all_other_refusals(self):
        curve = free()
        for number, index, call, *points in (
            (12, 1, curve.values, [0.5, NAN, 1]),
            (21, 1, curve.values, [0.5, 1, NAN]),
            (13, 0, curve.primitives, [9, 1]),
            (18, None, curve.strip, 1, 1),
            (18, None, curve.strip, 1, 0.5),
            (12, None, curve.strip, 1, NAN),
            (13, None, curve.strip, 1, 9),
            (18, 0, curve.strips, [2, 0], [1, 1]),
            (21, 0, curve.strips, [0, 2], [1, 1]),
            (18, None, curve.strip_between, 1, 1),
            # The total at the first edge is not finite, which is no reason to blame it for what is wrong with the second.
            (18, 1, curve.averages, [1, 0.5]),
            (13, 1, curve.averages, [1, 9, NAN]),
        ):
            with self.subTest(number=number, points=points):
                self.refused(number, index, call, *points)

    def test_the_total_without_the_price(self):
        curve = Curve([0, 1, 2, 3], [0, 1, -1, 1], Method.gas())
        self.assertTrue(math.isfinite(curve.value(1.5)))
        self.refused(21, None, curve.primitive, 1.5)
        self.refused(21, 1, curve.primitives, [0.5, 1.5, 2.5])
        self.assertEqual(len(curve.values([0.5, 1.5, 2.5])), 3)

    def test_two_finite_totals_and_no_average(self):
        curve = Curve([0, 1], [0, 1e308], extrapolate=True)
        self.assertEqual((curve.primitive(-1), curve.primitive(1), curve.strip(0, 1)), (-1e308, 1e308, 1e308))
        self.refused(21, None, curve.strip, -1, 1)
        self.refused(21, 0, curve.strips, [-1], [1])

    def test_the_edge_to_blame(self):
        """That whose total is not finite; the right one where both totals are."""
        wide = Curve([0, 1], [0, 1e308], extrapolate=True)
        self.refused(21, 1, wide.averages, [-1, 1, 1.5])
        self.refused(21, 3, wide.averages, [-1, 0, 1, 4, 5])
        self.refused(21, 0, wide.averages, [4, 5, 6])
        self.refused(21, 0, free().averages, [1, 1.5])
        self.refused(21, 1, free().averages, [0.5, 1, 1.5])

    def test_monotonicity_1(self):
        curve = Curve([0, 1, 2, 3], [0, 2, 1, 1], Method(0, 1, False))
        self.refused(21, None, curve.value, 1)
        self.refused(21, 1, curve.values, [0, 1])
        self.assertTrue(math.isfinite(curve.value(1.5)))

    def test_what_a_curve_is_made_of_is_told_as_it_is(self):
        curve = free()
        section = curve.sections[1]
        self.assertTrue(math.isnan(section.left_price) and math.isnan(curve.column[1]))
        self.assertEqual((section.total, section.f_next, curve.tail), (2.0, curve.nodes[2], (2.5, 4.0, 3.0)))
        self.refused(21, None, section.value, 1)
        self.refused(21, None, section.primitive, 1)
        self.assertEqual((section.value(1.5), section.primitive(1.5)), (0.0, 2.0))
        self.assertEqual([one.total for one in Curve([0, 10, 20], [0, 1e308, 1e308]).sections], [math.inf, math.inf])
        self.assertEqual(Curve([0, 10, 20], [0, 1e308, 1e308], column=True).column.tolist(), [0.0, math.inf, math.inf])

    def test_a_section_s_two_marks(self):
        section = Curve([0, 1, 2, 3], [0, 1, -1, 1], Method.gas()).sections[1]
        self.assertTrue(math.isfinite(section.value(1.5)))
        self.refused(21, None, section.primitive, 1.5)

    def test_total_at(self):
        curve = Curve(*THREE, column=True)
        self.assertEqual([curve.total_at(i) for i in range(3)], curve.primitives(THREE[0]))
        for place in 3, 4096, 2**62:
            self.refused(11, None, curve.total_at, place)
        self.refused(11, None, Curve(*THREE).total_at, 0)
        with self.assertRaisesRegex(ValueError, "^the place is -1, and counts go from 0"):
            curve.total_at(-1)
        with self.assertRaisesRegex(TypeError, "^the place is 0.5, which is not a whole number"):
            curve.total_at(0.5)


class Counted:
    """A call that counts how often it is asked, and for how many points."""

    def __init__(self, ask):
        self.ask, self.calls, self.points = ask, 0, 0

    def __call__(self, *points):
        self.calls, self.points = self.calls + 1, self.points + len(points[0])
        return self.ask(*points)


class Marked(Refusing):
    def test_each_is_what_it_is_alone(self):
        draw = random.Random(21)
        curve = free(extrapolate=True)
        for count in 0, 1, 2, 3, LEAST, 500:
            for part in 0.0, 0.01, 0.5, 1.0:
                xs = [1.0 if draw.random() < part else draw.uniform(-1, 4) for _ in range(count)]
                ends = [1.0 if x < 1 and draw.random() < part else x + draw.uniform(0.1, 2) for x in xs]
                for kind in list, lambda xs: array("d", xs):
                    for ask, single in (curve.values, curve.value), (curve.primitives, curve.primitive):
                        self.same(all_marked(ask, kind(xs)), [marked(single, x) for x in xs])
                    self.same(all_marked(curve.strips, kind(xs), kind(ends)), [marked(curve.strip, a, b) for a, b in zip(xs, ends)])

    def same(self, *found):
        one, other = ([bits([x]) if isinstance(x, float) else x for x in numbers] for numbers in found)
        self.assertEqual(one, other)

    def test_one_call_where_none_is_refused(self):
        asked = Counted(free().values)
        self.assertEqual(len(all_marked(asked, [0.5] * 40000)), 40000)
        self.assertEqual((asked.calls, asked.points), (1, 40000))

    def test_few_calls_where_few_are_refused(self):
        xs = [0.5] * 40000
        for places in ({0}, {39999}, {20000}, {7, 8, 30000}):
            asked = Counted(free().values)
            found = all_marked(asked, [1.0 if k in places else x for k, x in enumerate(xs)])
            self.assertEqual({k for k, x in enumerate(found) if x is NOT_FINITE}, places)
            self.assertLess(asked.calls, 40)
            self.assertLess(asked.points, 6 * len(xs))

    def test_a_few_calls_to_each_that_is_refused(self):
        """So the work does not grow with the square of the points, however the refused ones lie among the others."""
        for apart in 1, 2, 3, 10, 100:
            asked, count = Counted(free().values), 20000
            found = all_marked(asked, [0.5 if k % apart else 1.0 for k in range(count)])
            refused = sum(x is NOT_FINITE for x in found)
            self.assertEqual(refused, len(range(0, count, apart)))
            self.assertLessEqual(asked.calls, 3 * refused + 20)
            self.assertLess(asked.points, 3 * LEAST * refused + 20 * count)

    def test_other_refusals_are_raised(self):
        curve = free()
        self.refused(13, 3, all_marked, curve.values, [0.5, 1, 1, 9, NAN])
        self.refused(12, 200, all_marked, curve.primitives, [*[1.0] * 200, NAN])
        self.refused(18, 2, all_marked, curve.strips, [0, 1, 2], [1, 2, 1])
        self.refused(13, None, marked, curve.value, 9)
        self.refused(13, 0, first_marked, curve.values, [[9]])

    def test_the_first_of_each_group(self):
        curve = free()
        groups = [[0.5, 0.75], [], [1.0, 1.0], [0.5, 2.0, 1.0], [3.0]]
        asked = Counted(curve.values)
        self.assertEqual(first_marked(asked, groups), [None, None, 0, 2, None])
        self.assertEqual(asked.calls, 1 + len(groups))
        asked = Counted(curve.values)
        self.assertEqual((first_marked(asked, groups[:2]), asked.calls), ([None, None], 1))
        self.assertEqual(first_marked(curve.values, []), [])


class Told(InAFolder):
    def hold(self, *words, text=None, lines=()):
        """Runs the command; it answers with 4, tells these lines, and writes neither nan nor inf. Comes back with what it wrote."""
        ran = run(*words, text=text)
        self.assertEqual(ran.status, 4, ran)
        for line in lines:
            self.assertRegex(ran.told, rf"(?m)^{line}$")
        for written in ran.out, ran.told:
            self.assertIsNone(re.search(r"\b(nan|inf|not_?finite)\b", written, re.IGNORECASE), written)
        return ran.out

    def test_an_hour_at_exactly_0(self):
        cause = f"{re.escape(ZERO_HOUR)}:9: no finite price at 1: 1 to 2 traded at exactly 0, with positivity on"
        count = f"{re.escape(ZERO_HOUR)}: 1 of 9 answers is not finite; docs/SHAPES.md says which tables do that"
        for more in [], ["--exact"]:
            rows = table_rows(self.hold(*more, ZERO_HOUR, lines=[cause, count]))
            self.assertEqual((len(rows), rows[3]), (9, ["1", "no-number", "no-number"]))
            self.assertEqual([float(row[1]) for row in rows[:3] + rows[4:]], [2.5, 2.125, float(rows[2][1]), 0.0, 0.0, 1.0, 2.125, 2.5])
        for option, sign in ("--csv", ","), ("--tsv", "\t"):
            lines = self.hold(option, "-", ZERO_HOUR, lines=[cause, count]).splitlines()
            self.assertEqual((len(lines), lines[4], lines[5]), (10, sign.join(["1", "", ""]), sign.join(["1.25", "0.0", "2.0"])))
        self.assertIn(">no finite price</text>", self.hold("--plot", "-", ZERO_HOUR, lines=[cause, count]))

    def test_rows_and_strips(self):
        text = "settings: gas\n0\n1 2\n2 0\n3 2\nevery 0.5\n"
        rows = table_rows(self.hold("-", text=text, lines=["standard input: 2 of 6 answers are not finite; .*"]))
        self.assertEqual([row[0] for row in rows if "no-number" in row], ["0.5", "1"])
        self.assertEqual(rows[1][1:], ["no-number", "2.1250", "no-number"])
        self.assertEqual(rows[2][1:], ["no-number", "no-number", "2.0000"])
        text = "settings: gas\n0\n1 2\n2 0\n3 2\nstrip: 0 to 1\nstrip: 0 to 2\nstrip: 1 to 2\n"
        rows = table_rows(self.hold("-", text=text, lines=["standard input: 2 of 3 answers are not finite; .*"]))
        self.assertEqual([row[2] for row in rows], ["no-number", "1.0000", "no-number"])

    def test_monotonicity_1(self):
        cause = "standard input:6: no finite price at 1: 1 to 2 traded as its neighbour did, at monotonicity 1"
        rows = table_rows(self.hold("-", text=ALIKE + "at 0.5 1 1.5\n", lines=[cause, "standard input: 1 of 3 answers is not finite; .*"]))
        self.assertEqual([row[1] == "no-number" for row in rows], [False, True, False])
        self.assertEqual(self.hold("--csv", "-", "-", text=ALIKE + "at 0.5 1 1.5\n", lines=[cause]).splitlines()[2].split(",")[1], "")

    def test_huge_averages(self):
        """The price is there, and the total is too large for a float within the fourth hour."""
        cause = "standard input:6: no finite total at 3.[0-9]+: 3 to 4 has numbers that are too large or too small for a 64-bit float"
        out = self.hold("-", text=HUGE + "at 0 1 4.5\n", lines=[cause, "standard input: 1 of 3 answers is not finite; .*"])
        self.assertIn("  3 to 4 traded at 5e+307 and has no finite total (line 6)\n", out)
        self.assertEqual([row[1:] for row in table_rows(out)][1:], [["5.0000000000e+307", "5.0000000000e+307"], ["5.0000000000e+307", "no-number"]])
        rows = table_rows(self.hold("--knots", "-", text=HUGE))
        self.assertEqual([row[3] == "no-number" for row in rows], [False, False, False, False, True, True])
        self.assertEqual(self.hold("--csv", "-", "--knots", "-", text=HUGE).splitlines()[5], "4,5e+307,5e+307,,0")
        self.assertEqual(self.hold("--csv", "-", "-", text=HUGE + "every 1\n").splitlines()[4:], ["3,4,,5e+307,", "4,5,,5e+307,"])

    def test_a_point_that_is_refused_for_another_reason(self):
        """Such a point ends the command, as ever, and one without a price is not told among those."""
        ran = run_gas("-", text="0\n1 2\n2 0\n3 2\nat 1 9\nat 1\n")
        words = "the point that is asked for lies outside the knots, and extrapolation is off (refusal 13)"
        self.assertEqual(tuple(ran), (1, "", f"standard input:5: refused at 9: {words}\n"))

    def test_an_empty_cell_is_not_read_as_another_number(self):
        """A file of strips is read by its first three columns, and one whose average is empty is told by its line."""
        text = "settings: gas\nextrapolation: on\n0\n1 1e308\nstrip: 0 to 1\nstrip: 8 to 9\n"
        out = self.hold("--csv", "-", "-", text=text)
        self.assertEqual(out.splitlines()[2], "8,9,,,")
        ran = run(self.written("own.csv", out))
        self.assertEqual((ran.status, ran.told), (2, f"{self.path('own.csv')}:3: a cell of this row is empty\n"))

    def test_every_hour_refused(self):
        """The longest table, in which no hour has an average: it is answered, line by line, and no slower than it takes to ask each hour a few times."""
        text = "time: hours\n" + "".join(f"{k} {k + 1} 1.7e308\n" for k in range(4095)) + "every 1\n"
        began = time.process_time()
        found = answer(read_order("x", text.encode(), ["settings: gas"]))
        self.assertLess(time.process_time() - began, 10)
        self.assertEqual((found.status, found.not_finite, len(found.tables[0].rows), found.tables[0].not_finite), (4, 4095, 4095, 4095))
        self.assertTrue(all(row.average is NOT_FINITE for row in found.tables[0].rows))
        self.assertEqual(found.after[-1], "x: 4095 of 4095 answers are not finite; docs/SHAPES.md says which tables do that")
        self.assertEqual(len(found.after), 14)


if __name__ == "__main__":
    unittest.main()
