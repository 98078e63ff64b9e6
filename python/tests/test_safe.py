"""The safe split: what it keeps, what it refuses, and where it is the other splits' own curve."""

import math
import random
import unittest
from array import array

from havgrunel import Curve, Method, Refused

CHEAP = ([0, 28, 56, 85], [0, 0.62, 59.03, 47.69])
# The fourth month traded at 0, and so did the last.
FREE = ([0, 31, 59, 90, 120, 151, 181], [0, 2.0, 3.5, 1.25, 0.0, 0.8, 0.0])


def bits(numbers):
    return array("d", numbers).tobytes()


def drawn(draw):
    """A strip of averages at or above 0 as a client may have it: knots, averages, and whether the last period is held. One average at least is above 0."""
    knots, averages = [draw.choice([0.0, 0.0, -366.0, 2000.0])], [draw.choice([0.0, -5.0])]
    size, zeros = draw.choice([1.0, 1.0, 60.0, 1e-2, 1e5]), draw.choice([0.0, 0.2, 0.5])
    for _ in range(draw.randint(1, 12)):
        knots.append(knots[-1] + draw.choice([1.0, 28.0, 30.0, 31.0, 91.0, draw.uniform(0.5, 40.0)]))
        free = draw.random() < zeros
        averages.append(0.0 if free else averages[-1] if len(averages) > 1 and draw.random() < 0.15 else size * 10 ** draw.uniform(-4, 0))
    if max(averages[1:]) == 0.0:
        averages[-1] = size
    return knots, averages, draw.random() < 0.1


def held(curve):
    return [(s.primitive(s.x_next) - s.primitive(s.x_prev)) / (s.x_next - s.x_prev) for s in curve.sections]


class Safe(unittest.TestCase):
    def test_ten_thousand_strips(self):
        """No price is missing or below 0, and every average is kept, but for rounding: 1e-12 and 1e-11 of the largest average."""
        draw, lowest, most, free = random.Random(31), 0.0, 0.0, 0
        for _ in range(10000):
            knots, averages, hold = drawn(draw)
            monotonicity, largest, months = draw.choice([0.0, 0.7, 0.9, 0.99]), max(averages[1:]), len(knots) - 1
            points = array("d", [a + (b - a) * j / 12 for a, b in zip(knots, knots[1:]) for j in range(12)] + knots[-1:])
            ends = array("d", [*knots[:-1], *(math.nextafter(knot, -math.inf) for knot in knots[1:])])
            free += averages[1:].count(0.0)
            for quadraticity in 0.0, 0.3, 1.0:
                curve = Curve(knots, averages, Method(quadraticity, monotonicity, True, "safe"), hold=hold)
                prices, totals = curve.values(points), curve.primitives(ends)
                self.assertTrue(math.isfinite(sum(prices)) and math.isfinite(sum(totals)), (knots, averages))
                lowest = min(lowest, min(prices) / largest)
                for j, (a, b, traded) in enumerate(zip(knots, knots[1:], averages[1:])):
                    most = max(most, abs((totals[months + j] - totals[j]) / (b - a) - traded) / largest)
        self.assertGreaterEqual(lowest, -1e-12)
        self.assertLessEqual(most, 1e-11)
        self.assertGreater(free, 10000)

    def test_the_cheap_first_month(self):
        for quadraticity in 0.0, 0.3, 1.0:
            careful, safe = (Curve(*CHEAP, Method.gas(quadraticity=quadraticity, split=split)) for split in ("careful", "safe"))
            self.assertEqual((bits(careful.nodes), careful.tail, [s.kind for s in careful.sections]), (bits(safe.nodes), safe.tail, [s.kind for s in safe.sections]))
            self.assertEqual(min(safe.values(range(86))), 0.0)
            self.assertEqual((careful.value(9) < 0, careful.sections[1:] == safe.sections[1:]), (quadraticity > 0, True))
            for one, traded in zip(held(safe), CHEAP[1][1:]):
                self.assertAlmostEqual(one, traded, 11)

    def test_a_period_at_0_is_0(self):
        """Everywhere, and +0.0, whatever the sign of the average. The total stays what it was."""
        for zero in 0.0, -0.0:
            for quadraticity in 0.0, 0.3, 1.0:
                averages = [average or zero for average in FREE[1]]
                curve = Curve(FREE[0], averages, Method.gas(quadraticity=quadraticity, split="safe"))
                for section in curve.sections[3], curve.sections[5]:
                    self.assertEqual((section.kind, section.split, section.f_next), ("EverywhereConstant", False, 0.0))
                    xs = [section.x_prev + k for k in range(30)]
                    self.assertEqual(bits(curve.values(xs)), bits([0.0] * 30))
                    self.assertEqual(set(curve.primitives(xs)), {curve.primitive(section.x_prev)})
                self.assertEqual(curve.primitive(FREE[0][-1]), Curve(*FREE, Method(positivity=False)).primitive(FREE[0][-1]))

    def test_an_average_below_0_is_refused(self):
        for k in range(1, 7):
            averages = [average if j != k else -5e-324 for j, average in enumerate(FREE[1])]
            with self.assertRaises(Refused) as caught:
                Curve(FREE[0], averages, Method.gas(split="safe"))
            self.assertEqual((caught.exception.number, caught.exception.name, caught.exception.index), (29, "AVERAGE_BELOW_ZERO", k))
            for method in Method(), Method.gas(), Method.gas(split="careful"), Method(split="safe"):
                Curve(FREE[0], averages, method)
            for build in Curve.in_sheets, lambda *table: Curve.first_window(table[0], table[1], 6, 9, table[3]):
                with self.assertRaisesRegex(Refused, f"can keep it, as the safe split promises .refusal 29, index {k}.$"):
                    build(FREE[0], averages, [2, 4], Method.gas(split="safe"))
        # The first is not read.
        self.assertEqual(Curve(FREE[0], [-3.0, *FREE[1][1:]], Method.gas(split="safe")).sections, Curve(*FREE, Method.gas(split="safe")).sections)
        # What is wrong with the table besides comes first.
        for knots, averages, method, number in (
            ([0, 1, 1], [0, -1, 1], Method.gas(split="safe"), 7),
            ([0, 1, 2], [0, -1, math.nan], Method.gas(split="safe"), 6),
            ([0, 1, 2], [0, -1, 1], Method.gas(quadraticity=2, split="safe"), 3),
        ):
            with self.assertRaises(Refused) as caught:
                Curve(knots, averages, method)
            self.assertEqual(caught.exception.number, number)

    def test_without_positivity_it_is_the_original(self):
        draw = random.Random(7)
        for _ in range(50):
            knots, averages, hold = drawn(draw)
            averages = [average - 0.3 for average in averages]
            original, safe = (Curve(knots, averages, Method(0.2, 0.9, False, split), hold=hold) for split in ("original", "safe"))
            self.assertEqual((bits(original._slots), original._tags, original.tail), (bits(safe._slots), safe._tags, safe.tail))

    def test_next_to_nothing_is_flat(self):
        """A period that traded at less than a 10^12th of its neighbours is flat at its average, which it keeps. The others have a jump as it begins."""
        for quadraticity in 0.0, 0.3, 1.0:
            curve = Curve([0, 1, 2, 3], [0, 50.0, 1e-13, 50.0], Method.gas(quadraticity=quadraticity, split="safe"))
            self.assertFalse(curve.sections[1].split)
            for x in 1.0, 1.25, 1.5, 1.999:
                self.assertTrue(0.9e-13 < curve.value(x) < 1.1e-13, (quadraticity, x, curve.value(x)))

    def test_growth_and_sheets_keep_the_mode(self):
        draw, method = random.Random(11), Method.gas(split="safe")
        for _ in range(30):
            knots, averages, _ = drawn(draw)
            whole = Curve(knots, averages, method)
            parts = Curve.in_sheets(knots, averages, range(1, len(knots) - 1), method)
            self.assertEqual((parts.method, bits(parts.nodes), bits(parts._slots), parts.tail), (method, bits(whole.nodes), bits(whole._slots), whole.tail))
        grown = Curve.first_window(FREE[0][:3], FREE[1][:3], 2, 7, method)
        for size in range(4, 8):
            grown = grown.grow(FREE[0][:size], FREE[1][:size], 2, 7)
            self.assertGreaterEqual(min(grown.values([FREE[0][size - 1] * k / 500 for k in range(501)])), 0.0)
        self.assertEqual((grown.method, grown.sections[3].kind), (method, "EverywhereConstant"))
        for one, traded in zip(held(grown), FREE[1][1:]):
            self.assertAlmostEqual(one, traded, 11)

    def test_words(self):
        curve = Curve(*CHEAP, Method.gas(split="safe"))
        self.assertEqual(repr(curve), "<Curve of 3 periods from 0 to 85, quadraticity 0.3, monotonicity 0.7, positivity on, safe split>")


if __name__ == "__main__":
    unittest.main()
