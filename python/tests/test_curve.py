"""Curves, their sections, growth and sheets, by the numbers that the requirements and c/test.c have."""

import copy
import math
import pickle
import random
import struct
import unittest
from array import array
from concurrent.futures import ThreadPoolExecutor

import havgrunel
from havgrunel import FIELDS, MOST_POINTS, SLOTS, Curve, Method, Refused
from havgrunel.finite import NOT_FINITE, marked

THREE = ([0.0, 1.0, 2.0], [0.0, 1.0, 3.0], Method(0.0, 1.0, False))
# The second month has the nodes 4 and 1 and traded at 3.
FALLING = ([0.0, 1.0, 2.0, 2.25], [0.0, 5.0, 3.0, 0.5])
# The second hour traded at exactly 0.
FREE = ([0.0, 1.0, 2.0, 3.0], [0.0, 2.0, 0.0, 2.0])
GROWING = ([0.0, 1.0, 2.5, 3.0, 5.0], [0.0, 1.0, 3.0, 2.0, 2.5])


def bits(numbers):
    """Numbers by their bits: -0.0 is not 0.0, and a NaN is itself."""
    return array("d", numbers).tobytes()


def drawn(seed, periods):
    """A table of drawn months: (knots, averages)."""
    draw = random.Random(seed)
    knots, averages = [0.0], [0.0]
    for _ in range(periods):
        knots.append(knots[-1] + draw.choice([1.0, 28.0, 30.0, 31.0, 92.0, draw.uniform(0.1, 40.0)]))
        averages.append(draw.uniform(1.0, 90.0))
    return knots, averages


class Refusing(unittest.TestCase):
    """Adds a word for calls that must be refused."""

    def refused(self, number, index, call, *words, **named):
        with self.assertRaises(Refused) as caught:
            call(*words, **named)
        self.assertEqual((caught.exception.number, caught.exception.index), (number, index))


class Building(Refusing):
    def test_the_worked_order(self):
        curve = Curve([0, 2], [9, 2], Method(0, 0, False))
        self.assertEqual(curve.values([1, 2]), [2.0, 2.0])
        self.assertEqual(curve.primitives([1, 2]), [2.0, 4.0])
        self.assertEqual(curve.tail, (2.0, 0.0, 0.0))
        self.assertEqual([section.kind for section in curve.sections], ["EverywhereConstant"])

    def test_three_points(self):
        curve = Curve(*THREE)
        self.assertEqual(curve.nodes, array("d", [0.5, 2.0, 3.5]))
        self.assertEqual([hex(section.tag) for section in curve.sections], ["0x2000", "0x2000"])
        self.assertEqual((curve.tail.value, curve.tail.total, curve.tail.from_), (3.5, 4.0, 2.0))
        self.assertEqual(curve.values([1.5, 0.5, 1.0, 2.0]), [3.125, 0.875, 2.0, 3.5])
        self.assertEqual([curve.value(x) for x in (1.5, 0.5, 1.0, 2.0)], [3.125, 0.875, 2.0, 3.5])
        self.assertEqual((curve.primitive(1.0), curve.primitives((1.0, 2.0))), (1.0, [1.0, 4.0]))

    def test_a_held_last_period(self):
        curve = Curve(*THREE, hold=True)
        self.assertTrue(curve.hold)
        self.assertEqual((curve.value(1.5), curve.primitive(1.5), curve.tail), (3.0, 2.5, (3.0, 1.0, 1.0)))

    def test_a_seam(self):
        self.assertEqual(Curve(*THREE, seam=(1, 1.0)).nodes[1], 1.0)
        self.refused(8, None, Curve, *THREE, seam=(2, 1.0))

    def test_the_settings_that_are_left_out(self):
        self.assertEqual(Method(), Method(0.3, 0.7, False))
        self.assertEqual(Curve([0, 1], [0, 1]).method, Method())
        self.assertEqual(Method(monotonicity=1), Method(0.3, 1.0, False))
        self.assertEqual((Method().split, Method(0.3, 0.7, False, "original")), ("original", Method()))

    def test_the_gas_default(self):
        self.assertEqual(Method.gas(), Method(0.3, 0.7, True, "original"))
        self.assertEqual(Method.gas(quadraticity=0, split="safe"), Method(0.0, 0.7, True, "safe"))
        self.assertEqual(Method.gas(positivity=False), Method())
        with self.assertRaisesRegex(TypeError, "convexity"):
            Method.gas(convexity=1)

    def test_what_was_given_is_copied(self):
        knots, averages = array("d", THREE[0]), array("d", THREE[1])
        curve = Curve(knots, averages, THREE[2])
        knots[1] = averages[1] = 77.0
        curve.knots[1] = curve.traded[1] = curve.nodes[1] = 77.0
        self.assertEqual((curve.knots.tolist(), curve.traded.tolist(), curve.value(1.5)), (THREE[0], THREE[1], 3.125))
        knots.append(1.0)

    def test_the_longest_table(self):
        knots = list(range(MOST_POINTS))
        curve = Curve(knots, [30.0 + k % 7 for k in knots])
        self.assertEqual(len(curve.sections), MOST_POINTS - 1)
        self.assertAlmostEqual(curve.averages([4094, 4095])[0], 30.0 + 4095 % 7, 9)
        self.refused(10, None, Curve, range(MOST_POINTS + 1), range(MOST_POINTS + 1))

    def test_refused_tables(self):
        nan, inf = math.nan, math.inf
        self.refused(1, None, Curve, [0, 1, 2], [0, 1])
        self.refused(2, None, Curve, [0, 1], [0, 1], Method(2, nan, True))
        self.refused(3, None, Curve, [0, 1], [0, 1], Method(2, 0.5, True))
        self.refused(4, None, Curve, [0], [0])
        self.refused(4, None, Curve, [], [])
        self.refused(5, 1, Curve, [0, inf, 2], [nan, 1, 3])
        self.refused(6, 0, Curve, [0, 1, 1], [nan, 1, 3])
        self.refused(7, 2, Curve, [0, 1, 1], [0, 1, 3])

    def test_a_method_that_is_none(self):
        with self.assertRaisesRegex(TypeError, "a Method is meant"):
            Curve([0, 1], [0, 1], (0.3, 0.7, True))
        with self.assertRaisesRegex(TypeError, "quadraticity"):
            Method("0.3")
        with self.assertRaisesRegex(TypeError, "the positivity is 'off', and True or False is meant"):
            Method(positivity="off")
        with self.assertRaisesRegex(ValueError, "^the split is 'Careful', and 'original', 'careful' or 'safe' is meant$"):
            Method(split="Careful")
        for split in True, None, b"careful":
            with self.assertRaisesRegex(TypeError, "^the split is .*, and 'original', 'careful' or 'safe' is meant$"):
                Method(split=split)


class Asking(Refusing):
    def test_outside_the_knots(self):
        curve = Curve(*THREE)
        self.refused(13, None, curve.value, -1.0)
        self.refused(13, None, curve.primitive, 2.5)
        wide = curve.with_extrapolation()
        self.assertEqual((wide.value(-1.0), wide.value(3.0), wide.primitive(3.0)), (2.0, 3.5, 7.5))
        self.assertEqual(Curve(*THREE, extrapolate=True).values([-1.0]), [2.0])
        self.assertEqual((curve.extrapolate, wide.extrapolate), (False, True))
        self.refused(13, None, wide.with_extrapolation(False).value, -1.0)
        self.refused(12, None, wide.value, math.nan)

    def test_the_first_that_is_refused(self):
        curve = Curve(*THREE)
        self.refused(13, 1, curve.values, [0.5, 2.5, math.nan, 1.0])
        self.refused(12, 2, curve.with_extrapolation().primitives, [0.5, 2.5, math.nan, 1.0])
        draw = random.Random(3)
        for count in (1, 2, 3, 5, 64, 1000):
            xs = [draw.uniform(0, 2) for _ in range(count)]
            for at in {0, count // 2, count - 1}:
                bad = xs[:]
                bad[at] = draw.choice([-1.0, math.nan])
                bad[at + 1 :] = [draw.choice([x, math.nan, 9.0]) for x in bad[at + 1 :]]
                self.refused(13 if bad[at] == -1.0 else 12, at, curve.values, array("d", bad))

    def test_many_are_told_what_each_is_told(self):
        for seed in range(20):
            curve = Curve(*drawn(seed, 1 + seed), Method(seed / 20, 1 - seed / 20, seed % 2 == 0))
            xs = [random.Random(seed).uniform(0, curve.knots[-1]) for _ in range(200)]
            self.assertEqual(bits(curve.values(xs)), bits([curve.value(x) for x in xs]))
            self.assertEqual(bits(curve.primitives(xs)), bits([curve.primitive(x) for x in xs]))

    def test_no_points(self):
        self.assertEqual((Curve(*THREE).values([]), Curve(*THREE).primitives(array("d"))), ([], array("d")))

    def test_averages(self):
        curve = Curve(*THREE)
        edges = [0.0, 0.3, 1.0, 1.7, 2.0]
        due = [(curve.primitive(b) - curve.primitive(a)) / (b - a) for a, b in zip(edges, edges[1:])]
        self.assertEqual(bits(curve.averages(edges)), bits(due))
        self.assertEqual(curve.averages((0, 1, 2)), [1.0, 3.0])
        self.assertEqual((curve.averages([1.0]), curve.averages(array("d", [0, 2]))), ([], array("d", [2.0])))

    def test_edges_that_do_not_rise(self):
        curve = Curve(*THREE)
        self.refused(18, 2, curve.averages, [0, 1, 1, 2])
        with self.assertRaisesRegex(ValueError, "no edges"):
            curve.averages([])
        self.refused(12, 1, curve.averages, [0, math.nan, 1])
        self.refused(13, 2, curve.averages, [0, 1, 3])

    def test_a_month_keeps_its_average(self):
        """October's 31 days average what October traded at, to a few roundings."""
        knots, averages = [0, 31, 61, 92, 123, 151, 182], [0, 29.40, 31.10, 32.85, 33.60, 32.20, 29.90]
        days = Curve(knots, averages).averages(range(183))
        for a, b, traded in zip(knots, knots[1:], averages[1:]):
            self.assertAlmostEqual(math.fsum(days[a:b]) / (b - a), traded, 11)

    def test_threads_share_a_curve(self):
        curve = Curve(*drawn(1, 400))
        xs = array("d", [curve.knots[-1] * k / 20000 for k in range(20000)])
        due = bits(curve.values(xs))
        with ThreadPoolExecutor(4) as pool:
            for told in pool.map(lambda _: bits(curve.values(xs)), range(12)):
                self.assertEqual(told, due)


class Sections(unittest.TestCase):
    def test_a_section_answers_at_its_right_knot(self):
        curve = Curve(*THREE)
        first = curve.sections[0]
        self.assertEqual((first.x_prev, first.x_next, first.f_next), (0.0, 1.0, 2.0))
        self.assertEqual((first.value(1.0), first.primitive(1.0), first.value(0.5)), (2.0, 1.0, 0.875))
        self.assertEqual((first.kind, first.parts, first.split, len(first.slots)), ("Quadratic", ("Quadratic",), False, SLOTS))
        self.assertIs(curve.sections, curve.sections)

    def test_a_section_answers_as_the_curve(self):
        kinds, splits = set(), 0
        for seed in range(60):
            knots, averages = drawn(seed, 12)
            if seed % 3 == 0:
                averages = [average - 20.0 for average in averages]
            curve = Curve(knots, averages, Method((seed % 4) / 3, (seed % 5) / 4, seed % 2 == 0))
            for section in curve.sections:
                kinds.add(section.kind)
                splits += section.split
                for k in range(8):
                    x = section.x_prev + (section.x_next - section.x_prev) * k / 8
                    self.assertEqual(bits([section.value(x), section.primitive(x)]), bits([curve.value(x), curve.primitive(x)]))
        for kind in ("Quadratic", "QuadraticMin", "ConvexMonotone2", "QuadraticMin + ConvexMonotone4Min"):
            self.assertIn(kind, kinds)
        self.assertGreater(splits, 0)

    def test_every_tag_has_its_words(self):
        names = {
            0x0100: ("EverywhereConstant", False),
            0x0200: ("ConstantGrad", False),
            0x0300: ("ConvexMonotone2", False),
            0x0400: ("ConvexMonotone3", False),
            0x0500: ("ConvexMonotone4", False),
            0x0600: ("ConvexMonotone4Min", False),
            0x0680: ("ConvexMonotone4Min", True),
            0x2000: ("Quadratic", False),
            0x4000: ("QuadraticMin", False),
            0x5000: ("QuadraticMin", True),
            0x5680: ("QuadraticMin + ConvexMonotone4Min", True),
            0x2300: ("Quadratic + ConvexMonotone2", False),
        }
        for tag, due in names.items():
            section = havgrunel.Section(tag, (0.0,) * SLOTS, 0.0, 1.0)
            self.assertEqual((section.kind, section.split), due)
            # Refused by 21 where zeros alone are divided by each other, and by nothing else.
            marked(section.value, 0.5)

    def test_a_tag_that_is_none(self):
        with self.assertRaises(Refused) as caught:
            havgrunel.Section(0xFFFF, (0.0,) * SLOTS, 0.0, 1.0).value(0.5)
        self.assertEqual((caught.exception.number, caught.exception.name), (15, "RECORD_NOT_LEGAL"))

    def test_a_section_needs_its_fields_alone(self):
        """What a record adds to them is not read by the formulas, and a section of the fields alone answers."""
        for section in Curve(*FALLING, Method.gas()).sections:
            alone = havgrunel.Section(section.tag, section.slots[:FIELDS], section.x_prev, section.x_next)
            self.assertEqual((alone.value(1.5), alone.primitive(1.5), alone.f_next), (section.value(1.5), section.primitive(1.5), section.f_next))

    def test_equal_where_the_bits_are(self):
        """One without a price at a knot too, which is no number there."""
        first, second = (Curve(*FREE, Method.gas()).sections for _ in "12")
        self.assertTrue(math.isnan(first[1].left_price))
        self.assertEqual((first, len({*first, *second})), (second, 3))
        self.assertEqual(pickle.loads(pickle.dumps(first)), first)
        self.assertNotEqual(first[0], first[1])
        self.assertNotEqual(first[0], first[0].slots)

    def test_any_nan_equals_any(self):
        section = Curve(*FREE, Method.gas()).sections[1]
        other = havgrunel.Section(section.tag, tuple(-x if x != x else x for x in section.slots), section.x_prev, section.x_next)
        self.assertNotEqual(bits(section.slots), bits(other.slots))
        self.assertEqual((section, hash(section)), (other, hash(other)))


class KnotPrices(unittest.TestCase):
    """What a record has besides its section's fields: the prices at its two knots and the total after it."""

    def hold(self, curve):
        """They are what the section answers, and not finite where it refuses to; the totals are the table's own, and a tail after a shaped period has the
        last price and total."""
        total = 0.0
        for section, average in zip(curve.sections, curve.traded[1:]):
            total += average * (section.x_next - section.x_prev)
            told = section.left_price, section.right_price, section.total
            self.assertEqual((len(section.slots), bits(section.slots[FIELDS:])), (SLOTS, bits(told)))
            for price, x in zip(told, (section.x_prev, section.x_next)):
                answered = marked(section.value, x)
                self.assertEqual(math.isfinite(price), answered is not NOT_FINITE)
                self.same((price,), (price if answered is NOT_FINITE else answered,))
            self.same((section.total,), (total,))
        if not curve.hold and len(curve.sections) > 1:
            self.same(curve.tail[:2], (curve.sections[-1].right_price, total))

    def same(self, *told):
        """The same bits; a NaN is any other."""
        one, other = (bits(math.nan if x != x else x for x in numbers) for numbers in told)
        self.assertEqual(one, other)

    def methods(self):
        for quadraticity in 0.0, 0.3, 1.0:
            yield Method(quadraticity, 0.7, False)
            for split in "original", "careful", "safe":
                yield Method(quadraticity, 0.7, True, split)

    def test_shaped_and_held(self):
        for seed in range(20):
            for method in self.methods():
                for hold in False, True:
                    self.hold(Curve(*drawn(seed, 12), method, hold=hold))

    def test_two_points(self):
        for method in self.methods():
            for hold in False, True:
                curve = Curve([1, 3], [9, 2.5], method, hold=hold)
                self.hold(curve)
                self.assertEqual(curve.sections[0].slots[FIELDS:], (2.5, 2.5, 5.0))

    def test_splits(self):
        """The month whose split costs it its average ends below the node, and the next one starts on it and at the traded total all the same."""
        for split, right in ("original", 0.9062), ("careful", 4.0), ("safe", 4.0):
            curve = Curve(*FALLING, Method.gas(quadraticity=0, split=split))
            self.hold(curve)
            first, second = curve.sections[:2]
            self.assertEqual((first.split, round(first.right_price, 4), second.left_price, first.total), (split == "original", right, 4.0, 5.0))
            self.assertEqual(second.primitive(1.0), 5.0)

    def test_the_next_section_starts_at_the_total(self):
        """To the bit where the next one is of one kind. Where two are weighed the weights round."""
        for seed in range(20):
            for method in self.methods():
                curve = Curve(*drawn(seed, 12), method)
                for before, after in zip(curve.sections, curve.sections[1:]):
                    start = curve.primitive(after.x_prev)
                    self.assertLessEqual(abs(start - before.total), 0.0 if len(after.parts) == 1 else 2 * math.ulp(start))

    def test_grown_and_in_sheets(self):
        knots, averages = drawn(7, 12)
        for method in self.methods():
            grown = Curve.first_window(knots[:4], averages[:4], 3, len(knots), method)
            self.hold(grown)
            for size in range(5, len(knots) + 1):
                grown = grown.grow(knots[:size], averages[:size], 3, len(knots))
                self.hold(grown)
            self.assertFalse(grown.hold)
            self.hold(Curve.in_sheets(knots, averages, [3, 7], method))
            self.hold(Curve(knots, averages, method, seam=(2, 40.0)))

    def test_no_number(self):
        """An hour at exactly 0 with positivity has no price at its knots but by the safe split; its total is the table's."""
        for method in self.methods():
            curve = Curve(*FREE, method)
            self.hold(curve)
            middle = curve.sections[1]
            missing = method.positivity and method.split != "safe" and (method.split, method.quadraticity) != ("careful", 1.0)
            self.assertEqual((math.isnan(middle.left_price), middle.total), (missing, 2.0))
        curve = Curve(*FREE, Method.gas(split="safe"))
        self.assertEqual([section.slots[FIELDS:] for section in curve.sections], [(2.5, 1.0, 2.0), (0.0, 0.0, 2.0), (1.0, 2.5, 4.0)])

    def test_infinite(self):
        curve = Curve([0, 10, 20], [0, 1e308, 1e308], Method(0.3, 0.7, False))
        self.assertEqual([section.total for section in curve.sections], [math.inf, math.inf])

    def test_they_cannot_be_written(self):
        section = Curve(*THREE).sections[0]
        for name in "left_price", "right_price", "total":
            with self.assertRaises(AttributeError):
                setattr(section, name, 1.0)


class Splits(unittest.TestCase):
    """The careful split beside the original one."""

    def held(self, curve):
        return [(s.primitive(s.x_next) - s.primitive(s.x_prev)) / (s.x_next - s.x_prev) for s in curve.sections]

    def test_the_falling_month(self):
        original, careful = (Curve(*FALLING, Method.gas(quadraticity=0.0, split=split)) for split in ("original", "careful"))
        self.assertEqual((original.nodes[1:3], careful.nodes), (array("d", [4.0, 1.0]), original.nodes))
        self.assertEqual([s.kind for s in careful.sections], [s.kind for s in original.sections])
        self.assertEqual(([s.split for s in original.sections[:2]], [s.split for s in careful.sections[:2]]), ([True, True], [False, False]))
        self.assertEqual((original.value(1.75), careful.value(1.75)), (1.5625, 2.3125))
        for curve, due in (original, [2.8796, 2.3333, 0.5]), (careful, [5.0, 3.0, 0.5]):
            self.assertEqual([round(held, 4) for held in self.held(curve)], due)

    def test_a_split_that_is_needed_is_the_same(self):
        """A period from 4 to 4 that averages 1 falls below 0. Both split it, to the same section."""
        table = [0.0, 1.0, 2.0, 3.0], [0.0, 7.0, 1.0, 7.0]
        for quadraticity in 0.0, 0.3, 1.0:
            original, careful = (Curve(*table, Method.gas(quadraticity=quadraticity, split=split)).sections[1] for split in ("original", "careful"))
            self.assertEqual((original, original.split), (careful, True))

    def test_a_curve_that_nothing_splits_is_the_same(self):
        for seed in range(40):
            table, quadraticity, monotonicity = drawn(seed, 12), (seed % 4) / 4, (seed % 5) / 5
            plain, original, careful = (Curve(*table, Method(quadraticity, monotonicity, *more)) for more in ((False, "careful"), (True,), (True, "careful")))
            self.assertEqual(bits(plain._slots), bits(Curve(*table, Method(quadraticity, monotonicity, False))._slots))
            self.assertEqual(bits(original.nodes), bits(careful.nodes))
            for one, other in zip(original.sections, careful.sections):
                self.assertTrue(one.split or bits(one.slots) == bits(other.slots))
                self.assertFalse(other.split and not one.split)
                self.assertEqual(one.kind, other.kind)

    def test_averages_that_are_kept(self):
        for seed in range(200):
            knots, averages = drawn(seed, 12)
            curve = Curve(knots, averages, Method(0.0, (seed % 10) / 10, True, "careful"))
            for held, traded in zip(self.held(curve), averages[1:]):
                self.assertAlmostEqual(held, traded, delta=1e-9 * max(averages))
            self.assertGreaterEqual(min(curve.values([knots[-1] * k / 500 for k in range(500)])), -1e-9 * max(averages))

    def test_the_cheap_first_month_is_not_cured(self):
        """The end node is at 0, rounding fails the second test, and neither mode splits."""
        table = [0, 28, 56, 85], [0, 0.62, 59.03, 47.69]
        for quadraticity in 0.3, 1.0:
            original, careful = (Curve(*table, Method.gas(quadraticity=quadraticity, split=split)) for split in ("original", "careful"))
            self.assertEqual(original.sections, careful.sections)
            self.assertLess(careful.value(9), -2.7)

    def test_a_convex_monotone_split_is_the_same(self):
        """An average below 0: the careful split leaves the parabola whole and changes no convex monotone piece."""
        table = [0.0, 1.0, 2.0, 3.0], [0.0, 3.0, -1.0, 3.0]
        for quadraticity in 0.0, 0.3:
            original, careful = (Curve(*table, Method.gas(quadraticity=quadraticity, split=split)).sections[1] for split in ("original", "careful"))
            self.assertTrue(original.tag & careful.tag & 1 << 7)
            # The slots behind the weight and the parabola's twelve are those of the other part.
            self.assertEqual(bits(original.slots[13:FIELDS]), bits(careful.slots[13:FIELDS]))
            self.assertEqual((bool(original.tag & 1 << 12), bool(careful.tag & 1 << 12)), (quadraticity > 0, False))

    def test_growth_and_sheets_keep_the_mode(self):
        method = Method.gas(quadraticity=0.0, split="careful")
        for seed in range(10):
            knots, averages = drawn(seed, 30)
            whole = Curve(knots, averages, method)
            for cuts in ((), (10, 20), range(1, 30)):
                parts = Curve.in_sheets(knots, averages, cuts, method)
                self.assertEqual((parts.method, bits(parts.nodes), parts.tail), (method, bits(whole.nodes), whole.tail))
                self.assertEqual(pickle.dumps(parts.sections), pickle.dumps(whole.sections))
        grown = Curve.first_window(FALLING[0][:3], FALLING[1][:3], 2, 4, method)
        self.assertEqual(grown.sections, Curve(FALLING[0][:3], FALLING[1][:3], method, hold=True).sections)
        grown = grown.grow(*FALLING, 2, 4)
        self.assertEqual((grown.method, [s.split for s in grown.sections[:2]]), (method, [False, False]))
        other = Curve.first_window(FALLING[0][:3], FALLING[1][:3], 2, 4, Method.gas(quadraticity=0.0)).grow(*FALLING, 2, 4)
        self.assertEqual([s.split for s in other.sections[:2]], [True, True])


class Growing(Refusing):
    def part(self, count):
        return GROWING[0][:count], GROWING[1][:count]

    def test_growth(self):
        first = Curve.first_window(*self.part(3), 2, 5)
        alone = Curve(*self.part(3), hold=True)
        self.assertEqual((first.nodes, first.sections, first.tail, first.hold), (alone.nodes, alone.sections, alone.tail, True))
        second = first.grow(*self.part(4), 2, 5)
        seamed = Curve(*self.part(4), hold=True, seam=(1, first.sections[0].f_next))
        self.assertEqual((second.nodes, second.sections, second.tail), (seamed.nodes, seamed.sections, seamed.tail))
        self.assertEqual(second.sections[0], first.sections[0])
        third = second.grow(*self.part(5), 2, 5)
        self.assertEqual((third.hold, third.sections[:2], third.method), (False, second.sections[:2], Method()))

    def test_growth_is_refused(self):
        self.refused(9, None, Curve.first_window, *self.part(4), 2, 5)
        first = Curve.first_window(*self.part(3), 2, 5)
        self.refused(7, 3, first.grow, [0, 1, 2.5, 2.5], [0, 1, 3, 2], 2, 5)
        with self.assertRaisesRegex(ValueError, "the localisation is -1"):
            first.grow(*self.part(4), -1, 5)
        with self.assertRaisesRegex(TypeError, "the final size is 5.5"):
            first.grow(*self.part(4), 2, 5.5)


class InSheets(Refusing):
    def test_sheets_make_the_same_curve(self):
        for seed in range(10):
            knots, averages = drawn(seed, 30)
            whole = Curve(knots, averages)
            for cuts in ((), (1,), (10, 20), range(1, 30), array("l", [29])):
                parts = Curve.in_sheets(knots, averages, cuts)
                self.assertEqual((bits(parts.nodes), parts.tail), (bits(whole.nodes), whole.tail))
                self.assertEqual(pickle.dumps(parts.sections), pickle.dumps(whole.sections))

    def test_cuts_that_are_none(self):
        for cuts, index in (((0,), 0), ((1, 1), 1), ((1, 2, 4), 2), ((-1,), 0), ((2**64 + 1,), 0), ((3, 2), 1)):
            self.refused(28, index, Curve.in_sheets, *GROWING, cuts)
        with self.assertRaisesRegex(TypeError, "cuts: entry 1 is 1.5"):
            Curve.in_sheets(*GROWING, [1, 1.5])


class Objects(unittest.TestCase):
    def test_pickle_and_copy(self):
        curve = Curve(*drawn(5, 40), Method(0.2, 0.9, False, "careful"), hold=True, extrapolate=True)
        for other in (pickle.loads(pickle.dumps(curve)), copy.copy(curve), copy.deepcopy(curve)):
            self.assertEqual((other.knots, other.traded, other.nodes), (curve.knots, curve.traded, curve.nodes))
            self.assertEqual((other.tail, other.method, other.hold, other.extrapolate), (curve.tail, curve.method, True, True))
            self.assertEqual(other.sections, curve.sections)
            self.assertEqual(other.values([-1.0, 3.0, 1e6]), curve.values([-1.0, 3.0, 1e6]))

    def test_a_curve_that_was_pickled_with_shorter_records(self):
        curve = Curve(*THREE)
        again, (*parts,) = curve.__reduce__()
        parts[5] = parts[5][: 2 * FIELDS]
        with self.assertRaisesRegex(ValueError, "the curve was pickled with 24 slots to a record, and there are 27 now: build it again"):
            again(*parts)

    def test_a_method_that_was_pickled_before_there_was_a_split(self):
        method = Method(0.2, 0.9, False)
        old = Method.__new__(Method)
        old.__dict__.update({name: value for name, value in vars(method).items() if name != "split"})
        self.assertEqual((old, old.split), (method, "original"))

    def test_a_refusal_is_pickled(self):
        refusal = pickle.loads(pickle.dumps(Refused(13, 4)))
        self.assertEqual((refusal.number, refusal.index, refusal.name), (13, 4, "QUERY_OUTSIDE"))
        self.assertEqual(str(refusal), "the point that is asked for lies outside the knots, and extrapolation is off (refusal 13, index 4)")
        self.assertEqual(str(Refused(4)), "there are fewer than two knots (refusal 4)")
        self.assertIsInstance(refusal, ValueError)

    def test_repr(self):
        self.assertEqual(repr(Curve(*THREE)), "<Curve of 2 periods from 0 to 2, quadraticity 0, monotonicity 1, positivity off>")
        careful = Curve(*FALLING, Method.gas(split="careful"))
        self.assertEqual(repr(careful), "<Curve of 3 periods from 0 to 2.25, quadraticity 0.3, monotonicity 0.7, positivity on, careful split>")

    def test_a_curve_does_not_change(self):
        curve = Curve(*THREE)
        for name in ("knots", "traded", "nodes", "tail", "method", "hold", "extrapolate", "sections", "more"):
            with self.assertRaises(AttributeError):
                setattr(curve, name, None)

    def test_sqrt(self):
        self.assertEqual((havgrunel.sqrt(2), havgrunel.sqrt(2.25), math.isnan(havgrunel.sqrt(-1.0))), (math.sqrt(2), 1.5, True))
        for seed in range(500):
            (x,) = struct.unpack("<d", random.Random(seed).getrandbits(63).to_bytes(8, "little"))
            if x == x:
                self.assertEqual(bits([havgrunel.sqrt(x)]), bits([math.sqrt(x)]))


if __name__ == "__main__":
    unittest.main()
