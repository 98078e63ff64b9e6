"""Strips of a curve: single ones, many at once, runs of adjoining ones, and those by two entries of a column."""

import copy
import ctypes
import math
import os
import pickle
import random
import unittest
from array import array

from havgrunel import MOST_POINTS, SLOTS, Curve, Method, Refused
from havgrunel._library import load
from havgrunel.answers import curve_of
from havgrunel.curve import SPLITS
from havgrunel.finite import NOT_FINITE, all_marked
from havgrunel.text import read_order
from runs import HOME, example
from test_curve import FALLING, FREE, GROWING, THREE, Refusing, bits, drawn
from test_knots import kinds, tenths

NAN = math.nan


def by_two_totals(curve, a, b):
    """The formula: two totals, and three steps that are rounded once each."""
    return (curve.primitive(b) - curve.primitive(a)) / (b - a)


def both(told):
    """What a call for many answers: the refusal, and the first that is refused."""
    return told.refusal, told.query


def grown(knots, averages, window, method, **more):
    """The curve that grows to the whole table, and whose last period is held, since the final size lies beyond it."""
    curve = Curve.first_window(knots[: window + 1], averages[: window + 1], window, len(knots) + 1, method, **more)
    for size in range(window + 2, len(knots) + 1):
        curve = curve.grow(knots[:size], averages[:size], window, len(knots) + 1)
    return curve


def drawn_curves(seed, count):
    """Curves of every kind, each with its column: two points and many, held and not, grown, of all splits, with points outside answered or not."""
    draw = random.Random(seed)
    for k in range(count):
        knots, averages = drawn(draw.random(), draw.choice([1, 2, 3, 7, 24]))
        method = Method(draw.choice([0.0, 0.3, 1.0]), draw.choice([0.0, 0.7, 0.99]), draw.random() < 0.7, SPLITS[k % 3])
        more = {"extrapolate": draw.random() < 0.5, "column": True}
        if len(knots) > 3 and draw.random() < 0.3:
            yield grown(knots, averages, draw.choice([2, 3]), method, **more)
        else:
            yield Curve(knots, averages, method, hold=draw.random() < 0.3, **more)


def drawn_strips(draw, curve, count):
    """Strips of a curve: ends at knots, between them and, where they are answered, outside."""
    first, last = curve.knots[0], curve.knots[-1]
    reach = (last - first) / 4 if curve.extrapolate else 0.0
    found = []
    while len(found) < count:
        a, b = sorted(draw.choice([draw.choice(curve.knots), draw.uniform(first - reach, last + reach)]) for _ in "ab")
        if a < b:
            found.append((a, b))
    return found


class Strips(Refusing):
    def test_a_strip_is_the_formula(self):
        """Ten thousand drawn strips, single ones and many at once."""
        draw, seen, kinds = random.Random(101), 0, set()
        for curve in drawn_curves(101, 400):
            strips = drawn_strips(draw, curve, 25)
            due = bits([by_two_totals(curve, a, b) for a, b in strips])
            self.assertEqual(bits([curve.strip(a, b) for a, b in strips]), due)
            self.assertEqual(bits(curve.strips([a for a, _ in strips], [b for _, b in strips])), due)
            kinds.add((len(curve.sections) == 1, curve.hold, curve.extrapolate, curve.method.split, any(section.split for section in curve.sections)))
            seen += len(strips)
        self.assertEqual(seen, 10000)
        for k, choices in enumerate([{True, False}] * 3 + [set(SPLITS), {True, False}]):
            self.assertEqual({kind[k] for kind in kinds}, choices)

    def test_a_run_is_its_strips(self):
        draw = random.Random(102)
        for curve in drawn_curves(102, 200):
            edges = sorted({x for strip in drawn_strips(draw, curve, 20) for x in strip})
            due = bits([curve.strip(a, b) for a, b in zip(edges, edges[1:])])
            self.assertEqual(bits(curve.averages(edges)), due)
            self.assertEqual(bits(curve.strips(edges[:-1], edges[1:])), due)

    def test_numbers_by_hand(self):
        curve = Curve(*THREE)
        self.assertEqual((curve.strip(0, 1), curve.strip(1, 2), curve.strip(0, 2)), (1.0, 3.0, 2.0))
        self.assertEqual((curve.strips([0, 0], [1, 2]), curve.strips([], [])), ([1.0, 2.0], []))
        # The price goes on at 3.5 beyond the last knot, where the total is 4.
        self.assertEqual(curve.with_extrapolation().strip(0, 4), (4.0 + 2 * 3.5) / 4)
        # By its own formula carried on the first section is at 2.0 one before its first knot.
        self.assertEqual(curve.with_extrapolation().strip(-1, 0), -curve.with_extrapolation().primitive(-1))

    def test_as_the_kind_that_goes_in(self):
        curve = Curve(*THREE)
        self.assertEqual(curve.strips(array("d", [0, 1]), (1, 2)), array("d", [1.0, 3.0]))
        self.assertEqual(curve.strips(range(2), memoryview(array("f", [1, 2]))), [1.0, 3.0])
        with self.assertRaisesRegex(TypeError, "ends: entry 1 is '2', which is not a number"):
            curve.strips([0, 1], [1, "2"])
        with self.assertRaisesRegex(TypeError, "^a is None, which is not a number"):
            curve.strip(None, 1)

    def test_a_strip_without_a_number(self):
        """The total up to the hour that traded at 0 is no number there, so no strip from or to that knot is one. The column has it as it is."""
        curve = Curve(*FREE, Method.gas(), column=True)
        self.refused(21, None, curve.primitive, 1)
        for ends in (0, 1), (1, 2):
            self.refused(21, None, curve.strip, *ends)
            self.refused(21, None, curve.strip_between, *ends)
            self.refused(21, 0, curve.averages, [1, 2])
        self.refused(21, 1, curve.averages, [0, 1, 2])
        self.refused(21, 1, curve.strips, [0, 0, 1], [2, 1, 2])
        self.assertTrue(math.isnan(curve.column[1]))
        self.assertEqual((curve.strip(0, 2), curve.strip_between(0, 2), curve.strips([0, 0.5], [2, 1.5])[0]), (1.0, 1.0, 1.0))


class Refusals(Refusing):
    def test_the_order(self):
        """The reasons of the first end, then those of the second, then that they do not rise."""
        curve = Curve(*THREE)
        for number, a, b in (
            (12, NAN, 5),
            (13, 5, NAN),
            (12, 1, NAN),
            (13, 1, 5),
            (13, -1, -2),
            (18, 1, 0),
            (18, 1, 1),
            (18, 0.0, -0.0),
        ):
            with self.subTest(a=a, b=b):
                self.refused(number, None, curve.strip, a, b)
                self.refused(number, 0, curve.strips, [a], [b])
                self.refused(number, 1, curve.strips, [0, a, NAN], [1, b, 1])
        self.refused(18, None, curve.with_extrapolation().strip, 9, 8)
        self.refused(12, None, curve.with_extrapolation().strip, 9, NAN)
        self.assertEqual(str(Refused(18)), "the strip's first end is not below its second, or a place is past the last knot (refusal 18)")
        self.assertEqual(Refused(18).name, "STRIP_ENDS_NOT_RISING")

    def test_starts_and_ends_of_different_numbers(self):
        curve = Curve(*THREE)
        for starts, ends in (([0, NAN], [1]), ([], [1]), ([5], [])):
            self.refused(1, None, curve.strips, starts, ends)

    def test_the_edge_to_blame(self):
        curve = Curve(*THREE)
        for number, index, edges in (
            (13, 0, [-1, 1]),
            (12, 0, [NAN, NAN, 1]),
            (13, 1, [0, 3]),
            (18, 1, [1, 0, NAN]),
            (18, 2, [0, 1, 1, 2]),
            (12, 3, [0, 1, 2, NAN, -1]),
        ):
            with self.subTest(edges=edges):
                self.refused(number, index, curve.averages, edges)

    def test_the_first_that_is_refused(self):
        curve, draw = Curve(*THREE), random.Random(103)
        for count in 1, 2, 3, 64, 1000:
            for at in {0, count // 2, count - 1}:
                starts, ends = zip(*drawn_strips(draw, curve, count))
                bad = draw.choice([-1.0, NAN])
                number = 13 if bad == -1.0 else 12
                later = [draw.choice([x, bad]) for x in ends[at + 1 :]]
                self.refused(number, at, curve.strips, starts, [*ends[:at], bad, *later])
                edges = array("d", sorted(draw.uniform(0, 2) for _ in range(count)))
                edges[at] = bad
                if count > 1:
                    self.refused(number, at, curve.averages, edges)

    def test_nothing_to_ask(self):
        """A single edge has no strip, and is not asked itself."""
        self.assertEqual(Curve(*THREE).averages([NAN]), [])


class Columns(Refusing):
    def test_a_column_has_the_totals_at_the_knots(self):
        for curve in drawn_curves(104, 200):
            wide = curve.with_extrapolation(not curve.extrapolate)
            for one in curve, wide:
                self.assertEqual(bits(one.column), bits(one.primitives(one.knots)))
                self.assertEqual(bits(one.column), bits(one.total_at(i) for i in range(len(one.knots))))

    def test_by_places_it_is_the_strip_between_the_knots(self):
        seen = set()
        for curve in drawn_curves(105, 150):
            knots = curve.knots
            places = [(i, j) for j in range(len(knots)) for i in range(j)]
            for one in curve, curve.with_extrapolation(not curve.extrapolate):
                told = [one.strip_between(i, j) for i, j in places]
                self.assertEqual(bits(told), bits([one.strip(knots[i], knots[j]) for i, j in places]))
            seen.add((len(knots) == 2, curve.hold, curve.method.split))
        self.assertEqual(len(seen), 12)

    def test_the_curve_is_the_same_with_and_without(self):
        for split in SPLITS:
            plain, beside = (Curve(*FALLING, Method.gas(split=split), column=column) for column in (False, True))
            self.assertEqual((plain.nodes, plain.sections, plain.tail), (beside.nodes, beside.sections, beside.tail))
            self.assertEqual((plain.column, beside.column.tolist()), (None, beside.primitives(FALLING[0])))

    def test_without_a_column(self):
        for curve in Curve(*THREE), Curve.in_sheets(*THREE[:2], [1]), Curve(*THREE, column=True).grow([0, 1, 2, 3], [0, 1, 3, 3], 2, 9, column=False):
            self.assertIsNone(curve.column)
            self.refused(11, None, curve.strip_between, 0, 1)
            self.refused(11, None, curve.strip_between, 5, 1)

    def test_places_that_are_none(self):
        curve = Curve(*THREE, column=True)
        self.assertEqual((curve.strip_between(0, 1), curve.strip_between(1, 2), curve.strip_between(0, 2)), (1.0, 3.0, 2.0))
        for i, j in (1, 1), (2, 1), (0, 3), (3, 4), (0, 2**63 - 1), (2**63 - 1, 2**63 - 1):
            self.refused(18, None, curve.strip_between, i, j)
        with self.assertRaisesRegex(ValueError, "the first place is -1, and counts go from 0"):
            curve.strip_between(-1, 1)
        with self.assertRaisesRegex(TypeError, "the second place is 1.5, which is not a whole number"):
            curve.strip_between(0, 1.5)

    def test_a_column_is_a_copy(self):
        curve = Curve(*THREE, column=True)
        curve.column[1] = 77.0
        self.assertEqual(curve.column.tolist(), [0.0, 1.0, 4.0])
        with self.assertRaises(AttributeError):
            curve.column = None

    def test_a_column_goes_along(self):
        """With a growing table, with extrapolation, and with a pickle or a copy."""
        curve = grown(*GROWING, 2, Method(), column=True)
        self.assertEqual(bits(curve.column), bits(curve.primitives(GROWING[0])))
        self.assertIsNone(grown(*GROWING, 2, Method()).column)
        first = Curve.first_window(GROWING[0][:3], GROWING[1][:3], 2, 5)
        self.assertEqual(len(first.grow(GROWING[0][:4], GROWING[1][:4], 2, 5, column=True).column), 4)
        for other in pickle.loads(pickle.dumps(curve)), copy.copy(curve), copy.deepcopy(curve), curve.with_extrapolation():
            self.assertEqual((other.column, other.strip_between(0, 4)), (curve.column, curve.strip(0, 5)))

    def test_a_curve_that_was_pickled_before_there_were_columns(self):
        again, (*parts,) = Curve(*THREE).__reduce__()
        self.assertIsNone(again(*parts[:-1]).column)

    def test_refused_tables(self):
        self.refused(7, 2, Curve, [0, 1, 1], [0, 1, 3], column=True)
        self.refused(4, None, Curve, [], [], column=True)
        self.refused(10, None, Curve, range(MOST_POINTS + 1), range(MOST_POINTS + 1), column=True)
        self.refused(9, None, Curve.first_window, *GROWING, 2, 5, column=True)
        longest = Curve(range(MOST_POINTS), range(MOST_POINTS), column=True)
        self.assertEqual(longest.strip_between(0, MOST_POINTS - 1), longest.strip(0, MOST_POINTS - 1))


class ThePage(unittest.TestCase):
    """What docs/SHAPES.md says of strips, of tables that are drawn here: all of them with the safe split at quadraticity 0.3, and a few with the other
    splits and quadraticities."""

    FEW = 60

    @classmethod
    def setUpClass(cls):
        with open(os.path.join(HOME, "docs", "SHAPES.md"), encoding="utf-8") as file:
            cls.part = " ".join(file.read().partition("## One price from day to day\n")[2].partition("\n## ")[0].split())
        cls.draw, cls.kinds = staticmethod(kinds()[0]), kinds()[1]

    def methods(self):
        """Each method with the part of a full draw that it is tried on."""
        for split in SPLITS:
            for quadraticity in 0.0, 0.3, 1.0:
                yield Method(quadraticity, 0.7, True, split), 1.0 if (split, quadraticity) == ("safe", 0.3) else self.FEW / 2500

    def tables(self, what, kind, count):
        """Drawn tables, with the source that drew them."""
        source = random.Random(f"{what} {kind}")
        for _ in range(int(count)):
            yield self.draw(source, self.kinds[kind]), source

    def test_a_whole_period(self):
        """It is worth what it traded at, and no less where it has lost its average."""
        most, lost, missing = 0.0, 0, set()
        for method, part in self.methods():
            for kind in self.kinds:
                for (knots, averages), _ in self.tables("strips", kind, 2500 * part):
                    curve = Curve(knots, averages, method)
                    for k, (strip, traded) in enumerate(zip(all_marked(curve.strips, knots[:-1], knots[1:]), averages[1:])):
                        if strip is NOT_FINITE:
                            self.assertTrue(0.0 in averages[k + 1 : k + 3], (knots, averages))
                            missing.add((kind, method.split))
                            continue
                        most = max(most, abs(strip - traded) / max(averages))
                        if method.split == "original" and method.quadraticity == 0:
                            section = curve.sections[k]
                            held = (section.primitive(knots[k + 1]) - section.primitive(knots[k])) / (knots[k + 1] - knots[k])
                            lost += abs(held - traded) > 1e-3 * traded
        self.assertIn("further from the period's average than 3e-15 of the table's highest", self.part)
        self.assertTrue(2e-15 < most < 3e-15, most)
        self.assertGreater(lost, self.FEW)
        self.assertEqual(missing, {("free", "original"), ("free", "careful")})

    def test_a_long_table(self):
        source = random.Random(7)
        averages = [0.0, *(round(source.uniform(15, 60), 2) for _ in range(MOST_POINTS - 1))]
        days = Curve(range(MOST_POINTS), averages, Method.gas()).averages(range(MOST_POINTS))
        most = max(abs(day - traded) for day, traded in zip(days, averages[1:])) / max(averages)
        self.assertIn(f"in a table of 4,095 single days it came to {tenths(most)}", self.part)

    def test_a_period_that_lost_its_average(self):
        with open(example("winter-gas-splits.txt"), "rb") as file:
            curve = curve_of(read_order("winter", file.read()))
        first, second, last, whole = (f"{curve.strip(a, b):.4f}" for a, b in ((31, 46), (46, 61), (60, 61), (31, 61)))
        self.assertIn(f"averages {first}, the second {second} and its last day alone {last}, and the whole is {whole}", self.part)

    def test_beside_an_average_below_0(self):
        with open(example("power-negative-positivity.txt"), "rb") as file:
            curve = curve_of(read_order("power", file.read()))
        self.assertIn(f"a strip of {curve.strip(12, 16):.4f}, and the block at 12 before it one of {curve.strip(8, 12):.4f}", self.part)

    def test_half_a_month(self):
        told = []
        for kind in "calm", "wild":
            apart = []
            for (knots, averages), source in self.tables("halves", kind, 10000):
                k = source.randrange(len(knots) - 1)
                half = Curve(knots, averages, Method.gas(split="safe")).strip(knots[k], knots[k] + 15)
                apart.append(abs(half / averages[k + 1] - 1) * 100)
            told.append((sorted(apart)[5000], max(apart)))
        (calm, calm_most), (wild, wild_most) = told
        words = f"lay {calm:.1f} percent of the month's average from it in the median and up to {calm_most:.1f} percent in calm tables"
        self.assertIn(f"{words}, and {wild:.1f} percent and up to {wild_most:.1f} percent in wild ones", self.part)
        level = Curve([0, 30, 60, 90, 120], [0, 20, 20, 20, 20], Method.gas(split="safe"))
        self.assertEqual(level.strip(30, 45), 20.0)

    def test_adjoining_strips(self):
        for method, part in self.methods():
            same, pairs, most = 0, 0, 0.0
            for kind in self.kinds:
                for (knots, averages), source in self.tables("adjoining", kind, 2500 * part):
                    curve = Curve(knots, averages, method)
                    a, m, b = sorted(source.sample(range(int(knots[-1]) + 1), 3))
                    first, second, whole = all_marked(curve.strips, [a, m, a], [m, b, b])
                    if NOT_FINITE not in (first, second, whole):
                        again = (first * (m - a) + second * (b - m)) / (b - a)
                        same, pairs, most = same + (again == whole), pairs + 1, max(most, abs(again - whole) / max(averages))
            if part == 1.0:
                self.assertEqual(pairs, 10000)
                self.assertIn(f"{same:,} gave the very bits of the whole, and the others missed them by up to {tenths(most)}", self.part)
            else:
                self.assertTrue(0 < same < pairs and most < 5e-16, (method, same, pairs, most))

    def test_the_halves_of_a_november(self):
        with open(example("winter-strips.txt"), "rb") as file:
            curve = curve_of(read_order("winter", file.read()))
        first, second, whole = curve.strips([31, 46, 31], [46, 61, 61])
        again = (first * 15 + second * 15) / 30
        self.assertIn(f"{first!r} and {second!r}. Each for 15 days of 30, they come to {again!r}; the strip over November is {whole!r},", self.part)
        self.assertEqual(len({again, whole, 31.85}), 3)


def doubles(*numbers):
    return (ctypes.c_double * len(numbers))(*numbers), len(numbers)


class TheCallsThemselves(unittest.TestCase):
    """What the package never does: buffers that are too short, curves that are none. Every buffer is full of sevens before, and must be so after a
    refusal."""

    MARK = 7.0

    def room(self, points, column, sections=1, tail=3):
        """Buffers for a build with a column."""
        self.buffers = [
            (ctypes.c_double * points)(*[self.MARK] * points),
            (ctypes.c_uint16 * (points - 1))(*[7] * (points - 1)),
            (ctypes.c_double * (SLOTS * (points - 1)))(*[self.MARK] * (SLOTS * (points - 1))),
            (ctypes.c_size_t * sections)(*[7] * sections),
            (ctypes.c_double * tail)(*[self.MARK] * tail),
            (ctypes.c_double * column)(*[self.MARK] * column),
        ]
        return [word for buffer in self.buffers for word in (buffer, len(buffer))]

    def untouched(self):
        return all(entry == 7 for buffer in self.buffers for entry in buffer)

    def test_a_column_that_is_too_short(self):
        table = (*doubles(0, 1, 2), *doubles(0, 1, 3))
        build, grow = load().havgrunel_build_with_column, load().havgrunel_grow_with_column
        alone = 2, 9, False, 0, False, None, 0, None, 0
        for call, words in (build, (False, False, 0, 0.0)), (grow, alone):
            for column in 0, 1, 2:
                self.assertEqual(call(*table, 0.3, 0.7, True, 0, *words, *self.room(3, column)), 11)
                self.assertTrue(self.untouched())
            self.assertEqual(call(*table, 0.3, 0.7, True, 0, *words, *self.room(3, 5)), 0)
            self.assertEqual((self.buffers[5][:3], self.buffers[5][3:]), ([0.0, 1.0, 4.0], [7.0, 7.0]))

    def test_a_column_that_is_too_short_comes_last(self):
        good = {"xs": (0, 1, 2), "ys": (0, 1, 3), "q": 0.3, "m": 0.7, "split": 0, "seam": 1, "room": 3, "sections": 1, "tail": 3}
        for number, fault in (
            (30, {"split": 3}),
            (1, {"ys": (0, 1)}),
            (2, {"m": NAN}),
            (3, {"q": 2.0}),
            (4, {"xs": (0,), "ys": (0,)}),
            (5, {"xs": (0, math.inf, 2)}),
            (6, {"ys": (0, 1, NAN)}),
            (7, {"xs": (0, 1, 1)}),
            (8, {"seam": 2}),
            (29, {"split": 2, "ys": (0, 1, -3)}),
            (11, {"room": 2}),
            (11, {"sections": 0}),
            (11, {"tail": 2}),
            (11, {}),
        ):
            with self.subTest(fault=fault):
                have = {**good, **fault}
                room = self.room(have["room"], 2, have["sections"], have["tail"])
                table = (*doubles(*have["xs"]), *doubles(*have["ys"]), have["q"], have["m"], True, have["split"])
                self.assertEqual(load().havgrunel_build_with_column(*table, False, True, have["seam"], 1.5, *room), number)
                self.assertTrue(self.untouched())

    def test_refusals_of_a_curve(self):
        """Those of the curve itself come before those of a strip's ends, in all three calls, and nothing is written."""
        curve = Curve(*THREE)
        tags, slots = (ctypes.c_uint16 * 2)(*curve._tags), (ctypes.c_double * (2 * SLOTS))(*curve._slots)
        illegal = (ctypes.c_uint16 * 2)(curve._tags[0], 0xFFFF)
        rising = range(MOST_POINTS + 1)
        for number, xs, lent_tags, lent_slots in (
            (4, (0,), tags, len(slots)),
            (5, (0, NAN, 2), tags, len(slots)),
            (7, (0, 1, 1), tags, len(slots)),
            (10, rising, tags, len(slots)),
            (11, (0, 1, 2), tags[:1], len(slots)),
            (11, (0, 1, 2), tags, len(slots) - 1),
            (12, (0, 1, 2), tags, len(slots)),
        ):
            with self.subTest(number=number):
                lent = (ctypes.c_uint16 * len(lent_tags))(*lent_tags)
                asked = (*doubles(*xs), lent, len(lent), slots, lent_slots, *curve.tail, False)
                answers = (ctypes.c_double * 2)(self.MARK, self.MARK)
                self.assertEqual(load().havgrunel_strip(*asked, NAN, 9.0, answers, 2), number)
                self.assertEqual(both(load().havgrunel_strips(*asked, *doubles(NAN, 0), *doubles(9, 1), answers, 2)), (number, 2 if number < 12 else 0))
                self.assertEqual(both(load().havgrunel_strip_run(*asked, *doubles(NAN, 9, 1), answers, 2)), (number, 2 if number < 12 else 0))
                self.assertEqual(answers[:], [self.MARK] * 2)
        asked = (*doubles(0, 1, 2), illegal, 2, slots, len(slots), *curve.tail, False)
        for a, b, number in (0, 0.5, 0), (0.5, 1.5, 15), (1.5, NAN, 15), (1.5, 0, 15), (0, 2, 0), (0.5, 0, 18):
            answers = (ctypes.c_double * 1)(self.MARK)
            self.assertEqual(load().havgrunel_strip(*asked, a, b, answers, 1), number)
            self.assertEqual(answers[0] == self.MARK, number != 0)

    def test_room_for_the_answers(self):
        """It is counted before any strip is looked at; without room the refusal is 11."""
        curve = Curve(*THREE)
        answers = (ctypes.c_double * 3)(*[self.MARK] * 3)
        self.assertEqual(load().havgrunel_strip(*curve._asked, 1.0, 0.0, answers, 0), 11)
        self.assertEqual(both(load().havgrunel_strips(*curve._asked, *doubles(1, 0), *doubles(0, 1), answers, 1)), (11, 2))
        self.assertEqual(both(load().havgrunel_strip_run(*curve._asked, *doubles(1, 0, 2), answers, 1)), (11, 2))
        self.assertEqual(both(load().havgrunel_strips(*curve._asked, *doubles(1, 0), *doubles(1), answers, 0)), (1, 2))
        self.assertEqual(both(load().havgrunel_strips(*curve._asked, *doubles(0, 1), *doubles(1, 0), answers, 3)), (18, 1))
        self.assertEqual(both(load().havgrunel_strip_run(*curve._asked, *doubles(0, 1, 0), answers, 3)), (18, 1))
        self.assertEqual(answers[:], [self.MARK] * 3)
        self.assertEqual(both(load().havgrunel_strip_run(*curve._asked, *doubles(0, 1, 2), answers, 3)), (0, 2))
        self.assertEqual(answers[:], [1.0, 3.0, self.MARK])

    def test_refusals_by_places(self):
        between = load().havgrunel_strip_between
        column = doubles(0, 1, 4)
        for number, xs, totals, i, j in (
            (4, (0,), column, 1, 0),
            (5, (0, math.inf, 1), doubles(0), 1, 0),
            (7, (0, 1, 1), doubles(0), 1, 0),
            (10, range(MOST_POINTS + 1), column, 1, 0),
            (11, (0, 1, 2), doubles(0, 1), 1, 0),
            (18, (0, 1, 2), column, 1, 0),
            (18, (0, 1, 2), column, 0, 3),
            (18, (0, 1, 2), doubles(0, 1, 4, 9, 9), 0, 3),
        ):
            with self.subTest(number=number, i=i, j=j):
                answer = ctypes.c_double(self.MARK)
                self.assertEqual(between(*doubles(*xs), *totals, i, j, ctypes.byref(answer), 1), number)
                self.assertEqual(answer.value, self.MARK)
        answer = ctypes.c_double(self.MARK)
        self.assertEqual(between(*doubles(0, 1, 2), *column, 0, 2, ctypes.byref(answer), 0), 11)
        self.assertEqual((between(*doubles(0, 1, 2), *column, 0, 2, ctypes.byref(answer), 1), answer.value), (0, 2.0))


if __name__ == "__main__":
    unittest.main()
