"""What may be lent as numbers, what comes back, and what is told of the rest. numpy and pandas are tried where they are."""

import ctypes
import datetime
import decimal
import fractions
import math
import unittest
from array import array

from havgrunel import Curve, Method, Refused, _numbers

try:
    import numpy
except ImportError:
    numpy = None
try:
    import pandas
except ImportError:
    pandas = None

KNOTS, AVERAGES = [0.0, 1.0, 2.0], [0.0, 1.0, 3.0]
CURVE = Curve(KNOTS, AVERAGES, Method(0.0, 1.0, False))
# What the curve answers at 0, 1 and 2.
ANSWERS = [0.5, 2.0, 3.5]


class OneNumber(unittest.TestCase):
    def test_what_is_taken(self):
        for half in (0.5, decimal.Decimal("0.5"), fractions.Fraction(1, 2)):
            self.assertEqual(CURVE.value(half), 0.875)
        self.assertEqual((CURVE.value(1), CURVE.value(True), CURVE.primitive(2)), (2.0, 2.0, 4.0))

    def test_what_is_not(self):
        for x, words in (
            ("1", "x is '1', which is not a number"),
            (None, "x is None, which is not a number"),
            (1j, "x is 1j, which is not a number"),
            ([1.0], "x is one number, and this is of the type list, with 1 entries"),
            (datetime.date(2026, 10, 1), "not a number; count in days or hours from the first knot"),
            ("a" * 500, r"x is 'a{36}\.\.\., which"),
        ):
            with self.assertRaisesRegex(TypeError, words):
                CURVE.value(x)
        with self.assertRaisesRegex(OverflowError, "x is too large for a float"):
            CURVE.value(10**400)


class ManyNumbers(unittest.TestCase):
    def test_lists(self):
        for xs in ([0, 1, 2], (0, 1, 2), range(3), [0.0, True, decimal.Decimal(2)], iter([0, 1, 2]), {0: 1, 1: 2, 2: 3}.keys()):
            told = CURVE.values(xs)
            self.assertEqual((type(told), told), (list, ANSWERS))

    def test_arrays(self):
        for code in "bBhHiIlLqQfd":
            told = CURVE.values(array(code, [0, 1, 2]))
            self.assertEqual((type(told), told), (array, array("d", ANSWERS)))

    def test_buffers(self):
        whole = array("d", [0, 9, 1, 9, 2, 9])
        for xs in (memoryview(array("d", [0, 1, 2])), memoryview(array("f", [0, 1, 2])), memoryview(whole)[::2], memoryview(array("d", [0, 1, 2])).toreadonly()):
            self.assertEqual(CURVE.values(xs), array("d", ANSWERS))
        self.assertEqual(CURVE.values(memoryview(array("d", [0, 1, 2]).tobytes()).cast("d")), array("d", ANSWERS))

    def test_doubles_are_read_where_they_are(self):
        xs = array("d", [0, 1, 2])
        self.assertIs(_numbers.many(xs, "xs").buffer, xs)

    def test_doubles_of_ctypes_and_out_of_place(self):
        xs = (ctypes.c_double * 3)(0, 1, 2)
        room = bytearray(b"?") + array("d", [0, 1, 2]).tobytes()
        for form in (xs, memoryview(room)[1:].cast("d")):
            self.assertEqual(CURVE.values(form), array("d", ANSWERS))
            self.assertEqual(CURVE.averages(form), array("d", [1.0, 3.0]))
            self.assertEqual(Curve(form, [0, 1, 3]).knots, array("d", KNOTS))

    def test_a_table_of_every_kind(self):
        for form in (tuple, iter, lambda xs: array("f", xs), lambda xs: memoryview(array("d", xs))):
            self.assertEqual(Curve(form(KNOTS), form(AVERAGES), CURVE.method).nodes.tolist(), ANSWERS)

    def test_what_is_not(self):
        for xs, words in (
            ("012", "xs is of the type str, and a sequence of numbers is meant"),
            (b"01234567", "xs is of the type bytes, .*cast"),
            ({0, 1}, "xs is of the type set"),
            ({0: 1}, "xs is of the type dict"),
            (3, "xs is 3, and a sequence of numbers is meant"),
            (None, "xs is None, and a sequence of numbers is meant"),
            ([0, "1"], "xs: entry 1 is '1', which is not a number"),
            ((0, 1, None), "xs: entry 2 is None, which is not a number"),
            ([0, 1j], "xs: entry 1 is 1j, which is not a number"),
            ([0, [1]], r"xs: entry 1 is \[1\], of the type list, which is not a number"),
            ([datetime.date(2026, 10, 1)], "entry 0 .* count in days or hours from the first knot"),
            (array("u", "ab"), "xs is of the type array and has the format '.', which is none of numbers"),
            (memoryview(b"12345678").cast("B", (2, 4)), "xs has 2 dimensions"),
        ):
            with self.assertRaisesRegex(TypeError, words):
                CURVE.values(xs)
        with self.assertRaisesRegex(OverflowError, "xs: entry 1 is too large for a float"):
            CURVE.values([0, 10**400])
        with self.assertRaisesRegex(TypeError, "averages: entry 1 is 'x'"):
            Curve([0, 1], [0, "x"])


@unittest.skipIf(numpy is None, "there is no numpy for this Python")
class Numpy(unittest.TestCase):
    def test_every_kind_of_number(self):
        kinds = ["f2", "f4", "f8", ">f8", "<f8", ">i4", "longdouble", "i1", "i2", "i4", "i8", "u1", "u2", "u4", "u8", "object"]
        for kind in kinds:
            told = CURVE.values(numpy.array([0, 1, 2], dtype=kind))
            self.assertEqual((type(told), told.dtype, told.tolist()), (numpy.ndarray, numpy.dtype("float64"), ANSWERS), kind)

    def test_doubles_are_read_where_they_are(self):
        xs = numpy.array([0.0, 1.0, 2.0])
        self.assertIs(_numbers.many(xs, "xs").buffer, xs)

    def test_strides_and_what_may_only_be_read(self):
        strided = numpy.array([0.0, 9.0, 1.0, 9.0, 2.0, 9.0])[::2]
        frozen = numpy.array([0.0, 1.0, 2.0])
        frozen.flags.writeable = False
        packed = numpy.zeros(3, dtype=[("a", "u1"), ("b", "f8")])
        packed["b"] = [0, 1, 2]
        for xs in (strided, frozen, numpy.array([2.0, 1.0, 0.0])[::-1], packed["b"]):
            self.assertEqual(CURVE.values(xs).tolist(), ANSWERS)

    def test_a_masked_entry_is_no_number(self):
        with self.assertRaises(Refused) as caught:
            CURVE.values(numpy.ma.array([0.0, 1.0], mask=[False, True]))
        self.assertEqual((caught.exception.number, caught.exception.index), (12, 1))

    def test_averages_are_the_same_bits(self):
        edges = numpy.linspace(0.0, 2.0, 1001)
        told = CURVE.averages(edges)
        self.assertIsInstance(told, numpy.ndarray)
        self.assertEqual(told.tolist(), CURVE.averages(edges.tolist()))
        with self.assertRaises(Refused) as caught:
            CURVE.averages(numpy.array([0.0, 1.0, 1.0]))
        self.assertEqual((caught.exception.number, caught.exception.index), (18, 2))

    def test_strips(self):
        starts, ends = numpy.linspace(0.0, 1.0, 101), numpy.linspace(0.5, 2.0, 101)
        told = CURVE.strips(starts, ends)
        self.assertIsInstance(told, numpy.ndarray)
        self.assertEqual(told.tolist(), CURVE.strips(starts.tolist(), ends.tolist()))
        self.assertEqual(CURVE.strips(starts.tolist(), ends), told.tolist())

    def test_tables_and_single_numbers(self):
        curve = Curve(numpy.array(KNOTS), numpy.array(AVERAGES), CURVE.method)
        self.assertEqual(curve.nodes.tolist(), ANSWERS)
        for half in (numpy.float64(0.5), numpy.float32(0.5), numpy.array(0.5)):
            self.assertEqual(CURVE.value(half), 0.875)
        self.assertEqual(numpy.asarray(curve.nodes).tolist(), ANSWERS)

    def test_none(self):
        self.assertEqual(CURVE.values(numpy.array([])).shape, (0,))

    def test_what_is_not(self):
        for xs, words in (
            (numpy.array(["0"]), "xs holds text, which are not numbers"),
            (numpy.array([1j]), "xs holds complex numbers"),
            (numpy.array(["2026-10-01"], dtype="M8[D]"), "xs holds dates, .*count in days or hours"),
            (numpy.zeros((2, 2)), "xs has 2 dimensions"),
            (numpy.array([0, None]), "xs: entry 1 is None"),
        ):
            with self.assertRaisesRegex(TypeError, words):
                CURVE.values(xs)


@unittest.skipIf(pandas is None, "there is no pandas for this Python")
class Pandas(unittest.TestCase):
    def test_a_series_keeps_its_index(self):
        for kind in ("float64", "int32", "Int64", "Float64"):
            told = CURVE.values(pandas.Series([0, 1, 2], index=list("abc"), dtype=kind))
            self.assertEqual((type(told), told.index.tolist(), told.tolist()), (pandas.Series, list("abc"), ANSWERS))

    def test_averages_have_the_left_edges(self):
        told = CURVE.averages(pandas.Series([0, 1, 2], index=list("abc")))
        self.assertEqual((told.index.tolist(), told.tolist()), (["a", "b"], [1.0, 3.0]))

    def test_strips_have_the_index_of_their_starts(self):
        told = CURVE.strips(pandas.Series([0, 1], index=list("ab")), pandas.Series([1, 2], index=list("xy")))
        self.assertEqual((told.index.tolist(), told.tolist()), (["a", "b"], [1.0, 3.0]))

    def test_a_frame_and_its_columns(self):
        frame = pandas.DataFrame({"knot": KNOTS, "average": AVERAGES})
        curve = Curve(frame["knot"], frame["average"], CURVE.method)
        frame["price"] = curve.values(frame["knot"])
        self.assertEqual(frame["price"].tolist(), ANSWERS)
        with self.assertRaisesRegex(TypeError, "xs has 2 dimensions"):
            CURVE.values(frame)

    def test_what_is_not(self):
        with self.assertRaisesRegex(TypeError, "xs holds dates"):
            CURVE.values(pandas.Series(pandas.date_range("2026-10-01", periods=3)))
        with self.assertRaisesRegex(TypeError, "xs: entry 1 is <NA>"):
            CURVE.values(pandas.Series([0.0, None], dtype="Float64"))
        with self.assertRaises(Refused) as caught:
            CURVE.values(pandas.Series([0.0, math.nan]))
        self.assertEqual((caught.exception.number, caught.exception.index), (12, 1))


if __name__ == "__main__":
    unittest.main()
