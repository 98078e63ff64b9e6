"""What docs/SHAPES.md says of a cheap first or last month and of the three splits, on fewer strips than tools/below-zero draws."""

import importlib.machinery
import importlib.util
import os
import subprocess
import sys
import unittest

from havgrunel import Curve, Method

HOME = os.path.dirname(os.path.dirname(os.path.dirname(os.path.realpath(__file__))))


def tool():
    """tools/below-zero as a module."""
    loader = importlib.machinery.SourceFileLoader("below_zero", os.path.join(HOME, "tools", "below-zero"))
    module = importlib.util.module_from_spec(importlib.util.spec_from_loader("below_zero", loader))
    sys.modules["below_zero"] = module
    loader.exec_module(module)
    return module


class Positivity(unittest.TestCase):
    KNOTS, AVERAGES = [0, 28, 56, 85], [0, 0.62, 59.03, 47.69]

    def test_the_cheap_first_month(self) -> None:
        for split in "original", "careful", "safe":
            for quadraticity, lowest in (0.0, 0.0), (0.3, -2.7358), (1.0, -9.1195):
                lowest = 0.0 if split == "safe" else lowest
                curve = Curve(self.KNOTS, self.AVERAGES, Method.gas(quadraticity=quadraticity, split=split))
                prices = curve.values([28 * k / 10000 for k in range(10001)])
                self.assertEqual(round(min(prices), 4), lowest)
                section = curve.sections[0]
                self.assertAlmostEqual(section.primitive(28.0) / 28, 0.62, places=12)

    def test_a_month_more_changes_no_other_month(self) -> None:
        curve = Curve(self.KNOTS, self.AVERAGES, Method.gas())
        longer = Curve([-28, *self.KNOTS], [0, 0.62, *self.AVERAGES[1:]], Method.gas())
        later = [28 + k / 8 for k in range(57 * 8 + 1)]
        self.assertEqual(curve.values(later), longer.values(later))
        self.assertEqual(min(longer.values([k / 64 for k in range(28 * 64)])), 0.0)

    def test_the_page_tells_what_the_command_tells(self) -> None:
        done = subprocess.run([sys.executable, "order", "examples/cheap-first-month.txt"], cwd=HOME, stdout=subprocess.PIPE, stderr=subprocess.PIPE, text=True)
        self.assertEqual(done.returncode, 0)
        with open(os.path.join(HOME, "docs", "SHAPES.md"), encoding="utf-8") as page:
            self.assertIn("".join(f"    {line}\n" for line in done.stderr.splitlines()), page.read())

    def test_drawn_strips(self) -> None:
        below_zero = tool()
        for kind in below_zero.calm, below_zero.wild, below_zero.alike:
            found = below_zero.count(700, "of the test", kind)
            for (q, split), seen in found.seen.items():
                with self.subTest(kind=kind.__name__, quadraticity=q, split=split):
                    self.assertEqual((seen.elsewhere, seen.longer_alike, seen.longer_other, seen.missing), (0, 0, 0, 0))
                    if split == "safe":
                        self.assertEqual((seen.below, seen.losing), (0, 0))
                        self.assertGreaterEqual(seen.lowest_part, -1e-12)
                        self.assertLess(seen.most_part, 1e-11)
                        continue
                    if (q, split) == (0.0, "original"):
                        self.assertGreater(seen.losing, 200)
                        self.assertGreater(seen.most, 0.5)
                    elif split == "original" and kind is below_zero.alike:
                        self.assertGreater(seen.losing, 0)
                    else:
                        self.assertEqual(seen.losing, 0)
                        self.assertLess(seen.most, 1e-9)
                    if q == 0.0 or kind is below_zero.calm:
                        self.assertEqual((seen.below, seen.lowest), (0, 0.0))
                    else:
                        self.assertTrue(0.2 * found.steep < seen.below < 0.35 * found.steep or kind is below_zero.alike)
                        self.assertLess(seen.deepest, {0.3: 0.1, 1.0: 1 / 3}[q])
            if kind is below_zero.calm:
                self.assertEqual(found.steep, 0)

    def test_free_strips(self) -> None:
        """Months at exactly 0: only the safe split has all prices, and none below 0."""
        below_zero = tool()
        for (q, split), seen in below_zero.count(500, "of the test", below_zero.free).seen.items():
            with self.subTest(quadraticity=q, split=split):
                self.assertEqual(seen.below > 0, q > 0 and split != "safe")
                self.assertEqual(seen.missing > 0, split == "original" or split == "careful" and q < 1)
                self.assertEqual(seen.losing > 0, (q, split) == (0.0, "original"))
                if split == "safe":
                    self.assertGreaterEqual(seen.lowest_part, -1e-12)
                    self.assertLess(seen.most_part, 1e-11)

    def test_odd_strips(self) -> None:
        for (q, split), seen in tool().odd_count(250, "of the test").items():
            with self.subTest(quadraticity=q, split=split):
                if split != "original":
                    self.assertEqual(seen.losing, 0)
                elif q == 0.0:
                    self.assertGreater(seen.losing, 50)
                self.assertEqual((seen.below > 0, seen.missing), (q > 0 and split != "safe", 0))
                self.assertTrue(split != "safe" or seen.lowest_part >= -1e-12 and seen.most_part < 1e-11)

    def test_months_alike(self) -> None:
        """Three months at one price, at the gas default: rounding splits March, by the original split alone."""
        for split, due in ("original", 72.1324), ("careful", 85.42), ("safe", 85.42):
            march = Curve([0, 28, 59, 89], [0, 85.42, 85.42, 85.42], Method.gas(split=split)).sections[1]
            self.assertEqual(round((march.primitive(59.0) - march.primitive(28.0)) / 31, 4), due)


if __name__ == "__main__":
    unittest.main()
