"""The knots of a curve: the price at either side of each, the command's table of them, and where the curve jumps."""

import importlib.machinery
import importlib.util
import math
import os
import random
import re
import unittest
import unittest.mock

from havgrunel import Curve, Method
from havgrunel.answers import JUMP, at_knots, holdings, jumps, scales
from havgrunel.finite import NOT_FINITE
from havgrunel.text import Order
from runs import EXAMPLES, HOME, InAFolder, example, run, run_gas, table_rows

WINTER = example("winter-gas.txt")
# Averages of 5, 3 and 0.5, of which the original split takes the first two.
FALLING = "quadraticity: 0\n0\n1 5\n2 3\n2.25 0.5\n"
STRIPS = 1000


class Rows(unittest.TestCase):
    def test_they_are_the_records(self):
        curve = Curve([0, 1, 2, 2.25], [0, 5, 3, 0.5], Method.gas(quadraticity=0))
        rows, sections = at_knots(curve), curve.sections
        self.assertEqual([row.at for row in rows], [0.0, 1.0, 2.0, 2.25])
        self.assertEqual([row.left for row in rows], [None, *(section.right_price for section in sections)])
        self.assertEqual([row.right for row in rows], [*(section.left_price for section in sections), None])
        self.assertEqual([row.total for row in rows], [0.0, *(section.total for section in sections)])
        self.assertEqual([row.jump for row in rows], [False, True, False, False])

    def test_two_knots(self):
        self.assertEqual(at_knots(Curve([1, 3], [0, 2])), [(1.0, None, 2.0, 0.0, False), (3.0, 2.0, None, 4.0, False)])

    def test_what_a_jump_is(self):
        for left, right, scale, due in (
            (33.1, 33.1, 40.0, False),
            (33.1, 33.1 + 1e-11, 40.0, False),
            (33.1, 33.1 + 1e-10, 40.0, True),
            (0.0, 1e-11, 40.0, False),
            (0.0, 1e-11, 1.0, True),
            (0.0, -0.0, 0.0, False),
            (1.0, math.nan, 1.0, True),
            (math.nan, math.nan, 1.0, True),
            (math.inf, 1.0, 1.0, True),
            (-math.inf, -math.inf, 1.0, True),
            (1.0, 2.0, math.inf, True),
            (1.0, NOT_FINITE, 1.0, True),
            (NOT_FINITE, 1.0, 1.0, True),
            (NOT_FINITE, NOT_FINITE, 1.0, True),
            (1e308, -1e308, 1e308, True),
        ):
            with self.subTest(left=left, right=right, scale=scale):
                self.assertEqual((jumps(left, right, scale), jumps(right, left, scale)), (due, due))

    def test_the_scale_is_of_both_periods(self):
        """A small node between two periods of large prices is rounded as they are."""
        self.assertEqual(scales(Curve([0, 1, 2], [0, 60, -60], Method(0.3, 0.7, False))), [90.0, 90.0])
        curve = Curve([0, 1.1, 2.3, 3], [0, 61.7, -61.3, 58.1], Method(1.0, 0.7, False))
        self.assertEqual([row.jump for row in at_knots(curve)], [False] * 4)


class Tables(InAFolder):
    def test_every_line(self):
        lines = run("--knots", example("far-end.txt")).out.splitlines()
        self.assertEqual(
            lines[3:],
            [
                "knot     price from the left   price from the right      running total   jump",
                "months               EUR/MWh                EUR/MWh   EUR/MWh x months",
                "------  --------------------  ---------------------  -----------------  -----",
                "0                          -                29.5000             0.0000",
                "1                    31.0000                31.0000            30.0000",
                "2                    33.5000                33.5000            62.0000",
                "3                    34.5000                33.0000            97.0000    yes",
                "6                    33.0000                      -           196.0000",
                "",
                "all 4 averages kept",
            ],
        )

    def test_nothing_needs_to_be_asked(self):
        """A text that asks nothing is answered, and of one that asks the knots alone are told. The heading is that of the other tables."""
        table = "2026-10 3\n2026-11 4\n"
        self.assertEqual(run_gas("-", text=table).status, 2)
        ran = run_gas("--knots", "-", text=table)
        self.assertEqual((ran.status, ran.told, [row[0] for row in table_rows(ran.out)]), (0, "", ["2026-10-01", "2026-11-01", "2026-12-01"]))
        for asked in "daily\n", "at 2026-10-15\nhourly\n":
            self.assertEqual(run_gas("--knots", "-", text=table + asked), ran)
        self.assertEqual(run("--knots", WINTER).out.splitlines()[:2], run(WINTER).out.splitlines()[:2])
        self.assertEqual(run_gas("--knots", "-", text=table + "at 2026-13-01\n").status, 2)

    def test_a_spreadsheet_s_file(self):
        """Nothing is asked of it in place of the knots, so that its knots may count anything."""
        file = self.written("a.csv", "0,1,3\n1,2,4\n")
        self.assertEqual(run_gas("--set", "time: months", file).status, 2)
        ran = run_gas("--set", "time: months", "--knots", file)
        self.assertEqual((ran.status, ran.told, [row[0] for row in table_rows(ran.out)]), (0, "", ["0", "1", "2"]))
        self.assertEqual(len(table_rows(run_gas("--knots", example("desk", "gas-months.csv")).out)), 7)

    def test_knots_as_other_tables_show_them(self):
        self.assertEqual([row[0] for row in table_rows(run_gas("--knots", "-", text="2026-06-01 14:00\n2026-06-02 3\n").out)], ["2026-06-01 14:00", "2026-06-02 00:00"])
        self.assertEqual([row[0] for row in table_rows(run_gas("--knots", "-", text="-0.5\n1e3 3\n").out)], ["-0.5", "1000"])

    def test_prices_and_totals_are_those_of_other_tables(self):
        """But for rounding: the price at a knot is that from the right, and at the last one that of the tail."""
        table = "2026-10 29.40\n2026-11 31.85\n2026-12 33.60\n"
        knots = table_rows(run_gas("--exact", "--knots", "-", text=table).out)
        points = table_rows(run_gas("--exact", "--ask", "at 2026-10-01 2026-11-01 2026-12-01 2027-01-01", "-", text=table).out)
        for (day, left, right, total), (point, price, up_to) in zip(knots, points):
            self.assertEqual((day, left if right == "-" else right), (point, price))
            self.assertAlmostEqual(float(total), float(up_to), 9)
        self.assertEqual((len(knots), len(points), knots[0][3]), (4, 4, "0"))

    def test_exact_marks_what_the_table_marks(self):
        for name in sorted(os.listdir(EXAMPLES)):
            if name.endswith(".txt"):
                plain, exact = (run(*words, "--knots", example(name)) for words in ([], ["--exact"]))
                self.assertEqual(len(table_rows(plain.out)), len(table_rows(exact.out)))
                self.assertEqual([row[0] for row in table_rows(plain.out) if row[-1] == "yes"], [row[0] for row in table_rows(exact.out) if row[-1] == "yes"])
        row = table_rows(run_gas("--exact", "--knots", "-", text=FALLING).out)[1]
        self.assertEqual((row[0], round(float(row[1]), 4), row[2:]), ("1", 0.9062, ["4", "5", "yes"]))

    def test_the_examples_that_jump(self):
        found = {}
        for name in sorted(os.listdir(EXAMPLES)):
            if name.endswith(".txt"):
                found[name[:-4]] = [row[0] for row in table_rows(run("--knots", example(name)).out) if row[-1] == "yes"]
        self.assertEqual(
            {name: knots for name, knots in found.items() if knots},
            {
                "equal-months": ["1"],
                "falling-month-splits": ["1"],
                "far-end": ["3"],
                "flat-months": ["2027-04-01"],
                "free-months": ["2027-04-01", "2027-06-01", "2027-12-01"],
                "power-negative-positivity": ["12", "16"],
                "summer-gas-splits": ["2027-05-01"],
                "winter-gas-splits": ["2026-12-01"],
                "zero-hour": ["1", "2"],
                "zero-hour-safe": ["1", "2"],
            },
        )

    def test_no_finite_price(self):
        ran = run("--knots", example("zero-hour.txt"))
        self.assertEqual(table_rows(ran.out)[1:3], [["1", "1.0000", "no-number", "2.0000", "yes"], ["2", "no-number", "1.0000", "2.0000", "yes"]])
        told = ran.told.replace(EXAMPLES + os.sep, "")
        self.assertIn("zero-hour.txt:9: no finite price at 1: 1 to 2 traded at exactly 0, with positivity on\nzero-hour.txt: 2 of 4 answers are not finite;", told)
        self.assertEqual(ran.status, 4)
        ran = run("--knots", "-", text="settings: gas\nquadraticity: 0\nmonotonicity: 1\n0\n0.25 1e-320\n2.25 1e-320\n2.5 0\n4.25 1\n")
        self.assertIn("standard input:7: no finite price just before 2.5: 2.25 to 2.5 traded at exactly 0, with positivity on\n", ran.told)
        self.assertEqual((ran.status, table_rows(ran.out)[3][1:3]), (4, ["no-number", "0.1250"]))

    def test_what_else_is_told(self):
        """Refusals, losses, prices below 0 and positivity that nothing sets, as of any other table."""
        for text, told in (
            ("0\n2 2\n1 2\n", ":3: refused: a knot is not above the one before it (refusal 7)"),
            ("0\n", ": refused: there are fewer than two knots (refusal 4)"),
            ("", ": refused: there are fewer than two knots (refusal 4)"),
            ("monotonicity: 2\n0\n1 2\n", ":1: refused: the monotonicity is not a number from 0 to 1 (refusal 2)"),
        ):
            self.assertEqual(run_gas("--knots", "-", text=text), (1, "", f"standard input{told}\n"))
        ran = run_gas("--knots", "-", text=FALLING)
        self.assertEqual((ran.status, ran.out.splitlines()[-4:]), (4, run_gas("-", text=FALLING + "at 0\n").out.splitlines()[-4:]))
        self.assertIn("standard input: positivity is not set", run("--knots", "-", text="0\n1 2\n").told)
        cheap = "0\n28 0.62\n56 59.03\n85 47.69\n"
        self.assertEqual(run_gas("--knots", "-", text=cheap), run_gas("--knots", "-", text=f"{cheap}at 0\n"))
        self.assertIn("below 0 although positivity is on\nstandard input: 'split: safe' holds", run_gas("--knots", "-", text=cheap).told)

    def test_4095_periods(self):
        ran = run_gas("--knots", "-", text="".join(f"{k} {k + 1} {20 + k % 7}\n" for k in range(4095)))
        self.assertEqual((ran.status, len(table_rows(ran.out)), " yes" in ran.out), (0, 4096, False))


class Files(InAFolder):
    def test_csv_and_tsv(self):
        rows = [["knot", "price_from_left", "price_from_right", "total", "jump"], ["0", "", "2.5", "0.0", "0"], ["1", "1.0", "", "2.0", "1"], ["2", "", "1.0", "2.0", "1"], ["3", "2.5", "", "4.0", "0"]]
        for option, sign in ("--csv", ","), ("--tsv", "\t"):
            ran = run("--knots", option, "-", example("zero-hour.txt"))
            self.assertEqual((ran.status, ran.out), (4, "".join(sign.join(row) + "\n" for row in rows)))
            self.assertIn("no finite price at 1", ran.told)
        self.assertEqual(run("--knots", "--csv", "-", WINTER).out.splitlines()[1].split(",")[0], "2026-10-01")
        self.assertIn("standard input: 1 to 2 traded at 3.0000 and holds 2.3333", run_gas("--knots", "--csv", "-", "-", text=FALLING).told)

    def test_one_table_whatever_the_text_asks(self):
        ran = run_gas("--knots", "--csv", "-", "-", text="2026-10 3\n2026-11 4\nat 2026-10-15\ndaily\n")
        self.assertEqual((ran.status, len(ran.out.splitlines())), (0, 4))

    def test_over_a_file_of_its_own(self):
        order = self.written("order.txt", "0\n1 2\nat 0\n")
        for words in ["--knots"], [], ["--knots"]:
            self.assertEqual(run_gas(*words, "--csv", self.path("a.csv"), order), (0, "", ""))
        self.assertEqual(self.read("a.csv"), b"knot,price_from_left,price_from_right,total,jump\n0,,2.0,0.0,0\n1,2.0,,2.0,0\n")

    def test_the_file_is_no_order(self):
        """Its rows are no periods, and it is not taken for one."""
        run("--knots", "--csv", self.path("a.csv"), WINTER)
        self.assertEqual(run_gas(self.path("a.csv")).status, 2)


class CommandLine(unittest.TestCase):
    def test_what_it_does_not_go_with(self):
        for words, said in (
            (["--plot", "-", WINTER], "--knots is for a table, and --plot writes none"),
            (["--bytes", "-", WINTER], "--knots is for a table, and --bytes writes none"),
            (["--ask", "daily", WINTER], "--knots tells of the knots instead of what is asked: leave --ask out"),
            ([WINTER, WINTER], "several files are for --plot"),
            (["--scale", "1:2", WINTER], "--scale is for --plot"),
        ):
            with self.subTest(words=words):
                self.assertEqual(run("--knots", *words), (2, "", f"order: {said}\n"))

    def test_the_help(self):
        out = " ".join(run("--help").out.split())
        self.assertIn("--knots tell the price at either side of each knot instead of what is asked", out)
        self.assertIn(f"differ by more than {JUMP:.0e} of the largest average or node of the two periods, or one of them is not finite", out)

    def test_settings_of_the_command_line(self):
        ran = run("--knots", "--set", "split: safe", example("falling-month-splits.txt"))
        self.assertEqual((ran.status, " yes" in ran.out), (0, False))


def kinds():
    """What draws the four kinds of strips that docs/SHAPES.md counts, of the tool that counts them."""
    path = os.path.join(HOME, "tools", "below-zero")
    loader = importlib.machinery.SourceFileLoader("below_zero", path)
    tool = importlib.util.module_from_spec(importlib.util.spec_from_loader("below_zero", loader))
    # Its data classes look for their module by its name.
    with unittest.mock.patch.dict("sys.modules", below_zero=tool):
        loader.exec_module(tool)
    return tool.drawn, {kind.__name__: kind for kind in (tool.calm, tool.wild, tool.alike, tool.free)}


def tenths(x):
    """A small part, as the page has it: 1.6e-15."""
    return re.sub("e-0?", "e-", f"{x:.1e}")


class Drawn(unittest.TestCase):
    """The table of docs/SHAPES.md that counts jumps, and what stands beside it, of strips that are drawn here."""

    def test_the_page(self):
        with open(os.path.join(HOME, "docs", "SHAPES.md"), encoding="utf-8") as file:
            part = file.read().partition("## Where the curve jumps\n")[2].partition("\n## ")[0]
        rows = [[cell.strip() for cell in line.strip("|").split("|")] for line in part.split("\n") if line.startswith("| ")]
        shown = {row[0]: [int(cell.replace(",", "")) for cell in row[1:]] for row in rows[1:]}
        draw, found = kinds()
        self.assertEqual(rows[0][1:], list(found))
        tables = []
        for name, kind in found.items():
            source = random.Random(f"1 {name}")
            tables.append([draw(source, kind) for _ in range(STRIPS)])
        self.assertEqual(shown.pop("inner knots"), [sum(len(knots) - 2 for knots, _ in strips) for strips in tables])
        told, least, most = set(), math.inf, 0.0
        for words, method, hold in self.methods():
            seen = [[self.look(table, method, hold) for table in strips] for strips in tables]
            self.assertEqual(shown[words], [sum(marked for marked, _, _ in looks) for looks in seen], words)
            least, most = min(least, *(small for looks in seen for _, small, _ in looks)), max(most, *(large for looks in seen for _, _, large in looks))
            told.add(words)
        self.assertEqual(told, set(shown))
        part = " ".join(part.split())
        self.assertIn(f"The smallest jump that was drawn comes to {tenths(least)} of it, and the largest difference that is rounding to {tenths(most)}.", part)
        self.assertIn(f"by more than {JUMP:.0e} of the largest of the two periods' averages and their three nodes", part)

    def methods(self):
        """A row of the table, with a method that it is of, and whether the last period is held."""
        for q in 0.0, 0.3, 1.0:
            yield "any, positivity off", Method(q, 0.7, False), False
            yield "any, positivity off, last period held", Method(q, 0.7, False), True
            yield f"{q:g}, original", Method(q, 0.7, True), False
            yield f"{q:g}, careful", Method(q, 0.7, True, "careful"), False
            yield "any, safe", Method(q, 0.7, True, "safe"), False

    def look(self, table, method, hold):
        """How many knots of a strip are marked, the smallest jump among them, and the largest difference of the others, as parts of the scale. Each is
        where the page says: beside a period at 0, after one that lost its average by the original split, or where the held one begins."""
        curve = Curve(*table, method, hold=hold)
        rows, sizes = at_knots(curve), scales(curve)
        marked, least, most = 0, math.inf, 0.0
        for k, row in enumerate(rows[1:-1], 1):
            part = math.inf
            if NOT_FINITE not in row:
                part = abs(row.left - row.right) / (max(sizes[k - 1 : k + 1]) or 1.0)
            if not row.jump:
                most = max(most, part)
                continue
            marked, least = marked + 1, min(least, part)
            free = method.positivity and 0.0 in table[1][k : k + 2]
            if not free and not (hold and k == len(rows) - 2):
                held = holdings(Order("drawn", {}, knots=table[0], averages=table[1]), curve)
                self.assertEqual((method.split, curve.sections[k - 1].split, held[k - 1].kept), ("original", True, False))
        return marked, least, most


if __name__ == "__main__":
    unittest.main()
