"""The pictures: that what they say can be seen, read and told apart, and that nothing of an order breaks them."""

import itertools
import math
import os
import random
import re
import subprocess
import sys
import unittest
import xml.etree.ElementTree as ElementTree
from typing import List, Optional, Tuple

from havgrunel import picture, ticks
from havgrunel.answers import curve_of
from havgrunel.lettering import width, wrap
from havgrunel.text import read_order

HOME = os.path.dirname(os.path.dirname(os.path.dirname(os.path.realpath(__file__))))
SVG = "{http://www.w3.org/2000/svg}"
MONTHS = "2026-10 30\n2026-11 31\n2026-12 37\n2027-01 22\ndaily\n"


def drawn(*texts: str, scale: Optional[Tuple[float, float]] = None, name: str = "order.txt") -> str:
    orders = [read_order(name, text.encode()) for text in texts]
    return picture.draw(orders, [curve_of(order) for order in orders], scale)


def texts_of(svg: str) -> List[str]:
    return [element.text or "" for element in ElementTree.fromstring(svg).iter(f"{SVG}text")]


def boxes(svg: str) -> List[Tuple[float, float, float, float, str]]:
    """Each text with where it lies: left, right, its base line, its size, and its words."""
    root = ElementTree.fromstring(svg)
    found = []
    for parent in root.iter():
        shift = [float(n) for n in re.findall(r"-?[0-9.]+", parent.get("transform", ""))] or [0.0, 0.0]
        for element in parent.findall(f"{SVG}text"):
            size = float(element.get("font-size", root.get("font-size")))
            wide = width(element.text, size, element.get("font-weight") == "bold")
            x, y = float(element.get("x")) + shift[0], float(element.get("y")) + shift[1]
            left = x - {"middle": wide / 2, "end": wide}.get(element.get("text-anchor"), 0.0)
            found.append((left, left + wide, y, size, element.text))
    return found


def lengths(svg: str, role: str) -> List[str]:
    """The paths of a role in the plot."""
    return [path.get("d") for path in ElementTree.fromstring(svg).find(f"{SVG}g[@clip-path]").iter(f"{SVG}path") if path.get("class") == picture.PREFIX + role]


class Words(unittest.TestCase):
    """Titles, legends and labels."""

    def check_apart(self, svg: str) -> None:
        root = ElementTree.fromstring(svg)
        high = float(root.get("height"))
        found = boxes(svg)
        for left, right, y, size, text in found:
            self.assertGreaterEqual(left, 0, text)
            self.assertLessEqual(right, picture.WIDE, text)
            self.assertTrue(size <= y <= high - 4, text)
        for (left, right, y, size, text), (other, end, below, height, more) in itertools.combinations(found, 2):
            apart = right <= other or end <= left or y <= below - 0.9 * height or below <= y - 0.9 * size
            self.assertTrue(apart, f"{text!r} lies over {more!r}")

    def check_heading_is_above(self, svg: str) -> None:
        clip = ElementTree.fromstring(svg).find(f"{SVG}clipPath/{SVG}rect")
        top, left = float(clip.get("y")), float(clip.get("x"))
        for begin, end, y, _, text in boxes(svg):
            self.assertTrue(y <= top + 2 or y > top + picture.HIGH or end <= left, text)

    def test_long_words_wrap(self) -> None:
        title = "A title that goes on and on, as titles of reports do, & never <ends> " * 3
        price = "EUR per megawatt hour, delivered at the border, taxes not included, " * 3
        settings = [f"quadraticity: 0.{k}23456789012\nmonotonicity: 0.{9 - k}87654321098\nhold last period: {'on' if k > 1 else 'off'}\nextrapolation: {'on' if k % 2 else 'off'}\n" for k in range(4)]
        for head in "", f"title: {title}\n", f"title: {title}\nprice: {price}\n", f"title: {'W' * 200}\nprice: {'W' * 90}\n":
            for chosen in settings[:1], settings:
                svg = drawn(*(head + one + MONTHS for one in chosen))
                self.check_apart(svg)
                self.check_heading_is_above(svg)

    def test_curves_go_by_their_splits(self) -> None:
        self.assertIn("careful split", texts_of(drawn(MONTHS, "split: careful\n" + MONTHS)))
        self.assertIn("original split", texts_of(drawn(MONTHS, "split: careful\n" + MONTHS)))
        three = drawn("quadraticity: 0.3\n" + MONTHS, "quadraticity: 0\n" + MONTHS, "quadraticity: 0\nsplit: careful\n" + MONTHS)
        for name in "quadraticity 0.3, original split", "quadraticity 0, original split", "quadraticity 0, careful split":
            self.assertIn(name, texts_of(three))
        self.assertFalse(any("split" in text for text in texts_of(drawn("split: careful\n" + MONTHS, "split: careful\nquadraticity: 0\n" + MONTHS))))
        self.check_apart(three)
        self.check_heading_is_above(three)
        splits = texts_of(drawn(*(f"split: {split}\n" + MONTHS for split in ("original", "careful", "safe"))))
        self.assertTrue({"original split", "careful split", "safe split"} <= set(splits))

    def test_a_title_is_told_whole_where_it_is_cut(self) -> None:
        title = "word " * 300 + "end"
        root = ElementTree.fromstring(drawn(f"title: {title}\n" + MONTHS))
        self.assertEqual(root.find(f"{SVG}title").text, title)
        self.assertTrue(any(text.endswith("…") for text in texts_of(drawn(f"title: {title}\n" + MONTHS))))

    def test_lines_fit(self) -> None:
        source = random.Random(1)
        for _ in range(300):
            words = " ".join("".join(source.choice("WMilä漢 é-–.1") for _ in range(source.randint(1, 60))) for _ in range(source.randint(1, 12)))
            lines = wrap(words, 200.0, 14, most=1000)
            self.assertTrue(all(width(line, 14) <= 200 for line in lines))
            self.assertEqual("".join("".join(lines).split()), "".join(words.split()))

    def test_labels_are_short_and_apart(self) -> None:
        source = random.Random(2)
        for _ in range(300):
            size = 10.0 ** source.randint(-300, 290)
            low = source.uniform(-size, size)
            high = low + source.uniform(size / 1000, size)
            marks = ticks.numbers(low, high, 6)
            self.assertTrue(2 <= len(marks) <= 7, marks)
            self.assertEqual(len({label for _, label in marks}), len(marks), marks)
            self.assertTrue(all(low <= x <= high for x, _ in marks))
            for x, label in marks:
                plain = float(label.replace("−", "-").replace("M", "e6"))
                self.assertTrue(math.isclose(plain, x, rel_tol=1e-12, abs_tol=size * 1e-12), (plain, x))
        self.assertEqual([label for _, label in ticks.numbers(0, 1.6e6, 4)], ["0", "0.5M", "1.0M", "1.5M"])
        self.assertEqual([label for _, label in ticks.numbers(0, 6.5e-7, 4)], ["0", "2e−7", "4e−7", "6e−7"])
        self.assertEqual([label for _, label in ticks.numbers(28.4, 34.9, 4)], ["30", "32", "34"])

    def test_every_kind_of_axis(self) -> None:
        tables = {
            "1 period": "0\n2 5\nat 1\n",
            "far out": "extrapolation: on\ntime: months\n0\n1 30\n2 32\n3 35\n6 33\nat -1000 1000\n",
            "hours": "2026-06-01 00:00 2026-06-01 08:00 31\n2026-06-01 08:00 2026-06-01 20:00 64\n2026-06-01 20:00 2026-06-02 00:00 40\nhourly\n",
            "minutes": "2026-06-01 13:10 2026-06-01 13:20 31\n2026-06-01 13:20 2026-06-01 14:05 64\nevery 0.05\n",
            "days": "2026-02-27 2026-03-02 31\n2026-03-02 2026-03-05 30\ndaily\n",
            "a month": "2026-10 31\ndaily\n",
            "years": "2026 31\n2027 30\n2028 32\n2029 28\ndaily\n",
            "a century": "".join(f"{year} 30\n" for year in range(2000, 2100)) + "daily\n",
            "the calendar's end": "9999-10-01 9999-11-01 3\n9999-11-01 9999-12-31 4\ndaily\n",
            "its beginning": "0001-01-01 0001-02-01 3\n0001-02-01 0001-03-01 4\ndaily\n",
            "long knots": "0.1\n0.30000000000000004 3\n0.7000000000000001 4\nat 0.5\n",
            "far knots": "1000000000\n1000000001 3\n1000000002 4\nat 1000000001\n",
            "small numbers": "0\n1 1e-6\n2 2e-6\nat 1\n",
            "large numbers": "0\n1 1e9\n2 2e9\nat 1\n",
            "a little over much": "0\n1 1000000001\n2 1000000003\nat 1\n",
        }
        for name, table in tables.items():
            with self.subTest(name):
                svg = drawn(f"title: {name}\nprice: EUR/MWh\n{table}")
                self.check_apart(svg)
                self.check_heading_is_above(svg)

    def test_months_have_their_names(self) -> None:
        labels = texts_of(drawn(MONTHS))
        for label in "Oct 2026", "Nov 2026", "Dec 2026", "Jan 2027", "Feb 2027":
            self.assertIn(label, labels)


class Contents(unittest.TestCase):
    """What is drawn."""

    def test_rows_are_drawn_as_they_are_printed(self) -> None:
        text = MONTHS
        order = read_order("order.txt", text.encode())
        rows = order.asked[0]
        averages = curve_of(order).averages(rows.at)
        svg = drawn(text)
        self.assertIn("day average", texts_of(svg))
        tops = re.findall(r"M(\S+) (\S+)H(\S+?)(?=M|$)", lengths(svg, "top")[0])
        self.assertEqual(len(tops), len(averages))
        # Heights on the page are those of the averages, on one scale.
        low, high = picture.scale_of([order], [curve_of(order)])
        ys = [float(y) for _, y, _ in tops]
        foot = float(ElementTree.fromstring(svg).find(f"{SVG}clipPath/{SVG}rect").get("y")) + 2 + picture.HIGH
        for y, average in zip(ys, averages):
            self.assertAlmostEqual(y, foot - (average - low) / (high - low) * picture.HIGH, delta=0.011)
        self.assertEqual(len(re.findall("M", lengths(svg, "row")[0])), len(averages))

    def test_rows_have_their_names(self) -> None:
        self.assertIn("hour average", texts_of(drawn("time: hours\n0\n4 30\n8 20\nhourly\n")))
        self.assertIn("average, every 0.25 months", texts_of(drawn("time: months\n0\n4 30\n8 20\nevery 0.25\n")))

    def test_rows_that_nobody_sees_are_left_out(self) -> None:
        years = "2026 31\n2027 30\n2028 32\n"
        self.assertEqual(lengths(drawn(years + "daily\n"), "row"), [])
        self.assertNotIn("day average", texts_of(drawn(years + "daily\n")))
        # With several curves there are no rows, and where several kinds are asked for those that can be seen are drawn.
        self.assertEqual(lengths(drawn(MONTHS, "quadraticity: 0\n" + MONTHS), "row"), [])
        self.assertIn("day average", texts_of(drawn(MONTHS.replace("daily", "hourly\ndaily"))))

    def test_two_pictures_have_one_scale(self) -> None:
        for one, other in (("quadraticity-0", "quadraticity-1"), ("monotonicity-0", "monotonicity-1"), ("power-sunny-off", "power-sunny-on"), ("cheap-first-month", "cheap-first-month-longer")):
            labels = []
            for name in one, other:
                with open(os.path.join(HOME, "docs", "pictures", f"{name}.svg"), encoding="utf-8") as file:
                    found = boxes(file.read())
                labels.append([(y, text) for _, right, y, _, text in found if right <= picture.LEFT and re.fullmatch(r"−?[0-9.]+", text)])
            self.assertTrue(labels[0])
            self.assertEqual(*labels)

    def test_a_scale_is_kept(self) -> None:
        svg = drawn(MONTHS, scale=(25.0, 35.0))
        self.assertIn("cut off at the edge", texts_of(svg))
        self.assertNotIn("cut off at the edge", texts_of(drawn(MONTHS)))
        for scale in (1.0, 1.0), (2.0, 1.0), (math.nan, 1.0), (0.0, math.inf):
            with self.assertRaises(ValueError):
                drawn(MONTHS, scale=scale)

    def test_air_does_not_reach_over_zero(self) -> None:
        def scale(averages: str) -> Tuple[float, float]:
            order = read_order("order.txt", f"positivity: off\n0\n1 {averages.replace(' ', chr(10) + '2 ')}\nat 1\n".encode())
            return picture.scale_of([order], [curve_of(order)])

        # The nodes of the ends, and with them the lowest price and the highest, lie a quarter of the step beyond the two averages.
        self.assertEqual(scale("0 0"), (0.0, 1.0))
        self.assertAlmostEqual(scale("1 2")[0], 0.75 - 0.06 * 1.5)
        self.assertAlmostEqual(scale("1 2")[1], 2.25 + 0.06 * 1.5)
        self.assertEqual(scale("1 4.8")[0], 0.0)
        self.assertEqual(scale("-1 -4.8")[1], 0.0)
        self.assertLess(scale("1 6")[0], -0.25)
        self.assertGreater(scale("-1 -6")[1], 0.25)

    def test_prices_that_are_not_finite_are_marked(self) -> None:
        svg = drawn("monotonicity: 1\nquadraticity: 0\npositivity: off\n0\n1 2\n2 1\n3 1\nat 1\n")
        self.assertIn("no finite price", texts_of(svg))
        self.assertNotIn("nan", svg)
        self.assertNotIn("inf", re.sub("no finite", "", svg))

        # A whole period without a price is no chain of a hundred rings.
        svg = drawn("positivity: on\n0\n1 1\n2 -1\n3 1\nevery 0.01\n")
        self.assertLess(svg.count("<circle"), 90)

    def test_any_table_is_drawn_or_told(self) -> None:
        source = random.Random(4)
        told = 0
        for _ in range(150):
            size = 10.0 ** source.choice((-320, -300, -6, 0, 0, 0, 9, 300, 307))
            length = 10.0 ** source.choice((-300, -6, 0, 0, 0, 9, 300))
            lines = ["0"] + [f"{(k + 1) * length!r} {source.uniform(-size, size)!r}" for k in range(source.choice((1, 2, 3, 12, 60)))]
            settings = f"quadraticity: {source.choice((0, 0.3, 1))}\nmonotonicity: {source.choice((0, 0.7, 1))}\npositivity: {source.choice(('on', 'off'))}\n"
            ends = f"at {-source.choice((0, 1, 1000)) * length!r} {source.choice((1, 1000)) * length!r}\n"
            try:
                svg = drawn(f"extrapolation: on\n{settings}" + "\n".join(lines) + f"\n{ends}")
            except ValueError as fault:
                self.assertIn("too far apart to be drawn", str(fault))
                told += 1
                continue
            for d in re.findall(r' d="([^"]*)"', svg):
                self.assertNotRegex(d, "nan|inf|e")
        self.assertLess(told, 50)

    def test_many_periods_make_no_large_file(self) -> None:
        table = "0\n" + "".join(f"{k + 1} {20 + k * 37 % 41}\n" for k in range(4095)) + "at 1\n"
        self.assertLess(len(drawn(table)), 500_000)

    def test_curves_of_other_tables_are_refused(self) -> None:
        with self.assertRaises(ValueError):
            drawn(MONTHS, MONTHS.replace("22", "23"))
        with self.assertRaises(ValueError):
            drawn(*[MONTHS] * 5)


class Readers(unittest.TestCase):
    """Light and dark, colours, and readers who hear a picture."""

    def test_a_picture_has_its_title_and_its_words(self) -> None:
        root = ElementTree.fromstring(drawn("title: Gas & <power>\nprice: EUR/MWh\n" + MONTHS))
        self.assertEqual(root.get("role"), "img")
        title, about = root.find(f"{SVG}title"), root.find(f"{SVG}desc")
        self.assertEqual(root.get("aria-labelledby"), f"{title.get('id')} {about.get('id')}")
        self.assertEqual(title.text, "Gas & <power>")
        self.assertIn("4 periods from 2026-10-01 to 2027-02-01, traded from 22 to 37 EUR/MWh", about.text)

    def test_two_pictures_on_a_page_have_their_own_names(self) -> None:
        texts = MONTHS, "title: other\n" + MONTHS, "quadraticity: 1\n" + MONTHS
        for one, other in itertools.combinations([set(re.findall('id="([^"]*)"', drawn(text, scale=(0.0, 50.0)))) for text in texts], 2):
            self.assertTrue(one and other and not one & other)

    def test_signs_that_no_xml_may_hold_are_replaced(self) -> None:
        root = ElementTree.fromstring(drawn("title: a\x01b\x1bc\ufffe ]]> & < > \" '\n" + MONTHS))
        self.assertEqual(root.find(f"{SVG}title").text, "a?b?c? ]]> & < > \" '")

    def test_without_style_the_picture_is_light(self) -> None:
        svg = drawn(MONTHS)
        for element in ElementTree.fromstring(svg).iter():
            for role in (element.get("class") or "").split():
                attribute, light, dark = picture.COLOURS[role[len(picture.PREFIX) :]]
                self.assertEqual(element.get(attribute), light)
                self.assertIn(f".{role}{{{attribute}:{dark}}}", svg)
            if element.tag in (f"{SVG}path", f"{SVG}circle", f"{SVG}text"):
                self.assertTrue(element.get("class") or element.tag == f"{SVG}text")

    def test_colours_can_be_told_apart(self) -> None:
        """Every two of the curves and the steps, by eyes that see all colours, and by those that lack one of the three receptors."""
        for ground, least in ((1, 40.0), (2, 45.0)):
            colours = [rgb(picture.COLOURS[role][ground]) for role in ("curve1", "curve2", "curve3", "curve4", "step")]
            nearest = min(math.dist(lab(seen(a, eyes)), lab(seen(b, eyes))) for eyes in EYES for a, b in itertools.combinations(colours, 2))
            self.assertGreater(nearest, least)

    def test_lines_stand_out(self) -> None:
        for ground in 1, 2:
            page, month, row = (rgb(picture.COLOURS[role][ground]) for role in ("ground", "month", "row"))
            for role in "curve1", "curve2", "curve3", "curve4", "step", "fault":
                self.assertGreater(contrast(rgb(picture.COLOURS[role][ground]), page), 3, role)
                self.assertGreater(contrast(rgb(picture.COLOURS[role][ground]), month), 3, role)
            # Rows are drawn with one curve.
            for role in "curve1", "step":
                self.assertGreater(contrast(rgb(picture.COLOURS[role][ground]), row), 3, role)
            self.assertGreater(contrast(rgb(picture.COLOURS["ink"][ground]), page), 7)


# How eyes see a colour of linear light that lack no receptor, or one of the three (Machado, Oliveira and Fernandes, 2009, at full severity).
EYES = {
    "all": ((1.0, 0.0, 0.0), (0.0, 1.0, 0.0), (0.0, 0.0, 1.0)),
    "protanopia": ((0.152286, 1.052583, -0.204868), (0.114503, 0.786281, 0.099216), (-0.003882, -0.048116, 1.051998)),
    "deuteranopia": ((0.367322, 0.860646, -0.227968), (0.280085, 0.672501, 0.047413), (-0.011820, 0.042940, 0.968881)),
    "tritanopia": ((1.255528, -0.076749, -0.178779), (-0.078411, 0.930809, 0.147602), (0.004733, 0.691367, 0.303900)),
}
Colour = Tuple[float, float, float]


def rgb(text: str) -> Colour:
    """A colour in linear light."""
    parts = [int(text[k : k + 2], 16) / 255 for k in (1, 3, 5)]
    return tuple(part / 12.92 if part <= 0.04045 else ((part + 0.055) / 1.055) ** 2.4 for part in parts)


def seen(colour: Colour, eyes: str) -> Colour:
    return tuple(min(1.0, max(0.0, sum(a * b for a, b in zip(row, colour)))) for row in EYES[eyes])


def lab(colour: Colour) -> Colour:
    """CIE Lab under daylight, D65."""
    r, g, b = colour
    whole = (0.4124564 * r + 0.3575761 * g + 0.1804375 * b) / 0.95047, 0.2126729 * r + 0.7151522 * g + 0.0721750 * b, (0.0193339 * r + 0.1191920 * g + 0.9503041 * b) / 1.08883
    x, y, z = (part ** (1 / 3) if part > 216 / 24389 else (24389 / 27 * part + 16) / 116 for part in whole)
    return 116 * y - 16, 500 * (x - y), 200 * (y - z)


def contrast(a: Colour, b: Colour) -> float:
    dark, light = sorted(0.2126 * c[0] + 0.7152 * c[1] + 0.0722 * c[2] for c in (a, b))
    return (light + 0.05) / (dark + 0.05)


class Tools(unittest.TestCase):
    def test_the_command_draws_the_pictures(self) -> None:
        """What tools/pictures draws by the package is what the command draws."""
        pictures = {
            "winter-gas": ["winter-gas"],
            "falling-month": ["falling-month", "falling-month-splits", "falling-month-careful"],
            "winter-splits": ["winter-gas-splits", "winter-gas-careful"],
        }
        for name, orders in pictures.items():
            files = [os.path.join("examples", f"{order}.txt") for order in orders]
            done = subprocess.run([sys.executable, "order", "--plot", "-", *files], cwd=HOME, stdout=subprocess.PIPE, stderr=subprocess.DEVNULL)
            with open(os.path.join(HOME, "docs", "pictures", f"{name}.svg"), "rb") as file:
                self.assertEqual(done.stdout, file.read())


if __name__ == "__main__":
    unittest.main()
