"""Tables as spreadsheets write them, in and out again."""

import os
import struct
import unittest

from havgrunel.csvfile import read_csv
from havgrunel.faults import Stop
from runs import EXAMPLES, InAFolder, example, run

MONTHS = ["2026-10", "2026-11", "2026-12", "2027-01"]
PRICES = [29.40, 31.85, 1033.6, -0.25]


def dialect(separator, sign, end, quote=False, heading="", mark=b"", coding="utf-8", group=""):
    """The same strip in one dialect."""

    def cell(text):
        return f'"{text}"' if quote else text

    def price(x):
        whole, _, part = f"{x:.2f}".partition(".")
        return (whole[:-3] + group + whole[-3:] if group and len(whole) > 3 else whole) + sign + part

    rows = [separator.join([cell(month), cell(price(x))]) for month, x in zip(MONTHS, PRICES)]
    return mark + (heading + end.join(rows) + end).encode(coding)


DIALECTS = {
    "commas": dialect(",", ".", "\n"),
    "semicolons and decimal commas": dialect(";", ",", "\r\n", heading="Monat;Preis €/MWh\r\n", mark=b"\xef\xbb\xbf"),
    "tabs": dialect("\t", ".", "\r\n", heading="month\tprice\r\n"),
    "bars": dialect("|", ".", "\n", heading="\n"),
    "quoted decimal commas": dialect(",", ",", "\n", quote=True, heading='"month","price"\n'),
    "digits in groups": dialect(";", ",", "\n", group="."),
    "quoted groups": dialect(",", ".", "\n", quote=True, group=","),
    "Windows-1252": dialect(";", ",", "\r\n", heading="Monat;Preis €\r\n", coding="cp1252"),
    "UTF-16": dialect("\t", ",", "\r\n", heading="Monat\tPreis €\r\n", coding="utf-16"),
    "empty cells and rows": b"\n;;\nDesk list;;\n;month;price\n" + b"".join(b";" + m.encode() + b";" + f"{x:.2f}".replace(".", ",").encode() + b";;\n" for m, x in zip(MONTHS, PRICES)) + b";;;\n\n",
    "old line ends": dialect(";", ",", "\r"),
}

BAD = [
    ("Okt-26;29,40\n2026-11;3\n", 1, "'Okt-26' is not a number, a day or a period; taken are"),
    ("month;price\n2026-10;29,40\n2026-12;30,10\n", 3, "there is a gap between line 2 and this one"),
    ("2026-10,29,40\n2026-11,31,85\n", 1, "a period by its name has one price"),
    ("2026-10;29,40\n2026-11;31.85\n", 1, "'29,40' has a comma, and other numbers of the file have a point"),
    ("2026-10\t29,400\n2026-11\t31,850\n", 1, "'29,400' may be 29.400 or 29400"),
    ("2026-10;29,4\n2026-11;1.234\n", 1, "'29,4' has a comma, and other numbers of the file have a point"),
    ("2026-10;1.029,4\n2026-11;1.234\n", 2, "'1.234' may be 1.234 or 1234, since the file's decimal sign is a comma"),
    ("2026-10-01;29,40\n2026-11-01;31,85\n", 1, "the first knot has an average, and no period ends there: name the periods (2026-10 29.40)"),
    ("2026-10;\n2026-11;3\n", 1, "the period '2026-10' has no price"),
    ("2026-10;;3\n2026-11;4;5\n", 1, "a cell of this row is empty"),
    ("2026-10\n2026-11\n", 1, "'2026-10' stands alone in its row"),
    ("month;price\n", 1, "the file has no row of a table"),
    ("", 1, "the file has no row of a table"),
    ('2026-10,"29.40\n', 1, "the row cannot be taken apart"),
]


def read(text, name="x.csv", **options):
    return read_csv(name, text if isinstance(text, bytes) else text.encode(), **options)


class In(unittest.TestCase):
    def test_dialects(self):
        for name, data in DIALECTS.items():
            with self.subTest(dialect=name):
                order = read(data)
                self.assertEqual((order.averages[1:], order.knots), (PRICES, [0.0, 31.0, 61.0, 92.0, 123.0]))

    def test_three_decimals_behind_semicolons(self):
        self.assertEqual(read("2026-10;29,400\n2026-11;31,850\n").averages, [0.0, 29.4, 31.85])

    def test_forms(self):
        cases = {
            "start,end,price\n2026-10-01,2026-10-08,3\n2026-10-08,2026-10-15,4\n": ("days", [0.0, 7.0, 14.0]),
            "2026-06-01 00:00:00;2026-06-01 08:00:00;3\n2026-06-01T08:00;2026-06-02;4\n": ("hours", [0.0, 8.0, 24.0]),
            "knot;average\n2026-10-01;\n2026-10-08;3\n2026-10-15;4\n": ("days", [0.0, 7.0, 14.0]),
            "0,5;4,5;38\n4,5;8,5;40,25\n": ("days", [0.5, 4.5, 8.5]),
            "Oct 2026,3\nQ4 2026\n".replace("Q4 2026\n", "Nov 2026,4\n"): ("days", [0.0, 31.0, 61.0]),
            "2027,3\n2028,4\n": ("days", [0.0, 365.0, 731.0]),
        }
        for text, expected in cases.items():
            with self.subTest(text=text):
                order = read(text)
                self.assertEqual((order.unit, order.knots), expected)

    def test_each_message(self):
        for text, line, said in BAD:
            with self.subTest(text=text):
                with self.assertRaises(Stop) as stopped:
                    read(text)
                start = f"x.csv:{line}: {said}"
                self.assertEqual((stopped.exception.status, stopped.exception.lines[0][: len(start)]), (2, start))

    def test_options(self):
        order = read("0;9\n2;2\n", sets=["first average: not read", "positivity: off", "split: careful"], asks=["at 1"])
        self.assertEqual((order.averages, order.settings["positivity"], order.asked[0].at), ([9.0, 2.0], False, [1.0]))
        self.assertEqual((order.settings["split"], read("0;2\n2;2\n", sets=["first average: not read"]).settings["split"]), ("careful", "original"))


class Out(InAFolder):
    def rows(self, name):
        with open(self.path(name), encoding="utf-8") as file:
            return [line.rstrip("\n").split("\t" if name.endswith(".tsv") else ",") for line in file]

    def test_dialects_give_the_same_bytes(self):
        answers = set()
        for k, data in enumerate(DIALECTS.values()):
            with open(self.path(f"in{k}.csv"), "wb") as file:
                file.write(data)
            ran = run("--csv", self.path("out.csv"), "--set", "positivity: off", self.path(f"in{k}.csv"))
            self.assertEqual(ran, (0, "", ""))
            with open(self.path("out.csv"), "rb") as file:
                answers.add(file.read())
        self.assertEqual(len(answers), 1)

    def test_what_comes_out_is_what_was_answered(self):
        exact = run("--exact", example("winter-gas.txt")).out.splitlines()
        printed = [line.split() for line in exact if line.startswith("202")]
        self.assertEqual(run("--csv", self.path("out.csv"), example("winter-gas.txt")), (0, "", ""))
        head, *rows = self.rows("out.csv")
        self.assertEqual(head, ["start", "end", "average", "price_at_start", "total_at_end"])
        self.assertEqual(len(rows), 182)
        for row, (day, *numbers) in zip(rows, printed):
            self.assertEqual((row[0], [float(x) for x in row[2:]]), (day, [float(x) for x in numbers]))
        self.assertEqual(rows[-1][1], "2027-04-01")

    def test_points(self):
        self.assertEqual(run("--tsv", self.path("out.tsv"), example("zero-hour.txt")).status, 4)
        rows = self.rows("out.tsv")
        self.assertEqual((rows[0], rows[4]), (["point", "price", "total"], ["1", "", ""]))

    def test_hours_of_dates_have_their_time_in_every_row(self):
        run("--csv", self.path("out.csv"), "--ask", "hourly", self.written("days.csv", "2026-10-01,2026-10-03,3\n2026-10-03,2026-10-04,4\n"))
        self.assertEqual([row[0] for row in self.rows("out.csv")[1:3]], ["2026-10-01 00:00", "2026-10-01 01:00"])

    def written(self, name, text):
        with open(self.path(name), "w", encoding="utf-8") as file:
            file.write(text)
        return self.path(name)

    def test_desk_files_go_in_and_out_and_in_again(self):
        names = sorted(name for name in os.listdir(os.path.join(EXAMPLES, "desk")) if not name.endswith(".md"))
        self.assertEqual(len(names), 5)
        for name in names:
            with self.subTest(file=name):
                ask = ["--ask", "hourly"] if name == "power-blocks.csv" else []
                named = {"gas-months.csv": ["--set", "settings: gas"], "seasons.tsv": ["--set", "settings: gas"], "quarters-and-seasons.txt": []}
                off = f"{example('desk', name)}: positivity is not set, and is off by the default; 'settings: gas' has it on\n"
                ran = run("--csv", self.path("out.csv"), *ask, *named.get(name, []), example("desk", name))
                self.assertEqual(ran, (0, "", "" if name in named else off))
                _, *rows = self.rows("out.csv")
                # Each row's average is a period of the file as it is read again, to the last bit.
                with open(self.path("out.csv"), "rb") as file:
                    again = read(file.read())
                self.assertEqual(struct.pack(f"{len(rows)}d", *again.averages[1:]), struct.pack(f"{len(rows)}d", *(float(row[2]) for row in rows)))
                ran = run(*named.get(name, []), self.path("out.csv"))
                self.assertEqual((ran.status, ran.out.splitlines()[-1]), (0, f"all {len(rows)} averages kept"))

    def test_pandas_reads_it_as_it_is(self):
        try:
            import pandas
        except ImportError:
            self.skipTest("pandas is not installed")
        run("--csv", self.path("out.csv"), example("desk", "gas-months.csv"))
        frame = pandas.read_csv(self.path("out.csv"), parse_dates=["start", "end"])
        self.assertEqual(list(frame.columns), ["start", "end", "average", "price_at_start", "total_at_end"])
        # The reader that pandas takes by default may round in the last place; that of Python does not.
        exact = pandas.read_csv(self.path("out.csv"), float_precision="round_trip")
        for row, near, same in zip(self.rows("out.csv")[1:], frame["average"], exact["average"]):
            self.assertEqual(float(row[2]), same)
            self.assertAlmostEqual(near, same, 12)
        self.assertAlmostEqual(frame[frame["start"].dt.month == 10]["average"].mean(), 29.40, 12)


if __name__ == "__main__":
    unittest.main()
