"""The command: its statuses, the files that it writes, and that it never ends in a traceback."""

import os
import platform
import random
import shutil
import signal
import struct
import subprocess
import sys
import time
import unittest

from havgrunel.answers import answer
from havgrunel.command import STATUSES
from havgrunel.csvfile import read_csv
from havgrunel.faults import Stop
from havgrunel.tables import printed
from havgrunel.text import read_order
from runs import EXAMPLES, HOME, ORDER, InAFolder, example, run, run_gas, start, table_rows

WINTER = example("winter-gas.txt")
SHORT = "0\n1 2\nat 0\n"


class Statuses(InAFolder):
    def test_0_answered(self):
        ran = run_gas("-", text=SHORT)
        self.assertEqual((ran.status, ran.told), (0, ""))
        self.assertEqual(ran.out.splitlines()[-1], "the average is kept")

    def test_1_refused(self):
        self.assertEqual(run("-", text="1\n0 2\nat 0\n").status, 1)

    def test_2_the_text_or_the_command_line(self):
        self.assertEqual(run("-", text="0\n1 x\n").status, 2)
        for words in ([], ["--plto", "x", WINTER], ["--exact", "--csv", "-", WINTER], [WINTER, WINTER], ["--csv"], ["--scale", "1:2", WINTER], ["--plot", "-", "--scale", "2:1", WINTER], ["--plot", "-", "--scale", "x", WINTER]):
            with self.subTest(words=words):
                ran = run(*words)
                self.assertEqual((ran.status, ran.out, "order: " in ran.told), (2, "", True))

    def test_3_what_could_not_be_read_or_written(self):
        self.assertEqual(run(self.path("none.txt")), (3, "", f"order: {self.path('none.txt')} cannot be read: No such file or directory\n"))
        self.assertEqual(run(self.folder).status, 3)
        there = self.path("no/out.csv")
        self.assertEqual(run("--csv", there, WINTER), (3, "", f"order: {there} cannot be written: No such file or directory\n"))

    def test_4_a_lost_average_or_a_price_that_is_not_finite(self):
        self.assertEqual(run(example("falling-month-splits.txt")).status, 4)
        self.assertEqual(run(example("zero-hour.txt")).status, 4)
        for option in "--csv", "--tsv", "--plot":
            ran = run(option, "-", example("falling-month-splits.txt"))
            self.assertEqual(ran.status, 4)
            self.assertIn("falling-month-splits.txt: 1 to 2 traded at 3.0000 and holds 2.3333 (line 10)\n", ran.told)

    def test_the_help_has_them_all(self):
        ran = run("--help")
        self.assertEqual((ran.status, ran.told), (0, ""))
        self.assertIn(STATUSES, ran.out)
        for status in range(5):
            self.assertIn(f"\n  {status}  ", ran.out)
        self.assertIn("clock changes are not handled", ran.out)
        self.assertIn("A safe split\nloses none, holds every price at 0 or above", ran.out)
        self.assertEqual([line for line in ran.out.splitlines() if len(line) > 80], [])

    def test_version(self):
        self.assertRegex(run("--version").out, r"^havgrunel [0-9.]+\n$")


class Tables(InAFolder):
    def test_the_heads_say_which_is_which(self):
        lines = run(WINTER).out.splitlines()
        self.assertEqual(lines[3], "day          average   price at its start   running total at its end")

    def test_the_heading_tells_the_settings(self):
        """First what the order sets, then the rest, with the default that it is of. A split, a held period and extrapolation stand there where they are set."""
        for text, head in (
            ("", "default: quadraticity 0.3, monotonicity 0.7, positivity off"),
            ("settings: Default\nsplit: original\n", "default: quadraticity 0.3, monotonicity 0.7, positivity off"),
            ("settings: gas\n", "gas default: quadraticity 0.3, monotonicity 0.7, positivity on"),
            ("settings: GAS\nquadraticity: 0\n", "quadraticity 0; gas default: monotonicity 0.7, positivity on"),
            ("quadraticity: 0.3\nsplit: careful\nsettings: gas\n", "quadraticity 0.3, careful split; gas default: monotonicity 0.7, positivity on"),
            ("positivity: on\nsplit: safe\n", "positivity on, safe split; default: quadraticity 0.3, monotonicity 0.7"),
            ("positivity: off\nsettings: gas\n", "positivity off; gas default: quadraticity 0.3, monotonicity 0.7"),
            ("settings: gas\nquadraticity: 1\nmonotonicity: 0\npositivity: off\n", "quadraticity 1, monotonicity 0, positivity off"),
            ("split: Careful\npositivity: off\nhold last period: on\n", "positivity off, careful split, hold last period on; default: quadraticity 0.3, monotonicity 0.7"),
        ):
            with self.subTest(text=text):
                told = run("-", text=f"{text}{SHORT}").out.splitlines()[0]
                self.assertEqual(told, f"1 period{'; ' if head.partition('default:')[0] in ('', 'gas ') else ', '}{head}")
        file = example("desk", "gas-months.csv")
        self.assertEqual(run_gas("--set", "split: careful", file).out.splitlines()[0], "6 periods, careful split; gas default: quadraticity 0.3, monotonicity 0.7, positivity on")

    def test_positivity_that_nothing_sets(self):
        """It is told on standard error, in whatever way the answer is shown, until a default or positivity is set."""
        said = "standard input: positivity is not set, and is off by the default; 'settings: gas' has it on\n"
        for words in ["-"], ["--exact", "-"], ["--csv", "-", "-"], ["--tsv", "-", "-"], ["--plot", "-", "-"], ["--bytes", self.path("a.order"), "-"]:
            with self.subTest(words=words):
                self.assertEqual(run(*words, text=SHORT)[::2], (0, said))
                self.assertEqual(run(*words, text=f"quadraticity: 0\n{SHORT}")[::2], (0, said))
                for setting in "settings: default", "settings: gas", "positivity: off", "positivity: on":
                    self.assertEqual(run(*words, text=f"{setting}\n{SHORT}")[::2], (0, ""))
                    self.assertEqual(run("--set", setting, *words, text=SHORT)[::2], (0, ""))
        table = self.written("a.csv", "2026-10,3\n2026-11,4\n")
        self.assertEqual(run(table).told, said.replace("standard input", table))
        self.assertEqual(run_gas(table).told, "")

    def test_a_split_without_positivity(self):
        """It does nothing, and an order from before the second default asked for something by it."""
        for split in "careful", "safe":
            off = f"standard input:2: a {split} split does nothing while positivity is off\n"
            self.assertEqual(run("-", text=f"positivity: off\nsplit: {split}\n{SHORT}").told, off)
            said = run("-", text=f"\nsplit: {split}\n{SHORT}")
            self.assertEqual((said.status, said.told.splitlines(keepends=True)[1:]), (0, [off]))
            self.assertEqual(run_gas("-", text=f"\nsplit: {split}\n{SHORT}").told, "")
            option = f"standard input: --set 'split: {split}': a {split} split does nothing while positivity is off\n"
            self.assertEqual(run("--set", f"split: {split}", "-", text=f"positivity: off\n{SHORT}").told, option)

    def test_the_two_defaults_differ_in_positivity_alone(self):
        """An order of before has its old answers by the gas default, and those of positivity off without it."""
        table = "0\n4 38\n8 45\n12 12\n16 2\n20 64\n24 52\nhourly\n"
        rows = {setting: run("--exact", "-", text=f"{setting}\n{table}").out.splitlines()[1:] for setting in ("", "settings: gas", "positivity: on", "positivity: off")}
        self.assertEqual((rows[""], rows["settings: gas"]), (rows["positivity: off"], rows["positivity: on"]))
        self.assertNotEqual(rows[""], rows["settings: gas"])

    def test_the_careful_split_on_the_command_line(self):
        self.assertEqual(run("--set", "split: careful", example("falling-month-splits.txt")), run(example("falling-month-careful.txt")))
        self.assertEqual(run("--set", "split: original", example("falling-month-splits.txt")), run(example("falling-month-splits.txt")))
        self.assertEqual([row[1] for row in table_rows(run(example("falling-month-careful.txt")).out) if row[0] == "1.75"], ["2.3125"])

    def test_the_safe_split_on_the_command_line(self):
        """It answers the orders of the careful split as that one does, and what only it answers."""
        for name in "falling-month", "summer-gas", "winter-gas":
            careful, safe = (run("--set", f"split: {split}", example(f"{name}-splits.txt")) for split in ("careful", "safe"))
            self.assertEqual((safe.status, safe.out, safe.told), (0, careful.out.replace("careful split", "safe split"), ""))
        for name in "cheap-first-month", "zero-hour":
            self.assertEqual(run("--set", "split: safe", example(f"{name}.txt")), run(example(f"{name}-safe.txt")))

    def test_the_examples_of_the_safe_split(self):
        ran = run(example("cheap-first-month-safe.txt"))
        averages = [float(row[1]) for row in table_rows(ran.out)]
        self.assertEqual((ran.status, ran.told, ran.out.splitlines()[-1], min(averages)), (0, "", "all 3 averages kept", 0.0))
        self.assertAlmostEqual(sum(averages[:28]) / 28, 0.62, 4)
        ran = run(example("zero-hour-safe.txt"))
        self.assertEqual((ran.status, ran.told, ran.out.splitlines()[-1]), (0, "", "all 3 averages kept"))
        self.assertEqual([row[1] for row in table_rows(ran.out)], ["2.5000", "2.1250", "1.6562", "0.0000", "0.0000", "0.0000", "1.0000", "2.1250", "2.5000"])
        ran = run(example("free-months.txt"))
        days = table_rows(ran.out)
        self.assertEqual((ran.status, ran.told, ran.out.splitlines()[-1], len(days)), (0, "", "all 12 averages kept", 365))
        self.assertEqual({row[1] for row in days if row[0][:7] in ("2027-04", "2027-05", "2027-12")}, {"0.0000"})
        self.assertEqual(min(float(cell) for row in days for cell in row[1:]), 0.0)

    def test_two_tables(self):
        out = run("-", text="2026-10 3\n2026-11 4\nat 2026-10-15\ndaily\n").out
        self.assertEqual(sum(line.startswith("---") for line in out.splitlines()), 2)

    def test_every_example(self):
        lose = {"falling-month-splits.txt", "summer-gas-splits.txt", "winter-gas-splits.txt", "flat-months.txt", "power-negative-positivity.txt", "zero-hour.txt", "equal-months.txt"}
        for name in sorted(os.listdir(EXAMPLES)):
            if name.endswith(".txt"):
                with self.subTest(file=name):
                    ran = run(example(name))
                    self.assertEqual((ran.status, bool(table_rows(ran.out))), (4 if name in lose else 0, True))

    def test_exact_numbers_read_back(self):
        rows = table_rows(run("--exact", example("worked-order.txt")).out)
        self.assertEqual(rows, [["1", "2", "2"], ["2", "2", "4"]])

    def test_hours_are_told_with_their_time(self):
        out = run(example("desk", "week-of-power.txt")).out
        self.assertEqual((len(table_rows(out)), table_rows(out)[1][0]), (168, "2026-06-08 01:00"))

    def test_the_same_command_as_a_module(self):
        done = subprocess.run([sys.executable, "-m", "havgrunel", WINTER], cwd=os.path.join(HOME, "python"), stdout=subprocess.PIPE, check=True, timeout=60)
        self.assertEqual(done.stdout.decode(), run(WINTER).out)

    def test_a_file_of_any_name(self):
        for name in ("a b.txt", "ü.txt", "STRIP.CSV"):
            self.assertEqual(run(self.written(name, "2026-10,3\n" if name.endswith("CSV") else SHORT)).status, 0)


class Files(InAFolder):
    def test_over_one_of_its_own_kind(self):
        for option, name in ("--csv", "a.csv"), ("--tsv", "a.tsv"), ("--plot", "a.svg"), ("--bytes", "a.order"):
            with self.subTest(option=option):
                order = self.written("order.txt", SHORT)
                self.assertEqual(run_gas(option, self.path(name), order), (0, "", ""))
                first = self.read(name)
                self.assertEqual(run_gas(option, self.path(name), order), (0, "", ""))
                self.assertEqual(self.read(name), first)

    def test_over_nothing_else(self):
        order = self.written("order.txt", SHORT)
        kept = self.written("kept", "month,price\n2026-10,3\n")
        for option in "--csv", "--tsv", "--plot", "--bytes":
            with self.subTest(option=option):
                ran = run(option, kept, order)
                self.assertEqual((ran.status, ran.out), (3, ""))
                self.assertRegex(ran.told, rf"^order: .*kept is there and is not .*; {option} writes a new file, or over one of that kind\n$")
        self.assertEqual(self.read("kept"), b"month,price\n2026-10,3\n")
        self.assertEqual(run("--csv", self.written("empty", b""), order).status, 0)
        self.assertEqual(run("--csv", "/dev/null", order).status, 0)

    def test_never_over_an_order_that_is_read(self):
        run("--csv", self.path("strip.csv"), self.written("order.txt", "2026-10 3\n2026-11 4\ndaily\n"))
        before = self.read("strip.csv")
        os.symlink(self.path("strip.csv"), self.path("link.csv"))
        for name in "strip.csv", "link.csv":
            ran = run("--csv", self.path(name), self.path("strip.csv"))
            self.assertEqual((ran.status, ran.told), (3, f"order: {self.path(name)} is an order that is read, and --csv does not write over it\n"))
        self.assertEqual(self.read("strip.csv"), before)

    def test_nothing_is_written_of_an_order_that_fails(self):
        for text in ("0\n1 x\nat 0\n", "1\n0 2\nat 0\n"):
            run("--csv", self.path("out.csv"), self.written("order.txt", text))
            self.assertFalse(os.path.exists(self.path("out.csv")))

    def test_one_table_to_a_file(self):
        ran = run("--csv", "-", "-", text="2026-10 3\n2026-11 4\nat 2026-10-15\ndaily\n")
        self.assertEqual(ran, (2, "", "standard input asks for 'at' and 'daily', and --csv writes one table: ask for one of them\n"))

    def test_bytes(self):
        with open(os.path.join(HOME, "crates", "curveorder", "stdin"), "rb") as file:
            worked = file.read()
        self.assertEqual(run("--bytes", self.path("worked.order"), example("worked-order.txt")), (0, "", ""))
        self.assertEqual(self.read("worked.order"), worked)
        order = self.written("order.txt", "2028-02-01\n2028-03-01 3\nat 2028-02-29\n")
        self.assertEqual(run("--bytes", self.path("worked.order"), order).status, 0)
        self.assertEqual(self.read("worked.order")[-8:], struct.pack(">d", 28.0))
        self.assertEqual(run("--bytes", "-", "-", text="2026-10 3\n2026-11 4\n2026-12 3\ndaily\n").told, "standard input:4: an order's bytes ask for at most 64 points, and this asks for 93\n")
        self.assertEqual(run("--bytes", "-", "-", text="".join(f"{k} {k + 1} 1\n" for k in range(200)) + "at 0\n").told, "standard input:200: an order's bytes have at most 200 knots\n")

    def test_a_safe_split_has_no_bytes(self):
        safe = self.written("safe.txt", f"split: safe\n{SHORT}")
        said = "an order's bytes mean the original split, and there are none for a safe one"
        self.assertEqual(run("--bytes", self.path("a.order"), safe), (2, "", f"{safe}:1: {said}\n"))
        self.assertFalse(os.path.exists(self.path("a.order")))

    def test_a_careful_split_has_no_bytes(self):
        said = "an order's bytes mean the original split, and there are none for a careful one"
        careful = self.written("careful.txt", f"split: careful\n{SHORT}")
        self.assertEqual(run("--bytes", self.path("a.order"), careful), (2, "", f"{careful}:1: {said}\n"))
        self.assertFalse(os.path.exists(self.path("a.order")))
        self.assertEqual(run("--bytes", "-", "--set", "split: careful", "-", text=SHORT), (2, "", f"standard input: --set 'split: careful': {said}\n"))
        many = "split: careful\n" + "".join(f"{k} {k + 1} 1\n" for k in range(200)) + "at 0\n"
        self.assertEqual(run("--bytes", "-", "-", text=many), (2, "", f"standard input:1: {said}\n"))
        plain, original = (run_gas("--bytes", self.path(name), self.written("order.txt", f"{text}{SHORT}")) for name, text in (("b.order", ""), ("c.order", "split: original\n")))
        self.assertEqual((plain, original, self.read("b.order")), ((0, "", ""), (0, "", ""), self.read("c.order")))
        self.assertEqual(run("--bytes", self.path("b.order"), careful).status, 2)
        self.assertEqual(self.read("b.order"), self.read("c.order"))

    def test_pictures(self):
        self.assertEqual(run("--plot", self.path("a.svg"), "--scale", "0:50", WINTER), (0, "", ""))
        self.assertIn(b"<svg", self.read("a.svg"))
        ran = run("--plot", self.path("b.svg"), WINTER, example("summer-gas.txt"))
        self.assertEqual((ran.status, "has another table than" in ran.told, os.path.exists(self.path("b.svg"))), (2, True, False))
        self.assertEqual(run("--plot", "-", *[WINTER] * 5).status, 2)
        ran = run("--plot", "-", "-", text="0\n1 1e308\n2 -1e308\nat 0\n")
        self.assertIn(ran.status, (3, 4))


class NoTraceback(InAFolder):
    """Each of these once ended in a traceback, or may."""

    def ends(self, done, status, said):
        told = done.stderr.decode()
        self.assertNotIn("Traceback", told)
        self.assertEqual((done.returncode, told), (status, said))

    def shell(self, line, more=None):
        return subprocess.run(["sh", "-c", line, sys.executable, ORDER, WINTER], stdin=subprocess.DEVNULL, stdout=subprocess.PIPE, stderr=subprocess.PIPE, env={**os.environ, **(more or {})}, timeout=60)

    @unittest.skipUnless(os.path.exists("/dev/full"), "there is no /dev/full")
    def test_a_full_disk(self):
        self.ends(self.shell('"$0" "$1" "$2" >/dev/full'), 3, "order: standard output cannot be written: No space left on device\n")
        self.ends(self.shell('"$0" "$1" --csv /dev/full "$2"'), 3, "order: /dev/full cannot be written: No space left on device\n")
        self.assertEqual(self.shell('"$0" "$1" "$2" 2>/dev/full >/dev/full').returncode, 3)
        self.ends(self.shell('"$0" "$1" --help >/dev/full'), 3, "order: standard output cannot be written: No space left on device\n")

    def test_closed_standard_output(self):
        self.ends(self.shell('"$0" "$1" "$2" >&-'), 3, "order: standard output is closed\n")

    def test_closed_standard_input(self):
        self.ends(self.shell('"$0" "$1" - <&-'), 3, "order: standard input is closed, and '-' asks to read it\n")
        self.ends(self.shell('"$0" "$1" "$2" <&-'), 0, "")

    def test_closed_standard_error(self):
        done = self.shell('"$0" "$1" none.txt 2>&-')
        self.assertEqual((done.returncode, done.stdout), (3, b""))

    def test_a_reader_that_has_seen_enough(self):
        self.ends(self.shell('"$0" "$1" "$2" | head -n 1'), 0, "")

    def test_ctrl_c(self):
        process = subprocess.Popen([sys.executable, ORDER, "-"], stdin=subprocess.PIPE, stdout=subprocess.PIPE, stderr=subprocess.PIPE)
        time.sleep(1.0)
        process.send_signal(signal.SIGINT)
        out, told = process.communicate(timeout=60)
        self.assertEqual((process.returncode, out, told), (130, b"", b"order: stopped by Ctrl-C\n"))

    def copy(self):
        """The command and the package in a folder of their own, with no library."""
        shutil.copy(ORDER, self.path("order"))
        shutil.copytree(os.path.join(HOME, "python", "havgrunel"), self.path("python/havgrunel"), ignore=shutil.ignore_patterns("__pycache__", "*.so"))
        os.mkdir(self.path("tools"))
        shutil.copy(os.path.join(HOME, "tools", "archive"), self.path("tools/archive"))
        os.mkdir(self.path("empty"))
        kept = {name: value for name, value in os.environ.items() if name != "HAVGRUNEL_LIBRARY"}
        return {**kept, "PATH": self.path("empty")}

    def test_no_kit_and_no_library(self):
        done = subprocess.run([sys.executable, self.path("order"), WINTER], env=self.copy(), stdout=subprocess.PIPE, stderr=subprocess.PIPE, timeout=60)
        told = done.stderr.decode()
        self.assertEqual((done.returncode, done.stdout, len(told.splitlines())), (3, b"", 2), told)
        self.assertIn("the Rattle kit", told)
        self.assertIn("HAVGRUNEL_LIBRARY", told)
        self.assertIn("README.md", told)

    def test_no_kit_but_a_library(self):
        from havgrunel import _library

        built = _library.load()._name
        done = subprocess.run([sys.executable, self.path("order"), WINTER], env={**self.copy(), "HAVGRUNEL_LIBRARY": built}, stdout=subprocess.PIPE, stderr=subprocess.PIPE, timeout=60)
        self.assertEqual((done.returncode, done.stdout.decode(), done.stderr), (0, run(WINTER).out, b""))

    def test_a_library_that_is_none(self):
        for path, said in ((self.path("none.so"), "cannot be loaded"), (self.written("bad.so", "x"), "cannot be loaded")):
            done = start([WINTER], {"HAVGRUNEL_LIBRARY": path}, stdout=subprocess.PIPE, stderr=subprocess.PIPE)
            self.assertEqual((done.returncode, done.stdout), (3, b""))
            self.assertIn(said, done.stderr.decode())
            self.assertNotIn("Traceback", done.stderr.decode())

    def test_another_system(self):
        """A stand-in for another system: what Python says of the system is changed before the command starts."""
        env = self.copy()
        lines = f"import sys, runpy\nsys.platform = 'darwin'\nsys.argv = [{self.path('order')!r}, {WINTER!r}]\nrunpy.run_path(sys.argv[0], run_name='__main__')\n"
        done = subprocess.run([sys.executable, "-c", lines], env=env, stdout=subprocess.PIPE, stderr=subprocess.PIPE, timeout=60)
        told = done.stderr.decode()
        self.assertEqual((done.returncode, done.stdout), (3, b""), told)
        self.assertIn(f"this system is {platform.system()}", told)

    def test_examples_with_a_few_bytes_changed(self):
        """Whatever a slip makes of a file, it is answered, refused or told."""
        more = [b"\n", b" ", b"-", b",", b";", b"\t", b".", b"#", b":", b'"', b"nan", b"inf", b"1e308", b"0", b"2026-10", b"Win-26", b"at ", b"daily\n", b"hourly\n", b"\xff", b"\0", b" 14:00", b"9999-12-31", b"monotonicity: 1\n"]
        draw, files = random.Random(16), []
        for folder, _, names in os.walk(EXAMPLES):
            for name in sorted(names):
                if not name.endswith(".md"):
                    with open(os.path.join(folder, name), "rb") as file:
                        files.append((name, file.read()))
        seen = set()
        for trial in range(1500):
            name, data = draw.choice(sorted(files))
            for _ in range(draw.randint(1, 4)):
                k = draw.randrange(len(data) + 1)
                data = data[:k] + draw.choice(more) + data[k + draw.choice([0, 1, 3, 20]) :]
            read = read_csv if name.endswith("sv") else read_order
            try:
                answered = answer(read(name, data, knots=trial % 3 == 0))
                printed(answered)
                seen.add(answered.status)
            except Stop as stop:
                self.assertTrue(all(len(line) < 400 and line.isprintable() for line in stop.lines), stop.lines)
                seen.add(stop.status)
        self.assertEqual(seen, {0, 1, 2, 4})

    def test_bytes_that_are_no_text(self):
        for data in (b"\x00\x01\x02\xff", b"\xff\xfe0\x00", bytes(range(256)) * 40, b"0" * 100000, b":\n" * 1000, "title: \ud800".encode("utf-8", "surrogatepass")):
            for name in ("x.txt", "x.csv"):
                with self.subTest(data=data[:10], name=name):
                    ran = run(self.written(name, data))
                    self.assertIn(ran.status, (1, 2))
                    self.assertTrue(all(len(line) < 400 for line in ran.told.splitlines()), ran.told[:500])


if __name__ == "__main__":
    unittest.main()
