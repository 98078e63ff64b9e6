"""What the documents print of the command is what the command prints."""

import os
import re
import shlex
import subprocess
import sys
import unittest

from runs import HOME, ORDER

DOCUMENTS = ["README.md", "docs/SHAPES.md", "examples/README.md", "examples/desk/README.md"]


def blocks(document):
    """The commands of a document that are shown with what they print: the words after './order', and the lines below."""
    with open(os.path.join(HOME, document), encoding="utf-8") as file:
        lines = file.read().split("\n")
    k = 0
    while k < len(lines):
        if not lines[k].startswith("    $ ./order "):
            k += 1
            continue
        words, shown = shlex.split(lines[k][len("    $ ./order ") :], comments=True), []
        k += 1
        while k < len(lines) and (lines[k].startswith("    ") or not lines[k]) and not lines[k].startswith("    $ "):
            shown.append(lines[k][4:])
            k += 1
        while shown and not shown[-1]:
            shown.pop()
        yield words, shown


def printed(words):
    """Both of the command's outputs as a terminal shows them."""
    done = subprocess.run([sys.executable, ORDER, *words], cwd=HOME, stdin=subprocess.DEVNULL, stdout=subprocess.PIPE, stderr=subprocess.STDOUT, timeout=60)
    return done.stdout.decode().rstrip("\n").split("\n")


def agrees(shown, lines):
    """Whether lines are what is shown, where a line of three points stands for any number of lines."""
    pattern = "".join(r"(?:.*\n)*?" if line.strip() == "..." else re.escape(line) + r"\n" for line in shown)
    return re.fullmatch(pattern, "".join(line + "\n" for line in lines)) is not None


class Documents(unittest.TestCase):
    maxDiff = None

    def test_every_block(self):
        count = 0
        for document in DOCUMENTS:
            for words, shown in blocks(document):
                with self.subTest(document=document, words=words):
                    lines = printed(words)
                    if not agrees(shown, lines):
                        self.assertEqual("\n".join(shown), "\n".join(lines))
                    count += 1
        self.assertGreaterEqual(count, 4)

    def test_lines_that_are_told(self):
        """Lines of a document that begin as a message about an example are told by the command."""
        for document in DOCUMENTS:
            with open(os.path.join(HOME, document), encoding="utf-8") as file:
                found = re.findall(r"^    ((examples/[\w./-]+)(?::\d+)?: .*)$", file.read(), re.MULTILINE)
            for line, name in found:
                with self.subTest(document=document, line=line):
                    self.assertIn(line, printed([name]))

    def test_lowest_and_highest_days(self):
        """The two tables of SHAPES.md that compare settings tell days of the steep winter."""
        with open(os.path.join(HOME, "docs/SHAPES.md"), encoding="utf-8") as file:
            text = file.read()
        for setting, default in ("quadraticity", "0.3"), ("monotonicity", "0.7"):
            rows = text.partition(f"| {setting.capitalize()} | lowest day")[2].partition("\n\n")[0].split("\n")[2:]
            self.assertEqual(len(rows), 3)
            for row in rows:
                value, low, high = (cell.strip() for cell in row.strip("|").split("|"))
                lines = printed([f"examples/steep-winter{'' if value == default else f'-{setting}-{value}'}.txt"])
                days = [line.split()[:2] for line in lines if line.startswith("202")]
                for month, shown, best in ("2026-11", low, min), ("2027-02", high, max):
                    day, average = best((day for day in days if day[0].startswith(month)), key=lambda day: float(day[1]))
                    self.assertRegex(shown, rf"^{re.escape(average)}, the {int(day[-2:])}(st|nd|rd|th)$")

    def test_files_that_are_named(self):
        """Each order that a document names is there."""
        for document in DOCUMENTS:
            with open(os.path.join(HOME, document), encoding="utf-8") as file:
                for name in re.findall(r"examples/[\w/-]+\.(?:txt|csv|tsv)", file.read()):
                    self.assertTrue(os.path.exists(os.path.join(HOME, name)), f"{document}: {name}")


if __name__ == "__main__":
    unittest.main()
