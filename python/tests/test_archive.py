"""What a first run shows and how it ends: tools/archive over a stand-in for rt that proves nothing and takes no time."""

import os
import re
import shutil
import subprocess
import tempfile
import unittest

from havgrunel import _library

ARCHIVE = os.path.join(_library.REPOSITORY, "tools", "archive")
# What rt says of two crates that it proves, in its own words, and then the objects of the archive that is there already.
RT = """\
#!/bin/sh
case $1 in
doc | version) exec {rt} "$@" ;;
lib)
    echo "rt: chose --jobs 2 for numbers"
    echo "crate numbers: modules loaded=0 checked=83"
    echo "logic=proved functions=2"
    echo "rt: chose --jobs 2 for refusal"
    [ ! -e ../../slips ] || {{ echo "crate refusal: modules loaded=0 checked=12"; echo "logic=not-proved"; exit 1; }}
    echo "crate refusal: modules loaded=0 checked=12"
    echo "logic=proved functions=1"
    mkdir -p out
    cp {archive} "out/lib${{PWD##*/}}.a"
    ;;
esac
"""


class Words(unittest.TestCase):
    def test_words_that_are_none(self):
        done = subprocess.run([ARCHIVE, "--what"], stdout=subprocess.PIPE, stderr=subprocess.PIPE, check=False, text=True)
        self.assertEqual((done.returncode, done.stdout, done.stderr), (2, "", "archive: tools/archive [--shared] [--progress | --quiet]\n"))


@unittest.skipIf(shutil.which("rt") is None, "there is no Rattle kit here")
class FirstRun(unittest.TestCase):
    def setUp(self):
        made = subprocess.run([ARCHIVE], stdout=subprocess.PIPE, check=True, text=True).stdout.rstrip("\n")
        folder = tempfile.TemporaryDirectory()
        self.addCleanup(folder.cleanup)
        self.home = os.path.realpath(folder.name)
        os.makedirs(os.path.join(self.home, "tools"))
        os.makedirs(os.path.join(self.home, "bin"))
        shutil.copy(ARCHIVE, os.path.join(self.home, "tools"))
        shutil.copy(os.path.join(_library.REPOSITORY, "crates.txt"), self.home)
        # Folders of its own, since what is made of a crate lies in the crate's folder.
        with open(os.path.join(self.home, "crates.txt"), encoding="utf-8") as listed:
            for name in re.findall(r"^(\w+) staticlib:", listed.read(), re.MULTILINE):
                os.makedirs(os.path.join(self.home, "crates", name))
        with open(os.path.join(self.home, "bin", "rt"), "w", encoding="utf-8") as file:
            file.write(RT.format(rt=shutil.which("rt"), archive=made))
        os.chmod(os.path.join(self.home, "bin", "rt"), 0o755)

    def run_archive(self, *words):
        env = {"PATH": os.path.join(self.home, "bin") + os.pathsep + os.environ["PATH"]}
        command = [os.path.join(self.home, "tools", "archive"), *words]
        done = subprocess.run(command, env=env, stdout=subprocess.PIPE, stderr=subprocess.PIPE, check=False, text=True)
        return done.returncode, done.stdout, done.stderr

    def native(self, name):
        return os.path.join(self.home, "target", "native", name)

    def test_it_shows_crate_by_crate(self):
        status, out, told = self.run_archive("--shared", "--progress")
        self.assertEqual((status, out), (0, self.native("libhavgrunel.so") + "\n"), told)
        lines = told.splitlines()
        self.assertRegex(lines[0], "proving and compiling the library")
        self.assertRegex(lines[1], r"^archive: 1 of \d+ crates: numbers is proved, \d+ s so far$")
        self.assertRegex(lines[2], r"^archive: 2 of \d+ crates: refusal is proved, \d+ s so far$")
        self.assertRegex(lines[-1], r"^archive: the library is proved and compiled, \d+ s in all$")
        # Each static library, and the library that it hands on.
        self.assertEqual(len([line for line in lines if " export_" in line]), 10)
        # What is there is found without a word, and nothing of the work is left.
        self.assertEqual(self.run_archive("--progress"), (0, self.native("libhavgrunel.a") + "\n", ""))
        self.assertEqual(set(os.listdir(self.native(""))) - {"lock"}, {"libhavgrunel.a", "libhavgrunel.so", "log", "sum"})

    def test_without_a_terminal_it_is_quiet(self):
        self.assertEqual(self.run_archive("--shared"), (0, self.native("libhavgrunel.so") + "\n", ""))

    def test_a_crate_that_is_not_proved(self):
        open(os.path.join(self.home, "slips"), "w", encoding="utf-8").close()
        status, out, told = self.run_archive("--shared")
        self.assertEqual((status, out), (1, ""))
        self.assertIn("crate refusal: modules loaded=0 checked=12\nlogic=not-proved\n", told)
        self.assertTrue(told.endswith("archive: a crate is not proved, so there is nothing to link\n"))
        os.remove(os.path.join(self.home, "slips"))
        self.assertEqual(self.run_archive()[0], 0)


if __name__ == "__main__":
    unittest.main()
