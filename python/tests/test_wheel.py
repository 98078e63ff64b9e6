"""The wheel: what is in it, and that a Python without the repository and without the kit takes it."""

import base64
import hashlib
import importlib.util
import os
import subprocess
import sys
import tempfile
import unittest
import zipfile

from havgrunel import __version__, _library

TOOL = os.path.join(_library.REPOSITORY, "tools", "wheel")
CURVE = "import havgrunel; print(havgrunel.Curve([0, 1, 2], [0, 1, 3], havgrunel.Method(0, 1, False)).averages([0, 1, 2]), havgrunel.__file__)"


def made(folder):
    """The path of a wheel that is written into the folder."""
    done = subprocess.run([sys.executable, TOOL, folder], stdout=subprocess.PIPE, check=True, text=True)
    return done.stdout.rstrip("\n")


class Contents(unittest.TestCase):
    def test_the_same_bytes_every_time(self):
        with tempfile.TemporaryDirectory() as folder:
            wholes = []
            for k in "12":
                with open(made(os.path.join(folder, k)), "rb") as file:
                    wholes.append(file.read())
        self.assertEqual(wholes[0], wholes[1])

    def test_the_list_of_files_is_right(self):
        with tempfile.TemporaryDirectory() as folder, zipfile.ZipFile(made(folder)) as wheel:
            about = f"havgrunel-{__version__}.dist-info"
            listed = [line.split(",") for line in wheel.read(f"{about}/RECORD").decode().splitlines()]
            self.assertEqual([name for name, _, _ in listed], wheel.namelist())
            for name, told, size in listed[:-1]:
                data = wheel.read(name)
                due = base64.urlsafe_b64encode(hashlib.sha256(data).digest()).decode().rstrip("=")
                self.assertEqual((told, size), (f"sha256={due}", str(len(data))))
            for name in (f"{about}/LICENSE", f"{about}/NOTICE", f"{about}/METADATA", "havgrunel/py.typed", "havgrunel/libhavgrunel.so"):
                self.assertIn(name, wheel.namelist())

    def test_words_that_are_none(self):
        done = subprocess.run([sys.executable, TOOL, "--what"], stderr=subprocess.PIPE, check=False)
        self.assertEqual((done.returncode, done.stderr), (2, b"wheel: tools/wheel [FOLDER]\n"))


@unittest.skipIf(importlib.util.find_spec("ensurepip") is None, "this Python has no ensurepip, so no venv with pip")
class Installed(unittest.TestCase):
    def test_it_is_installed_offline_and_answers(self):
        with tempfile.TemporaryDirectory() as folder:
            there = os.path.join(folder, "venv")
            env = {"PATH": os.path.join(there, "bin"), "HOME": folder, "LC_ALL": "C.UTF-8", "PYTHONDONTWRITEBYTECODE": "1"}

            def run(*words):
                return subprocess.run(words, cwd=folder, env=env, stdout=subprocess.PIPE, stderr=subprocess.STDOUT, check=False, text=True)

            python = os.path.join(there, "bin", "python3")
            done = run(sys.executable, "-m", "venv", there)
            self.assertEqual(done.returncode, 0, done.stdout)
            done = run(python, "-I", "-m", "pip", "install", "--no-index", "--disable-pip-version-check", "--no-compile", made(folder))
            self.assertEqual(done.returncode, 0, done.stdout)
            done = run(python, "-I", "-c", CURVE)
            self.assertEqual((done.returncode, done.stdout[:10]), (0, "[1.0, 3.0]"), done.stdout)
            self.assertIn(there, done.stdout)
            command = os.path.join(there, "bin", "havgrunel")
            done = run(command, "--version")
            self.assertEqual((done.returncode, done.stdout), (0, f"havgrunel {__version__}\n"))
            done = run(command, os.path.join(_library.REPOSITORY, "examples", "winter-gas.txt"))
            self.assertEqual(done.returncode, 0, done.stdout)
            self.assertIn("Gas, winter 2026/27", done.stdout)


if __name__ == "__main__":
    unittest.main()
