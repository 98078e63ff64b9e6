"""The declarations against c/havgrunel.h, and how the library is found."""

import ctypes
import os
import re
import subprocess
import sys
import tempfile
import unittest
import unittest.mock

import havgrunel
from havgrunel import _library, curve, refusals

PACKAGES = os.path.dirname(_library.HERE)
TYPES = {
    "double": ctypes.c_double,
    "bool": ctypes.c_bool,
    "size_t": ctypes.c_size_t,
    "int64_t": ctypes.c_int64,
    "uint8_t": ctypes.c_uint8,
    "uint16_t": ctypes.c_uint16,
}


def read(*path):
    with open(os.path.join(_library.REPOSITORY, *path), encoding="utf-8") as file:
        return file.read()


def python(code, *, library=None, cwd=None, path=PACKAGES):
    """Runs some lines in a Python of their own: its status, what it wrote, and what it told."""
    env = {"PATH": os.environ.get("PATH", ""), "PYTHONPATH": path, "PYTHONDONTWRITEBYTECODE": "1"}
    if library is not None:
        env[_library.VARIABLE] = library
    done = subprocess.run([sys.executable, "-c", code], env=env, cwd=cwd or os.sep, stdout=subprocess.PIPE, stderr=subprocess.PIPE, text=True, check=False)
    return done.returncode, done.stdout, done.stderr


def typed(declaration):
    """The ctypes type of a C declaration such as `const double *knots` or `size_t`."""
    if declaration == "struct havgrunel_many":
        return _library.Told
    words = declaration.replace("const ", "").replace("*", " * ").split()
    plain = TYPES[words[0]]
    return ctypes.POINTER(plain) if "*" in words else plain


def header():
    """The functions of the header: what each answers, and what it takes."""
    text = re.sub(r"/\*.*?\*/", "", read("c", "havgrunel.h"), flags=re.DOTALL)
    found = {}
    for answers, name, takes in re.findall(r"^((?:struct )?\w+) (havgrunel_\w+)\(([^)]*)\);", text, re.MULTILINE):
        parts = [part.strip() for part in takes.split(",")]
        found[name] = (typed(answers), [] if parts == ["void"] else [typed(part) for part in parts])
    return found


class Declarations(unittest.TestCase):
    def test_they_are_the_header_s(self):
        functions = header()
        self.assertEqual(len(functions), 39)
        for name, declared in _library.DECLARED.items():
            self.assertEqual(declared, functions[name], name)

    def test_what_many_answer_is_the_header_s(self):
        """The fields of the struct, in their order."""
        fields = re.search(r"struct havgrunel_many \{\n(.*?)\};", read("c", "havgrunel.h"), re.DOTALL)[1]
        self.assertEqual([(name, typed(kind)) for kind, name in re.findall(r"(\w+) (\w+);", fields)], _library.Told._fields_)

    def test_the_library_has_every_function_of_the_header(self):
        library = _library.load()
        for name in header():
            self.assertTrue(hasattr(library, name), name)

    def test_the_sizes_are_the_header_s(self):
        text = read("c", "havgrunel.h")
        self.assertEqual(int(re.search(r"#define HAVGRUNEL_SLOTS (\d+)", text)[1]), havgrunel.SLOTS)
        self.assertEqual(int(re.search(r"#define HAVGRUNEL_MOST_POINTS (\d+)", text)[1]), havgrunel.MOST_POINTS)

    def test_the_splits_are_the_header_s(self):
        found = re.findall(r"#define HAVGRUNEL_SPLIT_(\w+) (\d+)", read("c", "havgrunel.h"))
        self.assertEqual([(name.lower(), int(number)) for name, number in found], [(split, k) for k, split in enumerate(curve.SPLITS)])

    def test_a_split_of_another_number(self):
        """The package has no such split; the library refuses it before everything else, even where nothing was lent."""
        nothing = (None, 0)
        for number in 3, 255:
            told = _library.load().havgrunel_build(*nothing, *nothing, 9.0, 9.0, True, number, False, False, 0, 0.0, *nothing * 5)
            self.assertEqual((told, havgrunel.Refused(told).name), (30, "SPLIT_UNKNOWN"))
            self.assertEqual(str(havgrunel.Refused(told)), "the split's number is none of 0, 1 and 2 (refusal 30)")
            self.assertEqual(_library.load().havgrunel_build_in_sheets(*nothing, *nothing, 9.0, 9.0, True, number, *nothing, *nothing * 5), 30)

    def test_the_refusals_are_the_header_s(self):
        found = re.findall(r"HAVGRUNEL_(\w+) = ([1-9]\d*),? */\* (.*) \*/", read("c", "havgrunel.h"))
        self.assertEqual({int(number): name for name, number, _ in found}, {k: name for k, name in refusals.NAMES.items() if k != 17})
        self.assertEqual({int(number): words for _, number, words in found}, {k: words for k, words in refusals.REFUSALS.items() if k != 17})

    def test_the_version_is_the_rust_crate_s(self):
        self.assertEqual(re.search(r'^version = "(.*)"$', read("rust", "Cargo.toml"), re.MULTILINE)[1], havgrunel.__version__)


class Finding(unittest.TestCase):
    def test_a_library_that_lacks_a_function(self):
        """One from before refusal 21 lacks a function that came with it. Its calls for many answer another thing, and must not be called."""
        self.assertIn("havgrunel_column_entry", _library.DECLARED)
        with unittest.mock.patch.dict(_library.DECLARED, {"havgrunel_of_later": (ctypes.c_bool, [])}):
            with self.assertRaisesRegex(havgrunel.LibraryMissing, "is not the library of this package: it has no function havgrunel_of_later"):
                _library._opened(_library.load()._name)

    def test_a_library_with_other_records(self):
        """A record of 24 slots was all there was before the prices at its knots. Read as 27 it would be another section's."""
        path = _library.load()._name
        self.assertEqual(_library._slots(_library.load()), havgrunel.SLOTS)
        for slots, have in (28, "27"), (51, "27"), (26, "more"), (24, "more"):
            with unittest.mock.patch.object(_library, "SLOTS", slots):
                with self.assertRaisesRegex(havgrunel.LibraryMissing, f"is not the library of this package: its records have {have} slots, and this package reads {slots}"):
                    _library._opened(path)

    def test_the_variable_names_it(self):
        library = _library.load()._name
        code = "import havgrunel; print(havgrunel.sqrt(4), havgrunel._library.load()._name)"
        self.assertEqual(python(code, library=library)[:2], (0, f"2.0 {library}\n"))
        folder, file = os.path.split(library)
        self.assertEqual(python(code, library=file, cwd=folder)[:2], (0, f"2.0 {library}\n"))

    def test_no_library_is_needed_to_import(self):
        self.assertEqual(python("import havgrunel; print(havgrunel.__version__)", library="/nowhere")[0], 0)

    def test_a_file_that_is_none(self):
        code = "import havgrunel\ntry: havgrunel.sqrt(4)\nexcept havgrunel.LibraryMissing as fault: print(fault)"
        told = python(code, library="/nowhere/at.so")
        self.assertEqual(told[0], 0, told)
        self.assertIn("/nowhere/at.so cannot be loaded", told[1])
        with tempfile.TemporaryDirectory() as folder:
            other = os.path.join(folder, "other.so")
            with open(other, "w", encoding="utf-8") as file:
                file.write("no library")
            self.assertIn("cannot be loaded", python(code, library=other)[1])

    def test_a_package_without_its_library(self):
        code = "import havgrunel\ntry: havgrunel.sqrt(4)\nexcept havgrunel.LibraryMissing as fault: print(fault)"
        with tempfile.TemporaryDirectory() as folder:
            os.makedirs(os.path.join(folder, "a", "b", "havgrunel"))
            for name in os.listdir(_library.HERE):
                if name.endswith(".py"):
                    with open(os.path.join(folder, "a", "b", "havgrunel", name), "w", encoding="utf-8") as file:
                        file.write(read("python", "havgrunel", name))
            told = python(code, path=os.path.join(folder, "a", "b"))
        self.assertEqual(told[0], 0, told)
        self.assertIn("Install the wheel", told[1])
        self.assertEqual(len(told[1].splitlines()), 2)


if __name__ == "__main__":
    unittest.main()
