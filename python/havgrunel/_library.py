"""Finds the shared library of proved functions, or has it made, and declares its functions.

It is looked for in this order: the file that the variable HAVGRUNEL_LIBRARY names, libhavgrunel.so beside this module (as a wheel has it), and in the
repository that this package lies in the one that tools/archive makes. Only the last may need the Rattle kit.
"""

import ctypes
import os
import platform
import shutil
import subprocess
import sys
import threading
from ctypes import POINTER, c_bool, c_double, c_int64, c_size_t, c_uint8, c_uint16
from typing import Any, Dict, List, Optional, Tuple

# A record of a curve has so many slots. The first are the fields of its section, and all that a section needs to answer by itself.
SLOTS = 27
FIELDS = 24
MOST_POINTS = 4096
VARIABLE = "HAVGRUNEL_LIBRARY"
FILE = "libhavgrunel.so"

HERE = os.path.dirname(os.path.realpath(__file__))
REPOSITORY = os.path.dirname(os.path.dirname(HERE))

_NUMBERS = [POINTER(c_double), c_size_t]
_TAGS = [POINTER(c_uint16), c_size_t]
_COUNTS = [POINTER(c_size_t), c_size_t]
_MARKS = [POINTER(c_bool), c_size_t]
_MONTHS = [c_int64, c_int64, c_uint8]
_METHOD = [c_double, c_double, c_bool, c_uint8]
_TABLE = _NUMBERS + _NUMBERS + _METHOD
_WRITTEN = _NUMBERS + _TAGS + _NUMBERS + _COUNTS + _NUMBERS
_ENDS = [c_bool, c_bool, c_size_t, c_double]
_BUILT = _TABLE + _ENDS + _WRITTEN
_GROWN = _TABLE + [c_size_t, c_size_t, c_bool, c_size_t, c_bool] + _TAGS + _NUMBERS + _WRITTEN
_ASKED = _NUMBERS + _TAGS + _NUMBERS + [c_double, c_double, c_double, c_bool]



class Told(ctypes.Structure):
    """What a call for many answers: its refusal or 0, and the first query or strip that is refused, or the count of all where none is to blame."""

    _fields_ = [("refusal", c_uint8), ("query", c_size_t)]
    refusal: int
    query: int


# The functions of c/havgrunel.h that this package calls: what each answers, and what it takes. A library from before numbers that are not finite were
# refused has no havgrunel_column_entry, and is refused by that: its calls for many answer a refusal alone.
DECLARED: Dict[str, Tuple[Any, List[Any]]] = {
    "havgrunel_sqrt": (c_double, [c_double]),
    "havgrunel_default_quadraticity": (c_double, []),
    "havgrunel_default_monotonicity": (c_double, []),
    "havgrunel_default_positivity": (c_bool, []),
    "havgrunel_gas_quadraticity": (c_double, []),
    "havgrunel_gas_monotonicity": (c_double, []),
    "havgrunel_gas_positivity": (c_bool, []),
    "havgrunel_build": (c_uint8, _BUILT),
    "havgrunel_build_with_column": (c_uint8, _BUILT + _NUMBERS),
    "havgrunel_grow": (c_uint8, _GROWN),
    "havgrunel_grow_with_column": (c_uint8, _GROWN + _NUMBERS),
    "havgrunel_build_in_sheets": (c_uint8, _TABLE + _COUNTS + _WRITTEN),
    "havgrunel_month_knots": (c_uint8, _MONTHS + _NUMBERS + _COUNTS),
    "havgrunel_build_months": (c_uint8, _MONTHS + _NUMBERS + _METHOD + _ENDS + _NUMBERS + _WRITTEN),
    "havgrunel_value": (c_uint8, _ASKED + [c_double] + _NUMBERS),
    "havgrunel_primitive": (c_uint8, _ASKED + [c_double] + _NUMBERS),
    "havgrunel_values": (Told, _ASKED + _NUMBERS + _NUMBERS),
    "havgrunel_primitives": (Told, _ASKED + _NUMBERS + _NUMBERS),
    "havgrunel_strip": (c_uint8, _ASKED + [c_double, c_double] + _NUMBERS),
    "havgrunel_strips": (Told, _ASKED + _NUMBERS + _NUMBERS + _NUMBERS),
    "havgrunel_strip_run": (Told, _ASKED + _NUMBERS + _NUMBERS),
    "havgrunel_strip_between": (c_uint8, _NUMBERS + _NUMBERS + [c_size_t, c_size_t] + _NUMBERS),
    "havgrunel_column_entry": (c_uint8, _NUMBERS + [c_size_t] + _NUMBERS),
    "havgrunel_record": (c_uint8, [c_size_t] + _NUMBERS + [c_size_t] + _NUMBERS),
    "havgrunel_section": (c_uint8, [c_uint16] + _NUMBERS + [c_double] + _NUMBERS + _MARKS),
}


class LibraryMissing(RuntimeError):
    """There is no library to call, and none could be made. The message says in a few lines what is needed."""


_lock = threading.Lock()
_loaded: Optional[ctypes.CDLL] = None


def load(progress: Optional[bool] = None) -> ctypes.CDLL:
    """The library, with its functions declared. The first call in a process finds it, or has it made; later ones answer the same.

    Where it has to be made, what is being proved is shown on standard error, crate by crate: always with `progress`, never where that is False, and
    with None where standard error is a terminal.
    """
    global _loaded
    if _loaded is None:
        with _lock:
            if _loaded is None:
                _loaded = _opened(_found(progress))
    return _loaded


def _found(progress: Optional[bool]) -> str:
    named = os.environ.get(VARIABLE)
    if named:
        return named
    beside = os.path.join(HERE, FILE)
    if os.path.exists(beside):
        return beside
    return _made(progress)


def _made(progress: Optional[bool]) -> str:
    """The path of the repository's own library, made by tools/archive where it is not there or not of these sources."""
    archive = os.path.join(REPOSITORY, "tools", "archive")
    if not os.path.exists(archive):
        raise LibraryMissing(
            f"havgrunel: the library of proved functions, {FILE}, is not beside this package.\n"
            f"Install the wheel that tools/wheel writes, or let the variable {VARIABLE} name the file."
        )
    if sys.platform != "linux":
        raise LibraryMissing(
            f"havgrunel: the library of proved functions is made for Linux on x86-64 and Arm, and this system is {platform.system() or sys.platform}.\n"
            "README.md says what is needed."
        )
    if shutil.which("rt") is None:
        raise LibraryMissing(_no_kit())
    words = [archive, "--shared"] + ([] if progress is None else ["--progress" if progress else "--quiet"])
    try:
        making = subprocess.Popen(words, stdin=subprocess.DEVNULL, stdout=subprocess.PIPE)
    except OSError as fault:
        raise LibraryMissing(f"havgrunel: tools/archive, which makes the library, cannot be run: {fault.strerror}.") from None
    try:
        told, _ = making.communicate()
    except BaseException:
        # Stopped, by Ctrl-C as it may be. It ends what it has started, and is waited for so that its last word comes before ours.
        making.terminate()
        making.wait()
        raise
    if making.returncode != 0:
        raise LibraryMissing(f"havgrunel: the library of proved functions could not be made (tools/archive ended with status {making.returncode}).")
    return os.fsdecode(told).rstrip("\n").rpartition("\n")[2]


def _no_kit() -> str:
    built = os.path.join(REPOSITORY, "target", "native", FILE)
    if os.path.exists(built):
        way = f"The one of an earlier run is used, as it is, with {VARIABLE}={built}."
    else:
        way = f"A library that was made elsewhere is used where the variable {VARIABLE} names it; README.md says what else is needed."
    return f"havgrunel: it takes the Rattle kit (rt on the path) to make the library of proved functions, and there is none here.\n{way}"


def _opened(path: str) -> ctypes.CDLL:
    try:
        library = ctypes.CDLL(os.path.abspath(path))
    except OSError as fault:
        raise LibraryMissing(f"havgrunel: the library {path} cannot be loaded: {fault}") from None
    for name, (answers, takes) in DECLARED.items():
        try:
            function = getattr(library, name)
        except AttributeError:
            raise LibraryMissing(f"havgrunel: {path} is not the library of this package: it has no function {name}.") from None
        function.restype = answers
        function.argtypes = takes
    slots = _slots(library)
    if slots != SLOTS:
        raise LibraryMissing(f"havgrunel: {path} is not the library of this package: its records have {slots or 'more'} slots, and this package reads {SLOTS}.")
    return library


def _slots(library: ctypes.CDLL) -> int:
    """How many slots a record of the library has: the fewest that it copies one from and into; 0 where they are more than the package's. A build does not
    tell it: one into more room than it needs is no fault, and would be read here with a wrong stride."""
    lent, into = (c_double * SLOTS)(), (c_double * SLOTS)()
    return next((size for size in range(1, SLOTS + 1) if library.havgrunel_record(2, lent, size, 0, into, size) == 0), 0)
