"""Reading and writing: files, standard input and output, and standard error. What fails is told with status 3."""

import os
import re
import stat
import struct
import sys
from typing import Callable, Sequence

from . import csvfile
from .faults import Stop

# As much of a file as tells what kind it is of.
START = 4096


def read(path: str) -> bytes:
    """The bytes of a file; '-' is standard input."""
    if path == "-":
        if sys.stdin is None:
            raise Stop(3, "standard input is closed, and '-' asks to read it")
        try:
            return sys.stdin.buffer.read()
        except OSError as fault:
            raise Stop(3, f"standard input cannot be read: {fault.strerror}") from None
    try:
        with open(path, "rb") as file:
            return file.read()
    except OSError as fault:
        raise Stop(3, f"{path} cannot be read: {fault.strerror}") from None


def is_picture(start: bytes, size: int) -> bool:
    return re.match(rb"\s*(<\?xml[^>]*>\s*)?(<!DOCTYPE svg[^>]*>\s*)?(<!--.*?-->\s*)*<svg\b", start, re.DOTALL) is not None


def is_answers(start: bytes, size: int) -> bool:
    return csvfile.is_own(start)


def is_order(start: bytes, size: int) -> bool:
    """Whether a file is as long as the header of an order's bytes says."""
    if len(start) < 20:
        return False
    header = struct.unpack(">I", start[:4])[0]
    return not header >> 24 & 31 and size == 20 + 16 * (header >> 12 & 0xFFF) + 8 * (header & 0xFFF)


# What an option writes, in words, and how a file of that kind is told.
KINDS = {
    "--plot": ("a picture (SVG)", is_picture),
    "--csv": ("a table that this command wrote", is_answers),
    "--tsv": ("a table that this command wrote", is_answers),
    "--bytes": ("an order's bytes", is_order),
}


def guard(path: str, option: str, orders: Sequence[str]) -> None:
    """Stops where writing would lose a file of another kind, or an order that is read. An empty file has nothing to lose, and a device is no file."""
    try:
        there = os.stat(path)
    except FileNotFoundError:
        return
    except OSError as fault:
        raise Stop(3, f"{path} cannot be written: {fault.strerror}") from None
    if any(order != "-" and os.path.exists(order) and os.path.samestat(os.stat(order), there) for order in orders):
        raise Stop(3, f"{path} is an order that is read, and {option} does not write over it")
    if not stat.S_ISREG(there.st_mode) or there.st_size == 0:
        return
    what, is_kind = KINDS[option]
    if not is_start(path, there.st_size, is_kind):
        raise Stop(3, f"{path} is there and is not {what}; {option} writes a new file, or over one of that kind")


def is_start(path: str, size: int, is_kind: Callable[[bytes, int], bool]) -> bool:
    try:
        with open(path, "rb") as file:
            return is_kind(file.read(START), size)
    except OSError as fault:
        raise Stop(3, f"{path} cannot be read, to see what it is: {fault.strerror}") from None


def write(path: str, data: bytes) -> None:
    """Writes a whole file; '-' is standard output. A new file that could not be written whole is taken away again."""
    if path == "-":
        write_out(data)
        return
    new = not os.path.exists(path)
    try:
        with open(path, "wb") as out:
            out.write(data)
    except OSError as fault:
        if new and os.path.isfile(path):
            os.unlink(path)
        raise Stop(3, f"{path} cannot be written: {fault.strerror}") from None


def write_out(data: bytes) -> None:
    """Writes to standard output. Nothing is left for Python to write when it ends, where a fault would be told as a traceback."""
    if sys.stdout is None:
        raise Stop(3, "standard output is closed")
    try:
        while data:
            data = data[os.write(sys.stdout.fileno(), data) :]
    except BrokenPipeError:
        # A reader that has seen enough, such as head, ends the command without a word.
        raise Stop(141) from None
    except OSError as fault:
        raise Stop(3, f"standard output cannot be written: {fault.strerror}") from None


def tell(line: str) -> None:
    """A line on standard error, where there is one. As with standard output, nothing is left for Python to write when it ends."""
    data = (line + "\n").encode("utf-8", "backslashreplace")
    try:
        os.write(sys.stderr.fileno(), data)
    except (OSError, ValueError, AttributeError):
        # It is closed, full, or no file; a stand-in that keeps texts is written to as such.
        if hasattr(sys.stderr, "getvalue"):
            sys.stderr.write(data.decode())
