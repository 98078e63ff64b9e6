"""What the tests of the command share: it is run, in this process or in one of its own, and what came of it is told; and a folder to write into."""

import contextlib
import io
import os
import subprocess
import sys
import tempfile
import unittest
from typing import List, NamedTuple, Optional, Union

from havgrunel import command

HOME = os.path.dirname(os.path.dirname(os.path.dirname(os.path.realpath(__file__))))
ORDER = os.path.join(HOME, "order")
EXAMPLES = os.path.join(HOME, "examples")


class Ran(NamedTuple):
    status: int
    out: str
    told: str


class Out:
    """A stand-in for standard output that has a file of its own."""

    def __init__(self, file) -> None:
        self.file = file

    def fileno(self) -> int:
        return self.file.fileno()

    def write(self, text: str) -> int:
        return os.write(self.fileno(), text.encode())

    def flush(self) -> None:
        pass


class InAFolder(unittest.TestCase):
    """Tests that have a folder to write into."""

    def setUp(self):
        folder = tempfile.TemporaryDirectory()
        self.addCleanup(folder.cleanup)
        self.folder = folder.name

    def path(self, name):
        return os.path.join(self.folder, name)

    def written(self, name, data):
        with open(self.path(name), "wb") as file:
            file.write(data if isinstance(data, bytes) else data.encode())
        return self.path(name)

    def read(self, name):
        with open(self.path(name), "rb") as file:
            return file.read()


def run(*words: str, text: Union[str, bytes, None] = None) -> Ran:
    """The command in this process, as ./order."""
    data = text.encode() if isinstance(text, str) else text or b""
    kept = sys.argv, sys.stdin, sys.stdout
    with tempfile.TemporaryFile() as out, contextlib.redirect_stderr(io.StringIO()) as told:
        try:
            sys.argv, sys.stdin, sys.stdout = ["order"], io.TextIOWrapper(io.BytesIO(data)), Out(out)
            try:
                status = command.main(list(words))
            except SystemExit as end:
                status = end.code
        finally:
            sys.argv, sys.stdin, sys.stdout = kept
        out.seek(0)
        return Ran(status, out.read().decode(), told.getvalue())


def run_gas(*words: str, text: Union[str, bytes, None] = None) -> Ran:
    """The same by the gas default. An option names it, so that the lines of a text keep their numbers."""
    return run("--set", "settings: gas", *words, text=text)


def start(words: List[str], more: Optional[dict] = None, **named) -> subprocess.CompletedProcess:
    """The command in a process of its own, with more of an environment."""
    return subprocess.run([sys.executable, ORDER, *words], env={**os.environ, **(more or {})}, timeout=60, **named)


def example(*parts: str) -> str:
    return os.path.join(EXAMPLES, *parts)


def table_rows(out: str) -> List[List[str]]:
    """The rows of the first table, below its line of dashes, with columns that are two blanks apart at least."""
    lines = out.splitlines()
    first = next(k for k, line in enumerate(lines) if line.startswith("--")) + 1
    rows = []
    for line in lines[first:]:
        if not line or line.startswith("The last row"):
            break
        rows.append([cell.strip() for cell in line.split("  ") if cell.strip()])
    return rows
