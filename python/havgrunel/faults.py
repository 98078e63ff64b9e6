"""What ends the command before its answer: a word that cannot be read, and the messages with the exit status."""

from .refusals import Refused

# A word is quoted only so far, since a slip in a file can make a word of any length.
MOST_QUOTED = 40


def clipped(word: str) -> str:
    """A word of the user's, as far as a message shows it."""
    shown = "".join(c if c.isprintable() else "?" for c in word[: MOST_QUOTED + 1])
    return shown if len(shown) <= MOST_QUOTED else f"{shown[:MOST_QUOTED]}.."


def quoted(word: str) -> str:
    """The same, in quotes."""
    return f"'{clipped(word)}'"


def of(count: int, noun: str) -> str:
    """So many of something."""
    return f"{count} {noun}" if count == 1 else f"{count} {noun}s"


class Bad(ValueError):
    """What is wrong with a word or a line, in words. Who reads the file adds the place, and the command ends with the status."""

    status = 2


class BadByRefusal(Bad):
    """Words that the library refuses, told as its other refusals are."""

    status = 1

    def __init__(self, text: str, refused: Refused, more: str = "") -> None:
        super().__init__(f"refused at {clipped(text)}: {refused}{more}")


class Located(Bad):
    """What is wrong, with the line where it is."""

    def __init__(self, line: int, what: object) -> None:
        super().__init__(str(what))
        self.line = line
        self.status = what.status if isinstance(what, Bad) else Bad.status


class Stop(Exception):
    """The end of the command: its exit status and the lines that are told. Those with no place in a file get the command's name."""

    def __init__(self, status: int, *lines: str, placed: bool = False) -> None:
        super().__init__(*lines)
        self.status = status
        self.lines = lines
        self.placed = placed
