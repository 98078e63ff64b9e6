"""Numbers in by the buffer protocol, and answers back as the kind that went in.

Doubles that lie in a row are read where they are; anything else is copied once. numpy and pandas are known by what their objects can do, and are never
imported here: where one of their objects went in, they are loaded already.
"""

import ctypes
import math
import operator
import sys
from array import array
from typing import Any, Callable, Iterable, Optional, Sequence, SupportsFloat, Tuple

Many = Iterable[SupportsFloat]

# Formats of the buffer protocol: the machine's own double, and how else it may be written; other numbers.
_DOUBLES = ("d", "@d")
_ALSO_DOUBLES = ("=d", "<d" if sys.byteorder == "little" else ">d")
_NUMBERS = tuple("bBhHiIlLqQnNfe?")
# Text and things without an order are iterable too, and are not meant.
_NOT_MANY = (str, bytes, bytearray, dict, set, frozenset)
_KINDS = {"c": "complex numbers", "M": "dates", "m": "spans of time", "S": "bytes", "U": "text", "V": "records"}


class Lent:
    """Doubles in a row that the library may read: a buffer, how many it has, and the kind of sequence that answers go back as."""

    __slots__ = ("buffer", "count", "like")

    def __init__(self, buffer: Any, count: int, like: "Kind") -> None:
        self.buffer = buffer
        self.count = count
        self.like = like

    def pointer(self, start: int = 0) -> Any:
        """A pointer to the entry `start`, or None where there is none."""
        return pointer(self.buffer, start, self.count)

    def part(self, low: int, high: int) -> Tuple[Any, int]:
        """The entries from `low` up to but not including `high`, as a call takes them: a pointer and a count."""
        return self.pointer(low), high - low

    def whole(self) -> Tuple[Any, int]:
        """All entries, in the same way."""
        return self.part(0, self.count)

    def copy(self) -> "array[float]":
        """The numbers in an array of their own."""
        own = array("d")
        own.frombytes(memoryview(self.buffer).cast("B") if self.count else b"")
        return own


class Kind:
    """A kind of sequence: how a buffer for its answers is made, and what a caller gets of that buffer."""

    __slots__ = ("room", "given")

    def __init__(self, room: Callable[[int], Any], given: Callable[[Any], Any]) -> None:
        self.room = room
        self.given = given


def zeros(count: int) -> "array[float]":
    """An array of so many doubles, all +0.0."""
    return array("d", bytes(8 * count))


def pointer(buffer: Any, start: int, count: int) -> Any:
    """A pointer to an entry of a writable buffer of doubles. It keeps the buffer alive, and an array from changing its size."""
    return ctypes.pointer(ctypes.c_double.from_buffer(buffer, 8 * start)) if start < count else None


def _as_list(answers: Any) -> Any:
    return answers.tolist()


def _as_it_is(answers: Any) -> Any:
    return answers


LISTS = Kind(zeros, _as_list)
ARRAYS = Kind(zeros, _as_it_is)


def _numpy_room(count: int) -> Any:
    return sys.modules["numpy"].empty(count)


NUMPY = Kind(_numpy_room, _as_it_is)


def _series(index: Any) -> Kind:
    """Series with this index; of fewer answers the first entries of the index, which are the left edges of averages."""

    def given(answers: Any) -> Any:
        return sys.modules["pandas"].Series(answers, index=index[: len(answers)])

    return Kind(_numpy_room, given)


def one(x: Any, what: str) -> float:
    """A single number as a float; `what` names it in a message."""
    if type(x) is float:
        return x
    if isinstance(x, (str, bytes, bytearray)):
        raise TypeError(f"{what} is {_quoted(x)}, which is not a number")
    try:
        count: Optional[int] = len(x)
    except TypeError:
        count = None
    if count is not None:
        raise TypeError(f"{what} is one number, and this is of the type {type(x).__name__}, with {count} entries")
    try:
        return float(x)
    except TypeError:
        raise TypeError(f"{what} is {_quoted(x)}, which is not a number{_dates_hint(x)}") from None
    except OverflowError:
        raise OverflowError(f"{what} is too large for a float") from None


def switch(x: Any, what: str) -> bool:
    """True or False. A word is neither, since every word would be true."""
    if x is None or isinstance(x, (str, bytes)):
        raise TypeError(f"{what} is {_quoted(x)}, and True or False is meant")
    return bool(x)


def word(x: Any, what: str, words: Sequence[str]) -> str:
    """One of a few words, as it is written there."""
    meant = f"{what} is {_quoted(x)}, and {', '.join(map(repr, words[:-1]))} or {words[-1]!r} is meant"
    if not isinstance(x, str):
        raise TypeError(meant)
    if x not in words:
        raise ValueError(meant)
    return x


def whole(x: Any, what: str) -> int:
    """A whole number."""
    try:
        return operator.index(x)
    except TypeError:
        raise TypeError(f"{what} is {_quoted(x)}, which is not a whole number") from None


def count(x: Any, what: str) -> int:
    """A whole number that the library can count to."""
    number = whole(x, what)
    if not 0 <= number <= sys.maxsize:
        raise ValueError(f"{what} is {number}, and counts go from 0 to {sys.maxsize}")
    return number


def many(xs: Any, what: str) -> Lent:
    """A sequence of numbers, lent to the library; `what` names it in a message."""
    if isinstance(xs, (list, tuple, range)):
        return _copied(xs, what, LISTS)
    if hasattr(xs, "to_numpy"):
        # A pandas Series has an index that answers keep. Whatever else has this method comes back as numpy's.
        return _of_numpy(xs.to_numpy(), what, _series(xs.index) if _is_series(xs) else NUMPY)
    if hasattr(xs, "__array_interface__"):
        return _of_numpy(xs, what, NUMPY)
    if isinstance(xs, _NOT_MANY):
        hint = "; memoryview(xs).cast('d') reads bytes as doubles" if isinstance(xs, (bytes, bytearray)) else ""
        raise TypeError(f"{what} is of the type {type(xs).__name__}, and a sequence of numbers is meant{hint}")
    try:
        view = memoryview(xs)
    except TypeError:
        return _iterated(xs, what)
    return _of_buffer(xs, view, what)


def _is_series(xs: Any) -> bool:
    pandas = sys.modules.get("pandas")
    return pandas is not None and isinstance(xs, pandas.Series)


def _of_numpy(xs: Any, what: str, kind: Kind) -> Lent:
    if xs.ndim != 1:
        raise TypeError(f"{what} has {xs.ndim} dimensions, and a sequence of numbers has one")
    if xs.dtype.kind == "O":
        return _copied(xs.tolist(), what, kind)
    if xs.dtype.kind not in "biuf":
        hint = "; count in days or hours from the first knot" if xs.dtype.kind in "Mm" else ""
        raise TypeError(f"{what} holds {_KINDS.get(xs.dtype.kind, xs.dtype.name)}, which are not numbers{hint}")
    if hasattr(xs, "filled"):
        # What is masked is no number. The library refuses it by its own refusal.
        xs = xs.astype("float64").filled(math.nan)
    if xs.dtype != "float64" or not xs.flags.carray:
        # A pointer is to doubles in a row, each at its place in memory. ctypes points into writable buffers alone, so one that may only be read is
        # copied as well.
        xs = sys.modules["numpy"].array(xs, dtype="float64", order="C", subok=False)
    return Lent(xs, len(xs), kind)


def _of_buffer(xs: Any, view: memoryview, what: str) -> Lent:
    if view.ndim != 1:
        raise TypeError(f"{what} has {view.ndim} dimensions, and a sequence of numbers has one")
    if view.format in _NUMBERS:
        return _copied(xs, what, ARRAYS)
    if view.format not in _DOUBLES + _ALSO_DOUBLES:
        raise TypeError(f"{what} is of the type {type(xs).__name__} and has the format {view.format!r}, which is none of numbers")
    if view.format in _DOUBLES and view.c_contiguous and not view.readonly and _is_aligned(view):
        return Lent(xs, len(view), ARRAYS)
    own = array("d")
    own.frombytes(view.tobytes())
    return Lent(own, len(own), ARRAYS)


def _is_aligned(view: memoryview) -> bool:
    return len(view) == 0 or ctypes.addressof(ctypes.c_double.from_buffer(view)) % ctypes.alignment(ctypes.c_double) == 0


def _iterated(xs: Any, what: str) -> Lent:
    try:
        whole = list(xs)
    except TypeError:
        raise TypeError(f"{what} is {_quoted(xs)}, and a sequence of numbers is meant") from None
    return _copied(whole, what, LISTS)


def _copied(xs: Any, what: str, kind: Kind) -> Lent:
    try:
        own = array("d", xs)
    except (TypeError, OverflowError) as fault:
        for k, x in enumerate(xs):
            try:
                array("d", (x,))
            except TypeError:
                raise TypeError(f"{what}: entry {k} is {_quoted(x)}, which is not a number{_dates_hint(x)}") from None
            except OverflowError:
                raise OverflowError(f"{what}: entry {k} is too large for a float") from None
        raise fault
    return Lent(own, len(own), kind)


def _quoted(x: Any) -> str:
    text = repr(x)
    text = text if len(text) <= 40 else text[:37] + "..."
    return text if x is None or isinstance(x, (str, bytes, bytearray, int, float, complex)) else f"{text}, of the type {type(x).__name__}"


def _dates_hint(x: Any) -> str:
    return "; count in days or hours from the first knot" if hasattr(x, "toordinal") or hasattr(x, "total_seconds") else ""
