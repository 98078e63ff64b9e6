"""One section of a curve by itself."""

import ctypes
import math
from array import array
from dataclasses import dataclass
from typing import Any, Tuple

from . import _numbers
from ._library import FIELDS, load
from .refusals import Refused

# A tag's bits, most significant first: 3 for the quadratic part, 1 for its split, 4 for the other part, 1 for its split, 7 to spare.
_QUADRATIC = ("", "Quadratic", "QuadraticMin")
_OTHER = ("", "EverywhereConstant", "ConstantGrad", "ConvexMonotone2", "ConvexMonotone3", "ConvexMonotone4", "ConvexMonotone4Min")
_SPLITS = 1 << 12 | 1 << 7

_Fields = ctypes.c_double * FIELDS
_Answer = ctypes.c_double * 3
_Marks = ctypes.c_bool * 2


@dataclass(frozen=True, eq=False)
class Section:
    """The curve over one period, from the knot x_prev to the knot x_next.

    It answers by its own formula wherever it is asked, at its right knot too, where the curve itself answers by the next section. Where the formula gives
    an infinity or no number, `value` and `primitive` raise Refused(21). What stands in its record is told as it is.

    tag         -- 16 bits that say which kinds it is made of
    slots       -- the 27 numbers of its record: the 24 of its formula, of which those that its kinds don't use are 0, and the three that follow
    left_price  -- the price at its left knot, by its own formula: value(x_prev), bit for bit, where that is finite
    right_price -- the price at its right knot, by its own formula: value(x_next), likewise. Where it is not the left price of the next section the curve
                   jumps
    total       -- the running total after its period: what was traded from the curve's first knot up to x_next. It is where the next section starts,
                   whatever primitive(x_next) says of a period that lost its average

    The last three are infinite or no number where the formula or the sum gives that. Two sections are equal where they are the same, bit for bit, any NaN
    for any NaN.
    """

    tag: int
    slots: Tuple[float, ...]
    x_prev: float
    x_next: float

    @property
    def parts(self) -> Tuple[str, ...]:
        """The kinds that it is made of: one, or a quadratic and a convex monotone one whose prices are weighed by the quadraticity."""
        codes = (_QUADRATIC, self.tag >> 13), (_OTHER, self.tag >> 8 & 15)
        return tuple(names[code] if code < len(names) else "Unknown" for names, code in codes if code)

    @property
    def kind(self) -> str:
        """The kind in a word, such as "QuadraticMin"; of two parts "Quadratic + ConvexMonotone4"."""
        return " + ".join(self.parts)

    @property
    def split(self) -> bool:
        """Whether a part of it is split: it has a stretch of zero in its middle."""
        return bool(self.tag & _SPLITS)

    @property
    def left_price(self) -> float:
        """The price at its left knot by this section's formula."""
        return self.slots[FIELDS]

    @property
    def right_price(self) -> float:
        """The price at its right knot by this section's formula."""
        return self.slots[FIELDS + 1]

    @property
    def total(self) -> float:
        """The running total after its period."""
        return self.slots[FIELDS + 2]

    def value(self, x: float) -> float:
        """The price at x by this section's formula, wherever x is. Refused by 21 where that is not finite."""
        return self._marked(x, 0)

    def primitive(self, x: float) -> float:
        """The total from the curve's first knot up to x by this section's formula, wherever x is. Refused by 21 where that is not finite."""
        return self._marked(x, 1)

    @property
    def f_next(self) -> float:
        """The node that it ends on, whatever it is."""
        answer, _ = self._answer(self.x_next)
        return float(answer[2])

    def _marked(self, x: float, which: int) -> float:
        """The value or the primitive at x, if its mark says that it is finite."""
        answer, finite = self._answer(x)
        if not finite[which]:
            raise Refused(21)
        return float(answer[which])

    def _answer(self, x: float) -> Tuple[Any, Any]:
        """The value, the primitive and the node, and a mark to each of the first two."""
        answer, finite = _Answer(), _Marks()
        number = load().havgrunel_section(self.tag, _Fields(*self.slots[:FIELDS]), FIELDS, _numbers.one(x, "x"), answer, 3, finite, 2)
        if number:
            raise Refused(number)
        return answer, finite

    # By their bits, since a price may be no number, which equals nothing. Any such price is as good as another.

    def _bits(self) -> Tuple[int, bytes]:
        numbers = (*self.slots, self.x_prev, self.x_next)
        return self.tag, array("d", [x if x == x else math.nan for x in numbers]).tobytes()

    def __eq__(self, other: object) -> bool:
        return self._bits() == other._bits() if isinstance(other, Section) else NotImplemented

    def __hash__(self) -> int:
        return hash(self._bits())
