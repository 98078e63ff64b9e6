"""Answers of which some may be refused since they are not finite, refusal 21: those are marked, and all others are told.

A call for many is all or nothing. What the command asks goes through here, so that one point without a price does not cost the others theirs.
"""

from enum import Enum
from typing import Callable, Iterable, List, Optional, Sequence, Union

from .refusals import Refused


class NotFinite(Enum):
    """What stands in the place of an answer that is infinite or not a number."""

    NOT_FINITE = 21


NOT_FINITE = NotFinite.NOT_FINITE
# A finite number, or the mark that there is none.
Number = Union[float, NotFinite]

# Behind an answer that is refused so many are asked at once at the least.
LEAST = 64


def marked(ask: Callable[..., float], *points: float) -> Number:
    """What a call answers, or the mark. Every other refusal is raised."""
    try:
        return ask(*points)
    except Refused as refused:
        if refused.number != NOT_FINITE.value:
            raise
        return NOT_FINITE


def all_marked(ask: Callable[..., Iterable[float]], *points: Sequence[float]) -> List[Number]:
    """What a call for many answers, each a number or the mark. `points` are the sequences that the call takes, all of one length.

    Where none is refused this is one call. Where one is, those before it are asked again, and it goes on behind it, with as many at a time as twice those
    that were answered last. So there are a few calls to each that is refused, and none is for much more than it answers. Every other refusal is raised, with
    the index among all.
    """
    count = len(points[0])
    found: List[Number] = []
    reach = count
    while len(found) < count:
        start = len(found)
        part = [xs[start : start + reach] for xs in points]
        try:
            found += ask(*part)
            reach *= 2
        except Refused as refused:
            if refused.index is None:
                raise
            if refused.number != NOT_FINITE.value:
                raise Refused(refused.number, start + refused.index) from None
            if refused.index:
                found += ask(*(xs[: refused.index] for xs in part))
            found.append(NOT_FINITE)
            reach = max(LEAST, 2 * refused.index)
    return found


def first_marked(ask: Callable[..., Iterable[float]], groups: Sequence[Sequence[float]]) -> List[Optional[int]]:
    """Of each group of points the place of the first whose answer is not finite, and nothing where all are. It takes one call where all points of all groups
    are answered, and else one to a group."""

    def first(points: Sequence[float]) -> Optional[int]:
        try:
            ask(points)
            return None
        except Refused as refused:
            if refused.number != NOT_FINITE.value:
                raise
            return refused.index

    if first([x for points in groups for x in points]) is None:
        return [None] * len(groups)
    return [first(points) for points in groups]
