"""Why a call was refused: the numbers, their names and their words, and the exception that carries them."""

from typing import Dict, Optional

# The words are those of c/havgrunel.h, which tools/refusals compares. 17 is told of an order's bytes alone.
REFUSALS: Dict[int, str] = {
    1: "there are not as many averages as knots, or not as many ends as starts",
    2: "the monotonicity is not a number from 0 to 1",
    3: "the quadraticity is not a number from 0 to 1",
    4: "there are fewer than two knots",
    5: "a knot is infinite or not a number",
    6: "an average is infinite or not a number",
    7: "a knot is not above the one before it",
    8: "the seam leaves no period to build",
    9: "past the first window a curve grows from a previous one, and there is none or it has no section",
    10: "there are more than 4096 knots",
    11: "a buffer is too short for what is to be written or read",
    12: "the point that is asked for is not a number",
    13: "the point that is asked for lies outside the knots, and extrapolation is off",
    14: "the method has no derivative",
    15: "a record's tag is not legal, or the record is not there",
    16: "a sheet needs a given node at one end at least, and this one has none",
    17: "the bytes are not a well-formed order",
    18: "the strip's first end is not below its second, or a place is past the last knot",
    19: "the months are not whole periods of 1, 3 or 12 months between January 2000 and December 2099",
    21: "the answer is infinite or not a number",
    28: "a cut is not an inner knot of the table, or not above the cut before it",
    29: "an average is below 0, and no curve at or above 0 can keep it, as the safe split promises",
    30: "the split's number is none of 0, 1 and 2",
}

NAMES: Dict[int, str] = {
    1: "LENGTHS_DIFFER",
    2: "MONOTONICITY_OUTSIDE",
    3: "QUADRATICITY_OUTSIDE",
    4: "TOO_FEW_POINTS",
    5: "KNOT_NOT_FINITE",
    6: "AVERAGE_NOT_FINITE",
    7: "KNOTS_NOT_RISING",
    8: "SEAM_TOO_LONG",
    9: "NO_PREVIOUS_CURVE",
    10: "TOO_MANY_POINTS",
    11: "BUFFER_TOO_SHORT",
    12: "QUERY_NOT_A_NUMBER",
    13: "QUERY_OUTSIDE",
    14: "DERIVATIVE_ASKED",
    15: "RECORD_NOT_LEGAL",
    16: "NO_GIVEN_NODE",
    17: "ORDER_MALFORMED",
    18: "STRIP_ENDS_NOT_RISING",
    19: "MONTHS_NOT_PERIODS",
    21: "NOT_FINITE",
    28: "CUTS_NOT_INNER",
    29: "AVERAGE_BELOW_ZERO",
    30: "SPLIT_UNKNOWN",
}


class Refused(ValueError):
    """A call that the library refused, for the first reason in the call's own order. Nothing was written.

    number -- the refusal's number, the same in every language
    index  -- which knot, average, cut, query, strip or edge is to blame, counted from 0; None where no single one is
    """

    def __init__(self, number: int, index: Optional[int] = None) -> None:
        super().__init__(number, index)
        self.number = number
        self.index = index

    @property
    def name(self) -> str:
        """The refusal's name, as c/havgrunel.h has it without its prefix."""
        return NAMES.get(self.number, "UNKNOWN")

    @property
    def words(self) -> str:
        """What was wrong, in plain words."""
        return REFUSALS.get(self.number, "the library told a refusal that this package does not know")

    def __str__(self) -> str:
        where = "" if self.index is None else f", index {self.index}"
        return f"{self.words} (refusal {self.number}{where})"
