"""Shaped forward curves for gas and power, proved.

A market quotes one average for a whole month; a curve gives a price at every moment of it, and what each day or hour averages:

    >>> from havgrunel import Curve
    >>> curve = Curve([0, 31, 61], [0, 29.40, 31.10])     # the first average is not read
    >>> days = curve.averages(range(62))                  # 61 day averages
    >>> round(sum(days[:31]) / 31, 10)
    29.4

Every price comes from a proved function of the library, and so do the days on which delivery months start. A refusal is the exception Refused, with its
number and its words. docs/PYTHON.md has the rest.
"""

from ._library import FIELDS, MOST_POINTS, SLOTS, LibraryMissing
from .curve import Curve, Method, Tail, sqrt
from .months import day_number, month_knots
from .refusals import Refused
from .section import Section

__version__ = "0.6.0"

__all__ = ["FIELDS", "MOST_POINTS", "SLOTS", "Curve", "LibraryMissing", "Method", "Refused", "Section", "Tail", "day_number", "month_knots", "sqrt"]
