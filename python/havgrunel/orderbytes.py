"""An order as the bytes that the proved program `curveorder` reads."""

import struct
from typing import List, Sequence

from .text import Order

# What one order holds, by its format.
MOST_KNOTS = 200
MOST_POINTS = 64


def points(order: Order) -> List[float]:
    """The points that an order's bytes ask for: those of 'at', the edges of rows, and the two ends of each strip."""
    return [x for asked in order.asked for x in asked.at]


def only_original(order: Order) -> None:
    """Stops at another split than the original's. The bytes have no place for it and mean that one."""
    if order.settings["split"] != "original":
        raise order.bad(order.setting_lines["split"], f"an order's bytes mean the original split, and there are none for a {order.settings['split']} one")


def order_bytes(order: Order, asked: Sequence[float]) -> bytes:
    """The bytes: a header of four, then 64-bit floats, the most significant byte first. Raises Stop where the split is not the original one."""
    only_original(order)
    s = order.settings
    flags = bool(s["positivity"]) << 31 | bool(s["hold last period"]) << 30 | bool(s["extrapolation"]) << 29
    numbers = [s["quadraticity"], s["monotonicity"], *order.knots, *order.averages, *asked]
    return struct.pack(f">I{len(numbers)}d", flags | len(order.knots) << 12 | len(asked), *numbers)


def whole(order: Order) -> bytes:
    """The bytes of the whole order. Raises Stop where one order cannot hold it."""
    only_original(order)
    if len(order.knots) > MOST_KNOTS:
        raise order.bad(order.knot_lines[MOST_KNOTS], f"an order's bytes have at most {MOST_KNOTS} knots")
    count = 0
    for asked in order.asked:
        if count + len(asked.at) > MOST_POINTS:
            line = asked.lines[MOST_POINTS - count]
            raise order.bad(line, f"an order's bytes ask for at most {MOST_POINTS} points, and this asks for {len(points(order))}")
        count += len(asked.at)
    return order_bytes(order, points(order))
