"""Draws lists of shapes with a hint: what a bounder is asked to count."""

import math
import struct
import typing

import bounds_rule
import questions

INF = math.inf
NAN = math.nan
LARGEST = questions.LARGEST
TINY = 5e-324
DIMENSIONS = {dimension: len(axes) for dimension, axes in bounds_rule.AXES.items()}

HINTS = {
    "usual": [(-180.0, 180.0), (0.0, 360.0), (-170.0, 190.0)],
    "none": [None],
    "NaN": [(NAN, 180.0), (-180.0, NAN), (NAN, NAN)],
    "infinite": [(-INF, INF), (0.0, INF), (-INF, 0.0), (INF, INF), (-INF, -INF)],
    "downward": [(180.0, -180.0), (10.0, -10.0), (1e308, -1e308), (INF, -INF), (INF, 0.0)],
    "overflowing": [(-1e308, 1e308), (-LARGEST, LARGEST), (-1.5e308, 1e308), (-1e308, LARGEST)],
    "tiny": [(0.0, TINY), (-TINY, TINY), (1.0, math.nextafter(1.0, 2)), (5.0, 5.0), (-0.0, 0.0)],
}


class Shape(typing.NamedTuple):
    """A kind with its byte order and what it holds: coordinates, lines of them, or parts."""

    kind: int
    little: bool
    holds: list


def hint(draw):
    """A hint with the name of its group."""
    name = draw.choice(["usual", "usual", "random", *HINTS])
    if name == "random":
        return name, tuple(sorted(questions.numbers(draw, 2)))
    return name, draw.choice(HINTS[name])


def ends(bounds):
    """The ends that places are drawn about."""
    lo, hi = (-180.0, 180.0) if bounds is None else bounds
    lo = lo if math.isfinite(lo) else -180.0
    hi = hi if math.isfinite(hi) else 180.0
    return min(lo, hi), max(lo, hi)


def near(draw, value):
    """The value or a neighbour of it."""
    return draw.choice([value, math.nextafter(value, INF), math.nextafter(value, -INF)])


def within(draw, lo, hi):
    """A number from lo to hi, whose distance may overflow."""
    part = draw.random()
    return min(max(lo * (1 - part) + hi * part, lo), hi)


def two_places(draw, bounds):
    """Two x, half the hint's width apart: both ways round are about as far."""
    lo, hi = ends(bounds)
    middle = lo / 2 + hi / 2
    left = draw.choice([lo / 2 + middle / 2, within(draw, lo, middle)])
    return left, left + (middle - lo)


def place(draw, bounds, side):
    """An x: one of two places, on a side of the hint's middle, about the middle or the ends, or any."""
    if isinstance(side, tuple):
        chosen = draw.choice(side)
        return chosen if draw.random() < 0.9 else near(draw, chosen)
    lo, hi = ends(bounds)
    middle = lo / 2 + hi / 2
    way = draw.random()
    if side == "left" or (side == "far" and way < 0.5):
        return within(draw, lo, lo / 2 + middle / 2) if draw.random() < 0.8 else near(draw, lo)
    if side in ("right", "far"):
        return within(draw, middle / 2 + hi / 2, hi) if draw.random() < 0.8 else near(draw, hi)
    if way < 0.3:
        return near(draw, draw.choice([lo, middle, hi]))
    if way < 0.7:
        return within(draw, lo, hi)
    return ordinate(draw)


def ordinate(draw):
    if draw.random() < 0.4:
        return draw.choice([0.0, -0.0, INF, -INF, NAN, TINY, -TINY, LARGEST, -LARGEST])
    return round(draw.uniform(-180, 180), draw.randrange(4))


def coordinates(draw, count, size, bounds, side):
    def x():
        return NAN if draw.random() < 0.05 else place(draw, bounds, side)

    return [[x(), *(ordinate(draw) for _ in range(size - 1))] for _ in range(count)]


def shape(draw, dimension, bounds, side, kind=None, levels=3):
    """A random shape of the dimension."""
    kind = kind or draw.randint(1, 7 if levels else 3)
    little = draw.random() < 0.5
    size = DIMENSIONS[dimension]

    def line():
        count = draw.choice([0, 1, 1, 2, 2, 3])
        # a line that goes over the middle would end the wrapping
        if side == "far":
            return coordinates(draw, count, size, bounds, draw.choice(["left", "right"]))
        if isinstance(side, tuple):
            return coordinates(draw, count, size, bounds, (draw.choice(side),))
        return coordinates(draw, count, size, bounds, side)

    if kind == 1:
        return Shape(1, little, coordinates(draw, 1, size, bounds, side))
    if kind == 2:
        return Shape(2, little, line())
    count = draw.choice([0, 1, 1, 2, 3])
    if kind == 3:
        return Shape(3, little, [line() for _ in range(count)])
    part = kind - 3 if kind < 7 else None
    parts = [shape(draw, dimension, bounds, side, part, levels - 1) for _ in range(count)]
    return Shape(kind, little, parts)


def number(little, count):
    return count.to_bytes(4, "little" if little else "big")


def packed(little, coords, swapped):
    """Coordinates as bytes, x and y exchanged where asked for."""
    form = "<d" if little else ">d"
    axes = ([c[1], c[0], *c[2:]] if swapped else c for c in coords)
    return b"".join(struct.pack(form, value) for c in axes for value in c)


def written(shape, dimension, swapped=False):
    """The shape as ISO WKB."""
    kind, little, holds = shape
    head = bytes([little]) + number(little, kind + dimension)
    if kind == 1:
        return head + packed(little, holds, swapped)
    head += number(little, len(holds))
    if kind == 2:
        return head + packed(little, holds, swapped)
    if kind == 3:
        lines = (number(little, len(line)) + packed(little, line, swapped) for line in holds)
        return head + b"".join(lines)
    return head + b"".join(written(part, dimension, swapped) for part in holds)


def runs(shape):
    """The runs of a shape: its points, lines and rings, as lists of coordinates."""
    kind, _, holds = shape
    if kind in (1, 2):
        return [holds]
    if kind == 3:
        return holds
    return [run for part in holds for run in runs(part)]
