"""Draws questions to a pair: lines of a script with the numbers that they hold."""

import decimal
import itertools
import math
import random
import struct

PAIR = ["new", "lo", "hi", "is_wraparound", "width", "mid", "is_empty"]
PAIR_AND_VALUE = ["intersects_value", "merge_value", "expand_by"]
TWO_PAIRS = ["intersects_interval", "contains_interval", "merge_interval", "same"]
KINDS = ["ordinary", "wraparound"]

LARGEST = 1.7976931348623157e308
SPECIAL = [
    0.0, -0.0, 5e-324, -5e-324, 2.225073858507201e-308, -2.225073858507201e-308,
    2.2250738585072014e-308, -2.2250738585072014e-308, 1e-7, 0.1, -0.1, 0.9999999999999999, 1.0,
    -1.0, 1.0000000000000002, 10.0, -10.0, 89.0, 90.0, -90.0, 170.0, -170.0, 179.0, -179.0,
    179.99999999999997, 180.0, -180.0, 180.00000000000003, 360.0, 9007199254740992.0, 1e16,
    -9007199254740993.0, 8.98846567431158e307, -8.98846567431158e307, 1e308, -1e308,
    1.797693134862315e308, LARGEST, -LARGEST, math.inf, -math.inf, math.nan,
]  # fmt: skip
CORE = [
    0.0, -0.0, 5e-324, -5e-324, 1.0, -1.0, 170.0, -170.0, 180.0, 1e308, -1e308, LARGEST, -LARGEST,
    math.inf, -math.inf, math.nan,
]  # fmt: skip


def functions(kind):
    """Each function of the kind, with how many numbers it takes."""
    yield from ((name, 0) for name in ["empty", "full"])
    yield from ((name, 2) for name in [*PAIR, "take"])
    if kind == "wraparound":
        yield "to_ordinary", 2
    yield from ((name, 3) for name in PAIR_AND_VALUE)
    yield from ((name, 4) for name in TWO_PAIRS)


def of_bits(bits):
    return struct.unpack("<d", struct.pack("<Q", bits))[0]


def bits_of(value):
    return struct.unpack("<Q", struct.pack("<d", value))[0]


def hexadecimal(value):
    return f"0x{bits_of(value):016x}"


DIGITS = decimal.Context(prec=1200)


def halfway(value):
    """The number in all its digits, or the point halfway to the next one where that rounds to it."""
    exact = decimal.Decimal(value)
    after = math.nextafter(value, math.inf)
    if value == 0 or bits_of(value) % 2 or not math.isfinite(after):
        return format(exact, "f")
    return format(DIGITS.divide(DIGITS.add(exact, decimal.Decimal(after)), 2), "e")


def written(value, draw):
    """One of the ways to write the number."""
    way = draw.random()
    if way < 0.4:
        return hexadecimal(value)
    if way < 0.5:
        return hexadecimal(value).upper().replace("X", "x")
    if way < 0.6 and math.isfinite(value):
        return f"{value:.25e}"
    if way < 0.61 and math.isfinite(value):
        return halfway(value)
    return repr(value)


def drawn(draw, before):
    """A random number, now and then close to one drawn before."""
    way = draw.random()
    if before and way < 0.3:
        value = draw.choice(before)
        for _ in range(draw.randrange(3)):
            value = math.nextafter(value, draw.choice([-math.inf, math.inf]))
        return -value if draw.random() < 0.2 else value
    if way < 0.5:
        return of_bits(draw.getrandbits(64))
    if way < 0.7:
        return round(draw.uniform(-180, 180), draw.randrange(7))
    if way < 0.85:
        return float(draw.randrange(-5, 6))
    if way < 0.9:
        return draw.choice([-1, 1]) * draw.uniform(LARGEST / 4, LARGEST)
    return draw.choice(SPECIAL)


def numbers(draw, count):
    values = []
    for _ in range(count):
        values.append(drawn(draw, values))
    return tuple(values)


def special(draw, count, every):
    """All tuples of special numbers, or for two pairs those of a small core and a sample."""
    if count < 4 or every:
        yield from itertools.product(SPECIAL, repeat=count)
    else:
        yield from itertools.product(CORE, repeat=count)
        for _ in range(40_000):
            yield tuple(draw.choices(SPECIAL, k=count))


def questions(seed, each, every):
    """All questions: the special ones, and `each` random ones for every function of every kind."""
    draw = random.Random(seed)
    for kind in KINDS:
        for function, count in functions(kind):
            for values in special(draw, count, every):
                yield kind, function, values
            for _ in range(each if count else 0):
                yield kind, function, numbers(draw, count)


def line(question, draw):
    kind, function, values = question
    return " ".join(["interval", kind, function, *(written(value, draw) for value in values)])
