"""Shapes read and written by the rules of docs/WKB.md, independently of the Rattle code.

read(bytes) -> ('read', code, coords) or ('refused', number, layer, place)
A coordinate is (joins, x, y, z, m), the ordinates as floats.
"""
import math
import struct

NAN = math.nan
AXES = {0: "xy", 1000: "xyz", 2000: "xym", 3000: "xyzm"}
KINDS = range(1, 8)


class Fault(Exception):
    def __init__(self, number, place):
        self.answer = ("refused", number, 1, place)


class Reader:
    """A reader with a position: each method reads one thing of the format at it."""

    def __init__(self, data):
        self.data = data
        self.at = 0
        self.coords = []

    def field(self, size):
        start = self.at
        if start + size > len(self.data):
            raise Fault(1, start)
        self.at += size
        return self.data[start : start + size]

    def number(self, order, size):
        return int.from_bytes(self.field(size), order)

    def coordinate(self, order, axes, joins):
        values = dict.fromkeys("xyzm", NAN)
        for axis in axes:
            raw = self.field(8)
            values[axis] = struct.unpack(">d" if order == "big" else "<d", raw)[0]
        self.coords.append((joins, *(values[a] for a in "xyzm")))

    def line(self, order, axes):
        for i in range(self.number(order, 4)):
            self.coordinate(order, axes, i > 0)

    def shape(self, level, container=None):
        if level > 32:
            raise Fault(5, self.at)
        start = self.at
        first = self.field(1)[0]
        if first > 1:
            raise Fault(2, start)
        order = "little" if first == 1 else "big"
        place = self.at
        code = self.number(order, 4)
        kind, dimension = code % 1000, code - code % 1000
        if kind not in KINDS or dimension not in AXES:
            raise Fault(3, place)
        if container is not None:
            outer_kind, outer_dimension = container
            if dimension != outer_dimension or (outer_kind != 7 and kind != outer_kind - 3):
                raise Fault(4, place)
        axes = AXES[dimension]
        if kind == 1:
            self.coordinate(order, axes, False)
        elif kind == 2:
            self.line(order, axes)
        elif kind == 3:
            for _ in range(self.number(order, 4)):
                self.line(order, axes)
        else:
            for _ in range(self.number(order, 4)):
                self.shape(level + 1, (kind, dimension))
        return code


def read(data):
    r = Reader(data)
    try:
        code = r.shape(1)
        if r.at < len(data):
            raise Fault(6, r.at)
    except Fault as f:
        return f.answer
    return ("read", code, r.coords)


# ---- text


def shown(x):
    """A float as Rust's {:?} shows an f64."""
    if math.isnan(x):
        return "NaN"
    if math.isinf(x):
        return "inf" if x > 0 else "-inf"
    sign = "-" if math.copysign(1.0, x) < 0 else ""
    a = abs(x)
    if a == 0:
        return sign + "0.0"
    # the shortest digits that read back as x, and the power of ten of the first of them
    mantissa, exponent = ("%r" % a).lower(), 0
    if "e" in mantissa:
        mantissa, exponent = mantissa.split("e")
        exponent = int(exponent)
    whole, _, part = mantissa.partition(".")
    digits = whole + part
    power = exponent + len(whole) - 1
    stripped = digits.lstrip("0")
    power -= len(digits) - len(stripped)
    digits = stripped.rstrip("0")
    if a >= 1e16 or a < 1e-4:
        return sign + digits[0] + ("." + digits[1:] if len(digits) > 1 else "") + "e%d" % power
    if power < 0:
        return sign + "0." + "0" * (-power - 1) + digits
    if len(digits) <= power + 1:
        return sign + digits + "0" * (power + 1 - len(digits)) + ".0"
    return sign + digits[: power + 1] + "." + digits[power + 1 :]


def coordinate_text(c):
    joins, *axes = c
    return ("+" if joins else "") + ",".join(shown(v) for v in axes)


def answer_text(answer):
    if answer[0] == "refused":
        return "refused %d layer %d place %d" % answer[1:]
    return " ".join(["code %d" % answer[1]] + [coordinate_text(c) for c in answer[2]])


def exchanged(answer):
    if answer[0] == "refused":
        return answer
    return ("read", answer[1], [(j, y, x, z, m) for (j, x, y, z, m) in answer[2]])


# ---- the coordinates that a WKT text means

WKT_KINDS = {
    "POINT": 1,
    "LINESTRING": 2,
    "POLYGON": 3,
    "MULTIPOINT": 4,
    "MULTILINESTRING": 5,
    "MULTIPOLYGON": 6,
    "GEOMETRYCOLLECTION": 7,
}


class Wkt:
    """The code and the coordinates of a WKT text. An empty point has NaN on every axis."""

    def __init__(self, text):
        self.words = text.replace("(", " ( ").replace(")", " ) ").replace(",", " , ").split()
        self.coords = []
        self.code = self.shape()

    def take(self, word=None):
        w = self.words.pop(0)
        assert word is None or w == word, (w, word)
        return w

    def listed(self, one):
        self.take("(")
        one()
        while self.words[0] == ",":
            self.take()
            one()
        self.take(")")

    def empty(self):
        if self.words[0] == "EMPTY":
            self.take()
            return True
        return False

    def point(self, axes, joins):
        values = dict.fromkeys("xyzm", NAN)
        for a in axes:
            values[a] = float(self.take())
        self.coords.append((joins, *(values[a] for a in "xyzm")))

    def body(self, kind, axes):
        if self.empty():
            if kind == 1:
                self.coords.append((False, NAN, NAN, NAN, NAN))
            return
        if kind == 1:
            self.take("(")
            self.point(axes, False)
            self.take(")")
        elif kind == 2:
            first = [True]

            def one():
                self.point(axes, not first[0])
                first[0] = False

            self.listed(one)
        elif kind == 7:
            self.listed(self.shape)
        elif kind == 4 and self.words[1] != "(" and self.words[1] != "EMPTY":
            self.listed(lambda: self.point(axes, False))
        else:
            self.listed(lambda: self.body(2 if kind == 3 else kind - 3, axes))

    def shape(self):
        kind = WKT_KINDS[self.take()]
        dimension = 0
        if self.words[0] in ("Z", "M", "ZM"):
            dimension = {"Z": 1000, "M": 2000, "ZM": 3000}[self.take()]
        self.body(kind, AXES[dimension])
        return kind + dimension


def of_wkt(text):
    w = Wkt(text)
    assert not w.words
    return ("read", w.code, w.coords)


def same(a, b):
    """Equal answers, NaN being equal to NaN and zeros told apart by their sign."""
    return a[0] == b[0] and answer_text(a) == answer_text(b)
