#!/usr/bin/env python3
"""Writes the script and the answers of the program `vectors`: see README.md. Run in this folder: python3 make.py"""
import random
import struct

from reader import AXES, answer_text, coordinate_text, exchanged, of_wkt, read, same, shown

HERE = "producers/"
PROGRAM = "../crates/vectors/"
lines = []  # (comment or command, answer or None)


def note(text):
    lines.append(("# " + text, None))


def ask(command, answer):
    lines.append((command, answer_text(answer)))


def hexed(data):
    return data.hex() if data else "-"


def rows(name):
    with open(HERE + name) as f:
        return [l.rstrip("\n").split("\t") for l in f if l.strip()]


def bits(word):
    return float("nan") if word == "nan" else struct.unpack(">d", bytes.fromhex(word))[0]


def recorded(code, coords):
    """The answer that a producer's row records: code, and coordinates from the library's getters."""
    out = []
    if coords != ".":
        for c in coords.split(" "):
            out.append((c[0] == "+", *(bits(w) for w in c[1:].split(","))))
    return ("read", int(code), out)


# ---- what producers wrote

note("GDAL, ISO WKB: codes and coordinates as the library's getters give them")
written = []
for data, code, coords, wkt in rows("gdal_iso.txt"):
    data = bytes.fromhex(data)
    want = recorded(code, coords)
    assert same(want, read(data)), wkt
    assert same(want, of_wkt(wkt)), wkt
    written.append((data, want))
    ask("shape " + data.hex(), want)
note("a collection put by hand over GDAL's parts of the other byte order")
for data, code, coords, wkt in rows("mixed_order.txt"):
    data = bytes.fromhex(data)
    want = recorded(code, coords)
    assert same(want, read(data)), wkt
    written.append((data, want))
    ask("shape " + data.hex(), want)
note("GEOS: code and coordinates as the WKT text says")
for data, text in rows("geos_xy.txt"):
    data = bytes.fromhex(data)
    want = of_wkt(text.removeprefix("GEOS: "))
    assert same(want, read(data)), text
    written.append((data, want))
    ask("shape " + data.hex().upper(), want)
note("EWKB and older flags in the code: refused")
for data, number, place, text in rows("ewkb_refused.txt"):
    data = bytes.fromhex(data)
    want = ("refused", int(number), 1, int(place))
    assert same(want, read(data)), text
    ask("shape " + data.hex(), want)

note("EWKB made here: flags for z, m and a reference system, outermost and in a part: refused at the code")
for little in (False, True):
    order = "little" if little else "big"
    for kind in range(1, 8):
        for flags in (0x80000000, 0x40000000, 0xC0000000, 0x20000000, 0xE0000000):
            srid = (4326).to_bytes(4, order) if flags & 0x20000000 else b""
            data = bytes([little]) + (kind + flags).to_bytes(4, order) + srid + bytes(32)
            want = ("refused", 3, 1, 1)
            assert same(want, read(data))
            ask("shape " + data.hex(), want)
            data = bytes([little]) + (7).to_bytes(4, order) + (1).to_bytes(4, order) + data
            want = ("refused", 3, 1, 10)
            assert same(want, read(data))
            ask("shape " + data.hex(), want)

note("the same through the layer that exchanges x and y")
for data, want in written[::4]:
    ask("swapped " + data.hex(), exchanged(want))
ask("swapped -", ("refused", 1, 1, 0))

# ---- tables

note("tables: coordinates of the shapes above, with something on every axis")


def on_axes(code, c):
    axes = AXES[code - code % 1000]
    joins, x, y, z, m = c
    nan = float("nan")
    return (joins, x, y, z if "z" in axes else nan, m if "m" in axes else nan)


def filled(c):
    joins, x, y, z, m = c
    return (joins, x, y, 7.5 if z != z else z, -0.0 if m != m else m)


for data, (_, code, coords) in written[::5]:
    table = [filled(c) for c in coords]
    words = " ".join(["table %d" % code] + [coordinate_text(c) for c in table])
    ask(words, ("read", code, [on_axes(code, c) for c in table]))
note("every code, and numbers that are none")
one = (True, 1.0, 2.0, 3.0, 4.0)
for dimension in AXES:
    for kind in range(0, 9):
        code = dimension + kind
        known = 1 <= kind <= 7
        ask("table %d +1,2,3,4 5,6,7,8" % code, ("read", code, [on_axes(code, one), on_axes(code, (False, 5.0, 6.0, 7.0, 8.0))]) if known else ("refused", 13, 2, 0))
for code in (4001, 7000, 999, 1000 * 256 + 1, 2**31 + 1, 2**32 - 1):
    ask("table %d" % code, ("refused", 13, 2, 0))

# ---- made shapes, whole and damaged

rng = random.Random(20240229)
SPECIAL = [0.0, -0.0, 1.0, -1.0, 180.0, -180.0, 1e16, 9999999999999998.0, 1e-4, 9.999e-5, 5e-324, 2.2250738585072014e-308, 1.7976931348623157e308, float("inf"), float("-inf"), float("nan"), 0.1, 123456.789, 1e15, 1e21, 1e-7]


def ordinate():
    if rng.random() < 0.5:
        return rng.choice(SPECIAL)
    if rng.random() < 0.5:
        return round(rng.uniform(-180, 180), 3)
    return struct.unpack(">d", rng.randbytes(8))[0]


def number(little, size, n):
    return n.to_bytes(size, "little" if little else "big")


def packed(little, axes, n):
    return b"".join(struct.pack("<d" if little else ">d", ordinate()) for _ in range(n * len(axes)))


def run(little, axes):
    n = rng.choice([0, 1, 1, 2, 3])
    return number(little, 4, n) + packed(little, axes, n)


def made(kind, dimension, deep):
    """The bytes of a random shape."""
    little = rng.random() < 0.5
    axes = AXES[dimension]
    out = bytes([little]) + number(little, 4, kind + dimension)
    if kind == 1:
        return out + packed(little, axes, 1)
    if kind == 2:
        return out + run(little, axes)
    n = rng.choice([0, 1, 1, 2])
    out += number(little, 4, n)
    for _ in range(n):
        if kind == 3:
            out += run(little, axes)
        else:
            part = kind - 3 if kind < 7 else rng.randint(1, 7 if deep > 0 else 3)
            out += made(part, dimension, deep - 1)
    return out


note("made shapes, each kind in each dimension")
whole = []
for dimension in AXES:
    for kind in range(1, 8):
        for _ in range(3):
            data = made(kind, dimension, 3)
            whole.append(data)
            ask("shape " + hexed(data), read(data))
            assert read(data)[0] == "read"

note("cut at every length: a polygon in a collection")
data = bytes([1]) + number(True, 4, 3007) + number(True, 4, 1) + bytes([0]) + number(False, 4, 3003) + number(False, 4, 1) + number(False, 4, 2) + packed(False, "xyzm", 2)
assert read(data)[0] == "read"
for n in range(len(data)):
    ask("shape " + hexed(data[:n]), read(data[:n]))
    assert read(data[:n])[0] == "refused"


def damaged(data):
    """One kind of damage, at random."""
    data = bytearray(data)
    way = rng.randrange(7)
    at = rng.randrange(len(data)) if data else 0
    if way == 0:
        del data[at:]
    elif way == 1:
        data += rng.randbytes(rng.randint(1, 9))
    elif way == 2 and data:
        data[at] ^= 1 << rng.randrange(8)
    elif way == 3 and data:
        data[at] = rng.choice([0, 1, 2, 255])
    elif way == 4 and data:
        del data[at]
    elif way == 5:
        data[at:at] = rng.randbytes(1)
    elif len(data) >= 9:
        # another number where a code or a count often stands
        i = rng.choice([1, 5])
        data[i : i + 4] = number(rng.random() < 0.5, 4, rng.choice([0, 1, 2, 3, 4, 5, 6, 7, 8, 1001, 2002, 3007, 3008, 4001, 2**31 + 1, 2**32 - 1]))
    return bytes(data)


note("damaged shapes")
for _ in range(260):
    data = damaged(rng.choice(whole))
    if rng.random() < 0.3:
        data = damaged(data)
    ask("shape " + hexed(data), read(data))

note("random bytes, some behind a header that is right")
for _ in range(60):
    data = rng.randbytes(rng.randint(0, 40))
    if rng.random() < 0.6:
        little = rng.random() < 0.5
        data = bytes([little]) + number(little, 4, rng.randint(1, 7) + 1000 * rng.randint(0, 3)) + data
    ask("shape " + hexed(data), read(data))

note("counts larger than the bytes can hold")
for little in (False, True):
    for kind in range(2, 8):
        for count in (2, 2**16, 2**31, 2**32 - 1):
            data = bytes([little]) + number(little, 4, kind) + number(little, 4, count)
            ask("shape " + hexed(data), read(data))
            data += made(kind - 3, 0, 0) if kind in (4, 5, 6) else bytes(20)
            ask("shape " + hexed(data), read(data))

note("levels: collections in one another, the last with no part, with a part that is not there, with a point")


def nested(levels, last, inner=b""):
    out = b""
    for i in range(levels):
        little = i % 2 == 1
        out += bytes([little]) + number(little, 4, 7) + number(little, 4, 1 if i < levels - 1 else last)
    return out + inner


for levels in (1, 2, 31, 32, 33):
    for data in (nested(levels, 0), nested(levels, 1), nested(levels, 1, b"\x02"), nested(levels, 1, made(1, 0, 0)), nested(levels, 1, made(1, 1000, 0)), nested(levels, 2, made(1, 0, 0) + made(2, 0, 0))):
        ask("shape " + hexed(data), read(data))
assert read(nested(32, 0)) == ("read", 7, [])
assert read(nested(32, 1)) == read(nested(32, 1, b"\x00")) == ("refused", 5, 1, 288)

note("parts that do not fit, and unknown codes, in each container")
for kind in range(4, 8):
    for part in (0, 1, 2, 3, 4, 5, 6, 7, 8, 1001, 1002, 1003, 2001, 3003, 2**31 + 1):
        data = bytes([1]) + number(True, 4, kind) + number(True, 4, 1) + bytes([0]) + number(False, 4, part) + bytes(16)
        ask("shape " + hexed(data), read(data))

# ---- output

for x, text in ((1e308, "1e308"), (1e16, "1e16"), (1e15, "1000000000000000.0"), (0.0001, "0.0001"), (1e-5, "1e-5"), (1.5e-7, "1.5e-7"), (-0.0, "-0.0"), (170.0, "170.0"), (0.1, "0.1"), (5e-324, "5e-324"), (123456.789, "123456.789"), (9999999999999998.0, "9999999999999998.0"), (1.2345e16, "1.2345e16")):
    assert shown(x) == text, (shown(x), text)
answers = [answer for _, answer in lines if answer is not None]
refused = sum(answer.startswith("refused") for answer in answers)
with open(PROGRAM + "stdin", "w") as script, open(PROGRAM + "stdout", "w") as told:
    for i, (command, answer) in enumerate(lines):
        script.write(command + "\n")
        if answer is not None:
            told.write("%d: %s\n" % (i + 1, answer))
    told.write("\ncommands %d, granted %d, refused %d\n" % (len(answers), len(answers) - refused, refused))
print(len(lines), "lines,", len(answers), "commands,", refused, "refused")
