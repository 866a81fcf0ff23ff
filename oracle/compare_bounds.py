#!/usr/bin/env python3
"""Has the original Rust and `pagebook` count the same lists of shapes, and explains each disagreement.

Ends with status 1 where a disagreement has no named difference, or where an answer is not the one
that the rule gives.
"""

import argparse
import collections
import pathlib
import random
import sys
import tempfile
import time
import typing

import bounds_rule
import programs
import questions
import shape_lists
from expect_shapes import reader

BATCH = 2_000
EMPTY = ["inf", "-inf"]  # what the Rust tells of an axis without values; ours leaves it out


class Asked(typing.NamedTuple):
    """A line for each program, and what is wanted of it: an answer, or a list that is told."""

    ours: str
    rust: str
    wanted: object


class Told(typing.NamedTuple):
    group: str
    hint: object
    shapes: list


def counted(draw, bounds, side):
    """A shape to count, in one of three forms, with what the rule needs of it."""
    dimension = draw.choice(list(shape_lists.DIMENSIONS))
    shape = shape_lists.shape(draw, dimension, bounds, side)
    way = draw.random()
    data = shape_lists.written(shape, dimension)
    rust = "count shape " + data.hex()
    ours = rust if draw.random() < 0.8 else "count shape " + data.hex().upper()
    if way < 0.15:
        ours = "count swapped " + shape_lists.written(shape, dimension, swapped=True).hex()
    elif way < 0.3:
        _, code, coords = reader.read(data)
        words = [reader.coordinate_text(c) for c in coords]
        ours = " ".join(["count table", str(code), *words])
    return Asked(ours, rust, "counted"), (dimension, shape.kind, shape_lists.runs(shape))


def damaged(draw, bounds):
    """Bytes that may be refused: a shape cut, or with a byte changed, or with bytes behind it."""
    dimension = draw.choice(list(shape_lists.DIMENSIONS))
    shape = shape_lists.shape(draw, dimension, bounds, "any")
    data = bytearray(shape_lists.written(shape, dimension))
    way = draw.randrange(3)
    if way == 0:
        del data[draw.randrange(len(data)) :]
    elif way == 1:
        data[draw.randrange(min(len(data), 9))] = draw.choice([0, 1, 2, 9, 255])
    else:
        data += draw.randbytes(3)
    answer = reader.read(bytes(data))
    if answer[0] == "read":
        return None
    line = "count shape " + (bytes(data).hex() or "-")
    return Asked(line, line, reader.answer_text(answer))


def one_list(draw):
    """The lines of one list of shapes: a bounder, shapes, and now and then what it tells."""
    group, bounds = shape_lists.hint(draw)
    words = [] if bounds is None else [questions.written(value, draw) for value in bounds]
    start = " ".join(["bounder", *words])
    yield Asked(start, start, "counting")
    sides = ["far", "far", "left", "right", "any", shape_lists.two_places(draw, bounds)]
    side = draw.choice(sides)
    shapes = []
    for _ in range(draw.randrange(7)):
        if draw.random() < 0.1 and (asked := damaged(draw, bounds)):
            yield asked
        mixed = "any" if draw.random() < 0.05 else side
        asked, shape = counted(draw, bounds, mixed)
        yield asked
        shapes.append(shape)
        if draw.random() < 0.2:
            yield Asked("bounds", "bounds", Told(group, bounds, list(shapes)))
    yield Asked("bounds", "bounds", Told(group, bounds, shapes))


def parsed(answer):
    """The axes that an answer tells, as texts, and the codes."""
    axes, codes = answer.split("codes ")
    words = axes.split()
    return {words[at]: words[at + 1 : at + 3] for at in range(0, len(words), 3)}, codes


def numbers(axes):
    return {axis: (float(lo), float(hi)) for axis, (lo, hi) in axes.items()}


def verdict(wanted, theirs, ours):
    """How the two answers to `bounds` stand to each other and to the rule."""
    rule, codes = bounds_rule.told(wanted.hint, wanted.shapes)
    text = " ".join(map(str, codes)) if codes else "none"
    mine, my_codes = parsed(ours)
    rusts, rust_codes = parsed(theirs)
    rusts = {axis: ends for axis, ends in rusts.items() if ends != EMPTY}
    if not my_codes == rust_codes == text:
        return "unexplained"
    if numbers(mine) != {axis: pair[0] for axis, pair in rule.items() if pair[0]}:
        return "unexplained"
    if numbers(rusts) != {axis: pair[1] for axis, pair in rule.items() if pair[1]}:
        return "unexplained"
    if rule["x"][0] != rule["x"][1]:
        return "one empty half"
    return "equal" if mine == rusts else "equal but for the sign of zero"


class Tally:
    """What was compared: for each group of hints, how often each verdict came."""

    def __init__(self):
        self.counts = collections.defaultdict(collections.Counter)
        self.lists = 0
        self.shapes = 0
        self.wrapping = 0
        self.refused = 0
        self.shown = []

    def fault(self, lines, theirs, ours):
        self.counts["all"]["unexplained"] += 1
        if len(self.shown) < 10:
            self.shown.append("\n".join([*lines, f"    Rust {theirs}", f"    ours {ours}"]))

    def total(self, verdict=None):
        counts = self.counts.values()
        return sum(c.total() if verdict is None else c[verdict] for c in counts)


def compare(oracle, pagebook, asked, tally):
    theirs = programs.rust(oracle, [a.rust for a in asked])
    ours = programs.ours(pagebook, [a.ours for a in asked])
    since = []
    for a, their, mine in zip(asked, theirs, ours):
        since = [a.ours] if a.ours.startswith("bounder") else [*since, a.ours]
        if not isinstance(a.wanted, Told):
            tally.refused += a.wanted.startswith("refused")
            tally.shapes += a.wanted == "counted"
            if not their == mine == a.wanted:
                tally.fault(since, their, mine)
            continue
        found = verdict(a.wanted, their, mine)
        if found == "unexplained":
            tally.fault(since, their, mine)
            continue
        tally.counts[a.wanted.group][found] += 1
        x = numbers(parsed(mine)[0]).get("x")
        tally.wrapping += x is not None and x[0] > x[1]


def report(tally, seconds):
    for group, counts in tally.counts.items():
        told = ", ".join(f"{name} {count}" for name, count in counts.items())
        print(f"{group:12} {counts.total():7}: {told}")
    print()
    print(f"lists {tally.lists}, shapes {tally.shapes}, refused {tally.refused}")
    for name in sorted({name for counts in tally.counts.values() for name in counts}):
        print(f"{name} {tally.total(name)}")
    for text in tally.shown:
        print(text)
    unexplained = tally.total("unexplained")
    print(f"told {tally.total()}, of these wrapping {tally.wrapping}, in {seconds:.0f} s")
    print(f"unexplained {unexplained}")


def main():
    options = argparse.ArgumentParser(description=__doc__)
    options.add_argument("--program", type=pathlib.Path, default=programs.PAGEBOOK)
    options.add_argument("--lists", type=int, default=30_000)
    options.add_argument("--seed", type=int, default=1)
    chosen = options.parse_args()
    if not chosen.program.exists():
        sys.exit(f"{chosen.program} is not there: run 'rt run </dev/null' in crates/pagebook first")
    start = time.monotonic()
    tally = Tally()
    draw = random.Random(chosen.seed)
    with tempfile.TemporaryDirectory() as folder:
        oracle = programs.build(pathlib.Path(folder))
        while tally.lists < chosen.lists:
            count = min(BATCH, chosen.lists - tally.lists)
            asked = [line for _ in range(count) for line in one_list(draw)]
            compare(oracle, chosen.program, asked, tally)
            tally.lists += count
    report(tally, time.monotonic() - start)
    sys.exit(1 if tally.total("unexplained") else 0)


if __name__ == "__main__":
    main()
