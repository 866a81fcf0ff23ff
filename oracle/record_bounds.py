"""Records what the original Rust answers on lists of shapes, for record.py."""

import math
import random

import bounds_rule
import compare_bounds
import programs

LISTS = 420
SEED = 11

DIFFERENCES = [
    ["bounder -180 180", "count shape 010100000000000000000024400000000000000000", "bounds"],
    ["bounder -180 180", "count shape 010100000000000000000024c00000000000000000", "bounds"],
    ["bounder 0 inf", "count shape 010100000000000000000024400000000000000000", "bounds"],
    ["bounder -1e308 1e308", "count shape 010100000000000000000024400000000000000000", "bounds"],
]


def shown(answer):
    """An answer to `bounds` with the axes left out that have no values."""
    axes, codes = compare_bounds.parsed(answer)
    words = []
    for axis, ends in axes.items():
        if ends != compare_bounds.EMPTY:
            words += [axis, *ends]
    return " ".join([*words, "codes", codes])


def has_both_zeros(wanted):
    """Whether the least or greatest may be a zero of either sign, which Rust leaves open."""
    values = [v for *_, runs in wanted.shapes for run in runs for c in run for v in c if v == 0]
    return len({math.copysign(1, v) for v in values}) > 1


def is_left_out(wanted):
    if not isinstance(wanted, compare_bounds.Told):
        return False
    ours, rusts = bounds_rule.told(wanted.hint, wanted.shapes)[0]["x"]
    return ours != rusts or has_both_zeros(wanted)


def recorded(oracle):
    """Lines with the Rust's answers: whole lists, without those on which we differ."""
    draw = random.Random(SEED)
    asked = []
    for _ in range(LISTS):
        lines = list(compare_bounds.one_list(draw))
        if not any(is_left_out(line.wanted) for line in lines):
            asked += [line.rust for line in lines]
    for line, answer in zip(asked, programs.rust(oracle, asked)):
        yield line, shown(answer) if line == "bounds" else answer


def differences(oracle):
    """Lists that show a difference, with the Rust's answer to the last line."""
    for lines in DIFFERENCES:
        yield lines, shown(programs.rust(oracle, lines)[-1])
