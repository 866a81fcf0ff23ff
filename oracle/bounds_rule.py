"""What a bounder tells, computed from the rule's own words and from the shapes as they were drawn.

Neither program's code is followed: no bounds are kept and merged. A bound is None where it has no
values, and else a pair of numbers.
"""

import math

INF = math.inf
AXES = {0: "xy", 1000: "xyz", 2000: "xym", 3000: "xyzm"}


def hulls(runs, axis):
    """From the least to the greatest value of each run on the axis, NaN ignored."""
    values = [[c[axis] for c in run if not math.isnan(c[axis])] for run in runs]
    return [(min(v), max(v)) for v in values if v]


def hull_of(pairs):
    """From the least to the greatest value of all."""
    return (min(p[0] for p in pairs), max(p[1] for p in pairs)) if pairs else None


def middle(hint):
    """Half the width above the lower end, each step rounded; NaN without a hint."""
    lo, hi = hint
    return lo + (hi - lo) / 2


def sides(hint, pairs):
    """The hulls below the hint's middle, those above it, and the others."""
    cut = middle(hint)
    left = [p for p in pairs if p[1] < cut]
    right = [p for p in pairs if p[0] > cut]
    return left, right, [p for p in pairs if not p[1] < cut and not p[0] > cut]


def told_x(hint, runs):
    """Our pair of x, and the Rust's where it is known to differ."""
    hint = hint or (INF, -INF)
    pairs = hulls(runs, 0)
    left, right, others = sides(hint, pairs)
    whole = hull_of(pairs)
    if whole is None or others or not (hint[0] <= whole[0] and whole[1] <= hint[1]):
        return whole, whole
    if not left:
        return whole, (whole[0], -INF)
    if not right:
        return whole, (INF, whole[1])
    last, first = hull_of(left)[1], hull_of(right)[0]
    if whole[1] - whole[0] < (last - hint[0]) + (hint[1] - first):
        return whole, whole
    return (first, last), (first, last)


def told(hint, shapes):
    """For each axis our pair and the Rust's, and the codes. A shape is a dimension, a kind and its runs."""
    answer = {"x": told_x(hint, [run for _, _, runs in shapes for run in runs])}
    for axis in "yzm":
        pairs = [
            pair
            for dimension, _, runs in shapes
            if axis in AXES[dimension]
            for pair in hulls(runs, AXES[dimension].index(axis))
        ]
        answer[axis] = (hull_of(pairs), hull_of(pairs))
    codes = sorted({dimension + kind for dimension, kind, _ in shapes})
    return answer, codes
