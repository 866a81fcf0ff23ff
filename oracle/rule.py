"""Where our bounds are meant to differ from the original Rust, and what they answer there.

Each rule is stated on the numbers of the question alone, and computed here from the rule's own
words: neither program's code is followed.
"""

import math
import typing

INF = math.inf
FULL = (-INF, INF)


class Difference(typing.NamedTuple):
    """A difference by its name, with our answer and the one that the Rust is known to give."""

    name: str
    ours: object
    rust: object


def refused(number, place):
    return f"refused {number} layer 4 place {place}"


def is_empty(pair):
    return pair[1] - pair[0] == -INF


def wraps(pair):
    return pair[1] - pair[0] < 0 and not is_empty(pair)


def covers_some(pair):
    """Some value lies between the ends."""
    return pair[0] <= pair[1]


def middle(pair):
    """`mid` of finite ends whose distance is beyond the largest number: halve each end first."""
    lo, hi = pair
    if math.isfinite(lo) and math.isfinite(hi) and lo <= hi and hi - lo == INF:
        return Difference("middle of a too wide pair", lo / 2 + hi / 2, INF)
    return None


def containment(outer, inner):
    """The upper side of a wrapping pair contains, and so does the full interval a wrapping one."""
    if wraps(outer) and not wraps(inner) and covers_some(inner) and inner[0] >= outer[0]:
        return Difference("upper side contains", "yes", "no")
    if outer == FULL and wraps(inner):
        return Difference("full contains a wrapping pair", "yes", "no")
    return None


def one_side(wrapping, other):
    """A pair that meets one side of a wrapping pair only widens that side only."""
    if not covers_some(other):
        return None
    lower = other[0] <= wrapping[1]
    upper = other[1] >= wrapping[0]
    if lower and not upper:
        widened = (wrapping[0], max(wrapping[1], other[1]))
        return Difference("merge on one side", widened, FULL)
    if upper and not lower:
        widened = (min(wrapping[0], other[0]), wrapping[1])
        return Difference("merge on one side", widened, FULL)
    return None


def merged(one, other):
    if wraps(one) and not wraps(other) and not is_empty(other):
        return one_side(one, other)
    if wraps(other) and not wraps(one) and not is_empty(one):
        return one_side(other, one)
    return None


def equality(one, other):
    """An end that is NaN in both pairs is equal."""
    ends = list(zip(one, other))
    both = [math.isnan(a) and math.isnan(b) for a, b in ends]
    if any(both) and all(nan or a == b for nan, (a, b) in zip(both, ends)):
        return Difference("NaN ends are equal", "yes", "no")
    return None


def taken(kind, pair):
    """What `take`, which the Rust lacks, answers."""
    lo, hi = pair
    if math.isnan(lo) or math.isnan(hi):
        return refused(11, 0 if math.isnan(lo) else 1)
    if lo > hi and (kind == "ordinary" or hi - lo == -INF):
        return refused(12, 0)
    return pair


def difference(question):
    """The named difference of a question, where it has one. The Rust may still answer as we do."""
    kind, function, values = question
    if function == "mid" and not (kind == "wraparound" and wraps(values)):
        return middle(values)
    if function == "contains_interval" and kind == "wraparound":
        return containment(values[:2], values[2:])
    if function == "merge_interval" and kind == "wraparound":
        return merged(values[:2], values[2:])
    if function == "same":
        return equality(values[:2], values[2:])
    return None


def zeros_tie(question):
    """A merge takes the least or greatest of two zeros of different sign, which Rust leaves open."""
    _, function, values = question
    if function == "merge_interval":
        ties = [(values[0], values[2]), (values[1], values[3])]
    elif function == "merge_value":
        ties = [(values[0], values[2]), (values[1], values[2])]
    else:
        return False
    return any(a == b == 0 and math.copysign(1, a) != math.copysign(1, b) for a, b in ties)
