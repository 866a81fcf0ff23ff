"""What `pagebook` must answer to the commands on shapes and on a bounder, without asking it.

Bytes are read by vectors/reader.py, and what a bounder tells comes from the rule in bounds_rule.py.
"""

import sys

import bounds_rule
import programs
import questions

sys.path.insert(0, str(programs.ROOT / "vectors"))
import reader  # noqa: E402

NAN = float("nan")


def number(text):
    return questions.of_bits(int(text, 16)) if text.startswith("0x") else float(text)


def data(digits):
    return b"" if digits == "-" else bytes.fromhex(digits)


def coordinate(text, axes):
    """A coordinate of a table, with NaN on the axes that its code lacks."""
    joins = text.startswith("+")
    values = dict(zip("xyzm", map(number, text.removeprefix("+").split(","))))
    return (joins, *(values[axis] if axis in axes else NAN for axis in "xyzm"))


def source(words):
    """What a source of a shape gives, or the refusal of what it is made from."""
    form, first, *rest = words
    if form == "shape":
        return reader.read(data(first))
    if form == "swapped":
        return reader.exchanged(reader.read(data(first)))
    kind, dimension = int(first) % 1000, int(first) // 1000 * 1000
    if kind not in reader.KINDS or dimension not in reader.AXES:
        return ("refused", 13, 2, 0)
    return ("read", int(first), [coordinate(text, reader.AXES[dimension]) for text in rest])


def drawn(code, coords):
    """A shape as bounds_rule has it: dimension, kind and runs of the ordinates that there are."""
    dimension = code // 1000 * 1000
    places = ["xyzm".index(axis) + 1 for axis in reader.AXES[dimension]]
    runs = []
    for c in coords:
        if not c[0] or not runs:
            runs.append([])
        runs[-1].append([c[place] for place in places])
    return dimension, code % 1000, runs


class Bounder:
    """The list of shapes of the bounder that was made last."""

    def __init__(self):
        self.hint = None
        self.shapes = []

    def answer(self, words):
        command, *rest = words
        if command == "bounder":
            self.hint = tuple(map(number, rest)) or None
            self.shapes = []
            return "counting"
        if command == "count":
            return self.count(rest)
        if command == "bounds":
            return self.bounds()
        return reader.answer_text(source(words))

    def count(self, words):
        given = source(words)
        if given[0] == "refused":
            text = reader.answer_text(given)
            return text if words[0] == "shape" else "source " + text
        self.shapes.append(drawn(given[1], given[2]))
        return "counted"

    def bounds(self):
        rule, codes = bounds_rule.told(self.hint, self.shapes)
        words = []
        for axis, (pair, _) in rule.items():
            if pair:
                words += [axis, *map(reader.shown, pair)]
        return " ".join([*words, "codes", *(map(str, codes) if codes else ["none"])])
