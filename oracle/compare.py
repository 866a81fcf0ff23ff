#!/usr/bin/env python3
"""Puts the same questions to the original Rust and to `pagebook`, and explains each disagreement.

Ends with status 1 where a disagreement has no named difference, or where our answer is not the one
that the difference's rule gives.
"""

import argparse
import collections
import itertools
import pathlib
import random
import sys
import tempfile
import time

import programs
import questions
import rule

BATCH = 100_000


def parsed(answer):
    """The numbers of an answer, or its text where it has none."""
    try:
        return tuple(float(word) for word in answer.split())
    except ValueError:
        return answer


def equal(one, other):
    """Equal as numbers, end by end, or both NaN; texts as they stand."""
    if isinstance(one, str) or isinstance(other, str):
        return one == other
    return len(one) == len(other) and all(
        a == b or (a != a and b != b) for a, b in zip(one, other)
    )


def numbers(answer):
    return (answer,) if isinstance(answer, float) else answer


class Tally:
    """What was compared: for each function of each kind, how often each verdict came."""

    def __init__(self):
        self.counts = collections.defaultdict(collections.Counter)
        self.shown = []

    def note(self, question, verdict, line, theirs, ours):
        self.counts[question[:2]][verdict] += 1
        if verdict == "unexplained" and len(self.shown) < 20:
            self.shown.append(f"{line}\n    Rust {theirs}\n    ours {ours}")

    def total(self, verdict=None):
        counts = self.counts.values()
        return sum(c.total() if verdict is None else c[verdict] for c in counts)


def verdict(question, theirs, ours):
    """How the two answers stand to each other."""
    if question[1] == "take":
        wanted = rule.taken(question[0], question[2])
        return "by rule alone" if equal(parsed(ours), numbers(wanted)) else "unexplained"
    named = rule.difference(question)
    if named is not None and not equal(parsed(ours), numbers(named.ours)):
        return "unexplained"
    if theirs == ours:
        return "equal"
    if equal(parsed(theirs), parsed(ours)):
        return "sign of zero" if rule.zeros_tie(question) else "unexplained"
    if named is not None and equal(parsed(theirs), numbers(named.rust)):
        return named.name
    return "unexplained"


def compare(oracle, pagebook, asked, draw, tally):
    lines = [questions.line(question, draw) for question in asked]
    put = [line for question, line in zip(asked, lines) if question[1] != "take"]
    rust = iter(programs.rust(oracle, put))
    ours = programs.ours(pagebook, lines)
    for question, line, mine in zip(asked, lines, ours):
        their = "none" if question[1] == "take" else next(rust)
        tally.note(question, verdict(question, their, mine), line, their, mine)


def report(tally, seconds):
    for (kind, function), counts in tally.counts.items():
        told = ", ".join(f"{name} {count}" for name, count in counts.items())
        print(f"{kind:10} {function:19} {counts.total():8}: {told}")
    print()
    for name in sorted({name for counts in tally.counts.values() for name in counts}):
        if name != "unexplained":
            print(f"{name} {tally.total(name)}")
    for line in tally.shown:
        print(line)
    print(f"answers {tally.total()} in {seconds:.0f} s, unexplained {tally.total('unexplained')}")


def main():
    options = argparse.ArgumentParser(description=__doc__)
    options.add_argument("--program", type=pathlib.Path, default=programs.PAGEBOOK)
    options.add_argument("--each", type=int, default=20_000, help="random questions per function")
    options.add_argument("--every", action="store_true", help="all pairs of special pairs")
    options.add_argument("--seed", type=int, default=1)
    chosen = options.parse_args()
    if not chosen.program.exists():
        sys.exit(f"{chosen.program} is not there: run 'rt run </dev/null' in crates/pagebook first")
    start = time.monotonic()
    tally = Tally()
    draw = random.Random(chosen.seed)
    source = questions.questions(chosen.seed, chosen.each, chosen.every)
    with tempfile.TemporaryDirectory() as folder:
        oracle = programs.build(pathlib.Path(folder))
        while asked := list(itertools.islice(source, BATCH)):
            compare(oracle, chosen.program, asked, draw, tally)
    report(tally, time.monotonic() - start)
    sys.exit(1 if tally.total("unexplained") else 0)


if __name__ == "__main__":
    main()
