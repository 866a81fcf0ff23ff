#!/usr/bin/env python3
"""Records answers of the original Rust, to be replayed without it.

crates/recorded/stdin gets a script, questions to a pair and then lists of shapes for a bounder, and
crates/recorded/stdout the Rust's own answers to it. Questions on which we are meant to differ are
left out, and so are ties of zeros of different sign, which Rust leaves open. differences.txt gets
both answers for each named difference.
"""

import pathlib
import random
import tempfile

import expect
import programs
import questions
import record_bounds
import rule

RECORDED = programs.ROOT / "crates" / "recorded"
EDGES = 16
RANDOM = 6
SEED = 7
DEGREES = [0.0, 10.0, -10.0, 100.0, -100.0, 170.0, -170.0, float("inf"), float("-inf")]

DIFFERENCES = [
    "interval ordinary mid -1e308 1e308",
    "interval wraparound mid -1e308 1.5e308",
    "interval wraparound contains_interval 10 -10 20 30",
    "interval wraparound contains_interval 10 -10 10 inf",
    "interval wraparound contains_interval -inf inf 10 -10",
    "interval wraparound merge_interval 170 -170 -inf -200",
    "interval wraparound merge_interval 170 -170 -1e300 -1e299",
    "interval wraparound merge_interval -inf -200 170 -170",
    "interval ordinary same NaN 1.0 NaN 1.0",
    "interval wraparound same NaN NaN NaN NaN",
]


def line(question):
    kind, function, values = question
    return " ".join(["interval", kind, function, *map(repr, values)])


def sample(draw):
    """Edges of each function of each kind, and then random questions."""
    for pick, count in [(edge, EDGES), (questions.numbers, RANDOM)]:
        for kind in questions.KINDS:
            for function, arity in questions.functions(kind):
                if function == "take":
                    continue
                for _ in range(count if arity else 1):
                    yield kind, function, pick(draw, arity)


def edge(draw, count):
    return tuple(draw.choices(draw.choice([questions.SPECIAL, DEGREES]), k=count))


def recorded(oracle):
    """The script's questions with the Rust's answers, without those that we leave out."""
    asked = list(dict.fromkeys(sample(random.Random(SEED))))
    told = programs.rust(oracle, [line(question) for question in asked])
    for question, answer in zip(asked, told):
        named = rule.difference(question)
        if not rule.zeros_tie(question) and (named is None or not is_known(named, answer)):
            yield line(question), answer


def is_known(named, answer):
    """Whether the Rust gave the answer by which it differs."""
    return answer.split() == [text(value) for value in parts(named.rust)]


def parts(answer):
    return answer if isinstance(answer, tuple) else (answer,)


def text(value):
    return value if isinstance(value, str) else repr(value)


def write_record(oracle):
    """Writes the script and the answers, and gives how many answers each part has."""
    head = "# Answers of the original Rust: {}"
    parts = [
        ("the edges of every function of both kinds, then random questions.", recorded(oracle)),
        ("lists of shapes that a bounder counts.", record_bounds.recorded(oracle)),
    ]
    script, answers, told, sizes = [], [], [], []
    for text, pairs in parts:
        script.append(head.format(text))
        before = len(answers)
        for question, answer in pairs:
            script.append(question)
            answers.append(answer)
            told.append(f"{len(script)}: {answer}")
        sizes.append(len(answers) - before)
    (RECORDED / "stdin").write_text("\n".join(script) + "\n")
    (RECORDED / "stdout").write_text("\n".join(told + programs.summary(answers)) + "\n")
    return sizes


def shown_differences(oracle):
    """Lines for each question that shows a difference, with its name and both answers."""
    theirs = programs.rust(oracle, DIFFERENCES)
    ours = expect.expected(oracle, DIFFERENCES)
    for number, (question, answer) in enumerate(zip(DIFFERENCES, theirs)):
        name = rule.difference(expect.question(question)).name
        yield [question], name, answer, ours[number].split(": ", 1)[1]
    for lines, answer in record_bounds.differences(oracle):
        mine = expect.expected(oracle, lines)[len(lines) - 1].split(": ", 1)[1]
        yield lines, "one empty half", answer, mine


def write_differences(oracle):
    lines = ["# Each named difference, with the answer of the original Rust and ours.", ""]
    for questions_put, name, answer, mine in shown_differences(oracle):
        if answer == mine:
            raise SystemExit(f"{questions_put[-1]} shows no difference")
        lines += [*questions_put, f"    {name}: Rust {answer}, ours {mine}"]
    (programs.HERE / "differences.txt").write_text("\n".join(lines) + "\n")


def main():
    with tempfile.TemporaryDirectory() as folder:
        oracle = programs.build(pathlib.Path(folder))
        pairs, bounder = write_record(oracle)
        print(f"recorded {pairs} answers on pairs and {bounder} of a bounder")
        write_differences(oracle)


if __name__ == "__main__":
    main()
