#!/usr/bin/env python3
"""Writes what `pagebook` must write for a script, without asking it.

The answer to a question to a pair is the original Rust's, or that of the rule in rule.py where we
are meant to differ and for `take`, which the Rust lacks. Numbers are written by the Rust. The other
answers come from expect_shapes.py.
"""

import pathlib
import sys
import tempfile

import expect_shapes
import programs
import questions
import rule


def question(line):
    _, kind, function, *texts = line.split()
    return kind, function, tuple(value(text) for text in texts)


def value(text):
    return questions.of_bits(int(text, 16)) if text.startswith("0x") else float(text)


def asked_of_rust(line, bounder):
    """The line whose answer by the Rust is the answer wanted, or the answer itself."""
    if not line.split()[0] == "interval":
        return None, bounder.answer(line.split())
    put = question(line)
    kind, function, values = put
    if function == "take":
        wanted = rule.taken(kind, values)
    elif named := rule.difference(put):
        wanted = named.ours
    else:
        return line, None
    if isinstance(wanted, str):
        return None, wanted
    if isinstance(wanted, float):
        return f"interval ordinary lo {questions.hexadecimal(wanted)} 0", None
    return " ".join(["interval ordinary new", *map(questions.hexadecimal, wanted)]), None


def expected(oracle, script):
    """The lines that answer the script, and its summary."""
    commands = {
        number: line
        for number, line in enumerate(script, 1)
        if line.split() and not line.split()[0].startswith("#")
    }
    bounder = expect_shapes.Bounder()
    asked = {number: asked_of_rust(line, bounder) for number, line in commands.items()}
    told = iter(programs.rust(oracle, [line for line, _ in asked.values() if line]))
    answers = [known if line is None else next(told) for line, known in asked.values()]
    lines = [f"{number}: {answer}" for number, answer in zip(commands, answers)]
    return lines + programs.summary(answers)


def main():
    script = pathlib.Path(sys.argv[1]).read_text().splitlines()
    with tempfile.TemporaryDirectory() as folder:
        oracle = programs.build(pathlib.Path(folder))
        print("\n".join(expected(oracle, script)))


if __name__ == "__main__":
    main()
