"""Builds the original Rust's oracle, and puts one script to it and to `pagebook`."""

import pathlib
import subprocess
import sys
import tempfile

HERE = pathlib.Path(__file__).resolve().parent
ROOT = HERE.parent
PAGEBOOK = ROOT / "crates" / "pagebook" / "out" / "pagebook"


def build(folder):
    """Compiles the stand-ins and the oracle into the folder and answers the program's path."""
    rustc = ["rustc", "--edition", "2021", "-O", "-L", folder]
    built = []
    for name in ["arrow_schema", "geo_traits", "wkb"]:
        library = folder / f"lib{name}.rlib"
        kind = ["--crate-type", "rlib", "--crate-name", name]
        subprocess.run([*rustc, *built, *kind, HERE / f"{name}.rs", "-o", library], check=True)
        built += ["--extern", f"{name}={library}"]
    oracle = folder / "oracle"
    subprocess.run([*rustc, *built, HERE / "main.rs", "-o", oracle], check=True)
    return oracle


def answers(program, lines):
    """What the program answers to each line, without the line's number."""
    with tempfile.TemporaryFile() as script, tempfile.TemporaryFile() as told:
        script.write(("\n".join(lines) + "\n").encode())
        script.seek(0)
        subprocess.run([program], stdin=script, stdout=told, check=True)
        told.seek(0)
        text = told.read().decode().splitlines()
    found = text[: len(lines)]
    for number, line in enumerate(found, 1):
        if not line.startswith(f"{number}: "):
            sys.exit(f"{program}: line {number} is answered {line!r}")
    return [line.split(": ", 1)[1] for line in found], text[len(lines) :]


def rust(oracle, lines):
    """The Rust's answers."""
    told, rest = answers(oracle, lines)
    if rest:
        sys.exit(f"{oracle}: {len(rest)} lines too many")
    return told


def ours(pagebook, lines):
    """Our answers, the summary checked and left out."""
    told, rest = answers(pagebook, lines)
    if rest != summary(told):
        sys.exit(f"{pagebook}: the summary is {rest!r}")
    return told


def summary(told):
    """The lines behind the answers."""
    refused = sum(answer.startswith(("refused", "source refused")) for answer in told)
    return ["", f"commands {len(told)}, granted {len(told) - refused}, refused {refused}"]
