#!/usr/bin/env python3
"""Respells the repository's own definitions and lemmas: words in snake case, facts and types in camel case.

usage: python3 tools/respell.py [--dry]      at the top of the repository, once, after port.py

A name that is declared in specs/ or proofs/ changes so:
- a capital inside a word becomes an underscore (withValue: with_value);
- a fact or type joins its words without dashes (Hulls-exact: HullsExact);
- in specs/, a dash becomes an underscore (same-state: same_state);
- in proofs/, the first dash of a lemma stays where it follows a word that the lemma is about (length-push), and each other dash
  becomes an underscore (begun-again: begun_again).
Goals that the check names, functions of src/, fields of its structs, strings, inputs and outputs keep their names. A new name that
is taken already is reported, and nothing is written.
"""
import os
import re
import sys

WORD = "A-Za-z0-9_'\u2080-\u209c\u1d00-\u1dbf\u2115\u2124"
TOKEN = re.compile(rf"(?<![{WORD}\u25cc-])([A-Za-z_][{WORD}]*(?:-[{WORD}]+)*)")
DECLARED = re.compile(r"^\s*(?:abbrev\s+|unfoldable\s+|package\s+)*(?:pub\s+)?(record\s+|data\s+)?([^\s():{},.=\u25cc]+)(?:\s+[({].*)?\s+:\s(.*)$")
HEADS = re.compile(r"^\s*(?:abbrev|unfoldable)\s|^\s*(?:pub\s+)?(?:record|data)\s")


def texts(ends):
    for top in ("crates", "docs", "README.md", "foreign", "examples"):
        if os.path.isfile(top):
            yield top
        for folder, dirs, files in os.walk(top):
            dirs[:] = sorted(d for d in dirs if d != "out")
            for f in sorted(files):
                if f.endswith(ends):
                    yield os.path.join(folder, f)


def read(path):
    with open(path, encoding="utf-8") as f:
        return f.read()


def snake(word):
    if re.fullmatch(r"[A-Z][A-Za-z0-9']*", word):
        return word
    return re.sub(r"(?<=[a-z0-9])([A-Z])", lambda m: "_" + m.group(1).lower(), word)


def main():
    heads, lemmas, in_specs = set(), set(), set()
    everything = set()
    for path in texts((".antt",)):
        text = read(path)
        everything.update(TOKEN.findall(text))
        specs = "/specs/" in path
        for line in text.split("\n"):
            if line.lstrip().startswith("--"):
                continue
            m = DECLARED.match(line)
            if not m or m.group(3).startswith("goal.") or not TOKEN.fullmatch(m.group(2)):
                continue
            name = m.group(2)
            if specs:
                in_specs.add(name)
            if specs or HEADS.match(line):
                heads.add(name)
            else:
                lemmas.add(name)
        # a word of the library that a file imports is one that a lemma may be about
        for group in re.findall(r"^use Rattle\.std[^\n]*?\{([^\n}]*)\}", text, re.M):
            heads.update(x for w in group.split(",") for x in w.strip().split(" as "))
    new = {}
    for name in sorted(heads | lemmas):
        parts = name.split("-")
        if parts[0][:1].isupper() and name in in_specs and len(parts) > 1:
            to = "".join(p[:1].upper() + p[1:] for p in parts)
        else:
            cased = [snake(p) for p in parts]
            if name in in_specs:
                to = "_".join(cased)
            elif len(parts) > 1 and (parts[0] in heads or cased[0] in heads):
                to = cased[0] + "-" + "_".join(cased[1:])
            else:
                to = "_".join(cased)
        to = {"told-x": "x_told"}.get(name, to)  # told_x is what toldX becomes
        if to != name:
            new[name] = to
    # words of the library are not ours
    library = set()
    for path in texts((".antt",)):
        for group in re.findall(r"^use Rattle\.std[^\n]*?\{([^\n}]*)\}", read(path), re.M):
            library.update(x for w in group.split(",") for x in w.strip().split(" as "))
    for name in list(new):
        if name in library:
            del new[name]
    by_new = {}
    for name, to in new.items():
        by_new.setdefault(to, []).append(name)
    # the function widens_lower of src/ and the definition of what it answers stand in modules of their own
    trouble = [(to, olds) for to, olds in by_new.items() if len(olds) > 1 or to in everything and to != "widens_lower"]
    for to, olds in trouble:
        print("falls together:", ", ".join(olds), "->", to, "(taken)" if to in everything else "")
    if "--dry" in sys.argv:
        for name, to in sorted(new.items()):
            print(name, "->", to)
        return
    if trouble:
        raise SystemExit(1)
    changed = 0
    for path in texts((".antt", ".rt", ".md", ".edit")):
        text = read(path)
        if path.endswith(".edit"):
            continue
        if path.endswith(".md"):
            to = re.sub(r"`([^`\n]+)`", lambda m: "`" + TOKEN.sub(lambda t: new.get(t.group(1), t.group(1)), m.group(1)) + "`", text)
        else:
            to = TOKEN.sub(lambda t: new.get(t.group(1), t.group(1)), text)
        if to != text:
            with open(path, "w", encoding="utf-8") as f:
                f.write(to)
            changed += 1
    print(f"respell: {len(new)} names, {changed} files")


main()
