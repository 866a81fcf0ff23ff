"""Lists the places in crates/*/src that a newer form may serve better, point by point, or counts them: python3 tools/places.py [--count]"""
import collections
import glob
import re
import sys

# what a line of code says where it is a place to look at
PATTERNS = {
    "1 outcomes as bool, number or own enum, and results handed on by hand": [
        r"fn \w+\(&mut self.*-> bool\b|Result<bool\b",
        r"^\s+(Refused|SourceRefused|Over)\b.*,$",
        r"\b(None|Err\(\w+\)) => (return )?(None|false|Ok\(None\)|Err\()",
        r"let (Some|Ok)\(.*\) = .* else \{",
        r"fn (number|layer|status|kind_wraps)\b",
    ],
    "3 loops that count": [
        r"^\s*('\w+: )?while (?!let)",
        r"for \w+ in [\w.]+\.\.",
    ],
    "4 conversion, equality and printing by hand": [
        r"fn (from_(?!str)\w+|named|same|equals|byte_of|has|inner|plain\w*|raw_\w+|page_record|taken|hulls_of|bounds|\w+_reply)\b",
        r"\.number\(\) ==|== \w+\.number\(\)",
    ],
    "6 fixed buffers, lent lists beside one another, bytes by index": [
        r": \[\w+; \d+\]",
        r": &('\w+ )?mut \[",
        r"^\s*\w+\[\w+( \+ \d)?\],$|\[\w+\[0\]",
    ],
    "7 switches on a step": [
        r"match (self\.step\(\)|rule\(|asked\b|named\b|command\b|form\b)",
    ],
}


def sources():
    return sorted(glob.glob("crates/*/src/*.rt"))


def code():
    for path in sources():
        for at, line in enumerate(open(path), 1):
            if not line.strip().startswith(("//", "ghost", "ensures", "requires")):
                yield f"{path}:{at}: {line.strip()}", line.rstrip("\n")


def matching(patterns):
    return [place for place, line in code() if any(re.search(p, line) for p in patterns)]


def same_shape():
    """Pairs of functions of one shape: alike once names of types, numbers and variants are taken out."""
    shapes = collections.defaultdict(list)
    for path in sources():
        text = open(path).read()
        for found in re.finditer(r"^( *)(?:pub(?:\(crate\))? )?fn (\w+).*?^\1\}", text, re.M | re.S):
            body = "\n".join(l for l in found.group(0).splitlines() if not re.match(r"\s*(ensures|requires|//)", l))
            shape = re.sub(r"\b([A-Z]\w*|\w+_\w+|\d[\w.]*)\b|fn \w+", "_", body)
            if shape.count("\n") > 3:
                shapes[re.sub(r"\s+", " ", shape)].append(f"{path}: {found.group(2)}")
    return [" ~ ".join(names) for names in shapes.values() if len(names) > 1]


def together():
    """Parameters, by name and type, that stand side by side in three signatures or more."""
    pairs = collections.Counter()
    for path in sources():
        for parameters in re.findall(r"fn \w+(?:<[^(]*>)?\(([^)]*)\)", re.sub(r"\s+", " ", open(path).read())):
            named = [p.strip() for p in parameters.split(",") if ":" in p]
            pairs.update((a, b) for i, a in enumerate(named) for b in named[i + 1:])
    return [f"{n} times: {a}, {b}" for (a, b), n in pairs.most_common() if n >= 3]


def clauses():
    """Clauses that stand word for word in three contracts of a crate or more."""
    seen = collections.Counter()
    for path in sources():
        for line in open(path):
            found = re.match(r"\s*(requires|ensures)( \w+)? (\{.*\})", line)
            if found:
                seen[(path.split("/")[1], found.group(1), found.group(3))] += 1
    return [f"{n} times in {crate}: {kind} {clause}" for (crate, kind, clause), n in seen.most_common() if n >= 3]


def answers():
    return sorted(glob.glob("crates/*/proofs/**/Answers.antt", recursive=True))


if __name__ == "__main__":
    rows = {point: matching(patterns) for point, patterns in PATTERNS.items()}
    rows["2 functions of one shape"] = same_shape()
    rows["5 parameters together"] = together()
    rows["5 clauses repeated"] = clauses()
    rows["8 files of answers"] = answers()
    for point in sorted(rows):
        print(f"{point}: {len(rows[point])}")
        if "--count" not in sys.argv:
            print("".join(f"    {place}\n" for place in rows[point]), end="")
