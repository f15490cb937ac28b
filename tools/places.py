#!/usr/bin/env python3
"""Lists the places in src/ that docs/DESIGN-PASS.md counts, point by point.

Run at the top of a checkout: `python3 tools/places.py`, or with a point's number to see its lines.
"""
import re
import subprocess
import sys
from collections import Counter, defaultdict

# what a line of a place looks like, by point
LINES = {
    1: [
        r"Option<Fault>",
        r"verdict \(.*\) ≡ Ok tt",
        r"fn (numbered|of_number|decode|of_fields|of_kind)\(.*Option",
        r"\b(kind|number|KIND|NUMBER): u8",
        r"\bRefused\(u8",
        r"^\s*(pub )?\w+: bool,",
        r"^\s*(pub )?enum (Stored|Origin)\b",
    ],
    3: [r"^\s*(for \w+ in 0 ?\.\.|while |loop )"],
    4: [
        r"fn (numbered|number|decode|word|name|initial)\(",
        r"^struct Source\b",
        r"^#\[derive\(Clone, Copy\)\]$",
    ],
    6: [r"^\s*(first|second|third|fourth): Vec<", r"^\s*match processor \{"],
    7: [r"\bmatch call \{", r"^pub trait Query\b"],
}


def sources():
    names = subprocess.run(
        ["git", "ls-files", "crates/*/src/*.rt"], capture_output=True, text=True, check=True
    ).stdout.split()
    return {name: open(name).read().splitlines() for name in names}


def by_line(files, patterns):
    for name, lines in files.items():
        for number, line in enumerate(lines, 1):
            if any(re.search(p, line) for p in patterns) and not line.strip().startswith("//"):
                yield f"{name}:{number}: {line.strip()}"


def shape(line):
    line = re.sub(r'"[^"]*"', '""', line.split("//")[0].strip())
    line = re.sub(r"\b[a-z_0-9]\w*|\b[A-Z]\w*", "x", line)
    return line


def alike(files, run=6):
    """Runs of so many lines of one shape that stand in two places; imports and clauses are passed over."""
    found = defaultdict(list)
    for name, lines in files.items():
        kept = [
            (number, shape(line))
            for number, line in enumerate(lines, 1)
            if line.split("//")[0].strip()
            and not re.match(r"\s*(ghost )?use |\s*#|\s*(requires|ensures)\b|\s*[{}()\[\];,]+$", line)
        ]
        for i in range(len(kept) - run + 1):
            window = kept[i : i + run]
            found[tuple(s for _, s in window)].append((name, window[0][0]))
    pairs = set()
    for places in found.values():
        for a in places:
            for b in places:
                if a < b and len(places) <= 8:
                    pairs.add((a[0], b[0]))
    return sorted(f"{a} ~ {b}" for a, b in pairs)


def facts(files):
    """Facts that stand in the `requires` of three functions or more."""
    count = Counter()
    for lines in files.values():
        for line in lines:
            clause = re.match(r"\s*requires(?: \w+)? \{ (.*) \}$", line)
            if clause:
                count.update(part.strip("() ") for part in clause[1].split(" × "))
    yield from (f"{n} {fact}" for fact, n in count.most_common() if n >= 3)


def together(files):
    """Parameters that stand side by side in three functions or more."""
    count = Counter()
    for lines in files.values():
        text = "\n".join(lines)
        for params in re.findall(r"\bfn \w+(?:<[^>]*>)?\(([^)]*)\)", text):
            names = re.findall(r"(\w+): [&\w<]", params)
            count.update(zip(names, names[1:]))
    yield from (f"{n} {a}, {b}" for (a, b), n in count.most_common() if n >= 3)


def main():
    files = sources()
    points = {p: list(by_line(files, patterns)) for p, patterns in LINES.items()}
    points[2] = alike(files)
    points[5] = list(facts(files)) + list(together(files))
    proofs = subprocess.run(
        ["git", "ls-files", "crates/*/proofs/*.antt"], capture_output=True, text=True, check=True
    ).stdout.split()
    points[8] = [f"{name} {sum(1 for _ in open(name))}" for name in proofs]
    for point in sorted(points):
        places = points[point]
        total = f", {sum(int(p.split()[-1]) for p in places)} lines" if point == 8 else ""
        print(f"point {point}: {len(places)}{total}")
        if len(sys.argv) > 1 and sys.argv[1] == str(point):
            print("\n".join(places))


main()
