#!/usr/bin/env python3
"""Counts in crates/*/src the places of the points of docs/DESIGN-PASS.md that a search can find, one line for each place.

    tools/points.py [POINT..]          all places, or those of some points
    tools/points.py --count [POINT..]  how many

A place whose form stays has a line `// Stays (N): reason` right above it or above its function; it is listed with that reason.
"""
import glob
import os
import re
import sys

TOP = os.path.dirname(os.path.dirname(os.path.abspath(__file__)))

# What is found by a line of code: point, what it is, pattern.
LINES = [
    (1, "own enum", r"^ *(pub )?enum \w+"),
    (1, "number or flag in a field", r"^ *(pub )?(number|fault|price): u32,|^ *(pub )?(there|more): bool,|^ *(pub )?taken: usize,"),
    (1, "number handed in", r"\bfn .*\b(number|price): u32"),
    (3, "loop by hand", r"^ *while "),
    (4, "conversion by hand", r"\bfn (wide|word|bit_of|orientation|cut8|cut16)\b"),
    (4, "copying by hand", r"\bfn (moved|taken_by)\b|^ *let (\w+) = \w+\.\2;"),
    (6, "arrays with a length beside, or side by side", r"\bcolors: \[u16; 8\], n: usize|^ *pub (w|s|q|costs|cuts): \[(u64|f64|usize); "),
]
# What answers a refusal's number, or a number that stands for none.
NUMBERS = re.compile(r"\bfn (\w*fault|limits|costs_number|text_number|number|pred|number_of|next_size)\b[^{]*?-> (u32|usize)\b")
TWINS = r"\bfn (lesser|greater|wide|word|bit_of|copy_bytes|copy_words|longer|lines_of|lines_in|area|at_most|cut8|cut16|read8|read16|top_level|index_at|index_in|all_in_range|indices_ok|head_of|replay_next|replay_all)\b"


def functions(text):
    for found in re.finditer(r"\bfn (\w+)(?:<[^>]*>)?\(([^{]*?)\)(?= *(?:->|requires|ensures|where|\{|\n))", text):
        yield found, [p for p in found.group(2).split(",") if ":" in p or "self" in p]


def places(point_wanted):
    for path in sorted(glob.glob(os.path.join(TOP, "crates/*/src/*.rt"))):
        short = os.path.relpath(path, TOP)
        text = open(path, encoding="utf-8").read()
        lines = text.splitlines()
        for at, line in enumerate(lines, 1):
            for point, what, pattern in LINES:
                if point in point_wanted and re.search(pattern, line):
                    yield point, what, short, at, line.strip(), lines
            if 2 in point_wanted and re.search(TWINS, line):
                yield 2, "may have a twin", short, at, line.strip(), lines
        if 1 in point_wanted:
            for found in NUMBERS.finditer(text):
                at = text.count("\n", 0, found.start()) + 1
                yield 1, "answers a number", short, at, lines[at - 1].strip(), lines
        if 5 in point_wanted:
            for found, parameters in functions(text):
                if len(parameters) > 6:
                    at = text.count("\n", 0, found.start()) + 1
                    yield 5, f"{len(parameters)} parameters", short, at, lines[at - 1].strip(), lines


def reason(lines, at, point):
    """The reason that stands above a place, or above the function that it is in."""
    look = at - 2
    while look >= 0:
        line = lines[look].strip()
        if line.startswith(f"// Stays ({point}): "):
            return line[3:]
        if line == "}" and lines[look].startswith("}"):
            return ""
        look -= 1
    return ""


def main():
    words = sys.argv[1:]
    count = "--count" in words
    wanted = [int(w) for w in words if w.isdigit()] or [1, 2, 3, 4, 5, 6]
    totals = {point: [0, 0] for point in wanted}
    for point, what, short, at, line, lines in places(wanted):
        why = reason(lines, at, point)
        totals[point][0] += 1
        totals[point][1] += bool(why)
        if not count:
            print(f"{point} {short}:{at}: {what}: {line}" + (f"  [{why}]" if why else ""))
    for point, (all_of_it, staying) in totals.items():
        print(f"point {point}: {all_of_it} places, {staying} with a reason beside them")


main()
