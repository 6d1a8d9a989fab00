#!/usr/bin/env python3
"""Brings this repository's own definitions and lemmas to snake case, by names.tsv beside this file.

usage: tools/snake_names.py        once, at the top, behind port.py and before any edit by hand

A row has the old name, the new name and, where it holds in one file alone, that file. What turns: whole words of the .antt files,
of the clauses and ghost items of the .rt files, of code spans in comments, and of code spans of the pages.
A word behind a dot turns only where it is a field of a record of this repository (FIELDS). The functions of src/ keep their names.
"""

import os
import re

HERE = os.path.dirname(os.path.realpath(__file__))
ROOT = os.path.dirname(HERE)
FIELDS = set("cacheLength cellsBefore deepMost error-in flagLength flags-kept highMost kept-cuts len-cuts linesBefore map-kept mapLength rest-same wideMost".split())
WORD = re.compile(r"[^\s(){}.;,@\"«»\[\]]+")
SPAN = re.compile(r"`[^`\n]+`")
COMMENT = re.compile(r"(?m)(?:^|(?<=\s))--[^\n]*")
CLAUSE = re.compile(r"(?:requires|ensures)\s*\*?\s*(?:\w+\s*)?\{|ghost\s*(?:\w+\s*(?::\s*)?)?\{")
GHOST_USE = re.compile(r"ghost\s+use\b[^;]*;")


def rows_for(path, rows):
    return {old: new for old, new, only in rows if not only or only == path}


def turn(text, table, all_fields=True):
    def one(it):
        word = it[0]
        behind_dot = it.start() > 0 and text[it.start() - 1] == "."
        if behind_dot and word not in FIELDS:
            return word
        return table.get(word, word)

    return WORD.sub(one, text)


def spans(text, table):
    return SPAN.sub(lambda it: "`" + turn(it[0][1:-1], table) + "`", text)


def antt(text, table):
    out, at = [], 0
    for it in COMMENT.finditer(text):
        out.append(turn(text[at : it.start()], table))
        out.append(spans(it[0], table))
        at = it.end()
    out.append(turn(text[at:], table))
    return "".join(out)


def closer(text, at):
    depth = 0
    for i in range(at, len(text)):
        depth += (text[i] == "{") - (text[i] == "}")
        if depth == 0:
            return i
    raise SystemExit("snake_names: a clause is not closed")


def rt(text, table):
    out, at = [], 0
    while True:
        found = [it for it in (CLAUSE.search(text, at), GHOST_USE.search(text, at), re.compile(r"//[^\n]*").search(text, at)) if it]
        if not found:
            break
        it = min(found, key=lambda it: it.start())
        out.append(text[at : it.start()])
        if it[0].startswith("//"):
            end = it.end()
            out.append(spans(it[0], table))
        elif it[0].startswith("ghost") and "use" in it[0].split():
            end = it.end()
            out.append(turn(it[0], table))
        else:
            end = closer(text, it.end() - 1) + 1
            body = text[it.end() - 1 : end]
            out.append(it[0][:-1] + turn(body, table))
        at = end
    out.append(text[at:])
    return "".join(out)


def main():
    with open(os.path.join(HERE, "names.tsv"), encoding="utf-8") as f:
        rows = [(l.rstrip("\n").split("\t") + [""])[:3] for l in f if l.strip()]
    changed = 0
    for top in ("crates", "docs", "README.md", "station"):
        top = os.path.join(ROOT, top)
        files = [top] if os.path.isfile(top) else [os.path.join(a, x) for a, d, fs in os.walk(top) if "/out" not in a and "/target" not in a for x in fs]
        for p in sorted(files):
            path = os.path.relpath(p, ROOT)
            kind = {".antt": antt, ".rt": rt, ".md": spans}.get(os.path.splitext(p)[1])
            if not kind or path.endswith(("LANDINGS.md", "PORT.md")):
                continue
            with open(p, encoding="utf-8") as f:
                text = f.read()
            new = kind(text, rows_for(path, rows))
            if new != text:
                changed += 1
                with open(p, "w", encoding="utf-8") as f:
                    f.write(new)
    print(f"snake_names: {changed} files")


main()
