#!/usr/bin/env python3
"""Brings the names of definitions and lemmas to the spelling of today's kit: words in snake case, types as they are.

usage: python3 tools/spell_names.py        at the top, once, after the kit's own script and before any edit by hand

What turns: `rowsThat` to `rows_that`, `copy-turn` to `copy_turn`. Where a lemma would then have the name of a definition
it gets `_lem`. What stays: names of types, names that Rattle makes (`invariant-loop`, `decreases-loop`), names that a file
takes from a library that is not this repository's, functions of src/, strings. It goes by spelling, in specs/, proofs/,
clauses, edits, and in the code spans of the documents.
"""

import collections
import glob
import os
import re
import sys

WORD = re.compile(r"[^\s(){}.;,@\"«»:|`]+")
DEFINED = re.compile(r"^[ ]*(?:\| )?(?:(?:abbrev|unfoldable|pub|data|record) )*([^\s:(){}.,]+(?: [^\s:(){}.,]+)*)(?: [({][^:]*:[^)}]*[)}])*\s*:\s", re.M)
CAMEL = re.compile(r"[a-z][a-z0-9]*(?:[-_']?[A-Za-z0-9])*[A-Z][\w'-]*")
MADE = re.compile(r"(invariant|decreases)-")
CLAUSE = re.compile(r"(?:requires|ensures|ghost)\b")


def own_crates():
    return {os.path.basename(p) for p in glob.glob("crates/*")}


def antt():
    return sorted(glob.glob("crates/*/specs/**/*.antt", recursive=True) + glob.glob("crates/*/proofs/**/*.antt", recursive=True))


def read(path):
    with open(path, encoding="utf-8") as f:
        return f.read()


def plain(name):
    if not re.match(r"[a-z]", name) or MADE.match(name):
        return name
    name = re.sub(r"(?<=[a-z0-9])([A-Z])", lambda m: "_" + m.group(1), name)
    return name.lower().replace("-", "_") if name.isascii() else name.replace("-", "_")


def foreign(text, crates):
    """The names that a file takes from outside this repository."""
    names = set()
    for m in re.finditer(r"\buse ([^{};\n]*)(?:\{([^}]*)\})?", text):
        parts = m.group(1).split(".")
        if len(parts) > 1 and parts[0] == "Rattle" and parts[1] in crates:
            continue
        items = m.group(2).split(",") if m.group(2) else [parts[-1]]
        names |= {i.strip().split(" as ")[0].strip() for i in items}
    return names


def table(crates):
    defined, specs = collections.defaultdict(set), set()
    for path in antt():
        for m in DEFINED.finditer(read(path)):
            for name in m.group(1).split():
                if re.match(r"[a-z]", name) and name not in ("let", "in", "where", "use", "mod", "module"):
                    defined[name].add(path)
                    if "/specs/" in path:
                        specs.add(name)
    same = collections.defaultdict(list)
    for name in defined:
        same[plain(name)].append(name)
    turned = {}
    for new, names in same.items():
        # the definition keeps the bare name, a lemma of that name does not
        names.sort(key=lambda n: (n not in specs, not CAMEL.fullmatch(n), "-" in n, n))
        for rank, name in enumerate(names):
            turned[name] = new if rank == 0 else new + "_lem"
    return {old: new for old, new in turned.items() if old != new}


def functions():
    return {m.group(1) for p in glob.glob("crates/*/src/*.rt") for m in re.finditer(r"\bfn (\w+)", read(p))}


def turn(text, rows, made, keep, seen=None):
    def word(m):
        old = m.group(0)
        dotted = m.start() > 0 and text[m.start() - 1] == "."
        if old in keep:
            return old
        if dotted and old in made:
            new = made[old]
        elif dotted and "-" not in old and not CAMEL.fullmatch(old):
            return old
        elif old in rows:
            new = rows[old]
        elif CAMEL.fullmatch(old) and not MADE.match(old):
            new = plain(old)
        else:
            new = old
        if seen is not None:
            seen[new].add(old)
        return new

    return WORD.sub(word, text)


def outside_strings(text, change):
    parts = re.split(r'("(?:[^"\\\n]|\\.)*")', text)
    return "".join(p if i % 2 else change(p) for i, p in enumerate(parts))


def rust(text, rows, made, keep):
    """Of a source file the clauses, the ghost items and the code spans of comments."""
    out, depth, inside = [], 0, False
    for line in text.split("\n"):
        bare = line.strip()
        if bare.startswith("//"):
            out.append(spans(line, rows, {}))
            continue
        if not inside and CLAUSE.match(re.sub(r"^pub ", "", bare)):
            inside = True
            depth = 0
        if inside:
            line = outside_strings(line, lambda t: turn(t, rows, made, keep))
            depth += line.count("{") - line.count("}")
            inside = depth > 0
        out.append(line)
    return "\n".join(out)


def spans(text, rows, made):
    """Code spans: only names that no function of src/ can have turn there."""
    told = {old: new for old, new in rows.items() if "-" in old or CAMEL.fullmatch(old)}

    def span(m):
        return m.group(0) if re.search(r"[/:]", m.group(1)) else "`" + turn(m.group(1), told, made, set()) + "`"

    return re.sub(r"`([^`\n]+)`", span, text)


def edit(text, rows, made, keep):
    out = []
    for line in text.split("\n"):
        if line.startswith(("old:", "new:")):
            line = outside_strings(line, lambda t: turn(t, rows, made, keep))
        elif line.startswith("#"):
            head, colon, rest = line.partition(":")
            line = turn(head, {o: n for o, n in rows.items() if "-" in o or CAMEL.fullmatch(o)}, made, set()) + colon + spans(rest, rows, made)
        out.append(line)
    return "\n".join(out)


def comment_apart(line):
    m = re.search(r"(?:^|(?<=\s))--(?=\s|$)", line)
    return (line[: m.start()], line[m.start() :]) if m else (line, "")


def main():
    crates = own_crates()
    rows = table(crates)
    made = {f.replace("_", "-"): f for f in functions() if "_" in f}
    clashes = 0
    for path in antt():
        text = read(path)
        keep = foreign(text, crates)
        seen = collections.defaultdict(set)
        lines = []
        for line in text.split("\n"):
            code, note = comment_apart(line)
            lines.append(outside_strings(code, lambda t: turn(t, rows, made, keep, seen)) + turn(note, {o: n for o, n in rows.items() if CAMEL.fullmatch(o)}, {}, set()))
        for new, olds in seen.items():
            if len(olds) > 1:
                clashes += 1
                print(f"look: {path}: {' and '.join(sorted(olds))} would both be {new}")
        with open(path, "w", encoding="utf-8") as f:
            f.write("\n".join(lines))
    for path in sorted(glob.glob("crates/*/src/*.rt")):
        text = read(path)
        with open(path, "w", encoding="utf-8") as f:
            f.write(rust(text, rows, made, foreign(text, crates)))
    for path in sorted(glob.glob("crates/*/must-fail/*.edit")):
        text = read(path)
        with open(path, "w", encoding="utf-8") as f:
            f.write(edit(text, rows, made, set()))
    for path in sorted(["README.md", "CONTRIBUTING.md", "CHANGELOG.md", "reference/README.md"] + glob.glob("docs/*.md") + glob.glob("docs/landings/*.md")):
        text = read(path)
        with open(path, "w", encoding="utf-8") as f:
            f.write(spans(text, rows, made))
    print(f"{len(rows)} names turned, {clashes} places to look at")
    return 0


if __name__ == "__main__":
    sys.exit(main())
