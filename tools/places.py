#!/usr/bin/env python3
"""Counts the places of docs/DESIGN-PASS.md in crates/*/src (points 1 to 7) and crates/*/proofs (point 8).

    tools/places.py            the counts, a line for each point and kind
    tools/places.py POINT      the places of that point, FILE:LINE: TEXT

What is counted is what a search by shape finds; which of it is a place that today's Rattle writes better is decided on the page, one by one.
"""
import collections
import pathlib
import re
import sys

ROOT = pathlib.Path(__file__).resolve().parent.parent / "crates"


def sources(kind="src", ending="*.rt"):
    for path in sorted(ROOT.glob(f"*/{kind}/**/{ending}")):
        yield path.relative_to(ROOT), path.read_text().split("\n")


def code(line):
    return line.split("//")[0]


def lines_with(pattern):
    wanted = re.compile(pattern)
    for path, lines in sources():
        for number, line in enumerate(lines, 1):
            if not line.startswith("ghost ") and wanted.search(code(line)):
                yield f"{path}:{number}: {line.strip()}"


def functions():
    """Each function with a body, as the layout has it: file, line, name, signature, clauses, body."""
    head = re.compile(r"^( *)(?:pub(?:\([a-z]+\))? )?fn (\w+)")
    for path, lines in sources():
        for start, line in enumerate(lines):
            match = head.match(line)
            if not match or line.rstrip().endswith(";"):
                continue
            indent = match.group(1)
            end = lines.index(indent + "}", start)
            whole = [line.strip() for line in lines[start:end]]
            clauses = [line for line in whole if line.startswith(("requires", "ensures"))]
            opening = next(i for i, line in enumerate(whole) if line.endswith("{") and line not in clauses)
            signature = re.split(r" (?:requires|ensures) ", " ".join(whole[: opening + 1]))[0]
            yield path, start + 1, match.group(2), signature, clauses, whole[opening + 1 :]


def twins():
    """Functions of one crate whose bodies are the same but for names and numbers."""
    shapes = collections.defaultdict(list)
    for path, number, name, signature, _, body in functions():
        text = " ".join(code(line).strip() for line in body if code(line).strip())
        if len(text) < 60:
            continue
        shape = re.sub(r"\b\w+\b", lambda m: m.group(0) if m.group(0) in ("let", "mut", "while", "for", "in", "if", "else", "match", "return") else "x", text)
        shapes[shape].append(f"{path}:{number}: fn {name}")
    for group in shapes.values():
        if len(group) > 1:
            yield " = ".join(group)


def facts():
    """Facts that stand in the contracts of three or more functions of a crate."""
    seen = collections.defaultdict(list)
    for path, number, name, _, contract, _ in functions():
        for clause in contract:
            inner = clause[clause.find("{") + 1 : clause.rfind("}")].strip()
            if clause.startswith("requires"):
                for fact in re.split(r"\)\s*×\s*\(|\s×\s", inner):
                    seen[(path.parts[0], fact.strip("() "))].append(f"{name}")
    for (crate, fact), names in seen.items():
        if len(names) >= 3:
            yield f"{crate}: {fact}: {', '.join(names)}"


def travellers():
    """Three or more parameters, names and types, that stand together in three or more functions of a crate."""
    sets = collections.defaultdict(set)
    for path, number, name, signature, _, _ in functions():
        inner = signature[signature.find("(") + 1 :]
        params = frozenset(p.strip().rstrip(",") for p in re.findall(r"\b\w+: [^,()]+(?:\[[^\]]*\])?", inner.rsplit(")", 1)[0]))
        if len(params) >= 3:
            sets[path.parts[0]].add((f"{path}:{number}: fn {name}", params))
    for crate, entries in sets.items():
        groups = collections.defaultdict(set)
        entries = list(entries)
        for i, (a, p) in enumerate(entries):
            for b, q in entries[i + 1 :]:
                common = p & q
                if len(common) >= 3:
                    groups[common].update((a, b))
        kept = []
        for group in sorted(groups, key=lambda g: (-len(groups[g]) , sorted(g))):
            if len(groups[group]) >= 3 and not any(group <= g for g in kept):
                kept.append(group)
                yield f"{crate}: {', '.join(sorted(group))}: {len(groups[group])} functions"


def answers():
    for path, lines in sources("proofs", "*.antt"):
        for number, line in enumerate(lines, 1):
            if re.match(r"^pub \S+ : goal\.", line):
                yield f"{path}:{number}: {line}"


POINTS = [
    ("1", "enums", lambda: lines_with(r"^\s*(pub(\([a-z]+\))? )?enum ")),
    ("1", "numbers for kinds (constants)", lambda: lines_with(r"^\s*(pub(\([a-z]+\))? )?const [A-Z_]+: (u8|u16|u32|i32) = \d+;")),
    ("1", "flags (fields of type bool)", lambda: lines_with(r"^\s+(pub(\([a-z]+\))? )?\w+: bool,$")),
    ("2", "functions of one shape", twins),
    ("3", "while, loop", lambda: lines_with(r"\b(while|loop)\b.*\{$")),
    ("3", "for over numbers", lambda: lines_with(r"\bfor \w+ in [^{]*\.\.")),
    ("4", "equality, order, conversion, printing by hand", lambda: lines_with(r"\bfn (same|equal|is_same|alike|eq|cmp|smaller|less|min|max|either|wide|number|word|words|digit|decimal|show|print|name)\w*\(")),
    ("5", "facts in three or more contracts", facts),
    ("5", "parameters that travel together", travellers),
    ("6", "a buffer and a place or a length beside it", lambda: lines_with(r"\w+: &(mut )?\[u8\], (at|length|len|have|from|end|count): usize")),
    ("6", "an array and its count beside it", lambda: lines_with(r"^\s+(pub(\([a-z]+\))? )?\w*(count|length|len): usize,$")),
    ("6", "arrays side by side", lambda: lines_with(r"^\s+(pub(\([a-z]+\))? )?\w+: \[[^\]]+; [^\]]+\],$")),
    ("7", "a switch on the kind or the number of a step", lambda: lines_with(r"\bmatch (section|part|kind|step|which|case|i|n|index|form)\b")),
    ("7", "function pointers and tables of functions", lambda: lines_with(r"\bfn\(|: \[fn")),
    ("8", "answers", answers),
]

if __name__ == "__main__":
    wanted = sys.argv[1] if len(sys.argv) > 1 else None
    for point, kind, places in POINTS:
        found = list(places())
        if wanted is None:
            print(f"{point} {kind}: {len(found)}")
        elif wanted == point:
            print(f"-- {kind}: {len(found)}")
            print("\n".join(found))
