#!/usr/bin/env python3
"""Brings the repository's own definitions and lemmas to today's spelling, once, after port.py.

usage: python3 tools/respell.py [--list]      at the top of the repository; --list prints the names and changes nothing

Words are in snake case, types and facts in upper camel case. A dash stays where it joins the names of two definitions; a plain word is joined by an
underscore. A name of src/ keeps its spelling. Names that the prover makes (behind `tie.`, and the labels of goals) are left alone.
"""

import collections
import os
import re
import sys

NAME = re.compile(r'[^\s(){}.;,@"«»`]+')
DECLARED = re.compile(r"^( *)(?:(?:abbrev|unfoldable) )?(?:pub )?(?:(record|data) )?([^\s:(){}.;,@]+)((?: [({][^(){}]*[)}])*) : (.*)$")
MODULE_PARAMETER = re.compile(r"^ *(use|module|mod|pub mod|package|open|unfolding)\b")
# words of the library that a law's name may join with a dash
LIBRARY = set(
    "zero one suc add sub mul div mod pow min max compare length append map filter take drop set get get_or ones bit_and bit_or bit_xor eqb leb ltb sum "
    "true false cons nil elim bit and or xor".split()
) - {"one"}
# a definition that would have the name of a field of src/, or of another definition
OTHERWISE = {
    "codeCount": "code_count_of",
    "policyCount": "policy_count_of",
    "hasEditions": "form_has_editions",
    "hasPersons": "form_has_persons",
    "readAs": "byte_read_as",
}
# laws that port.py gave the name that a definition gets here, and where they stand: a law that would have a definition's name gets `_lem`
LAWS = {
    "first_some": ["accounts/specs/Laws/First", "accounts/specs/Laws/Numbers", "live/specs/Laws/First", "live/specs/Laws/Steps", "live/specs/Laws/Twice", "reasons/specs/Laws/Lowest"],
    "found_before": ["crews/specs/Laws/Before", "crews/specs/Laws/Exact"],
    "given_back": ["desk/specs/Laws/Books"],
    "in_order": ["accounts/specs/Laws/Merged", "accounts/specs/Laws/Numbering", "desk/specs/Laws/Back"],
    "row_from": ["book/specs/Laws/Parts"],
    "rows_back": ["desk/specs/Laws/Back", "desk/specs/Laws/Books"],
    "row_of": ["table/specs/Laws/Tells"],
    "taken_out": ["desk/proofs/Looking", "live/specs/Laws/Gathering"],
    "told_of": ["values/specs/Laws/Wide"],
}


def files(*ends):
    for top in ("crates", "README.md", "docs", "books", "bench", ".ci"):
        if os.path.isfile(top):
            yield top
        for folder, dirs, names in os.walk(top):
            dirs[:] = sorted(d for d in dirs if d != "out")
            for n in sorted(names):
                if n.endswith(ends):
                    yield os.path.join(folder, n)


def read(path):
    with open(path, encoding="utf-8") as f:
        return f.read()


def snake(part):
    if not part[:1].islower():
        return part
    return re.sub(r"(?<=[a-z0-9])([A-Z])", lambda m: "_" + m[1].lower(), part)


def respelled(name, known):
    parts = name.split("-")
    if "" in parts:
        return name
    new = snake(parts[0])
    for before, part in zip(parts, parts[1:]):
        part_new = snake(part)
        joint = "-" if before in known and part in known else "_"
        new += joint + part_new
    return new


def is_goal(type_):
    return re.match(r"(?:.*→ )?(?:\w|[-+])*(?:tie|lts|goal|Tie|Lts)\.", type_) is not None


def main():
    own, known, local, here_law = {}, set(LIBRARY), collections.defaultdict(dict), collections.defaultdict(dict)
    for path in files(".antt"):
        walk = path.endswith("/Proof.antt")
        for line in read(path).split("\n"):
            if MODULE_PARAMETER.match(line):
                continue
            m = DECLARED.match(line)
            if not m:
                continue
            indent, kind, name, _, type_ = m.groups()
            if re.search(r"[\[\]↦λ=]", name) or not re.match(r"[^\W\d_]", name):
                continue
            if walk:
                if not is_goal(type_) and not name.endswith("-spec") and not re.match(r"Inv\b|μ", name):
                    local[path][name] = line
            else:
                own.setdefault(name, path)
                if "-" not in name and re.match(r" *(abbrev|unfoldable|pub record|record|data|pub data)\b", line) and "/specs/" in path:
                    known.add(name)
    known -= set("of to by all no".split())
    names = {n: OTHERWISE.get(n) or respelled(n, known) for n in own}
    taken = {r for n, r in names.items() if "-" not in n}
    names = {n: r + "_lem" if "-" in n and r in taken and n != "in-range" else r for n, r in names.items()}
    names = {n: r for n, r in names.items() if n != r}
    for law, stands in LAWS.items():
        for path in stands:
            here_law[f"crates/{path}.antt"][law] = law + "_lem"
    here = {p: {n: respelled(n, known) for n in ns if n not in own} for p, ns in local.items()}

    met = collections.defaultdict(set)
    for n in own:
        met[names.get(n, n)].add(n)
    together = {r: ns for r, ns in met.items() if len(ns) > 1}
    if "--list" in sys.argv:
        for n in sorted(names):
            print(f"{n}\t{names[n]}\t{own[n]}")
        for r, ns in sorted(together.items()):
            print("together:", r, sorted(ns), [own[n] for n in sorted(ns)])
        return

    for path in files(".antt", ".rt", ".edit", ".md", ".txt"):
        text = read(path)
        table = dict(names, **here.get(path, {}), **here_law.get(path, {}))

        def word(m):
            before = text[max(0, m.start() - 4) : m.start()]
            return m[0] if re.search(r"(?:^|[^\w])(?:tie|lts)\.$", before) else table.get(m[0], m[0])

        if path.endswith((".md", ".txt")):
            new = re.sub(r"`[^`\n]+`", lambda q: NAME.sub(lambda m: names.get(m[0], m[0]), q[0]), text)
        else:
            new = NAME.sub(word, text)
        if new != text:
            with open(path, "w", encoding="utf-8") as f:
                f.write(new)


if __name__ == "__main__":
    main()
