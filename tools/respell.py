#!/usr/bin/env python3
"""Gives the definitions and lemmas of this repository the spelling of today's library: words in snake case, types in camel case.

usage: python3 tools/respell.py        once, at the top of the repository, after the toolchain's own script for older repositories

The pairs of names stand in tools/respell.txt. Names of src/, of goals, strings and outputs stay as they are: a name is turned only in
specs/, proofs/, in clauses, in what must-fail edits change of those, and between the backquotes of a document.
"""

import os
import re

TOP = os.path.dirname(os.path.dirname(os.path.realpath(__file__)))
TOKEN = re.compile(r"[^\s(){}\[\],;.:λ=|∷&*!<>/\"`]+")
# in these crates a pair has another right side, since the name means something else there
ELSEWHERE = {("packing", "bit-of"): "bit_of_lem"}


def pairs():
    with open(os.path.join(TOP, "tools", "respell.txt"), encoding="utf-8") as f:
        return dict(line.split() for line in f)


def turned(text, crate, table):
    def one(m):
        name = m.group(0)
        return ELSEWHERE.get((crate, name), table.get(name, name))

    return TOKEN.sub(one, text)


def in_source(text, crate, table):
    """Turns ghost items and clauses, and leaves code, comments and strings."""
    out, depth = [], 0
    for line in text.split("\n"):
        head = re.match(r"\s*(pub )?(ghost|requires|ensures|ghost_use)\b", line)
        if (head or depth > 0) and not line.lstrip().startswith("//"):
            out.append(turned(line, crate, table))
            depth = max(0, depth + line.count("{") - line.count("}"))
        else:
            out.append(line)
    return "\n".join(out)


def main():
    table = pairs()
    for folder, dirs, files in os.walk(os.path.join(TOP, "crates")):
        dirs[:] = sorted(d for d in dirs if d != "out")
        parts = os.path.relpath(folder, os.path.join(TOP, "crates")).split(os.sep)
        for name in sorted(files):
            path = os.path.join(folder, name)
            if not name.endswith((".antt", ".rt", ".edit")):
                continue
            with open(path, encoding="utf-8") as f:
                text = f.read()
            if name.endswith(".antt") or name.endswith(".edit"):
                new = turned(text, parts[0], table)
            else:
                new = in_source(text, parts[0], table)
            if new != text:
                with open(path, "w", encoding="utf-8") as f:
                    f.write(new)
    for path in [os.path.join(TOP, "README.md")] + sorted(
        os.path.join(TOP, "docs", f) for f in os.listdir(os.path.join(TOP, "docs"))
        if f.endswith(".md") and f != "PORT.md"
    ):
        with open(path, encoding="utf-8") as f:
            text = f.read()
        new = re.sub(r"`[^`\n]+`", lambda m: turned(m.group(0), "", table), text)
        if new != text:
            with open(path, "w", encoding="utf-8") as f:
                f.write(new)


if __name__ == "__main__":
    main()
