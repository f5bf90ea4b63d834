#!/usr/bin/env python3
"""Prints a table for each crate: in which function each must-fail edit plants its mistake, and by what it is refused.

The function is the one around the first line that the edit changes; what refuses it are the clauses of its contract, as it
names them. A mistake in a function without a contract of its own (a closure, a loop's helper, a constant) is refused by
those that call it, and a method of a trait by what the trait says of it. What is claimed of a worked example (a file of
proofs) is refused by the definition, computed.
"""
import os
import re

TOP = os.path.join(os.path.dirname(os.path.abspath(__file__)), "..", "crates")
FUNCTION = re.compile(r"^(\s*)(?:pub(?:\(crate\))? )?fn (\w+)")
CLAUSE = re.compile(r"^\s*ensures\s*(\w*)\s*\{")
ONE = "its clause"


def edit(path):
    """The file that an edit changes, and the first text that it replaces."""
    file, old = "", ""
    for line in open(path, encoding="utf-8"):
        if line.startswith("file: ") and not file:
            file = line[6:].strip()
        elif line.startswith("old: ") and not old:
            old = line[5:].rstrip("\n")
    return file, old


def around(text, old):
    """The function around a place, the names of what it ensures, and whether the place is in it."""
    at = text.index(old)
    lines = text[:at].split("\n")
    here = len(lines) - 1
    rows = text.split("\n")
    for start in range(here, -1, -1):
        head = FUNCTION.match(rows[start])
        if head:
            names = []
            for row in rows[start + 1:]:
                clause = CLAUSE.match(row)
                if clause:
                    names.append(clause.group(1) or ONE)
                if row.strip() in ("{", "{}") or row.rstrip().endswith(" {") and "ensures" not in row:
                    break
            return head.group(2), names
    return None, []


def tables():
    """The lines of the tables, a table for each crate and a row for each function."""
    for crate in sorted(os.listdir(TOP)):
        folder = os.path.join(TOP, crate, "must-fail")
        edits = sorted(name for name in os.listdir(folder) if name.endswith(".edit")) if os.path.isdir(folder) else []
        rows = {}
        for name in edits:
            file, old = edit(os.path.join(folder, name))
            with open(os.path.join(TOP, crate, file), encoding="utf-8") as source:
                function, clauses = around(source.read(), old)
            module = os.path.splitext(os.path.basename(file))[0]
            where = f"`{module}::{function}`" if function else f"`{module}`"
            claimed = file.startswith("proofs/")
            refused = "the definition, computed" if claimed else ", ".join(clauses) if clauses else "its callers"
            rows.setdefault((where, refused), []).append(name[:-5].replace("_", " "))
        if rows:
            yield from ("", f"| `{crate}` ({len(edits)}) | Mistakes | Refused by |", "|---|---|---|")
        for (where, refused), names in sorted(rows.items()):
            yield f"| {where} | {'; '.join(names)} | {refused} |"


if __name__ == "__main__":
    print("\n".join(tables()))
