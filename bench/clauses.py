#!/usr/bin/env python3
"""Compares what functions require and ensure, and which laws and definitions there are, with an earlier revision.

    bench/clauses.py REV

A clause is named by its function, wherever that stands now, and its text. Printed are, function by function, the clauses that are gone and those that
are new; functions that are gone or new with all of theirs; and records, cases and definitions of specs/ whose text is gone. What moved from one file
to another and reads as before is not printed. It is for the one who writes a change, to name for each clause that is gone what stands in its place.
"""
import os
import re
import subprocess
import sys

TOP = os.path.join(os.path.dirname(os.path.abspath(__file__)), "..")
FUNCTION = re.compile(r"^\s*(?:pub(?:\(crate\))? )?fn (\w+)")
CLAUSE = re.compile(r"^\s*(requires|ensures)\b\s*(\w*)\s*\{(.*)\}\s*;?\s*$")
DEFINITION = re.compile(r"^(?:abbrev |unfoldable )?pub (?:record |data )?([^\s:({]+)")


def now(path):
    with open(os.path.join(TOP, path), encoding="utf-8") as file:
        return file.read()


def then(rev, path):
    return subprocess.run(["git", "-C", TOP, "show", f"{rev}:{path}"], capture_output=True, text=True, check=True).stdout


def paths_then(rev):
    listed = subprocess.run(["git", "-C", TOP, "ls-tree", "-r", "--name-only", rev, "crates"], capture_output=True, text=True, check=True)
    return listed.stdout.split("\n")


def paths_now():
    for folder, folders, files in os.walk(os.path.join(TOP, "crates")):
        folders[:] = [name for name in folders if name != "out"]
        for name in files:
            yield os.path.relpath(os.path.join(folder, name), TOP)


def with_whole_clauses(text):
    """The lines of a source, each clause on one, however many lines it has."""
    lines, opened = [], 0
    for line in text.split("\n"):
        if opened > 0:
            lines[-1] += " " + line.strip()
        else:
            lines.append(line)
        if opened > 0 or re.match(r"\s*(requires|ensures)\b", line):
            opened += line.count("{") - line.count("}")
    return lines


def clauses(paths, read):
    """The clauses of each function of src/, as a set of texts for each name."""
    found = {}
    for path in paths:
        if "/src/" in path and path.endswith(".rt"):
            name = None
            for line in with_whole_clauses(read(path)):
                head = FUNCTION.match(line)
                if head:
                    name = head.group(1)
                    found.setdefault(name, set())
                clause = CLAUSE.match(line)
                if clause and name:
                    found[name].add(f"{clause.group(1)} {{ {' '.join(clause.group(3).split())} }}")
    return found


def definitions(paths, read):
    """The definitions of specs/ but of specs/inner/, each as its text."""
    found = {}
    for path in paths:
        if "/specs/" in path and "/inner/" not in path and path.endswith(".antt"):
            name, lines = None, []
            for line in read(path).split("\n") + [""]:
                if DEFINITION.match(line) or not line.strip():
                    if name:
                        found.setdefault(name, set()).add("\n".join(lines))
                    head = DEFINITION.match(line)
                    name, lines = (head.group(1), []) if head else (None, [])
                if name and not line.strip().startswith("--"):
                    lines.append(line.rstrip())
    return found


def differences(title, old, new):
    gone, added = 0, 0
    for name in sorted(set(old) | set(new)):
        lost, won = old.get(name, set()) - new.get(name, set()), new.get(name, set()) - old.get(name, set())
        gone, added = gone + len(lost), added + len(won)
        if lost or won:
            where = "" if name in old and name in new else " (new)" if name in new else " (gone)"
            print(f"{title} {name}{where}")
            for sign, texts in (("-", lost), ("+", won)):
                for text in sorted(texts):
                    print("    " + sign + " " + text.replace("\n", "\n      "))
    print(f"{title}s: {gone} texts are gone, {added} are new\n")


def main():
    rev = sys.argv[1]
    before, after = [path for path in paths_then(rev) if path], list(paths_now())
    differences("function", clauses(before, lambda path: then(rev, path)), clauses(after, now))
    differences("definition", definitions(before, lambda path: then(rev, path)), definitions(after, now))


main()
