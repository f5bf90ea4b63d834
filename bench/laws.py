#!/usr/bin/env python3
"""Prints the laws of the crates whose laws are promised to users, each with its comment in the sources: the list that
docs/PROVED.md has, which .ci/papers compares with this one."""
import os
import re

TOP = os.path.join(os.path.dirname(os.path.abspath(__file__)), "..")
FILES = ("glass_run/src/laws.rt", "picture_run/src/laws.rt", "run_checks/src/laws.rt", "plain_laws/src/lib.rt", "front_course/src/laws.rt")
LAW = re.compile(r"((?:^/// .*\n)+)pub fn (\w+)\(\)", re.M)


def told(file):
    """The laws of a file, each as the name and the sentence that its comment is."""
    with open(os.path.join(TOP, "crates", file), encoding="utf-8") as source:
        for law in LAW.finditer(source.read()):
            yield law.group(2), " ".join(line[4:] for line in law.group(1).splitlines())


if __name__ == "__main__":
    for file in FILES:
        print(f"\nIn `crates/{file}`:\n")
        for name, sentence in told(file):
            print(f"- `{name}`: {sentence}")
