#!/usr/bin/env python3
"""Counts what a law stands on: the definitions that have to be believed with it, and their lines.

    bench/believed.py              a line for each law of docs/BELIEVED.md
    bench/believed.py NAME ..      the definitions that NAME stands on, those that others stand on first

A definition stands on those that its text names, by the imports of its file. Counted are its lines without comments, blanks and imports, those of the kit's crate csv among them.
Counted but not opened is `LineRun Answers`: a law reads `Ended .. -> conclusion`, and `Ended` has it only so that the law speaks of what `glass` promises, whose contract
is `RunsTo Answers`, and that is `LineRun Answers` where the words are a command line. Types that are declared in the sources (structs, enums) are not counted, nor is what std defines.
"""
import os
import re
import subprocess
import sys

TOP = os.path.join(os.path.dirname(os.path.abspath(__file__)), "..", "crates")
KIT = os.path.join(os.path.dirname(subprocess.run(["rt", "doc"], stdout=subprocess.PIPE, text=True, check=True).stdout.strip()), "rattle")
# each crate whose definitions are counted, with the folder of its specs: ours, and of the kit that by which a table has its rows
SPECS = {crate: os.path.join(TOP, crate, "specs") for crate in os.listdir(TOP)}
SPECS["csv"] = os.path.join(KIT, "csv", "specs")
CUT = {("run_frame", "Runs", "LineRun"), ("glass_run", "Commands", "Answers"), ("picture_run", "Pictures", "Answers")}
LAWS = [
    ("plans_are_lawful_and_bounded", "FindsPlan"), ("resumed_plans_are_lawful_and_bounded", "ResumesPlan"),
    ("frozen_plans_are_lawful_and_bounded", "FindsPlanBehind"), ("accepted_plans_are_lawful_and_bounded", "AcceptsPlan"),
    ("accepted_plans_behind_first_plates_are_lawful_and_bounded", "AcceptsPlanBehind"),
    ("done_drafts_are_lawful", "StoresLawfulPlan"), ("done_judgements_are_lawful", "FindsLawful"), ("unlawful_judgements_are_true", "FindsUnlawful"),
    ("done_replays_are_true", "FollowsSheet"), ("done_sheets_make_their_plans", "StoresSheet"), ("done_pictures_are_true", "StoresPicture"),
    ("searches_are_right", "StoresSearch"), ("searches_handle_each_box_once", "HandlesEachBox"),
    ("resumptions_are_right", "StoresResumed"), ("resumptions_handle_each_box_once", "HandlesOpenBoxes"),
    ("searches_behind_first_plates_are_right", "StoresFreeze"), ("searches_behind_first_plates_handle_each_box_once", "HandlesEachBoxBehind"),
    ("done_checks_are_right", "AcceptsFrom"), ("refused_checks_are_true", "FindsWrongFrom"), ("done_conversions_are_right", "StoresConverted"),
    ("right_certificates_pass", "RightPasses"), ("right_texts_are_accepted", "RightIsAccepted"),
    ("right_texts_behind_first_plates_are_accepted", "RightBehindIsAccepted"),
    ("complete_traces_have_courses", "TracesHaveCourses"), ("courses_bound_losses", "CoursesBoundLosses"), ("is_no_shorter", "LosesAtLeast"),
]
HEAD = re.compile(r"^(?:abbrev |unfoldable )?pub (?:record |data )?([^\s:({]+)")
WORD = re.compile(r"[^\s(){}\[\],;]+")


def read():
    """All definitions, by crate, module and name: their lines, and what they name."""
    imports, texts = {}, {}
    for crate, specs in sorted(SPECS.items()):
        for folder, _, files in os.walk(specs):
            for file in files:
                if not file.endswith(".antt"):
                    continue
                module = os.path.relpath(os.path.join(folder, file), specs)[:-5].replace(os.sep, ".")
                names, current = {}, None
                for line in open(os.path.join(folder, file), encoding="utf-8"):
                    line = line.rstrip("\n")
                    used = re.match(r"^(?:pub )?use Rattle\.(\w+)\.specs\.([\w.]+?)\.\{(.*)\}", line)
                    if used:
                        for part in used.group(3).split(","):
                            name, _, alias = part.strip().partition(" as ")
                            names[alias or name] = (used.group(1), used.group(2), name)
                        continue
                    if line.startswith("use ") or line.startswith("pub use ") or line.startswith("pub mod "):
                        continue
                    head = HEAD.match(line)
                    if head:
                        current = (crate, module, head.group(1))
                        texts[current] = []
                        names[head.group(1)] = current
                    elif not line.strip():
                        current = None
                    if current and line.strip() and not line.strip().startswith("--"):
                        texts[current].append(line)
                imports[(crate, module)] = names
    return imports, texts


def stands_on(start, imports, texts):
    """The definitions that this one stands on, each behind those that it names, and itself last."""
    order, seen = [], set()

    def visit(key):
        if key in seen or key not in texts:
            return
        seen.add(key)
        names = imports[key[:2]]
        for line in texts[key] if key not in CUT else []:
            for word in WORD.findall(line.split("--")[0]):
                for name in {word, word.split(".")[0], "◌%s◌" % word}:
                    if name in names and names[name] != key:
                        visit(names[name])
        order.append(key)

    visit(start)
    return order


def main():
    imports, texts = read()
    by_name = {}
    for key in texts:
        by_name.setdefault(key[2], []).append(key)
    if len(sys.argv) > 1:
        for name in sys.argv[1:]:
            for start in by_name.get(name, []):
                for key in stands_on(start, imports, texts):
                    print("%4d  %s/specs/%s.antt  %s" % (len(texts[key]), key[0], key[1].replace(".", "/"), key[2]))
        return
    ended = set(stands_on(("glass_run", "Headlines", "Ended"), imports, texts))
    lines = lambda keys: sum(len(texts[key]) for key in keys)
    every = set()
    for law, name in LAWS:
        start = [key for key in by_name[name] if key[0] in ("glass_run", "picture_run", "plain_laws", "run_checks", "front_course")][0]
        own = set(stands_on(start, imports, texts))
        # The laws of run_checks and front_course speak of texts and of traces, and not of a run: they have no such premise.
        both = own if start[0] in ("run_checks", "front_course") else own | ended
        every |= both
        print("%-57s %-21s %4d definitions %5d lines, with its premise %4d and %5d" % (law, name, len(own), lines(own), len(both), lines(both)))
    print("all of them: %d definitions, %d lines" % (len(every), lines(every)))


main()
