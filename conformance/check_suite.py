#!/usr/bin/env python3
"""Tries the sessions themselves: PROGRAM has to pass all of them, and each wrong engine has to fail where its rule is named.

A wrong engine (wrong_engine.py) breaks one rule. It has to fail in the chapter of that rule, may fail in the chapters
whose sessions need the rule too, and has to pass all others. The exit status is 1 if that is not so.
"""

import argparse
import re
import sys
from dataclasses import dataclass
from pathlib import Path

from run import HERE, chosen_sessions, program_of, try_session
from session_file import read_chapters


@dataclass(frozen=True)
class Mistake:
    variant: str        # of wrong_engine.py
    chapter: str        # the one that names the rule
    others: set[str]    # those that may fail too


MISTAKES = [
    Mistake("checksum-not-looked-at", "frames", {"session-messages", "opening-price"}),
    Mistake("percent-of-the-rest", "steps", {"product-file", "whole-days"}),
    Mistake("top-without-its-least", "top", {"product-file", "printed-forms"}),
    Mistake("replaced-leaves-without-fills", "replaces", {
        "product-file", "new-orders", "top", "stops", "trading-sessions", "ends-of-a-run", "whole-days", "printed-forms"}),
    Mistake("expired-stays-open", "trading-sessions", {
        "counters", "generator", "book-images", "amendments", "session-messages", "opening-price", "level-feed"}),
    Mistake("stop-at-its-limit", "stops", {
        "new-orders", "replaces", "trading-sessions", "ends-of-a-run", "whole-days", "printed-forms", "book-images", "level-feed"}),
]


def missing_headings(headings):
    """The chapters whose heading is not in their page."""
    missing = []
    for chapter, place in headings.items():
        page, heading = re.fullmatch(r'(\S+), "(.*)"', place).groups()
        lines = (HERE.parent / "docs" / page).read_text().splitlines()
        if not any(line.startswith("#") and line.strip("# ") == heading for line in lines):
            missing.append(f"{chapter}: docs/{place} is not there")
    return missing


def failing(program, sessions):
    """The chapters in which some session differs, with the first of these."""
    found = {}
    for session in sessions:
        if session.chapter not in found and try_session(program, session):
            found[session.chapter] = session.name
    return found


def faults_of(mistake, found):
    """What is not as the mistake should show itself."""
    faults = [] if mistake.chapter in found else [f"{mistake.variant} passes {mistake.chapter}"]
    strange = set(found) - mistake.others - {mistake.chapter}
    return faults + [f"{mistake.variant} fails {chapter}/{found[chapter]}" for chapter in sorted(strange)]


def main():
    parser = argparse.ArgumentParser(description=__doc__, formatter_class=argparse.RawDescriptionHelpFormatter)
    parser.add_argument("program", metavar="PROGRAM")
    parser.add_argument("variants", metavar="VARIANT", nargs="*", help="the wrong engines to try; without one all")
    arguments = parser.parse_args()
    headings = read_chapters(HERE)
    sessions = chosen_sessions(headings, [], [])
    program = program_of(arguments.program)
    faults = missing_headings(headings)
    faults += [f"the program fails {chapter}/{name}" for chapter, name in failing(program, sessions).items()]
    for mistake in MISTAKES:
        if arguments.variants and mistake.variant not in arguments.variants:
            continue
        wrong = [sys.executable, "-I", "-S", str(HERE / "wrong_engine.py"), program[0], mistake.variant]
        found = failing(wrong, sessions)
        print(f"{mistake.variant}: fails {', '.join(found) or 'nothing'}", flush=True)
        faults += faults_of(mistake, found)
    for fault in faults:
        print(fault)
    print("as it should be" if not faults else f"{len(faults)} faults")
    return 1 if faults else 0


if __name__ == "__main__":
    sys.exit(main())
