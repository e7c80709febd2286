#!/usr/bin/env python3
"""Writes the pictures of this folder that are drawn, each by the script beside it. Python 3.11 and nothing else.

    docs/pictures/make.py            writes them
    docs/pictures/make.py --check    says which committed files are not what the scripts make, and ends with 1 if there is one

The plots in this folder are made by bench/plots.py.
"""

import pathlib
import sys

import crates
import journal
import letters
import message

FOLDER = pathlib.Path(__file__).parent


def main():
    made = {}
    for script in (crates, letters, message, journal):
        made |= script.pictures()
    if sys.argv[1:] == ["--check"]:
        wrong = [name for name, svg in made.items() if not (FOLDER / name).exists() or (FOLDER / name).read_text() != svg]
        for name in wrong:
            print(f"docs/pictures/{name} is not what the scripts make")
        return 1 if wrong else 0
    if sys.argv[1:]:
        sys.exit(__doc__)
    for name, svg in made.items():
        (FOLDER / name).write_text(svg)
    return 0


if __name__ == "__main__":
    sys.exit(main())
