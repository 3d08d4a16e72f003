#!/usr/bin/env python3
"""Names the crates above some crates, lowest first: those that an edit of a contract or a definition may break.

    tools/above.py NAME..
"""
import sys
from pathlib import Path

from take import lines_of

TOP = Path(__file__).resolve().parent.parent


def main(names):
    lines = lines_of((TOP / "crates.txt").read_text())
    if not names or not names <= lines.keys():
        sys.exit(__doc__)
    reached = set(names)
    # a crate's line names only crates of lines above it
    for name, line in lines.items():
        if reached & set(line.partition(":")[2].split()):
            reached.add(name)
            print(name)


if __name__ == "__main__":
    main(set(sys.argv[1:]))
