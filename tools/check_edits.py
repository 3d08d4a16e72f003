#!/usr/bin/env python3
"""Finds must-fail edits and plants that can't reach the prover, so that their refusal would tell nothing.

    tools/check_edits.py

A line of an edit that no longer stands once in its file, one that changes nothing, and one that names a library which
its crate doesn't list, are faults. The gate passes with such an edit of the first kinds and says so in a note alone.
Ends with the number of edits and of faults, and with status 1 where there is a fault or no edit at all.
"""
import re
import sys
from pathlib import Path

TOP = Path(__file__).resolve().parent.parent


def listed(text):
    """What each crate of crates.txt lists, by its name."""
    lines = (line.partition("#")[0] for line in text.splitlines())
    return {head.split()[0]: set(rest.split()) for head, colon, rest in (line.partition(":") for line in lines) if colon}


def parsed(edit):
    """The file that an edit changes, and its pairs of lines; None in the place of what it lacks."""
    file, pairs = None, []
    for line in edit.read_text().splitlines():
        key, _, value = line.partition(": ")
        if key == "file":
            file = value
        elif key in ("old", "old:"):
            pairs.append([value, None])
        elif key in ("new", "new:") and pairs:
            pairs[-1][1] = value
    return file, pairs


def faults(edit, libraries):
    """What keeps an edit from being a wrong body of its crate."""
    crate = edit.parent.parent
    file, pairs = parsed(edit)
    if not file or not pairs or not (crate / file).is_file():
        return ["it names no file of its crate, or no pair of lines"]
    text, found = (crate / file).read_text(), []
    for old, new in pairs:
        if new is None or old == new:
            found.append(f"it changes nothing: {old}")
        elif text.count(old) != 1:
            found.append(f"this stands {text.count(old)} times in {file}: {old}")
        else:
            text = text.replace(old, new)
    for _, new in pairs:
        named = re.findall(r"(?<![\w:])([a-z]\w*)::", new or "") + re.findall(r"\bRattle\.(\w+)\.", new or "")
        unknown = {name for name in named if name in libraries and name != crate.name}
        found += [f"{crate.name} doesn't list {name}" for name in sorted(unknown - libraries[crate.name])]
    return found


def main():
    libraries = listed((TOP / "crates.txt").read_text())
    edits = sorted(path for kind in ("must-fail", "plants") for path in TOP.glob(f"crates/*/{kind}/*.edit"))
    rows = [f"{edit.relative_to(TOP)}: {fault}" for edit in edits for fault in faults(edit, libraries)]
    print(*rows, f"{len(edits)} edits, {len(rows)} faults", sep="\n")
    return 1 if rows or not edits else 0


if __name__ == "__main__":
    sys.exit(main())
