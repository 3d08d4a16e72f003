#!/usr/bin/env python3
"""Copies crates, and all crates below them, into another repository, without what was built of them.

    tools/take.py [--update] [--without-tests] NAME.. FOLDER

FOLDER is the top of that repository. Its crates.txt gets the lines of crates that it doesn't have yet. A crate whose
folder is there already stays as it is; with --update it is replaced, with its line, and loses what was changed in it.
With --without-tests the wrong bodies that only a gate tries are left out, the folders must-fail and plants.
"""
import re
import shutil
import sys
from pathlib import Path

TOP = Path(__file__).resolve().parent.parent


def lines_of(text):
    """Each crate's line of a crates.txt, by the crate, in the lines' order."""
    return {line.split(":")[0].split()[0]: line for line in text.splitlines() if re.match(r"\w+[^:#]*:", line)}


def with_below(names, lines):
    """These crates and all below them, in the lines' order."""
    taken = set(names)
    # a crate's line names only crates of lines above it
    for name, line in reversed(lines.items()):
        if name in taken:
            taken |= set(line.partition(":")[2].split()) & lines.keys()
    return [name for name in lines if name in taken]


def take(names, folder, update=False, tests=True):
    """Copies what isn't there yet, with `update` also what is, and returns the crates that it copied."""
    lines, list_of_crates = lines_of((TOP / "crates.txt").read_text()), folder / "crates.txt"
    if not names or not set(names) <= lines.keys():
        sys.exit(__doc__)
    needed = with_below(names, lines)
    taken = [name for name in needed if update or not (folder / "crates" / name).exists()]
    left_out = shutil.ignore_patterns("out", *([] if tests else ["must-fail", "plants"]))
    for name in taken:
        shutil.rmtree(folder / "crates" / name, ignore_errors=True)
        shutil.copytree(TOP / "crates" / name, folder / "crates" / name, ignore=left_out)
    there = list_of_crates.read_text() if list_of_crates.exists() else ""
    if update:
        there = "".join(with_line(line, lines, taken) + "\n" for line in there.splitlines())
    new = [lines[name] for name in needed if name not in lines_of(there)]
    if there and not there.endswith("\n"):
        there += "\n"
    list_of_crates.write_text(there + "".join(line + "\n" for line in new))
    return taken


def with_line(line, lines, taken):
    """A line of the other repository's crates.txt, and in the place of a crate's that was taken the line here."""
    name = next(iter(lines_of(line)), None)
    return lines[name] if name in taken else line


def main(words):
    options = {word for word in words if word.startswith("--")}
    names = [word for word in words if word not in options]
    if options - {"--update", "--without-tests"} or len(names) < 2 or not Path(names[-1]).is_dir():
        sys.exit(__doc__)
    if Path(names[-1]).resolve() == TOP:
        sys.exit("take: FOLDER is this repository")
    print(*take(names[:-1], Path(names[-1]), "--update" in options, "--without-tests" not in options), sep="\n")


if __name__ == "__main__":
    main(sys.argv[1:])
