#!/usr/bin/env python3
"""Tries the plants of some crates: wrong bodies that the prover must refuse, which the merge gate doesn't try.

    tools/plant.py NAME..          the plants of these crates; with no name, of all that have some
    tools/plant.py NAME/PLANT..    these alone, as tools/plant.py linked_queue/a_push_that_lost_answers_ok

A plant is a file crates/NAME/plants/*.edit of the form of a must-fail edit. Here it is one, in a copy of the
repository, so that `rt must-fail` tries it and nothing of the checkout changes. That reads no tests: in a crate of tests
alone, the module that a plant changes is checked with its tests, by `rt check`. Run it whenever a contract or a
definition of the crate changes. The libraries of the crates below are taken along, where `rt check` has built them of the
same text; else they are proved first.

It prints what became of each plant, those last that only a proof refuses because it names what the plant took away: a
contract refuses more than they show, so mend them. The exit status is 0 where each plant was refused.
"""
import re
import shutil
import subprocess
import sys
import tempfile
from pathlib import Path

from check_edits import parsed

TOP = Path(__file__).resolve().parent.parent
BY_A_NAME_ALONE = "only because a proof file names what the edit took away"


def plants_of(words):
    """The plants that the words ask for, by crate."""
    every = sorted(TOP.glob("crates/*/plants/*.edit"))
    asked = {}
    for word in words or sorted({path.parts[-3] for path in every}):
        crate, _, name = word.partition("/")
        found = [path for path in every if path.parts[-3] == crate and name in ("", path.stem)]
        if not found:
            sys.exit(f"plant: no plant {word}")
        asked.setdefault(crate, []).extend(found)
    return asked


def left_out(folder, names):
    """What of a folder isn't copied: edits and plants, and of what rt has built all but the libraries."""
    kept = ("rlib",) if Path(folder).name == "out" else names
    return {name for name in names if name in ("must-fail", "plants") or name not in kept}


def copy_into(folder, asked):
    """Copies the repository with the libraries that were built, the plants that are asked for in the place of edits."""
    for name in ("crates.txt", "HANDLES"):
        shutil.copy(TOP / name, folder)
    shutil.copytree(TOP / "crates", folder / "crates", ignore=left_out)
    for crate, plants in asked.items():
        (folder / "crates" / crate / "must-fail").mkdir()
        for plant in plants:
            shutil.copy(plant, folder / "crates" / crate / "must-fail")


def is_of_tests(crate):
    """Whether all modules of a crate are read with its tests alone."""
    lines = (TOP / "crates" / crate / "src" / "lib.rt").read_text().splitlines()
    modules = [number for number, line in enumerate(lines) if re.match(r"(pub )?mod ", line)]
    return bool(modules) and all(lines[number - 1] == "#[cfg(test)]" for number in modules)


def try_beside_tests(folder, crate, plant):
    """Checks the module that a plant changes, with the crate's tests, and tells what became of it."""
    edited, pairs = parsed(plant)
    file = folder / "crates" / crate / edited
    text = file.read_text()
    for old, new in pairs:
        file.write_text(file.read_text().replace(old, new))
    words = ["rt", "check", "--test", "--only", file.stem]
    tried = subprocess.run(words, cwd=folder / "crates" / crate, capture_output=True, text=True)
    file.write_text(text)
    last = next(iter(re.findall(r"(?m)^only=\d+ proved=\d+$", tried.stdout)), "no verdict")
    asked, _, proved = last.removeprefix("only=").partition(" proved=")
    verdict = "refused, as it must be: " if tried.returncode == 1 and asked != proved and proved else "NOT REFUSED: "
    return f"must-fail {crate}/{plant.name}: {verdict}{last}"


def main(words):
    asked = plants_of(words)
    of_tests = {crate for crate in asked if is_of_tests(crate)}
    rest, told = [crate for crate in asked if crate not in of_tests], []
    with tempfile.TemporaryDirectory(prefix="cdrc-plants-") as folder:
        copy_into(Path(folder), asked)
        if rest:
            tried = subprocess.run(["rt", "must-fail", *rest], cwd=folder, capture_output=True, text=True)
            told = (tried.stdout + tried.stderr).splitlines()
        told += [try_beside_tests(Path(folder), crate, plant) for crate in of_tests for plant in asked[crate]]
    told = [line for line in told if line.startswith(("must-fail ", "rt: "))]
    told.sort(key=lambda line: BY_A_NAME_ALONE in line)
    print(*told, sep="\n")
    refused = sum(": refused, " in line for line in told)
    weak = sum(BY_A_NAME_ALONE in line for line in told)
    count = sum(map(len, asked.values()))
    print(f"{count} plants, {refused} refused, {weak} of them only by a name that a proof misses")
    return int(refused < count)


if __name__ == "__main__":
    if any(re.match(r"-", word) for word in sys.argv[1:]):
        sys.exit(__doc__)
    sys.exit(main(sys.argv[1:]))
