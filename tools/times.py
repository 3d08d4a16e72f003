#!/usr/bin/env python3
"""Tells what the merge gate costs, crate by crate.

    tools/times.py COMMAND..       as tools/times.py rt ci --anew

First it proves the toolchain's own example, by `rt selftest`, whose seconds tell how fast the machine is. Then it runs
the command in the repository's top folder, looks twice a second at the checkers that the command has started, and prints
a row for each crate at the end: its lines of code, definitions and proofs, and the processor seconds of its proof, of
the proof of its tests, and of its must-fail edits; then the sums. What the machine has kept from earlier runs isn't run
again and has no number, so a whole table needs `--anew`. Processor seconds depend little on what else the machine does,
but leave it alone all the same.
"""
import os
import resource
import subprocess
import sys
import time
from collections import defaultdict
from pathlib import Path

TOP = Path(__file__).resolve().parent.parent
TICKS = os.sysconf("SC_CLK_TCK")
KINDS = ("proof", "tests", "edits")


def lines_of(folder):
    """The lines of code, definitions and proofs, without what rt has built there."""
    return sum(
        len(path.read_text().splitlines())
        for kind in ("*.rt", "*.antt")
        for path in folder.rglob(kind)
        if "out" not in path.relative_to(TOP / "crates").parts
    )


def read(path):
    try:
        return Path(path).read_bytes()
    except OSError:
        return b""


def checker(process):
    """The crate on which a process works, and as what: None where it is no checker."""
    words = read(process / "cmdline").decode(errors="replace").split("\0")
    if not words[0].endswith("/rattle") or "--crate-name" not in words:
        return None
    name = words[words.index("--crate-name") + 1]
    try:
        folder = os.readlink(process / "cwd")
    except OSError:
        return None
    if f"/crates/{name}" not in folder or os.path.basename(folder) != name:
        return name, "edits"
    return name, "tests" if "--test" in words else "proof"


def seconds(process):
    """A process's parent, when it began, and the processor seconds that it and what it waited for have used."""
    rest = read(process / "stat").rpartition(b")")[2].split()
    return (int(rest[1]), rest[19], sum(map(int, rest[11:15])) / TICKS) if rest else (0, b"", 0)


def descends(number, ancestor):
    """Whether a process was started by another, or by one that this has started."""
    while number > 1 and number != ancestor:
        number = seconds(Path("/proc") / str(number))[0]
    return number == ancestor


def watch(command):
    """The processor seconds of each crate by kind of work, while the command runs, and its exit status."""
    used, run = {}, subprocess.Popen(command, cwd=TOP)
    while run.poll() is None:
        checkers = {}
        for process in Path("/proc").glob("[0-9]*"):
            work = checker(process)
            if work and descends(int(process.name), run.pid):
                checkers[int(process.name)] = work, *seconds(process)
        for number, (work, parent, begun, spent) in checkers.items():
            # (what a checker starts is counted with it, once it has waited for it)
            if parent not in checkers:
                used[number, begun, work] = max(spent, used.get((number, begun, work), 0))
        time.sleep(0.5)
    total = defaultdict(float)
    for (_, _, work), spent in used.items():
        total[work] += spent
    return total, run.returncode


def reference():
    """The processor seconds of a proof that no change here makes longer or shorter."""
    subprocess.run(["rt", "selftest"], check=True, capture_output=True)
    used = resource.getrusage(resource.RUSAGE_CHILDREN)
    return used.ru_utime + used.ru_stime


def main(command):
    if not command:
        sys.exit(__doc__)
    speed = reference()
    begun = time.monotonic()
    total, status = watch(command)
    took = time.monotonic() - begun
    print("| Crate | Lines | Proof | Tests | Edits |\n|---|---|---|---|---|")
    for folder in sorted((TOP / "crates").iterdir()):
        cells = [f"{total[folder.name, kind]:.0f}" if (folder.name, kind) in total else "" for kind in KINDS]
        print("|", " | ".join([folder.name, str(lines_of(folder)), *cells]), "|")
    sums = [sum(spent for (_, its), spent in total.items() if its == kind) for kind in KINDS]
    print("|", " | ".join(["all", str(lines_of(TOP / "crates")), *(f"{spent:.0f}" for spent in sums)]), "|")
    print(f"\n{sum(sums):.0f} processor seconds in {took / 60:.0f} minutes; rt selftest took {speed:.0f} before")
    return status


if __name__ == "__main__":
    sys.exit(main(sys.argv[1:]))
