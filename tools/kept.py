#!/usr/bin/env python3
"""Places the libraries that `rt ci` has kept on this machine where `rt check` finds them.

    tools/kept.py

In a fresh clone `rt check` proves every crate below anew, also where `rt ci` has proved the same text: it looks in each
crate's out/ alone. This script asks the command `rt` itself which kept library fits each crate, copies that into the
crate's out/, and writes the stamp by which `rt check` takes it as built. It reads `rt` as a module, so another version
of the toolchain may need another script. The gate doesn't read what is placed here, and proves nothing by it. Run it once,
in a fresh clone: it replaces libraries that `rt check` has built there, and what was built over those is refused then.

It ends with the number of crates whose library was placed, and the names of those that no run has kept yet.
"""
import os
import shutil
import sys
from importlib.machinery import SourceFileLoader
from importlib.util import module_from_spec, spec_from_loader
from pathlib import Path

TOP = Path(__file__).resolve().parent.parent


def command():
    """The command `rt`, as a module."""
    found = shutil.which("rt")
    if not found:
        sys.exit("kept: the command rt isn't there")
    loader = SourceFileLoader("rt_command", os.path.realpath(found))
    module = module_from_spec(spec_from_loader("rt_command", loader))
    loader.exec_module(module)
    return module


def place(crate, kept):
    """Gives the crate the library that a run kept of the same text over the same libraries, and tells whether it could."""
    key, out = kept.key(crate), Path(crate.folder, "out")
    if not os.path.isdir(kept.place(crate, False, key)):
        return False
    shutil.rmtree(out / "rlib", ignore_errors=True)
    out.mkdir(exist_ok=True)
    if not kept.give(crate, False, key):
        return False
    kept.is_built(crate)
    (out / "rlib" / "stamp").write_text(crate.stamp())
    return True


def main():
    os.chdir(TOP)
    rt = command()
    rt.Crate.allowed = rt.handles_of(str(TOP))
    crates = [crate for crate in rt.crates_of(str(TOP)) if not crate.is_program]
    kept, placed = rt.Kept(crates), set()
    for crate in sorted(crates, key=lambda crate: len(crate.below())):
        if all(low.name in placed for low in crate.below()) and place(crate, kept):
            placed.add(crate.name)
    lacking = [crate.name for crate in crates if crate.name not in placed]
    print(f"{len(placed)} libraries placed; not kept yet: {' '.join(lacking) or 'none'}")
    return 0


if __name__ == "__main__":
    sys.exit(main())
