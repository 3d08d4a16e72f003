#!/usr/bin/env python3
"""Draws the crates by layer, the highest first, with what each stands on directly, as docs/ARCHITECTURE.md shows it.

    tools/layers.py

A layer of crates.txt begins with a comment `# NAME: what it is for`. A crate stands directly on those of the crates in
its line that no other of them stands on.
"""
import re
from pathlib import Path

TOP = Path(__file__).resolve().parent.parent


def layers_of(text):
    """Each layer's name, with its crates and those of ours that each lists, in the order of crates.txt."""
    own = set(re.findall(r"^(\w+)[^:#\n]*:", text, re.M))
    layers = []
    for line in text.splitlines():
        layer, crate = re.match(r"# (\w+): ", line), re.match(r"(\w+)[^:#]*:(.*)", line)
        if layer:
            layers.append((layer[1], []))
        elif crate:
            layers[-1][1].append((crate[1], [word for word in crate[2].split() if word in own]))
    return layers


def directly(layers):
    """What each crate stands on directly. A crate's line names only crates of lines above it."""
    reached, direct = {}, {}
    for crate, listed in (line for _, crates in layers for line in crates):
        direct[crate] = [one for one in listed if not any(one in reached[other] for other in listed)]
        reached[crate] = set(listed).union(*(reached[one] for one in listed))
    return direct


def draw(text):
    layers, lines = layers_of(text), []
    direct = directly(layers)
    for layer, crates in reversed(layers):
        rule = ["  " + 109 * "-"] if lines else []
        rows = [f"{crate} --> {', '.join(direct[crate])}" if direct[crate] else crate for crate, _ in reversed(crates)]
        lines += rule + [f"  {layer if number == 0 else '':9} {row}" for number, row in enumerate(rows)]
    return "".join(line + "\n" for line in lines)


if __name__ == "__main__":
    print(draw((TOP / "crates.txt").read_text()), end="")
