#!/usr/bin/env python3
"""Runs the program on inputs drawn at random until the time is up, and compares each run with a model in Python.

    tools/soak.py [PROGRAM] --minutes N [--seed S] [--runs N] [--keep FOLDER] [--broken]

PROGRAM is what `rt run` or `rt ci` has built, crates/cdrc_words/out/cdrc_words where it isn't given. A run counts the
words of files, with lanes, rounds, slots and a queue, or it is a script or a list of steps. Status, standard output and
standard error must be those that the model finds, tools/models; where fewer slots are given than always serve, the
status may also be 6. Run number n has the seed S + n, and --seed S --runs 1 makes the first one again. With --keep the
files of each run that differs are kept in a folder. With --broken the model leaves out the last word of each file, so
that differences must come. The exit status is 1 where one came.
"""
import argparse
import os
import random
import sys
import tempfile
import time
from collections import Counter
from concurrent.futures import ThreadPoolExecutor
from pathlib import Path

from models import answers
from models.lines import SPACE
from models.script_draws import draw_script
from models.step_draws import draw_steps
from models.word_draws import draw_words
from run_cases import PROGRAM, End, run

COMMANDS = ("words", "script", "steps")
MOST_SHOWN = 10  # differences that are told in full


def draw_run(seed):
    """The arguments of a run, and its files by their names."""
    dice = random.Random(seed)
    command = dice.choice(COMMANDS)
    if command == "script":
        return [command, "f"], {"f": draw_script(dice)}
    if command == "steps":
        return [command, "f"], {"f": draw_steps(dice)}
    contents, options = draw_words(dice)
    files = {f"f{number}": content for number, content in enumerate(contents)}
    words = [word for name, value in options.items() for word in (name, str(value))]
    return [command, *words, *files], files


def without_last_word(text):
    """What the model is shown where it is to be wrong."""
    ends = [found.start() for found in SPACE.finditer(text.rstrip())]
    return text[: ends[-1]] if ends else b""


def ends_of(arguments, files, is_broken):
    """The ways in which the run may end, by the model."""
    shown = {name: without_last_word(text) if is_broken else text for name, text in files.items()}
    found = answers([word.encode() for word in arguments], lambda name: shown[name.decode()])
    return [End(answer.status, answer.stdout, answer.stderr) for answer in found]


def write_files(files, folder):
    for name, content in files.items():
        (Path(folder) / name).write_bytes(content)


def try_run(program, seed, is_broken):
    """The command of a run, its status, and the lines that tell how it differs."""
    arguments, files = draw_run(seed)
    ends = ends_of(arguments, files, is_broken)
    with tempfile.TemporaryDirectory() as folder:
        write_files(files, folder)
        found = run(program, arguments, folder)
    if found is None:
        return arguments[0], None, [" ".join(arguments), "still running after the time limit"]
    if found in ends:
        return arguments[0], found.status, []
    return arguments[0], found.status, [" ".join(arguments), *ends[0].differences(found)]


class Tally:
    """How many runs there were of each command and status, and how many of them differed."""

    def __init__(self, program, kept):
        self.program = program
        self.kept = kept
        self.runs = Counter()
        self.statuses = Counter()
        self.differing = Counter()

    def note(self, seed, outcome):
        command, status, lines = outcome
        self.runs[command] += 1
        self.statuses[command, status] += 1
        if not lines:
            return
        self.differing[command] += 1
        again = f"tools/soak.py {self.program} --seed {seed} --runs 1"
        print(f"DIFFERS seed {seed}, again by {again}", flush=True)
        if self.kept:
            folder = self.kept / str(seed)
            folder.mkdir(parents=True, exist_ok=True)
            write_files(draw_run(seed)[1], folder)
        if self.differing.total() <= MOST_SHOWN:
            print(*(f"    {line}" for line in lines), sep="\n", flush=True)

    def tell(self):
        for command in COMMANDS:
            told = [
                f"{many} with status {status}"
                for (name, status), many in sorted(self.statuses.items(), key=str)
                if name == command
            ]
            runs, differing = self.runs[command], self.differing[command]
            print(f"{command}: {runs} runs, {differing} differ ({', '.join(told)})")
        print(f"{self.runs.total()} runs, {self.differing.total()} differ")


def arguments_of(words):
    as_written = argparse.RawDescriptionHelpFormatter
    parser = argparse.ArgumentParser(description=__doc__, formatter_class=as_written)
    parser.add_argument("program", nargs="?", type=Path, default=PROGRAM)
    parser.add_argument("--minutes", type=float)
    parser.add_argument("--seed", type=int, default=random.SystemRandom().randrange(2**32))
    parser.add_argument("--runs", type=int)
    parser.add_argument("--keep", type=Path)
    parser.add_argument("--broken", action="store_true")
    asked = parser.parse_args(words)
    if asked.minutes is None and asked.runs is None:
        parser.error("one of --minutes and --runs is needed")
    if not (asked.program.is_file() and os.access(asked.program, os.X_OK)):
        parser.error(f"no such program: {asked.program}")
    return asked


def soak(asked):
    """Several runs at once, until the time is up or so many were made."""
    tally, program = Tally(asked.program, asked.keep), asked.program.resolve()
    until = time.monotonic() + 60 * asked.minutes if asked.minutes is not None else float("inf")
    together, seed = os.cpu_count(), asked.seed
    last = seed + asked.runs if asked.runs is not None else float("inf")
    with ThreadPoolExecutor(together) as runners:
        while seed < last and time.monotonic() < until:
            seeds = range(seed, min(seed + 4 * together, last))
            outcomes = runners.map(lambda one: try_run(program, one, asked.broken), seeds)
            for one, outcome in zip(seeds, outcomes):
                tally.note(one, outcome)
            seed = seeds.stop
    return tally


def main(words):
    asked = arguments_of(words)
    print(f"seed {asked.seed}", flush=True)
    tally = soak(asked)
    tally.tell()
    return int(tally.differing.total() > 0 or tally.runs.total() == 0)


if __name__ == "__main__":
    sys.exit(main(sys.argv[1:]))
