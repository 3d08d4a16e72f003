#!/usr/bin/env python3
"""Runs the program on each case of the folder cases/, and compares what it does with what it is to do.

    tools/run_cases.py [PROGRAM] [COMMAND[/NAME]..]

PROGRAM is what `rt run` or `rt ci` has built, crates/cdrc_words/out/cdrc_words where it isn't given. All cases are
run, or those of the commands and names that are given. A case is a folder cases/COMMAND/NAME with these files:

    args         the words of the command line, one a line; an empty file where there are none
    stdout       the bytes that standard output must have; none where there is no such file
    stderr       the bytes that standard error must have; none where there is no such file
    status       the exit status; 0 where there is no such file
    or           a folder with the stdout, stderr and status of a second end, which will do too

Every other file or folder there is copied into an empty folder, in which the program runs, with an empty environment
and an empty standard input. Two kinds of file stand for larger ones, `stdout` among them:

    NAME.repeat  is a file NAME: a number on the first line, and a text behind it that NAME has so many times
    NAME.gen     is a file NAME: the text that the command `gen` writes of the three numbers in it

Each difference is told with the first byte that differs. The exit status is 0 where at least one case ran and none
differed.
"""
import os
import shutil
import subprocess
import sys
import tempfile
from concurrent.futures import ThreadPoolExecutor
from dataclasses import dataclass
from pathlib import Path

from models import generate

TOP = Path(__file__).resolve().parent.parent
CASES = TOP / "cases"
COMMANDS = ("script", "steps", "gen", "bulk", "words", "usage")
PROGRAM = TOP / "crates/cdrc_words/out/cdrc_words"
ABOUT = ("args", "stdout", "stderr", "status", "or")
TIME_LIMIT = 120  # seconds
AROUND = 24  # bytes that are shown before and after a difference


@dataclass(frozen=True)
class End:
    """How a run ends, or is to end."""

    status: int
    stdout: bytes
    stderr: bytes

    def differences(self, found):
        """A line for each thing that another end has otherwise."""
        if found.status != self.status:
            yield f"status: wanted {self.status}, found {found.status}"
        for stream in ("stdout", "stderr"):
            wanted, got = getattr(self, stream), getattr(found, stream)
            if wanted != got:
                yield f"{stream}: {difference(wanted, got)}"


def difference(wanted, found):
    """Where two byte strings begin to differ, and what stands there."""
    unequal = (at for at, (one, other) in enumerate(zip(wanted, found)) if one != other)
    at = next(unequal, min(len(wanted), len(found)))
    shown = slice(max(at - AROUND, 0), at + AROUND)
    return (
        f"at byte {at} of {len(wanted)} wanted and {len(found)} found,\n"
        f"        wanted {wanted[shown]!r}\n"
        f"        found  {found[shown]!r}"
    )


def named(file):
    """The name of the file that a file of a case stands for."""
    return file.stem if file.suffix in (".repeat", ".gen") else file.name


def content(file):
    """The bytes of the file that a file of a case stands for."""
    if file.suffix == ".repeat":
        times, _, text = file.read_bytes().partition(b"\n")
        return int(times) * text
    if file.suffix == ".gen":
        return generate(*map(int, file.read_text().split()))
    return file.read_bytes()


def end_in(folder):
    """The end that the files of a folder tell."""
    told = {named(file): file for file in folder.iterdir()}
    stdout, stderr = (content(told[name]) if name in told else b"" for name in ("stdout", "stderr"))
    return End(int(content(told["status"])) if "status" in told else 0, stdout, stderr)


@dataclass(frozen=True)
class Case:
    """A folder with what the program is given, and how it is to end."""

    folder: Path

    @property
    def name(self):
        return f"{self.folder.parent.name}/{self.folder.name}"

    @property
    def arguments(self):
        lines = (self.folder / "args").read_bytes()
        return lines.removesuffix(b"\n").split(b"\n") if lines else []

    @property
    def ends(self):
        """How a run may end."""
        return [end_in(folder) for folder in (self.folder, self.folder / "or") if folder.is_dir()]

    def lay_files(self, place):
        """Puts the files of the case into a folder."""
        for entry in self.folder.iterdir():
            if named(entry) in ABOUT:
                continue
            if entry.is_dir():
                shutil.copytree(entry, place / entry.name)
            else:
                (place / named(entry)).write_bytes(content(entry))

    def differences(self, program):
        """What the program does otherwise, a text for each thing."""
        with tempfile.TemporaryDirectory() as folder:
            self.lay_files(Path(folder))
            found = run(program, self.arguments, folder)
        if found is None:
            return [f"still running after {TIME_LIMIT} seconds"]
        ends = self.ends
        return [] if found in ends else list(ends[0].differences(found))


def run(program, arguments, folder):
    """How the program ends in a folder, or None where it takes too long."""
    try:
        done = subprocess.run(
            [program, *arguments],
            cwd=folder,
            env={},
            stdin=subprocess.DEVNULL,
            capture_output=True,
            timeout=TIME_LIMIT,
        )
    except subprocess.TimeoutExpired:
        return None
    return End(done.returncode, done.stdout, done.stderr)


def cases_at(name):
    """The cases of a command, or the one case COMMAND/NAME."""
    folder = CASES / name
    command, _, one = name.partition("/")
    if command not in COMMANDS or not folder.is_dir():
        sys.exit(f"no such case: {name}")
    cases = [Case(folder)] if one else [Case(entry) for entry in sorted(folder.iterdir())]
    for case in cases:
        if not (case.folder / "args").is_file():
            sys.exit(f"no case, since it has no file args: {case.name}")
    return cases


def program_and_names(arguments):
    """The first argument is a program unless it begins with the name of a command."""
    program, names = PROGRAM, list(arguments)
    if names and names[0].partition("/")[0] not in COMMANDS:
        program = Path(names.pop(0))
    if not (program.is_file() and os.access(program, os.X_OK)):
        sys.exit(f"no such program: {program}")
    return program.resolve(), names


def main(arguments):
    program, names = program_and_names(arguments)
    strange = [entry.name for entry in CASES.iterdir() if entry.is_dir()]
    if strange := sorted(set(strange) - set(COMMANDS)):
        sys.exit(f"no such command: {' '.join(strange)}")
    names = names or [command for command in COMMANDS if (CASES / command).exists()]
    cases = list(dict.fromkeys(case for name in names for case in cases_at(name)))
    with ThreadPoolExecutor(os.cpu_count()) as runners:
        outcomes = list(runners.map(lambda case: case.differences(program), cases))
    for case, differences in zip(cases, outcomes):
        if differences:
            print(f"DIFFERS {case.name}", *differences, sep="\n    ")
    failed = sum(map(bool, outcomes))
    print(f"{len(cases)} cases, {failed} differ")
    return int(failed > 0 or not cases)


if __name__ == "__main__":
    sys.exit(main(sys.argv[1:]))
