#!/usr/bin/env python3
"""Gives a built program files at its limits and past them, and others that aren't files to be counted.

    tools/limit_inputs.py PROGRAM

PROGRAM is a program that `rt run` or `rt ci` has built, as crates/cdrc_words/out/cdrc_words. These inputs are too large
for a test of a crate, or are the system's own: a folder, a pipe, a file that grows. Each run must end with the status
that the program's manual tells, and with a refusal it writes nothing to standard output.
"""
import contextlib
import os
import subprocess
import sys
import tempfile
import threading

# bytes of all files together, files, and pieces in all rounds
MOST_BYTES = 64 * 1024 * 1024
MOST_FILES = 4096
MOST_PIECES = 1_000_000

NOTHING = b"freed live 0 deferred 0 cyclic 0 bytes 0\n"


def report(*lines):
    return b"".join(line + b"\n" for line in lines)


def blank(files):
    return report(b"files %d pieces 0 distinct 0" % files, b"held live 0 deferred 0 cyclic 0 bytes 0") + NOTHING


def write(name, content):
    with open(name, "wb") as file:
        file.write(content)


def sparse(name, size):
    with open(name, "wb") as file:
        file.truncate(size)


@contextlib.contextmanager
def fed(name, content):
    """A pipe of that name, from which the content can be read once."""
    os.mkfifo(name)

    def feed():
        with contextlib.suppress(OSError), open(name, "wb") as pipe:
            pipe.write(content)

    feeder = threading.Thread(target=feed, daemon=True)
    feeder.start()
    yield name
    # a feeder whose pipe nobody opened waits for a reader
    with contextlib.suppress(OSError):
        os.close(os.open(name, os.O_RDONLY | os.O_NONBLOCK))
    feeder.join(10)


@contextlib.contextmanager
def growing(name, stop_at):
    """A file of that name, to which words are written as long as it is below a size."""
    write(name, b"w ")
    done = threading.Event()

    def grow():
        with open(name, "ab") as file:
            while not done.is_set() and file.tell() < stop_at:
                file.write(b"w " * 4096)
                file.flush()

    grower = threading.Thread(target=grow, daemon=True)
    grower.start()
    yield name
    done.set()
    grower.join()


class Runs:
    def __init__(self, program):
        self.program = program
        self.failed = 0

    def run(self, what, arguments, *ends):
        """Each end is a status and what standard output must then be, or None for whatever."""
        run = subprocess.run([self.program, *arguments], capture_output=True, timeout=600)
        is_right = any(run.returncode == status and out in (None, run.stdout) for status, out in ends)
        self.failed += not is_right
        print(f"{'ok    ' if is_right else 'WRONG '} status {run.returncode}  {what}", flush=True)
        if not is_right:
            print(f"       wanted {ends}, and got {run.stdout[:200]!r}")


def try_all(runs):
    refused = lambda status: (status, b"")
    sparse("above", MOST_BYTES + 1)
    runs.run("a file of one byte more than are read", ["words", "above"], refused(5))
    write("spaces", b" " * MOST_BYTES)
    runs.run("as many bytes as are read, all spaces", ["words", "spaces"], (0, blank(1)))
    write("space", b" ")
    runs.run("one byte more in a second file", ["words", "spaces", "space"], refused(5))
    runs.run("one byte more in a file before", ["words", "space", "spaces"], refused(5))
    runs.run("as many files as are counted", ["words", *["space"] * MOST_FILES], (0, blank(MOST_FILES)))
    runs.run("one file more, none of which is there", ["words", *["none"] * (MOST_FILES + 1)], refused(5))

    write("million", b"a " * MOST_PIECES)
    same = [b"%d 1 a" % MOST_PIECES, b"files 1 pieces %d distinct 1" % MOST_PIECES]
    held = b"held live 1 deferred 0 cyclic 0 bytes 1"
    runs.run("as many pieces as are counted", ["words", "million"], (0, report(*same, held) + NOTHING))
    write("one", b"a")
    runs.run("one piece more", ["words", "million", "one"], refused(5))
    runs.run("as many pieces, in two rounds", ["words", "--rounds", "2", "million"], refused(5))
    half = [b"%d 1 a" % MOST_PIECES, b"files 1 pieces %d distinct 1" % (MOST_PIECES // 2)]
    write("half", b"a " * (MOST_PIECES // 2))
    runs.run("half of them, in two rounds", ["words", "--rounds", "2", "half"], (0, report(*half, held) + NOTHING))

    os.mkdir("folder")
    runs.run("a folder", ["words", "folder"], refused(3))
    runs.run("a file that isn't there", ["words", "none"], refused(3))
    runs.run("a folder after a file", ["words", "one", "folder"], refused(3))
    for command, what in (("script", "a script"), ("steps", "a list of steps")):
        runs.run(f"a folder as {what}", [command, "folder"], refused(3))
        runs.run(f"{what} of one byte more than are read", [command, "above"], refused(5))

    words = report(b"2 1 a", b"1 1 b", b"files 1 pieces 3 distinct 2", b"held live 2 deferred 0 cyclic 0 bytes 2")
    with fed("pipe", b"a b a") as pipe:
        runs.run("a pipe", ["words", pipe], (0, words + NOTHING))
    with fed("endless", b"a " * (MOST_BYTES // 2 + 1)) as pipe:
        runs.run("a pipe of more bytes than are read", ["words", pipe], refused(5))
    with growing("grows", 8 * 1024 * 1024) as name:
        runs.run("a file that grows while it is read", ["words", name], (0, None), refused(3), refused(5))
    write("-", b"a b a")
    runs.run("a file named -", ["words", "-"], (0, words + NOTHING))


def main():
    if len(sys.argv) != 2:
        sys.exit(__doc__)
    runs = Runs(os.path.abspath(sys.argv[1]))
    with tempfile.TemporaryDirectory() as folder:
        os.chdir(folder)
        try_all(runs)
        os.chdir("/")
    sys.exit(1 if runs.failed else 0)


if __name__ == "__main__":
    main()
