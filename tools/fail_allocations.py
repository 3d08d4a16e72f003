#!/usr/bin/env python3
"""Refuses each allocation of a run in turn, and looks at what the program does.

    tools/fail_allocations.py PROGRAM ARGUMENT..

PROGRAM is a program that `rt run` or `rt ci` has built, as crates/cdrc_words/out/cdrc_words. It is run once as it is,
and then with its first allocation refused, its second one, and so on, until a run makes no such allocation any more.
Each of these must end with status 9 and a prefix of the first run's output, or just as the first run did. It needs a C
compiler, for the few lines that refuse.
"""
import os
import shutil
import subprocess
import sys
import tempfile

REFUSES = r"""
#define _GNU_SOURCE
#include <dlfcn.h>
#include <errno.h>
#include <fcntl.h>
#include <stddef.h>
#include <stdlib.h>

static long number, refused;

/* Whether this allocation is the one to be refused. */
static int is_refused(void) {
    static int is_read;
    if (!is_read) {
        const char *text = getenv("REFUSE_ALLOCATION");
        refused = text ? atol(text) : 0;
        is_read = 1;
    }
    if (__atomic_add_fetch(&number, 1, __ATOMIC_SEQ_CST) != refused) return 0;
    errno = ENOMEM;
    return 1;
}

void *malloc(size_t size) {
    static void *(*next)(size_t);
    if (!next) next = (void *(*)(size_t))dlsym(RTLD_NEXT, "malloc");
    return is_refused() ? NULL : next(size);
}

void *realloc(void *old, size_t size) {
    static void *(*next)(void *, size_t);
    if (!next) next = (void *(*)(void *, size_t))dlsym(RTLD_NEXT, "realloc");
    return is_refused() ? NULL : next(old, size);
}

__attribute__((destructor)) static void tell(void) {
    const char *name = getenv("TELL_ALLOCATIONS");
    if (name && number < refused && creat(name, 0600) >= 0) return;
}

/* A program that has threads ends here, and runs no destructor. */
void _exit(int status) {
    void (*next)(int) = (void (*)(int))dlsym(RTLD_NEXT, "_exit");
    tell();
    next(status);
    __builtin_unreachable();
}
"""


def build(room):
    """Returns the library that refuses an allocation of the program that it is loaded into."""
    source, library = f"{room}/refuses.c", f"{room}/refuses.so"
    with open(source, "w") as it:
        it.write(REFUSES)
    compiler = os.environ.get("CC") or "cc"
    subprocess.run([compiler, "-shared", "-fPIC", "-O1", "-o", library, source, "-ldl"], check=True)
    return library


def run(words, library, number, room):
    """Runs the program with that allocation refused. Returns its status, its output, and whether it made fewer."""
    over = f"{room}/over"
    if os.path.exists(over):
        os.remove(over)
    refuse = {"LD_PRELOAD": library, "REFUSE_ALLOCATION": str(number), "TELL_ALLOCATIONS": over}
    quiet = {"stdout": subprocess.PIPE, "stderr": subprocess.DEVNULL, "timeout": 60}
    done = subprocess.run(words, env={**os.environ, **refuse}, **quiet)
    return done.returncode, done.stdout, os.path.exists(over)


def main(words):
    if not words or not shutil.which(words[0]):
        print(__doc__.strip(), file=sys.stderr)
        return 2
    with tempfile.TemporaryDirectory() as room:
        library = build(room)
        whole = subprocess.run(words, stdout=subprocess.PIPE, stderr=subprocess.DEVNULL, timeout=60)
        refusals = 0
        for number in range(1, 1_000_000):
            status, output, is_over = run(words, library, number, room)
            if status == 9 and whole.stdout.startswith(output):
                refusals += 1
            elif (status, output) != (whole.returncode, whole.stdout):
                print(f"allocation {number}: status {status}, and {output!r}")
                return 1
            if is_over:
                others = number - 1 - refusals
                told = f"{refusals} times status 9, {others} times the same end"
                print(f"{number - 1} allocations refused in turn: {told}")
                return 0
    return 1


if __name__ == "__main__":
    sys.exit(main(sys.argv[1:]))
