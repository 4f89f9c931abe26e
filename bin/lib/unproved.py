"""The program and the tests compiled from the sources, with checks at run time and no proof, as `rt try` does it."""
import errno
import os
import re
import shutil
import subprocess
import tempfile
import time
from dataclasses import dataclass

from toolchain import KIT, ROOT, free, guarded, text_of, words_to_try

BUILD = f"{ROOT}/build"
# the program as the toolchain's own loader starts it, which has the C library that it was linked with
START = """#!/bin/sh
lib={kit}/toolchain/lib
exec $lib/ld-linux-x86-64.so.2 --inhibit-cache --library-path $lib --argv0 sparql-block "{at}/program" "$@"
"""
# bytes that compiling a crate and all below it takes
MEMORY = 3_500_000_000
# how long a program or a test may run, in seconds
LIMIT = 300


def lanes():
    """How many crates can be compiled side by side: as many as there are processors, and memory for."""
    return max(1, min(len(os.sched_getaffinity(0)), free() // MEMORY))


def is_proved(program):
    """Whether build/sparql-block is built of these very sources."""
    at = f"{BUILD}/sparql-block"
    return os.path.isfile(at) and text_of(f"{at}.stamp") == program.stamp()


def is_compiled(program):
    """Whether the unproved program is compiled of these very sources."""
    return text_of(f"{BUILD}/unproved/stamp") == program.stamp()


def opened(fifo, process):
    """The writing end of a FIFO once another process reads it, or None where that process ended before."""
    while process.poll() is None:
        try:
            return os.open(fifo, os.O_WRONLY | os.O_NONBLOCK)
        except OSError as error:
            if error.errno != errno.ENXIO:
                raise
            time.sleep(0.05)
    return None


def compile_program(program):
    """Compiles the program with checks at run time and no proof, unless that is done already, and returns the path that
    starts it, or None, after a word on why. The toolchain removes the program once it has run: so it is run on a block
    that does not come before the program is copied."""
    at, stamp = f"{BUILD}/unproved", program.stamp()
    if is_compiled(program):
        return f"{at}/sparql-block"
    shutil.rmtree(at, ignore_errors=True)
    os.makedirs(at)
    with tempfile.TemporaryDirectory(prefix="unproved-") as room:
        os.mkfifo(f"{room}/block")
        words = [*guarded(), *words_to_try(program, False, LIMIT, ["check", f"{room}/block"])]
        with open(f"{at}/log", "w", encoding="utf-8") as log:
            how = {"cwd": program.folder, "env": {**os.environ, "TMPDIR": room}, "stdin": subprocess.DEVNULL}
            process = subprocess.Popen(words, stdout=log, stderr=log, **how)
            block = opened(f"{room}/block", process)
            if block is not None:
                [found] = [f"{room}/{it}/program" for it in os.listdir(room) if os.path.isfile(f"{room}/{it}/program")]
                shutil.copy(found, f"{at}/program")
                os.close(block)
            process.wait()
    if not os.path.isfile(f"{at}/program"):
        print(text_of(f"{at}/log"))
        return None
    with open(f"{at}/sparql-block", "w", encoding="utf-8") as it:
        it.write(START.format(kit=KIT, at=at))
    os.chmod(f"{at}/sparql-block", 0o755)
    with open(f"{at}/stamp", "w", encoding="utf-8") as it:
        it.write(stamp)
    return f"{at}/sparql-block"


@dataclass
class Tests:
    """What became of the tests of a crate, and all that was printed."""

    passed: int
    failed: int
    said: str


RESULT = re.compile(r"(?m)^test result: \w+\. (\d+) passed; (\d+) failed; ")


def run_tests(crate):
    """Compiles the tests of a crate with checks at run time and no proof, and runs them."""
    with tempfile.TemporaryDirectory(prefix="unproved-") as room:
        words = [*guarded(), *words_to_try(crate, True, LIMIT)]
        how = {"cwd": crate.folder, "env": {**os.environ, "TMPDIR": room}, "stdin": subprocess.DEVNULL}
        ran = subprocess.run(words, capture_output=True, text=True, errors="replace", **how)
    said = ran.stdout + ran.stderr
    found = RESULT.search(said)
    passed, failed = (int(found[1]), int(found[2])) if found else (0, 1)
    # a run that faults or does not end says so by its status alone
    return Tests(passed, failed or (1 if ran.returncode else 0), said)
