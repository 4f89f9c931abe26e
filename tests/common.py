"""What the tests of the program share: their command line, runs in a folder of their own, worked examples, work side by
side, and their closing line."""
import argparse
import collections
import concurrent.futures
import os
import subprocess
import tempfile

ROOT = os.path.dirname(os.path.dirname(os.path.realpath(__file__)))
# how long a run may take
SECONDS = 600

# A worked example: what the program reads, and what it answers.
Example = collections.namedtuple("Example", "name base block replies dataset")

# How a run ended: its status, or None where it took too long, what it printed, and the files that lie there then.
Ended = collections.namedtuple("Ended", "status replies error files")


def arguments(about, program="sparql-block", **numbers):
    """The command line: the program's path, by default in build/, whether all is tried, and for each of these names,
    with its help, a number where it is given."""
    it = argparse.ArgumentParser(description=about, formatter_class=argparse.RawDescriptionHelpFormatter)
    it.add_argument("program", nargs="?", default=f"{ROOT}/build/{program}", help="its path, by default %(default)s")
    it.add_argument("--all", action="store_true", help="try all; by default a part of it, the same each time")
    for name, text in numbers.items():
        it.add_argument(f"--{name}", type=int, metavar="N", help=text)
    given = it.parse_args()
    given.program = os.path.realpath(given.program)
    if not os.access(given.program, os.X_OK):
        it.error(f"there is no program {given.program}")
    return given


def content(path):
    with open(path, "rb") as it:
        return it.read()


def example(name):
    """The worked example of this folder of rows/."""
    folder = f"{ROOT}/rows/{name}"
    at = f"{ROOT}/{content(f'{folder}/of').decode().strip()}" if os.path.isfile(f"{folder}/of") else folder
    texts = (f"{at}/base.nq", f"{at}/block.ru", f"{folder}/replies", f"{folder}/dataset.nq")
    return Example(name, *map(content, texts))


def preloaded(name, folder):
    """A library of tests/, compiled into this folder, to run a program with."""
    library = f"{folder}/{name}.so"
    words = ["-O1", "-Wall", "-Werror", "-shared", "-fPIC", "-o", library, f"{ROOT}/tests/{name}.c"]
    subprocess.run([os.environ.get("CC", "cc"), *words], check=True)
    return library


def ended(command, files, seconds=SECONDS, stdout=subprocess.PIPE, **environment):
    """How a command ends that is run in a folder with these files alone."""
    with tempfile.TemporaryDirectory() as room:
        for name, text in files.items():
            with open(f"{room}/{name}", "wb") as it:
                it.write(text)
        how = {"cwd": room, "env": {**os.environ, **environment}, "stdin": subprocess.DEVNULL}
        how |= {"stdout": stdout, "stderr": subprocess.PIPE, "timeout": seconds}
        try:
            ran = subprocess.run(command, check=False, **how)
        except subprocess.TimeoutExpired as late:
            return Ended(None, late.stdout or b"", f"no answer after {seconds} seconds".encode(), {})
        made = {it: content(f"{room}/{it}") for it in os.listdir(room)}
        return Ended(ran.returncode, ran.stdout or b"", ran.stderr, made)


def side_by_side(call, given, jobs):
    """What a call gives for each of these, in their order, `jobs` of them at once."""
    with concurrent.futures.ThreadPoolExecutor(jobs) as pool:
        yield from pool.map(call, given)


def closing_status(passed, failed):
    """Prints the closing line, and gives the exit status: nothing tried is a failure too."""
    print(f"{passed} passed, {failed} failed")
    return 1 if failed or not passed else 0
