"""What the benchmarks share: the program's commands, data with fixed seeds, runs measured in turn, and one form of
table."""
import argparse
import collections
import contextlib
import hashlib
import itertools
import os
import random
import subprocess
import sys
import tempfile
import time

TOP = os.path.dirname(os.path.dirname(os.path.realpath(__file__)))
PREFIX = "PREFIX ex: <http://e/> "
INTEGER = "<http://www.w3.org/2001/XMLSchema#integer>"
SERIAL = ("serial", "base.nq", "block.ru", "out.nq")
CHECK = ("check", "block.ru")
HEADING = "| What | Size | Way | Time | of the first way | of the size before | Processor | Memory |"

# Seconds by the clock, seconds of processors, and most memory in MB
Used = collections.namedtuple("Used", "clock processor memory")


def run_by(workers, *flags):
    return ("run", "base.nq", "block.ru", "out.nq", "--workers", str(workers), *flags)


def arguments(about, size, what, rounds=3):
    """The command line of a benchmark: the program's path, how large its data is, and how many runs each way has."""
    it = argparse.ArgumentParser(description=about, formatter_class=argparse.RawDescriptionHelpFormatter)
    it.add_argument("program", nargs="?", default=f"{TOP}/build/sparql-block", help="its path, by default %(default)s")
    it.add_argument("--size", type=int, default=size, metavar="N", help=f"{what}, by default %(default)s")
    it.add_argument("--rounds", type=int, default=rounds, metavar="N", help="runs of each way, by default %(default)s")
    given = it.parse_args()
    given.program = os.path.realpath(given.program)
    if not os.access(given.program, os.X_OK):
        it.error(f"there is no program {given.program}: bin/build makes build/sparql-block")
    return given


def block(steps, prefix=PREFIX):
    """The text of a block of these requests, in pieces."""
    for number, step in enumerate(steps):
        yield f"{'----' + chr(10) if number else ''}{prefix}{step}\n"


class Room:
    """A folder with a base and a block, in which the program is run."""

    def __init__(self, program, folder):
        self.program, self.folder = program, folder

    def write(self, name, pieces):
        with open(f"{self.folder}/{name}", "w", encoding="utf-8") as it:
            it.writelines(pieces)

    def size_of(self, name):
        """The bytes of a file."""
        return os.path.getsize(f"{self.folder}/{name}")

    def sum_of(self, name):
        """A sum over a file's bytes; nothing where there is no such file."""
        found = hashlib.sha256()
        with contextlib.suppress(FileNotFoundError), open(f"{self.folder}/{name}", "rb") as it:
            while piece := it.read(2**20):
                found.update(piece)
        return found.hexdigest()

    def timed(self, words, **environment):
        """What a command uses. It ends the benchmark where it fails."""
        # to take away what an earlier run wrote is no part of a run
        with contextlib.suppress(FileNotFoundError):
            os.remove(f"{self.folder}/out.nq")
        # memory is asked of GNU time: that of a child of this process would begin with this process's own
        given, started = ["/usr/bin/time", "-f", "%M", "-o", "memory", *words], time.perf_counter()
        with open(f"{self.folder}/replies", "wb") as out:
            with subprocess.Popen(given, cwd=self.folder, stdout=out, env={**os.environ, **environment}) as run:
                _, status, used = os.wait4(run.pid, 0)
                run.returncode = os.waitstatus_to_exitcode(status)
        clock = time.perf_counter() - started
        if run.returncode:
            sys.exit(f"{' '.join(words)} ended with status {run.returncode}")
        with open(f"{self.folder}/memory", encoding="utf-8") as it:
            return Used(clock, used.ru_utime + used.ru_stime, int(it.read()) / 1024)

    def answer_of(self, command):
        """What a command of the program uses, and the sums over its replies and its dataset."""
        used = self.timed([self.program, *command])
        return used, (self.sum_of("replies"), self.sum_of("out.nq"))


@contextlib.contextmanager
def room(program, base=(), text=()):
    """A folder with these pieces of a base and of a block."""
    with tempfile.TemporaryDirectory() as folder:
        made = Room(program, folder)
        made.write("base.nq", base)
        made.write("block.ru", text)
        yield made


def least(runs):
    """The least of each that some runs used."""
    return Used(*map(min, zip(*runs)))


def in_turn(ways, rounds):
    """Calls each way once a round: the least that each uses. Each gives what it used and an answer, one for all."""
    used, answers = {name: [] for name in ways}, set()
    for _, (name, way) in itertools.product(range(rounds), ways.items()):
        one, answer = way()
        used[name].append(one)
        answers.add(answer)
    if len(answers) > 1:
        sys.exit(f"{', '.join(ways)}: {len(answers)} answers")
    return {name: least(runs) for name, runs in used.items()}


def name_of(command):
    """A command's words without the names of its files."""
    flags = [word for word in command[1:] if "." not in word and word != "journal"]
    return " ".join([command[0], *flags])


def measured(where, commands, rounds):
    """What each of these commands of the program uses in a room."""
    return in_turn({f"`{name_of(it)}`": lambda it=it: where.answer_of(it) for it in commands}, rounds)


class Table:
    """A table of what runs use, a row a way, with ratios to the first way and to the same way at the size before."""

    def __init__(self):
        self.before = {}
        print(HEADING, "|---" * 8 + "|", sep="\n", flush=True)

    def add(self, what, size, used):
        """Adds the rows of all ways: `used` has what each uses, by its name."""
        first = next(iter(used.values())).clock
        for way, it in used.items():
            old = self.before.get((what, way))
            ratios = f"{it.clock / first:.2f} | {f'{it.clock / old:.2f}' if old else ''}"
            times = f"{it.clock:.3f} s | {ratios} | {it.processor:.3f} s"
            print(f"| {what} | {size} | {way} | {times} | {it.memory:.0f} MB |", flush=True)
            self.before[what, way] = it.clock


def compare(program, rows, commands, rounds):
    """Prints the table of these commands over each row: its name, its size, its base and its requests."""
    table = Table()
    for what, size, base, steps in rows:
        with room(program, base, block(steps)) as where:
            table.add(what, size, measured(where, commands, rounds))


def pairs(quads):
    """Quads of one predicate, a subject each, and a thousand objects."""
    return (f"<http://e/s{at}> <http://e/p> <http://e/o{at % 1000}> .\n" for at in range(quads))


def drawn_quads(quads, terms=10**6, graphs=0):
    """Quads over `terms` subjects and objects at most, in the default graph or in turn in `graphs` graphs."""
    draw = random.Random(11)
    for at in range(quads):
        graph = f" <http://e/g{at % graphs}>" if graphs else ""
        s, p, o = draw.randrange(terms), draw.randrange(20), draw.randrange(terms)
        yield f"<http://e/s{s}> <http://e/p{p}> <http://e/o{o}>{graph} .\n"


def long_quads(quads, terms):
    """Quads of a hundred bytes, whose subjects and objects are drawn from `terms` IRIs."""
    draw = random.Random(20130321)
    words = ["author", "library", "concept", "record", "measure", "place"]
    pool = [f"<http://data.example/{words[at % 6]}/{at:06}>" for at in range(terms)]
    predicates = [f"<http://vocabulary.example/has{at}>" for at in range(40)]
    for _ in range(quads):
        s, p, o = draw.randrange(terms), draw.randrange(40), draw.randrange(terms)
        yield f"{pool[s]} {predicates[p]} {pool[o]} .\n"


def tens(requests):
    """Requests that insert ten quads each, of their own."""
    for at in range(requests):
        yield f"INSERT DATA {{ {' . '.join(f'ex:n{at} ex:p{number} ex:m{at}' for number in range(10))} }}"


def counter_base():
    """A counter, and a hundred numbers in a ring."""
    yield "<http://e/a> <http://e/count> <http://e/n0> .\n"
    yield from (f"<http://e/n{at}> <http://e/next> <http://e/n{(at + 1) % 100}> .\n" for at in range(100))


def counter(requests):
    """Requests that each read and write one counter."""
    change = "DELETE { ex:a ex:count ?o } INSERT { ex:a ex:count ?next }"
    return [f"{change} WHERE {{ ex:a ex:count ?o . ?o ex:next ?next }}"] * requests


def own_graph(graph):
    """A graph of 250 quads: 125 subjects with a neighbour and a number each."""
    for s in range(125):
        subject, end = f"<http://e/s{s}>", f"<http://e/g{graph}> .\n"
        yield f"{subject} <http://e/next> <http://e/s{(s * 7 + graph) % 125}> {end}"
        yield f'{subject} <http://e/size> "{s}"^^{INTEGER} {end}'


def own_graphs(requests):
    """A graph for each request."""
    return (line for graph in range(requests) for line in own_graph(graph))


def changes_of_graphs(requests):
    """Requests that each join, filter, delete and insert in a graph of their own."""
    what = "WHERE { ?s ex:next ?t . ?t ex:size ?n FILTER(?n < 20) }"
    return (f"WITH ex:g{at} DELETE {{ ?s ex:next ?t }} INSERT {{ ?s ex:near ?t }} {what}" for at in range(requests))
