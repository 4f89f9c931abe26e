"""The repository's crates, and work on many of them side by side."""
import functools
import os
import shutil
import sys
import threading
import time

from toolchain import RATTLE, ROOT, Kept, crates_of, in_lanes, need, processors, text_of


def named(names=()):
    """The crates of these names, or all where none is named, lowest first."""
    crates = crates_of(ROOT)
    unknown = sorted({*names} - {crate.name for crate in crates})
    if unknown:
        sys.exit(f"no crate is named {', '.join(unknown)}")
    return [crate for crate in crates if not names or crate.name in names]


def with_those_below(crates):
    """These crates and the libraries that they stand on, lowest first."""
    found = {it for crate in crates for it in [*crate.below(), crate]}
    return sorted(found, key=lambda it: (len(it.below()), it.name))


def take_kept(crates):
    """Gives these crates, of which each comes after those below it, what `rt ci` proved of the same texts on this
    machine and keeps. Returns those that were given it."""
    kept, given = Kept(crates), []
    for crate in crates:
        if crate.makes_rlib() and is_built(crate):
            kept.note(crate)
        elif kept.give(crate):
            given.append(crate)
    if given:
        print(f"rt ci proved {len(given)} of these crates on this machine, which are kept", file=sys.stderr)
    return given


class Work:
    """Tasks on crates, done side by side: as many as there are processors and memory for, the longest chain first. Says
    which ended, and how many are left."""

    def __init__(self):
        self.tasks, self.ended, self.started, self.lock = {}, 0, time.monotonic(), threading.Lock()

    def add(self, crate, what, waits_for, lines, call):
        """Adds a call on a crate, which gets the results of those that it waits for and how many jobs it may use, and
        says in a word what it did, if anything."""

        def run(given, jobs):
            started = time.monotonic()
            result, told = call(given, jobs)
            self.say(told, time.monotonic() - started)
            return result

        self.tasks[crate.name, what] = ([(it.name, kind) for it, kind in waits_for], lines, need(crate), run)

    def say(self, told, seconds):
        with self.lock:
            self.ended += 1
            minutes, rest = divmod(int(time.monotonic() - self.started), 60)
            if told:
                line = f"[{minutes:2}:{rest:02}] {self.ended} of {len(self.tasks)}: {told} ({seconds:.0f} s)"
                print(line, file=sys.stderr, flush=True)

    def results(self):
        """Does the tasks, and returns what each came to, by the crate's name and the kind of task."""
        return in_lanes(self.tasks)


def built_at(crate):
    """When the library was built."""
    return os.path.getmtime(f"{crate.folder}/out/rlib/stamp")


def is_built(crate):
    """Whether the library is built from what stands there, and over those below it as they were built last: it fits no
    others, even of the same text."""
    return crate.is_built() and all(built_at(it) <= built_at(crate) for it in crate.below())


def build_library(crate, flags, keeps):
    """Proves and builds a library: over kept work, or where there is none of it or of what it stands on, and none is
    wanted, from nothing, with its statements alone, which is faster. What the gate looks for beyond a proof, as a
    contract that no call can meet, is left to it."""
    stamp, kept = crate.stamp(), f"{crate.folder}/out/rlib"
    # what is there may be of the same text, and then the toolchain leaves it
    shutil.rmtree(kept, ignore_errors=True)
    if keeps or any(it.has_kept() for it in [*crate.below(), crate]):
        return crate.build_rlib(flags, anew=False)
    os.makedirs(kept)
    status = crate.call(RATTLE, "build", *crate.words(flags, keeps=False), "--statements", "-o", crate.rlib)
    if not status:
        with open(f"{kept}/stamp", "w", encoding="utf-8") as it:
            it.write(stamp)
    return status


def measured():
    """How many seconds the proof of each crate took once, by its name. Which proofs are begun first hangs on them, and
    nothing else."""
    with open(f"{ROOT}/bin/lib/seconds.txt", encoding="utf-8") as it:
        return {name: int(seconds) for name, seconds in (line.split() for line in it)}


SECONDS = measured()


def likely_cost(crate):
    """How dear a proof of the crate is likely to be, in lines, of which a second proves some ten: as it once was, or by
    its own and what a start takes with the libraries that it reads."""
    return 10 * SECONDS.get(crate.name, 0) or crate.count(rb"\n") + 200 + 15 * len(crate.below())


def add_proofs(work, crates, failed, keeps):
    """Adds the proofs of these crates, of which each waits for the libraries below it. What the prover said of one that
    is not proved goes into `failed`."""

    def prove(crate, given, jobs):
        if not all(given[it.name, "proof"] for it in crate.below()):
            return False, ""
        if crate.makes_rlib() and is_built(crate):
            return True, ""
        os.makedirs(f"{crate.folder}/out", exist_ok=True)
        with open(f"{crate.folder}/out/log", "w+", errors="replace") as crate.out:
            flags = ["--jobs", str(jobs)]
            status = build_library(crate, flags, keeps) if crate.makes_rlib() else crate.check(flags)
            crate.out.seek(0)
            failed.update({crate.name: crate.out.read()} if status else {})
        crate.out = sys.stdout
        return not status, f"{crate.name} {'is not proved' if status else 'proved'}"

    for crate in crates:
        waits_for = [(it, "proof") for it in crate.below()]
        call = functools.partial(prove, crate)
        work.add(crate, "proof", waits_for, likely_cost(crate), call)


def prove(crates, keeps):
    """Proves these crates and builds the libraries. Prints what was said of each that is not proved, and returns
    whether all are."""
    work, failed = Work(), {}
    add_proofs(work, crates, failed, keeps)
    given = work.results()
    for name, said in failed.items():
        print(f"== {name}\n{said}")
    lost = [it.name for it in crates if not given[it.name, "proof"]]
    if lost:
        print(f"not proved: {' '.join(lost)}")
    return not lost


def build_program(crate, to, is_given):
    """Proves a program whose libraries are built, and links it, unless what `rt ci` linked is given. Returns whether
    that went well; what was said is in the crate's out/log. The sum of what it is built of stands beside it, in a file
    that ends in .stamp."""
    mark, stamp, made = f"{to}.stamp", crate.stamp(), f"out/{crate.name}"
    if text_of(mark) == stamp and os.path.isfile(to):
        return True
    os.makedirs(f"{crate.folder}/out", exist_ok=True)
    with open(f"{crate.folder}/out/log", "w", errors="replace") as crate.out:
        jobs = ["--jobs", str(min(processors(), 4))]
        if not is_given and (crate.compile(jobs, f"{made}.o") or crate.link(f"{made}.o", made)):
            return False
    shutil.copy(f"{crate.folder}/{made}", to)
    with open(mark, "w", encoding="utf-8") as it:
        it.write(stamp)
    return True
