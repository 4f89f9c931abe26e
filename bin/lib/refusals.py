"""What is remembered of wrong bodies that were seen refused, so that they need not be tried again.

In the repository, in `wrong-bodies.seen`: for a crate, the sum over all that decides its wrong bodies. A line is
written only when all edits of the crate were just seen refused. So whoever has the same texts need not try them.

On this machine alone, beside the toolchain: for an edit, the sum over all that it rests on. `bin/check` uses it, for
which a change of one function leaves the edits of the others as they are.
"""
import contextlib
import fcntl
import hashlib
import os
import subprocess
import tempfile
import threading

from functions import Functions
from toolchain import PARTS, ROOT, STORE, kit_sum, text_of, version
from wrong_bodies import BY_NAME, BY_TYPE, OPEN, edits_of, tried

SEEN = "wrong-bodies.seen"
HEAD = "# crates whose wrong bodies were all seen refused, and the sum over all that decides that (bin/wrong-bodies)"
# one crate in so many is tried though its line is there
SHARE = 20


def files_below(*folders):
    return sorted(f"{at}/{name}" for folder in folders for at, _, names in os.walk(folder) for name in names)


def sum_of(files):
    found = hashlib.sha256()
    for file in files:
        with open(file, "rb") as it:
            found.update(repr((os.path.relpath(file, ROOT), it.read())).encode())
    return found.hexdigest()


def deciding_files(crate):
    """The files that say how edits are tried, and those in which the libraries below the crate, which are built, state
    their contracts and definitions."""
    stated = [(f"{it.rlib}/interface/lang", f"{it.rlib}/lang/antt/specs") for it in crate.below()]
    scripts = [f"{ROOT}/bin/lib/{it}" for it in ("functions.py", "wrong_bodies.py")]
    return scripts + [file for folders in stated for file in files_below(*folders)]


def sum_of_all(crate):
    """The sum over all that decides whether a crate's wrong bodies are refused."""
    own = files_below(*(f"{crate.folder}/{it}" for it in (*PARTS, "wrong-bodies")))
    return hashlib.sha256(repr((version(), sum_of(deciding_files(crate)), sum_of(own))).encode()).hexdigest()


class Seen:
    """The lines of `wrong-bodies.seen`."""

    def __init__(self):
        self.sums, self.lock = self.read(), threading.Lock()

    def read(self):
        lines = (text_of(f"{ROOT}/{SEEN}") or "").split("\n")
        return dict(it.split() for it in lines if it and not it.startswith("#"))

    def has(self, crate):
        return self.sums.get(crate.name) == sum_of_all(crate)

    def put(self, crate, found):
        """Notes the sum of a crate whose edits were all just refused, or, without one, that it has no line."""
        with self.lock, open(f"{ROOT}/bin/lib/refusals.py", "rb") as alone:
            # another run may have put lines there meanwhile
            fcntl.flock(alone, fcntl.LOCK_EX)
            sums = {name: it for name, it in self.read().items() if name != crate.name}
            self.sums = {**sums, **({crate.name: found} if found else {})}
            lines = [HEAD, *(f"{name} {it}" for name, it in sorted(self.sums.items()))]
            with open(f"{ROOT}/{SEEN}.new", "w", encoding="utf-8") as it:
                it.write("\n".join(lines) + "\n")
            os.replace(f"{ROOT}/{SEEN}.new", f"{ROOT}/{SEEN}")


def picked(crates):
    """A twentieth of the crates, one at least, by the hash of the commit."""
    head = subprocess.run(["git", "rev-parse", "HEAD"], cwd=ROOT, capture_output=True, text=True).stdout.strip()
    by_hash = sorted(crates, key=lambda crate: hashlib.sha256(f"{head} {crate.name}".encode()).hexdigest())
    return by_hash[: -(-len(crates) // SHARE)]


class Refused:
    """The edits of a crate that a run on this machine has seen refused, by the sum of all that this rests on: the
    toolchain, these scripts, what the libraries below the crate state, the crate's own files but for the bodies and
    proofs of functions that the edit does not change, and the edit."""

    def __init__(self, crate):
        self.folder, self.own = crate.folder, files_below(*(f"{crate.folder}/{it}" for it in PARTS))
        self.sum, self.at = kit_sum() + sum_of(deciding_files(crate)), f"{STORE}/wrong-bodies"
        self.functions = Functions(crate.folder)

    def own_sum(self, edit):
        """The sum of the crate's own files, without what is another function's alone."""
        if not edit.functions:
            return sum_of(self.own)
        texts, folders = self.functions.left_beside(edit.functions)

        def is_other(file):
            inside = os.path.relpath(os.path.dirname(file), f"{self.folder}/proofs")
            return os.path.relpath(file, self.folder) not in texts and inside not in folders

        texts_sum = hashlib.sha256(repr(sorted(texts.items())).encode()).hexdigest()
        return texts_sum + sum_of(filter(is_other, self.own))

    def file(self, edit):
        found = repr((self.sum, self.own_sum(edit), edit.name, edit.text))
        return f"{self.at}/{hashlib.sha256(found.encode()).hexdigest()}"

    def found(self, edit):
        """What was said of the edit when it was refused, or None if that is not known."""
        said = text_of(self.file(edit))
        return said if said in (OPEN, BY_TYPE, BY_NAME) else None

    def keep(self, edit, said):
        with contextlib.suppress(OSError):
            os.makedirs(self.at, 0o700, exist_ok=True)
            with tempfile.NamedTemporaryFile("w", dir=self.at, delete=False, encoding="utf-8") as it:
                it.write(said)
            # so that no other run meets half of it
            os.replace(it.name, self.file(edit))


class Outcome:
    """What became of a crate's edits: of each by its name whether it is refused and what to say of it, how many were
    tried just now, and the processor seconds of that."""

    def __init__(self, crate, jobs, is_anew):
        good, bad = edits_of(crate)
        kept = Refused(crate)
        before = {} if is_anew else {it.name: (True, said) for it in good if (said := kept.found(it))}
        new = [it for it in good if it.name not in before]
        with tempfile.TemporaryDirectory(prefix="wrong-bodies-") as room:
            results, self.seconds = tried(crate, new, room, jobs)
        for edit in new:
            is_refused, said = results[edit.name]
            if is_refused:
                kept.keep(edit, said)
        self.tried = len(new)
        self.results = {**before, **results, **{name: (False, f"BAD EDIT: {why}") for name, why in bad}}

    def refused(self):
        return [what for is_refused, what in self.results.values() if is_refused]

    def is_well(self):
        return len(self.refused()) == len(self.results)


def tell(crate, outcome):
    """Prints what became of a crate's edits."""
    for edit, (is_refused, what) in sorted(outcome.results.items()):
        print(f"wrong body {crate.name}/{edit}: {'refused, by ' if is_refused else ''}{what}", flush=True)


def add_wrong_bodies(work, crate, waits_for, seen, is_anew):
    """Adds a crate's edits as a task, which gives what became of them, or None where what it waits for is not well or,
    unless all are tried anew, where they were seen refused before. All that were tried just now and refused are put
    among those seen."""

    def call(given, jobs):
        if not all(given[it.name, kind] for it, kind in waits_for) or not is_anew and seen.has(crate):
            return None, ""
        found = sum_of_all(crate)
        outcome = Outcome(crate, jobs, is_anew)
        tell(crate, outcome)
        if outcome.tried == len(outcome.results) or not outcome.is_well():
            is_same = outcome.is_well() and found == sum_of_all(crate)
            seen.put(crate, found if is_same else None)
        return outcome, f"{outcome.tried} wrong bodies of {crate.name}, {outcome.seconds:.0f} s of a processor"

    # each of several checks reads the libraries below anew, so crates that stand on many are dear, and are begun early
    work.add(crate, "wrong bodies", waits_for, crate.count(rb"\n") + 60 * len(crate.below()), call)


def has_wrong_bodies(crate):
    return os.path.isdir(f"{crate.folder}/wrong-bodies")


def sum_up(outcomes):
    """Prints what became of these crates' edits, and returns how many were refused and how many were not."""
    refused = [what for it in outcomes for what in it.refused()]
    not_refused = sum(len(it.results) for it in outcomes) - len(refused)
    weak = sum(what != OPEN for what in refused)
    print(f"{weak} of {len(refused)} are refused by a hand-written answer alone, which says less of the contract")
    return len(refused), not_refused
