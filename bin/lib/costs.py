"""What the gate costs, crate by crate: the processor time of the prover's processes, read from /proc once a second
while they run."""
import os
import threading
from collections import defaultdict

KINDS = ("proof", "tests", "named wrong bodies", "wrong bodies")
TICKS = os.sysconf("SC_CLK_TCK")


def text_of(path):
    try:
        with open(path, encoding="utf-8", errors="replace") as it:
            return it.read()
    except OSError:
        return ""


def work_of(pid):
    """The crate that a process of the prover works on, and the kind of work, or nothing."""
    words = text_of(f"/proc/{pid}/cmdline").split("\0")
    if os.path.basename(words[0]) != "rattle" or "--crate-name" not in words:
        return None
    try:
        folder = os.readlink(f"/proc/{pid}/cwd")
    except OSError:
        return None
    kind = 2 if "rt-edit-" in folder else 3 if "wrong-bodies-" in folder else 1 if "--test" in words else 0
    return words[words.index("--crate-name") + 1], KINDS[kind]


def seconds_of(pid):
    """The processor seconds that a process has taken so far, without those of its children."""
    fields = text_of(f"/proc/{pid}/stat").rpartition(")")[2].split()
    return (int(fields[11]) + int(fields[12])) / TICKS if len(fields) > 12 else 0.0


class Costs(threading.Thread):
    """Watches the machine's processes of the prover until it is told to end."""

    def __init__(self):
        super().__init__(daemon=True)
        self.works, self.seconds, self.is_over = {}, {}, threading.Event()

    def run(self):
        while not self.is_over.wait(1):
            for pid in filter(str.isdigit, os.listdir("/proc")):
                work = self.works.get(pid) or work_of(pid)
                if work:
                    self.works[pid] = work
                    self.seconds[pid] = max(seconds_of(pid), self.seconds.get(pid, 0.0))

    def table(self):
        """The lines of a table: for each crate the processor seconds of each kind of work, the dearest crate first, and
        their sum."""
        self.is_over.set()
        self.join()
        found = defaultdict(lambda: dict.fromkeys(KINDS, 0.0))
        for pid, (crate, kind) in self.works.items():
            found[crate][kind] += self.seconds.get(pid, 0.0)
        rows = sorted(found.items(), key=lambda it: -sum(it[1].values()))
        rows.append(("all", {kind: sum(row[kind] for row in found.values()) for kind in KINDS}))
        lines = ["| processor seconds | " + " | ".join(KINDS) + " |", "|---" * (len(KINDS) + 1) + "|"]
        for crate, row in rows:
            lines.append(f"| {crate} | " + " | ".join(f"{row[kind]:.0f}" for kind in KINDS) + " |")
        return lines
