"""Wrong bodies of crates, the edits crates/NAME/wrong-bodies/*.edit, each of which the prover must refuse.

A proof is modular: the goals of a function rest on the contracts of what it calls, and not on their bodies. So the
edits of different functions share one copy of their crate, in which the other functions are emptied. One check of the
copy judges each edit: it is refused where a goal of its own function, or of a closure in it, is reported. A call of a
function that is not proved counts for nothing. An edit that such a check does not judge, or that no other can share a
copy with, goes into another copy, in the end alone with nothing emptied. An edit that cannot be applied or read, or
that is still proved, fails.
"""
import os
import re
import shutil
import subprocess
import tempfile
from dataclasses import dataclass

from functions import empty_others, module_of, places, sources_of, spans_in
from toolchain import PARTS, RATTLE, STALE, edited, guarded, is_unread

OPEN = "an open goal"
BY_TYPE = "a hand-written answer of another type"
BY_NAME = "a hand-written answer names what it took away"
UNREACHED = "BAD EDIT: the check did not come to the proofs"
PROVED = "NOT REFUSED: it is still proved"


@dataclass
class Edit:
    """A wrong body: its name, the text of its file, and the functions that it changes, none where it changes more than
    bodies."""

    name: str
    text: str
    functions: frozenset = frozenset()


def changed_places(text, folder):
    """The places at which an edit changes files, as pairs of the file and the byte, or why it cannot be applied."""
    texts, why = edited(text, folder)
    if why:
        return None, why
    found, file = [], ""
    for line in text.split("\n"):
        if line.startswith("file: "):
            file = line[len("file: ") :].strip()
        elif line.startswith("old: "):
            with open(f"{folder}/{file}", encoding="utf-8") as it:
                whole = it.read()
            at = whole.find(line[len("old: ") :])
            # a later pair may change what an earlier one wrote, which is not in the file itself
            found += [(file, len(whole[:at].encode()))] if at >= 0 else []
    return found, None


def functions_at(found, crate):
    """The functions at these places of files: where a constant stands, those that name it, and none where a place is in
    neither."""
    texts = sources_of(crate.folder)
    spans, functions = spans_in(crate.folder, texts), set()
    for file, byte in found:
        line, column = places(texts.get(file, ""))(byte)
        within = [it.function for it in spans.get(file, []) if it.start <= (line, column) < it.end]
        constant = re.match(r"(?:pub(?:\(crate\))? )?const (\w+):", texts.get(file, "").split("\n")[line - 1])
        if not within and constant:
            name = re.compile(rf"\b{constant[1]}\b")
            everywhere = [(of_file, it) for of_file, own in spans.items() for it in own]
            within = [it.function for of_file, it in everywhere if name.search(it.text(texts[of_file]))]
        if not within:
            return frozenset()
        functions.update(within)
    return frozenset(functions)


def edits_of(crate):
    """The edits of a crate, and those that cannot be applied, with why."""
    folder, good, bad = f"{crate.folder}/wrong-bodies", [], []
    for file in sorted(os.listdir(folder)) if os.path.isdir(folder) else []:
        name = file.removesuffix(".edit")
        if not re.fullmatch(r"[a-z0-9_]+\.edit", file):
            bad.append((file, "a name is of small letters, digits and _, and ends in .edit"))
            continue
        with open(f"{folder}/{file}", encoding="utf-8") as it:
            text = it.read()
        found, why = changed_places(text, crate.folder)
        if why:
            bad.append((name, why))
        else:
            good.append(Edit(name, text, functions_at(found, crate)))
    return good, bad


@dataclass
class Check:
    """What a check ended with, what it printed, and the processor seconds that it took."""

    status: int
    said: str
    seconds: float


def check_of(folder, words):
    how = {"cwd": folder, "stdin": subprocess.DEVNULL, "stdout": subprocess.PIPE, "stderr": subprocess.STDOUT}
    with subprocess.Popen([*guarded(), *words], **how, text=True, errors="replace") as ran:
        said = ran.stdout.read()
        _, status, used = os.wait4(ran.pid, 0)
        ran.returncode = os.waitstatus_to_exitcode(status)
    return Check(ran.returncode, said, used.ru_utime + used.ru_stime)


class Copy:
    """A copy of a crate with edits of different functions in it."""

    def __init__(self, crate, room):
        self.crate, self.folder, self.edits, self.texts = crate, room, [], {}
        for part in PARTS:
            if os.path.isdir(f"{crate.folder}/{part}"):
                shutil.copytree(f"{crate.folder}/{part}", f"{room}/{part}")

    def takes(self, edit):
        """Puts the edit in, if nothing else is in its functions, and it can be applied beside the others."""
        is_whole = not edit.functions or any(not it.functions for it in self.edits)
        if self.edits and (is_whole or any(it.functions & edit.functions for it in self.edits)):
            return False
        texts, why = edited(edit.text, self.folder)
        if why:
            return False
        for path, text in texts.items():
            with open(f"{self.folder}/{path}", "w", encoding="utf-8") as it:
                it.write(text)
        self.edits.append(edit)
        self.texts.update(texts)
        return True

    def functions(self):
        return {it for edit in self.edits for it in edit.functions}

    def check(self, kept, jobs, empties):
        """What the prover says of the edited functions, with all others emptied or not, or of the whole crate where an
        edit changes more than bodies."""
        only = sorted({it.path() for it in self.functions()})
        is_whole = any(not it.functions for it in self.edits)
        asked = [] if is_whole or "" in only else [word for path in only for word in ("--only", path)]
        words = [RATTLE, "check", *self.crate.words(["--jobs", str(jobs)], keeps=False), "--incremental", kept]
        if empties and not is_whole:
            empty_others(self.folder, self.crate.name, self.functions())
            self.texts = {**self.texts, **sources_of(self.folder)}
            # what rests on a hole is checked to its end
            words.append("--allow-holes")
        ran = check_of(self.folder, [*words, *asked])
        # where a path fits no function or several, nothing was looked at
        return check_of(self.folder, words) if ran.status == 2 and asked else ran

    def told(self, ran):
        """What a check says of each edit, by its name, or None where it did not come to the proofs."""
        lines = ran.said.rstrip("\n").split("\n")
        spans = spans_in(self.folder, self.texts)
        if ran.status != 1 or not re.match(r"logic=not-proved|only=|holes=", lines[-1]) or spans is None:
            return {} if ran.status == 0 else None
        if any(is_unread(it, self.texts) or self.breaks_others(it) for it in lines) or STALE.search(ran.said):
            return None
        found = {}
        for line in lines:
            function, what = self.reported(line, spans)
            for edit in self.edits if what else []:
                if function in edit.functions or not edit.functions:
                    found.setdefault(edit.name, set()).add(what)
        return found

    def breaks_others(self, line):
        """Whether a line is an error in proofs/ outside the folders of the edited functions' proofs, as in lemmas that
        rest on a proof that was emptied."""
        error = re.match(r"(?:\./)?proofs/(\S+)\.antt:\d+:\d+: error: ", line)
        if not error or not all(it.functions for it in self.edits):
            return False
        return not any(is_proof_of(os.path.dirname(error[1]), it) for it in self.functions())

    def reported(self, line, spans):
        """The function of which a line reports a goal, if it is one of those that the edits change, and what it
        reports."""
        # a goal that no rule fits, as the condition of a type, has words of its own
        goal = re.match(r"note: (?:\./)?(src/\S+?):(\d+):(\d+): (?:it is not proved|`search` found no proof)", line)
        if goal:
            at = int(goal[2]), int(goal[3])
            within = [it.function for it in spans.get(goal[1], []) if it.start <= at < it.end]
            return within[0] if within else None, OPEN
        answer = re.match(r"(?:\./)?proofs/(\S+)/(?:Answers|Invariants|Proof)\.antt:\d+:\d+: error: (.*)", line)
        if not answer or "was not admitted" in answer[2]:
            return None, None
        what = BY_NAME if re.search(r"has no field|is not in scope|has no `", answer[2]) else BY_TYPE
        own = [it for edit in self.edits for it in edit.functions if is_proof_of(answer[1], it)]
        if len(own) > 1:
            # of several functions in a cycle of calls, whose proof is one, the name of the answer begins with that of
            # the function, and the folder of one that calls itself alone has its name
            by_name = [it for it in own if re.match(rf"`(\w+-)?{it.name}-", answer[2])]
            folder = answer[1].rpartition("/")[2]
            own = by_name or [it for it in own if folder == f"+{it.name}" and not is_in_a_cycle(it, spans)]
        return own[0] if len(own) == 1 else None, what


def is_proof_of(folder, function):
    """Whether a folder of proofs/ holds the proof of a function, or of a cycle of calls that the function may be in."""
    inside, parts = module_of(function.file), folder.split("/")
    block = re.sub(r"^(impl(<.*?>)?|trait) ?", "", function.block)
    of_type = (block.partition(" for ")[2] or block).partition("<")[0].strip()
    if parts[-1].startswith("+"):
        # a cycle of functions, or of methods of one type
        module = inside.split("/") if inside else []
        return parts[:-1] == module or bool(of_type) and parts[:-1] == [*module, of_type]
    if not of_type:
        return folder == (f"{inside}/" if inside else "") + function.name
    return len(parts) > 1 and parts[-1] == function.name and parts[-2].startswith(of_type)


def is_in_a_cycle(function, spans):
    """Whether a function's attribute names a cycle of calls, which it is in with others: such a cycle may have the name
    of one of them."""
    own = [it for it in spans.get(function.file, []) if it.function == function]
    return any(token[3] == "cycle" for it in own for token in it.head)


def is_worth_emptying(crate, edits):
    """Whether so few of a crate's functions are edited that to empty the others costs less than to prove what is
    called."""
    spans = spans_in(crate.folder, sources_of(crate.folder)) or {}
    return 3 * len({it for edit in edits for it in edit.functions}) <= sum(map(len, spans.values()))


def tried(crate, edits, room, jobs):
    """Tries edits of a crate. Returns for each name whether it is refused and what to say, and the processor seconds
    that it took."""
    # each group with whether its copy may have the other functions emptied
    results, groups, number, seconds = {}, [(edits, True)] if edits else [], 0, 0.0
    while groups:
        (group, may_empty), number = groups.pop(), number + 1
        copy = Copy(crate, f"{room}/{number}")
        later = [it for it in group if not copy.takes(it)]
        groups += [(later, True)] if later else []
        empties = may_empty and is_worth_emptying(crate, copy.edits)
        ran, half = copy.check(f"{room}/kept", jobs, empties), len(copy.edits) // 2
        told, seconds = copy.told(ran), seconds + ran.seconds
        shutil.rmtree(copy.folder)
        results.update((name, (True, evidence(what))) for name, what in (told or {}).items())
        # those of which it tells nothing: what they call may be refused beside them
        rest = [it for it in copy.edits if it.name not in results]
        if rest and empties and (told is None or not half):
            groups.append((rest, False))
        elif not half:
            results.update((it.name, (False, UNREACHED if told is None else PROVED)) for it in rest)
        elif len(rest) < len(copy.edits):
            groups += [(rest, may_empty)] if rest else []
        else:
            groups += [(rest[:half], may_empty), (rest[half:], may_empty)]
    return results, seconds


def evidence(found):
    return next(it for it in (OPEN, BY_TYPE, BY_NAME) if it in found)
