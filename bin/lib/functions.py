"""The functions of a crate's source files: where they stand, and what is left of a crate when the others are
emptied."""
import bisect
import json
import os
import re
import shutil
import subprocess
from dataclasses import dataclass

from toolchain import RATTLE, files_of, text_of

EMPTY = "{ loop {} }"


def module_of(file):
    """The module that a source file is, as a path by slashes: nothing for the crate's root."""
    inside = file.removeprefix("src/").removesuffix(".rt")
    return "" if inside in ("lib", "main") else inside


@dataclass(frozen=True)
class Function:
    """A function of a source file, by the header of the block that it stands in, its name, and which of that name there
    it is."""

    file: str
    block: str
    name: str
    number: int

    def of_type(self):
        """The type whose method it is, if it is one that no trait names."""
        found = re.fullmatch(r"impl(<.*?>)? ?(\w+)( ?<.*>)?", self.block)
        return found[2] if found else None

    def path(self):
        """Its path for `rattle check --only`. A method has its type's path, which may stand in another module; one of a
        trait's impl is asked for with its module."""
        place = module_of(self.file).split("/") if module_of(self.file) else []
        if not self.block:
            return "::".join([*place, self.name])
        return f"{self.of_type()}::{self.name}" if self.of_type() else "::".join(place)


@dataclass
class Span:
    """Where a function stands in its file, by line and column, from what follows the item before it to its last brace;
    its tokens before its body, and the bytes of that."""

    function: Function
    start: tuple
    end: tuple
    head: list
    body: tuple

    def text(self, whole):
        """The lines of the file's text in which the function stands."""
        return "\n".join(whole.split("\n")[self.start[0] - 1 : self.end[0]])


def tokens_of(folder, files):
    """The tokens of the files that are code, and the ends of clauses, for each file: the byte where each begins and
    ends, its kind and its text."""
    if not files:
        return {}
    ran = subprocess.run([RATTLE, "fmt", "--tokens", *files], cwd=folder, capture_output=True, text=True)
    parts = re.split(r"(?m)^file \d+\n", ran.stdout)[1:]
    if ran.returncode or len(parts) != len(files):
        return None
    row = re.compile(r'(?m)^\d+ (\d+) (\d+) (Code|Head|End|Literal) (".*")$')

    def token(found):
        return int(found[1]), int(found[2]), found[3], json.loads(found[4])

    return {file: [token(it) for it in row.finditer(part)] for file, part in zip(files, parts)}


def places(text):
    """A function from a byte of the text to its line and column, both from 1."""
    lines, at = [0], 0
    for line in text.split("\n"):
        at += len(line.encode()) + 1
        lines.append(at)
    data = text.encode()

    def place(byte):
        line = bisect.bisect_right(lines, byte)
        return line, len(data[lines[line - 1] : byte].decode(errors="replace")) + 1

    return place


def closing(tokens, at):
    """The place of the brace that closes the one at this place."""
    depth = 0
    for place in range(at, len(tokens)):
        _, _, kind, text = tokens[place]
        depth += (text == "{") - (text == "}") if kind == "Code" else 0
        if depth == 0:
            return place
    return len(tokens) - 1


def body_of(tokens, at):
    """The place of the brace that opens the body of the function whose name stands here, or of the semicolon in its
    place."""
    depth = 0
    for place in range(at, len(tokens)):
        _, _, kind, text = tokens[place]
        if kind == "Code":
            depth += (text in "([") - (text in ")]")
            if depth == 0 and text in "{;":
                return place
    return len(tokens) - 1


def code_of(tokens):
    return [it[3] for it in tokens if it[2] == "Code"]


def spans_of(file, text, tokens):
    """Where the functions of a file stand."""
    place, spans, counts = places(text), [], {}
    block, block_ends, after, at, ended = "", -1, 0, 0, 0
    while at < len(tokens):
        start, _, kind, word = tokens[at]
        if at > block_ends:
            block = ""
        if kind == "Code" and word in ("impl", "trait") and not block:
            opens = body_of(tokens, at)
            block = re.sub(r" ?([<>:,&]) ?", r"\1", " ".join(code_of(tokens[at:opens]))).replace(">", "> ").strip()
            block_ends, at = closing(tokens, opens), opens
            after, ended = tokens[opens][1], opens
        elif kind == "Code" and word == "fn" and re.fullmatch(r"\w+", tokens[at + 1][3]):
            name, opens = tokens[at + 1][3], body_of(tokens, at)
            ends = closing(tokens, opens) if tokens[opens][3] == "{" else opens
            number = counts[block, name] = counts.get((block, name), -1) + 1
            body = (tokens[opens][0], tokens[ends][1]) if ends > opens else None
            head = [it for it in tokens[ended + 1 : opens] if it[2] == "Code"]
            spans.append(Span(Function(file, block, name, number), place(after), place(tokens[ends][1]), head, body))
            after, at, ended = tokens[ends][1], ends, ends
        elif kind == "Code" and word in "};":
            after, ended = tokens[at][1], at
        at += 1
    return spans


def spans_in(folder, texts):
    """Where the functions of these source files stand, by file, or None where one is no code."""
    files = [it for it in texts if it.startswith("src/")]
    tokens = tokens_of(folder, files)
    return None if tokens is None else {file: spans_of(file, texts[file], tokens[file]) for file in files}


def sources_of(folder):
    """The texts of a crate's source files, by their path in its folder."""
    files = [os.path.relpath(it, folder) for it in files_of(folder) if it.endswith(".rt")]
    return {it: text_of(f"{folder}/{it}") for it in files}


class Functions:
    """The functions of a crate, and which of them can be emptied beside others that are kept: as many as can be, but
    for cycles of calls that those are in."""

    def __init__(self, folder):
        self.folder, self.texts, self.cycles = folder, sources_of(folder), {}
        self.spans = spans_in(folder, self.texts) or {}
        types = {file: re.findall(r"\b(?:struct|enum|union) (\w+)", text) for file, text in self.texts.items()}
        self.homes = {name: module_of(file) for file, names in types.items() for name in names}

    def place_of(self, function):
        """The folder below proofs/ in which the folder of a function's proof stands, or None for a function of a
        trait."""
        of_type = function.of_type()
        if function.block and of_type not in self.homes:
            return None
        return "/".join(it for it in (self.homes[of_type] if of_type else module_of(function.file), of_type) if it)

    def proof_of(self, function):
        """The folder below proofs/ for a function's own proof."""
        return "/".join(it for it in (self.place_of(function), function.name) if it)

    def cycle_of(self, span):
        """The folder below proofs/ for the proof of the cycle of calls that a function is in, if it is in one."""
        if span.function not in self.cycles:
            self.cycles[span.function] = self.found_cycle(span)
        return self.cycles[span.function]

    def found_cycle(self, span):
        place, words = self.place_of(span.function), [it[3] for it in span.head]
        named = {words[at + 2] for at, word in enumerate(words) if word == "cycle"} or {span.function.name}
        # one of methods and what they pass on stands beside their type
        for folder in {place, os.path.dirname(place)} if place is not None else ():
            at = f"{self.folder}/proofs/{folder}"
            cycles = [it for it in os.listdir(at) if it.startswith("+")] if os.path.isdir(at) else []
            found = [it for it in cycles if named & {*re.split(r"[+-]", it)}]
            if found:
                return "/".join(it for it in (folder, found[0]) if it)
        return None

    def emptied_beside(self, kept):
        """The functions that can be emptied beside these: none of a trait, nor one whose type its body says, nor one
        without a body. They are given as spans, by file."""
        own = [span for spans in self.spans.values() for span in spans if span.function in kept]
        cycles = {self.cycle_of(span) for span in own} - {None}

        def can_be_emptied(span):
            words = [it[3] for it in span.head]
            answered = words[words.index("->") :] if "->" in words else []
            is_kept = span.function in kept or self.cycle_of(span) in cycles
            if is_kept or not span.body or self.place_of(span.function) is None:
                return False
            return "impl" not in answered and not {"const", "test"} & {*words}

        return {file: [span for span in spans if can_be_emptied(span)] for file, spans in self.spans.items()}

    def left_beside(self, kept):
        """What a wrong body of one of these functions rests on in its crate: the sources without the bodies of those
        that can be emptied, by file, and the folders of proofs of the latter."""
        emptied, texts, folders = self.emptied_beside(kept), dict(self.texts), set()
        for file, spans in emptied.items():
            data = texts[file].encode()
            for start, end in sorted((span.body for span in spans), reverse=True):
                data = data[:start] + data[end:]
            texts[file] = data.decode()
            folders.update(self.proof_of(span.function) for span in spans)
            folders.update(self.cycle_of(span) for span in spans)
        return texts, folders - {None}


class Emptying:
    """What is emptied in a copy of a crate."""

    def __init__(self, folder, crate_name, kept):
        self.folder, self.crate_name, self.kept, self.functions = folder, crate_name, kept, Functions(folder)

    def empty(self, span):
        """Leaves a hole of a function's proof, and returns what of its file's bytes is replaced, and by what, the last
        first."""
        at, cycle = self.functions.proof_of(span.function), self.functions.cycle_of(span)
        own = f"{self.folder}/proofs/{at}"
        if cycle:
            # the functions of a cycle have one proof
            shutil.rmtree(f"{self.folder}/proofs/{cycle}", ignore_errors=True)
        os.makedirs(own, exist_ok=True)
        for answers in {"Answers.antt", "Invariants.antt"} & {*os.listdir(own)}:
            os.remove(f"{own}/{answers}")
        with open(f"{own}/Proof.antt", "w", encoding="utf-8") as it:
            name, module = span.function.name, f"Rattle.{self.crate_name}.proofs.{at.replace('/', '.')}"
            it.write(f"use {module}.Statement.{{statement}}\n\n")
            it.write(f"pub {name}_spec : {{M : Type 1}} → statement M\n{name}_spec = ?\n")
        attributes = [place for place, it in enumerate(span.head) if it[3] == "cycle"]
        # from its # to its ]
        return [(*span.body, EMPTY), *((span.head[it - 2][0], span.head[it + 4][1], "") for it in attributes)]

    def run(self):
        for file, emptied in self.functions.emptied_beside(self.kept).items():
            data = self.functions.texts[file].encode()
            for start, end, text in sorted((it for span in emptied for it in self.empty(span)), reverse=True):
                data = data[:start] + text.encode() + data[end:]
            with open(f"{self.folder}/{file}", "wb") as it:
                it.write(data)


def empty_others(folder, crate_name, kept):
    """Empties the functions of a copy of a crate but for these: what is proved of one function rests on the contracts
    of others, and not on their bodies or proofs."""
    Emptying(folder, crate_name, kept).run()
