"""What a script can see of README.md and docs/: sizes, lengths of sentences and paragraphs, names of crates, functions
and files, and the columns of docs/ARCHITECTURE.md that follow from crates.txt. Run by itself it writes these anew."""
import glob
import os
import re

import crate_map
from crate_map import ROOT, lines_of

MAP = "docs/ARCHITECTURE.md"
MOST_BYTES = {"README.md": 8192, "docs/DECISIONS.md": 25600, "docs/BENCHMARKS.md": 8192}
MOST_LINES, MOST_WORDS, MOST_CHARACTERS, MOST_ENTRIES, MOST_USERS = {MAP: 260}, 40, 700, 70, 10
FOLDERS = ("bin", "bench", "docs", "examples", "crates", "rows", "tests", ".ci")
LIBRARIES = {name: libraries for _, crates in crate_map.listed() for name, libraries in crates.items()}
# names before `::` that are no crate of the repository: the ports that crates.txt names, and Rust's own
OTHERS = {it for libraries in LIBRARIES.values() for it in libraries} | {"std", "core", "crate"}


def paragraphs_of(lines):
    """The paragraphs, list items, headings and table cells, each with the number of its first line, without code."""
    found, is_code, is_open = [], False, False
    for number, line in enumerate(lines, 1):
        text = line.strip()
        is_code ^= text.startswith("```")
        if is_code or not text or text.startswith(("```", "<!--")) or (line.startswith("    ") and not is_open):
            is_open = False
        elif text.startswith("|"):
            found += [(number, cell.strip()) for cell in re.split(r"(?<!\\)\|", text) if cell.strip(" -:")]
            is_open = False
        elif is_open and not re.match(r"[-*] |\d+\. |#", text):
            found[-1] = found[-1][0], f"{found[-1][1]} {text}"
        else:
            found.append((number, text))
            is_open = not text.startswith("#")
    return found


def long_texts(paragraphs):
    """The sentences and paragraphs that are too long, each with its line. A piece of code is one word of a sentence."""
    for number, text in paragraphs:
        text = re.sub(r"\]\([^)]*\)", "]", text)
        if len(text) > MOST_CHARACTERS:
            yield number, f"a paragraph or cell of {len(text)} characters"
        for sentence in re.split(r"(?<=[.!?])[*)\"]* +(?=[A-Z0-9*\"(\[])", re.sub(r"`[^`]*`", "Code", text)):
            words = len(re.findall(r"\S*\w\S*", sentence))
            if words > MOST_WORDS:
                yield number, f"a sentence of {words} words: {sentence[:50]} .."


def words_of(crate):
    """The identifiers in the sources and the definitions of a crate."""
    found = set()
    for part in ("src", "specs"):
        for name in glob.glob(f"{ROOT}/crates/{crate}/{part}/**/*.*", recursive=True):
            found.update(re.findall(r"[^\W\d][\w-]*", "\n".join(lines_of(os.path.relpath(name, ROOT)))))
    return found


def fault_of_name(code):
    """What is wrong with a piece of code that looks like the path of a name or of a file, if anything."""
    name = re.fullmatch(r"([a-z]\w*)(?:::\w+)*::(\w+|\{[\w, ]+\})(?:\(.*\))?", code)
    if name and name[1] not in LIBRARIES:
        return None if name[1] in OTHERS else f"`{code}`: no crate is named {name[1]}"
    if name:
        lacking = {*re.findall(r"\w+", name[2])} - words_of(name[1])
        return f"`{code}`: {name[1]} has no {', '.join(sorted(lacking))}" if lacking else None
    path = re.match(r"([\w.-]+)/[\w./+-]*(?= |$)", code)
    # a part in capitals, as NAME, stands for any
    if not path or path[1] not in (*FOLDERS, *LIBRARIES) or re.search(r"(^|/)[A-Z]{3,}(/|$)", path[0]):
        return None
    whole = f"{ROOT}/{'crates/' if path[1] in LIBRARIES else ''}{path[0]}".rstrip("/")
    return None if any(os.path.exists(whole + it) for it in ("", ".edit", ".antt")) else f"`{code}`: no such file"


def wrong_names(paragraphs, folder):
    """The names in code and the links that lead nowhere, each with its line."""
    for number, text in paragraphs:
        yield from ((number, fault) for code in re.findall(r"`([^`]+)`", text) if (fault := fault_of_name(code)))
        links = re.findall(r"\]\(([^)#:]+)(?:#[^)]*)?\)", text)
        yield from ((number, f"{it} leads nowhere") for it in links if not os.path.exists(f"{ROOT}/{folder}/{it}"))


def nearest(names, beyond):
    """Of these crates those that are not beyond another of them."""
    return [it for it in names if not any(it in beyond.get(other, []) for other in names)]


def with_columns(row):
    """A line, where it is the row of a crate with what crates.txt says: what it uses, but for what that uses itself,
    and who uses it, or the nearest of many."""
    parts, users = row.split(" | "), {name: [it for it in LIBRARIES if name in LIBRARIES[it]] for name in LIBRARIES}
    crate = parts[0].strip("|` ")
    if crate not in LIBRARIES or len(parts) != 5:
        return row
    used = users[crate] if len(users[crate]) <= MOST_USERS else nearest(users[crate], users)
    more = f" and {len(users[crate]) - len(used)} more" if len(used) < len(users[crate]) else ""
    parts[2] = ", ".join(f"`{it}`" for it in nearest(LIBRARIES[crate], LIBRARIES)) or "std"
    parts[3] = (", ".join(f"`{it}`" for it in used) or "none") + more
    return " | ".join(parts)


def faults():
    """What is wrong with the documents, a line each."""
    found = [f"{MAP}: a row should be: {with_columns(it)}" for it in lines_of(MAP) if it != with_columns(it)]
    for path in ["README.md", *sorted(os.path.relpath(it, ROOT) for it in glob.glob(f"{ROOT}/docs/*.md"))]:
        size, lines = os.path.getsize(f"{ROOT}/{path}"), lines_of(path)
        if size > MOST_BYTES.get(path, size) or len(lines) - 1 > MOST_LINES.get(path, len(lines)):
            found.append(f"{path}: {size} bytes in {len(lines) - 1} lines are too much")
        paragraphs = paragraphs_of(lines)
        told = [*long_texts(paragraphs), *wrong_names(paragraphs, os.path.dirname(path))]
        found += [f"{path}:{number}: {fault}" for number, fault in told]
    entries = sum(line.startswith("- ") for line in lines_of("docs/DECISIONS.md"))
    return found + ([f"docs/DECISIONS.md: more than {MOST_ENTRIES} entries"] if entries > MOST_ENTRIES else [])


if __name__ == "__main__":
    rewritten = "\n".join(map(with_columns, lines_of(MAP)))
    with open(f"{ROOT}/{MAP}", "w", encoding="utf-8") as architecture:
        architecture.write(rewritten)
