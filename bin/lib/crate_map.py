"""The map of the crates: the groups in crates.txt and the tables of docs/ARCHITECTURE.md, which have to agree."""
import os
import re

ROOT = os.path.dirname(os.path.dirname(os.path.dirname(os.path.realpath(__file__))))


def lines_of(path):
    with open(f"{ROOT}/{path}", encoding="utf-8") as it:
        return it.read().split("\n")


def listed():
    """The groups of crates.txt in order, each with its crates and what they stand on."""
    groups = []
    for line in lines_of("crates.txt")[1:]:
        group, crate = re.fullmatch(r"# ([\w ]+: .*)", line), re.match(r"(\w+)[^:]*:(.*)", line)
        if group:
            groups.append((group[1].lower(), {}))
        elif crate and groups:
            groups[-1][1][crate[1]] = crate[2].split()
    return groups


def drawn():
    """The groups of the tables in docs/ARCHITECTURE.md in order, each with its crates."""
    groups = []
    for line in lines_of("docs/ARCHITECTURE.md"):
        group, crate = re.fullmatch(r"### ([\w ]+: .*)", line), re.match(r"\| `(\w+)` \|", line)
        if group:
            groups.append((group[1].lower(), []))
        elif line.startswith("## "):
            break
        elif crate and groups:
            groups[-1][1].append(crate[1])
    return groups


def faults():
    """What is wrong with the map, a line each."""
    groups, found, above = listed(), [], set()
    names = [name for _, crates in groups for name in crates]
    for _, crates in groups:
        for name, libraries in crates.items():
            late = [it for it in libraries if it in names and it not in above]
            found += [f"crates.txt: {name} stands on {it}, which is not above it" for it in late]
            above.add(name)
    folders = {it for it in os.listdir(f"{ROOT}/crates") if os.path.isdir(f"{ROOT}/crates/{it}")}
    found += [f"crates.txt has {it} in no group, or it has no folder" for it in sorted(folders ^ above)]
    for (group, crates), (heading, rows) in zip(groups, drawn()):
        if (group, [*crates]) != (heading, rows):
            found.append(f"docs/ARCHITECTURE.md: its table of '{heading}' is not the group '{group}' of crates.txt")
    if len(groups) != len(drawn()):
        found.append("docs/ARCHITECTURE.md has more or fewer groups than crates.txt")
    return found
