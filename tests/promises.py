#!/usr/bin/env python3
"""Keeps docs/PROMISES.md honest.

Every public function stands in its crate's table, with a theorem or an equation and with two edits at least; no function, theorem or edit
stands there that is not in the tree; every edit stands there; and "nothing" is required exactly where there is no `requires`. A method
counts as a function, and so does an `impl` that promises by a ghost member, as `From<Refusal>`.
"""
import re
import sys
from pathlib import Path

TOP = Path(__file__).resolve().parent.parent
FUNCTION = re.compile(
    r"^ *(pub|pub\(crate\)) (?:extern \"C\" )?fn (\w+)[^{]*?(?:\bghost \w+: \{[^{}]*\}\s*)?(\brequires\b|\bensures\b|\{)",
    re.M | re.S,
)
IMPL = re.compile(r"^impl ([\w:<>, ]+) for \w+ \{\n(.*?)^\}", re.M | re.S)
NAME = re.compile(r"`([^`]+)`")


class Crate:
    """What a crate has: its functions, public or its own, those that require something, and its edits."""

    def __init__(self, folder):
        self.name = folder.name
        sources = [file.read_text() for file in sorted((folder / "src").glob("*.rt"))]
        found = [m.groups() for source in sources for m in FUNCTION.finditer(source)]
        promising = {name for source in sources for name, body in IMPL.findall(source) if re.search(r"ghost (from_gives|output) =", body)}
        self.public = {name for access, name, _ in found if access == "pub"} | promising
        self.own = {name for access, name, _ in found if access != "pub"}
        self.asking = {name for _, name, word in found if word == "requires"}
        self.edits = {edit.stem for edit in (folder / "must-fail").glob("*.edit")}


def rows(text):
    """The cells of each table row of a part of the page, but of heads and rules."""
    for line in text.splitlines():
        if line.startswith("| `"):
            yield [cell.strip() for cell in line.strip()[1:-1].split("|")]


def faults_of(crate, text, theorems):
    """What the page says wrongly or leaves out of one crate's functions."""
    seen = set()
    for cells in rows(text):
        names = NAME.findall(cells[0])
        if crate.name == "rules" and len(cells) == 3:
            yield from (f"there is no edit {name}" for name in names if name not in crate.edits)
            continue
        public = len(cells) == 5
        known = crate.public if public else crate.own
        yield from (f"{name} is no {'public function' if public else 'function of its own'}" for name in names if name not in known)
        shuts = cells[3] if public else cells[2]
        edits = [name for part in re.findall(r"\(([^()]*)\)", shuts) for name in NAME.findall(part)]
        yield from (f"{names[0]}: there is no edit {name}" for name in edits if name not in crate.edits)
        for name in names:
            seen.add(name)
            if (cells[-1] == "nothing") == (name in crate.asking):
                yield f"{name}: what is required is not what its contract says"
        if public and len(set(edits)) < 2:
            yield f"{names[0]}: fewer than two edits"
        if public and cells[2] != "equation" and cells[2].strip("`") not in theorems:
            yield f"{names[0]}: there is no theorem {cells[2]}"
    yield from (f"{name} is public and not on the page" for name in sorted(crate.public - seen))


def main():
    """All faults of the page, a line each."""
    page = (TOP / "docs/PROMISES.md").read_text()
    parts = re.split(r"^### (\w+)$", page, flags=re.M)
    sections = dict(zip(parts[1::2], parts[2::2]))
    crates = [Crate(folder) for folder in sorted((TOP / "crates").iterdir())]
    proofs = "".join(file.read_text() for file in (TOP / "crates").glob("*/proofs/**/*.antt"))
    theorems = set(re.findall(r"^ *pub (\S+) :", proofs, re.M))
    everywhere = {name.split("/")[-1] for name in NAME.findall(page)}
    faults = [f"{crate.name}: {fault}" for crate in crates for fault in faults_of(crate, sections.get(crate.name, ""), theorems)]
    faults += [f"{crate.name}: the edit {edit} is not on the page" for crate in crates for edit in sorted(crate.edits - everywhere)]
    edits = {f"{crate.name}/{edit}" for crate in crates for edit in crate.edits}
    faults += [f"there is no edit {name}" for name in NAME.findall(page) if re.fullmatch(r"\w+/\w+", name) and name not in edits]
    for fault in faults:
        print(f"promises: {fault}")
    if not faults:
        print(f"promises: {sum(len(c.public) for c in crates)} public functions and {len(edits)} edits, each on the page")
    return 1 if faults else 0


if __name__ == "__main__":
    sys.exit(main())
