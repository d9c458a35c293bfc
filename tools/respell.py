#!/usr/bin/env python3
"""Brings the repository's own names to today's spelling: words in snake case, a dash between two names alone.

usage: python3 tools/respell.py      at the top of the repository, once, after the kit's port.py

A definition, lemma, field, constructor or variable in camel case gets underscores. In a lemma's name a dash stays before the name of a
definition, as in `byte_file-length`, and is an underscore before a plain word, as in `rows_most`; it stays too where the name with an
underscore is taken. Names of types and modules stay, and so do those of src/, and single capitals, which are opcodes.
It turns the code of .antt files, clauses and comments of .rt files, edits, and code spans of pages.
"""
import collections
import re
import subprocess
import sys
from pathlib import Path

TOP = Path(subprocess.run(["git", "rev-parse", "--show-toplevel"], capture_output=True, text=True, check=True).stdout.strip())
WORD = re.compile(r"[^\s(){}\[\].;,@\"«»`|]+")
DECLARED = re.compile(r"^( *)((?:(?:pub|unfoldable|abbrev|record|data) +)*)([^\s(){}.;,@\"«»:]+)(?: +[({][^)}]*[)}])* : ?(.*)$")
CAMEL = re.compile(r"[a-z][\w']*[A-Z][\w']*(?:-[\w']+)*|[a-z_']+(?:-[\w']*[a-z][A-Z][\w']*)+")
SPAN = re.compile(r"`[^`\n]+`")

# names of lists that a lemma of ours is about
LISTS = set("length append take drop reverse set map replicate get_or cond min max flat_map paste nil".split())
# where the rule reads badly, and lemmas that port.py gave the name that a definition gets
CHOSEN = {
    "no-key-no-keyword": "no_key_no_keyword",
    "no-keyword-no-key": "no_keyword_no_key",
    "rows_told": "rows-told",
    "cells_at": "cells-at",
    "half_at": "half-at",
}


def snake(name):
    name = name.replace("getD", "get_or").replace("get_d", "get_or")
    return re.sub(r"(?<=[a-z0-9])([A-Z])", lambda m: "_" + m[1].lower(), name)


def antt_files():
    for part in ("specs", "proofs"):
        yield from sorted(TOP.glob(f"crates/*/{part}/**/*.antt"))


def declarations():
    """Each declared name with where it stands: the file, the words before it, its indentation and the head of its type."""
    found = collections.defaultdict(list)
    for file in antt_files():
        for line in file.read_text().splitlines():
            m = DECLARED.match(line)
            if m and not line.lstrip().startswith("--"):
                found[m[3]].append((file, m[2], len(m[1]), m[4]))
    return found


def fields():
    """The fields of records."""
    names = set()
    for file in antt_files():
        inside = None
        for line in file.read_text().splitlines():
            depth = len(line) - len(line.lstrip())
            if re.match(r" *(?:pub +)?record .*where$", line):
                inside = depth
            elif inside is not None and line.strip() and depth <= inside:
                inside = None
            m = DECLARED.match(line)
            if inside is not None and m:
                names.add(m[3])
    return names


def definitions(found):
    """Names that a dash may stand before: those of definitions, and of lists."""
    names = set(LISTS)
    for name, places in found.items():
        for file, words, indent, _ in places:
            if "-" not in name and name[0].islower() and ("unfoldable" in words or "abbrev" in words):
                names.add(snake(name))
    return names


def table():
    """Each old name with its new one."""
    found = declarations()
    names = definitions(found)
    turned = {}
    for name, places in found.items():
        made = all(type.startswith(("tie.", "goal.")) for _, _, _, type in places)
        if name[0].isupper() or made:
            continue
        parts = snake(name).split("-")
        new = CHOSEN.get(name) or parts[0] + "".join(("-" if p in names else "_") + p for p in parts[1:])
        if new != name:
            turned[name] = new
    taken = collections.Counter(turned.values())
    for name, new in list(turned.items()):
        if "-" in name and (taken[new] > 1 or new in found and new not in turned):
            if snake(name) == name:
                del turned[name]
            else:
                turned[name] = snake(name)
    clash = [n for n, k in collections.Counter(list(turned.values()) + [n for n in found if n not in turned]).items() if k > 1]
    if clash:
        sys.exit(f"respell: names fall together: {clash}")
    return turned


def turn(text, turned):
    """The text with each word of the table turned. Behind a dot a word with a dash is a field of ours or a name that Rattle makes."""

    def one(m):
        word = m[0]
        if text[m.start() - 1 : m.start()] == "." and "-" in word and word not in FIELDS:
            return word
        if word in turned:
            return turned[word]
        return snake(word) if CAMEL.fullmatch(word) else word

    return WORD.sub(one, text)


def antt(text, turned):
    out = []
    for line in text.splitlines(keepends=True):
        code, mark, note = line.partition("--") if line.lstrip().startswith("--") else (line, "", "")
        out.append(turn(code, turned) + mark + SPAN.sub(lambda m: turn(m[0], turned), note))
    return "".join(out)


def rust(text, turned):
    """Clauses and ghost imports, from `requires`, `ensures` or `ghost use` to the line that ends them; code spans of comments."""
    out, inside = [], False
    for line in text.splitlines(keepends=True):
        head = line.lstrip()
        if head.startswith("//"):
            out.append(SPAN.sub(lambda m: turn(m[0], turned), line))
            continue
        if head.startswith(("requires", "ensures", "ghost use")):
            inside = True
        out.append(turn(line, turned) if inside else line)
        if inside and (line.rstrip().endswith(("}", ";"))):
            inside = False
    return "".join(out)


def edit(text, turned):
    """An edit of definitions, or of clauses, as those are turned; one of code stays."""
    if ".antt" in text:
        return "".join(turn(line, turned) if line.startswith(("old:", "new:")) else line for line in text.splitlines(keepends=True))
    return text


FIELDS = fields()


def main():
    turned = table()
    pages = sorted(TOP.glob("*.md")) + sorted(TOP.glob("docs/*.md"))
    work = [(p, antt) for p in antt_files()]
    work += [(p, rust) for p in sorted(TOP.glob("crates/*/src/**/*.rt"))]
    work += [(p, edit) for p in sorted(TOP.glob("crates/*/must-fail/*.edit"))]
    work += [(p, lambda t, it: SPAN.sub(lambda m: turn(m[0], it), t)) for p in pages]
    changed = 0
    for file, how in work:
        old = file.read_text()
        new = how(old, turned)
        if new != old:
            file.write_text(new)
            changed += 1
    print(f"respell: {len(turned)} names, {changed} files")


main()
