#!/usr/bin/env python3
"""Runs the commands of the pages that have some, and compares what they print.

A command is an indented line that begins with `$ `; what it prints stands under it. A fenced block of C whose first line names a file is
that file. A page's commands run one after another in a folder of their own that has the repository's examples, header and library;
./bench-files runs where it stands. With --renew the pages get what was printed.

usage: pages.py [--renew]
"""
import os
import re
import subprocess
import sys
import tempfile
from pathlib import Path

TOP = Path(__file__).resolve().parent.parent
PAGES = [TOP / "README.md", TOP / "docs/SKIPS.md"]
PROGRAMS = [TOP / "rust/tool/target/release", TOP / "rust/target/release/examples"]
PROMPT = "    $ "
NAMED = re.compile(r"^```c\n/\* (\w+\.c)[^\n]*\n.*?^```$", re.M | re.S)


def sources(text, folder):
    """Puts a page's C programs into the folder."""
    for block in NAMED.finditer(text):
        lines = block.group(0).splitlines()
        (folder / block.group(1)).write_text("\n".join(lines[1:-1]) + "\n")


def pieces(text):
    """A page in pieces: text, and commands each with the lines under it."""
    lines = text.split("\n")
    at = 0
    while at < len(lines):
        if not lines[at].startswith(PROMPT):
            yield None, [lines[at]]
            at += 1
            continue
        end = at + 1
        while end < len(lines) and (lines[end] == "" or lines[end].startswith("    ")) and not lines[end].startswith(PROMPT):
            end += 1
        while lines[end - 1] == "":
            end -= 1
        yield lines[at][len(PROMPT):], lines[at + 1:end]
        at = end


def printed(command, folder):
    """What a command prints, on either stream, as lines of a page."""
    path = os.pathsep.join([*map(str, PROGRAMS), os.environ["PATH"]])
    where = TOP if command.startswith("./bench-files") else folder
    ran = subprocess.run(["bash", "-c", command], cwd=where, env={**os.environ, "PATH": path}, stdout=subprocess.PIPE,
                         stderr=subprocess.DEVNULL if where == TOP else subprocess.STDOUT, text=True)
    return [f"    {line}".rstrip() for line in ran.stdout.rstrip("\n").split("\n")] if ran.stdout else []


def run(page, renew):
    """Every command of a page, in its order: how many there are, and how many print something else. With renew the page follows."""
    text = page.read_text()
    faults, commands, renewed = 0, 0, []
    with tempfile.TemporaryDirectory() as name:
        folder = Path(name)
        for shared in ["examples", "include", "target"]:
            (folder / shared).symlink_to(TOP / shared)
        sources(text, folder)
        for command, lines in pieces(text):
            if command is None:
                renewed += lines
                continue
            commands += 1
            found = printed(command, folder)
            renewed += [PROMPT + command, *found]
            if found != lines and not renew:
                faults += 1
                print(f"pages: {page.name}: {command}\n  prints\n" + "\n".join(found) + "\n  and the page has\n" + "\n".join(lines))
    if renew:
        page.write_text("\n".join(renewed))
    return commands, faults


def main():
    """Every page."""
    wrong = False
    for page in PAGES:
        commands, faults = run(page, "--renew" in sys.argv[1:])
        wrong |= faults > 0 or commands == 0
        if commands == 0:
            print(f"pages: {page.name}: no command in it")
        elif faults == 0:
            print(f"pages: {page.name}: {commands} commands, each prints what stands there")
    return 1 if wrong else 0


if __name__ == "__main__":
    sys.exit(main())
