#!/usr/bin/env python3
"""Runs the program on folders with set.bin and text.bin and compares what it prints with what document 01 says.

usage: program_runs.py PROGRAM
"""
import subprocess
import sys
import tempfile
from pathlib import Path


def record(word, energy):
    """A keyword's record of 20 bytes."""
    return bytes([len(word)]) + word + bytes(15 - len(word)) + energy.to_bytes(4, "little")


def old_record(word, energy):
    """The 18 bytes that a record had when its energy was two bytes."""
    return record(word, energy)[:18]


def lines(hits):
    """The lines of the first 4,096 hits."""
    return "".join(f"{end} {keyword}\n" for end, keyword in hits[:4096])


MOST = 4294967295
W = record(b"LM", 40) + record(b"ALM", 55) + record(b"LMLA", 90)
A = record(b"A", MOST)
SET_OF_65 = b"".join(record(bytes([i]), MOST - i) for i in range(65))

# A, AA and so on to 15 letters, and their hits in letters A: at an end every keyword that is not longer than the text
# up to there. The first 15 letters have one question each, each later one two: 15 letters cannot grow, and 14 can.
NESTED = b"".join(record(b"A" * n, MOST) for n in range(1, 16))
NESTED_HITS = [(end, n - 1) for end in range(1, 16385) for n in range(min(end, 15), 0, -1)]

# name, set.bin, text.bin (None: the file is missing), what is printed
RUNS = [
    ("case (b)", W, b"ALMLALM", "count 5 energy 280 questions 9\n3 1\n3 0\n5 2\n7 1\n7 0\n"),
    ("empty text", W, b"", "count 0 energy 0 questions 0\n"),
    ("empty set", b"", b"A", "refusal 1 0\n"),
    ("set of 19 bytes", A[:19], b"A", "refusal 2 0\n"),
    ("set of 21 bytes", A + b"\0", b"A", "refusal 2 0\n"),
    ("64 records", SET_OF_65[:1280], b"\x00\x3f", "count 2 energy 8589934527 questions 3\n1 0\n2 63\n"),
    ("set of 1,279 bytes", SET_OF_65[:1279], b"", "refusal 2 0\n"),
    ("set of 1,281 bytes", SET_OF_65[:1281], b"", "refusal 2 0\n"),
    ("65 records", SET_OF_65, b"", "refusal 3 0\n"),
    ("3 records of 18 bytes", old_record(b"LM", 40) + old_record(b"ALM", 55) + old_record(b"LMLA", 90), b"ALMLALM",
     "refusal 2 0\n"),
    ("10 records of 18 bytes, read as 9 of 20", b"".join(old_record(b"L%c" % i, 1) for i in range(65, 75)), b"LA",
     "refusal 4 1\n"),
    ("length 16 in record 1", A + b"\x10" + bytes(19), b"A", "refusal 4 1\n"),
    ("padding in record 2", W[:40] + b"\x01A\x01" + bytes(17), b"A", "refusal 5 2\n"),
    ("the same keyword twice", A + record(b"A", 1), b"A", "refusal 6 1\n"),
    ("no set", None, b"A", "input\n"),
    ("no text", A, None, "input\n"),
    ("neither", None, None, "input\n"),
    ("set of 16,384 bytes", bytes(16384), b"A", "refusal 2 0\n"),
    ("set of 16,385 bytes", bytes(16385), b"A", "input\n"),
    ("text of 16,384 bytes", record(b"B", 2), b"A" * 16383 + b"B", "count 1 energy 2 questions 16384\n16384 0\n"),
    ("text of 16,385 bytes", A, b"A" * 16385, "input\n"),
    ("4,096 hits", A, b"A" * 4096,
     "count 4096 energy 17592186040320 questions 8191\n" + lines([(end, 0) for end in range(1, 4097)])),
    ("5,000 hits", A, b"A" * 5000,
     "count 5000 energy 21474836475000 questions 9999\n" + lines([(end, 0) for end in range(1, 5001)])),
    ("15 keywords at almost every end", NESTED, b"A" * 16384,
     "count 245655 energy 1055080190853225 questions 32753\n" + lines(NESTED_HITS)),
    ("energy byte 16", b"\x01A" + bytes(14) + b"\1\0\0\0", b"A", "count 1 energy 1 questions 1\n1 0\n"),
    ("energy byte 17", b"\x01A" + bytes(14) + b"\0\1\0\0", b"A", "count 1 energy 256 questions 1\n1 0\n"),
    ("energy byte 18", b"\x01A" + bytes(14) + b"\0\0\1\0", b"A", "count 1 energy 65536 questions 1\n1 0\n"),
    ("energy byte 19", b"\x01A" + bytes(14) + b"\0\0\0\1", b"A", "count 1 energy 16777216 questions 1\n1 0\n"),
]


def main():
    program = Path(sys.argv[1]).resolve()
    wrong = 0
    for name, keywords, text, expected in RUNS:
        with tempfile.TemporaryDirectory() as folder:
            for file, data in (("set.bin", keywords), ("text.bin", text)):
                if data is not None:
                    (Path(folder) / file).write_bytes(data)
            run = subprocess.run([program], cwd=folder, capture_output=True, timeout=60)
        printed = run.stdout.decode("latin-1")
        if printed != expected or run.returncode != 0 or run.stderr:
            wrong += 1
            print(f"{name}: expected {expected[:200]!r}, printed {printed[:200]!r}, status {run.returncode}")
    print(f"program: {len(RUNS) - wrong} runs right, {wrong} wrong")
    return 1 if wrong else 0


if __name__ == "__main__":
    sys.exit(main())
