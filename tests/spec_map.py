#!/usr/bin/env python3
"""Holds docs/SPEC-MAP.md to the tree: each path that a row names is there, and each name stands in the file before it.

A row has files in back quotes, and behind a file, after a colon or in brackets, the names that it means. A path without `crates/`, `tests/` ..
is below a crate that the section's title names. A folder may stand before a colon: the names behind it are files of it.
"""
import re
import sys
from pathlib import Path

TOP = Path(__file__).resolve().parent.parent
MAP = TOP / "docs" / "SPEC-MAP.md"
PATH = re.compile(r"^[\w./-]+(\.(antt|rt|edit|py|h|c|job|plan)|/[\w-]*)$|^(stdin|stdout)$")


def place(word, crates, folder):
    """The file or folder that a word names, or None."""
    below = [TOP, *(TOP / "crates" / crate for crate in crates), *([folder] if folder else [])]
    return next((base / word for base in below if (base / word).exists()), None)


def row(text, crates, tally):
    """What is wrong with a row's second half; `tally` counts the files and the names that were looked for."""
    at, folder = None, None
    for before, word in re.findall(r"([^`]*)`([^`]+)`", text):
        if PATH.match(word) or word.endswith(".antt"):
            at = place(word, crates, folder)
            tally["files"] += 1
            if at is None:
                yield f"`{word}` is not there"
            else:
                folder = at if at.is_dir() else at.parent
        elif re.fullmatch(r"(: |, | \(|: one line |.* and )", before) and at is not None and at.is_file():
            tally["names"] += 1
            if not re.search(rf"(?<![\w-]){re.escape(word)}(?![\w-])", at.read_text()):
                yield f"`{word}` is not in {at.relative_to(TOP)}"


def main():
    found, rows, crates, tally = [], 0, [], {"files": 0, "names": 0}
    for number, line in enumerate(MAP.read_text().split("\n"), 1):
        if line.startswith("#"):
            crates = [name for name in re.findall(r"`(\w+)`", line) if (TOP / "crates" / name).is_dir()]
        cells = line.split(" | ")
        if line.startswith("| ") and len(cells) > 1:
            rows += 1
            found += [f"docs/SPEC-MAP.md:{number}: {trouble}" for trouble in row(cells[-1].removesuffix(" |"), crates, tally)]
    print(*found, sep="\n", end="\n" if found else "")
    print(f"spec map: {rows} rows, {tally['files']} files, {tally['names']} names: {len(found)} do not stand")
    return 1 if found or not tally["names"] else 0


if __name__ == "__main__":
    sys.exit(main())
