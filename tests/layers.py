#!/usr/bin/env python3
"""Holds the crates to what one may know of another: no crate cites `Laws` of crate job, nor another's `Pass` or `CoverPass`.

Other crates' definitions and theorems may be cited. What a `#[tactic(..)]` line of the source cites is looked at, too. (That a crate
cites only crates below it is for `rt`, by crates.txt.)

    layers.py [FOLDER]     another tree, to see that a wrong one is caught
"""
import re
import sys
from pathlib import Path

TOP = Path(__file__).resolve().parent.parent
PRIVATE = re.compile(r"\bRattle\.(?:(job)\.specs\.Laws|(\w+)\.specs\.\w*Pass)\b|\b(job)::specs::Laws\b|\b(?!crate::)(\w+)::specs::\w*Pass\b")


def main(words):
    crates = Path(words[0] if words else TOP) / "crates"
    files = sorted(file for part in ("src", "specs", "proofs") for kind in ("antt", "rt") for file in crates.glob(f"*/{part}/**/*.{kind}"))
    found = [f"{file.relative_to(crates.parent)}:{number}: {line.strip()}"
             for file in files for number, line in enumerate(file.read_text().split("\n"), 1)
             for cited in PRIVATE.finditer(line) if next(filter(None, cited.groups())) != file.relative_to(crates).parts[0]]
    print(*found, sep="\n", end="\n" if found else "")
    print(f"layers: {len(files)} files, {len(found)} lines that cite what is another crate's own")
    return 1 if found or not files else 0


if __name__ == "__main__":
    sys.exit(main(sys.argv[1:]))
