#!/usr/bin/env python3
"""Respells the repository's own definitions and lemmas as this Rattle spells names: words in snake case, a dash only between two names.

usage: tools/respell.py [--list]        once, after port.py, at the top of the repository

A name that is declared in specs/ or proofs/ of a crate and begins with a small letter loses its humps (`planCall`, `plan_call`), and each dash of it
that does not stand between two functions on lists (`filled-past`, `filled_past`; `map-upto-at`, `map-upto_at`). Names of goals stay: the check makes
them. --list prints the names that would change, and changes nothing. Two names that would fall together, or fall on a name that is used
already, are printed, and nothing is changed.
"""
import glob
import re
import sys

SKIP = {"where", "module", "data", "record", "use", "mod", "pub", "open", "let", "in", "elim", "infix", "infixl", "infixr", "unfolding"}
# functions on lists, of the library and of crate base: between two of them a dash stays
FUNCTIONS = set("""length append map flat_map filter drop take set sets get_or replicate min max sum values upto filled greatest smallest
concat any not""".split())
TOKEN = re.compile(r"[^\s(){}\[\],.;\"«»`:@]+")
DECLARED = re.compile(r"^[ \t]*((?:(?:pub|abbrev|unfoldable|data|record|ruleset)[ \t]+)*)([^\s(){}\[\],.;\"«»`:=]+)(?:[ \t]+(?:[({][^=\n]*))?[ \t]*(?::(?!\S)|$)", re.M)


def texts():
    return sorted(glob.glob("crates/*/specs/**/*.antt", recursive=True) + glob.glob("crates/*/proofs/**/*.antt", recursive=True))


def read(f):
    with open(f, encoding="utf-8") as h:
        return h.read()


def declared():
    """Names, and those among them that are words: definitions that unfold, types and constructors."""
    names, words, goals = {}, set(), set()
    for f in texts():
        text = read(f)
        for m in DECLARED.finditer(text):
            head, name = m.group(1).split(), m.group(2)
            if name in SKIP or not re.match(r"[^\W\d_]", name):
                continue
            line = text[m.start():text.find("\n", m.end())]
            if not re.search(r"(?<!\S):(?!\S)", line):
                continue
            if f.split("/")[2] == "proofs" and re.search(r":\s+(tie|goal)\.", line):
                goals.add(name)
                continue
            names.setdefault(name, f)
            if {"abbrev", "unfoldable", "data", "record"} & set(head):
                words.add(name)
    return names, words, goals


def humps(part):
    """planCall as plan_call; a type's name keeps its capital."""
    if not re.match(r"[a-z]", part):
        return part
    return re.sub(r"(?<=[a-z0-9])([A-Z])", lambda m: "_" + m.group(1).lower(), part)


def turned(name):
    parts = name.split("-")
    new = humps(parts[0])
    for a, b in zip(parts, parts[1:]):
        between = a in FUNCTIONS and b in FUNCTIONS
        new += ("-" if between else "_") + humps(b)
    return new


# where a name would fall on another of its own scope, or read as another
BY_HAND = {
    "byMove": "sum_by_move", "first_edge": "its_first_edge", "in-range": "in_range_lem", "out-of": "out_of_lem", "parts-of": "parts_of_test",
    "row-of": "row_of_lem", "byNumber": "in_number_order", "inOrder": "in_given_order", "laidOut": "laid_out_call", "readAs": "reading_as",
    "heldIn": "job_held_in", "tooMany": "is_too_many", "tooEarly": "too_early_number", "tooShort": "is_too_short",
    "last-edge": "its_last_edge", "pair-at": "pair_at_lem", "start-at": "start_at_lem", "byWeight": "tasks_by_weight",
    "withResults": "job_with_results", "someIn": "some_in_places", "asDrawn": "as_drawn_call",
}


def table():
    names, words, goals = declared()
    moved = {}
    for name in names:
        new = BY_HAND.get(name) or (turned(name) if re.match(r"[a-z]", name) or "-" in name else name)
        if new != name and name not in goals:
            moved[name] = new
    used = set()
    for f in texts():
        used |= set(TOKEN.findall(re.sub(r"--[^\n]*|\.[^\s(){}\[\],.;:]+", " ", read(f))))
    for name in sorted(names):
        if name not in moved and name in set(moved.values()) and name not in words and BY_HAND.get(name) is None:
            moved[name] = name + "_lem"
    together = []
    to = {}
    for a, b in sorted(moved.items()):
        if b in to:
            c = to[b]
            if (a in words) != (c in words):
                lemma = c if a in words else a
                moved[lemma] = b + "_lem"
                to[b + "_lem"] = lemma
                if lemma == c:
                    to[b] = a
                continue
            together.append((a, c, b))
        to[b] = a
    for a, b in sorted(moved.items()):
        if b in used and b not in moved:
            together.append((a, "in use", b))
    return moved, together


def main(words):
    moved, together = table()
    if "--list" in words:
        for a, b in sorted(moved.items()):
            print(a, b)
    for line in together:
        print("together:", *line)
    if "--list" in words:
        return 0
    if together:
        return 1
    swap = lambda text: TOKEN.sub(lambda m: moved.get(m.group(0), m.group(0)), text)
    for f in texts() + sorted(glob.glob("crates/*/src/**/*.rt", recursive=True)) + sorted(glob.glob("crates/*/must-fail/*.edit")):
        old = read(f)
        new = swap(old) if not f.endswith(".rt") else "".join(p if i % 2 else swap(p) for i, p in enumerate(re.split(r'("(?:[^"\\\n]|\\.)*")', old)))
        if new != old:
            with open(f, "w", encoding="utf-8") as h:
                h.write(new)
    print(f"respell: {len(moved)} names")
    return 0


if __name__ == "__main__":
    sys.exit(main(sys.argv[1:]))
