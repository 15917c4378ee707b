#!/usr/bin/env python3
"""Holds the reference of the requests, with none in force, to the reference planner on the cases of crate vectors.

    references.py [FOLDER]     the requests.py of FOLDER takes the place of the one in tests/reference, to see that a wrong one is caught

Each job file among the cases goes through `plan` of both programs, each plan of 5 bytes a step through `check` of both, by
the words of their command lines. Where what they print differs, the shortest such job is told, with status 1.
"""
import io
import sys
import tempfile
from importlib import import_module
from itertools import zip_longest
from pathlib import Path

TOP = Path(__file__).resolve().parent.parent
sys.path.insert(0, str(TOP / "tests" / "reference"))
sys.dont_write_bytecode = True
import etf  # noqa: E402

CASES = TOP / "crates" / "vectors" / "stdin"


def split(cases):
    """The kind and the body of each case: a kind byte, 2 bytes for the length, and as many."""
    at = 0
    while at < len(cases):
        body = at + 3
        end = body + etf.number(cases[at + 1 : body])
        yield chr(cases[at]), cases[body:end]
        at = end


def before_the_file(kind, body):
    """The bytes before the job file in the body of a case, as tests/vectors/entries.py lays it out."""
    if kind in "dg":  # after the buffer's length and fill as a case of the checker
        return 3 + before_the_file({"d": "c", "g": "b"}[kind], body[3:])
    first, second = etf.number(body[0:2]), etf.number(body[2:4])
    before = {"r": 0, "p": 15, "h": 15, "s": 3, "t": 1, "c": 4 + 4 * first + second, "b": 2 + first}
    if kind not in before:
        sys.exit(f"a case of kind {kind}: say in tests/references.py where its job file stands")
    return before[kind]


def asked(cases):
    """Each job file with no plan, and each plan of a case `b` or `g` with its job file; nothing twice. A case of the writer has no
    file."""
    found = {}
    for kind, body in split(cases):
        if kind not in "wvu":
            at = before_the_file(kind, body)
            found[body[at:], None] = True
            if kind in "bg":
                found[body[at:], body[2 if kind == "b" else 5 : at]] = True
    return list(found)


def printed(main, words, data):
    """What a program prints with these words, `data` being its standard input."""
    kept, out = (sys.stdin, sys.stdout), io.TextIOWrapper(io.BytesIO(), newline="")
    sys.stdin, sys.stdout = io.TextIOWrapper(io.BytesIO(data)), out
    try:
        main(words)
    finally:
        sys.stdin, sys.stdout = kept
    out.flush()
    return out.buffer.getvalue()


def parting(due, told):
    """The first line in which two texts differ, of each; it is empty where a text has ended."""
    rows = zip_longest(due.decode().splitlines(True), told.decode().splitlines(True), fillvalue="")
    return next((one, other) for one, other in rows if one != other)


def differing(requests, questions):
    """The questions to which the two print different answers: command, job, plan, and the line of each where they part."""
    with tempfile.NamedTemporaryFile() as room:
        for data, plan in questions:
            command = ["plan"]
            if plan is not None:
                Path(room.name).write_bytes(plan)
                command = ["check", room.name]
            due = printed(etf.main, command, data)
            told = printed(requests.main, ["--with", "none", *command], data)
            if told != due:
                yield command[0], data, plan, *parting(due, told)


def main(words):
    if len(words) > 1:
        sys.exit(__doc__)
    if words and not (Path(words[0]) / "requests.py").is_file():
        sys.exit(f"{words[0]} has no requests.py")
    sys.path[:0] = words
    questions = asked(CASES.read_bytes())
    found = list(differing(import_module("requests"), questions))
    if found:
        command, data, plan, due, told = min(found, key=lambda one: len(one[1]))
        handed = "" if plan is None else f"\nthe plan:        {plan.hex()}"
        sys.exit(f"requests.py with no request in force and etf.py differ in {len(found)} answers; the shortest job is\n"
                 f"{command} of the job: {data.hex()}{handed}\netf.py prints:   {due!r}\nrequests.py:     {told!r}")
    plans = sum(plan is None for _, plan in questions)
    print(f"references: with no request in force requests.py prints what etf.py does for {plans} job files "
          f"and {len(questions) - plans} plans")


if __name__ == "__main__":
    main(sys.argv[1:])
