#!/usr/bin/env python3
"""Makes the cases of program `vectors` and the lines that it must print.

    make_vectors.py            writes crates/vectors/stdin and crates/vectors/stdout
    make_vectors.py --check    says whether the two files are what it makes

The expected lines come from the reference alone: tests/reference/requests.py with the requests in force that have landed
(tests/rules.py). The cases are made in tests/vectors; crates/vectors/src/main.rt and the files that it names say how a case is
laid out.
"""
import sys
from pathlib import Path

TOP = Path(__file__).resolve().parent.parent
sys.path.insert(0, str(TOP / "tests"))
sys.dont_write_bytecode = True
from vectors import arrived, checking, larger, leasts, loaded, pages, reading, refusals, results, shortcuts, weights  # noqa: E402
from vectors import wires, worked, writing  # noqa: E402
from vectors.cases import Cases  # noqa: E402
from vectors.dice import Dice  # noqa: E402

SEED = 20251
STDIN = TOP / "crates" / "vectors" / "stdin"
STDOUT = TOP / "crates" / "vectors" / "stdout"


def all_cases():
    cases, dice = Cases(), Dice(SEED)
    for part in (reading, writing, worked, refusals, checking, shortcuts, larger, wires, loaded, results, arrived, pages, weights,
                 leasts):
        part.add_cases(cases, dice)
    return cases


def main(words):
    cases = all_cases()
    made = {STDIN: bytes(cases.input), STDOUT: cases.output()}
    told = f"{sum(cases.kinds.values())} cases (" + ", ".join(f"{kind} {count}" for kind, count in cases.kinds.items()) + ")"
    if words == ["--check"]:
        stale = [path.relative_to(TOP) for path, data in made.items() if not path.is_file() or path.read_bytes() != data]
        for path in stale:
            print(f"{path} is not what tests/make_vectors.py makes: run make vectors")
        if stale:
            return 1
        print(f"vectors: {told}, as tests/make_vectors.py makes them")
        return 0
    if words:
        sys.exit(__doc__)
    for path, data in made.items():
        path.write_bytes(data)
        print(f"{path.relative_to(TOP)}: {len(data)} bytes")
    print(told)
    return 0


if __name__ == "__main__":
    sys.exit(main(sys.argv[1:]))
