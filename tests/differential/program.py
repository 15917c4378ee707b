#!/usr/bin/env python3
"""Holds programs `plan` and `page` to the reference, tests/rules.py: byte for byte what they print, nothing on standard error, exit
status 0.

    program.py [seed=N] [jobs=N] [only=N] [plan=FILE] [page=FILE]

A random seed, which is printed, and 300 random files, good and damaged, if not told; before them the fixed inputs: the worked
cases, the examples, the files among the cases of crate vectors, the greatest jobs, and inputs longer than any job, of some
megabytes too. An input comes from a file, through a pipe, or through a pipe a few bytes at a time. Where it cannot be read, or
the answer cannot be written, one line on standard error is due. A difference prints the seed, the input and where the outputs
part, keeps the input in a file and ends the program; only=N runs random file N alone, jobs=0 the fixed inputs alone. plan=FILE and
page=FILE take other programs, to see that a wrong one is caught.
"""
import fcntl
import random
import re
import struct
import subprocess
import sys
import termios
import time
from collections import Counter
from pathlib import Path

TOP = Path(__file__).resolve().parent.parent.parent
sys.path.insert(0, str(TOP / "tests"))
sys.dont_write_bytecode = True
import rules  # noqa: E402
from differential import STDIN, case_files  # noqa: E402
from jobs import some_file  # noqa: E402
from vectors.dice import Dice  # noqa: E402
from vectors.jobs import LONGEST, chain, greatest, greatest_of_all, greatest_values, greatest_wired, greatest_wired_values  # noqa: E402
from vectors.jobs import costs, tasks_only, with_results, with_some  # noqa: E402
from vectors.records import END, link, rack, result, step, wire  # noqa: E402

PRINTED = {"plan": rules.report, "page": rules.page_report}  # what each program prints for an input, by the reference
BUILT = TOP / "target" / "bin"
FOLDER = TOP / "target" / "program"
JOBS, PIECES, SECONDS = 300, 300, 20
READ = 16_384  # the bytes that a program reads at most


class Differs(Exception):
    """A program does not print what the reference does."""


# ---- the ways in which an input comes; each gives what a program prints, what it says on standard error, and its status

def from_file(program, data, dice):
    file = FOLDER / "input"
    file.write_bytes(data)
    with file.open("rb") as opened:
        done = subprocess.run([program], stdin=opened, capture_output=True, timeout=SECONDS)
    return done.stdout, done.stderr, done.returncode


def through_pipe(program, data, dice):
    done = subprocess.run([program], input=data, capture_output=True, timeout=SECONDS)
    return done.stdout, done.stderr, done.returncode


def in_pieces(program, data, dice):
    """A piece is written when the program has read the one before. At most PIECES pieces are small, what is left is the last."""
    process = subprocess.Popen([program], stdin=subprocess.PIPE, stdout=subprocess.PIPE, stderr=subprocess.PIPE, bufsize=0)
    until = time.monotonic() + SECONDS
    try:
        for _ in range(PIECES):
            if not data or process.poll() is not None:
                break
            size = dice.between(1, 7)
            process.stdin.write(data[:size])
            data = data[size:]
            while unread(process.stdin) and process.poll() is None and time.monotonic() < until:
                time.sleep(0)
    except BrokenPipeError:
        data = b""  # the program has read enough
    try:
        out, err = process.communicate(data, timeout=SECONDS)
    except subprocess.TimeoutExpired:
        process.kill()
        process.wait()
        raise
    return out, err, process.returncode


def unread(pipe):
    """The bytes that are in a pipe."""
    return struct.unpack("i", fcntl.ioctl(pipe.fileno(), termios.FIONREAD, bytes(4)))[0]


WAYS = [from_file, through_pipe, in_pieces]


# ---- the fixed inputs

def worked():
    """The worked cases of document 01, as jobs."""
    yield "case A", rules.job(2, 0, 2, [4, 3, 2], [(0, 2, 1), (1, 2, 3)])
    yield "case B", rules.job(1, 0, 0, [1], [])
    for name, unit in (("D", 1), ("E", 2), ("G", 3), ("H", 5)):
        yield f"case {name}", rules.job(2, 0, unit, [3, 2, 2], [(0, 1, 1), (0, 2, 1)])
    for name, wiring, n, p, q in (("J", 1, 16, 5, 10), ("K", 2, 5, 0, 4), ("L", 2, 6, 0, 3)):
        # The last step runs on board q after messages from board p: all other boards are busy.
        durations = [4 if t == p else 5 if t == q else 100 for t in range(n + 2)]
        yield f"case {name}", rules.job(n, wiring, 1, durations, [(p, n + 1, 3)])


def large():
    """The greatest jobs and the greatest numbers."""
    yield "the greatest values", greatest_of_all([250] * 240, 1_000_000, 1000)
    yield "the greatest values without results", greatest_wired_values()
    yield "the greatest values without wires", greatest_values()
    for number in range(3):
        yield f"a greatest file, {number}", greatest_of_all(costs(Dice(number), 16), 7 + number, 1 + number)
        yield f"a greatest job with some results, {number}", with_results(Dice(number), greatest_wired(Dice(number)))
        yield f"a greatest job, {number}", greatest_wired(Dice(number))
        yield f"a greatest job without wires, {number}", greatest(Dice(number))
    chained = [(a, b, 1000) for a, b in chain(None, 256)]
    for wiring, name in enumerate(("flat", "cube", "ring")):
        yield f"the dearest chain, {name}", rules.job(16, wiring, 100, [1_000_000] * 256, chained)
    yield "the dearest chain, wires", rules.wired(16, [250] * 240, [1_000_000] * 256, chained)
    yield "256 steps on one board", rules.job(1, 0, 100, [1_000_000] * 256, [])
    yield "256 steps on 16 boards", rules.job(16, 0, 100, list(range(1, 257)), [])
    every = [(task, 1000) for task in range(256)]
    for wiring, name in enumerate(("flat", "cube", "ring")):
        yield f"256 results, {name}", rules.job(16, wiring, 100, list(range(1, 257)), [], results=every)
    yield "256 results on one board", with_some(tasks_only(256, 1), every)


def long(dice):
    """Inputs longer than any job, the last ones of some megabytes."""
    good, wired = rules.write(next(worked())[1]), rules.write(greatest_wired_values())
    most = rules.write(greatest_of_all([250] * 240, 1_000_000, 1000))
    assert len(most) == LONGEST
    noise = bytes(dice.below(256) for _ in range(4096))
    for name, head in (("case A", good), ("the greatest job", most)):
        for more in (1, LONGEST + 1 - len(head), 4096, READ - len(head), READ + 1 - len(head), 65_536, 3_000_000):
            if more > 0:
                yield f"{name} and {more} bytes", head + (noise * (more // 4096 + 1))[:more]
    yield "the greatest job twice", most + most
    yield "a link too many", wired[:-1] + link(254, 255) + END
    yield "a wire too many", wired[: 4 + 4 * 240] + wire(15, 14) + wired[4 + 4 * 240 :]
    for name, more in (("a good result", result(255)), ("a result of count 0", result(255, 0)), ("one of count 1,001", result(255, 1001))):
        for length in (1, 2, 3, 4):
            yield f"{name} too many, {length} bytes of it", most[:-1] + more[:length]
        yield f"{name} too many, and bytes", most[:-1] + more + noise
    yield "a rack, a step and results, megabytes", rack() + step() + result(0) * 700_000
    yield "a rack and wires, megabytes", rack(2, 3) + (wire(0, 1) + wire(1, 0)) * 300_000
    yield "a rack and steps, megabytes", rack() + step() * 600_000
    yield "a rack, steps and links, megabytes", rack() + step() * 256 + link(0, 1) * 600_000
    yield "zeros, megabytes", bytes(3_000_000)
    yield "noise, megabytes", noise * 700


def fixed(dice):
    """The fixed inputs, each with its name."""
    yield "the empty input", b""
    for name, job in worked():
        yield name, rules.write(job)
    for file in sorted((TOP / "examples").glob("*.job")):
        yield f"examples/{file.name}", file.read_bytes()
    for name, job in large():
        yield name, rules.write(job)
    yield from long(dice)


# ---- what is held

def parting(found, due):
    """Where two outputs part, with what stands there in each."""
    at = next((at for at, (a, b) in enumerate(zip(found, due)) if a != b), min(len(found), len(due)))
    line = due.count(b"\n", 0, at) + 1
    begin = due.rfind(b"\n", 0, at) + 1
    seen, told = (repr(text[begin : at + 24].decode("latin-1")) if at < len(text) else "the output's end" for text in (found, due))
    return f"the outputs part at byte {at}, line {line}: {seen}, the reference says {told}"


def hold(name, program, data, ways, dice):
    """Runs a program on an input in some ways; gives the answer that is due: the program's name for what it prints of a good job."""
    due = PRINTED[name](data).encode()
    for way in ways:
        said = f"{name}, {way.__name__.replace('_', ' ')}"
        try:
            out, err, status = way(program, data, dice)
        except subprocess.TimeoutExpired:
            raise Differs(f"{said}: the program has not ended after {SECONDS} seconds")
        if out != due:
            raise Differs(f"{said}: {parting(out, due)}")
        if err or status:
            raise Differs(f"{said}: exit status {status}, standard error {err[:200]!r}")
    return due.decode().strip() if due.startswith(b"refused") else name


def hold_failures(name, program):
    """What cannot be read or written gives one line on standard error, nothing on standard output, and status 0."""
    data = rules.write(next(worked())[1])
    with open("/dev/null", "wb") as unreadable, open("/dev/null", "rb") as unwritable:
        read = subprocess.run([program], stdin=unreadable, capture_output=True, timeout=SECONDS)
        write = subprocess.run([program], input=data, stdout=unwritable, stderr=subprocess.PIPE, timeout=SECONDS)
    for what, done in (("read", read), ("write", write)):
        said = done.stderr.decode("latin-1")
        if done.stdout or done.returncode or not re.fullmatch(f"{name}: {what}: [^\n]+\n", said):
            raise Differs(f"{name}, a {what} that fails gives {done.stdout or b''!r}, standard error {said[:200]!r} and exit status "
                          f"{done.returncode}; due is one line '{name}: {what}: REASON' on standard error, and status 0")


def told(words):
    """The words of the command line, by name."""
    given = {"seed": "", "jobs": "", "only": "", "plan": "", "page": ""}
    for word in words:
        name, _, value = word.partition("=")
        if name not in given or name not in PRINTED and value and not value.isdigit():
            sys.exit(__doc__)
        given[name] = value
    return given


def inputs(seed, given):
    """Each input with its name, the ways that it comes in, the dice for it and the words that run it again."""
    if not given["only"]:
        for number, (name, data) in enumerate(fixed(Dice(seed))):
            yield name, data, WAYS, Dice(seed + number), "jobs=0"
        for number, data in enumerate(case_files(STDIN.read_bytes())):
            yield f"file {number} of the cases", data, [through_pipe], None, "jobs=0"
    for number in [int(given["only"])] if given["only"] else range(int(given["jobs"] or JOBS)):
        dice = Dice(seed * 2**32 + number)
        yield f"random file {number}", some_file(dice), [dice.one_of(WAYS)], dice, f"only={number}"


def hold_all(programs, seed, given):
    """Holds the programs on every input; prints how often each answer came, or the first difference. Gives the exit status."""
    answers, runs = {each: Counter() for each in programs}, 0
    name, data, again = "no input or no output", b"", "jobs=0"
    try:
        for each, program in programs.items():
            hold_failures(each, program)
        for name, data, ways, dice, again in inputs(seed, given):
            for each, program in programs.items():
                answers[each][hold(each, program, data, ways, dice)] += 1
                runs += len(ways)
    except Differs as trouble:
        kept = FOLDER / f"seed-{seed}-{re.sub('[^a-zA-Z0-9]+', '-', name)}.job"
        kept.write_bytes(data)
        print(f"FAILED: seed {seed}, {name}, {trouble}")
        print(f"the input is in {kept.relative_to(TOP)}; to run it again: seed={seed} {again}")
        return 1
    for each, came in answers.items():
        print(f"{each} answered " + ", ".join(f"{answer}: {came[answer]}" for answer in sorted(came)))
    print(f"program: {sum(came.values())} inputs, {runs} runs, 0 differ")
    return 0


def main(words):
    given = told(words)
    programs = {name: Path(given[name] or BUILT / name).resolve() for name in PRINTED}
    seed = int(given["seed"] or random.randrange(10**6))
    print(f"program: seed {seed}", flush=True)
    FOLDER.mkdir(parents=True, exist_ok=True)
    try:
        return hold_all(programs, seed, given)
    except OSError as trouble:
        sys.exit(f"program: {trouble.filename}: {trouble.strerror}")


if __name__ == "__main__":
    sys.exit(main(sys.argv[1:]))
