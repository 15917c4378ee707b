#!/usr/bin/env python3
"""Holds the five calls of libkelvrist.a, and the cover calls, the small planner, the planner by weight and the page of libtiming.a,
to the reference, tests/rules.py, on random jobs and plans; planners and cover calls also on the files among the cases of crate
vectors.

    differential.py [seed=N] [jobs=N] [only=N] [library=FILE] [timing=FILE]

A random seed, which is printed, and 5,000 jobs if not told; two processes have every other one. A difference prints the seed, the
job's number and its bytes, and ends the program; only=N runs that job alone, jobs=0 the cases alone. library=FILE takes another
archive for planners, checker and the page of a plan's bytes, timing=FILE another for the calls on slices, to see that a wrong one
is caught.
"""
import multiprocessing
import random
import struct
import sys
from collections import Counter
from pathlib import Path

TOP = Path(__file__).resolve().parent.parent.parent
sys.path.insert(0, str(TOP / "tests"))
sys.dont_write_bytecode = True
import library  # noqa: E402
import rules  # noqa: E402
from jobs import some_file  # noqa: E402
from vectors.dice import Dice  # noqa: E402
from vectors.plans import as_bytes, as_plan, handed_in  # noqa: E402

STDIN = TOP / "crates" / "vectors" / "stdin"
ARCHIVES = {"library": "target/staticlib/libkelvrist.a", "timing": "target/staticlib/libtiming.a"}
SCRATCH, SMALL_SCRATCH = 4096, 512
FIGURES = 3  # what a cover call gives: C, the least C and the dearest chain


class Differs(Exception):
    """The library does not do what the reference says."""


def as_words(numbers):
    """The bytes of numbers of 32 bits."""
    return struct.pack(f"<{len(numbers)}I", *numbers)


class File:
    """A job's bytes and what the reference says of them: a refusal's number, or 0, the job, its plan, that by weight, whether the least C
    of one of the two is below its C, what each call that fills slices writes to the front of them, and the pages of plans that were
    asked for."""

    def __init__(self, data):
        self.data, self.refusal, self.job, self.written, self.pages = data, 0, None, {}, {}
        self.plan, self.by_weight, self.below = [], [], False
        try:
            self.job = rules.read(data)
        except rules.Refused as refused:
            self.refusal = refused.number
            return
        planned, weighed = rules.plan(self.job), rules.plan(self.job, "weight")
        self.plan, self.by_weight = (list(zip(made.board, made.start)) for made in (planned, weighed))
        for call, made in (("timing_cover", planned), ("timing_cover_by_weight", weighed)):
            cover, least, dearest = rules.figures(self.job, made)
            self.below |= least < cover
            self.written[call] = [as_words(made.start), bytes(made.board), as_words(made.arrival), as_words([cover, least, dearest])]
        self.written["timing_plan_by_weight"] = self.written["timing_cover_by_weight"][:3]
        starts, processors, scratch = [1] * len(self.plan), [1] * len(self.plan), [1] * SMALL_SCRATCH
        rules.planner(data, starts, processors, scratch, "small")
        self.written["timing_small"] = [as_words(starts), bytes(processors), as_words(scratch)]

    def plan_of(self, call):
        """The plan that a planner makes."""
        return self.by_weight if call == "kelvrist_plan_by_weight" else self.plan

    def answer(self, room):
        """The answer as far as the job and the plan's length go."""
        return self.refusal or (9 if room < 5 * len(self.plan) else 0)

    def filled_answer(self, call, rooms):
        """The answer of a call that fills slices, by the places that they have."""
        return self.refusal or (9 if any(room < asked for room, asked in zip(rooms, places(call, len(self.plan)))) else 0)

    def page_length(self):
        return rules.page_length(self.job.boards) if self.job else 0

    def drawn(self, starts, processors, room):
        """The answer to a plan in slices, with a buffer of so many bytes, and the page; a page of the length is worked out once."""
        if self.refusal:
            return self.refusal, b""
        given = tuple(starts), tuple(processors), min(room, self.page_length())
        if given not in self.pages:
            try:
                self.pages[given] = 0, rules.page(self.job, processors, starts, room)
            except rules.Refused as refused:
                self.pages[given] = refused.number, b""
        return self.pages[given]


def in_slices(rows):
    """The starts and the processors of a plan."""
    return [start for _, start in rows], [p for p, _ in rows]


def places(call, m):
    """The places that a call asks for of starts, processors and scratch, and a cover call of its output."""
    scratch = SMALL_SCRATCH if call == "timing_small" else SCRATCH
    return [m, m, scratch, FIGURES] if call.startswith("timing_cover") else [m, m, scratch]


def some_rooms(dice, enough):
    """Places of the slices: just enough, more, then too few in one slice after the other."""
    yield enough
    yield [room + dice.between(1, 9) for room in enough]
    for slot, room in enumerate(enough):
        yield enough[:slot] + [dice.one_of([0, room - 1, dice.below(room)])] + enough[slot + 1 :]


class Held:
    """Calls that agree so far, and how often each answer came."""

    def __init__(self, schedule, timing):
        self.schedule, self.timing = schedule, timing
        calls = *schedule.PLANNERS, "kelvrist_check", *timing.FILLING, "kelvrist_page", "timing_draw"
        self.answers = {call: Counter() for call in calls}
        self.good = self.apart = self.below = 0

    def counts(self):
        return self.answers, self.good, self.apart, self.below

    def add(self, counts):
        """What another process counted."""
        answers, good, apart, below = counts
        for call, tallied in answers.items():
            self.answers[call].update(tallied)
        self.good, self.apart, self.below = self.good + good, self.apart + apart, self.below + below

    def plan(self, call, file, room, fill):
        due = file.answer(room)
        written = as_bytes(file.plan_of(call)) if due == 0 else b""
        answer, after = self.schedule.plan(call, file.data, room, fill)
        if answer != due:
            raise Differs(f"{call} with {room} bytes returns {answer}, the reference says {due}")
        if after != written + bytes([fill]) * (room - len(written)):
            raise Differs(f"{call} returns {answer} and leaves the plan [{after.hex()}], the reference says [{written.hex()}]")
        self.answers[call][answer] += 1

    def check(self, file, handed, fill):
        due = file.answer(len(handed))
        if due == 0:
            starts, processors = in_slices(as_plan(handed, len(file.plan)))
            due = rules.check(file.job, processors, starts)
        answer = self.schedule.check(file.data, handed, fill)
        if answer != due:
            raise Differs(f"kelvrist_check of the plan [{handed.hex()}] returns {answer}, the reference says {due}")
        self.answers["kelvrist_check"][answer] += 1

    def filled(self, call, file, rooms, fill):
        due = file.filled_answer(call, rooms)
        written = file.written[call] if due == 0 else [b""] * len(rooms)
        answer, after = self.timing.filled(call, file.data, rooms, fill)
        if answer != due:
            raise Differs(f"{call} with {rooms} places returns {answer}, the reference says {due}")
        for (name, width), now, front in zip(self.timing.SLICES.items(), after, written):
            left = front + bytes([fill]) * (len(now) - len(front))
            if now != left:
                at = next(at for at in range(0, len(now), width) if now[at : at + width] != left[at : at + width])
                found, told = (rules.number(data[at : at + width]) for data in (now, left))
                raise Differs(f"{call} with {rooms} places returns {answer} and leaves {found} at place {at // width} of the {name}, "
                              f"the reference says {told}")
        self.answers[call][answer] += 1

    def page(self, file, handed, room, fill):
        due = file.answer(len(handed)), b""
        if due[0] == 0:
            due = file.drawn(*in_slices(as_plan(handed, len(file.plan))), room)
        self.same_page(f"kelvrist_page of the plan [{handed.hex()}]", self.schedule.page(file.data, handed, room, fill), due, room, fill)
        self.answers["kelvrist_page"][due[0]] += 1

    def draw(self, file, starts, processors, room, fill):
        due = file.drawn(starts, processors, room)
        found = self.timing.draw(file.data, as_words(starts), bytes(processors), room, fill)
        self.same_page(f"timing_draw of the starts {starts} and the processors {processors}", found, due, room, fill)
        self.answers["timing_draw"][due[0]] += 1

    def same_page(self, call, found, due, room, fill):
        """Holds an answer and the buffer afterwards to those that are due."""
        (answer, after), (number, page) = found, due
        if answer != number:
            raise Differs(f"{call} with {room} bytes returns {answer}, the reference says {number}")
        left = page + bytes([fill]) * (room - len(page))
        if after != left:
            at = next(at for at in range(room) if after[at] != left[at])
            raise Differs(f"{call} with {room} bytes returns {answer} and leaves {after[at]:02x} at place {at % 70} of row {at // 70}, "
                          f"the reference says {left[at]:02x}")

    def drawn(self, dice, file, handed, room):
        """A plan's page by both calls; now and then a slice has a place less or more."""
        self.page(file, handed, room, dice.below(256))
        starts, processors = in_slices(as_plan(handed, len(handed) // 5))
        turn = dice.below(9)
        if turn < 2:
            starts, processors = (starts[:-1], processors) if turn else (starts, processors[:-1])
        elif turn < 4:
            starts, processors = starts + [dice.below(2**32)], processors + [dice.below(256)] * dice.below(3)
        self.draw(file, starts, processors, room, dice.below(256))

    def pages(self, dice, file):
        """The page of the planner's plan and of four others, in a buffer of the length and in one of another."""
        plans, length = [bytes(dice.below(9) for _ in range(5 * dice.below(4)))], rules.page_length(dice.between(1, 16))
        if not file.refusal:
            others = list(handed_in(dice, file.job, file.plan))
            plans, length = [others[0], *dice.some(others[1:], 4)], file.page_length()
        for handed in plans:
            self.drawn(dice, file, handed, length)
            self.drawn(dice, file, handed, dice.one_of([length - 1, length - 1, dice.below(length), length + dice.between(1, 9), 1120]))

    def slices(self, dice, file):
        """The cover calls, the small planner and the planner by weight."""
        m = len(file.plan) or dice.between(1, 256)
        for call in self.timing.FILLING:
            for rooms in some_rooms(dice, places(call, m)):
                self.filled(call, file, rooms, dice.below(256))

    def plans(self, dice, file):
        """The planners in the same buffers; how often the one by weight makes another plan is counted, and how often the least C is
        below C."""
        self.good += not file.refusal
        self.apart += file.by_weight != file.plan
        self.below += file.below
        need = 5 * len(file.plan)
        for room in (need, need + dice.between(1, 9), dice.one_of([0, max(0, need - 1), dice.below(need + 1), 1280])):
            fill = dice.below(256)
            for call in self.schedule.PLANNERS:
                self.plan(call, file, room, fill)

    def checks(self, dice, file):
        if file.refusal:
            for room in (0, dice.between(1, 40), 1280):
                self.check(file, bytes([dice.below(256)]) * room, dice.below(256))
            return
        for handed in (*handed_in(dice, file.job, file.plan), as_bytes(file.by_weight)):
            self.check(file, handed, dice.below(256))


def case_files(cases):
    """The files among the cases of crate vectors: a case is a kind byte, r for a file, 2 bytes for the length, and as many."""
    at = 0
    while at < len(cases):
        body = at + 3
        end = body + rules.number(cases[at + 1 : body])
        if cases[at] == ord("r"):
            yield cases[body:end]
        at = end


def told(words):
    """The words of the command line, by name."""
    given = {"seed": "", "jobs": "", "only": "", "library": "", "timing": ""}
    for word in words:
        name, _, value = word.partition("=")
        if name not in given or name not in ARCHIVES and value and not value.isdigit():
            sys.exit(__doc__)
        given[name] = value
    return given


def tally(answers):
    return ", ".join(f"{a}: {answers[a]}" for a in sorted(answers))


def calls(kind, name, given):
    archive = Path(given[name]) if given[name] else TOP / ARCHIVES[name]
    return library.load(kind, archive, TOP / "target" / "differential")


def hold(held, seed, cases, numbers):
    """Holds these files of cases, by number, and jobs; what differs, or nothing."""
    try:
        for number, data in cases:
            name, again = f"file {number} of the cases", "jobs=0"
            dice, file = Dice(seed * 2**32 + 2**31 + number), File(data)
            held.slices(dice, file)
            held.plans(dice, file)
        for number in numbers:
            dice = Dice(seed * 2**32 + number)
            name, again, data = f"job {number}", f"only={number}", some_file(dice)
            file = File(data)
            held.plans(dice, file)
            held.checks(dice, file)
            held.slices(dice, file)
            held.pages(dice, file)
    except (Differs, library.Altered) as trouble:
        return f"FAILED: seed {seed}, {name}: {trouble}\njob [{data.hex()}]\nto run it again: seed={seed} {again}"
    return ""


def share(held, seed, cases, numbers, end):
    """One process's share: tells what differs, and the counts."""
    end.send((hold(held, seed, cases, numbers), held.counts()))


def shared(held, seed, cases, numbers):
    """Every other one in each of two processes; what differs first, or nothing, with all counts in `held`."""
    forked, ends = multiprocessing.get_context("fork"), []
    for part in range(2):
        mine, its = forked.Pipe(duplex=False)
        process = forked.Process(target=share, args=(held, seed, cases[part::2], numbers[part::2], its), daemon=True)
        process.start()
        its.close()
        ends.append(mine)
    troubles = []
    for mine in ends:
        try:
            trouble, counts = mine.recv()
        except EOFError:
            trouble, counts = "FAILED: a process ended before it told anything", None
        troubles.append(trouble)
        if trouble:
            break
        held.add(counts)
    return next(filter(None, troubles), "")


def main(words):
    given = told(words)
    seed = int(given["seed"] or random.randrange(10**6))
    numbers = [int(given["only"])] if given["only"] else range(int(given["jobs"] or 5000))
    cases = [] if given["only"] else list(enumerate(case_files(STDIN.read_bytes())))
    what = f"{len(numbers)} jobs and {len(cases)} files of cases"
    print(f"differential: seed {seed}, {what}", flush=True)
    held = Held(calls(library.Schedule, "library", given), calls(library.Timing, "timing", given))
    trouble = shared(held, seed, cases, numbers)
    if trouble:
        print(trouble)
        return 1
    for name, tallied in held.answers.items():
        print(f"{name} answered {tally(tallied)}")
    print(f"{held.apart} of {held.good} good jobs have another plan by weight, {held.below} a least C below C")
    print(f"differential: {what}, {sum(sum(tallied.values()) for tallied in held.answers.values())} calls, 0 differ")
    return 0


if __name__ == "__main__":
    sys.exit(main(sys.argv[1:]))
