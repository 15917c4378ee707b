#!/usr/bin/env python3
"""Holds tools/job, tools/gantt and the examples to the reference planner and to one another.

    examples.py

Of each example: its text makes its job file, the job file's text makes it again, the reference prints its plan, and the chart
is well-formed and has a box for each step, a mark for each result and the chains of cover and least. Where a text tells both plans,
by number and by weight, they are the reference's. docs/plan.svg is what tools/gantt draws, and the pages in README.md, docs/page.1
and crates/page/stdout are the reference's of its plans. A table of bad texts and bad files has the message that each gets. On random
files tools/job refuses as the reference does; on those that are small jobs, and on little ones, tools/gantt has the reference's end,
its two walks the reference's cover and least for their sums, and each move of the least's is one that the reference allows. Where the
walks of a plan are few, it is the first in order of those with the least sum. The first thing that differs is printed, with status 1.
"""
import re
import subprocess
import sys
import textwrap
import xml.etree.ElementTree as Xml
from itertools import islice
from pathlib import Path

TOP = Path(__file__).resolve().parent.parent
sys.path[:0] = [str(TOP / folder) for folder in ("tests", "tests/differential", "tools")]
sys.dont_write_bytecode = True
import rules  # noqa: E402
from jobs import some_file  # noqa: E402
from kelvrist import jobfile, jobtext, listing, results  # noqa: E402
from kelvrist.inout import Trouble  # noqa: E402
from kelvrist.walk import Walk, cover_walk, least_walk, ways_on  # noqa: E402
from vectors.dice import Dice  # noqa: E402
from vectors.weights import little_job  # noqa: E402

EXAMPLES = TOP / "examples"
NAMES = ["a", "branches", "cube16", "forkjoin", "greatest", "postponed", "results", "ring", "wires"]
PICTURE = "forkjoin"  # the example that docs/plan.svg shows
RUN = "cube16"  # the example that the gate runs program `page` on
BOTH = "branches"  # the example whose text tells its plans by number and by weight
FILES, LITTLE_JOBS, FEW_WALKS = 300, 400, 2000
# Where pages of examples stand: the file, how an example and its page are found there, how far it is indented, and the examples.
PAGES = [
    ("README.md", r"`make page JOB=examples/(\w+)\.job` prints[^`]*```\n(.*?)```\n", "", [PICTURE]),
    ("docs/page.1", r"^    \$ page < examples/(\w+)\.job\n(.*?)^\.EE\n", "    ", ["a", "results"]),
]
SVG = "{http://www.w3.org/2000/svg}"

# Each rule of a text once: the text, the line and the message.
RACK, TWO = "rack 2 flat 2\n", "rack 2 flat 2\nstep 5\nstep 5\n"
OWN, WIRED = "rack 2 wires 0\n", "rack 2 wires 0\nwire 0 1 7\nwire 1 0 9\n"
BAD_TEXTS = [
    ("", 1, "a rack must come before the end of the text"),
    ("# nothing\n\n", 2, "a rack must come before the end of the text"),
    (RACK, 1, "a step must come before the end of the text"),
    ("step 5\n", 1, "a rack must come before the step"),
    ("link 0 1 1\n", 1, "a rack must come before the link"),
    (RACK + "link 0 1 1\n", 2, "a step must come before the link"),
    (RACK + RACK, 2, "there is a rack already"),
    (TWO + "link 0 1 1\nstep 5\n", 5, "steps come before links"),
    (RACK + "stpe 5\n", 2, "'stpe': a line begins with rack, wire, step, link or result"),
    (TWO + "end\n", 4, "'end': a line begins with rack, wire, step, link or result"),
    ("\x1b[2J\n", 1, "'\\x1b[2J': a line begins with rack, wire, step, link or result"),
    ("rack 2 flat\n", 1, "rack: 3 words must follow (boards, wiring, cost), not 2"),
    ("rack 2 flat 2 2\n", 1, "rack: 3 words must follow (boards, wiring, cost), not 4"),
    (RACK + "step # 5\n", 2, "step: 1 word must follow (duration), not 0"),
    (RACK + "step 5 6\n", 2, "step: 1 word must follow (duration), not 2"),
    (TWO + "link 0 1\n", 4, "link: 3 words must follow (from, to, messages), not 2"),
    (TWO + "link 0 1 1 1\n", 4, "link: 3 words must follow (from, to, messages), not 4"),
    (RACK + "\nstep five\n", 3, "duration 'five' is not a whole number (digits alone)"),
    (RACK + "step -5\n", 2, "duration '-5' is not a whole number (digits alone)"),
    (RACK + "step 1_0\n", 2, "duration '1_0' is not a whole number (digits alone)"),
    (RACK + "step \u0665\n", 2, "duration '\u0665' is not a whole number (digits alone)"),
    (RACK + "step " + "9" * 5000, 2, "duration '999999999999999999999999..' is too great"),
    ("rack 0 flat 2\n", 1, "boards 0 is not 1 to 16"),
    ("rack 17 flat 2\n", 1, "boards 17 is not 1 to 16"),
    ("rack 2 star 2\n", 1, "wiring 'star' is not flat, cube, ring or wires"),
    ("rack 2 0 2\n", 1, "wiring '0' is not flat, cube, ring or wires"),
    ("rack 2 flat 101\n", 1, "cost 101 is not 0 to 100"),
    (RACK + "step 0\n", 2, "duration 0 is not 1 to 1000000"),
    (RACK + "step 1000001\n", 2, "duration 1000001 is not 1 to 1000000"),
    (TWO + "link 0 1 0\n", 4, "messages 0 is not 1 to 1000"),
    (TWO + "link 0 1 1001\n", 4, "messages 1001 is not 1 to 1000"),
    (RACK + "step 5\n" * 257, 258, "a job has at most 256 steps"),
    (RACK + "step 5\n" * 47 + "".join(f"link {a} {b} 1\n" for a in range(46) for b in range(a + 1, 47)), 1073,
     "a job has at most 1024 links"),
    (TWO + "link 1 0 1\n", 4, "link 1 to 0: from must be below to"),
    (TWO + "link 1 1 1\n", 4, "link 1 to 1: from must be below to"),
    (TWO + "link 0 2 1\n", 4, "link 0 to 2: the last step is 1"),
    (TWO + "link 0 300 1\n", 4, "link 0 to 300: the last step is 1"),
    (TWO + "step 5\nlink 0 2 1\nlink 0 1 1\n", 6, "link 0 to 1: links rise by from, then by to, and the one before is 0 to 2"),
    (TWO + "link 0 1 1\nlink 0 1 1\n", 5, "link 0 to 1: links rise by from, then by to, and the one before is 0 to 1"),
    ("wire 0 1 7\n", 1, "a rack must come before the wire"),
    ("rack 2 cube 2\nwire 0 1 7\n", 2, "a wire needs a rack of wiring wires, and this one's is cube"),
    (TWO + "wire 0 1 7\n", 4, "a wire needs a rack of wiring wires, and this one's is flat"),
    (WIRED + "step 5\nwire 0 1 7\n", 5, "wires come before steps"),
    (WIRED + "step 5\nstep 5\nlink 0 1 1\nwire 0 1 7\n", 7, "wires come before steps"),
    (OWN, 1, "wire 0 to 1 must come before the end of the text"),
    (OWN + "wire 0 1 7\n", 2, "wire 1 to 0 must come before the end of the text"),
    (OWN + "link 0 1 1\n", 2, "wire 0 to 1 must come before the link"),
    (WIRED, 3, "a step must come before the end of the text"),
    (WIRED + "link 0 1 1\n", 4, "a step must come before the link"),
    (WIRED + OWN, 4, "there is a rack already"),
    (OWN + "wire 0 1\n", 2, "wire: 3 words must follow (from, to, cost), not 2"),
    (OWN + "wire 0 1 7 7\n", 2, "wire: 3 words must follow (from, to, cost), not 4"),
    (OWN + "wire 0 one 7\n", 2, "to 'one' is not a whole number (digits alone)"),
    (OWN + "wire 0 1 251\n", 2, "cost 251 is not 0 to 250"),
    (OWN + "wire 1 0 251\n", 2, "cost 251 is not 0 to 250"),
    (OWN + "wire 1 0 7\n", 2, "wire 1 to 0: wires rise by from, then by to, and the next is 0 to 1"),
    (OWN + "wire 0 0 7\n", 2, "wire 0 to 0: wires rise by from, then by to, and the next is 0 to 1"),
    (OWN + "wire 0 1 7\nwire 0 1 7\n", 3, "wire 0 to 1: wires rise by from, then by to, and the next is 1 to 0"),
    (OWN + "wire 0 300 7\n", 2, "wire 0 to 300: wires rise by from, then by to, and the next is 0 to 1"),
    (WIRED + "wire 1 2 7\n", 4, "wire 1 to 2: all 2 wires are there already"),
    ("rack 1 wires 0\nwire 0 1 7\n", 2, "wire 0 to 1: a rack of one board has no wires"),
    (OWN + "step 5\n", 2, "wire 0 to 1 must come before the first step"),
    (OWN + "wire 0 1 7\nstep 5\n", 3, "wire 1 to 0 must come before the first step"),
    (OWN + "step 0\n", 2, "duration 0 is not 1 to 1000000"),
    ("rack 2 wires 101\n", 1, "cost 101 is not 0 to 100"),
    ("result 0 1\n", 1, "a rack must come before the result"),
    (RACK + "result 0 1\n", 2, "a step must come before the result"),
    (OWN + "result 0 1\n", 2, "wire 0 to 1 must come before the result"),
    (WIRED + "result 0 1\n", 4, "a step must come before the result"),
    (TWO + "result 0 1\nstep 5\n", 5, "steps come before results"),
    (TWO + "link 0 1 1\nresult 1 1\nstep 5\n", 6, "steps come before links"),
    (TWO + "result 0 1\nlink 0 1 1\n", 5, "links come before results"),
    (WIRED + "step 5\nresult 0 1\nwire 0 1 7\n", 6, "wires come before steps"),
    (TWO + "result 0 1\n" + RACK, 5, "there is a rack already"),
    (TWO + "result 0\n", 4, "result: 2 words must follow (step, messages), not 1"),
    (TWO + "result 0 1 1\n", 4, "result: 2 words must follow (step, messages), not 3"),
    (TWO + "result one 1\n", 4, "step 'one' is not a whole number (digits alone)"),
    (TWO + "result 0 0\n", 4, "messages 0 is not 1 to 1000"),
    (TWO + "result 2 1001\n", 4, "messages 1001 is not 1 to 1000"),
    (TWO + "result 2 1\n", 4, "result of step 2: the last step is 1"),
    (TWO + "result 300 1\n", 4, "result of step 300: the last step is 1"),
    (TWO + "link 0 1 1\nresult 0 1\n", 5, "result of step 0: it sends to step 1, and only a step that sends to none has a result"),
    (TWO + "result 1 1\nresult 0 1\n", 5, "result of step 0: results rise by step, and the one before is of step 1"),
    (TWO + "result 1 1\nresult 1 2\n", 5, "result of step 1: results rise by step, and the one before is of step 1"),
]

# The refusals of a job file: its bytes, and the end of the line that `tools/job show` gives.
A, W, R = ((EXAMPLES / f"{name}.job").read_bytes() for name in ("a", "wires", "results"))
BAD_FILES = [
    (b"", 1, 0, "a record is due"),
    (A[:20], 1, 19, "the link is cut"),
    (b"\x09", 2, 0, "kind 9"),
    (A[4:], 3, 0, "a rack must come before the step"),
    (b"\x01\x00\x00\x05", 4, 0, "boards 0 is not 1 to 16"),
    (A[:4] + A[4:9] * 257, 5, 1284, "a job has at most 256 steps"),
    (A[:9] + b"\x03\x00\x00\x01\x00", 6, 9, "link 0 to 0: from must be below to"),
    (A[:24] + A[19:], 7, 24, "link 0 to 2: links rise by from, then by to, and the one before is 0 to 2"),
    (A + b"\x00", 8, 30, "the end record should be the last byte, 1 more follow"),
    (W[:6], 1, 4, "the wire is cut"),
    (A[:4] + W[4:8], 3, 4, "a wire needs a rack of wiring wires, and this one's is flat"),
    (W[:33] + W[4:8], 3, 33, "wires come before steps"),
    (W[:8] + b"\x04", 3, 8, "wire 0 to 2 must come before the end"),
    (W[:4] + b"\x05\x01\x00\xfb", 4, 4, "cost 251 is not 0 to 250"),
    (W[:4] + W[8:], 14, 4, "wire 0 to 2: wires rise by from, then by to, and the next is 0 to 1"),
    (W[:28] + b"\x05\x03\x00\x01", 14, 28, "wire 3 to 0: all 6 wires are there already"),
    (W[:24] + W[28:], 14, 24, "wire 2 to 1 must come before the first step"),
    (R[:-2], 1, 102, "the result is cut"),
    (A[:4] + R[98:], 3, 4, "a step must come before the result"),
    (R[:-1] + A[4:9], 3, 106, "steps come before links"),
    (A[:9] + b"\x06\x00\x01\x00" + A[4:9], 3, 13, "steps come before results"),
    (R[:-1] + A[19:24], 3, 106, "links come before results"),
    (R[:102] + b"\x06\x09\x00\x00\x04", 4, 102, "messages 0 is not 1 to 1000"),
    (R[:102] + b"\x06\x06\x01\x00\x04", 15, 102, "result of step 6: the last step is 5"),
    (R[:98] + b"\x06\x03\x01\x00\x04", 15, 98, "result of step 3: it sends to step 4, and only a step that sends to none has a result"),
    (R[:102] + R[98:], 15, 102, "result of step 4: results rise by step, and the one before is of step 4"),
]


class Differs(Exception):
    """Something is not as it should be."""


def hold(what, found, due):
    """Sees that something is as it is due; of two texts it says where they part."""
    if found == due:
        return
    if type(found) in (str, bytes):
        at = next((at for at, (a, b) in enumerate(zip(found, due)) if a != b), min(len(found), len(due)))
        what, found, due = f"{what}, from place {at} on", found[at : at + 40], due[at : at + 40]
    raise Differs(f"{what}: {found!r}, not {due!r}")


def run(tool, *words, data=b""):
    """What a tool prints, what it says on standard error, and its status."""
    done = subprocess.run([sys.executable, str(TOP / "tools" / tool), *map(str, words)], input=data, capture_output=True)
    return done.stdout, done.stderr.decode(), done.returncode


def hold_example(name):
    """Of one example: text, job file, plan and chart."""
    text, job, plan = ((EXAMPLES / f"{name}.{kind}") for kind in ("txt", "job", "plan"))
    data = job.read_bytes()
    hold(f"the job of {name}.txt", jobtext.make(text.read_text()), data)
    hold(f"the text of {name}.job, made again", jobtext.make(jobtext.show(data)), data)
    hold(f"the plan of {name}.job by the reference", rules.report(data), plan.read_text())
    chart, said, status = run("gantt", job, data=plan.read_bytes())
    hold(f"the chart of {name}", (said, status), ("", 0))
    boxes = [box for box in Xml.fromstring(chart).iter(f"{SVG}rect") if box.find(f"{SVG}title") is not None]
    rows = [row.split() for row in plan.read_text().split("\n")[1:-5]]
    due = ["step {}: board {}, start {}, finish {}".format(*row) for row in rows]
    hold(f"the boxes of {name}", [box.find(f"{SVG}title").text for box in boxes], due)
    marks = [mark for mark in Xml.fromstring(chart).iter(f"{SVG}path") if mark.get("class") == "gate"]
    hold(f"the results of {name}", [mark.find(f"{SVG}title").text for mark in marks], list(due_marks(rules.read(data))))
    hold_chains(name, chart, rules.read(data))
    if name == PICTURE:
        hold("docs/plan.svg", (TOP / "docs" / "plan.svg").read_bytes(), chart)


def hold_chains(name, chart, job):
    """The chart's chains: what the moves that it draws take in all is cover and least, and their steps have the chain's colour. Where the
    least is the cover, one chain is drawn, as the cover's."""
    cover, least, _ = rules.figures(job, rules.plan(job))
    links, boxes = ([drawn for drawn in Xml.fromstring(chart).iter(SVG + shape) if drawn.find(f"{SVG}title") is not None
                     and kind in drawn.get("class").split()] for shape, kind in (("path", "link"), ("rect", "step")))
    for chain, due in ("cover", cover), ("least", 0 if least == cover else least):
        titles = [link.find(f"{SVG}title").text for link in links if ("least" in link.get("class").split()) == (chain == "least")]
        moves = [re.search(r"from step (\d+) back to (\d+): .* messages take ([\d,]+) ticks? to it$", title).groups() for title in titles]
        hold(f"the sum of the {chain}'s chain of {name}", sum(int(time.replace(",", "")) for _, _, time in moves), due)
        coloured = {str(step) for step, box in enumerate(boxes) if chain in box.get("class").split()}
        hold(f"the steps on the {chain}'s chain of {name}", sorted(coloured), sorted({step for move in moves for step in move[:2]}))


def hold_both_plans():
    """The rows of a text that tell weights, and board and start of each step with the end, by number and by weight."""
    job = rules.read((EXAMPLES / f"{BOTH}.job").read_bytes())
    due = {"weight": list(map(str, rules.weights(job)))}
    for ties in ("number", "weight"):
        plan = rules.plan(job, ties)
        due[f"by {ties}"] = [f"{board}@{start}" for board, start in zip(plan.board, plan.start)] + [str(plan.end)]
    text = (EXAMPLES / f"{BOTH}.txt").read_text()
    rows = {name: row.split() for name, row in re.findall(r"^# +(weight|by number|by weight) +(\d.*)$", text, re.M)}
    hold(f"the rows of {BOTH}.txt", rows, due)


def due_marks(job):
    """What the chart says of each result."""
    plan, counts = rules.plan(job), dict(job.results)
    for step, time in rules.result_times(job, plan.board):
        finish, count = plan.start[step] + job.durations[step], counts[step]
        messages = f"{count:,} message" + "s" * (count != 1)
        yield f"result of step {step}: {messages}, from board {plan.board[step]} at {finish} to board 0 at {finish + time}"


def page_of(name):
    """The reference's page of an example's plan."""
    return rules.page_report((EXAMPLES / f"{name}.job").read_bytes())


def hold_pages():
    """The pages that are shown to fitters, and the one that the program is to print in the gate, byte for byte."""
    for file, pattern, indent, names in PAGES:
        shown = re.findall(pattern, (TOP / file).read_text(), re.S | re.M)
        hold(f"the examples with a page in {file}", [name for name, _ in shown], names)
        for name, page in shown:
            hold(f"the page of {name} in {file}", page, textwrap.indent(page_of(name), indent))
    crate = TOP / "crates" / "page"
    hold("crates/page/stdin", (crate / "stdin").read_bytes(), (EXAMPLES / f"{RUN}.job").read_bytes())
    hold("crates/page/stdout", (crate / "stdout").read_text(), page_of(RUN))


def hold_texts():
    for text, line, message in BAD_TEXTS:
        try:
            jobtext.make(text)
        except jobtext.BadText as bad:
            hold(f"the text {text[:60]!r}", (bad.line, bad.what), (line, message))
        else:
            raise Differs(f"the text {text[:60]!r} is taken")


def hold_files():
    """The refusals of the table, then those of random files."""
    for data, number, at, what in BAD_FILES:
        try:
            jobfile.read(data)
        except jobfile.Refused as refused:
            hold(f"the file {data[:40].hex()}", (refused.number, refused.at, refused.what), (number, at, what))
        else:
            raise Differs(f"the file {data[:40].hex()} is taken")
    for number in range(FILES):
        data = some_file(Dice(number))
        hold(f"random file {number}", *(answer(module, data) for module in (jobfile, rules)))


def answer(module, data):
    """A reader's refusal of a file, or 0."""
    try:
        module.read(data)
    except module.Refused as refused:
        return refused.number
    return 0


def walked_files():
    """The random files that are small jobs, and little jobs, in which ties are likely, with their names."""
    for number in range(FILES):
        data = some_file(Dice(number))
        if answer(rules, data) == 0 and len(data) < 400:
            yield f"random file {number}", data
    for number in range(LITTLE_JOBS):
        yield f"little job {number}", rules.write(little_job(Dice(number)))


def hold_walks():
    """The end, and the walks' sums, which are cover and least; gives on how many jobs, and on how many the least is below the cover."""
    walked = below = 0
    for name, data in walked_files():
        plan, job = listing.read(rules.report(data).encode()), jobfile.read(data)
        cover, least = cover_walk(job, plan.steps), least_walk(job, plan.steps)
        hold(f"the end in {name}", results.end(job, plan.steps), plan.end)
        hold(f"the sum of the cover's walk in {name}", cover.total(), plan.cover)
        hold(f"the sum of the least's walk in {name}", least.total(), plan.least)
        hold_least(f"the least's walk in {name}", rules.read(data), least)
        hold_first(f"the least's walk in {name}", job, plan.steps, cover, least)
        walked, below = walked + 1, below + (plan.least < plan.cover)
    return walked, below


def hold_least(what, job, walk):
    """A walk begins with a step that finishes last, makes moves that the reference allows, and ends where that has none."""
    plan = rules.plan(job)
    hold(f"{what}, the finish of its first step", plan.start[walk.first] + job.durations[walk.first], plan.last)
    at = walk.first
    for move in walk.moves:
        allowed = rules.walk_choices(job, plan, at) or []
        hold(f"{what}, the move at step {at}", (move.step, (move.time, move.predecessor) in allowed), (at, True))
        at = move.predecessor
    hold(f"{what}, the moves after step {at}", rules.walk_choices(job, plan, at), None)


def walks_from(job, steps, step):
    """All walks from a step."""
    ways = ways_on(job, steps, steps[step])
    if ways is None:
        yield Walk(step, [])
    for move in ways or []:
        for walk in walks_from(job, steps, move.predecessor):
            yield Walk(step, [move, *walk.moves])


def hold_first(what, job, steps, cover, least):
    """Where all walks of a plan are few: the least's is the cover's if that has the least sum, else the first of those that have, by first
    step, then by board and predecessor of each move."""
    last = max(row.finish for row in steps)
    walks = list(islice((walk for row in steps if row.finish == last for walk in walks_from(job, steps, row.step)), FEW_WALKS))
    if len(walks) < FEW_WALKS:
        due = min(walks, key=lambda walk: (walk.total(), walk.first, [(move.board, move.predecessor) for move in walk.moves]))
        hold(what, least, cover if cover.total() == due.total() else due)


def hold_strange():
    """Plans that are not the planner's, as a walk of theirs comes to no end."""
    for walk, rows, said in (
        (cover_walk, "0 0 1 5\n1 0 5 9\n", "board 0 is idle at tick 0, and step 0 waits for nothing"),
        (least_walk, "0 0 1 5\n1 0 5 9\n", "no walk from step 1 comes to a step before which no tick is short"),
        (least_walk, "0 0 0 4\n1 0 20 24\n", "no walk from step 1 comes to a step before which no tick is short"),
    ):
        plan = listing.read(f"plan 2 2 1\n{rows}end 24\ncover 0\nleast 0\ndearest 2\n".encode())
        try:
            walk(jobfile.read(jobtext.make("rack 2 flat 2\nstep 4\nstep 4\nlink 0 1 1\n")), plan.steps)
        except Trouble as trouble:
            hold(f"a plan that is not the planner's, {rows!r}", str(trouble), f"this plan is not the planner's: {said}")
        else:
            raise Differs(f"the plan {rows!r} is taken for the planner's")


def hold_programs():
    """The two programs, as a person runs them."""
    text, job, plan = ((EXAMPLES / f"a.{kind}") for kind in ("txt", "job", "plan"))
    shown = run("job", "show", job)
    hold("tools/job show", shown, (jobtext.show(A).encode(), "", 0))
    hold("tools/job make of what it showed", run("job", "make", "-", data=b"\xef\xbb\xbf" + shown[0].replace(b"\n", b"\r\n")), (A, "", 0))
    hold("tools/job make of an absent file", run("job", "make", "absent.txt"), (b"", "absent.txt: No such file or directory\n", 1))
    said = "standard input:2: step: 1 word must follow (duration), not 0\n"
    hold("tools/job make of a bad text", run("job", "make", data=b"rack 1 flat 1\nstep\n"), (b"", said, 1))
    hold("tools/job make of no text", run("job", "make", data=b"rack\n\xff"), (b"", "standard input:2: this is not text in UTF-8\n", 1))
    said = "standard input: refused 1 at byte 0: the file ends where a record or its body is due (a record is due)\n"
    hold("tools/job show of a bad file", run("job", "show"), (b"", said, 1))
    said = "there is no plan to draw: the job was refused by 8 (bytes after the end record)\n"
    hold("tools/gantt of a refusal", run("gantt", job, data=b"refused 8\n"), (b"", said, 1))
    said = "this is no plan's listing: line 1 should be `plan` with boards, steps and links\n"
    hold("tools/gantt of no listing", run("gantt", job, data=b"\xff\n"), (b"", said, 1))
    said = "the listing's cover is 5, but the walk's sum is 6\n"
    hold("tools/gantt of a wrong cover", run("gantt", job, data=plan.read_bytes().replace(b"cover 6", b"cover 5"))[1:], (said, 1))
    hold_wrong_least(job, plan.read_bytes())
    said = "the listing is of another job: 2 boards, 3 steps and 2 links, the job has 8, 16 and 26\n"
    hold("tools/gantt of another job", run("gantt", EXAMPLES / "ring.job", data=plan.read_bytes()), (b"", said, 1))
    hold("tools/gantt of a listing alone", run("gantt", data=plan.read_bytes())[1:], ("", 0))
    hold_ends(plan.read_bytes())
    closed = subprocess.run(f"'{sys.executable}' '{TOP}/tools/job' show '{job}' 2>&1 >&-", shell=True, capture_output=True, text=True)
    hold("tools/job with no output", (closed.stdout, closed.returncode), ("standard output: Bad file descriptor\n", 1))


def hold_wrong_least(job, plan):
    """tools/gantt of listings whose least is not the least walk's sum, says so in the chart too, or who have none."""
    said = "the listing's least is 6, but the least walk's sum is 2"
    chart, *told = run("gantt", job, data=plan.replace(b"least 2", b"least 6"))
    hold("tools/gantt of a wrong least", told, [said + "\n", 1])
    wrong = [text.text for text in Xml.fromstring(chart).iter(f"{SVG}text") if text.get("class") == "wrong"]
    hold("the chart of a wrong least", wrong, [said])
    both = plan.replace(b"cover 6", b"cover 5").replace(b"least 2", b"least 6")
    said = f"the listing's cover is 5, but the walk's sum is 6; {said}\n"
    hold("tools/gantt of a wrong cover and least", run("gantt", job, data=both)[1:], (said, 1))
    said = "this is no plan's listing: line 7 should be `least` with a number\n"
    hold("tools/gantt of a listing without least", run("gantt", job, data=plan.replace(b"least 2\n", b"")), (b"", said, 1))


def hold_ends(plan):
    """tools/gantt of listings whose end is not what it should be; one alone may end after the last finish."""
    late = (EXAMPLES / "results.plan").read_bytes()
    said = "this is no plan's listing: it ends at 7, before the last finish, 8\n"
    hold("tools/gantt of an early end", run("gantt", data=plan.replace(b"end 8", b"end 7")), (b"", said, 1))
    said = "the listing is of another job: it ends at 9, by the job's steps and results it ends at 8\n"
    hold("tools/gantt of a late end", run("gantt", EXAMPLES / "a.job", data=plan.replace(b"end 8", b"end 9")), (b"", said, 1))
    said = "the listing is of another job: it ends at 58, by the job's steps and results it ends at 67\n"
    hold("tools/gantt of the last finish", run("gantt", EXAMPLES / "results.job", data=late.replace(b"end 67", b"end 58")), (b"", said, 1))
    hold("tools/gantt of results alone", run("gantt", data=late)[1:], ("", 0))


def main():
    try:
        hold("the examples", sorted(file.stem for file in EXAMPLES.glob("*.txt")), NAMES)
        for name in NAMES:
            hold_example(name)
        hold_both_plans()
        hold_pages()
        hold_texts()
        hold_files()
        walked, below = hold_walks()
        hold_strange()
        hold_programs()
    except Differs as trouble:
        print(f"examples: FAILED: {trouble}")
        return 1
    pages = 1 + sum(len(names) for *_, names in PAGES)
    print(f"examples: {len(NAMES)} jobs with text, plan and chart, {pages} pages, {len(BAD_TEXTS)} bad texts, {len(BAD_FILES)} bad files, "
          f"{FILES} random files, the walks of {walked} jobs, {below} with a least below the cover: 0 differ")
    return 0


if __name__ == "__main__":
    sys.exit(main())
