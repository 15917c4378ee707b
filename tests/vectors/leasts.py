"""Cases of the least C (document 02 §7) in cover calls and listing: jobs on which it is below C, and which choice makes it so: the idle
board, the predecessor, or the step that the walk begins with.

A wrong rule is the reference with one place of its text changed. Each job here that is drawn for one gets another least C by it; that
is made sure of before the job is a case.
"""
from typing import NamedTuple

import rules
from rules import wrong
from vectors.entries import listing, plan, plan_by_weight, planned
from vectors.jobs import MOST_TASKS
from vectors.told import of_job
from vectors.weights import drawn

# ---- wrong rules: one of the three choices not left open, and others

BOARDS = "tick, boards = found\n"
AFTER = "if arrival > tick]"
REACHED = "bundles_to(job, made, step, board) if arrival > tick]"
TIMES = "    return [(time, before) for board in boards\n"
SUM = "from_here.append(min(time + from_here[before] for time, before in choices))"
BEGUN = "return min(from_here[step] for step in range(len(finish)) if finish[step] == max(finish))"
NARROWER = {
    "the lowest idle board alone": wrong(BOARDS, "tick, boards = found[0], found[1][:1]\n"),
    "the predecessor that arrives last alone":
        wrong(AFTER, "if (-arrival, before) == min((-there, other) for there, other, _ in bundles_to(job, made, step, board))]"),
    "the lowest step that finishes last alone": wrong(BEGUN, "return from_here[finish.index(max(finish))]"),
}
WRONG = {
    **NARROWER,
    "C": wrong("    from_here = []  #", "    return cover(job, made)  #"),
    "the highest idle board alone": wrong(BOARDS, "tick, boards = found[0], found[1][-1:]\n"),
    "any board": wrong(BOARDS, "tick, boards = found[0], range(job.boards)\n"),
    "each board by its own latest idle tick":
        wrong(BOARDS, "boards = [b for b in range(job.boards) if latest_idle(job, made, b, made.start[step]) is not None]; return [(time, "
                      "before) for board in boards for arrival, before, time in bundles_to(job, made, step, board) "
                      "if arrival > latest_idle(job, made, board, made.start[step])]\n"),
    "any predecessor": wrong(AFTER, "]"),
    "a bundle that is there at the tick": wrong(AFTER, "if arrival >= tick]"),
    "none that is there a tick later": wrong(AFTER, "if arrival > tick + 1]"),
    "none that is there before the start": wrong(AFTER, "if arrival >= made.start[step]]"),
    "the bundle's time to the step's own board":
        wrong(TIMES, "    own = {before: time for _, before, time in bundles_to(job, made, step, made.board[step])}\n"
                     "    return [(own[before], before) for board in boards\n"),
    "the cost of the way back":
        wrong(REACHED, "[(finishes(job, made)[a] + k * cost(job, board, made.board[a]), a, k * cost(job, board, made.board[a])) "
                       "for a, b, k in job.links if b == step] if arrival > tick]"),
    "the highest step that finishes last alone": wrong(BEGUN, "return from_here[len(finish) - 1 - finish[::-1].index(max(finish))]"),
    "any step": wrong(BEGUN, "return min(from_here)"),
    "any step with no successor": wrong(BEGUN, "return min(from_here[step] for step in range(len(finish)) "
                                               "if all(start != step for start, _, _ in job.links))"),
    "a step whose result arrives last":
        wrong(BEGUN, "there = dict(result_times(job, made.board)); finish = [f + there.get(s, 0) for s, f in enumerate(finish)]; " + BEGUN),
    "with the result's time": wrong(BEGUN, BEGUN + " + dearest_result(job, made)"),
    "the cheapest move each time": wrong(SUM, "time, before = min(choices); from_here.append(time + from_here[before])"),
    "one move alone": wrong(SUM, SUM.replace(" + from_here[before]", "")),
    "the dearest way on": wrong(SUM, SUM.replace("min(", "max(")),
    "the greatest of the steps that finish last": wrong(BEGUN, BEGUN.replace("min(", "max(")),
}


def least(of, job, ties="number"):
    """The least C by some rules; none where a walk comes to a step from which they let it go nowhere."""
    try:
        return of.least(job, of.plan(job, ties))
    except ValueError:
        return None


# ---- jobs worked out

class Worked(NamedTuple):
    """A job; its C and its least C; what the narrower rules give in its place."""
    job: rules.Job
    cover: int
    least: int
    narrower: tuple


def fan():
    """Step 0 sends to 16 others, which all finish at 40, each on a board of its own; so many messages that step 9 has the fewest."""
    counts = [(t + 7) % 16 + 1 for t in range(1, 17)]
    return rules.job(16, 0, 1, [1, 39] + [39 - count for count in counts[1:]], [(0, t, count) for t, count in enumerate(counts, 1)])


WORKED = [
    # the board: at tick 1 both are idle. To board 0 the two messages of step 1 take 2, to board 1 the one of step 0 takes 1.
    Worked(rules.job(2, 0, 1, [1, 1, 1], [(0, 2, 1), (1, 2, 2)]), 2, 1, (2, 1, 1)),
    # the predecessor: both would reach board 1 after tick 1. By step 1, which is later, the walk goes on to 0: 4 + 2, by 0 alone 2.
    Worked(rules.job(2, 0, 2, [1, 1, 1], [(0, 1, 1), (0, 2, 1), (1, 2, 2)]), 6, 2, (2, 6, 2)),
    # the first step: 1 and 2 finish last, and the messages from 0 are three and one
    Worked(rules.job(2, 0, 1, [1, 2, 1], [(0, 1, 3), (0, 2, 1)]), 3, 1, (1, 1, 3)),
    # board and predecessor: only at board 2 the bundle of step 1 is late enough; at board 1, its own, it is there at tick 1
    Worked(rules.job(3, 0, 1, [2, 1, 1], [(0, 2, 2), (1, 2, 1)]), 2, 1, (2, 2, 1)),
    # board and first step, predecessor and first step, all three: each of them left out gives C
    Worked(rules.job(2, 0, 1, [2, 2, 3, 4], [(0, 2, 3), (0, 3, 1), (1, 2, 2), (1, 3, 2)]), 2, 1, (2, 1, 2)),
    Worked(rules.job(4, 0, 2, [1, 3, 3, 1], [(0, 1, 3), (0, 3, 1), (2, 3, 3)]), 6, 2, (2, 6, 6)),
    Worked(rules.job(4, 2, 2, [2, 1, 4, 2], [(0, 1, 2), (0, 2, 3), (0, 3, 1), (1, 2, 1), (1, 3, 1)]), 6, 4, (6, 6, 6)),
    # board or predecessor: from C to the least by either
    Worked(rules.job(2, 2, 1, [3, 2, 1, 2], [(0, 3, 1), (1, 3, 2), (2, 3, 1)]), 2, 1, (1, 1, 1)),
    # a step that starts at 0 finishes last too, with nothing to cover; from the lowest, messages take 2 to board 2 and 1 to board 3
    Worked(rules.job(4, 2, 1, [1, 2, 3], [(0, 1, 1)]), 2, 0, (0, 0, 1)),
    # of 16 steps that finish last one in the middle: one message, where the lowest has nine
    Worked(fan(), 9, 1, (1, 1, 9)),
    # no edges, and one board: no tick is short before a start, and C is the least
    Worked(rules.job(3, 2, 100, [4, 4, 4, 4, 2, 2], []), 0, 0, (0, 0, 0)),
    Worked(rules.job(1, 0, 100, [3, 2, 1], [(0, 1, 1000), (0, 2, 1), (1, 2, 1000)]), 0, 0, (0, 0, 0)),
]


def worked(cases):
    for job, cover, due, narrower in WORKED:
        file = of_job(job)
        assert (file.cover, file.least) == (cover, due), job
        assert tuple(least(other, job) for other in NARROWER.values()) == narrower, job
        planned(cases, file.data)


# ---- jobs that are drawn

def tells(other, job, ties):
    """Does a wrong rule give another least C? That it gives none is not enough."""
    return least(other, job, ties) not in (None, least(rules, job, ties))


def telling(cases, dice):
    """For each wrong rule a job by number, and one by weight which by number has another least C."""
    for other in WRONG.values():
        plan(cases, of_job(drawn(dice, lambda job: tells(other, job, "number"))).data)
        both = drawn(dice, lambda job: tells(other, job, "weight") and least(rules, job) != least(rules, job, "weight"))
        plan_by_weight(cases, of_job(both).data)


# ---- great numbers

def longest():
    """A chain of 241 steps on board 0, each with 1,000 messages for the next, beside steps that keep the others busy; but board 8, the
    farthest on the ring, is idle from tick 1 on, and before the last step of the chain board 15 too, a hop away. So C is 240 times
    1,000 x 8 x 100, and the least goes through board 15 in the last move. The steps weigh less from one to the next of those that can
    start at 0, so that both orders give this plan. A sum of 255 x 800,000 = 204,000,000, which no walk passes, cannot be had: each idle
    board would have to be eight hops away, and so fourteen others busy with steps that are not in the walk."""
    head = [4000] + [1_000_000] * 7 + [1] + [985_000] * 6 + [956_001]
    chain = [0, *range(len(head), MOST_TASKS)]
    links = [(a, b, 1000) for a, b in zip(chain, chain[1:])] + [(8, MOST_TASKS - 1, 1000)]
    return rules.job(16, 2, 100, head + [4000] * 239 + [990_000], sorted(links))


def greatest(cases):
    file = of_job(longest())
    assert file.tasks == MOST_TASKS and (file.cover, file.least) == (192_000_000, 191_300_000)
    assert file.by_weight == (file.plan, file.figures)
    plan(cases, file.data)
    plan_by_weight(cases, file.data)
    listing(cases, file.data)


def add_cases(cases, dice):
    worked(cases)
    telling(cases, dice)
    greatest(cases)
