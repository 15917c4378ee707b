"""Jobs that tell the rules from ones that are close to them: document 01's shortcuts, and other ends of each tie.

A wrong rule is the reference with one place of its text changed. Each job here gets another plan, end, arrival, C or dearest chain
by it; that is made sure of before the job is a case.
"""
import rules
from rules import wrong
from vectors.entries import planned
from vectors.jobs import SHAPES
from vectors.told import of_job
from vectors.worked import spread, waiting

POSTPONED_AT_NM = wrong("min(pairs)[0] <= nm", "min(pairs)[0] < nm")
NEVER_POSTPONED = wrong("(nm is None or min(pairs)[0] <= nm)", "True")
FREE_WHILE_PROMISED = wrong("for step in self.start if self.finish[step] > self.cm",
                            "for step in self.start if self.start[step] <= self.cm < self.finish[step]")
RING_DIFFERENCE = wrong("return min(d, job.boards - d)", "return d")
END_OF_LAST_NUMBER = wrong("end_of(job, board, finish), max(finish), table", "finish[m - 1], max(finish), table")
SHORTCUTS = [POSTPONED_AT_NM, NEVER_POSTPONED, FREE_WHILE_PROMISED, RING_DIFFERENCE, END_OF_LAST_NUMBER]

CUBE_HOPS = "differing_places(p, q) if 5 in ON else CUBE[16 * p + q]"
TIES = [
    wrong("step, board = min(pairs)", "step, board = min(pairs, key=lambda pair: (pair[0], -pair[2], pair[3]))"),
    wrong("step, board = min(pairs)", "step, board = min(pairs, key=lambda pair: (pair[0], pair[2], -pair[3]))"),
    wrong("step, total = finish.index(max(finish)), 0", "step, total = len(finish) - 1 - finish[::-1].index(max(finish)), 0"),
    wrong("lowest = found[1][0]", "lowest = found[1][-1]"),
    wrong("latest = max(tick for", "latest = min(tick for"),
    wrong("key=lambda b: (-b[0], b[1])", "key=lambda b: (-b[0], -b[1])"),
    wrong("best[to] = max(best[to], best[start] + time)", "best[to] = best[start] + time"),
    wrong("most = max(cost(job, p, q) for p in range(n) for q in range(n))", "most = cost(job, 0, n - 1)"),
]
HOPS = [wrong(CUBE_HOPS, "abs(p - q)"), wrong(CUBE_HOPS, "1")]


def findings(of, job):
    """All that planner and cover call give for a job by some rules."""
    plan = of.plan(job)
    return plan.start, plan.board, plan.end, plan.arrival, of.cover(job, plan), of.dearest(job)


def tells(other, job):
    try:
        return findings(other, job) != findings(rules, job)
    except ValueError:  # a walk that goes on to no predecessor
        return True


def little_job(dice):
    m = dice.between(2, 9)
    pairs = sorted(set(dice.one_of(SHAPES)(dice, m)))
    most = dice.one_of([2, 4, 9])
    return rules.job(dice.between(2, 7), dice.below(3), dice.between(0, 4), [dice.between(1, most) for _ in range(m)],
                     [(a, b, dice.between(1, 3)) for a, b in pairs])


def named(cases):
    """What document 01 says of each shortcut."""
    e, h, k = spread(2), spread(5), waiting(2, 5, 0, 4)
    assert POSTPONED_AT_NM.plan(e).board[2] == 0 and rules.plan(e).board[2] == 1
    assert NEVER_POSTPONED.plan(h).end == 10 and rules.plan(h).end == 7
    assert RING_DIFFERENCE.hops(k, 0, 4) == 4 and rules.hops(k, 0, 4) == 1
    assert RING_DIFFERENCE.plan(k).start[6] == 4 + 3 * 4 and rules.plan(k).start[6] == 4 + 3
    last = rules.job(2, 0, 0, [9, 1], [])
    assert END_OF_LAST_NUMBER.plan(last).end == 1 and rules.plan(last).end == 9
    planned(cases, of_job(last).data)


def telling(dice, other, some_job, count):
    """The files of so many jobs that a wrong rule plans in another way."""
    for _ in range(count):
        job = some_job(dice)
        while not tells(other, job):
            job = some_job(dice)
        yield of_job(job).data


def add_cases(cases, dice):
    named(cases)
    for other in SHORTCUTS + TIES + HOPS:
        for data in telling(dice, other, little_job, 6):
            planned(cases, data)
