"""Cases of ties by weight (document 02 §6) in planner and cover call: jobs that tell it from ties by number, and from wrong weights.

A wrong rule is the reference with one place of its text changed. Each job here that is drawn for one gets another plan, end,
arrival or C by it, and by number another one than by weight; both are made sure of before the job is a case.
"""
from typing import NamedTuple

import rules
from rules import wrong
from vectors.entries import SCRATCH, plan_by_weight
from vectors.jobs import MOST_TASKS, SHAPES, greatest_of_all, with_results, with_wires
from vectors.records import END, link, rack, step
from vectors.refusals import REFUSED
from vectors.told import of_job, told

# ---- wrong rules: other weights, and other ends of each tie. Whether the lower board or the task comes first settles nothing: of the
# pairs with one start, tasks that take the best board left and boards that take the best task left come to the same.

HEAVIER = "after = [weight[to] for start, to, _ in job.links if start == step]"
WEIGHT = "weight[step] = job.steps[step].high + max(after, default=0)"
PAIR = "pairs = [(max(self.cm, self.arrival(step, board)), -self.priority[step], step, board)"
CHOSEN = "start, _, step, board = min(pairs)"
WRONG = {
    "the sum of the successors' weights": wrong(WEIGHT, "weight[step] = job.steps[step].high + sum(after)"),
    "the least of them": wrong(WEIGHT, "weight[step] = job.steps[step].high + min(after, default=0)"),
    "that of the last of them": wrong(WEIGHT, "weight[step] = job.steps[step].high + (after[-1] if after else 0)"),
    "steps in place of durations": wrong(WEIGHT, "weight[step] = 1 + max(after, default=0)"),
    "the duration alone": wrong(WEIGHT, "weight[step] = job.steps[step].high"),
    "the work after the step": wrong(HEAVIER, "after = [weight[to] + job.steps[to].high for start, to, _ in job.links if start == step]; "
                                              "weight[step] = max(after, default=0); continue"),
    "the successors' durations": wrong(HEAVIER, "after = [job.steps[to].high for start, to, _ in job.links if start == step]"),
    "how many successors": wrong(WEIGHT, "weight[step] = len(after)"),
    "with the messages": wrong(HEAVIER, "after = [weight[to] + count * job.unit for start, to, count in job.links if start == step]"),
    "with the results": wrong(WEIGHT, "weight[step] = job.steps[step].high + max(after, default=dict(job.results).get(step, 0))"),
    "the least weight first": wrong(PAIR, PAIR.replace("-self.priority", "self.priority")),
    "the higher number first": wrong(CHOSEN, "start, _, step, board = min(pairs, key=lambda pair: (pair[0], pair[1], -pair[2], pair[3]))"),
    "the higher board first": wrong(CHOSEN, "start, _, step, board = min(pairs, key=lambda pair: (pair[0], pair[1], pair[2], -pair[3]))"),
    "the weight before the start":
        wrong(CHOSEN, "start, _, step, board = min((pair for pair in pairs if nm is None or pair[0] <= nm), "
                      "key=lambda pair: (pair[1], pair[0], pair[2], pair[3]))"),
}


def findings(of, job, ties="weight"):
    """All that planner and cover call give for a job by some rules."""
    plan = of.plan(job, ties)
    return plan.start, plan.board, plan.end, plan.arrival, of.cover(job, plan)


def tells(other, job):
    """Do both the order by number and a wrong rule give another plan, end, arrival or C?"""
    due = findings(rules, job)
    return due not in (findings(rules, job, "number"), findings(other, job))


def little_job(dice):
    """Small numbers, which make ties in start and in weight likely; now and then wires, and results."""
    m, n, most = dice.between(4, 9), dice.between(1, 4), dice.one_of([2, 4, 9])
    pairs = sorted(set(dice.one_of(SHAPES)(dice, m)))
    job = rules.job(n, dice.below(3), dice.between(0, 3), [dice.between(1, most) for _ in range(m)],
                    [(a, b, dice.between(1, 3)) for a, b in pairs])
    job = with_wires(dice, job) if dice.below(4) == 0 else job
    return with_results(dice, job, 6) if dice.below(2) else job


def drawn(dice, takes):
    """The first job drawn that is taken."""
    return next(job for job in (little_job(dice) for _ in range(20_000)) if takes(job))


# ---- jobs with both plans worked out

class Worked(NamedTuple):
    """A job; its weights; boards, starts, end and C by number, and by weight."""
    job: rules.Job
    weights: list
    by_number: tuple
    by_weight: tuple


WORKED = [
    # by number tasks 0 and 1 go first, and task 4, of 4 ticks, is begun a tick later
    Worked(rules.job(2, 0, 1, [1, 1, 1, 1, 4], [(0, 3, 1), (1, 3, 1), (2, 4, 1)]), [2, 2, 5, 1, 4],
           ([0, 1, 0, 1, 0], [0, 0, 1, 2, 2], 6, 1), ([1, 1, 0, 1, 0], [0, 1, 0, 2, 1], 5, 0)),
    # a tie in weight: tasks 0 and 2 both have 3, and 0 goes first; before task 1, which has 2
    Worked(rules.job(1, 0, 0, [2, 1, 3, 1], [(0, 3, 1), (1, 3, 2)]), [3, 2, 3, 1],
           ([0, 0, 0, 0], [0, 2, 3, 6], 7, 0), ([0, 0, 0, 0], [0, 5, 2, 6], 7, 0)),
    # the greatest weight among the successors and not their sum: task 0 has 1 + 3, so task 3 with 5 goes first
    Worked(rules.job(1, 0, 0, [1, 3, 3, 5], [(0, 1, 1), (0, 2, 1)]), [4, 3, 3, 5],
           ([0, 0, 0, 0], [0, 1, 4, 7], 12, 0), ([0, 0, 0, 0], [5, 6, 9, 0], 12, 0)),
    # the start comes before the weight: at 1 task 3 may start at once, and task 2, which has the greater weight, at 2
    Worked(rules.job(2, 0, 1, [1, 1, 5, 1], [(0, 2, 1), (1, 2, 1)]), [6, 6, 5, 1],
           ([0, 1, 1, 0], [0, 0, 2, 1], 7, 1), ([0, 1, 1, 0], [0, 0, 2, 1], 7, 1)),
    # of two tasks made ready at one tick the heavier takes the board where it starts at once: task 3 and not task 2
    Worked(rules.job(2, 0, 1, [3, 2, 1, 3, 1], [(0, 2, 1), (0, 3, 1), (1, 4, 2)]), [6, 3, 1, 3, 1],
           ([0, 1, 0, 1, 1], [0, 0, 3, 4, 2], 7, 1), ([0, 1, 1, 0, 1], [0, 0, 4, 3, 2], 6, 0)),
    # durations and not how many tasks follow: task 0 has three after it and 4 ticks in all, task 4 has none and 5
    Worked(rules.job(1, 0, 0, [1, 1, 1, 1, 5], [(0, 1, 1), (1, 2, 1), (2, 3, 1)]), [4, 3, 2, 1, 5],
           ([0] * 5, [0, 1, 2, 3, 4], 9, 0), ([0] * 5, [5, 6, 7, 8, 0], 9, 0)),
    # a tie on boards: equal tasks take the lowest board that is free, the heavy one board 0
    Worked(rules.job(3, 0, 0, [2, 2, 2, 3], []), [2, 2, 2, 3],
           ([0, 1, 2, 0], [0, 0, 0, 2], 5, 0), ([1, 2, 1, 0], [0, 0, 2, 0], 4, 0)),
    # a chain, where both orders are the same
    Worked(rules.job(2, 0, 1, [2, 1, 3], [(0, 1, 1), (1, 2, 1)]), [6, 4, 3],
           ([0, 0, 0], [0, 2, 3], 6, 2), ([0, 0, 0], [0, 2, 3], 6, 2)),
]


def worked(cases):
    for job, weights, *due in WORKED:
        assert rules.weights(job) == weights
        for ties, (boards, starts, end, cover) in zip(("number", "weight"), due):
            plan = rules.plan(job, ties)
            assert (plan.board, plan.start, plan.end, rules.cover(job, plan)) == (boards, starts, end, cover), (job, ties)
        plan_by_weight(cases, of_job(job).data)


# ---- jobs that are drawn

def ends(job):
    """The end by number and by weight."""
    return rules.plan(job).end, rules.plan(job, "weight").end


def covers(job):
    """C by number and by weight."""
    return rules.cover(job, rules.plan(job)), rules.cover(job, rules.plan(job, "weight"))


# what is asked of the two figures of a job
APART = [
    (ends, lambda number, weight: weight < number),
    (ends, lambda number, weight: number < weight),
    (covers, lambda number, weight: weight < number),
    (covers, lambda number, weight: number < weight),
]


def apart(cases, dice):
    """Ends and C that are smaller by weight, and ones that are greater."""
    for figures, wanted in APART:
        plan_by_weight(cases, of_job(drawn(dice, lambda job: wanted(*figures(job)))).data)


def telling(cases, dice):
    for other in WRONG.values():
        plan_by_weight(cases, of_job(drawn(dice, lambda job: tells(other, job))).data)


def greatest(cases):
    """256 tasks: weights that rise with the number, so that the last goes first; the greatest weight, 256,000,000."""
    for job in (rules.job(16, 1, 0, list(range(1, MOST_TASKS + 1)), []), greatest_of_all([1] * 240, 1_000_000, 1)):
        plan_by_weight(cases, of_job(job).data)
    chained = rules.job(2, 0, 0, [1_000_000] * MOST_TASKS, [(t, t + 1, 1) for t in range(MOST_TASKS - 1)])
    assert rules.weights(chained)[0] == 256_000_000
    plan_by_weight(cases, of_job(chained).data)


# ---- refusals

def refused(cases):
    """The reader's number, which comes before 9, and 9 for each slice; no slice is altered."""
    for number, files in REFUSED.items():
        assert told(files[0]).refusal == number
        plan_by_weight(cases, files[0], 2, 2, SCRATCH)
    plan_by_weight(cases, rack() + step() * 2 + link(0, 1), 0, 0, 0)
    data, m = of_job(WORKED[0].job).data, len(WORKED[0].weights)
    for rooms in ((m - 1, m, SCRATCH), (m, m - 1, SCRATCH), (m, m, SCRATCH - 1), (0, 0, 0), (m, m, 512), (m + 2, m + 1, SCRATCH + 3)):
        plan_by_weight(cases, data, *rooms)
    plan_by_weight(cases, rack() + step() + END, 1, 1, SCRATCH, (0, 0, 0))


def add_cases(cases, dice):
    worked(cases)
    telling(cases, dice)
    apart(cases, dice)
    greatest(cases)
    refused(cases)
