"""Larger jobs of each shape, on 1 to 16 processors, and plans for some of them that have a little damage."""
import rules
from vectors.entries import SCRATCH, handed, listing, plan, planned, station_plan
from vectors.jobs import MOST_EDGES, MOST_TASKS, SHAPES, dense, fork_join, greatest, greatest_values, layered, numbers, tree_in, tree_out
from vectors.plans import by_chance, changed, later, tight
from vectors.told import of_job

MOST_DURATION, MOST_COUNT = 1_000_000, 1000


def shaped(dice, shape, m, n, wiring, unit):
    pairs = dice.some(sorted(set(shape(dice, m))), MOST_EDGES)
    counts = numbers(dice, MOST_COUNT, len(pairs))
    return rules.job(n, wiring, unit, numbers(dice, MOST_DURATION, m), [(a, b, k) for (a, b), k in zip(pairs, counts)])


def independent(dice, m, n):
    """Equal tasks without edges."""
    return rules.job(n, dice.below(3), dice.below(101), [dice.one_of([1, 7, MOST_DURATION])] * m, [])


def square(n, wiring):
    """Task T is on processor T, and the arrivals of task n + T are the costs from there to each processor."""
    return rules.job(n, wiring, 3, [10] * (2 * n), [(t, n + t, 1) for t in range(n)])


def some_jobs(dice):
    """Each shape on each number of processors."""
    for n in range(1, 17):
        for turn, shape in enumerate(SHAPES):
            m = dice.one_of([dice.between(1, 12), dice.between(10, 30), dice.between(20, 60)])
            yield shaped(dice, shape, m, n, (n + turn) % 3, dice.one_of([0, 1, 2, dice.between(3, 20), 100]))
        yield independent(dice, dice.between(1, 60), n)


def full_jobs(dice):
    """256 tasks, some with 1,024 edges."""
    yield greatest_values()
    yield greatest(dice)
    for turn, shape in enumerate((fork_join, tree_in, tree_out, layered, dense)):
        yield shaped(dice, shape, MOST_TASKS, dice.one_of([3, 8, 16]), turn % 3, dice.one_of([1, 10, 100]))
    yield independent(dice, MOST_TASKS, 16)
    yield rules.job(1, 0, 100, [MOST_DURATION] * MOST_TASKS, [(t, t + 1, MOST_COUNT) for t in range(MOST_TASKS - 1)])
    yield rules.job(16, 1, 100, [MOST_DURATION] * MOST_TASKS, [(t, t + 1, MOST_COUNT) for t in range(MOST_TASKS - 1)])


def damaged_plans(cases, dice, file):
    """A start one tick earlier, two starts swapped, a processor changed, and others."""
    own = list(zip(file.plan.board, file.plan.start))
    t, u = dice.below(len(own)), dice.below(len(own))
    (p, start), (_, other) = own[t], own[u]
    rows = [(p, max(0, start - 1)), (p, other), ((p + 1) % file.job.boards, start)]
    plans = [own[:t] + [row] + own[t + 1 :] for row in rows]
    plans[1][u] = (plans[1][u][0], start)
    plans += [later(dice, own), tight(dice, file.job), changed(dice, file.job, own), changed(dice, file.job, tight(dice, file.job)),
              by_chance(dice, file.job)]
    for rows in plans:
        handed(cases, file.data, rows)


def add_cases(cases, dice):
    for wiring in range(3):
        for n in range(1, 17):
            plan(cases, of_job(square(n, wiring)).data)
    for turn, job in enumerate(some_jobs(dice)):
        file = of_job(job)
        planned(cases, file.data, more=dice.below(4))
        if turn % 3 == 0 and file.tasks < 40:
            damaged_plans(cases, dice, file)
    for turn, job in enumerate(full_jobs(dice)):
        file = of_job(job)
        plan(cases, file.data, MOST_TASKS + turn, MOST_TASKS, SCRATCH + turn)
        station_plan(cases, file.data, 5 * MOST_TASKS + turn)
        listing(cases, file.data)
        handed(cases, file.data, changed(dice, job, list(zip(file.plan.board, file.plan.start))))
