"""Plans that are handed in: the planner's, other good ones, ones with a little changed, random ones, cut ones.

A plan is a list of a processor and a start for each task.
"""
import rules

LATEST = rules.LATEST_START


def as_bytes(plan):
    return b"".join(bytes([p]) + start.to_bytes(4, "little") for p, start in plan)


def as_plan(data, m):
    return [(data[5 * t], rules.number(data[5 * t + 1 : 5 * t + 5])) for t in range(m)]


def tight(dice, job):
    """A good plan: each task by number on some processor, as early as that and the messages allow."""
    plan, free, durations = [], [0] * job.boards, job.durations
    for t, duration in enumerate(durations):
        p = dice.below(job.boards)
        there = [plan[l[0]][1] + durations[l[0]] + rules.bundle(job, l, plan[l[0]][0], p) for l in job.links if l[1] == t]
        start = max([free[p], *there])
        free[p] = start + duration
        plan.append((p, start))
    return plan


def later(dice, plan):
    """The whole plan moved."""
    ticks = dice.one_of([1, dice.between(1, 1000), LATEST - max(start for _, start in plan), LATEST])
    return [(p, start + ticks) for p, start in plan]


def by_chance(dice, job):
    horizon = dice.one_of([1, 10, sum(job.durations), 2 * LATEST])
    return [(dice.below(job.boards), dice.below(horizon + 1)) for _ in job.steps]


def changed(dice, job, plan):
    """The plan with one placement changed by a little."""
    t, u = dice.below(len(plan)), dice.below(len(plan))
    p, start = plan[t]
    durations = job.durations
    p, start = dice.one_of([
        (p, start - 1), (p, start - 1), (p, start + 1), (p, 0), (p, start + dice.between(2, 1000)),
        (p, LATEST), (p, LATEST + 1), (p, dice.between(LATEST + 1, 2**32 - 1)), (p, plan[u][1]),
        (plan[u][0], start), (dice.below(job.boards), start), (job.boards, start), (dice.between(job.boards, 255), start),
        (p, max(0, plan[u][1] - durations[t])), (p, plan[u][1] + durations[u]),
    ])
    return plan[:t] + [(p, start % 2**32)] + plan[t + 1 :]


def handed_in(dice, job, planned):
    """The bytes of some plans for a job whose plan, by the planner, is given."""
    own = as_bytes(planned)
    yield own
    yield own + bytes(dice.below(256) for _ in range(dice.between(1, 9)))
    yield own[:-1]
    yield own[: dice.below(len(own))]
    yield as_bytes(later(dice, planned))
    for _ in range(5):
        yield as_bytes(changed(dice, job, planned))
    for _ in range(3):
        other = tight(dice, job)
        yield as_bytes(other)
        yield as_bytes(changed(dice, job, other))
    for _ in range(3):
        yield as_bytes(changed(dice, job, changed(dice, job, dice.one_of([planned, other]))))
    yield as_bytes(by_chance(dice, job))
    short = as_bytes(changed(dice, job, by_chance(dice, job)))
    yield short[: dice.below(len(short) + 1)]
