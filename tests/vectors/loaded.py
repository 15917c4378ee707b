"""Cases of jobs with wires (document 02 §1) in planner, cover call, checker, listing and the station controller's calls."""
import rules
from rules import wrong
from vectors.entries import SCRATCH, check, handed, listing, plan, planned, station_plan
from vectors.jobs import MOST_TASKS, SHAPES, costs, distinct, greatest_wired, greatest_wired_values, random_job, with_wires
from vectors.larger import damaged_plans, shaped
from vectors.plans import changed
from vectors.records import END, damaged, link, rack, step, wire
from vectors.refusals import passed_on
from vectors.shortcuts import RING_DIFFERENCE, SHORTCUTS, TIES, telling
from vectors.told import of_job, told
from vectors.wires import SMALL_WIRED, TWO, head

LATEST = rules.LATEST_START

# ---- wrong rules: the cost of the way back in one place, of both ways in each; the unit cost; costs of one way alone

LOADED = "return loaded\n"
BACK = "job.wires[q * (job.boards - 1) + (p if p < q else p - 1)][2]"
COSTS = "most = max(cost(job, p, q) for p in range(n) for q in range(n))"
CHECKED_BACK = wrong("bundle(job, link, boards[before], boards[to])\n        if starts[to]",
                     "bundle(job, link, boards[to], boards[before])\n        if starts[to]")
WRONG = [
    wrong("return link[2] * cost(job, p, q)", "return link[2] * cost(job, q, p)"),
    wrong("bundle(self.job, link, self.board[link[0]], board, self.message_time)",
          "bundle(self.job, link, board, self.board[link[0]], self.message_time)"),
    wrong("bundle(job, link, made.board[before], board, made.message_time)",
          "bundle(job, link, board, made.board[before], made.message_time)"),
    wrong(LOADED, f"return max(loaded, {BACK})\n"),
    wrong(LOADED, f"return min(loaded, {BACK})\n"),
    wrong(LOADED, f"return loaded if p < q else {BACK}\n"),
    wrong(LOADED, f"return {BACK} if p < q else loaded\n"),
    wrong(LOADED, "return job.unit * loaded\n"),
    wrong(LOADED, "return job.unit\n"),
    wrong(COSTS, "most = max(cost(job, p, q) for p in range(n) for q in range(p, n))"),
    wrong(COSTS, "most = max(cost(job, p, q) for p in range(n) for q in range(p + 1))"),
]


def little_job(dice):
    """Costs that make ties likely, and ways there and back that differ."""
    m, n = dice.between(2, 9), dice.between(2, 5)
    pairs = sorted(set(dice.one_of(SHAPES)(dice, m)))
    most, dear = dice.one_of([2, 4, 9]), dice.one_of([2, 5])
    return rules.wired(n, [dice.below(dear + 1) for _ in rules.pairs_due(n)], [dice.between(1, most) for _ in range(m)],
                       [(a, b, dice.between(1, 3)) for a, b in pairs], dice.between(0, 4))


def telling_jobs(cases, dice):
    """Jobs that a wrong rule plans in another way: the rules of wires, the shortcuts and the ties."""
    for other in WRONG + SHORTCUTS + TIES:
        if other is not RING_DIFFERENCE:
            for data in telling(dice, other, little_job, 4):
                plan(cases, data)


# ---- costs that can be seen

def square(n):
    """Task T is on processor T, and the arrivals of task n + T are the costs from there to each processor, beside its finish."""
    return rules.wired(n, distinct(n), [10] * (2 * n), [(t, n + t, 1) for t in range(n)])


def squares(cases):
    for n in range(1, 17):
        file = of_job(square(n))
        for p, q in rules.pairs_due(n):
            assert file.plan.arrival[16 * (n + p) + q] == 10 + (16 * p + q) % 251
        plan(cases, file.data)


def waiting(n, p, q):
    """Tasks 0 to n - 1 take a processor each. That on p finishes at 4, where task n takes its place, and that on q at 5. Task
    n + 1 waits for 3 messages from the task that was on p, and so starts on q at 4 and three times the cost from p to q."""
    durations = [1000] * (n + 2)
    durations[p], durations[q] = 4, 5
    return rules.wired(n, distinct(n), durations, [(p, n + 1, 3)])


def ways(cases):
    """Each pair of four processors, there and back: by a start, and by the checker, also a tick too early."""
    for n, pairs in ((4, rules.pairs_due(4)), (16, [(0, 15), (15, 0), (7, 8), (14, 15)])):
        for p, q in pairs:
            file = of_job(waiting(n, p, q))
            cost = rules.cost(file.job, p, q)
            assert cost != rules.cost(file.job, q, p)
            assert (file.plan.board[n + 1], file.plan.start[n + 1]) == (q, 4 + 3 * cost)
            plan(cases, file.data)
            pair = rules.write(rules.wired(n, distinct(n), [4, 5], [(0, 1, 1)]))
            for early in (0, 1):
                assert told(pair).checked([0, 4 + cost - early], [p, q]) == 13 * early
                handed(cases, pair, [(p, 0), (q, 4 + cost - early)])


def spread(there, back, other):
    """A task sends to two; its own processor can take one at once. On three processors: costs there and back between 0 and 1,
    and `other` for all that has to do with processor 2."""
    return rules.wired(3, [there, other, back, other, other, other], [3, 2, 2], [(0, 1, 1), (0, 2, 1)])


def worked(cases):
    """Costs just below, at and above those at which the plan changes, and the same with the ways exchanged."""
    for cost in range(6):
        for job in (spread(cost, 9, 9), spread(9, cost, 9), spread(9, 9, cost), spread(cost, 5 - cost, 2)):
            plan(cases, of_job(job).data, 4, 5)
    # a rack of one board has no wire, and takes no time for messages
    for m in (1, 3):
        planned(cases, rules.write(rules.wired(1, [], [5] * m, [(t, t + 1, 1000) for t in range(m - 1)], 100)))
    # the unit cost is not used
    for unit in (0, 1, 100):
        job = rules.wired(3, [1, 2, 3, 4, 5, 6], [4, 3, 2], [(0, 2, 1), (1, 2, 3)], unit)
        planned(cases, of_job(job).data)
        assert told(rules.write(job)).plan == of_job(rules.wired(3, [1, 2, 3, 4, 5, 6], [4, 3, 2], [(0, 2, 1), (1, 2, 3)])).plan
    # the dearest chain goes by the dearest way of all, whichever it is
    for dear in range(6):
        each = [1] * 6
        each[dear] = 7
        file = of_job(rules.wired(3, each, [1, 1, 1], [(0, 1, 2), (1, 2, 3)]))
        assert file.dearest == 7 * 5
        plan(cases, file.data)


# ---- refusals

REFUSED = {
    14: [rack(2, 3) + step() + END, rack(2, 3) + wire(1, 0), head(2, 1) + step(), TWO + wire(0, 1), TWO + wire(2, 0) + step() + END,
         rack(1, 3) + wire(0, 1)],
    4: [rack(2, 3) + wire(0, 1, 251), rack(2, 3) + wire(1, 0, 251), rack(2, 3) + step(0), rack(2, 3, 101), rack(17, 3), rack(2, 4)],
    3: [rack() + wire(0, 1), TWO + step() + wire(0, 1), TWO + END, rack(2, 3) + link(0, 1), head(2, 1) + END, rack(2, 3) * 2],
    1: [rack(2, 3), TWO, TWO + step(), rack(2, 3) + wire(0, 1)[:3], rack(2, 3) + step()[:4]],
    8: [TWO + step() + END + END, TWO + step() + END + wire(1, 0)],
}


def too_short(cases):
    """Each slice alone too short, and all of the exact length."""
    data, m = rules.write(SMALL_WIRED), len(SMALL_WIRED.steps)
    for rooms in ((m, m, SCRATCH), (m - 1, m, SCRATCH), (m, m - 1, SCRATCH), (m, m, SCRATCH - 1)):
        plan(cases, data, *rooms)
    for room in (5 * m - 1, 5 * m, 5 * m + 1):
        station_plan(cases, data, room)


def checked(cases, dice):
    """A bundle that is just there and one that is a tick late, there and back, also the greatest bundle; plans by a wrong rule."""
    for _ in range(50):
        n = dice.between(2, 16)
        job = rules.wired(n, costs(dice, n), [3, 2], [(0, 1, dice.one_of([1, 2, 1000]))])
        p, q, start = dice.below(n), dice.below(n), dice.below(1000)
        data, far = rules.write(job), job.links[0]
        for a, b in ((p, q), (q, p)):
            there = start + 3 + rules.bundle(job, far, a, b)
            check(cases, data, [start, there], [a, b])
            check(cases, data, [start, there - 1], [a, b])
    far = rules.write(rules.wired(2, [250, 1], [1_000_000] * 2, [(0, 1, 1000)]))
    for start in (LATEST - 1_250_000, LATEST - 1_249_999, LATEST - 1_001_000, LATEST - 1_000_999):
        handed(cases, far, [(0, start), (1, LATEST)])
        handed(cases, far, [(1, start), (0, LATEST)])
    for _ in range(12):
        job, rows = differing_plan(dice)
        handed(cases, rules.write(job), rows)


def differing_plan(dice):
    """A job and a plan of which the checker says another thing by the way back."""
    while True:
        job = little_job(dice)
        for other in WRONG[:2]:
            made = other.plan(job)
            if rules.check(job, made.board, made.start) != CHECKED_BACK.check(job, made.board, made.start):
                return job, zip(made.board, made.start)


# ---- larger jobs

def larger(cases, dice):
    """Each shape, on 1 to 16 processors; plans for some of them that have a little damage."""
    for turn, shape in enumerate(SHAPES * 3):
        m, n = dice.one_of([dice.between(1, 12), dice.between(10, 30), dice.between(20, 40)]), 1 + (5 * turn + 3) % 16
        file = of_job(with_wires(dice, shaped(dice, shape, m, n, 0, dice.below(101))))
        plan(cases, file.data)
        if turn % 4 == 0:
            station_plan(cases, file.data)
            listing(cases, file.data)
            damaged_plans(cases, dice, file)
    for _ in range(20):
        data = damaged(dice, with_wires(dice, random_job(dice, 6, 8), dice.between(1, 4)))
        m = told(data).tasks
        plan(cases, data, m + dice.below(3), m + dice.below(3), SCRATCH + dice.below(3))
        station_plan(cases, data, 5 * m + dice.below(4))
        listing(cases, data, fill=dice.below(256))


def full(cases, dice):
    """The greatest file, each entry once."""
    most, other = of_job(greatest_wired_values()), of_job(greatest_wired(dice))
    plan(cases, most.data, MOST_TASKS + 1, MOST_TASKS, SCRATCH + 1)
    listing(cases, most.data)
    station_plan(cases, other.data, 5 * MOST_TASKS + 1)
    for file in (most, other):
        own = list(zip(file.plan.board, file.plan.start))
        handed(cases, file.data, own)
        handed(cases, file.data, changed(dice, file.job, own))


def add_cases(cases, dice):
    worked(cases)
    squares(cases)
    ways(cases)
    telling_jobs(cases, dice)
    passed_on(cases, REFUSED)
    too_short(cases)
    checked(cases, dice)
    larger(cases, dice)
    full(cases, dice)
