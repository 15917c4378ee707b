"""Cases of jobs with results (document 02 §2) in planner, cover call, checker, listing and the station controller's calls."""
import rules
from rules import wrong
from vectors.entries import SCRATCH, handed, listing, plan, planned, station_plan
from vectors.jobs import MOST_TASKS, SHAPES, distinct, greatest_of_all, random_job, with_results, with_some, with_wires
from vectors.larger import damaged_plans, shaped
from vectors.records import END, damaged, link, rack, result, step
from vectors.refusals import passed_on
from vectors.results import HEAD, SMALL_RESULTS
from vectors.shortcuts import telling
from vectors.told import of_job, told

LATEST = rules.LATEST_START

# ---- wrong rules: of the end, of a result's time, and of what a result has no part in

TIMES = "times += [finish[step] + time for step, time in result_times(job, board)]"
TIME = "count * cost(job, board[step], 0)) for step, count in job.results"
WRONG = [
    wrong(TIMES, "pass"),
    wrong(TIMES, "times += [max(finish) + time for _, time in result_times(job, board)]"),
    wrong(TIMES, "times += [finish[step] - job.steps[step].high + time for step, time in result_times(job, board)]"),
    wrong(TIMES, "times += [time for _, time in result_times(job, board)]"),
    wrong(TIMES, "times += [finish[step] + time for step, time in result_times(job, board) if finish[step] == max(finish)]"),
    wrong(TIMES, "times += [finish[step] + time for step, time in result_times(job, board)[:1]]"),
    wrong(TIMES, "times += [finish[step] + time for step, time in result_times(job, board)[-1:]]"),
    wrong(TIMES, "times += [max(finish[step] for step, _ in job.results) + max(result_times(job, board), key=lambda r: r[1])[1]] "
                 "if job.results else []"),
    wrong("times = list(finish)", "times = [] if job.results else list(finish)"),
    wrong(TIME, "count * cost(job, 0, board[step])) for step, count in job.results"),
    wrong(TIME, "count * cost(job, board[step], job.boards - 1)) for step, count in job.results"),
    wrong(TIME, "count * max(cost(job, p, 0) for p in range(job.boards))) for step, count in job.results"),
    wrong(TIME, "count * (job.unit if board[step] else 0)) for step, count in job.results"),
    wrong(TIME, "cost(job, board[step], 0)) for step, count in job.results"),
    wrong(TIME, "count) for step, count in job.results"),
    wrong(TIME, "count % 256 * cost(job, board[step], 0)) for step, count in job.results"),
    wrong("step, total = finish.index(max(finish)), 0",
          "there = dict(result_times(job, made.board)); arrived = [f + there.get(s, 0) for s, f in enumerate(finish)]; "
          "step, total = arrived.index(max(arrived)), 0"),
    wrong("            return total\n", "            return total + dearest_result(job, made)\n"),
    wrong("    return max(best)\n", "    return max(best + [best[step] + count * most for step, count in job.results])\n"),
]


def little_job(dice):
    """Small costs, counts and durations, so that ends lie close together; now and then a count that one byte does not hold."""
    m, n, wiring = dice.between(2, 8), dice.between(2, 5), dice.below(4)
    pairs = sorted(set(dice.one_of(SHAPES)(dice, m)))
    links = [(a, b, dice.between(1, 3)) for a, b in pairs]
    durations = [dice.between(1, dice.one_of([2, 4, 9])) for _ in range(m)]
    if wiring == 3:
        job = rules.wired(n, [dice.below(6) for _ in rules.pairs_due(n)], durations, links, dice.between(0, 4))
    else:
        job = rules.job(n, wiring, dice.between(0, 4), durations, links)
    return with_results(dice, job, dice.one_of([3, 9, 300]))


def telling_jobs(cases, dice):
    """Jobs that a wrong rule plans in another way."""
    for other in WRONG:
        for turn, data in enumerate(telling(dice, other, little_job, 2)):
            (planned if turn == 0 else plan)(cases, data)


# ---- ends that can be seen

def ended(cases, end, job, entry=plan):
    """A job whose end is known."""
    file = of_job(job)
    assert file.plan.end == end, (file.plan.end, end)
    entry(cases, file.data)


def apart(n, wiring, p, count):
    """Step T is on board T from 0 to 5; that on board p has a result."""
    if wiring == 3:
        return rules.wired(n, distinct(n), [5] * n, [], 100, [(p, count)])
    return rules.job(n, wiring, 2, [5] * n, [], results=[(p, count)])


def ways(cases):
    """The way to board 0, from each board of five with each wiring, and from some of sixteen; none on one board."""
    for wiring in range(4):
        ended(cases, 5, apart(1, wiring, 0, 1000), planned)
        for p in range(5):
            job = apart(5, wiring, p, 3)
            assert wiring < 3 or p == 0 or rules.cost(job, p, 0) != rules.cost(job, 0, p)
            ended(cases, 5 + 3 * rules.cost(job, p, 0), job)
    for wiring, p, end in ((0, 15, 7), (1, 15, 13), (2, 8, 21), (2, 15, 7), (3, 15, 245)):
        ended(cases, end, apart(16, wiring, p, 1))
    ended(cases, 1_800_000, rules.job(16, 2, 100, [1_000_000] * 9, [], results=[(8, 1000)]), planned)
    ended(cases, 250_001, rules.wired(2, [0, 250], [1, 1], [], results=[(1, 1000)]))


def worked(cases):
    """Two steps, each on a board of its own: which of finish and arrival is the end, also where they are the same."""
    def pair(first, second, *results):
        return rules.job(2, 0, 2, [first, second], [], results=results)

    for end, job in (
        (9, pair(9, 3, (1, 2))), (9, pair(9, 3, (1, 3))), (11, pair(9, 3, (1, 4))),  # before, at and after the last finish
        (9, pair(9, 3, (0, 1000))), (11, pair(3, 9, (1, 1))), (9, pair(3, 9, (0, 1000))),  # board 0 sends in no time
        (13, pair(9, 9, (0, 7), (1, 2))), (9, pair(9, 9, (0, 1000))),  # the step that finishes last, lowest number, is not the one
    ):
        ended(cases, end, job)
    # the result that decides is of a step that is done first, of one in the middle, of the last one
    three = rules.job(4, 2, 3, [20, 9, 7, 12], [])
    for end, results in ((20, [(2, 1), (3, 1)]), (31, [(2, 4), (3, 1)]), (33, [(1, 8), (2, 4), (3, 1)]), (36, [(1, 8), (2, 4), (3, 8)])):
        ended(cases, end, with_some(three, results), planned)
    # a job with results has the plan, C, least C and dearest chain that it has without
    file, bare = of_job(SMALL_RESULTS), of_job(with_some(SMALL_RESULTS, []))
    assert (file.plan.start, file.plan.board, file.figures) == (bare.plan.start, bare.plan.board, bare.figures)
    assert file.plan.end > bare.plan.end
    planned(cases, file.data, 2)
    planned(cases, bare.data)


# ---- refusals

REFUSED = {
    15: [HEAD + result(1) + END, HEAD + result(4), HEAD + result(2) * 2, HEAD + result(3) + result(0) + END],
    4: [HEAD + result(0, 0), HEAD + result(1, 1001)],
    3: [rack() + result(0), HEAD + result(0) + link(2, 3)],
    1: [HEAD + result(1, 0)[:3]],
    8: [HEAD + result(3) + END + result(3)],
}


def too_short(cases):
    """Each slice alone too short, and all of the exact length."""
    data, m = rules.write(SMALL_RESULTS), len(SMALL_RESULTS.steps)
    for rooms in ((m, m, SCRATCH), (m - 1, m, SCRATCH), (m, m - 1, SCRATCH), (m, m, SCRATCH - 1)):
        plan(cases, data, *rooms)
    for room in (5 * m - 1, 5 * m):
        station_plan(cases, data, room)


def checked(cases):
    """A plan is judged without its results: one that starts as late as may be is good, however late its result arrives."""
    data = rules.write(rules.job(16, 2, 100, [1_000_000, 5], [], results=[(0, 1000), (1, 1)]))
    for start in (LATEST, LATEST + 1):
        handed(cases, data, [(8, start), (8, 0)])
    handed(cases, data, [(8, 0), (8, 999_999)])


# ---- larger jobs

def larger(cases, dice):
    """Each shape with each wiring, on 1 to 16 processors; plans for some of them that have a little damage."""
    for turn, shape in enumerate(SHAPES * 2):
        m, n, wiring = dice.between(6, 18), 1 + (7 * turn + 5) % 16, turn % 4
        job = shaped(dice, shape, m, n, wiring % 3, dice.one_of([1, 2, 20]))
        file = of_job(with_results(dice, with_wires(dice, job) if wiring == 3 else job))
        plan(cases, file.data)
        if turn % 8 == 5:
            listing(cases, file.data)
            damaged_plans(cases, dice, file)
    for _ in range(8):
        data = damaged(dice, with_results(dice, random_job(dice, 5, 5)))
        plan(cases, data)
        listing(cases, data)


def full(cases):
    """The greatest file: the planner and the listing once, and a result too many in place of the end record."""
    data = rules.write(greatest_of_all([cost % 10 for cost in distinct(16)], 3, 2))
    assert told(data).plan.end > told(data).plan.last
    plan(cases, data, MOST_TASKS + 1, MOST_TASKS, SCRATCH + 1)
    for last in (result(255), result(255, 0), result(255)[:3]):
        listing(cases, data[:-1] + last)


def add_cases(cases, dice):
    worked(cases)
    ways(cases)
    telling_jobs(cases, dice)
    passed_on(cases, REFUSED)
    too_short(cases)
    checked(cases)
    larger(cases, dice)
    full(cases)
