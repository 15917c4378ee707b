"""Cases of the checker: 9 to 13, which of them counts, and the good plans next to them."""
import rules
from vectors.entries import check, four, handed, station_check
from vectors.jobs import MOST_TASKS, SMALL, tasks_only
from vectors.told import told

LATEST = rules.LATEST_START


def judged(cases, number, job, *rows):
    """A plan whose answer is known."""
    data = rules.write(job)
    assert told(data).checked([start for _, start in rows], [p for p, _ in rows]) == number
    handed(cases, data, rows)


def table(cases):
    """The small inputs of the refusal table, and the good plans next to them."""
    pair = tasks_only(2)
    judged(cases, 10, pair, (0, 0), (2, 0))
    judged(cases, 0, pair, (0, 0), (1, 0))
    judged(cases, 11, pair, (0, 600_000_001), (1, 0))
    judged(cases, 0, pair, (0, 600_000_000), (1, 0))
    judged(cases, 12, pair, (0, 0), (0, 0))
    judged(cases, 0, pair, (0, 0), (0, 5))
    sent = rules.job(2, 0, 2, [5, 5], [(0, 1, 1)])
    judged(cases, 13, sent, (0, 0), (1, 6))
    judged(cases, 0, sent, (0, 0), (1, 7))
    judged(cases, 0, sent, (0, 0), (0, 5))
    check(cases, rules.write(pair), [0], [0, 1])
    check(cases, rules.write(pair), [0, 0], [0])


def processors(cases):
    for n in (1, 2, 15, 16):
        for p in (n - 1, n, n + 1, 16, 128, 255):
            judged(cases, 10 if p >= n else 0, tasks_only(2, n), (0, 0), (p, 5))


def lengths(cases):
    """9 for either slice, before 10 to 13; places past m are not read."""
    data, m = rules.write(SMALL), len(SMALL.steps)
    plan, own = told(data).plan, told(data).bytes()
    late = 2**32 - 1
    for starts, boards in ((m, m), (m - 1, m), (m, m - 1), (m - 1, m - 1), (0, m), (m, 0), (0, 0), (m + 1, m), (m, m + 1), (m + 2, m + 9)):
        check(cases, data, (plan.start + [late] * 9)[:starts], (plan.board + [255] * 9)[:boards])
        check(cases, data, [late] * starts, [255] * boards)
        check(cases, data, [0] * starts, [0] * boards)
    for room in (0, 1, 5 * m - 5, 5 * m - 1, 5 * m, 5 * m + 1, 5 * m + 5):
        station_check(cases, data, (own + b"\xff" * 9)[:room])
        station_check(cases, data, b"\xff" * room)
        station_check(cases, data, bytes(room))


def greatest_lengths(cases):
    data = rules.write(tasks_only(MOST_TASKS))
    plan, own = told(data).plan, told(data).bytes()
    for starts, boards in ((256, 256), (255, 256), (256, 255), (257, 257)):
        check(cases, data, (plan.start + [0])[:starts], (plan.board + [0])[:boards])
    for room in (5 * 256 - 1, 5 * 256, 5 * 256 + 1):
        station_check(cases, data, (own + b"\xff")[:room])


def order(cases):
    """Steps by number, 10 then 11 for each, then 12, then 13."""
    places = [(0, 0), (2, 0), (0, LATEST + 1), (2, LATEST + 1)]
    linked = rules.write(rules.job(2, 0, 2, [5, 5, 5], [(0, 1, 1)]))
    for first in places:
        for second in places:
            for third in ((1, 0), (1, LATEST + 1), (255, 0)):
                handed(cases, linked, [first, second, third])
    judged(cases, 12, rules.job(2, 0, 2, [5] * 4, [(0, 1, 1)]), (0, 0), (1, 0), (1, 9), (1, 9))
    judged(cases, 13, rules.job(2, 0, 2, [5] * 4, [(0, 1, 1)]), (0, 0), (1, 0), (1, 9), (1, 14))
    judged(cases, 13, rules.job(3, 0, 2, [5] * 3, [(0, 1, 1), (1, 2, 1)]), (0, 0), (1, 7), (2, 13))
    judged(cases, 11, rules.job(2, 0, 2, [5] * 3, []), (0, 0), (0, 0), (0, LATEST + 1))


def overlaps(cases):
    """Two tasks of 3 and 2 ticks on one processor and on two, at each distance, early and as late as may be."""
    data = rules.write(rules.job(2, 0, 0, [3, 2], []))
    for base in (4, LATEST - 4):
        for start in range(base - 4, base + 5):
            for p in (0, 1):
                check(cases, data, [base, start], [0, p])
    for starts in ([0, 0, 3], [0, 3, 1], [3, 0, 5], [7, 3, 0], [0, 3, 5], [2, 2, 2]):
        handed(cases, rules.write(rules.job(1, 0, 0, [3, 2, 1], [])), [(0, start) for start in starts])
    long = rules.write(rules.job(1, 0, 0, [1_000_000] * 2, []))
    for start in (LATEST - 1_000_000, LATEST - 999_999, LATEST):
        handed(cases, long, [(0, LATEST), (0, start)])


def messages(cases, dice):
    """A bundle that is just there and one that is a tick late, over random hops, also the greatest bundle."""
    for turn in range(90):
        wiring, n = turn % 3, dice.between(2, 16)
        job = rules.job(n, wiring, dice.one_of([1, 7, 100]), [3, 2], [(0, 1, dice.one_of([1, 2, 1000]))])
        p, q, start = dice.below(n), dice.below(n), dice.below(1000)
        there = start + 3 + rules.bundle(job, job.links[0], p, q)
        check(cases, rules.write(job), [start, there], [p, q])
        check(cases, rules.write(job), [start, there - 1], [p, q])
    far = rules.write(rules.job(16, 1, 100, [1_000_000] * 2, [(0, 1, 1000)]))
    for start in (LATEST - 1_400_000, LATEST - 1_399_999):
        handed(cases, far, [(0, start), (15, LATEST)])


def little_endian(cases):
    """A start in each of the four bytes of a plan."""
    data = rules.write(tasks_only(2))
    for start in (5, 256, 65_536, 2**24, 0x12345678, 0x23C34600, 0x23C34601, 0x00463C23):
        station_check(cases, data, bytes(5) + b"\x01" + four(start))


def add_cases(cases, dice):
    table(cases)
    processors(cases)
    lengths(cases)
    greatest_lengths(cases)
    order(cases)
    overlaps(cases)
    messages(cases, dice)
    little_endian(cases)
