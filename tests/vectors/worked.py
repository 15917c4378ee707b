"""The worked cases and the edges of document 01, "Ticks worked out"."""
import rules
from vectors.entries import FILLS, handed, plan, planned
from vectors.jobs import SMALL
from vectors.records import END, link, rack, step
from vectors.told import of_job, told

LATEST = rules.LATEST_START

BYTES_OF_A = bytes.fromhex("01020002 0204000000 0203000000 0202000000 0300020100 0301020300 04")
TEXT_OF_A = """plan 2 3 2
0 0 0 4
1 1 0 3
2 1 6 8
end 8
cover 6
least 2
dearest 6
"""


def spread(unit):
    """The job of D, E, G and H."""
    return rules.job(2, 0, unit, [3, 2, 2], [(0, 1, 1), (0, 2, 1)])


# the processor and the start of task 2, and the end
SPREAD = {"D": (1, 1, 4, 6), "E": (2, 1, 5, 7), "G": (3, 0, 5, 7), "H": (5, 0, 5, 7)}

# wiring, processors, from, to and the hops between them
HOPS = {"J": (1, 16, 5, 10, 4), "K": (2, 5, 0, 4, 1), "L": (2, 6, 0, 3, 3)}


def waiting(wiring, n, p, q):
    """Tasks 0 to n - 1 take a processor each. That on p finishes at 4, where task n takes its place, and that on q at 5. Task
    n + 1 waits for 3 messages from the task that was on p, and so starts on q at 4 and three times the hops."""
    durations = [100] * (n + 2)
    durations[p], durations[q] = 4, 5
    return rules.job(n, wiring, 1, durations, [(p, n + 1, 3)])


def spread_cases(cases):
    for unit, board, start, end in SPREAD.values():
        file = of_job(spread(unit))
        assert (file.plan.board[2], file.plan.start[2], file.plan.end) == (board, start, end)
        planned(cases, file.data, more=1)
    assert file.figures == (5, 5, 5)


def hop_cases(cases):
    """The hops by a start, and by the checker: a task on q that waits for one from p, and one tick earlier."""
    for wiring, n, p, q, hops in HOPS.values():
        job = waiting(wiring, n, p, q)
        file = of_job(job)
        assert (file.plan.board[n + 1], file.plan.start[n + 1]) == (q, 4 + 3 * hops)
        planned(cases, file.data)
        pair = rules.write(rules.job(n, wiring, 1, [4, 5], [(0, 1, 1)]))
        for early in (0, 1):
            assert told(pair).checked([0, 4 + hops - early], [p, q]) == 13 * early
            handed(cases, pair, [(p, 0), (q, 4 + hops - early)])
            handed(cases, pair, [(q, 0), (p, 4 + hops - early)])


def edges(cases):
    """Each end of each range and the value next to it, through each entry."""
    for data in (
        b"", rack(n=16) + step() + END, rack(n=17) + step() + END, rack(c=100) + step() + END, rack(c=101) + step() + END,
        rack() + step(1_000_000) + END, rack() + step(1_000_001) + END,
        rack() + step() * 2 + link(0, 1, 1000) + END, rack() + step() * 2 + link(0, 1, 1001) + END,
    ):
        planned(cases, data, more=2)
        handed(cases, data, [(0, 0), (0, 5)])
    for n in (16, 1):
        job = rules.job(n, 2, 100, [1_000_000] * 3, [(0, 1, 1000), (1, 2, 1000)])
        planned(cases, rules.write(job))
    one = rack() + step() + END
    for start in (0, LATEST - 1, LATEST, LATEST + 1, 2**31, 2**32 - 1):
        handed(cases, one, [(1, start)])


def add_cases(cases, dice):
    assert rules.write(SMALL) == BYTES_OF_A and rules.report(BYTES_OF_A) == TEXT_OF_A
    planned(cases, BYTES_OF_A)
    one = of_job(rules.job(1, 0, 0, [1], []))
    assert (one.plan.start, one.plan.end, one.figures) == ([0], 1, (0, 0, 0))
    planned(cases, one.data)
    spread_cases(cases)
    hop_cases(cases)
    edges(cases)
    # fills that a planner may well write
    for fills in ((0, 0, 0), (1, 1, 1), (6, 8, 1), (2**32 - 1, 2**32 - 1, 255), FILLS):
        plan(cases, BYTES_OF_A, 4, 5, 4097, fills)
