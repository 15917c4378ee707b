"""Jobs, and the shapes that their edges can have."""
import rules
from vectors.dice import near

MOST_TASKS, MOST_EDGES = 256, 1024
# the bytes of the greatest file, of the greatest without results, and of the greatest without wires too
LONGEST, WIRED, UNWIRED = 8369, 7365, 6405
SMALL = rules.job(2, 0, 2, [4, 3, 2], [(0, 2, 1), (1, 2, 3)])
PAIRS = [(a, b) for a in range(256) for b in range(a + 1, 256)]


def tasks_only(m, n=2):
    return rules.job(n, 0, 2, [5] * m, [])


def greatest(dice):
    pairs = dice.some(PAIRS, 1024)
    return rules.job(dice.between(1, 16), dice.below(3), dice.between(0, 100),
                   [dice.between(1, 1_000_000) for _ in range(256)],
                   [(a, b, dice.between(1, 1000)) for a, b in pairs])


def greatest_values():
    return rules.job(16, 2, 100, [1_000_000] * 256, [(a, b, 1000) for a, b in PAIRS[-1024:]])


def random_job(dice, most_tasks, most_edges):
    m = dice.between(1, most_tasks)
    pairs = [(a, b) for a in range(m) for b in range(a + 1, m)]
    pairs = dice.some(pairs, min(len(pairs), dice.between(0, most_edges)))
    return rules.job(dice.between(1, 16), dice.below(3), dice.between(0, 100),
                   [near(dice, 1, 1_000_000) for _ in range(m)],
                   [(a, b, near(dice, 1, 1000)) for a, b in pairs])


# ---- shapes: the pairs of tasks that have an edge

def chain(dice, m):
    return [(t, t + 1) for t in range(m - 1)]


def fork_join(dice, m):
    return [(0, t) for t in range(1, m - 1)] + [(t, m - 1) for t in range(1, m - 1)]


def tree_out(dice, m):
    return [(dice.below(t), t) for t in range(1, m)]


def tree_in(dice, m):
    return [(t, dice.between(t + 1, m - 1)) for t in range(m - 1)]


def layered(dice, m):
    width, share = dice.between(1, 8), dice.between(20, 100)
    return [(a, b) for a in range(m) for b in range(a + 1, m)
            if b // width == a // width + 1 and dice.below(100) < share]


def dense(dice, m):
    return [(a, b) for a in range(m) for b in range(a + 1, m)]


def wide(dice, m):
    """Few edges, or none."""
    return dice.some(dense(dice, min(m, 40)), dice.below(4))


def any_pairs(dice, m):
    pairs = dense(dice, m)
    return dice.some(pairs, dice.below(min(len(pairs), 3 * m) + 1))


SHAPES = [chain, fork_join, tree_out, tree_in, layered, dense, wide, any_pairs]


# ---- numbers

def numbers(dice, most, count):
    """So many numbers from 1 to most: all the same, small, near the ends, or any."""
    same, small = near(dice, 1, most), dice.one_of([2, 3, 6, 20])
    draw = dice.one_of([
        lambda: same,
        lambda: dice.between(1, small),
        lambda: dice.between(1, small),
        lambda: near(dice, 1, most),
        lambda: dice.between(1, most),
    ])
    return [draw() for _ in range(count)]


# ---- wires

def distinct(n):
    """A cost for each pair that shows which pair it is of, and which way."""
    return [(16 * p + q) % 251 for p, q in rules.pairs_due(n)]


def costs(dice, n):
    """A cost for each pair: small ones, any, near the ends, or cheap there and dear back."""
    small = dice.one_of([1, 3, 9])
    draw = dice.one_of([
        lambda p, q: dice.below(small + 1),
        lambda p, q: dice.below(small + 1),
        lambda p, q: dice.below(251),
        lambda p, q: near(dice, 0, 250),
        lambda p, q: dice.below(small + 1) if (p < q) == (p + q) % 2 else dice.between(small, 9 * small),
    ])
    return [draw(p, q) for p, q in rules.pairs_due(n)]


def with_wires(dice, job, n=None):
    """The job with wires in place of its wiring, on as many boards or on n."""
    n = job.boards if n is None else n
    return rules.wired(n, costs(dice, n), job.durations, job.links, job.unit)


def greatest_wired(dice):
    return with_wires(dice, greatest(dice), 16)


def greatest_wired_values():
    job = greatest_values()
    return rules.wired(16, [250] * 240, job.durations, job.links, job.unit)


# ---- results

def with_some(job, results):
    """The job with these results."""
    return rules.job(job.boards, job.wiring, job.unit, job.durations, job.links, job.wires, results)


def with_results(dice, job, most=1000):
    """The job with results of one of the steps that may have one, of some or of all."""
    last = rules.last_steps(job)
    last = dice.some(last, dice.one_of([1, len(last), dice.between(1, len(last))]))
    return with_some(job, list(zip(last, numbers(dice, most, len(last)))))


def greatest_of_all(costs, duration=1, count=1):
    """The job of the greatest file: 1,024 links from five steps, and a result of each other one."""
    links = [(a, b, count) for a, b in PAIRS if a < 5][:1024]
    return rules.wired(16, costs, [duration] * 256, links, results=[(task, count) for task in range(5, 256)])
