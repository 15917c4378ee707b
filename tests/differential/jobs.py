"""Random jobs of many shapes, and damaged ones. Small numbers make ties likely."""
import rules
from vectors.jobs import MOST_EDGES, MOST_TASKS, SHAPES, costs, numbers, with_results
from vectors.records import END, damaged, link, rack, result, step, wire


# ---- jobs

def branches(dice, m):
    """Chains side by side, of any lengths: what is begun first settles when the longest ends. Now and then the last task joins them."""
    pairs, first = [], 0
    while first < m:
        past = min(m, first + dice.between(1, dice.one_of([2, 4, 9])))
        pairs += [(t, t + 1) for t in range(first, past - 1)]
        first = past
    joined = {start for start, _ in pairs}
    return pairs + ([(t, m - 1) for t in range(m - 1) if t not in joined] if dice.below(3) == 0 else [])


def some_size(dice):
    turn = dice.below(100)
    if turn < 2:
        return dice.one_of([MOST_TASKS, dice.between(150, MOST_TASKS)])
    if turn < 10:
        return dice.between(13, 70)
    return dice.between(1, 12)


def some_job(dice):
    m = some_size(dice)
    pairs = dice.some(sorted(set(dice.one_of([*SHAPES, branches, branches])(dice, m))), MOST_EDGES)
    n = dice.one_of([1, 2, 3, 16, dice.between(2, 6), dice.between(1, 16)])
    unit = dice.one_of([0, 1, 2, dice.between(1, 9), 100, dice.between(0, 100)])
    counts = numbers(dice, 1000, len(pairs))
    durations, links = numbers(dice, 1_000_000, m), [(a, b, count) for (a, b), count in zip(pairs, counts)]
    wiring = dice.one_of([0, 1, 2, 3, 3])
    if wiring == 3:
        job = rules.wired(n, costs(dice, n), durations, links, unit)
    else:
        job = rules.job(n, wiring, unit, durations, links)
    return with_results(dice, job) if dice.below(2) else job


# ---- damaged files

def too_many(dice):
    """A task, an edge or a result too many, whole or only begun."""
    head = rack(dice.between(1, 16)) + step(dice.between(1, 9)) * MOST_TASKS
    turn = dice.below(3)
    if turn == 0:
        return head + dice.one_of([step(), b"\x02", step(0), step() + END, END])
    if turn == 1:
        more = dice.one_of([result(255), result(0, 0), result(255)[:3], b"\x06", step(), link(254, 255), END])
        return head + b"".join(result(t, dice.between(1, 1000)) for t in range(MOST_TASKS)) + more
    edges = b"".join(link(a, a + d) for a in range(MOST_TASKS) for d in range(1, 6) if a + d < MOST_TASKS)
    return head + edges[: 5 * MOST_EDGES] + dice.one_of([link(254, 255), b"\x03", link(0, 0) + END, END])


def any_records(dice):
    """A rack, often with wires and a step or two, and records as they come, now and then with a value out of range; the last is
    often cut."""
    rows = [rack(dice.one_of([0, 1, 2, 2, 2, 16, 17]), dice.one_of([0, 0, 1, 2, 3, 4]), dice.one_of([0, 2, 2, 100, 101]))]
    if dice.below(2):
        n = dice.between(1, 3)
        pairs = rules.pairs_due(n)
        rows = [rack(n, 3), *(wire(p, q, dice.below(251)) for p, q in pairs[: dice.one_of([len(pairs), len(pairs), dice.below(7)])])]
    rows += [step()] * dice.below(4)
    for _ in range(dice.below(7)):
        rows.append(dice.one_of([
            step(), step(), step(dice.one_of([0, 1, 1_000_000, 1_000_001])),
            link(dice.below(3), dice.between(1, 4)), link(dice.below(4), dice.below(4), dice.one_of([0, 1, 1000, 1001])),
            END, rack(), bytes([dice.one_of([0, 5, 6, 8, 255])]), wire(dice.below(3), dice.below(3), dice.one_of([0, 250, 251])),
            result(dice.below(4)), result(dice.below(5), dice.one_of([0, 1, 1000, 1001])),
        ]))
    data = b"".join(rows)
    return data[: len(data) - dice.below(5)]


def noise(dice):
    """Random bytes, often small, after nothing or the head of a job."""
    head = dice.one_of([b"", rack(), rack() + step(), rack() + step() * 2, rack() + step() * 2 + link(0, 1), rack(2, 3),
                        rack(2, 3) + wire(0, 1), rack(2, 3) + wire(0, 1) + wire(1, 0), rack(1, 3), rack() + step() * 2 + result(0),
                        rack() + step() * 3 + link(0, 1) + result(1)])
    return head + bytes(dice.below(dice.one_of([8, 256])) for _ in range(dice.below(24)))


def bytes_damaged(dice, data):
    """Some bytes changed, cut, doubled or inserted."""
    for _ in range(dice.between(1, 3)):
        i, j = sorted((dice.below(len(data) + 1), dice.below(len(data) + 1)))
        data = dice.one_of([
            data[:i] + bytes([dice.below(dice.one_of([8, 256]))]) + data[i + 1 :],
            data[:i],
            data[:i] + data[j:],
            data[:j] + data[i:],
            data + data,
            data[:i] + bytes(dice.below(256) for _ in range(dice.between(1, 5))) + data[i:],
        ])
    return data


def some_file(dice):
    turn = dice.below(100)
    if turn < 64:
        return rules.write(some_job(dice))
    if turn < 66:
        return too_many(dice)
    if turn < 70:
        return noise(dice)
    if turn < 80:
        return any_records(dice)
    if turn < 92:
        return damaged(dice, some_job(dice))
    return bytes_damaged(dice, rules.write(some_job(dice)))
