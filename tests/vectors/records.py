"""The records of a job file, and damaged files."""
import rules

END = b"\x04"


def rack(n=2, wiring=0, c=2):
    return bytes([1, n, wiring, c])


def step(duration=5):
    return b"\x02" + duration.to_bytes(4, "little")


def link(start, to, count=1):
    return bytes([3, start, to]) + count.to_bytes(2, "little")


def wire(start, to, cost=7):
    return bytes([5, start, to, cost])


def result(task, count=1):
    return bytes([6, task]) + count.to_bytes(2, "little")


def records(job):
    """The records of a job, also of one with values out of range."""
    return [rack(job.boards, job.wiring, job.unit), *(wire(*w) for w in job.wires), *map(step, job.durations),
            *(link(*l) for l in job.links), *(result(*r) for r in job.results), END]


def damaged(dice, job):
    """The bytes of a job with one damage."""
    rows = records(job)
    data = b"".join(rows)
    i = dice.below(len(data))
    r = dice.below(len(rows))
    s = dice.below(len(rows))
    way = dice.below(10)
    if way == 0:
        return data[:i] + bytes([dice.below(256)]) + data[i + 1 :]
    if way == 1:
        return data[:i] + bytes([dice.below(8 if job.results else 6)]) + data[i + 1 :]
    if way == 2:
        return data[:i] + data[i + 1 :]
    if way == 3:
        return data[:i] + bytes([dice.below(256)]) + data[i:]
    if way == 4:
        return data[:i]
    if way == 5:
        return data + bytes(dice.below(256) for _ in range(dice.between(1, 6)))
    if way == 6:
        rows[r], rows[s] = rows[s], rows[r]
    elif way == 7:
        rows.insert(r, rows[s])
    elif way == 8:
        del rows[r]
    else:
        return b"".join(records(out_of_range(dice, job)))
    return b"".join(rows)


def out_of_range(dice, job):
    """A copy of the job with one value, edge, wire or result altered, most often to one that is refused."""
    new = rules.job(job.boards, job.wiring, job.unit, job.durations, job.links, job.wires, job.results)
    if new.wires and dice.below(2):
        i = dice.below(len(new.wires))
        new.wires[i] = altered_wire(dice, new, *new.wires[i])
        return new
    if new.results and dice.below(2):
        i = dice.below(len(new.results))
        new.results[i] = altered_result(dice, new, *new.results[i])
        return new
    way = dice.below(7)
    i = dice.below(len(new.steps))
    if way == 0:
        new.boards = dice.one_of([0, 17, 255, 16])
    elif way == 1:
        new.wiring = dice.one_of([3, 4, 255])
    elif way == 2:
        new.unit = dice.one_of([100, 101, 255])
    elif way == 3 or not new.links:
        new.steps[i] = rules.plain(dice.one_of([0, 1_000_001, 2**32 - 1, 1_000_000]))
    else:
        i = dice.below(len(new.links))
        start, to, count = new.links[i]
        if way == 4:
            count = dice.one_of([0, 1001, 65_535, 1000])
        elif way == 5:
            start, to = to, start
        else:
            start, to = dice.one_of([(start, 255), (start, start), new.links[0][:2], new.links[-1][:2]])
        new.links[i] = (start, to, count)
    return new


def altered_wire(dice, job, start, to, cost):
    n = job.boards
    return dice.one_of([
        (start, to, dice.one_of([250, 251, 255])), (to, start, cost), (start, start, cost), (start, n, cost), (n, to, cost),
        (start, dice.below(n), cost), (dice.below(n), to, cost), dice.one_of(job.wires), (255, 255, cost),
    ])


def altered_result(dice, job, task, count):
    return dice.one_of([
        (task, dice.one_of([0, 1000, 1001, 65_535])), (dice.below(len(job.steps)), count), dice.one_of(job.results),
        (len(job.steps) % 256, count), (dice.below(256), dice.one_of([0, count])),
    ])
