"""Cases of results (document 02 §2) in the job reader and the job writer."""
import rules
from vectors.dice import ALL_ONES
from vectors.jobs import LONGEST, distinct, greatest_of_all, random_job, tasks_only, with_results, with_some, with_wires
from vectors.reading import read
from vectors.records import END, damaged, link, rack, result, step, wire
from vectors.wires import TWO, array
from vectors.writing import write

HEAD = rack() + step() * 4 + link(1, 2)  # steps 0, 2 and 3 have no successor
SMALL_RESULTS = rules.job(2, 0, 2, [3, 4, 2, 6], [(0, 2, 1), (1, 2, 3)], results=[(2, 300), (3, 1)])
ONES = 65_535


# ---- the reader

def good_reads(cases):
    """After steps alone, after links and after wires; one result, some, one for each step that may have one."""
    read(cases, rules.write(SMALL_RESULTS))
    for m in (1, 3):
        for some in ([0], [m - 1], range(m)):
            read(cases, rack() + step() * m + b"".join(map(result, sorted(set(some)))) + END)
    for head in (HEAD, TWO + step() * 4 + link(0, 2), rack(1, 3) + step() * 4 + link(0, 2)):
        read(cases, head + result(2, 7) + END)
        read(cases, head + result(2, 7) + result(3, 1000) + END)


def range_reads(cases):
    """A count at either end of its range and next to it, in the first result and in a later one."""
    for count in (0, 1, 255, 256, 257, 999, 1000, 1001, 1024, 32_768, ONES):
        read(cases, HEAD + result(0, count) + END)
        read(cases, HEAD + result(0, 9) + result(3, count) + END)


def place_reads(cases):
    """Where a result may not stand, whatever it says: before a step."""
    for before in (b"", rack(), rack(2, 3), rack(2, 3) + wire(0, 1), TWO, rack(1, 3)):
        for data in (b"\x06", result(0)[:3], result(0), result(9, 0), result(0) + step() + END):
            read(cases, before + data)


def later_reads(cases):
    """What may not stand after a result, also cut, out of its range or one too many: a step, a link, a wire, a rack."""
    for before in (HEAD + result(3), HEAD + result(0) + result(2), rack() + step() * 256 + result(9), TWO + step() + result(0)):
        for data in (b"\x02", step(), step(0), b"\x03", link(2, 3), link(0, 0, 0), b"\x05", wire(0, 1), wire(1, 1, 251), b"\x01", rack(),
                     rack(0, 9), b"\x00", b"\x07", b"\x08", b"\xff", b""):
            read(cases, before + data)
    for data in (step(), link(2, 3), wire(0, 1), rack()):
        read(cases, HEAD + result(0) + data + END)
        read(cases, HEAD + result(0) + data + result(3) + END)
    for more in (result(3), b"\x06", END, step(), b"\x00"):
        read(cases, HEAD + result(0) + END + more)


def order_reads(cases):
    """Each step alone, and each two of them: absent, with a successor, twice, falling."""
    for one in (*range(7), 128, 255):
        read(cases, HEAD + result(one) + END)
    for one in (0, 2, 3):
        for other in (*range(6), 255):
            read(cases, HEAD + result(one) + result(other) + END)
    read(cases, HEAD + result(0) + result(2) + result(3) + END)
    read(cases, HEAD + result(0) + result(3) + result(2) + END)
    read(cases, HEAD + result(0) + result(2) + result(2) + END)
    for m in (255, 256):
        for one in (0, 254, 255):
            read(cases, rack() + step() * m + result(one))


def successor_reads(cases):
    """Which step has a successor, by a link at the front, in the middle and at the back; the receivers have none."""
    pairs = [(0, 4), (2, 3), (2, 5), (4, 5)]
    head = rack() + step() * 7 + b"".join(link(*pair) for pair in pairs)
    for one in range(8):
        read(cases, head + result(one))
        read(cases, head + result(one) + END)
    full = rack() + step() * 256
    for pair, some in (((0, 1), (0, 1)), ((0, 255), (0, 255)), ((254, 255), (253, 254, 255))):
        for one in some:
            read(cases, full + link(*pair) + result(one))


def meeting_reads(cases):
    """Where refusals meet: 1 before 4 and 15, 4 before 15."""
    for before in (HEAD, HEAD + result(2)):
        for one in (1, 2, 3, 4, 255):
            for count in (0, 1001, ONES):
                read(cases, before + result(one, count))
            for length in (1, 2, 3):
                read(cases, before + result(one, 0)[:length])
            read(cases, before + result(one, ONES)[:3])


def kind_reads(cases):
    """A byte at each place where a kind is due."""
    for before in (rack(), HEAD[:-5], HEAD, HEAD + result(0), HEAD + result(3)):
        for kind in (*range(9), 22, 134, 255):
            read(cases, before + bytes([kind]) + bytes(4))


def cut_reads(cases):
    """A small job with results cut at each length, and with each byte from the last step's kind on changed."""
    data = rack() + step() * 3 + link(0, 1) + result(1, 300) + result(2) + END
    for n in range(len(data)):
        read(cases, data[:n])
    for i in (14, *range(19, len(data))):
        for b in (0, 1, 3, 4, 6, 7, 255):
            read(cases, data[:i] + bytes([b]) + data[i + 1 :])


def most_reads(cases):
    """A result for each of 256 steps, which a job without links can have, and one more."""
    data = rack() + step() * 256 + b"".join(map(result, range(256)))
    read(cases, data + END)
    for more in (result(0), result(255), result(0, 0), b"\x06", b""):
        read(cases, data + more)
    linked = rack() + step() * 47 + b"".join(link(a, b) for a in range(46) for b in range(a + 1, 47))[: 5 * 1024]
    for more in (result(46), result(46) + link(44, 45), result(44), link(44, 45), result(46) + END + END):
        read(cases, linked + more)


def size_reads(cases):
    """The greatest file; in place of its end record a result more, which can only be 15 and has no 5: cut at each length, out of
    its range and good. So the first 8,372 bytes settle the answer, and no fewer."""
    data = rules.write(greatest_of_all([cost % 10 for cost in distinct(16)]))
    assert len(data) == LONGEST
    read(cases, data)
    for more in (b"\x00", END, result(255), END * 4):
        read(cases, data + more)
    cut = data[:-1]
    for last in (b"", *(result(255)[:length] for length in (1, 2, 3)), result(255), result(255) + END, result(255) + bytes(9)):
        read(cases, cut + last)
    for one, count in ((255, 0), (255, 1001), (255, 1000), (254, 1), (0, 1), (0, 0), (255, ONES)):
        read(cases, cut + result(one, count))
    for last in (result(255, 0)[:3], result(255, 0) + END, result(255, 1001) + bytes(9), step(), link(5, 6), wire(0, 1), b"\x07"):
        read(cases, cut + last)
    for last in (b"", result(255, 0), result(255)[:3], result(254) + END):
        read(cases, cut[:-4] + last)


def random_reads(cases, dice):
    for turn in range(12):
        job = random_job(dice, 6, 7)
        read(cases, rules.write(with_results(dice, with_wires(dice, job, dice.between(1, 4)) if turn % 3 == 0 else job)))
    for turn in range(60):
        job = random_job(dice, 4, 4)
        read(cases, damaged(dice, with_results(dice, with_wires(dice, job, dice.between(1, 3)) if turn % 3 == 0 else job)))
    for _ in range(15):
        head = dice.one_of([HEAD, HEAD + result(0), rack() + step() * 2, rack() + step() + result(0)])
        read(cases, head + bytes(dice.below(dice.one_of([8, 256])) for _ in range(dice.below(16))))


# ---- the writer

def counts(job, past=0):
    """The counts of a job's results as the writer has them, by task; in the places past its tasks, which are spare, stands `past`."""
    places = [0] * len(job.steps) + [past] * (256 - len(job.steps))
    for task, count in job.results:
        places[task] = count
    return places


def write_results(cases, job, past=ONES, **given):
    write(cases, job, counts=counts(job, past), costs=array(job, 0xEE) if job.wiring == 3 else None, **given)


def changed(places, place, count):
    return places[:place] + [count] + places[place + 1 :]


def good_writes(cases):
    """One result, some, one for each step; spare places hold what no result may, 0 and a count."""
    for past in (0, 1, 1000, 1001, ONES):
        write_results(cases, SMALL_RESULTS, past)
        write_results(cases, with_some(tasks_only(1), [(0, 1000)]), past)
    for some in ([], [0], [2], [0, 2], [0, 1, 2]):
        write_results(cases, with_some(tasks_only(3), [(task, 7 + task) for task in some]))
    write_results(cases, rules.wired(2, [7, 9], [4, 3], [(0, 1, 2)], results=[(1, 5)]))
    write_results(cases, rules.wired(1, [], [4], [], results=[(0, 5)]))


def range_writes(cases):
    """A count at the end of its range and next to it, at the first place, the last, those next to it and the last of all."""
    small = counts(with_some(tasks_only(3), [(1, 8)]))
    for place in (0, 2, 3, 255):
        for count in (1, 1000, 1001, ONES):
            write(cases, tasks_only(3), counts=changed(small, place, count))


def successor_writes(cases):
    """A result of a task with a successor, at the first and the last task that can have one; links that are spare give none."""
    for pairs in ([(0, 1)], [(2, 3)], [(0, 3), (1, 3), (2, 3)], [(0, 1), (0, 2)]):
        job = rules.job(2, 0, 2, [5] * 4, [(a, b, 1) for a, b in pairs])
        for task in range(4):
            write(cases, job, counts=changed([0] * 256, task, 6))
    for count in (1000, 1001):
        write(cases, rules.job(2, 0, 2, [5] * 2, [(0, 1, 1)]), counts=[count] + [0] * 255)
    full = rules.job(2, 0, 2, [5] * 256, [(254, 255, 1)])
    for task, count in ((253, 1001), (254, 1), (254, 1001), (255, 1), (255, 1001)):
        write(cases, full, counts=changed([0] * 256, task, count), room=0)
    both = rules.job(2, 0, 2, [5] * 2, [(0, 1, 1)])
    write(cases, both, counts=[3, 3] + [ONES] * 254, edges=0, room=24)
    write(cases, tasks_only(2), counts=[3, 3] + [ONES] * 254, spare=(5, 0, 1, 1))
    write(cases, both, counts=[0, 3] + [ONES] * 254, spare=(5, 1, 1, 1))


def meeting_writes(cases):
    """Where troubles meet: results by task after all links, 4 before 15 in each; 5 before all, 9 last."""
    linked = [(0, 2, 1), (1, 3, 1)]
    for room in (0, 60):
        for places in ([9, 0, 1001, 0], [0, 0, 1001, 9], [0, 9, 0, 1001], [1001, 9, 0, 0], [9, 1001, 0, 0], [0, 0, 9, 9]):
            write(cases, rules.job(2, 0, 2, [5] * 4, linked), counts=places + [ONES] * 252, room=room)
        for job in (rules.job(0, 0, 2, [5] * 4, linked), rules.job(2, 0, 2, [5, 5, 5, 0], linked), rules.job(2, 0, 2, [5] * 4, linked * 2),
                    rules.job(2, 0, 2, [5] * 4, [(0, 2, 1), (1, 1, 1)]), rules.job(2, 3, 2, [5] * 4, linked)):
            write(cases, job, counts=[9, 1001] + [ONES] * 254, room=room)
        for tasks, edges in ((0, 0), (0, 2), (257, 2), (4, 1025), (ALL_ONES, ALL_ONES), (2, 0)):
            write(cases, rules.job(2, 0, 2, [5] * 4, linked), counts=[9, 0, 1001, 0] + [ONES] * 252, tasks=tasks, edges=edges, room=room)


def room_writes(cases):
    """Outputs of the exact length, of one byte less and more, of what the job would take without its results, and of none."""
    for job in (SMALL_RESULTS, rules.wired(2, [7, 9], [4, 3], [(0, 1, 2)], results=[(1, 5)])):
        need = len(rules.write(job))
        for room in (0, need - 4 * len(job.results), need - 4, need - 1, need, need + 1, need + 7):
            write_results(cases, job, room=room)


def random_writes(cases, dice):
    for turn in range(12):
        job = random_job(dice, 6, 6)
        job = with_results(dice, with_wires(dice, job, dice.between(1, 4)) if turn % 3 == 0 else job)
        spare = (dice.below(2**32), dice.below(256), dice.below(256), dice.below(65_536))
        write_results(cases, job, dice.below(65_536), room=len(rules.write(job)) + dice.below(4), fill=dice.below(256), spare=spare)
    for _ in range(30):
        job = with_results(dice, random_job(dice, 6, 6))
        places = changed(counts(job, dice.below(65_536)), dice.below(len(job.steps) + 1), dice.one_of([1, 1000, 1001, ONES]))
        write(cases, job, counts=places, room=dice.one_of([0, len(rules.write(job)) + 4]))


def add_cases(cases, dice):
    good_reads(cases)
    range_reads(cases)
    place_reads(cases)
    later_reads(cases)
    order_reads(cases)
    successor_reads(cases)
    meeting_reads(cases)
    kind_reads(cases)
    cut_reads(cases)
    most_reads(cases)
    size_reads(cases)
    random_reads(cases, dice)
    good_writes(cases)
    range_writes(cases)
    successor_writes(cases)
    meeting_writes(cases)
    room_writes(cases)
    random_writes(cases, dice)
