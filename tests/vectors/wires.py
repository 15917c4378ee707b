"""Cases of wires (document 02 §1) in the job reader and the job writer."""
import rules
from vectors.dice import ALL_ONES
from vectors.jobs import SMALL, WIRED, distinct, greatest_wired, random_job, with_wires
from vectors.reading import read
from vectors.records import END, damaged, link, out_of_range, rack, step, wire
from vectors.writing import write

TWO = rack(2, 3) + wire(0, 1, 7) + wire(1, 0, 9)
SMALL_WIRED = rules.wired(3, [1, 2, 3, 4, 250, 0], [4, 3], [(0, 1, 2)])


def wires(n):
    """All wires of a rack, each as its bytes."""
    return [wire(p, q, cost) for (p, q), cost in zip(rules.pairs_due(n), distinct(n))]


def head(n, standing=None):
    """A rack and its first wires: as many as are told, or all."""
    return rack(n, 3) + b"".join(wires(n)[:standing])


# ---- the reader

def good_reads(cases):
    """Every number of boards, with a cost that is known from the others; no wire on one board; either end of a cost's range."""
    for n in range(1, 17):
        read(cases, head(n) + step() + END)
    read(cases, head(1) + step() * 2 + link(0, 1) + END)
    read(cases, rules.write(SMALL_WIRED))
    for there, back in ((0, 0), (0, 250), (250, 0), (250, 250), (1, 2), (2, 1)):
        read(cases, rack(2, 3) + wire(0, 1, there) + wire(1, 0, back) + step() + END)


def range_reads(cases):
    """A cost above 250 at each place; the rack's values, the unit cost among them, which is not used."""
    for k in range(6):
        for cost in (250, 251, 255):
            standing = wires(3)
            standing[k] = standing[k][:3] + bytes([cost])
            read(cases, rack(3, 3) + b"".join(standing) + step() + END)
    for n in (0, 1, 2, 16, 17, 255):
        read(cases, rack(n, 3))
        read(cases, rack(n, 3) + step() + END)
        read(cases, rack(n, 3) + wire(0, 1) + wire(1, 0) + step() + END)
    for c in (0, 1, 100, 101, 255):
        read(cases, rack(2, 3, c) + TWO[4:] + step() + END)
        read(cases, rack(1, 3, c) + step() + END)
    for wiring in (0, 1, 2, 3, 4, 255):
        read(cases, rack(2, wiring) + TWO[4:] + step() + END)


def order_reads(cases):
    """Each pair at each place of three boards; the same wires in an order, or in a number, that is not theirs."""
    for k in range(7):
        for start in range(4):
            for to in range(4):
                read(cases, head(3, k) + wire(start, to))
    for k in (0, 5, 6):
        for start, to in ((255, 255), (0, 255), (255, 0), (16, 0), (0, 16), (15, 14)):
            read(cases, head(3, k) + wire(start, to) + step() + END)
    for n in (2, 4):
        rows, rest = wires(n), step() + END
        for k in range(len(rows)):
            read(cases, rack(n, 3) + b"".join(rows[:k] + rows[k + 1 :]) + rest)
            read(cases, rack(n, 3) + b"".join(rows[: k + 1] + rows[k:]) + rest)
            read(cases, rack(n, 3) + b"".join(rows[:k] + rows[k + 1 :] + [rows[k]]) + rest)
        read(cases, rack(n, 3) + b"".join(reversed(rows)) + rest)
    by_to = sorted(wires(4), key=lambda row: (row[2], row[1]))
    read(cases, rack(4, 3) + b"".join(by_to) + step() + END)


def past_the_last(cases):
    """A wire after all have come: the pair that would be next, one that has come, any other; and any on one board."""
    for n in (1, 2, 3, 16):
        for start, to in sorted({(n, 0), (0, n), (n - 1, n), (n, n), (0, 0), (0, 1), (1, 0), (n - 1, max(0, n - 2))}):
            read(cases, head(n) + wire(start, to) + step() + END)
            read(cases, head(n) + wire(start, to, 250))
            read(cases, head(n) + wire(start, to, 251) + step() + END)
            read(cases, head(n) + wire(start, to)[:3])


def early_steps(cases):
    """A step before all pairs stand, at each number of wires: cut at each length, out of its range, and good."""
    some = [*(step()[:length] for length in range(1, 5)), step(0)[:4], step(0), step(1_000_001), step(), step() + END, step() + wire(0, 1)]
    for n in (2, 3):
        for k in range(n * (n - 1) + 1):
            for data in some:
                read(cases, head(n, k) + data)
    for k in (239, 240):
        for data in (step(), step(0), step()[:4], step() + END):
            read(cases, head(16, k) + data)


def meeting_reads(cases):
    """Where two refusals meet, and where a wire may not stand."""
    steps, linked = step() * 2, step() * 2 + link(0, 1)
    for before in (rack(2, 0), rack(2, 1), rack(2, 2), TWO + step(), TWO + steps, TWO + linked, rack(1, 3) + step(), b""):
        # 3, whatever the wire
        for data in (b"\x05", wire(0, 1)[:3], wire(0, 1), wire(0, 1, 251), wire(1, 1, 255), wire(0, 1) + wire(1, 0) + step() + END):
            read(cases, before + data)
    for k in range(3):
        # 1 before 4, 4 before 14
        for data in (*(wire(7, 7)[:length] for length in range(5)), wire(0, 1)[:3], wire(1, 0)[:3], wire(7, 7, 251), wire(1, 1, 255)):
            read(cases, head(2, k) + data)
        # 3 for another known kind, cut or whole, 2 for an unknown one
        for data in (b"\x01", rack(2, 3), rack(0, 9), b"\x03", link(0, 1), link(1, 0, 0), END, END + END, b"\x08", b"\x00", b"\xff"):
            read(cases, head(2, k) + data)
            read(cases, head(2, k) + data + step() + END)
    for more in (wire(1, 0), b"\x05", END, step(), b"\x00"):
        read(cases, TWO + step() + END + more)
    full = TWO + step() * 256
    for data in (END, step(), b"\x02", step(0), wire(0, 1), b"\x05", link(254, 255) + END):
        read(cases, full + data)
    read(cases, head(2, 1) + step() * 257)
    read(cases, rack(17, 3) + wire(0, 1, 251))
    read(cases, rack(2, 3, 101) + step() + END)


def kind_reads(cases):
    """A byte at each place where a kind is due."""
    for before in (rack(1, 3), rack(2, 3), head(2, 1), TWO, TWO + step(), TWO + step() * 2 + link(0, 1)):
        for kind in (*range(9), 21, 128, 255):
            read(cases, before + bytes([kind]) + bytes(4))


def cut_reads(cases):
    """A small job with wires cut at each length, and with each byte changed."""
    data = TWO + step() * 2 + link(0, 1) + END
    for n in range(len(data)):
        read(cases, data[:n])
    for i in range(len(data)):
        for b in (0, 1, 2, 3, 4, 5, 100, 251):
            read(cases, data[:i] + bytes([b]) + data[i + 1 :])


def size_reads(cases, dice):
    """The greatest file without results, and one byte more or less."""
    data = rules.write(greatest_wired(dice))
    assert len(data) == WIRED
    read(cases, data)
    for more in (b"\x00", END, wire(0, 1)):
        read(cases, data + more)
    for last in (b"", link(254, 255), wire(15, 14), b"\x08"):
        read(cases, data[:-1] + last)
    wired, rest = data[: 4 + 4 * 240], data[4 + 4 * 240 :]
    for other in (wired, wired[:-1], wired[:-4] + rest, wired + wire(15, 14) + rest, wired + wire(16, 0) + rest):
        read(cases, other)


def random_reads(cases, dice):
    for _ in range(20):
        read(cases, rules.write(with_wires(dice, random_job(dice, 12, 20))))
    for _ in range(130):
        read(cases, damaged(dice, with_wires(dice, random_job(dice, 5, 6), dice.between(1, 4))))
    for _ in range(25):
        n = dice.between(1, 3)
        read(cases, head(n, dice.below(7)) + bytes(dice.below(dice.one_of([6, 256])) for _ in range(dice.below(24))))


# ---- the writer

def array(job, spare=0):
    """The costs of a job's wires as the writer has them, from p to q at place 16p + q; in all other places stands `spare`."""
    places = bytearray([spare] * 256)
    for p, q, cost in job.wires:
        places[(16 * p + q) % 256] = cost
    return bytes(places)


def write_wired(cases, job, spare=0xEE, **given):
    write(cases, job, costs=array(job, spare), **given)


def good_writes(cases):
    """Every number of boards; spare places hold what no wire may, 0 and a cost; under another wiring all places do."""
    for n in (1, 2, 3, 4, 5, 8, 11, 16):
        write_wired(cases, rules.wired(n, distinct(n), [5], []))
    for spare in (0, 9, 251, 255):
        write_wired(cases, SMALL_WIRED, spare)
        for wiring in (0, 1, 2):
            write(cases, rules.job(3, wiring, 2, [4, 3], [(0, 1, 2)]), costs=bytes([spare] * 256))


def range_writes(cases):
    """A cost at the end of its range and next to it, at each place of three boards and at others; the rack's values."""
    small = array(SMALL_WIRED)
    for place in (*range(3), *range(15, 20), *range(31, 36), 48, 51, 240, 255):
        for cost in (250, 251):
            write(cases, SMALL_WIRED, costs=small[:place] + bytes([cost]) + small[place + 1 :])
    for n in (0, 1, 2, 17, 255):
        write(cases, rules.job(n, 3, 0, [5], []), costs=bytes(256))
        write(cases, rules.job(n, 3, 0, [5], []), costs=bytes([251] * 256))
    for unit in (0, 100, 101, 255):
        write(cases, rules.job(2, 3, unit, [5], []), costs=small)
    for wiring in (3, 4, 255):
        write(cases, rules.job(2, wiring, 0, [5], []), costs=small)


def room_writes(cases):
    """Outputs of the exact length, of one byte less and more, of what the job would take without its wires, and of none."""
    for job in (SMALL_WIRED, rules.wired(2, [250, 0], [1], []), rules.wired(1, [], [1_000_000], [])):
        need = len(rules.write(job))
        for room in (0, 1, 4, need - 4 * len(job.wires), need - 4, need - 1, need, need + 1, need + 7):
            write_wired(cases, job, room=room)
            write_wired(cases, job, spare=255, room=room, fill=5)


def meeting_writes(cases):
    """Where two refusals meet: 5 before all, the rack before the wires, the wires before the steps, 9 last."""
    cheap, dear = bytes(256), bytes([251] * 256)
    for room in (0, 50):
        for costs in (cheap, dear):
            for n, unit, durations, links in (
                (3, 0, [], []), (3, 0, [], [(0, 0, 0)]), (3, 0, [0], []), (3, 0, [5], [(0, 0, 1)]), (3, 0, [5, 5], [(0, 1, 1), (0, 1, 1)]),
                (3, 101, [5], []), (0, 0, [0], []), (17, 0, [], []), (1, 0, [], []), (1, 0, [5], []),
            ):
                write(cases, rules.job(n, 3, unit, durations, links), costs=costs, room=room)
            for counts in ((257, 0), (1, 1025), (0, 0), (0, 1025), (ALL_ONES, ALL_ONES), (2**64 // 5 - 1, 0), (0, 1)):
                write(cases, rules.job(3, 3, 0, [5], []), costs=costs, tasks=counts[0], edges=counts[1], room=room)
    write_wired(cases, rules.wired(4, distinct(4), SMALL.durations, SMALL.links), tasks=2, edges=0, room=90)


def random_writes(cases, dice):
    for _ in range(20):
        job = with_wires(dice, random_job(dice, 8, 10), dice.between(1, 5))
        given = (dice.below(2**32), dice.below(256), dice.below(256), dice.below(65_536))
        costs = array(job, dice.below(256))
        write(cases, job, costs=costs, room=len(rules.write(job)) + dice.between(0, 3), fill=dice.below(256), spare=given)
    for _ in range(50):
        job = out_of_range(dice, with_wires(dice, random_job(dice, 5, 6), dice.between(1, 4)))
        need = 5 + 5 * (len(job.steps) + len(job.links)) + 4 * len(job.wires)
        write_wired(cases, job, dice.below(256), room=dice.one_of([0, need - 1, need, need + 2]), fill=dice.below(256))


def add_cases(cases, dice):
    good_reads(cases)
    range_reads(cases)
    order_reads(cases)
    past_the_last(cases)
    early_steps(cases)
    meeting_reads(cases)
    kind_reads(cases)
    cut_reads(cases)
    size_reads(cases, dice)
    random_reads(cases, dice)
    good_writes(cases)
    range_writes(cases)
    room_writes(cases)
    meeting_writes(cases)
    random_writes(cases, dice)
