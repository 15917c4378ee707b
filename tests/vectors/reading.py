"""Cases of the job reader."""
import rules
from vectors.jobs import PAIRS, SMALL, UNWIRED, greatest, greatest_values, random_job
from vectors.records import END, damaged, link, rack, step


def read_line(data):
    try:
        job = rules.read(data)
    except rules.Refused as refusal:
        return f"refused {refusal.number} platform 0 0 0 tasks edges spare 0"
    words = ["job", len(job.steps), len(job.links), "platform", job.boards, job.wiring, job.unit]
    if job.wiring == 3:
        words += ["wires", *(cost for _, _, cost in job.wires)]
    words += ["tasks", *job.durations, "edges"]
    for link in job.links:
        words += link
    for result in job.results:
        words += ["result", *result]
    words += ["spare", 0, "same" if rules.write(job) == data else "differs"]
    return " ".join(map(str, words))


def read(cases, data):
    cases.add(b"r", bytes(data), read_line(bytes(data)))


def table_reads(cases):
    """The small inputs of the refusal table, 1 to 8."""
    read(cases, bytes.fromhex("010200"))
    read(cases, bytes.fromhex("09"))
    read(cases, bytes.fromhex("0201000000"))
    read(cases, bytes.fromhex("01000005"))
    read(cases, rack() + step() * 257)
    read(cases, rack() + step() + link(0, 0) + END)
    read(cases, rack() + step() * 2 + link(0, 1) * 2 + END)
    read(cases, rules.write(SMALL) + b"\x00")


def edge_reads(cases):
    """Each end of each range, and the values next to it."""
    read(cases, rules.write(SMALL))
    read(cases, rack(1) + step(1) + END)
    for n in (0, 1, 2, 16, 17, 255):
        read(cases, rack(n=n) + step() + END)
    for wiring in (0, 1, 2, 3, 255):
        read(cases, rack(wiring=wiring) + step() + END)
    for c in (0, 1, 100, 101, 255):
        read(cases, rack(c=c) + step() + END)
    for d in (0, 1, 255, 256, 65_535, 65_536, 999_999, 1_000_000, 1_000_001, 2**24, 2**24 + 1, 2**31, 2**32 - 1):
        read(cases, rack() + step(d) + END)
        read(cases, rack() + step() + step(d) + link(0, 1) + END)
    for k in (0, 1, 255, 256, 257, 999, 1000, 1001, 1024, 32_768, 65_535):
        read(cases, rack() + step() * 3 + link(0, 1, k) + END)
        read(cases, rack() + step() * 3 + link(0, 1) + link(0, 2, k) + END)
    for start in range(5):
        for to in range(5):
            read(cases, rack() + step() * 3 + link(start, to) + END)
            read(cases, rack() + step() * 4 + link(1, 2) + link(start, to) + END)
    read(cases, rack() + step() * 3 + link(255, 255) + END)
    read(cases, rack() + step() * 256 + link(254, 255) + END)


def size_reads(cases, dice):
    """The counts at their ends, the greatest file, and one byte more or less."""
    read(cases, b"")
    for m in (255, 256, 257):
        read(cases, rack() + step() * m + END)
    for job in (greatest_values(), greatest(dice)):
        data = rules.write(job)
        assert len(data) == UNWIRED
        read(cases, data)
        for more in (b"\x00", END, link(254, 255)):
            read(cases, data + more)
    read(cases, data[:-1])
    read(cases, data[:-1] + link(255, 255))
    read(cases, data[:-1] + b"\x03")
    read(cases, data[:-1] + b"\x02")
    read(cases, data[:-1] + b"\x05")
    read(cases, data[:-2])
    read(cases, data + bytes(8192 - len(data)))
    few = rules.job(3, 1, 1, [9] * 47, [(a, b, 2) for a, b in PAIRS if b < 47][:1024])
    read(cases, rules.write(few))


def precedence_reads(cases):
    """Where two refusals meet, and where a record may not stand."""
    m256 = rack() + step() * 256
    for data in (
        m256 + b"\x02", m256 + step(0), m256 + step(), m256 + b"\x02\x00", m256 + link(0, 1) + b"\x02",
        b"\x01", b"\x01\x00", b"\x01\x00\x03", b"\x01\x11\x03\x65", b"\x01\x02\x00\x65\x09",
        rack() + END, rack() + link(0, 1), rack() + b"\x03", rack() + rack() + step() + END, rack() + b"\x01",
        rack() + step() + b"\x01", rack() + step() + rack(), rack() + step() * 2 + link(0, 1) + b"\x01",
        rack() + step() * 2 + link(0, 1) + step() + END, rack() + step() * 2 + link(0, 1) + b"\x02",
        rack(), rack() + step(), rack() + step() * 2 + link(0, 1), rack() + b"\x02", rack() + step()[:4],
        rack(17) + b"\x09", rack(0, 3, 101) + step() + END, rack() + step(0) + b"\x09", rack() + step(0)[:4],
        rack() + step() * 2 + link(1, 0, 0), rack() + step() * 2 + link(1, 0, 1001), rack() + step() * 2 + link(1, 0),
        rack() + step() * 3 + link(1, 2) + link(2, 1, 0), rack() + step() * 3 + link(1, 2) + link(2, 1),
        rack() + step() * 3 + link(1, 2) + link(0, 3), rack() + step() * 3 + link(1, 2) + link(0, 1, 0),
        rack() + step() * 3 + link(1, 2) + link(0, 1), rack() + step() * 3 + link(1, 2) + link(0, 2) + END,
        rack() + step() * 3 + link(0, 2) + link(0, 1) + END, rack() + step() * 3 + link(0, 1) + link(1, 2) + link(0, 2),
        rack() + step() * 3 + link(0, 1) + link(0, 1, 2) + END, rack() + step() * 3 + link(0, 1) + link(0, 1)[:4],
        rack() + step() * 2 + link(0, 0)[:4], rack() + step() + link(0, 0, 0)[:4], rack() + step() + b"\x03",
        END, link(0, 1), END * 2, rack() + step() + END + END, rack() + step() + END + step(), rack() + step() + END + b"\x09",
    ):
        read(cases, data)


def kind_reads(cases):
    """A byte at each place where a kind is due."""
    kinds = [*range(9), *range(16, 21), *range(128, 133), 254, 255]
    for before in (b"", rack(), rack() + step(), rack() + step() * 2 + link(0, 1), rack() + step() + END):
        for kind in kinds:
            read(cases, before + bytes([kind]))
            read(cases, before + bytes([kind]) + bytes(4))


def cut_reads(cases):
    """A small job cut at each length, and with each byte changed."""
    data = rules.write(SMALL)
    for n in range(len(data)):
        read(cases, data[:n])
    for i in range(len(data)):
        for b in (0, 1, 2, 3, 4, 5, 16, 100, 255):
            read(cases, data[:i] + bytes([b]) + data[i + 1 :])


def random_reads(cases, dice):
    for _ in range(60):
        read(cases, rules.write(random_job(dice, 12, 20)))
    for _ in range(6):
        read(cases, rules.write(random_job(dice, 120, 150)))
    for _ in range(220):
        read(cases, damaged(dice, random_job(dice, 9, 12)))
    for _ in range(30):
        head = dice.one_of([b"", rack(), rack() + step(), rack() + step() * 2])
        read(cases, head + bytes(dice.below(dice.one_of([6, 256])) for _ in range(dice.below(24))))


def add_cases(cases, dice):
    table_reads(cases)
    edge_reads(cases)
    size_reads(cases, dice)
    precedence_reads(cases)
    kind_reads(cases)
    cut_reads(cases)
    random_reads(cases, dice)
