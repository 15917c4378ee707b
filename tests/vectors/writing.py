"""Cases of the job writer."""
import rules
from vectors.dice import ALL_ONES
from vectors.jobs import SMALL, UNWIRED, greatest, greatest_values, random_job, tasks_only
from vectors.records import out_of_range


class Held:
    """A job held as numbers, its counts beside its arrays, and the output that is lent to the writer.

    `costs` are those of the wires, 256 of them: from p to q at place 16p + q. `counts` are those of the results, 256 of them by
    task. A case that gives none has 0 everywhere.
    """

    def __init__(self, job, tasks=None, edges=None, room=None, fill=0xEE, spare=(7, 5, 3, 9), costs=None, counts=None):
        self.job, self.fill, self.spare, self.counts = job, fill, spare, counts
        self.costs = bytes(256) if counts and not costs else costs
        self.tasks = len(job.steps) if tasks is None else tasks
        self.edges = len(job.links) if edges is None else edges
        need = 5 + 5 * (self.tasks + self.edges) + (4 * len(self.wires()) if self.costs else 0) + 4 * len(self.results())
        self.room = need if room is None else room

    def wires(self):
        """The wires that the costs stand for: none but under wiring 3, where each pair has one."""
        costs, n = self.costs or bytes(256), self.job.boards
        return [(p, q, costs[16 * p + q]) for p, q in rules.pairs_due(n)] if self.job.wiring == 3 and n <= 16 else []

    def results(self):
        """The results that the counts stand for: places from the number of tasks on are spare."""
        return [(task, count) for task, count in enumerate(self.counts or ()) if count and task < self.tasks]

    def judged(self):
        """The job that the counts and the arrays stand for. A count above what the arrays hold stands for one place more."""
        duration, *link = self.spare
        steps = self.job.durations + [duration] * 257
        links = self.job.links + [tuple(link)] * 1025
        steps, links, job = steps[: min(self.tasks, 257)], links[: min(self.edges, 1025)], self.job
        return rules.job(job.boards, job.wiring, job.unit, steps, links, self.wires(), self.results())

    def line(self):
        try:
            data = rules.write(self.judged(), self.room)
            answer = f"written {len(data)}"
        except rules.Refused as refusal:
            data = b""
            answer = f"refused {refusal.number}"
        out = data + bytes([self.fill]) * (self.room - len(data))
        return f"{answer} [{out.hex()}]"

    def kind(self):
        return b"u" if self.counts else b"v" if self.costs else b"w"

    def body(self):
        job = self.job
        duration, start, to, count = self.spare
        body = b"".join(each.to_bytes(2, "little") for each in self.counts or ()) + bytes(self.costs or b"")
        body += self.tasks.to_bytes(8, "little") + self.edges.to_bytes(8, "little")
        body += bytes([job.boards, job.wiring, job.unit, self.fill])
        body += self.room.to_bytes(2, "little") + len(job.steps).to_bytes(2, "little")
        body += duration.to_bytes(4, "little") + bytes([start, to]) + count.to_bytes(2, "little")
        for d in job.durations:
            body += d.to_bytes(4, "little")
        for f, t, k in job.links:
            body += bytes([f, t]) + k.to_bytes(2, "little")
        return body


def write(cases, job, **given):
    held = Held(job, **given)
    cases.add(held.kind(), held.body(), held.line())


def table_writes(cases):
    """The small inputs of the refusal table that a job held as numbers can have: 3 to 7 and 9."""
    write(cases, rules.job(2, 0, 2, [], []))
    write(cases, rules.job(0, 0, 5, [5], []))
    write(cases, tasks_only(2), tasks=257, room=40)
    write(cases, rules.job(2, 0, 2, [5], [(0, 0, 1)]))
    write(cases, rules.job(2, 0, 2, [5, 5], [(0, 1, 1), (0, 1, 1)]))
    write(cases, SMALL, room=29)


def edge_writes(cases):
    """Each end of each range, and the values next to it."""
    for n in (0, 1, 16, 17, 255):
        write(cases, rules.job(n, 0, 2, [5], []))
    for wiring in (0, 1, 2, 3, 255):
        write(cases, rules.job(2, wiring, 2, [5], []))
    for c in (0, 100, 101, 255):
        write(cases, rules.job(2, 0, c, [5], []))
    for d in (0, 1, 255, 256, 65_536, 1_000_000, 1_000_001, 2**24, 2**32 - 1):
        write(cases, rules.job(2, 0, 2, [d], []))
        write(cases, rules.job(2, 0, 2, [5, d], [(0, 1, 1)]))
    for k in (0, 1, 255, 256, 1000, 1001, 32_768, 65_535):
        write(cases, rules.job(2, 0, 2, [5, 5], [(0, 1, k)]))
        write(cases, rules.job(2, 0, 2, [5] * 3, [(0, 1, 1), (1, 2, k)]))
    for start in range(4):
        for to in range(5):
            write(cases, rules.job(2, 0, 2, [5] * 4, [(1, 2, 1), (start, to, 4)]))
    write(cases, rules.job(2, 0, 2, [5] * 3, [(255, 255, 1)]))


def count_writes(cases, dice):
    """Counts at their ends and far above them, also ones at which the length of the file would wrap."""
    big = [2**32, 2**32 + 1, 2**63, (2**64 + 4) // 5, 2**64 // 5 - 1, ALL_ONES - 1, ALL_ONES]
    for tasks in (257, 258, 1024, 65_536, *big):
        write(cases, SMALL, tasks=tasks, room=40)
    for edges in (1025, 1026, 65_536, *big):
        write(cases, SMALL, edges=edges, room=40)
    write(cases, SMALL, tasks=ALL_ONES, edges=ALL_ONES, room=40)
    write(cases, SMALL, tasks=ALL_ONES, edges=2, room=40)
    write(cases, SMALL, tasks=0, room=40)
    write(cases, SMALL, tasks=0, edges=0, room=40)
    write(cases, SMALL, tasks=0, edges=1025, room=40)
    write(cases, SMALL, edges=0, room=40)
    write(cases, SMALL, tasks=2, edges=1, room=40)
    write(cases, SMALL, tasks=2, edges=0, room=40)
    write(cases, tasks_only(256))
    write(cases, tasks_only(255), tasks=256)
    write(cases, tasks_only(255), tasks=256, spare=(0, 0, 0, 0))
    job = greatest(dice)
    write(cases, job)
    write(cases, job, room=UNWIRED - 1)
    write(cases, greatest_values(), room=UNWIRED + 1, fill=0)


def room_writes(cases):
    """Outputs of the exact length, of one byte less and more, and of none."""
    for job in (SMALL, tasks_only(1), rules.job(16, 1, 100, [1, 1_000_000], [(0, 1, 1000)])):
        need = len(rules.write(job))
        for room in (0, 1, 4, need - 1, need, need + 1, need + 7):
            write(cases, job, room=room)
            write(cases, job, room=room, fill=0x04, spare=(0, 0, 0, 0))
            write(cases, job, room=room, fill=0, spare=(2**32 - 1, 255, 255, 65_535))


def precedence_writes(cases):
    """Where two refusals meet."""
    bad = rules.job(0, 3, 101, [0], [(0, 0, 0)])
    for room in (0, 40):
        write(cases, bad, room=room)
        write(cases, bad, tasks=0, room=room)
        write(cases, bad, tasks=257, room=room)
        write(cases, bad, edges=1025, room=room)
        write(cases, bad, tasks=0, edges=1025, room=room)
        write(cases, rules.job(2, 0, 2, [], [(0, 0, 0)]), room=room)
        write(cases, rules.job(2, 0, 2, [0, 5], [(1, 0, 0)]), room=room)
        write(cases, rules.job(2, 0, 2, [5, 0], [(1, 0, 1)]), room=room)
        write(cases, rules.job(2, 0, 2, [5, 5], [(1, 0, 0)]), room=room)
        write(cases, rules.job(2, 0, 2, [5, 5], [(1, 0, 1001)]), room=room)
        write(cases, rules.job(2, 0, 2, [5, 5], [(1, 0, 1)]), room=room)
        write(cases, rules.job(2, 0, 2, [5] * 3, [(1, 2, 1), (0, 2, 1), (0, 0, 0)]), room=room)
        write(cases, rules.job(2, 0, 2, [5] * 3, [(1, 2, 1), (0, 0, 1)]), room=room)
        write(cases, rules.job(2, 0, 2, [5] * 3, [(1, 2, 1), (0, 1, 0)]), room=room)
        write(cases, rules.job(2, 0, 2, [5] * 3, [(0, 2, 1), (0, 1, 1)]), room=room)
        write(cases, rules.job(2, 0, 2, [5] * 3, [(0, 1, 1), (0, 1, 2)]), room=room)


def random_writes(cases, dice):
    for _ in range(60):
        job = random_job(dice, 8, 10)
        need = len(rules.write(job))
        spare = (dice.below(2**32), dice.below(256), dice.below(256), dice.below(65_536))
        write(cases, job, room=need + dice.between(0, 3), fill=dice.below(256), spare=spare)
    for _ in range(80):
        job = out_of_range(dice, random_job(dice, 8, 10))
        need = 5 + 5 * (len(job.steps) + len(job.links))
        write(cases, job, room=dice.one_of([0, need - 1, need, need + 2]), fill=dice.below(256))


def add_cases(cases, dice):
    table_writes(cases)
    edge_writes(cases)
    count_writes(cases, dice)
    room_writes(cases)
    precedence_writes(cases)
    random_writes(cases, dice)
