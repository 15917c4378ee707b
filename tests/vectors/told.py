"""What the reference planner says of a file, and of the plans that are handed in for it."""
from functools import cached_property, lru_cache

import rules
from vectors.plans import as_bytes, as_plan

SCRATCH, SMALL_SCRATCH = 4096, 512
DIGEST = 4294967291


def digest(numbers):
    """The digest that program `vectors` prints of numbers that are too many to print."""
    d = 0
    for x in numbers:
        d = (257 * d + x) % DIGEST
    return d


class Told:
    """A file: a refusal's number, or 0, the job, its plan, C, the least C and the dearest chain."""

    def __init__(self, data):
        self.data, self.refusal, self.job, self.tasks = data, 0, None, 0
        try:
            self.job = rules.read(data)
        except rules.Refused as refused:
            self.refusal = refused.number
            return
        self.tasks = len(self.job.steps)
        self.plan = rules.plan(self.job)
        self.figures = self.cover, self.least, self.dearest = rules.figures(self.job, self.plan)

    @cached_property
    def by_weight(self):
        """The plan with ties by weight, and what the cover call gives of it."""
        plan = rules.plan(self.job, "weight")
        return plan, rules.figures(self.job, plan)

    def bytes(self):
        """The planner's plan as the station controller gets it."""
        return as_bytes(zip(self.plan.board, self.plan.start))

    def checked(self, starts, processors):
        """The checker's answer: 0 for a yes."""
        return self.refusal or rules.check(self.job, processors, starts)

    def bytes_checked(self, plan):
        """The answer of the station's checker."""
        if self.refusal:
            return self.refusal
        if len(plan) < 5 * self.tasks:
            return 9
        rows = as_plan(plan, self.tasks)
        return rules.check(self.job, [p for p, _ in rows], [start for _, start in rows])

    def page(self, starts, processors, room):
        """The refusal's number, or 0, and the page of a plan in a buffer of so many bytes."""
        try:
            return self.refusal, b"" if self.refusal else rules.page(self.job, processors, starts, room)
        except rules.Refused as refused:
            return refused.number, b""

    def bytes_page(self, plan, room):
        """The same of the station's page."""
        if self.refusal or len(plan) < 5 * self.tasks:
            return self.refusal or 9, b""
        rows = as_plan(plan, self.tasks)
        return self.page([start for _, start in rows], [p for p, _ in rows], room)


@lru_cache(maxsize=None)
def told(data):
    return Told(data)


def of_job(job):
    return told(rules.write(job))
