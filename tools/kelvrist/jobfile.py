"""The job file of documents 01 and 02: its records and their rules. Reader, writer and text form all go by the table RECORDS."""
from typing import NamedTuple

WIRINGS = ("flat", "cube", "ring", "wires")
OWN = WIRINGS.index("wires")  # the wiring whose costs the job gives itself
MOST_STEPS, MOST_LINKS = 256, 1024

# What each refusal of a job file means, in the words of the documents.
MEANING = {
    1: "the file ends where a record or its body is due",
    2: "kind unknown",
    3: "a known kind that may not stand here",
    4: "a boards, wiring, cost, duration or count value outside its range",
    5: "a step past 256 or a link past 1,024",
    6: "from not below to, or to not below m",
    7: "a link not above the one before",
    8: "bytes after the end record",
    14: "a wire that is not the next pair due or comes past the last, or a step before all pairs stand",
    15: "a result for a step that is absent, has a successor or is out of order",
}


class Value(NamedTuple):
    """A value of a record: its name, the bytes that hold it, and its range (the boards of a wire and the steps of a link or a result have
    rules of their own)."""
    name: str
    width: int
    low: int
    high: int = None


# The values of each record, and the byte of its kind.
RECORDS = {
    "rack": (Value("boards", 1, 1, 16), Value("wiring", 1, 0, 3), Value("cost", 1, 0, 100)),
    "wire": (Value("from", 1, 0), Value("to", 1, 0), Value("cost", 1, 0, 250)),
    "step": (Value("duration", 4, 1, 1_000_000),),
    "link": (Value("from", 1, 0), Value("to", 1, 0), Value("messages", 2, 1, 1000)),
    "result": (Value("step", 1, 0), Value("messages", 2, 1, 1000)),
    "end": (),
}
KINDS = {"rack": 1, "step": 2, "link": 3, "end": 4, "wire": 5, "result": 6}


class Refused(Exception):
    """A refusal's number, what is wrong in particular, and the byte where the record starts (none in a text)."""

    def __init__(self, number, what):
        super().__init__(number, what)
        self.number, self.what, self.at = number, what, None


class Job:
    """A rack (boards, wiring, cost), wires (from board, to board, cost), steps (their durations), links (from, to, messages) and results
    (step, messages), taken record by record."""

    def __init__(self):
        self.rack, self.wires, self.steps, self.links, self.results = None, [], [], [], []

    def due(self):
        """The pair of boards whose wire is due next; none where all stand or the wiring has no wires."""
        boards, wiring, _ = self.rack
        pairs = [(p, q) for p in range(boards) for q in range(boards) if p != q] if wiring == OWN else []
        return pairs[len(self.wires)] if len(self.wires) < len(pairs) else None

    def expect(self, name):
        """Refuses a record that may not stand here or is one too many."""
        if self.rack is None and name != "rack":
            raise Refused(3, f"a rack must come before the {name}")
        if self.rack is not None and name == "rack":
            raise Refused(3, "there is a rack already")
        if name == "wire" and self.rack[1] != OWN:
            raise Refused(3, f"a wire needs a rack of wiring {WIRINGS[OWN]}, and this one's is {WIRINGS[self.rack[1]]}")
        if name == "wire" and self.steps:
            raise Refused(3, "wires come before steps")
        if not self.steps and name in ("link", "result", "end"):
            first = "wire {} to {}".format(*self.due()) if self.due() else "a step"
            raise Refused(3, f"{first} must come before the {name}")
        if self.links and name == "step":
            raise Refused(3, "steps come before links")
        if self.results and name in ("step", "link"):
            raise Refused(3, f"{name}s come before results")
        if name == "step" and len(self.steps) == MOST_STEPS:
            raise Refused(5, f"a job has at most {MOST_STEPS} steps")
        if name == "link" and len(self.links) == MOST_LINKS:
            raise Refused(5, f"a job has at most {MOST_LINKS} links")

    def add(self, name, numbers):
        """Takes a record that is expected; refuses a value out of range, and a wire, step, link or result that does not fit those
        before."""
        for value, number in zip(RECORDS[name], numbers):
            if value.high is not None and not value.low <= number <= value.high:
                raise Refused(4, f"{value.name} {number} is not {value.low} to {value.high}")
        if name == "rack":
            self.rack = tuple(numbers)
        elif name == "wire":
            self.judge_wire(*numbers[:2])
            self.wires.append(tuple(numbers))
        elif name == "step":
            if self.due():
                raise Refused(14, "wire {} to {} must come before the first step".format(*self.due()))
            self.steps.append(numbers[0])
        elif name == "link":
            self.judge_link(*numbers[:2])
            self.links.append(tuple(numbers))
        elif name == "result":
            self.judge_result(numbers[0])
            self.results.append(tuple(numbers))

    def judge_wire(self, sender, to):
        """Refuses a wire that is not the next pair due."""
        due = self.due()
        if due is None:
            stand = f"all {len(self.wires)} wires are there already" if self.wires else "a rack of one board has no wires"
            raise Refused(14, f"wire {sender} to {to}: {stand}")
        if (sender, to) != due:
            raise Refused(14, f"wire {sender} to {to}: wires rise by from, then by to, and the next is {due[0]} to {due[1]}")

    def judge_link(self, sender, to):
        """Refuses a link by its two ends."""
        if sender >= to:
            raise Refused(6, f"link {sender} to {to}: from must be below to")
        if to >= len(self.steps):
            raise Refused(6, f"link {sender} to {to}: the last step is {len(self.steps) - 1}")
        if self.links and (sender, to) <= self.links[-1][:2]:
            before = "{} to {}".format(*self.links[-1])
            raise Refused(7, f"link {sender} to {to}: links rise by from, then by to, and the one before is {before}")

    def judge_result(self, step):
        """Refuses a result by its step."""
        if step >= len(self.steps):
            raise Refused(15, f"result of step {step}: the last step is {len(self.steps) - 1}")
        to = next((link[1] for link in self.links if link[0] == step), None)
        if to is not None:
            raise Refused(15, f"result of step {step}: it sends to step {to}, and only a step that sends to none has a result")
        if self.results and step <= self.results[-1][0]:
            raise Refused(15, f"result of step {step}: results rise by step, and the one before is of step {self.results[-1][0]}")

    def records(self):
        """The records in the order of the file, each as a name and its numbers."""
        yield "rack", self.rack
        for wire in self.wires:
            yield "wire", wire
        for duration in self.steps:
            yield "step", (duration,)
        for link in self.links:
            yield "link", link
        for result in self.results:
            yield "result", result
        yield "end", ()


def encoded(name, numbers):
    """The bytes of one record."""
    body = b"".join(number.to_bytes(value.width, "little") for value, number in zip(RECORDS[name], numbers))
    return bytes([KINDS[name]]) + body


def write(job):
    """The bytes of a job."""
    return b"".join(encoded(name, numbers) for name, numbers in job.records())


def decoded(name, body):
    """The numbers in a record's body."""
    numbers, at = [], 0
    for value in RECORDS[name]:
        numbers.append(int.from_bytes(body[at : at + value.width], "little"))
        at += value.width
    return numbers


def take(job, data, at):
    """Takes the record at byte `at`; gives its name and the byte after it."""
    if at >= len(data):
        raise Refused(1, "a record is due")
    name = next((name for name, kind in KINDS.items() if kind == data[at]), None)
    if name is None:
        raise Refused(2, f"kind {data[at]}")
    job.expect(name)
    after = at + 1 + sum(value.width for value in RECORDS[name])
    if after > len(data):
        raise Refused(1, f"the {name} is cut")
    job.add(name, decoded(name, data[at + 1 : after]))
    return name, after


def read(data):
    """The job in a file's bytes; raises Refused."""
    job, name, at = Job(), None, 0
    try:
        while name != "end":
            name, after = take(job, data, at)
            at = after
        if at < len(data):
            raise Refused(8, f"the end record should be the last byte, {len(data) - at} more follow")
    except Refused as refused:
        refused.at = at
        raise
    return job
