"""The text form of a job: a line for each record but the end, in the words of the documents."""
from kelvrist.jobfile import RECORDS, WIRINGS, Job, Refused, read, write

LINES = [name for name in RECORDS if name != "end"]


def either(names):
    """Some names as a choice."""
    return ", ".join(names[:-1]) + " or " + names[-1]


class BadText(Exception):
    """The number of a line, from 1, and what is wrong with it."""

    def __init__(self, line, what):
        super().__init__(line, what)
        self.line, self.what = line, what


def quoted(word):
    """A word as a message shows it: not too long, and with nothing in it that a screen would obey."""
    return repr(word if len(word) <= 24 else word[:24] + "..")


def number(value, word):
    """The number that a word stands for."""
    if value.name == "wiring":
        if word not in WIRINGS:
            raise Refused(4, f"wiring {quoted(word)} is not {either(WIRINGS)}")
        return WIRINGS.index(word)
    if not (word.isascii() and word.isdigit()):
        raise Refused(4, f"{value.name} {quoted(word)} is not a whole number (digits alone)")
    digits = word.lstrip("0") or "0"
    if len(digits) > 9:
        raise Refused(4, f"{value.name} {quoted(digits)} is too great")
    return int(digits)


def take(job, words):
    """Takes the words of one line."""
    name, given = words[0], words[1:]
    if name not in LINES:
        raise Refused(2, f"{quoted(name)}: a line begins with {either(LINES)}")
    job.expect(name)
    values = RECORDS[name]
    if len(given) != len(values):
        due = ", ".join(value.name for value in values)
        raise Refused(1, f"{name}: {len(values)} {'words' if len(values) > 1 else 'word'} must follow ({due}), not {len(given)}")
    job.add(name, [number(value, word) for value, word in zip(values, given)])


def job_of(text):
    """The job that a text says; raises BadText."""
    job, lines = Job(), text.removesuffix("\n").split("\n")
    for at, line in enumerate(lines, 1):
        words = line.partition("#")[0].split()
        try:
            if words:
                take(job, words)
        except Refused as refused:
            raise BadText(at, refused.what)
    try:
        job.expect("end")
    except Refused as refused:
        raise BadText(len(lines), f"{refused.what} of the text")
    return job


def text_of(job):
    """The text of a job, its steps numbered in comments."""
    boards, wiring, cost = job.rack
    wires, results = " wire: from, to, cost;" if job.wires else "", "; result: step, messages" if job.results else ""
    lines = [f"# rack: boards, wiring, unit cost;{wires} step: duration; link: from, to, messages{results}"]
    lines += [f"rack {boards} {WIRINGS[wiring]} {cost}"]
    lines += ["wire {} {} {}".format(*wire) for wire in job.wires]
    lines += [f"step {duration:<12} # {at}" for at, duration in enumerate(job.steps)]
    lines += ["link {} {} {}".format(*link) for link in job.links]
    lines += ["result {} {}".format(*result) for result in job.results]
    return "\n".join(lines) + "\n"


def make(text):
    """The job file of a text; raises BadText."""
    return write(job_of(text))


def show(data):
    """The text of a job file; raises Refused."""
    return text_of(read(data))
