"""The reference by which the product is held: tests/reference/requests.py with those requests in force that have landed.

A job is a `requests.Job`; `job` makes one of plain numbers. What is brought in here is all that the tests ask of the reference.
"""
import sys
from pathlib import Path
from types import ModuleType

sys.path.insert(0, str(Path(__file__).resolve().parent / "reference"))
import requests  # noqa: E402
from requests import LATEST_START, Job, Refused, pairs_due, plain, read, report, square, write  # noqa: E402,F401
from requests import bundle, check, cost, cover, dearest, dearest_result, figures, hops, least, page, page_length  # noqa: E402,F401
from requests import plan, planner, result_times, walk_choices, weights  # noqa: E402,F401

LANDED = (1, 2, 3, 4, 6, 7)
requests.set_in_force(LANDED)


def job(boards, wiring, unit, durations, links, wires=(), results=()):
    """A job of plain steps. A wire has a board, another and the cost from the one to the other; a link two steps and a count; a
    result a step and a count."""
    return Job(boards, wiring, unit, list(wires), [plain(duration) for duration in durations], list(links), list(results))


def wired(boards, costs, durations, links, unit=0, results=()):
    """A job with costs of its own, one for each pair in the order of the wires."""
    wires = [(*pair, each) for pair, each in zip(pairs_due(boards), costs, strict=True)]
    return job(boards, 3, unit, durations, links, wires, results)


def last_steps(job):
    """The steps with no successor: those that may have a result."""
    sending = {start for start, _, _ in job.links}
    return [step for step in range(len(job.steps)) if step not in sending]


def page_report(data):
    """What program `page` prints for a job's bytes: the page of the planner's plan, or a refusal as program `plan` prints it."""
    try:
        job = read(data)
    except Refused as refused:
        return f"refused {refused.number}\n"
    made = plan(job)
    return page(job, made.board, made.start).decode()


def number(data):
    """The number in some bytes."""
    return int.from_bytes(data, "little")


def wrong(old, new):
    """The reference with one place of its text changed, and the same requests in force."""
    text = Path(requests.__file__).read_text()
    assert text.count(old) == 1, f"the reference has no one place {old!r}"
    other = ModuleType("wrong")
    exec(text.replace(old, new), other.__dict__)
    other.set_in_force(LANDED)
    return other
