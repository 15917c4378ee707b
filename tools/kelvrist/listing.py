"""The listing that program `plan` prints, as document 01 gives it line by line, with the line `least` of document 02 §7."""
import re
from typing import NamedTuple

from kelvrist.inout import Trouble
from kelvrist.jobfile import MEANING, MOST_STEPS
from kelvrist.results import end as end_of

NUMBER = "(0|[1-9][0-9]{0,9})"


class Placed(NamedTuple):
    """A step's place in the plan."""
    step: int
    board: int
    start: int
    finish: int


class Listing(NamedTuple):
    """A printed plan."""
    boards: int
    links: int
    steps: list
    end: int
    cover: int
    least: int
    dearest: int


def numbers(lines, at, form, what):
    """The numbers of the line `at`, which has the form of a word and so many numbers."""
    line = lines[at] if at < len(lines) else ""
    found = re.fullmatch(form.replace("N", NUMBER), line)
    if not found:
        raise Trouble(f"this is no plan's listing: line {at + 1} should be {what}")
    return [int(word) for word in found.groups()]


def placed(lines, boards, count):
    """The steps, each judged by its own line."""
    steps = []
    for t in range(count):
        row = Placed(*numbers(lines, 1 + t, "N N N N", f"step {t}: its number, board, start and finish"))
        if row.step != t or row.board >= boards or row.start >= row.finish:
            raise Trouble(f"this is no plan's listing: line {t + 2} should be step {t} on a board below {boards}, "
                          "with a start below its finish")
        steps.append(row)
    return steps


def read(data):
    """The plan in a listing's bytes; raises Trouble, also where it is a refusal."""
    lines = data.decode("ascii", "replace").split("\n")
    refusal = re.fullmatch("refused " + NUMBER, lines[0])
    if refusal and lines[1:] == [""]:
        number = int(refusal[1])
        raise Trouble(f"there is no plan to draw: the job was refused by {number} ({MEANING.get(number, 'no number of a job file')})")
    boards, count, links = numbers(lines, 0, "plan N N N", "`plan` with boards, steps and links")
    if not (1 <= boards <= 16 and 1 <= count <= MOST_STEPS):
        raise Trouble("this is no plan's listing: it has 1 to 16 boards and 1 to 256 steps")
    steps = placed(lines, boards, count)
    (end,), (cover,), (least,), (dearest,) = (numbers(lines, count + 1 + i, f"{word} N", f"`{word}` with a number")
                                              for i, word in enumerate(("end", "cover", "least", "dearest")))
    if lines[count + 5 :] != [""]:
        raise Trouble("this is no plan's listing: the line `dearest` and its line feed should be the last")
    if end < max(row.finish for row in steps):
        raise Trouble(f"this is no plan's listing: it ends at {end}, before the last finish, {max(row.finish for row in steps)}")
    return Listing(boards, links, steps, end, cover, least, dearest)


def hold_to(listing, job):
    """Sees that a listing is of a job: as many boards, steps and links, each step as long, and the end where its results make it."""
    told = (listing.boards, len(listing.steps), listing.links)
    due = (job.rack[0], len(job.steps), len(job.links))
    if told != due:
        raise Trouble("the listing is of another job: {} boards, {} steps and {} links, the job has {}, {} and {}".format(*told, *due))
    for row, duration in zip(listing.steps, job.steps):
        if row.finish - row.start != duration:
            raise Trouble(f"the listing is of another job: step {row.step} takes {row.finish - row.start} ticks, in the job {duration}")
    due = end_of(job, listing.steps)
    if listing.end != due:
        raise Trouble(f"the listing is of another job: it ends at {listing.end}, by the job's steps and results it ends at {due}")
