"""Results: when each is at board 0, where the reject gate hangs, and the end of a plan (document 02 §2)."""
from typing import NamedTuple

from kelvrist.walk import cost


class Arrival(NamedTuple):
    """A result in a plan: its step and messages, the board that it leaves and when, what it takes to board 0 and when it is there."""
    step: int
    messages: int
    board: int
    leaves: int
    time: int
    there: int


def arrivals(job, steps):
    """The results of a job, by where its steps stand in a plan."""
    found = []
    for step, messages in job.results:
        board, finish = steps[step].board, steps[step].finish
        time = messages * cost(job, board, 0)
        found.append(Arrival(step, messages, board, finish, time, finish + time))
    return found


def end(job, steps):
    """The end of a plan: the greatest of all finishes and of all results' arrivals."""
    return max([row.finish for row in steps] + [arrival.there for arrival in arrivals(job, steps)])
