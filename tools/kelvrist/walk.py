"""Link costs, the walk that gives the cover C, and the walk that gives the least, as the documents word them."""
from typing import NamedTuple

from kelvrist.inout import Trouble
from kelvrist.jobfile import OWN


class Move(NamedTuple):
    """A move of a walk: from a step back to a predecessor, for the sake of a tick in which a board is idle."""
    step: int
    tick: int
    board: int
    predecessor: int
    time: int


class Walk(NamedTuple):
    """The step that a walk begins with, and its moves."""
    first: int
    moves: list

    def total(self):
        """The sum of its message times."""
        return sum(move.time for move in self.moves)

    def steps(self):
        """The steps that it comes to."""
        return {self.first, *(move.predecessor for move in self.moves)}


def hops(job, p, q):
    """The hops between two boards that differ."""
    boards, wiring, _ = job.rack
    d = abs(p - q)
    return (1, bin(p ^ q).count("1"), min(d, boards - d))[wiring]


def cost(job, p, q):
    """The cost from board p to board q: by its wire where the job has wires, which stand by from, then by to."""
    boards, wiring, unit = job.rack
    if p == q:
        return 0
    if wiring == OWN:
        return job.wires[p * (boards - 1) + q - (q > p)][2]
    return unit * hops(job, p, q)


def bundle_time(job, link, p, q):
    """What a link's messages take from board p to board q."""
    return link[2] * cost(job, p, q)


def latest_idle(steps, board, limit):
    """The latest tick before `limit` in which the board runs nothing, or -1."""
    t = limit - 1
    while (running := [row for row in steps if row.board == board and row.start <= t < row.finish]):
        t = running[0].start - 1
    return t


def cover_walk(job, steps):
    """The cover's walk, from the step that finishes last. Of equals `max` takes the first, which has the lowest number."""
    at, moves = max(steps, key=lambda row: row.finish), []
    first = at.step
    while True:
        board = max(range(job.rack[0]), key=lambda p: latest_idle(steps, p, at.start))
        tick = latest_idle(steps, board, at.start)
        if tick < 0:
            return Walk(first, moves)
        times = {link[0]: bundle_time(job, link, steps[link[0]].board, board) for link in job.links if link[1] == at.step}
        if not times:
            raise Trouble(f"this plan is not the planner's: board {board} is idle at tick {tick}, and step {at.step} waits for nothing")
        before = max(times, key=lambda t: steps[t].finish + times[t])
        moves.append(Move(at.step, tick, board, before, times[before]))
        at = steps[before]


# ---- the least walk (document 02 §7)

def ways_on(job, steps, at):
    """The moves that a walk may make at a step: through each board that is idle in the latest short tick before its start, back to each
    predecessor whose bundle would reach that board after that tick. By board, then by predecessor; None where no tick is short."""
    ticks = [latest_idle(steps, board, at.start) for board in range(job.rack[0])]
    tick = max(ticks)
    if tick < 0:
        return None
    moves = []
    for board in (board for board, own in enumerate(ticks) if own == tick):
        for link in (link for link in job.links if link[1] == at.step):
            before = steps[link[0]]
            time = bundle_time(job, link, before.board, board)
            if before.finish + time > tick:
                moves.append(Move(at.step, tick, board, before.step, time))
    return moves


def all_ways(job, steps, firsts):
    """The ways on at each step that a walk from one of these can come to."""
    ways, todo = {}, list(firsts)
    while todo:
        step = todo.pop()
        if step not in ways:
            ways[step] = ways_on(job, steps, steps[step])
            todo += [move.predecessor for move in ways[step] or []]
    return ways


def least_walk(job, steps):
    """The walk with the least sum, begun with any step that finishes last. The cover's, where it has that sum; else of several the one
    that begins with the lowest step, and at each step goes through the lowest board, then back to the lowest predecessor."""
    last = max(row.finish for row in steps)
    firsts = [row.step for row in steps if row.finish == last]
    ways, best = all_ways(job, steps, firsts), {}
    for step in sorted(ways):  # a predecessor has a lower number, and of equals `min` takes the first
        goes = [Walk(step, [move, *best[move.predecessor].moves]) for move in ways[step] or [] if move.predecessor in best]
        if ways[step] is None or goes:
            best[step] = min(goes or [Walk(step, [])], key=Walk.total)
    found = [best[step] for step in firsts if step in best]
    if not found:
        raise Trouble(f"this plan is not the planner's: no walk from step {firsts[0]} comes to a step before which no tick is short")
    least, cover = min(found, key=Walk.total), cover_walk(job, steps)
    return cover if cover.total() == least.total() else least
