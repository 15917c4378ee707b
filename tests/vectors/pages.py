"""Cases of the page for the cabinet door (document 02 §3), by its own call and by the station controller's."""
import rules
from rules import wrong
from vectors.entries import draw, drawn, station_page
from vectors.jobs import SHAPES, SMALL, greatest_of_all, numbers, with_results, with_some, with_wires
from vectors.larger import shaped
from vectors.plans import as_bytes, by_chance, changed, later, tight
from vectors.records import END, link, rack, result, step, wire
from vectors.told import of_job, told

LATEST = rules.LATEST_START
MARK, DOT = ord("#"), ord(".")

# ---- wrong rules: of a cell, of w, of a row, and of what is judged

RUNS = "overlaps(starts[step], duration, low, high - low)"
FINISH = "starts[step] + duration"
CELL = "board, j * w, (j + 1) * w)"
LAST = "last = max(start + duration for start, duration in zip(starts, job.durations))\n    w"
WIDTH = "w = -(-last // 64)"
ROW = 'f"{board:>2} |{cells}|\\n"'
ROWS = "for board in range(n):\n        cells"
LENT = "judge_lent((room, page_length(n)))"
VERDICT = "verdict = check(job, boards, starts)\n    if verdict:\n        raise Refused(verdict)\n    last"


def cell(when):
    return wrong(RUNS, f"({when})")


def width(last):
    return wrong(LAST, f"last = {last}\n    w")


WRONG = {
    "the cell that a finish stands in": cell(f"starts[step] < high and low <= {FINISH}"),
    "the cell that ends at a start": cell(f"starts[step] <= high and low < {FINISH}"),
    "a cell that is busy throughout": cell(f"starts[step] <= low and high <= {FINISH}"),
    "a cell that is busy for half of it": cell(f"2 * (min(high, {FINISH}) - max(low, starts[step])) >= high - low > 0"),
    "the first tick of a cell": cell(f"starts[step] <= low < {FINISH}"),
    "the last tick of a cell": cell(f"starts[step] < high <= {FINISH}"),
    "two ticks of a cell, or all": cell(f"min(high, {FINISH}) - max(low, starts[step]) >= min(2, duration, high - low) > 0"),
    "the cell of the start alone": cell("low <= starts[step] < high"),
    "the cell of the last tick alone": cell(f"low < {FINISH} <= high"),
    "these two and none between": cell(f"low <= starts[step] < high or low < {FINISH} <= high"),
    "a tick too few": wrong(RUNS, "overlaps(starts[step], duration - 1, low, high - low)"),
    "the board's first step alone": cell(f"starts[step] < high and low < {FINISH} and step == list(boards).index(board)"),
    "the page's rows by step": cell(f"starts[step] < high and low < {FINISH} and step % job.boards == board"),
    "any board's steps": wrong("boards[step] == board and overlaps(", "overlaps("),
    "the planner's plan": wrong(LAST, "boards, starts = plan(job).board, plan(job).start\n    " + LAST),
    "w rounded down": wrong(WIDTH, "w = last // 64"),
    "w rounded down, at least 1": wrong(WIDTH, "w = max(1, last // 64)"),
    "w rounded down and one more": wrong(WIDTH, "w = last // 64 + 1"),
    "w rounded to the nearest": wrong(WIDTH, "w = max(1, (last + 32) // 64)"),
    "w by the last running tick": wrong(WIDTH, "w = max(1, (last + 62) // 64)"),
    "63 cells for all": wrong(WIDTH, "w = -(-last // 63)"),
    "w in 16 bits": wrong(WIDTH, "w = -(-last // 64) % 65_536"),
    "last in 29 bits": wrong(WIDTH, "w = -(-(last % 2**29) // 64)"),
    "64 cells of unlike widths": wrong(CELL, "board, j * last // 64, (j + 1) * last // 64)"),
    "cells from tick 1 on": wrong(CELL, "board, j * w + 1, (j + 1) * w + 1)"),
    "w by the end with results": width("end_of(job, boards, [s + d for s, d in zip(starts, job.durations)])"),
    "w by the last step": width("starts[m - 1] + job.durations[m - 1]"),
    "w by the step that starts last": width("sum(max(zip(starts, job.durations)))"),
    "w by the last start": width("max(starts[:m]) or 1"),
    "w by the busy ticks": width("sum(job.durations)"),
    "w by board 0": width("max([s + d for b, s, d in zip(boards, starts, job.durations) if b == 0], default=1)"),
    "w by the planner's plan": width("plan(job).last"),
    "w of places past m": width("max(start + duration for start, duration in zip(starts, job.durations + [0] * 99))"),
    "a width for each board": wrong("cells = \"\"", "cells = \"\"\n        w = -(-max([s + d for b, s, d in zip(boards, starts, "
                                   "job.durations) if b == board], default=1) // 64)"),
    "a number not padded": wrong(ROW, 'f"{board} |{cells}|\\n"'),
    "a number padded right": wrong(ROW, 'f"{board:<2} |{cells}|\\n"'),
    "a number padded with 0": wrong(ROW, 'f"{board:02} |{cells}|\\n"'),
    "a number's last digit": wrong(ROW, 'f"{board % 10:>2} |{cells}|\\n"'),
    "a number in sixteens": wrong(ROW, 'f"{board:>2x} |{cells}|\\n"'),
    "numbers from 1 on": wrong(ROW, 'f"{board + 1:>2} |{cells}|\\n"'),
    "the highest board first": wrong(ROWS, "for board in reversed(range(n)):\n        cells"),
    "rows of boards that run a step": wrong(ROWS, "for board in sorted(set(boards)):\n        cells"),
    "sixteen rows": wrong(ROWS, "for board in range(16):\n        cells"),
    "a plan that is not judged": wrong(VERDICT, "last"),
    "a short buffer after 13": wrong(LENT, "judge_lent((page_length(n) if check(job, boards, starts) else room, page_length(n)))"),
    "a buffer a byte too short": wrong(LENT, "judge_lent((room, page_length(n) - 1))"),
    "a buffer of just the length": wrong(LENT, "judge_lent((room, page_length(n) + 1))"),
    "a buffer for any page": wrong(LENT, "judge_lent((room, 1120))"),
    "a buffer of 64 bytes a board": wrong(LENT, "judge_lent((room, 64 * n))"),
}


def findings(of, data, rows, room):
    """The page of a plan by some rules, or the refusal's number."""
    try:
        return of.page(of.read(data), [p for p, _ in rows], [start for _, start in rows], room)
    except of.Refused as refused:
        return refused.number


def tells(other, page):
    return findings(other, *page) != findings(rules, *page)


# ---- pages, each a file, a plan's rows and the length of the buffer

def page(job, rows, more=0):
    return rules.write(job), list(rows), rules.page_length(job.boards) + more


def known(job, rows, *due):
    """A page whose cells are known; those that are not told are dots."""
    found = page(job, rows)
    text = "".join(f"{board:>2} |{cells:.<64}|\n" for board, cells in enumerate(due))
    assert findings(rules, *found) == text.encode(), (job, rows)
    return found


def widths():
    """The last finish next to each multiple of 64: board 0 runs from 0 to it, board 1 in the last tick."""
    for last, busy in ((1, 1), (2, 2), (63, 63), (64, 64), (65, 33), (127, 64), (128, 64), (129, 43), (192, 64), (193, 49)):
        job = rules.job(2, 0, 0, [last, 1], [])
        yield known(job, [(0, 0), (1, last - 1)], "#" * busy, "." * (busy - 1) + "#")
    # started as late as may be: the greatest last finish, 601,000,000, is 64 times 9,390,625
    for ticks, w in ((1, 9_375_001), (999_936, 9_390_624), (999_937, 9_390_625), (1_000_000, 9_390_625)):
        job = rules.job(2, 0, 0, [ticks, 1_000_000, 1_000_000], [])
        yield known(job, [(0, LATEST), (1, w - 1_000_000), (1, 2 * w - 999_999)], "." * 63 + "#", "###")


def edges():
    """Steps that begin and end at the edges of cells and next to them, with a free cell after each; and steps of one tick."""
    for w, row, cells in (
        (1, [(0, 1), (2, 2), (5, 1), (7, 3)], "#.##.#.###"),
        (2, [(0, 2), (4, 1), (9, 1), (13, 2), (18, 2), (22, 4), (29, 4)], "#.#.#.##.#.##.###"),
        (3, [(0, 3), (6, 1), (13, 1), (20, 1), (26, 2), (33, 3), (41, 5), (51, 6)], "#.#.#.#.##.#.###.##"),
    ):
        job = rules.job(2, 0, 0, [ticks for _, ticks in row] + [1], [])
        yield known(job, [(1, start) for start, _ in row] + [(1, 64 * w - 1)], "", f"{cells:.<63}#")
    ticks = (0, 1, 2, 3, 125, 126, 127)
    yield known(rules.job(7, 0, 0, [1] * 7, []), enumerate(ticks), *("." * (tick // 2) + "#" for tick in ticks))


def boards():
    """Rows of 1, 10, 11 and 16 boards, and boards that run nothing: the first ones, those between, the last ones."""
    yield known(rules.job(1, 0, 0, [5, 3], []), [(0, 3), (0, 0)], "#" * 8)
    yield known(rules.job(3, 2, 5, [5, 64], []), [(1, 64), (1, 0)], "", "#" * 35, "")
    yield known(rules.job(10, 1, 9, [1], []), [(9, 0)], *[""] * 9, "#")
    yield known(rules.job(11, 0, 9, [1, 1], []), [(10, 1), (0, 0)], "#", *[""] * 9, ".#")
    yield known(rules.job(16, 2, 9, [4] * 16, []), [(p, 4 * p) for p in range(16)], *("." * 4 * p + "####" for p in range(16)))


def with_an_end():
    """Results move no cell: w is by the last finish, and the end is later."""
    flat, loaded = rules.job(2, 0, 2, [64, 32], []), rules.wired(2, [9, 250], [64, 32], [])
    for job, results in ((flat, [(1, 9)]), (flat, [(0, 7), (1, 1000)]), (loaded, [(1, 1000)])):
        found = known(with_some(job, results), [(0, 0), (1, 16)], "#" * 64, "." * 16 + "#" * 32)
        assert tells(WRONG["w by the end with results"], found)
        yield found


SENT = rules.job(2, 0, 2, [5, 5, 5], [(0, 1, 1)])
REFUSED_PLANS = {
    10: [[(0, 0), (0, 5), (2, 9)], [(0, 0), (255, LATEST + 1), (1, 0)]],
    11: [[(0, 0), (0, 5), (1, LATEST + 1)], [(0, 2**32 - 5), (2, 9), (0, 0)]],
    12: [[(0, 0), (0, 4), (1, 9)], [(0, 0), (1, 6), (1, 10)]],
    13: [[(0, 0), (1, 6), (0, 5)], [(0, 5), (1, 0), (0, 0)]],
}


def refused_plans():
    """10 to 13 with a buffer of the length, and 9 before them with a byte less; the good plans next to them."""
    for number, plans in REFUSED_PLANS.items():
        for rows in plans:
            assert findings(rules, *page(SENT, rows)) == number and findings(rules, *page(SENT, rows, -1)) == 9
            yield page(SENT, rows)
        yield page(SENT, rows, -1)
    yield known(SENT, [(0, 0), (1, 7), (0, 5)], "##########", ".......#####")


def rooms():
    """Buffers of the length, of more and of less."""
    own = list(zip(of_job(SMALL).plan.board, of_job(SMALL).plan.start))
    for more in (0, 1, 5, 1060, -1, -70, -139, -140):
        yield page(SMALL, own, more)
    for n in (1, 10, 16):
        yield page(rules.job(n, 0, 0, [1], []), [(0, 0)], -1)
        yield page(rules.job(n, 0, 0, [1], []), [(0, 0)], -6 * n)


def some_page(dice):
    """A small job, now and then with results, and a plan for it: the planner's, or another, now and then with places past m."""
    m, n = dice.between(1, 6), dice.one_of([1, 2, 2, 3])
    pairs = sorted(set(dice.one_of(SHAPES)(dice, m)))
    job = rules.job(n, dice.below(3), dice.below(4), [dice.between(1, dice.one_of([2, 9, 40, 90])) for _ in range(m)],
                    [(a, b, dice.between(1, 3)) for a, b in pairs])
    job = with_results(dice, job, 60) if dice.below(3) == 0 else job
    own = list(zip(of_job(job).plan.board, of_job(job).plan.start))
    rows = dice.one_of([own, tight(dice, job), tight(dice, job), changed(dice, job, tight(dice, job))])
    return page(job, rows + [(dice.below(4), dice.below(999))] * dice.below(2))


def telling(dice, pages, times):
    """Further pages, so that each wrong rule is told by so many."""
    for other in WRONG.values():
        count = sum(tells(other, one) for one in pages)
        while count < times:
            one = some_page(dice)
            if tells(other, one):
                count += 1
                pages.append(one)
                yield one


# ---- files and slices that are refused

REFUSED = {
    1: b"", 2: rack() + b"\x08", 3: rack() + END, 4: rack(17) + step() + END, 5: rack() + step() * 257,
    6: rack() + step() + link(0, 0) + END, 7: rack() + step() * 2 + link(0, 1) * 2 + END, 8: rules.write(SMALL) + END,
    14: rack(2, 3) + wire(1, 0) + step() + END, 15: rack() + step() + result(1) + END,
}


def passed_on(cases):
    """The reader's number comes before 9 and 10."""
    for number, data in REFUSED.items():
        assert told(data).refusal == number
        drawn(cases, data, [(0, 0), (9, 0)])
        drawn(cases, data, [], 0)


def slices(cases):
    """Slices that are too short, also with a plan that is refused and with a short buffer; places past m are not looked at."""
    data = rules.write(SENT)
    for rows in ([(0, 0), (1, 7), (0, 5)], [(0, 0), (2, LATEST + 1), (0, 0)]):
        starts, processors = [start for _, start in rows], [p for p, _ in rows]
        for places, more, room in ((2, 3, 140), (3, 2, 140), (2, 2, 139), (0, 0, 0), (0, 3, 140), (3, 0, 140)):
            draw(cases, data, starts[:places], processors[:more], room)
        for length, room in ((14, 140), (14, 139), (15, 139), (10, 140), (0, 0)):
            station_page(cases, data, as_bytes(rows)[:length], room)
        draw(cases, data, starts + [2**32 - 1, 9], processors + [255], 141)
        draw(cases, data, starts + [700], processors + [1, 0])
        station_page(cases, data, as_bytes(rows) + b"\xff" * 6)


# ---- larger jobs

def larger(cases, dice):
    """Each shape, on 1 to 16 processors: the station's page of the planner's plan, of another, and of one with a little damage."""
    for turn, shape in enumerate(SHAPES * 2):
        m, n, wiring = dice.between(6, 30), 1 + (7 * turn + 5) % 16, turn % 4
        job = shaped(dice, shape, m, n, wiring % 3, dice.one_of([0, 1, 20]))
        job = with_wires(dice, job) if wiring == 3 else job
        file = of_job(with_results(dice, job) if turn % 3 else job)
        own, other = list(zip(file.plan.board, file.plan.start)), tight(dice, file.job)
        for rows in (own, other, later(dice, own), changed(dice, file.job, own), by_chance(dice, file.job)):
            station_page(cases, file.data, as_bytes(rows), rules.page_length(n) + dice.below(3), 1 + dice.below(255))
    for most in (9, 1_000_000):
        job = greatest_of_all(numbers(dice, 9, 240), most, 2)
        file = of_job(job)
        station_page(cases, file.data, file.bytes())
        station_page(cases, file.data, as_bytes(tight(dice, job)))
    drawn(cases, file.data, zip(file.plan.board, file.plan.start), 1200)


def add_cases(cases, dice):
    pages = [*widths(), *edges(), *boards(), *with_an_end(), *refused_plans(), *rooms()]
    pages += telling(dice, list(pages), 2)
    pages += [some_page(dice) for _ in range(15)]
    for turn, one in enumerate(pages):
        drawn(cases, *one, fill=(0xEE, MARK, DOT)[turn % 3])
    passed_on(cases)
    slices(cases)
    larger(cases, dice)
