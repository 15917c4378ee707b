"""A case for each entry above the reader: its body, and the lines that it must give."""
import rules
from vectors.plans import as_bytes
from vectors.told import SCRATCH, SMALL_SCRATCH, digest, told

# Numbers that no planner writes: no planned time passes 460,000,000, and a processor is below 16.
FILLS = (4_000_000_007, 3_500_000_009, 0xEE)


def two(number):
    return number.to_bytes(2, "little")


def four(number):
    return number.to_bytes(4, "little")


def words(*things):
    return " ".join(map(str, things))


def yes_or(number):
    return words("refused", number) if number else "yes"


# ---- the planner, the cover call, the planner's small entry, and the first two by weight

def slices_line(file, head, starts, processors, scratch):
    return words(*head, "starts", *starts, "processors", *processors, "scratch", digest(scratch),
                 "check", yes_or(file.checked(starts, processors)))


def front(whole, begin):
    """The slice after a call that writes to its front."""
    return begin + whole[len(begin):]


def small_line(data, slices):
    """The planner's small entry on these slices; of the scratch as many places are left out as it asks for fewer, where there are
    as many."""
    fewer = SCRATCH - SMALL_SCRATCH
    starts, processors, scratch = map(list, slices)
    scratch = scratch[fewer:] if len(scratch) >= fewer else scratch
    try:
        answer = rules.planner(data, starts, processors, scratch, "small")
    except rules.Refused as refused:
        answer = ["refused", refused.number]
    return words("small", *answer, digest(starts + processors + scratch))


def lent(file, starts, processors, scratch, fills):
    """Slices of so many places, as many as there are tasks if not told, and the body of a case that lends them."""
    lengths = [file.tasks if starts is None else starts, file.tasks if processors is None else processors, scratch]
    slices = [[fill] * length for fill, length in zip((fills[0], fills[2], fills[1]), lengths)]
    return slices, b"".join(map(two, lengths)) + four(fills[0]) + four(fills[1]) + bytes([fills[2]]) + file.data


def planned_lines(file, how, slices, made):
    """The planner and the cover call, by this name, on these slices; `made` gives a good file's plan and its figures."""
    short = any(len(each) < asked for each, asked in zip(slices, (file.tasks, file.tasks, SCRATCH)))
    refusal = file.refusal or (9 if short else 0)
    planned = covered = ["refused", refusal]
    if not refusal:
        made, covered = made()
        planned = [file.tasks, made.end]
        slices = [front(whole, begin) for whole, begin in zip(slices, (made.start, made.board, made.arrival))]
    return [slices_line(file, [call + how, *said], *slices) for call, said in (("plan", planned), ("cover", covered))]


def plan(cases, data, starts=None, processors=None, scratch=SCRATCH, fills=FILLS):
    """The planner, the cover call and the planner's small entry, with slices of so many places: as many as there are tasks if not
    told."""
    file = told(data)
    slices, body = lent(file, starts, processors, scratch, fills)
    lines = planned_lines(file, "", slices, lambda: (file.plan, file.figures))
    cases.add(b"p", body, *lines, small_line(data, slices))


def plan_by_weight(cases, data, starts=None, processors=None, scratch=SCRATCH, fills=FILLS):
    """The planner and the cover call by weight, with slices of so many places: as many as there are tasks if not told."""
    file = told(data)
    slices, body = lent(file, starts, processors, scratch, fills)
    cases.add(b"h", body, *planned_lines(file, " by weight", slices, lambda: file.by_weight))


# ---- the checker

def plan_and_file(data, starts, processors):
    """The body of a case of the checker."""
    return two(len(starts)) + two(len(processors)) + b"".join(map(four, starts)) + bytes(processors) + data


def check(cases, data, starts, processors):
    line = words("plan of", len(starts), len(processors), "check", yes_or(told(data).checked(starts, processors)))
    cases.add(b"c", plan_and_file(data, starts, processors), line)


# ---- the page

def page_room(data):
    """The bytes of a page for a file; those of two boards for a refused one."""
    file = told(data)
    return rules.page_length(2 if file.refusal else file.job.boards)


def draw(cases, data, starts, processors, room=None, fill=FILLS[2]):
    """The page of a plan, in a buffer of so many bytes: as many as it fills if not told."""
    room = page_room(data) if room is None else room
    number, page = told(data).page(starts, processors, room)
    answer = words("refused", number) if number else words("of", len(page))
    line = words("page", answer, "past it", digest([fill] * (room - len(page))))
    cases.add(b"d", two(room) + bytes([fill]) + plan_and_file(data, starts, processors), *page.decode().splitlines(), line)


# ---- the station controller's planner, checker and page

def station_plan(cases, data, room=None, fill=FILLS[2]):
    """The station's planner, with a plan of so many bytes: as many as it fills if not told."""
    file = told(data)
    room = 5 * file.tasks if room is None else room
    after = bytes([fill]) * room
    refusal = file.refusal or (9 if room < 5 * file.tasks else 0)
    if not refusal:
        after = front(after, file.bytes())
    cases.add(b"s", two(room) + bytes([fill]) + data, f"station {refusal} [{after.hex()}] check {file.bytes_checked(after)}")


def station_check(cases, data, handed):
    cases.add(b"b", two(len(handed)) + handed + data, words("station plan of", len(handed), "check", told(data).bytes_checked(handed)))


def station_page(cases, data, handed, room=None, fill=FILLS[2]):
    """The station's page, in a buffer of so many bytes: as many as it fills if not told."""
    room = page_room(data) if room is None else room
    number, page = told(data).bytes_page(handed, room)
    body = two(room) + bytes([fill]) + two(len(handed)) + handed + data
    cases.add(b"g", body, words("station page", number, "leaves", digest(front([fill] * room, list(page)))))


# ---- the listing

LISTING = 12288


def listing(cases, data, fill=FILLS[2]):
    text = rules.report(data)
    past = digest([fill] * (LISTING - len(text)))
    cases.add(b"t", bytes([fill]) + data, *text.splitlines(), words("listing of", len(text), "past it", past))


# ---- all of them

def planned(cases, data, more=0):
    """A file through each entry that plans, with slices that have so many places more than they need."""
    m = told(data).tasks
    plan(cases, data, m + more, m + 2 * more, SCRATCH + more)
    station_plan(cases, data, 5 * m + more)
    listing(cases, data)


def handed(cases, data, rows):
    """A plan, which is a processor and a start for each task, through both checkers."""
    rows = list(rows)
    check(cases, data, [start for _, start in rows], [p for p, _ in rows])
    station_check(cases, data, as_bytes(rows))


def drawn(cases, data, rows, room=None, fill=FILLS[2]):
    """The page of such a plan by both calls."""
    rows = list(rows)
    draw(cases, data, [start for _, start in rows], [p for p, _ in rows], room, fill)
    station_page(cases, data, as_bytes(rows), room, fill)
