"""The five calls of libkelvrist.a, and the cover calls, the small planner, the planner by weight and the page of libtiming.a, by
ctypes, with guard bytes around what is lent to them."""
import ctypes
import shutil
import subprocess
import sys

GUARD = 64


class Altered(Exception):
    """A call altered a byte that it may not alter."""


class Lent:
    """Bytes that are lent to a call, between guard bytes; `width` bytes are a place of the slice."""

    def __init__(self, name, data, guard, width=1):
        self.name, self.width = name, width
        self.before = bytes([guard]) * GUARD + data + bytes([guard]) * GUARD
        self.now = ctypes.create_string_buffer(self.before, len(self.before))

    def words(self):
        places = (len(self.before) - 2 * GUARD) // self.width
        return ctypes.c_void_p(ctypes.addressof(self.now) + GUARD), ctypes.c_size_t(places)

    def back(self, call, may_alter):
        """The bytes after the call."""
        now = self.now.raw
        inside = now[GUARD:-GUARD]
        due = self.before[:GUARD] + inside + self.before[-GUARD:] if may_alter else self.before
        if now != due:
            at = next(at for at in range(len(now)) if now[at] != due[at])
            raise Altered(f"{call} altered the byte at place {at - GUARD} of the {self.name}: {due[at]:02x} to {now[at]:02x}")
        return inside


class Schedule:
    """The planners, the checker and the page from C."""

    CRATE = "kelvrist"
    PLANNERS = ("kelvrist_plan", "kelvrist_plan_small", "kelvrist_plan_by_weight")

    def __init__(self, entries):
        self.entries = entries
        for name in (*self.PLANNERS, "kelvrist_check", "kelvrist_page"):
            getattr(entries, name).restype = ctypes.c_uint32

    def plan(self, call, data, room, fill):
        """The answer of one of the planners, and the plan's buffer afterwards; it had `room` fill bytes before."""
        job, plan = Lent("job", data, fill), Lent("plan", bytes([fill]) * room, fill)
        answer = getattr(self.entries, call)(*job.words(), *plan.words())
        job.back(call, False)
        return answer, plan.back(call, True)

    def check(self, data, handed, fill):
        job, plan = Lent("job", data, fill), Lent("plan", handed, fill)
        answer = self.entries.kelvrist_check(*job.words(), *plan.words())
        job.back("kelvrist_check", False)
        plan.back("kelvrist_check", False)
        return answer

    def page(self, data, handed, room, fill):
        """The answer, and the page's buffer afterwards; it had `room` fill bytes before."""
        job, plan, page = Lent("job", data, fill), Lent("plan", handed, fill), Lent("page", bytes([fill]) * room, fill)
        answer = self.entries.kelvrist_page(*job.words(), *plan.words(), *page.words())
        job.back("kelvrist_page", False)
        plan.back("kelvrist_page", False)
        return answer, page.back("kelvrist_page", True)


class Timing:
    """The cover calls and planners, and the page of a plan, in slices."""

    CRATE = "timing"
    SLICES = {"starts": 4, "processors": 1, "scratch": 4, "output": 4}  # and the bytes of a place; a planner has no output
    FILLING = ("timing_cover", "timing_small", "timing_plan_by_weight", "timing_cover_by_weight")

    def __init__(self, entries):
        self.entries = entries
        for name in (*self.FILLING, "timing_draw"):
            getattr(entries, name).restype = ctypes.c_uint32

    def filled(self, call, data, rooms, fill):
        """The answer of a call that fills slices, and the slices afterwards; they had so many places of fill bytes before."""
        job = Lent("job", data, fill)
        slices = [Lent(name, bytes([fill]) * (width * room), fill, width)
                  for (name, width), room in zip(self.SLICES.items(), rooms)]
        answer = getattr(self.entries, call)(*job.words(), *(word for lent in slices for word in lent.words()))
        job.back(call, False)
        return answer, [lent.back(call, True) for lent in slices]

    def draw(self, data, starts, processors, room, fill):
        """The answer, and the page's buffer afterwards; starts and processors are bytes, 4 and 1 a place."""
        lent = Lent("job", data, fill), Lent("starts", starts, fill, 4), Lent("processors", processors, fill)
        page = Lent("page", bytes([fill]) * room, fill)
        answer = self.entries.timing_draw(*(word for each in lent for word in each.words()), *page.words())
        for each in lent:
            each.back("timing_draw", False)
        return answer, page.back("timing_draw", True)


def load(kind, archive, folder):
    """The calls of an archive, by way of a shared library that is made in the folder."""
    if not shutil.which("cc"):
        sys.exit("cc is not on the path: install a C compiler")
    if not archive.is_file():
        sys.exit(f"{archive} is not there: `make {archive}` makes it")
    folder.mkdir(parents=True, exist_ok=True)
    shared = folder / f"lib{kind.CRATE}.so"
    subprocess.run(["cc", "-shared", "-fPIC", "-O2", "-o", str(shared), "-Wl,--whole-archive", str(archive),
                    "-Wl,--no-whole-archive"], check=True)
    return kind(ctypes.CDLL(str(shared)))
