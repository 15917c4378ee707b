"""The refusals of the entries that plan: 1 to 8 as the reader's, 9 for each slice."""
import rules
from vectors.entries import SCRATCH, check, handed, listing, plan, planned, station_check, station_plan
from vectors.jobs import MOST_TASKS, SMALL, greatest_values, random_job, tasks_only
from vectors.records import END, damaged, link, rack, step
from vectors.told import told

# the small inputs of the refusal table, and others
REFUSED = {
    1: [b"\x01\x02\x00", rack(), rack() + step(), rack() + step()[:4], rack() + step() * 2 + link(0, 1)[:3]],
    2: [b"\x09", b"\x00", rack() + b"\x08", rack() + step() + b"\xff"],
    3: [step(1), END, rack() + END, rack() + step() + rack(), rack() + step() * 2 + link(0, 1) + step()],
    4: [b"\x01\x00\x00\x05", rack(wiring=4), rack() + step(0) + END, rack() + step() * 2 + link(0, 1, 0) + END],
    5: [rack() + step() * 257, rules.write(greatest_values())[:-1] + link(254, 255) + END],
    6: [rack() + step() + link(0, 0) + END, rack() + step() * 2 + link(1, 0) + END, rack() + step() * 2 + link(0, 2) + END],
    7: [rack() + step() * 2 + link(0, 1) * 2 + END, rack() + step() * 3 + link(1, 2) + link(0, 1) + END],
    8: [rules.write(SMALL) + b"\x00", rules.write(SMALL) * 2],
}


def passed_on(cases, refused):
    """The reader's number comes before 9, and no slice is altered."""
    for number, files in refused.items():
        for data in files:
            assert told(data).refusal == number
            planned(cases, data, more=3)
            handed(cases, data, [(0, 0), (1, 5), (0, 9)])
        plan(cases, data, 0, 0, 0)
        plan(cases, data, 2, 2, SCRATCH - 1)
        station_plan(cases, data, 0)
        check(cases, data, [], [])
        station_check(cases, data, b"")


def too_short(cases):
    """Each slice alone too short, by one place and by more, and all of the exact length."""
    for job in (SMALL, tasks_only(1)):
        data, m = rules.write(job), len(job.steps)
        enough = [m, m, SCRATCH]
        plan(cases, data, *enough)
        for slot, places in enumerate(enough):
            for room in (places - 1, places // 2, 0, places + 1):
                plan(cases, data, *enough[:slot], room, *enough[slot + 1 :])
        plan(cases, data, m - 1, m + 1, SCRATCH + 1)
        plan(cases, data, m + 1, m - 1, SCRATCH)
        plan(cases, data, 0, 0, 0)
        for room in (0, 1, 5 * m - 5, 5 * m - 1, 5 * m, 5 * m + 1, 5 * m + 6):
            station_plan(cases, data, room)
            station_plan(cases, data, room, fill=0)


def greatest_too_short(cases):
    data = rules.write(tasks_only(MOST_TASKS))
    for rooms in ((256, 256, 4096), (255, 256, 4096), (256, 255, 4096), (256, 256, 4095), (257, 257, 4097)):
        plan(cases, data, *rooms)
    for room in (5 * 256 - 1, 5 * 256, 5 * 256 + 1):
        station_plan(cases, data, room)


def damaged_files(cases, dice):
    for _ in range(40):
        data = damaged(dice, random_job(dice, 7, 9))
        m = told(data).tasks
        plan(cases, data, m + dice.below(3), m + dice.below(3), SCRATCH + dice.below(3))
        station_plan(cases, data, 5 * m + dice.below(4))
        listing(cases, data, fill=dice.below(256))


def add_cases(cases, dice):
    passed_on(cases, REFUSED)
    too_short(cases)
    greatest_too_short(cases)
    damaged_files(cases, dice)
