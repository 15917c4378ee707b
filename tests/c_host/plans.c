/* Plans handed in: the refusals 9 to 13, the plans next to them that are good, and which of two refusals counts. */
#include "host.h"

static const struct job apart = {.processors = 2, .wiring = FLAT, .unit = 2, .tasks = 2, .durations = {5, 5}};
static const struct job three = {.processors = 2, .wiring = FLAT, .unit = 2, .tasks = 3, .durations = {5, 5, 5}};
static const struct job sends = {
    .processors = 2, .wiring = FLAT, .unit = 2, .tasks = 2, .durations = {5, 5}, .edges = 1, .edge = {{0, 1, 1}}};
static const struct job three_send = {
    .processors = 2, .wiring = FLAT, .unit = 2, .tasks = 3, .durations = {5, 5, 5}, .edges = 2,
    .edge = {{0, 1, 1}, {0, 2, 1}}};
static const struct job on_one = {.processors = 1, .wiring = RING, .unit = 2, .tasks = 2, .durations = {5, 5}};
static const struct job on_ring = {
    .processors = 5, .wiring = RING, .unit = 2, .tasks = 2, .durations = {5, 5}, .edges = 1, .edge = {{0, 1, 3}}};
static const struct job on_cube = {
    .processors = 16, .wiring = CUBE, .unit = 2, .tasks = 2, .durations = {5, 5}, .edges = 1, .edge = {{0, 1, 3}}};
static const struct job on_wires = {
    .processors = 3, .wiring = WIRES, .unit = 100, .costs = {{0, 2, 9}, {7, 0, 0}, {1, 250, 0}}, .tasks = 2,
    .durations = {5, 5}, .edges = 1, .edge = {{0, 1, 3}}};
static const struct job delivers = {
    .processors = 3, .wiring = RING, .unit = 100, .tasks = 2, .durations = {5, 5}, .results = {1, 1000}};
static const struct job sends_and_delivers = {
    .processors = 2, .wiring = FLAT, .unit = 2, .tasks = 2, .durations = {5, 5}, .edges = 1, .edge = {{0, 1, 1}},
    .results = {0, 1000}};
static const struct job longest = {
    .processors = 2, .wiring = FLAT, .unit = 100, .tasks = 2, .durations = {1000000, 1000000}, .edges = 1,
    .edge = {{0, 1, 1000}}};

/* A job, a processor and a start for each of its tasks, and the answer that is due. */
struct handed_in {
    const char *what;
    const struct job *job;
    struct placement {
        uint32_t processor, start;
    } plan[3];
    uint32_t answer;
};

static const struct handed_in plans[] = {
    {"both at 0, apart", &apart, {{0, 0}, {1, 0}}, 0},
    {"processor 2 of 2", &apart, {{0, 0}, {2, 0}}, 10},
    {"processor 2 of 2, first task", &apart, {{2, 0}, {0, 0}}, 10},
    {"processor 255", &apart, {{0, 0}, {255, 0}}, 10},
    {"processor 1 of 1", &on_one, {{0, 0}, {1, 5}}, 10},
    {"processor 15 of 16", &on_cube, {{15, 0}, {15, 5}}, 0},
    {"processor 16 of 16", &on_cube, {{15, 0}, {16, 5}}, 10},
    {"start 600,000,000", &apart, {{0, 0}, {0, 600000000}}, 0},
    {"start 600,000,001", &apart, {{0, 0}, {0, 600000001}}, 11},
    {"start 600,000,001, first task", &apart, {{0, 600000001}, {0, 0}}, 11},
    {"start 4,294,967,295", &apart, {{0, 0}, {0, 4294967295u}}, 11},
    {"both at 0 on one processor", &apart, {{0, 0}, {0, 0}}, 12},
    {"start a tick before the finish", &apart, {{0, 0}, {0, 4}}, 12},
    {"start at the finish", &apart, {{0, 0}, {0, 5}}, 0},
    {"the second first, a tick too long", &apart, {{0, 4}, {0, 0}}, 12},
    {"the second first", &apart, {{0, 5}, {0, 0}}, 0},
    {"overlap on processor 1", &apart, {{1, 7}, {1, 11}}, 12},
    {"overlap of the first and the third", &three, {{0, 0}, {0, 10}, {0, 4}}, 12},
    {"overlap of the second and the third", &three, {{0, 20}, {0, 10}, {0, 14}}, 12},
    {"three in turn, none by number", &three, {{0, 10}, {0, 0}, {0, 5}}, 0},
    {"both at 600,000,000", &longest, {{0, 600000000}, {0, 600000000}}, 12},
    {"finish 5, start 6 elsewhere", &sends, {{0, 0}, {1, 6}}, 13},
    {"finish 5, start 7 elsewhere", &sends, {{0, 0}, {1, 7}}, 0},
    {"finish 5, start 5 on the same", &sends, {{1, 0}, {1, 5}}, 0},
    {"start before the sender's", &sends, {{0, 20}, {1, 0}}, 13},
    {"the second edge's messages are late", &three_send, {{0, 0}, {0, 5}, {1, 6}}, 13},
    {"the second edge's messages are there", &three_send, {{0, 0}, {0, 5}, {1, 7}}, 0},
    {"ring of 5, from 0 to 4, late", &on_ring, {{0, 0}, {4, 10}}, 13},
    {"ring of 5, from 0 to 4", &on_ring, {{0, 0}, {4, 11}}, 0},
    {"ring of 5, from 4 to 1, late", &on_ring, {{4, 0}, {1, 16}}, 13},
    {"ring of 5, from 4 to 1", &on_ring, {{4, 0}, {1, 17}}, 0},
    {"cube, from 5 to 10, late", &on_cube, {{5, 0}, {10, 28}}, 13},
    {"cube, from 5 to 10", &on_cube, {{5, 0}, {10, 29}}, 0},
    {"wires, from 0 to 1, late", &on_wires, {{0, 0}, {1, 10}}, 13},
    {"wires, from 0 to 1", &on_wires, {{0, 0}, {1, 11}}, 0},
    {"wires, from 1 to 0, late", &on_wires, {{1, 0}, {0, 25}}, 13},
    {"wires, from 1 to 0", &on_wires, {{1, 0}, {0, 26}}, 0},
    {"wires, from 0 to 2, late", &on_wires, {{0, 0}, {2, 31}}, 13},
    {"wires, from 0 to 2", &on_wires, {{0, 0}, {2, 32}}, 0},
    {"wires, from 2 to 0, late", &on_wires, {{2, 0}, {0, 7}}, 13},
    {"wires, from 2 to 0", &on_wires, {{2, 0}, {0, 8}}, 0},
    {"wires, from 1 to 2, late", &on_wires, {{1, 0}, {2, 4}}, 13},
    {"wires, from 1 to 2, at no cost", &on_wires, {{1, 0}, {2, 5}}, 0},
    {"wires, from 2 to 1, late", &on_wires, {{2, 0}, {1, 754}}, 13},
    {"wires, from 2 to 1", &on_wires, {{2, 0}, {1, 755}}, 0},
    {"wires, on one processor", &on_wires, {{2, 0}, {2, 5}}, 0},
    {"wires, processor 3 of 3", &on_wires, {{2, 0}, {3, 5}}, 10},
    {"results, both at 0", &delivers, {{1, 0}, {2, 0}}, 0},
    {"results that arrive after the latest start", &delivers, {{1, 600000000}, {2, 600000000}}, 0},
    {"results, start 600,000,001", &delivers, {{1, 0}, {2, 600000001}}, 11},
    {"results, an overlap", &delivers, {{2, 4}, {2, 0}}, 12},
    {"results, start at the finish", &delivers, {{2, 5}, {2, 0}}, 0},
    {"results, finish 5, start 6 elsewhere", &sends_and_delivers, {{0, 0}, {1, 6}}, 13},
    {"results, finish 5, start 7 elsewhere", &sends_and_delivers, {{0, 0}, {1, 7}}, 0},
    {"the longest way, late", &longest, {{0, 0}, {1, 1099999}}, 13},
    {"the longest way", &longest, {{0, 0}, {1, 1100000}}, 0},
    {"sent after the latest start", &longest, {{0, 600000000}, {1, 600000000}}, 13},
};

static const struct handed_in meetings[] = {
    {"10 and 11 of one task", &apart, {{0, 0}, {2, 600000001}}, 10},
    {"10 of task 1, 11 of task 2", &three, {{0, 0}, {2, 0}, {0, 600000001}}, 10},
    {"11 of task 0, 10 of task 1", &three, {{0, 600000001}, {2, 0}, {0, 0}}, 11},
    {"11 of task 1, 10 of task 2", &three, {{0, 0}, {0, 600000001}, {2, 0}}, 11},
    {"10 of the last task, 12 of the first two", &three, {{0, 0}, {0, 0}, {2, 0}}, 10},
    {"11 of the last task, 12 of the first two", &three, {{0, 0}, {0, 0}, {0, 600000001}}, 11},
    {"10 of the last task, 13 of the first edge", &three_send, {{0, 0}, {1, 6}, {2, 9}}, 10},
    {"11 of the last task, 13 of the first edge", &three_send, {{0, 0}, {1, 6}, {0, 600000001}}, 11},
    {"12 and 13 of one edge", &sends, {{0, 0}, {0, 4}}, 12},
    {"12 of the last two, 13 of the first edge", &three_send, {{0, 0}, {1, 6}, {1, 8}}, 12},
    {"12 of the last two, 13 of both edges", &three_send, {{0, 0}, {1, 2}, {1, 3}}, 12},
};

/* The library's answer, with no bytes past the plan and with some, which are not read, by checker and page; and the judge's. */
static void hand_in(const struct handed_in *given)
{
    static const size_t past[] = {0, 1, 7};
    struct file file = file_of(given->job);

    testing("%s", given->what);
    for (size_t i = 0; i < sizeof past / sizeof past[0]; i++) {
        struct plan plan = {.length = 5 * given->job->tasks + past[i]};
        for (size_t b = 0; b < plan.length; b++)
            plan.bytes[b] = fill;
        for (size_t t = 0; t < given->job->tasks; t++)
            place(&plan, t, given->plan[t].processor, given->plan[t].start);
        want_check(&file, &plan, given->answer);
        want_drawn(given->job, &file, &plan, given->answer);
        if (judge(given->job, &plan) != given->answer)
            fail("the host's judge says %u where %u is due", judge(given->job, &plan), given->answer);
    }
}

/* A plan that ends early is 9, whatever it says. */
static void short_plans(const struct job *job, uint32_t processor)
{
    struct file file = file_of(job);
    struct plan plan = {0};

    for (size_t t = 0; t < job->tasks; t++)
        place(&plan, t, processor, 0);
    for (plan.length = 0; plan.length < 5 * job->tasks; plan.length++) {
        testing("%zu tasks on processor %u, a plan of %zu bytes", job->tasks, processor, plan.length);
        want_check(&file, &plan, 9);
        want_drawn(job, &file, &plan, 9);
    }
}

void plans_handed_in(void)
{
    for (size_t i = 0; i < sizeof plans / sizeof plans[0]; i++)
        hand_in(&plans[i]);
}

void order_of_refusals(void)
{
    for (size_t i = 0; i < sizeof meetings / sizeof meetings[0]; i++)
        hand_in(&meetings[i]);
    short_plans(&apart, 0);
    short_plans(&three, 2);
    short_plans(&three_send, 255);
}
