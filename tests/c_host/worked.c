/* The worked cases of document 01, each with its plan. */
#include <string.h>

#include "host.h"

static const struct job gather = {
    .processors = 2, .wiring = FLAT, .tasks = 3, .durations = {4, 3, 2}, .edges = 2, .edge = {{0, 2, 1}, {1, 2, 3}}};
static const struct job one = {.processors = 1, .wiring = FLAT, .tasks = 1, .durations = {1}};
static const struct job spread = {
    .processors = 2, .wiring = FLAT, .tasks = 3, .durations = {3, 2, 2}, .edges = 2, .edge = {{0, 1, 1}, {0, 2, 1}}};

static const struct worked {
    const char *name;
    const struct job *job;
    uint32_t unit;
    uint8_t plan[15];
} cases[] = {
    {"A", &gather, 2, {0, 0, 0, 0, 0, 1, 0, 0, 0, 0, 1, 6, 0, 0, 0}},
    {"B", &one, 0, {0, 0, 0, 0, 0}},
    {"D", &spread, 1, {0, 0, 0, 0, 0, 0, 3, 0, 0, 0, 1, 4, 0, 0, 0}},
    {"E", &spread, 2, {0, 0, 0, 0, 0, 0, 3, 0, 0, 0, 1, 5, 0, 0, 0}},
    {"G", &spread, 3, {0, 0, 0, 0, 0, 0, 3, 0, 0, 0, 0, 5, 0, 0, 0}},
    {"H", &spread, 5, {0, 0, 0, 0, 0, 0, 3, 0, 0, 0, 0, 5, 0, 0, 0}},
};

/* The bytes of A as document 01 has them. */
static const uint8_t bytes_of_a[] = {
    0x01, 0x02, 0x00, 0x02, 0x02, 0x04, 0x00, 0x00, 0x00, 0x02, 0x03, 0x00, 0x00, 0x00, 0x02,
    0x02, 0x00, 0x00, 0x00, 0x03, 0x00, 0x02, 0x01, 0x00, 0x03, 0x01, 0x02, 0x03, 0x00, 0x04};

static void planned_so(const struct job *job, const uint8_t *due)
{
    struct file file = file_of(job);
    struct plan plan = {.length = 5 * job->tasks};

    want_plan(&file, job->tasks, &plan, 0);
    for (size_t i = 0; i < plan.length; i++)
        if (plan.bytes[i] != due[i])
            fail("the plan's byte at place %zu is %02x where %02x is due", i, plan.bytes[i], due[i]);
    want_check(&file, &plan, 0);
}

/* A job whose last task is planned on processor q after messages from processor p. Tasks 0 to n - 1 take a processor
 * each. That on p finishes at 4, where task n takes its place, and that on q at 5. Task n + 1 waits for 3 messages of
 * unit cost 1 from the task that was on p, and so starts at 4 and three times the hops. */
static void hops_seen(const char *name, uint32_t wiring, uint32_t n, uint32_t p, uint32_t q, uint32_t hops)
{
    struct job job = {.processors = n, .wiring = wiring, .unit = 1, .tasks = n + 2, .edges = 1};
    struct plan due;

    for (uint32_t t = 0; t < n + 2; t++) {
        job.durations[t] = t == p ? 4 : t == q ? 5 : 100;
        place(&due, t, t, 0);
    }
    job.edge[0] = (struct edge){.from = p, .to = n + 1, .count = 3};
    place(&due, n, p, 4);
    place(&due, n + 1, q, 4 + 3 * hops);
    testing("case %s", name);
    planned_so(&job, due.bytes);
}

void worked_cases(void)
{
    for (size_t i = 0; i < sizeof cases / sizeof cases[0]; i++) {
        struct job job = *cases[i].job;
        job.unit = cases[i].unit;
        testing("case %s", cases[i].name);
        planned_so(&job, cases[i].plan);
    }
    struct job a = gather;
    a.unit = 2;
    struct file file = file_of(&a);
    testing("the bytes of case A");
    if (file.length != sizeof bytes_of_a || memcmp(file.bytes, bytes_of_a, file.length) != 0)
        fail("the host does not write them as document 01 has them");
    hops_seen("J", CUBE, 16, 5, 10, 4);
    hops_seen("K", RING, 5, 0, 4, 1);
    hops_seen("L", RING, 6, 0, 3, 3);
}
