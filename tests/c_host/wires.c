/* Costs by wires (document 02 §1): each way of each two processors, and plans that hang on which way is meant. */
#include "host.h"

/* The cost of a wire, which shows which one it is. */
static void number_costs(struct job *job)
{
    for (uint32_t p = 0; p < job->processors; p++)
        for (uint32_t q = 0; q < job->processors; q++)
            job->costs[p][q] = p == q ? 0 : (16 * p + q) % 251;
}

static void placed_so(const struct job *job, size_t task, uint32_t processor, uint32_t start)
{
    struct file file = file_of(job);
    struct plan plan = {.length = 5 * job->tasks};

    want_plan(&file, job->tasks, &plan, 0);
    if (processor_in(&plan, task) != processor || start_in(&plan, task) != start)
        fail("task %zu is on processor %u at %u where processor %u at %u is due", task, processor_in(&plan, task),
             start_in(&plan, task), processor, start);
    if (judge(job, &plan) != 0)
        fail("the host's judge finds trouble %u in the plan", judge(job, &plan));
    want_check(&file, &plan, 0);
}

/* Tasks 0 to n - 1 take a processor each. That on p finishes at 4, where task n takes its place, and that on q at 5. Task
 * n + 1 waits for 3 messages from the task that was on p, and so starts on q at 4 and three times the cost from p to q. */
static void way_seen(uint32_t n, uint32_t p, uint32_t q)
{
    struct job job = {.processors = n, .wiring = WIRES, .unit = 100, .tasks = n + 2, .edges = 1};

    number_costs(&job);
    for (uint32_t t = 0; t < n + 2; t++)
        job.durations[t] = t == p ? 4 : t == q ? 5 : 1000;
    job.edge[0] = (struct edge){.from = p, .to = n + 1, .count = 3};
    uint32_t start = 4 + 3 * job.costs[p][q];
    testing("%u processors, from %u to %u", n, p, q);
    placed_so(&job, n + 1, q, start < 5 ? 5 : start);
}

/* Case A of document 01 with wires: tasks 0 and 1 begin on processors 0 and 1, and task 2 waits for one message of the
 * one and three of the other. There is from 0 to 1, back is from 1 to 0. */
static const struct {
    uint32_t there, back, processor, start;
} gathered[] = {
    {2, 2, 1, 6}, {1, 2, 1, 5}, {2, 1, 0, 6}, {2, 0, 0, 4}, {0, 2, 1, 4}, {9, 1, 0, 6}, {1, 9, 1, 5}, {250, 250, 1, 254},
};

void costs_by_wires(void)
{
    static const uint32_t processors[] = {2, 3, 5, 16};

    for (size_t i = 0; i < sizeof processors / sizeof processors[0]; i++)
        for (uint32_t p = 0; p < processors[i]; p++)
            for (uint32_t q = 0; q < processors[i]; q++)
                if (p != q)
                    way_seen(processors[i], p, q);
    for (size_t i = 0; i < sizeof gathered / sizeof gathered[0]; i++) {
        struct job job = {.processors = 2, .wiring = WIRES, .tasks = 3, .durations = {4, 3, 2}, .edges = 2};
        job.costs[0][1] = gathered[i].there;
        job.costs[1][0] = gathered[i].back;
        job.edge[0] = (struct edge){.from = 0, .to = 2, .count = 1};
        job.edge[1] = (struct edge){.from = 1, .to = 2, .count = 3};
        testing("case A by wires, %u there and %u back", gathered[i].there, gathered[i].back);
        placed_so(&job, 2, gathered[i].processor, gathered[i].start);
    }
}
