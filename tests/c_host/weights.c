/* Ties by the longest work left: jobs with both plans worked out. The plan by weight may stand in a buffer that is longer. */
#include "host.h"

enum { MOST = 5 };  /* tasks of a job here */

struct placed {
    uint32_t processor, start;
};

static const struct {
    const char *what;
    struct job job;
    struct placed by_number[MOST], by_weight[MOST];
} cases[] = {
    {"a long branch that begins early, so that the end is 5 in place of 6",
     {.processors = 2, .unit = 1, .tasks = 5, .durations = {1, 1, 1, 1, 4}, .edges = 3, .edge = {{0, 3, 1}, {1, 3, 1}, {2, 4, 1}}},
     {{0, 0}, {1, 0}, {0, 1}, {1, 2}, {0, 2}},
     {{1, 0}, {1, 1}, {0, 0}, {1, 2}, {0, 1}}},
    {"a tie in weight, of tasks 0 and 2",
     {.processors = 1, .tasks = 4, .durations = {2, 1, 3, 1}, .edges = 2, .edge = {{0, 3, 1}, {1, 3, 2}}},
     {{0, 0}, {0, 2}, {0, 3}, {0, 6}},
     {{0, 0}, {0, 5}, {0, 2}, {0, 6}}},
    {"the greatest weight among the successors, not the sum",
     {.processors = 1, .tasks = 4, .durations = {1, 3, 3, 5}, .edges = 2, .edge = {{0, 1, 1}, {0, 2, 1}}},
     {{0, 0}, {0, 1}, {0, 4}, {0, 7}},
     {{0, 5}, {0, 6}, {0, 9}, {0, 0}}},
    {"the start before the weight",
     {.processors = 2, .unit = 1, .tasks = 4, .durations = {1, 1, 5, 1}, .edges = 2, .edge = {{0, 2, 1}, {1, 2, 1}}},
     {{0, 0}, {1, 0}, {1, 2}, {0, 1}},
     {{0, 0}, {1, 0}, {1, 2}, {0, 1}}},
    {"the heavier of two tasks where it starts at once",
     {.processors = 2, .unit = 1, .tasks = 5, .durations = {3, 2, 1, 3, 1}, .edges = 3, .edge = {{0, 2, 1}, {0, 3, 1}, {1, 4, 2}}},
     {{0, 0}, {1, 0}, {0, 3}, {1, 4}, {1, 2}},
     {{0, 0}, {1, 0}, {1, 4}, {0, 3}, {1, 2}}},
    {"durations, not how many tasks follow",
     {.processors = 1, .tasks = 5, .durations = {1, 1, 1, 1, 5}, .edges = 3, .edge = {{0, 1, 1}, {1, 2, 1}, {2, 3, 1}}},
     {{0, 0}, {0, 1}, {0, 2}, {0, 3}, {0, 4}},
     {{0, 5}, {0, 6}, {0, 7}, {0, 8}, {0, 0}}},
    {"a tie on processors",
     {.processors = 3, .tasks = 4, .durations = {2, 2, 2, 3}},
     {{0, 0}, {1, 0}, {2, 0}, {0, 2}},
     {{1, 0}, {2, 0}, {1, 2}, {0, 0}}},
};

static void held(const char *call, const struct plan *plan, const struct placed *due, size_t tasks)
{
    for (size_t t = 0; t < tasks; t++)
        if (processor_in(plan, t) != due[t].processor || start_in(plan, t) != due[t].start)
            fail("%s puts task %zu on processor %u at %u where processor %u at %u is due", call, t, processor_in(plan, t),
                 start_in(plan, t), due[t].processor, due[t].start);
}

void ties_by_weight(void)
{
    for (size_t i = 0; i < sizeof cases / sizeof cases[0]; i++) {
        const struct job *job = &cases[i].job;
        struct file file = file_of(job);
        size_t due = 5 * job->tasks;

        testing("%s", cases[i].what);
        for (size_t more = 0; more < 8; more += 7) {
            struct plan plan = {.length = due + more};
            want_plan(&file, job->tasks, &plan, 0);
            held("kelvrist_plan", &plan, cases[i].by_number, job->tasks);
            want_by_weight(&file, job->tasks, &plan, 0);
            held("kelvrist_plan_by_weight", &plan, cases[i].by_weight, job->tasks);
        }
        for (size_t length = 0; length < due; length += due - 1) {
            struct plan plan = {.length = length};
            want_by_weight(&file, job->tasks, &plan, 9);
        }
    }
}
