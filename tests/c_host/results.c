/* Results of tasks (document 02 §2): which task may have one, and that they move no task. */
#include <string.h>

#include "host.h"

/* Tasks 0, 2 and 3 of four send to no other; 4 to 255 are not there. */
static const struct job four = {
    .processors = 2, .wiring = FLAT, .unit = 2, .tasks = 4, .durations = {4, 3, 2, 6}, .edges = 1, .edge = {{1, 2, 3}}};

/* The bytes of a job without its end record. */
static struct file open_file(const struct job *job)
{
    struct file file = file_of(job);

    file.length--;
    return file;
}

/* Either call's answer to a job of `tasks` tasks. */
static void answered(const struct file *file, size_t tasks, uint32_t answer)
{
    struct plan plan = {.length = 5 * tasks};

    want_plan(file, tasks, &plan, answer);
    want_check(file, &plan, answer);
}

static uint32_t due(uint32_t task)
{
    return task == 0 || task == 2 || task == 3 ? 0 : 15;
}

/* Each task alone, and each two of them. */
static void tasks_named(void)
{
    for (uint32_t one = 0; one < 256; one++) {
        struct file file = open_file(&four);
        put_result(&file, one, 7);
        put_end(&file);
        testing("a result of task %u", one);
        answered(&file, four.tasks, due(one));
    }
    for (uint32_t one = 0; one < 6; one++)
        for (uint32_t other = 0; other < 6; other++) {
            struct file file = open_file(&four);
            put_result(&file, one, 7);
            put_result(&file, other, 7);
            put_end(&file);
            testing("results of tasks %u and %u", one, other);
            answered(&file, four.tasks, due(one) == 0 && one < other ? due(other) : 15);
        }
}

static void ends_of_counts(void)
{
    static const uint32_t counts[] = {0, 1, 255, 256, 999, 1000, 1001, 1024, 32768, 65535};

    for (size_t i = 0; i < sizeof counts / sizeof counts[0]; i++)
        for (uint32_t task = 1; task < 4; task++) {
            struct file file = open_file(&four);
            put_result(&file, task, counts[i]);
            put_end(&file);
            testing("a result of task %u, message count %u", task, counts[i]);
            answered(&file, four.tasks, counts[i] < 1 || counts[i] > 1000 ? 4 : due(task));
        }
}

/* Case A of document 01, whose task 2 has a result, with each wiring on 1 to 16 processors: the plan is that without the result,
 * and the checker accepts it. */
static void same_plan(uint32_t wiring, uint32_t processors, uint32_t count)
{
    struct job job = {.processors = processors, .wiring = wiring, .unit = 2, .tasks = 3, .durations = {4, 3, 2}, .edges = 2,
                      .edge = {{0, 2, 1}, {1, 2, 3}}};
    struct plan without = {.length = 15}, with = {.length = 15};

    testing("wiring %u, %u processors, a result of %u messages", wiring, processors, count);
    for (uint32_t p = 0; p < processors; p++)
        for (uint32_t q = 0; q < processors; q++)
            job.costs[p][q] = p == q ? 0 : (7 * p + q) % 13;
    struct file file = file_of(&job);
    want_plan(&file, 3, &without, 0);
    job.results[2] = count;
    file = file_of(&job);
    want_plan(&file, 3, &with, 0);
    if (memcmp(without.bytes, with.bytes, 15) != 0)
        fail("the plan is not that of the job without its result");
    if (judge(&job, &with) != 0)
        fail("the host's judge finds trouble %u in the plan", judge(&job, &with));
    want_check(&file, &with, 0);
}

/* A result for each of 256 tasks, which a job without edges can have, and one more. */
static void most_results(void)
{
    struct job job = {.processors = 16, .wiring = CUBE, .unit = 100, .tasks = 256};

    for (size_t t = 0; t < 256; t++) {
        job.durations[t] = 1 + (uint32_t)t % 7;
        job.results[t] = 1 + (uint32_t)t;
    }
    testing("256 results");
    struct file file = file_of(&job);
    answered(&file, 256, 0);
    testing("257 results");
    file = open_file(&job);
    put_result(&file, 255, 1);
    put_end(&file);
    answered(&file, 256, 15);
}

void results_of_tasks(void)
{
    tasks_named();
    ends_of_counts();
    for (uint32_t wiring = FLAT; wiring <= WIRES; wiring++)
        for (uint32_t processors = 1; processors <= 16; processors++) {
            same_plan(wiring, processors, 1);
            same_plan(wiring, processors, 1000);
        }
    most_results();
}
