/* Larger jobs: each shape with each wiring, on 1, 5 and 16 processors, with three unit costs, or wires that are as dear; two in
 * three have results. The host's own judge judges their plans, those by weight too; where the placements can be told beforehand,
 * they are held to that. */
#include <string.h>

#include "host.h"

static uint32_t state;

/* A number from 1 to `most`, the same in every run (xorshift). */
static uint32_t draw(uint32_t most)
{
    state ^= state << 13;
    state ^= state >> 17;
    state ^= state << 5;
    return 1 + state % most;
}

static void add_edge(struct job *job, uint32_t from, uint32_t to)
{
    job->edge[job->edges++] = (struct edge){.from = from, .to = to, .count = draw(1000)};
}

static void chain(struct job *job)
{
    job->tasks = 256;
    for (uint32_t t = 0; t < 255; t++)
        add_edge(job, t, t + 1);
}

/* Task 0 sends to all, and all send to the last. */
static void fork_join(struct job *job)
{
    job->tasks = 256;
    for (uint32_t t = 1; t < 255; t++)
        add_edge(job, 0, t);
    for (uint32_t t = 1; t < 255; t++)
        add_edge(job, t, 255);
}

/* 256 tasks and 1,024 edges, the most that a job can have. */
static void greatest(struct job *job)
{
    static const uint32_t ahead[] = {9, 16, 23, 37, 64};

    job->tasks = 256;
    for (uint32_t t = 0; t < 256; t++)
        for (size_t i = 0; i < 5 && job->edges < 1024; i++)
            if (t + ahead[i] < 256)
                add_edge(job, t, t + ahead[i]);
    if (job->edges != 1024)
        fail("the host makes %zu edges", job->edges);
}

static void no_edges(struct job *job)
{
    job->tasks = 256;
}

static const struct shape {
    const char *name;
    void (*make)(struct job *);
} shapes[] = {{"chain", chain}, {"fork and join", fork_join}, {"greatest", greatest}, {"no edges", no_edges}};

/* The library's answers to the plan with one placement changed are the judge's. */
static void same_answers(const struct job *job, const struct file *file, const struct plan *plan)
{
    uint32_t answer = judge(job, plan);

    want_check(file, plan, answer);
    want_drawn(job, file, plan, answer);
}

static void same_judgement(const struct job *job, const struct file *file, const struct plan *plan)
{
    for (size_t t = 0; t < job->tasks; t += 15) {
        struct plan other = *plan;
        uint32_t p = processor_in(plan, t), s = start_in(plan, t);
        place(&other, t, p, s - 1);
        same_answers(job, file, &other);
        place(&other, t, p, s + 1);
        same_answers(job, file, &other);
        place(&other, t, (p + 1) % job->processors, s);
        same_answers(job, file, &other);
    }
}

static struct plan planned(const struct job *job)
{
    struct file file = file_of(job);
    struct plan plan = {.length = 5 * job->tasks};

    want_plan(&file, job->tasks, &plan, 0);
    uint32_t trouble = judge(job, &plan);
    if (trouble != 0)
        fail("the host's judge finds trouble %u in the plan", trouble);
    want_check(&file, &plan, 0);
    want_drawn(job, &file, &plan, 0);
    same_judgement(job, &file, &plan);
    return plan;
}

/* The plan by weight: good by the host's judge, and drawn. */
static struct plan planned_by_weight(const struct job *job)
{
    struct file file = file_of(job);
    struct plan plan = {.length = 5 * job->tasks};

    want_by_weight(&file, job->tasks, &plan, 0);
    uint32_t trouble = judge(job, &plan);
    if (trouble != 0)
        fail("the host's judge finds trouble %u in the plan by weight", trouble);
    want_drawn(job, &file, &plan, 0);
    return plan;
}

static void placed_at(const struct plan *plan, size_t task, uint32_t processor, uint32_t start)
{
    if (processor_in(plan, task) != processor || start_in(plan, task) != start)
        fail("task %zu is on processor %u at %u where processor %u at %u is due", task, processor_in(plan, task),
             start_in(plan, task), processor, start);
}

/* On one processor nothing is idle between two tasks: the plan ends at the sum of the durations. */
static void without_gap(const struct job *job, const struct plan *plan)
{
    uint32_t sum = 0, end = 0;

    for (size_t t = 0; t < job->tasks; t++) {
        uint32_t finish = start_in(plan, t) + job->durations[t];
        sum += job->durations[t];
        if (end < finish)
            end = finish;
    }
    if (end != sum)
        fail("the plan ends at %u where %u is due", end, sum);
}

/* Without edges a task's weight is its duration: the longer of two tasks, and of equal ones the lower, starts no later. */
static void longest_first(const struct job *job, const struct plan *plan)
{
    for (size_t t = 0; t < job->tasks; t++)
        for (size_t u = t + 1; u < job->tasks; u++) {
            int first = job->durations[t] >= job->durations[u];
            if (first ? start_in(plan, t) > start_in(plan, u) : start_in(plan, u) > start_in(plan, t))
                fail("by weight task %zu starts at %u and task %zu at %u", t, start_in(plan, t), u, start_in(plan, u));
        }
}

/* A cost for each wire, there and back. The unit cost is not used with wires; here it says how dear they are. */
static void draw_costs(struct job *job)
{
    uint32_t most = job->unit == 0 ? 1 : job->unit == 2 ? 5 : 251;

    for (uint32_t p = 0; p < job->processors; p++)
        for (uint32_t q = 0; q < job->processors; q++)
            job->costs[p][q] = draw(most) - 1;
}

static int sends(const struct job *job, uint32_t task)
{
    for (size_t e = 0; e < job->edges; e++)
        if (job->edge[e].from == task)
            return 1;
    return 0;
}

/* A result of each task that sends to no other, now and then of none. */
static void draw_results(struct job *job)
{
    for (uint32_t t = 0; t < job->tasks; t++)
        if (!sends(job, t) && draw(4) != 1)
            job->results[t] = draw(1000);
}

/* Results move no task: the job without them has the same plan. */
static void same_without_results(const struct job *job, const struct plan *plan)
{
    struct job bare = *job;
    struct plan other = {.length = plan->length};

    memset(bare.results, 0, sizeof bare.results);
    struct file file = file_of(&bare);
    want_plan(&file, bare.tasks, &other, 0);
    if (memcmp(plan->bytes, other.bytes, plan->length) != 0)
        fail("the job without its results has another plan");
}

static void one_job(const struct shape *shape, uint32_t processors, uint32_t wiring, uint32_t unit)
{
    struct job job = {.processors = processors, .wiring = wiring, .unit = unit};

    testing("%s, %u processors, wiring %u, unit cost %u", shape->name, processors, wiring, unit);
    state = 2463534242u;
    shape->make(&job);
    for (size_t t = 0; t < job.tasks; t++)
        job.durations[t] = draw(unit == 0 ? 5 : 1000000);
    if (wiring == WIRES)
        draw_costs(&job);
    if (unit != 2)
        draw_results(&job);
    struct plan plan = planned(&job), by_weight = planned_by_weight(&job);
    if (unit != 2)
        same_without_results(&job, &plan);
    if (processors == 1) {
        without_gap(&job, &plan);
        without_gap(&job, &by_weight);
    }
    if (shape->make == chain)
        for (uint32_t t = 0, start = 0; t < 256; start += job.durations[t++]) {
            placed_at(&plan, t, 0, start);
            placed_at(&by_weight, t, 0, start);
        }
    if (shape->make == no_edges)
        longest_first(&job, &by_weight);
}

/* Equal tasks with no edges go round the processors, row by row. */
static void equal_tasks(uint32_t processors)
{
    struct job job = {.processors = processors, .wiring = RING, .unit = 100};

    testing("equal tasks on %u processors", processors);
    no_edges(&job);
    for (size_t t = 0; t < 256; t++)
        job.durations[t] = 1000000;
    struct plan plan = planned(&job), by_weight = planned_by_weight(&job);
    for (uint32_t t = 0; t < 256; t++) {
        placed_at(&plan, t, t % processors, t / processors * 1000000);
        placed_at(&by_weight, t, t % processors, t / processors * 1000000);
    }
}

void larger_jobs(void)
{
    static const uint32_t processors[] = {1, 5, 16}, units[] = {0, 2, 100};

    for (size_t s = 0; s < sizeof shapes / sizeof shapes[0]; s++)
        for (size_t n = 0; n < 3; n++)
            for (uint32_t wiring = FLAT; wiring <= WIRES; wiring++)
                for (size_t c = 0; c < 3; c++)
                    one_job(&shapes[s], processors[n], wiring, units[c]);
    for (size_t n = 0; n < 3; n++)
        equal_tasks(processors[n]);
}
