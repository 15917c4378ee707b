/* Judges a plan by document 01 ("The checker", "Link costs") and document 02 §1, without the library. Results are not judged. */
#include "host.h"

static uint64_t hops(const struct job *job, uint32_t p, uint32_t q)
{
    if (job->wiring == FLAT)
        return 1;
    if (job->wiring == CUBE) {
        uint64_t places = 0;
        for (uint32_t differ = p ^ q; differ != 0; differ /= 2)
            places += differ % 2;
        return places;
    }
    uint32_t d = p < q ? q - p : p - q;
    return d < job->processors - d ? d : job->processors - d;
}

static uint64_t cost(const struct job *job, uint32_t p, uint32_t q)
{
    if (p == q)
        return 0;
    return job->wiring == WIRES ? job->costs[p][q] : job->unit * hops(job, p, q);
}

static uint64_t finish(const struct job *job, const struct plan *plan, size_t task)
{
    return (uint64_t)start_in(plan, task) + job->durations[task];
}

static int overlap(const struct job *job, const struct plan *plan, size_t a, size_t b)
{
    return processor_in(plan, a) == processor_in(plan, b)
        && start_in(plan, a) < finish(job, plan, b)
        && start_in(plan, b) < finish(job, plan, a);
}

static int early(const struct job *job, const struct plan *plan, struct edge edge)
{
    uint64_t way = cost(job, processor_in(plan, edge.from), processor_in(plan, edge.to));

    return start_in(plan, edge.to) < finish(job, plan, edge.from) + edge.count * way;
}

uint32_t judge(const struct job *job, const struct plan *plan)
{
    if (plan->length < 5 * job->tasks)
        return 9;
    for (size_t t = 0; t < job->tasks; t++) {
        if (processor_in(plan, t) >= job->processors)
            return 10;
        if (start_in(plan, t) > 600000000)
            return 11;
    }
    for (size_t a = 0; a < job->tasks; a++)
        for (size_t b = a + 1; b < job->tasks; b++)
            if (overlap(job, plan, a, b))
                return 12;
    for (size_t e = 0; e < job->edges; e++)
        if (early(job, plan, job->edge[e]))
            return 13;
    return 0;
}
