/* Draws the page of a plan by document 02 §3, without the library. */
#include <string.h>

#include "host.h"

static uint64_t finish(const struct job *job, const struct plan *plan, size_t task)
{
    return (uint64_t)start_in(plan, task) + job->durations[task];
}

/* "Let w be the last finish divided by 64, rounded up." */
static uint64_t width(const struct job *job, const struct plan *plan)
{
    uint64_t last = 0;

    for (size_t t = 0; t < job->tasks; t++)
        if (last < finish(job, plan, t))
            last = finish(job, plan, t);
    return last / 64 + (last % 64 == 0 ? 0 : 1);
}

/* "the board runs a step for at least one tick from .. up to .." */
static int runs(const struct job *job, const struct plan *plan, uint32_t processor, uint64_t from, uint64_t to)
{
    for (size_t t = 0; t < job->tasks; t++) {
        uint64_t begin = start_in(plan, t), end = finish(job, plan, t);
        if (begin < from)
            begin = from;
        if (end > to)
            end = to;
        if (processor_in(plan, t) == processor && begin + 1 <= end)
            return 1;
    }
    return 0;
}

struct page page_of(const struct job *job, const struct plan *plan)
{
    uint64_t w = width(job, plan);
    struct page page;
    uint8_t *at = page.bytes;

    for (uint32_t p = 0; p < job->processors; p++) {
        *at++ = (uint8_t)(p < 10 ? ' ' : '1');
        *at++ = (uint8_t)("0123456789"[p % 10]);
        *at++ = ' ';
        *at++ = '|';
        for (uint64_t j = 0; j < 64; j++)
            *at++ = runs(job, plan, p, j * w, (j + 1) * w) ? '#' : '.';
        *at++ = '|';
        *at++ = '\n';
    }
    page.length = (size_t)(at - page.bytes);
    return page;
}
