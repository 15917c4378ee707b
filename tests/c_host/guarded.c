/* The five calls. What is lent stands between guard bytes in a field of fill bytes; after the call every byte
 * that it may not alter is held to what it was. */
#include <string.h>

#include "host.h"

enum { GUARD = 64, ROOM = FILE_ROOM };

struct field {
    const char *name;
    uint8_t now[GUARD + ROOM + GUARD];
    uint8_t before[GUARD + ROOM + GUARD];
};

static struct field jobs = {.name = "job"};
static struct field plans = {.name = "plan"};
static struct field pages = {.name = "page"};

static uint8_t *lay(struct field *field, const uint8_t *bytes, size_t length)
{
    memset(field->before, fill, sizeof field->before);
    memcpy(field->before + GUARD, bytes, length);
    memcpy(field->now, field->before, sizeof field->now);
    return field->now + GUARD;
}

/* Of what was lent the first `free` bytes may be altered, and nothing else. */
static void unaltered(const char *call, const struct field *field, size_t free)
{
    for (size_t i = 0; i < sizeof field->now; i++) {
        long at = (long)i - GUARD;
        if (at >= 0 && at < (long)free)
            continue;
        if (field->now[i] != field->before[i])
            fail("%s altered the byte at place %ld of the %s: it was %02x and is %02x", call, at, field->name,
                 field->before[i], field->now[i]);
    }
}

typedef uint32_t planner(const uint8_t *job, size_t job_length, uint8_t *plan, size_t plan_length);

/* Plans into a buffer of the plan's length, which holds fill bytes before. */
static uint32_t plan_by(const char *call, planner *planner, const struct file *file, size_t tasks, struct plan *plan)
{
    memset(plan->bytes, fill, sizeof plan->bytes);
    uint8_t *job = lay(&jobs, file->bytes, file->length);
    uint8_t *lent = lay(&plans, plan->bytes, plan->length);
    uint32_t answer = planner(job, file->length, lent, plan->length);

    calls++;
    unaltered(call, &jobs, 0);
    unaltered(call, &plans, answer == 0 ? 5 * tasks : 0);
    memcpy(plan->bytes, lent, plan->length);
    return answer;
}

/* Plans by weight, and holds kelvrist_plan_by_weight to the answer that is due; the checker accepts its plan. */
void want_by_weight(const struct file *file, size_t tasks, struct plan *plan, uint32_t answer)
{
    uint32_t got = plan_by("kelvrist_plan_by_weight", kelvrist_plan_by_weight, file, tasks, plan);

    if (got != answer)
        fail("kelvrist_plan_by_weight returns %u where %u is due", got, answer);
    if (answer == 0)
        want_check(file, plan, 0);
}

/* Plans by kelvrist_plan, and holds kelvrist_plan_small to its answer and its bytes, kelvrist_plan_by_weight to its answer. */
uint32_t call_plan(const struct file *file, size_t tasks, struct plan *plan)
{
    struct plan other = {.length = plan->length};
    uint32_t answer = plan_by("kelvrist_plan", kelvrist_plan, file, tasks, plan);
    uint32_t same = plan_by("kelvrist_plan_small", kelvrist_plan_small, file, tasks, &other);

    if (same != answer)
        fail("kelvrist_plan_small returns %u and kelvrist_plan %u", same, answer);
    for (size_t i = 0; i < plan->length; i++)
        if (other.bytes[i] != plan->bytes[i])
            fail("kelvrist_plan_small leaves %02x at place %zu of the plan and kelvrist_plan %02x", other.bytes[i], i,
                 plan->bytes[i]);
    want_by_weight(file, tasks, &other, answer);
    return answer;
}

uint32_t call_check(const struct file *file, const struct plan *plan)
{
    uint8_t *job = lay(&jobs, file->bytes, file->length);
    uint8_t *lent = lay(&plans, plan->bytes, plan->length);
    uint32_t answer = kelvrist_check(job, file->length, lent, plan->length);

    calls++;
    unaltered("kelvrist_check", &jobs, 0);
    unaltered("kelvrist_check", &plans, 0);
    return answer;
}

/* Draws into a buffer of the page's length, which holds fill bytes before. */
uint32_t call_page(const struct file *file, const struct plan *plan, uint32_t processors, struct page *page)
{
    memset(page->bytes, fill, sizeof page->bytes);
    uint8_t *job = lay(&jobs, file->bytes, file->length);
    uint8_t *handed = lay(&plans, plan->bytes, plan->length);
    uint8_t *lent = lay(&pages, page->bytes, page->length);
    uint32_t answer = kelvrist_page(job, file->length, handed, plan->length, lent, page->length);

    calls++;
    unaltered("kelvrist_page", &jobs, 0);
    unaltered("kelvrist_page", &plans, 0);
    unaltered("kelvrist_page", &pages, answer == 0 ? ROW * (size_t)processors : 0);
    memcpy(page->bytes, lent, page->length);
    return answer;
}

void want_plan(const struct file *file, size_t tasks, struct plan *plan, uint32_t answer)
{
    uint32_t got = call_plan(file, tasks, plan);

    if (got != answer)
        fail("kelvrist_plan returns %u where %u is due", got, answer);
}

void want_check(const struct file *file, const struct plan *plan, uint32_t answer)
{
    uint32_t got = call_check(file, plan);

    if (got != answer)
        fail("kelvrist_check returns %u where %u is due", got, answer);
}

void want_page(const struct file *file, const struct plan *plan, uint32_t processors, struct page *page, uint32_t answer)
{
    uint32_t got = call_page(file, plan, processors, page);

    if (got != answer)
        fail("kelvrist_page returns %u where %u is due", got, answer);
}
