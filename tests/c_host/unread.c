/* What checker and page do not read (01: "places past m are not read"), and what the page does not write. A plan stands at the end
 * of a page of memory, and the pages behind it, which belong to what is lent, are locked for the call: a byte read there ends the
 * program. So does a byte written past 70n, or for what is refused. */
#define _DEFAULT_SOURCE
#include <signal.h>
#include <string.h>
#include <sys/mman.h>
#include <unistd.h>

#include "host.h"

enum { LOCKED = 2 };  /* pages of memory; they hold more bytes than any plan */

static const struct job two = {.processors = 2, .unit = 2, .tasks = 2, .durations = {5, 5}};
static const char *calling;

static void caught(int signal)
{
    (void)signal;
    fail("%s reads or writes a byte that is locked", calling);
}

static size_t size(void)
{
    return (size_t)sysconf(_SC_PAGESIZE);
}

/* The first byte of locked pages, behind an open one. */
static uint8_t *lock(void)
{
    uint8_t *pages = mmap(NULL, (1 + LOCKED) * size(), PROT_READ | PROT_WRITE, MAP_PRIVATE | MAP_ANONYMOUS, -1, 0);

    if (pages == MAP_FAILED || mprotect(pages + size(), LOCKED * size(), PROT_NONE) != 0)
        fail("no pages to lock");
    return pages + size();
}

static void unlock(uint8_t *locked)
{
    munmap(locked - size(), (1 + LOCKED) * size());
}

static void answers(const char *call, uint32_t got, uint32_t answer)
{
    calls++;
    if (got != answer)
        fail("%s returns %u where %u is due", call, got, answer);
}

/* Of a plan no more than `open` bytes may be read, and of a page, if the plan is good, no more than 70n bytes written: they are the
 * last ones before the locked pages, and all of these are lent, too. */
static void judged(const struct file *file, const struct plan *plan, size_t open, uint32_t answer)
{
    uint8_t *plans = lock(), *pages = lock();
    uint8_t *handed = plans - open, *page = answer == 0 ? pages - ROW * two.processors : pages;
    size_t behind = LOCKED * size();

    memcpy(handed, plan->bytes, open);
    calling = "kelvrist_check";
    answers(calling, kelvrist_check(file->bytes, file->length, handed, open + behind), answer);
    calling = "kelvrist_page";
    answers(calling, kelvrist_page(file->bytes, file->length, handed, open + behind, page, (size_t)(pages - page) + behind), answer);
    answers(calling, kelvrist_page(file->bytes, file->length, handed, open + behind, pages, 1), answer == 4 ? 4 : 9);
    unlock(plans);
    unlock(pages);
}

void bytes_unread(void)
{
    struct file file = file_of(&two);
    struct plan plan = {.length = 10};

    signal(SIGSEGV, caught);
    testing("a good plan, the bytes past 5m and those past 70n locked");
    place(&plan, 0, 0, 0);
    place(&plan, 1, 0, 5);
    judged(&file, &plan, 10, 0);
    testing("a plan with an overlap, the bytes past 5m and the whole page locked");
    place(&plan, 1, 0, 4);
    judged(&file, &plan, 10, 12);
    testing("a refused job, the whole plan and the whole page locked");
    file.bytes[1] = 0;
    judged(&file, &plan, 0, 4);
    signal(SIGSEGV, SIG_DFL);
}
