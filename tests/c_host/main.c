/* The C host: calls planners, checker and page as the station controller does, from C, on the documents' cases and others.
 * Each group runs with two fill bytes, so that a byte written where none is due cannot look like what was there. */
#include <stdarg.h>
#include <stdio.h>
#include <stdlib.h>

#include "host.h"

static const struct group {
    const char *name;
    void (*run)(void);
} groups[] = {
    {"worked cases", worked_cases},
    {"costs by wires", costs_by_wires},
    {"results of tasks", results_of_tasks},
    {"ties by weight", ties_by_weight},
    {"larger jobs", larger_jobs},
    {"plans handed in", plans_handed_in},
    {"order of refusals", order_of_refusals},
    {"refused jobs", refused_jobs},
    {"ends of ranges", ends_of_ranges},
    {"plan buffers", plan_buffers},
    {"pages", pages_drawn},
    {"bytes unread", bytes_unread},
};

uint8_t fill;
unsigned long calls;
static char what[200];

void testing(const char *format, ...)
{
    va_list words;

    va_start(words, format);
    vsnprintf(what, sizeof what, format, words);
    va_end(words);
}

void fail(const char *format, ...)
{
    va_list words;

    fflush(stdout);
    fprintf(stderr, "c_host: FAILED with fill byte %02x: %s: ", fill, what);
    va_start(words, format);
    vfprintf(stderr, format, words);
    va_end(words);
    fprintf(stderr, "\n");
    exit(1);
}

int main(void)
{
    static const uint8_t fills[] = {0xA5, 0x5A};

    for (size_t f = 0; f < sizeof fills; f++) {
        fill = fills[f];
        for (size_t g = 0; g < sizeof groups / sizeof groups[0]; g++) {
            unsigned long before = calls;
            testing("%s", groups[g].name);
            groups[g].run();
            printf("fill byte %02x, %s: %lu calls\n", fill, groups[g].name, calls - before);
        }
    }
    printf("c_host: %lu calls, 0 failed\n", calls);
    return 0;
}
