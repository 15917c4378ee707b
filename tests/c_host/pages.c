/* Pages of plans (document 02 §3): pages that are known, steps at the edges of cells, and page buffers. The host draws each page
 * itself, too. */
#include <string.h>

#include "host.h"

static void same_page(const struct page *page, struct page due)
{
    for (size_t i = 0; i < due.length; i++)
        if (page->bytes[i] != due.bytes[i])
            fail("the page's row %zu has the byte %02x at place %zu where %02x is due", i / ROW, page->bytes[i], i % ROW,
                 due.bytes[i]);
}

void want_drawn(const struct job *job, const struct file *file, const struct plan *plan, uint32_t answer)
{
    struct page page = {.length = ROW * (size_t)job->processors}, shorter = {.length = page.length - 1};

    want_page(file, plan, job->processors, &page, answer);
    if (answer == 0)
        same_page(&page, page_of(job, plan));
    want_page(file, plan, job->processors, &shorter, answer == 0 || (answer >= 9 && answer <= 13) ? 9 : answer);
}

/* The page of a good plan. */
static void drawn(const struct job *job, const struct plan *plan)
{
    struct file file = file_of(job);

    want_drawn(job, &file, plan, 0);
}

/* The page has these cells in a row; those that are not told are dots. */
static void has_cells(const struct job *job, const struct plan *plan, uint32_t row, const char *cells)
{
    struct file file = file_of(job);
    struct page page = {.length = ROW * (size_t)job->processors};
    const uint8_t *bytes = page.bytes + ROW * (size_t)row;

    want_page(&file, plan, job->processors, &page, 0);
    for (size_t j = 0; j < 64; j++) {
        uint8_t due = (uint8_t)(j < strlen(cells) ? cells[j] : '.');
        if (bytes[4 + j] != due)
            fail("cell %zu of processor %u is %02x where %02x is due", j, row, bytes[4 + j], due);
    }
}

/* So many cells that are dots, then as many that are marks. */
static const char *cells(size_t dots, size_t marks)
{
    static char text[65];

    memset(text, '.', dots);
    memset(text + dots, '#', marks);
    text[dots + marks] = '\0';
    return text;
}

static const struct job gather = {
    .processors = 2, .wiring = FLAT, .unit = 2, .tasks = 3, .durations = {4, 3, 2}, .edges = 2, .edge = {{0, 2, 1}, {1, 2, 3}}};

/* Case A of document 01, byte by byte, as the header has it; with a result, which moves no cell, too. */
static void case_a(void)
{
    static const char due[] =
        " 0 |####............................................................|\n"
        " 1 |###...##........................................................|\n";

    for (uint32_t count = 0; count <= 1000; count += 500) {
        struct job job = gather;
        struct plan plan = {.length = 15};
        struct page page = {.length = 2 * ROW};
        job.results[2] = count;
        struct file file = file_of(&job);
        testing("the page of case A, a result of %u messages", count);
        want_plan(&file, 3, &plan, 0);
        want_page(&file, &plan, 2, &page, 0);
        if (memcmp(page.bytes, due, 2 * ROW) != 0)
            fail("it is %.*s", 2 * ROW, (const char *)page.bytes);
        drawn(&job, &plan);
    }
}

/* Processor 0 runs from 0 to the last finish, processor 1 in the last tick. */
static void widths(void)
{
    static const struct {
        uint32_t last, busy;
    } due[] = {{1, 1}, {2, 2}, {63, 63}, {64, 64}, {65, 33}, {66, 33}, {127, 64}, {128, 64}, {129, 43}, {191, 64}, {192, 64},
               {193, 49}, {1000000, 64}};

    for (size_t i = 0; i < sizeof due / sizeof due[0]; i++) {
        struct job job = {.processors = 2, .tasks = 2, .durations = {due[i].last, 1}};
        struct plan plan = {.length = 10};
        testing("last finish %u", due[i].last);
        place(&plan, 0, 0, 0);
        place(&plan, 1, 1, due[i].last - 1);
        drawn(&job, &plan);
        has_cells(&job, &plan, 0, cells(0, due[i].busy));
        has_cells(&job, &plan, 1, cells(due[i].busy - 1, 1));
    }
}

/* A task that starts as late as may be. The greatest last finish, 601,000,000, is 64 times 9,390,625: w is that, too, down to
 * 600,999,937, and one less from there on. On processor 1 a task ends where the first cell does, and one a tick after the second. */
static void latest_finish(void)
{
    static const struct {
        uint32_t ticks, w;
    } due[] = {{1, 9375001}, {999936, 9390624}, {999937, 9390625}, {1000000, 9390625}};

    for (size_t i = 0; i < sizeof due / sizeof due[0]; i++) {
        struct job job = {.processors = 2, .tasks = 3, .durations = {due[i].ticks, 1000000, 1000000}};
        struct plan plan = {.length = 15};
        testing("start 600,000,000 for %u ticks", due[i].ticks);
        place(&plan, 0, 0, KELVRIST_LATEST_START);
        place(&plan, 1, 1, due[i].w - 1000000);
        place(&plan, 2, 1, 2 * due[i].w - 999999);
        drawn(&job, &plan);
        has_cells(&job, &plan, 0, cells(63, 1));
        has_cells(&job, &plan, 1, "###");
    }
}

/* A task of each length at each place near the front, by ticks: a cell is marked if one of its ticks is run. Processor 1 runs in
 * the last tick of cell 63. */
static void edges_of_cells(uint32_t w)
{
    for (uint32_t start = 0; start <= 3 * w; start++)
        for (uint32_t ticks = 1; ticks <= 3 * w; ticks++) {
            struct job job = {.processors = 2, .tasks = 2, .durations = {ticks, 1}};
            struct plan plan = {.length = 10};
            char due[65] = "................................................................";
            testing("w %u, a task from %u for %u ticks", w, start, ticks);
            place(&plan, 0, 0, start);
            place(&plan, 1, 1, 64 * w - 1);
            for (uint32_t tick = start; tick < start + ticks; tick++)
                due[tick / w] = '#';
            drawn(&job, &plan);
            has_cells(&job, &plan, 0, due);
        }
}

/* Each number of processors, of which one runs a task, at the length of its number: the others' rows have no mark. */
static void rows(void)
{
    for (uint32_t n = 1; n <= 16; n++)
        for (uint32_t p = 0; p < n; p++) {
            struct job job = {.processors = n, .wiring = n % 3, .tasks = 1, .durations = {1 + p}};
            struct plan plan = {.length = 5};
            testing("a task on processor %u of %u", p, n);
            place(&plan, 0, p, 0);
            drawn(&job, &plan);
            for (uint32_t row = 0; row < n; row++)
                has_cells(&job, &plan, row, row == p ? cells(0, 1 + p) : "");
        }
}

/* Buffers of fewer, as many and more bytes than a page has. */
static void page_buffers(void)
{
    for (uint32_t n = 1; n <= 16; n++) {
        size_t due = ROW * (size_t)n;
        const size_t lengths[] = {0, 1, 6, due - ROW, due - 6, due - 1, due, due + 1, due + 7, due + 60};
        struct job job = {.processors = n, .tasks = 2, .durations = {64, 64}};
        struct file file = file_of(&job);
        struct plan plan = {.length = 10};
        place(&plan, 0, n - 1, 0);
        place(&plan, 1, 0, 64);
        for (size_t l = 0; l < sizeof lengths / sizeof lengths[0]; l++) {
            struct page page = {.length = lengths[l]};
            testing("%u processors, a page of %zu bytes", n, lengths[l]);
            want_page(&file, &plan, n, &page, lengths[l] < due ? 9 : 0);
        }
    }
}

void pages_drawn(void)
{
    case_a();
    widths();
    latest_finish();
    for (uint32_t w = 1; w <= 5; w++)
        edges_of_cells(w);
    rows();
    page_buffers();
}
