/* Jobs that are refused, by each call and whatever is lent for plan and page; the ends of each range; plan buffers. */
#include <string.h>

#include "host.h"

/* The documents' small inputs, and places where two refusals meet. The bytes are hexadecimal. */
static const struct {
    const char *what;
    const char *bytes;
    uint32_t answer;
} refused[] = {
    {"empty", "", 1},
    {"a rack that is cut", "01 02 00", 1},
    {"a rack alone", "01 02 00 02", 1},
    {"a step that is cut", "01 02 00 02 02 05 00 00", 1},
    {"a link that is cut", "01 02 00 02 02 05 00 00 00 02 05 00 00 00 03 00 01 01", 1},
    {"no end record", "01 02 00 02 02 05 00 00 00", 1},
    {"kind 9", "09", 2},
    {"kind 0", "00", 2},
    {"kind 8 after a step", "01 02 00 02 02 05 00 00 00 08", 2},
    {"a step first", "02 01 00 00 00", 3},
    {"the end first", "04", 3},
    {"a rack again", "01 02 00 02 01 02 00 02", 3},
    {"a link with no step", "01 02 00 02 03 00 01 01 00", 3},
    {"the end with no step", "01 02 00 02 04", 3},
    {"a step after a link", "01 02 00 02 02 05 00 00 00 02 05 00 00 00 03 00 01 01 00 02 05 00 00 00 04", 3},
    {"no processors", "01 00 00 05", 4},
    {"wiring 4", "01 02 04 05", 4},
    {"from 0 to 0", "01 02 00 02 02 05 00 00 00 03 00 00 01 00", 6},
    {"to is no task", "01 02 00 02 02 05 00 00 00 03 00 01 01 00", 6},
    {"from above to", "01 02 00 02 02 05 00 00 00 02 05 00 00 00 03 01 00 01 00", 6},
    {"a link twice", "01 02 00 02 02 05 00 00 00 02 05 00 00 00 03 00 01 01 00 03 00 01 01 00", 7},
    {"a byte after the end", "01 02 00 02 02 05 00 00 00 04 00", 8},
    {"the end twice", "01 02 00 02 02 05 00 00 00 04 04", 8},
    {"2 before 1", "01 02 00 02 09", 2},
    {"3 before 1", "01 02 00 02 03", 3},
    {"1 before 4", "01 00 00", 1},
    {"4 before 6", "01 02 00 02 02 05 00 00 00 03 00 00 00 00", 4},
    {"6 before 7",
     "01 02 00 02 02 05 00 00 00 02 05 00 00 00 02 05 00 00 00 03 01 02 01 00 03 01 01 01 00", 6},
    {"the first trouble", "01 11 00 02 09", 4},
    {"a rack that waits for wires", "01 02 03 02", 1},
    {"a wire that is cut", "01 02 03 02 05 00 01", 1},
    {"a wire first", "05 00 01 07", 3},
    {"a wire with wiring 0", "01 02 00 02 05 00 01 07", 3},
    {"a wire with wiring 1", "01 02 01 02 05 00 01 07", 3},
    {"a wire with wiring 2", "01 02 02 02 05 00 01 07", 3},
    {"a wire after a step", "01 02 03 02 05 00 01 07 05 01 00 09 02 05 00 00 00 05 01 00 09", 3},
    {"a wire after a link",
     "01 02 03 02 05 00 01 07 05 01 00 09 02 05 00 00 00 02 05 00 00 00 03 00 01 01 00 05 01 00 09", 3},
    {"the end before the wires", "01 02 03 02 04", 3},
    {"a link between wires", "01 02 03 02 05 00 01 07 03 00 01 01 00", 3},
    {"a rack between wires", "01 02 03 02 05 00 01 07 01 02 03 02", 3},
    {"a wire of cost 251", "01 02 03 02 05 00 01 fb", 4},
    {"unit cost 101 with wires", "01 02 03 65", 4},
    {"a step before the wires", "01 02 03 02 02 05 00 00 00", 14},
    {"a step between wires", "01 02 03 02 05 00 01 07 02 05 00 00 00 05 01 00 09 04", 14},
    {"the second wire first", "01 02 03 02 05 01 00 09", 14},
    {"a wire twice", "01 02 03 02 05 00 01 07 05 00 01 07", 14},
    {"a wire from 0 to 0", "01 02 03 02 05 00 00 07", 14},
    {"a wire to no processor", "01 02 03 02 05 00 01 07 05 02 00 07", 14},
    {"a wire past the last", "01 02 03 02 05 00 01 07 05 01 00 09 05 01 00 09", 14},
    {"a wire of one processor", "01 01 03 02 05 00 01 07", 14},
    {"3 before 1, a wire", "01 02 00 02 05", 3},
    {"1 before 14, a wire", "01 02 03 02 05 01 00", 1},
    {"1 before 14, a step", "01 02 03 02 02 05 00 00", 1},
    {"4 before 14, a wire", "01 02 03 02 05 01 00 fb", 4},
    {"4 before 14, a step", "01 02 03 02 02 00 00 00 00", 4},
    {"a byte after the end, with wires", "01 02 03 02 05 00 01 07 05 01 00 09 02 05 00 00 00 04 05", 8},
    {"a result first", "06 00 01 00", 3},
    {"a result with no step", "01 02 00 02 06 00 01 00", 3},
    {"a result before the wires", "01 02 03 02 06 00 01 00", 3},
    {"a result after the wires", "01 02 03 02 05 00 01 07 05 01 00 09 06 00 01 00", 3},
    {"a step after a result", "01 02 00 02 02 05 00 00 00 06 00 01 00 02 05 00 00 00 04", 3},
    {"a link after a result",
     "01 02 00 02 02 05 00 00 00 02 05 00 00 00 06 01 01 00 03 00 01 01 00 04", 3},
    {"a wire after a result", "01 02 03 02 05 00 01 07 05 01 00 09 02 05 00 00 00 06 00 01 00 05 00 01 07", 3},
    {"a rack after a result", "01 02 00 02 02 05 00 00 00 06 00 01 00 01 02 00 02", 3},
    {"a result that is cut", "01 02 00 02 02 05 00 00 00 06 00 01", 1},
    {"no end record, with a result", "01 02 00 02 02 05 00 00 00 06 00 01 00", 1},
    {"a result of no message", "01 02 00 02 02 05 00 00 00 06 00 00 00", 4},
    {"a result of 1,001 messages", "01 02 00 02 02 05 00 00 00 06 00 e9 03", 4},
    {"a result of no task", "01 02 00 02 02 05 00 00 00 06 01 01 00", 15},
    {"a result of task 255", "01 02 00 02 02 05 00 00 00 06 ff 01 00", 15},
    {"a result of a task that sends", "01 02 00 02 02 05 00 00 00 02 05 00 00 00 03 00 01 01 00 06 00 01 00 04", 15},
    {"a result twice", "01 02 00 02 02 05 00 00 00 06 00 01 00 06 00 01 00", 15},
    {"results that fall", "01 02 00 02 02 05 00 00 00 02 05 00 00 00 06 01 01 00 06 00 01 00", 15},
    {"3 before 1, a result", "01 02 00 02 06", 3},
    {"1 before 4, a result", "01 02 00 02 02 05 00 00 00 06 00 00", 1},
    {"1 before 15, a result", "01 02 00 02 02 05 00 00 00 06 01 01", 1},
    {"4 before 15, a result", "01 02 00 02 02 05 00 00 00 06 01 00 00", 4},
    {"a byte after the end, with a result", "01 02 00 02 02 05 00 00 00 06 00 01 00 04 06", 8},
};

static int digit(char c)
{
    const char *digits = "0123456789abcdef";

    return (int)(strchr(digits, c) - digits);
}

static struct file file_of_hex(const char *text)
{
    struct file file = {0};

    for (; *text != '\0'; text++) {
        if (*text == ' ')
            continue;
        put_byte(&file, (uint32_t)(16 * digit(text[0]) + digit(text[1])));
        text++;
    }
    return file;
}

static void want_refused(const struct file *file, uint32_t answer)
{
    static const size_t lengths[] = {0, 1, 10, KELVRIST_PLAN_BYTES, KELVRIST_PLAN_BYTES + 1};

    for (size_t i = 0; i < sizeof lengths / sizeof lengths[0]; i++) {
        struct plan plan = {.length = lengths[i]};
        want_plan(file, 0, &plan, answer);
        want_check(file, &plan, answer);
        for (size_t length = 0; length <= KELVRIST_PAGE_BYTES; length += KELVRIST_PAGE_BYTES / 2) {
            struct page page = {.length = length};
            want_page(file, &plan, 0, &page, answer);
        }
    }
}

static void put_many(struct file *file, size_t tasks, size_t edges)
{
    for (size_t t = 0; t < tasks; t++)
        put_step(file, 5);
    for (uint32_t from = 0; from < 256; from++)
        for (uint32_t to = from + 1; to < 256 && edges > 0; to++, edges--)
            put_link(file, (struct edge){from, to, 1});
}

static struct file many(size_t tasks, size_t edges)
{
    struct file file = {0};

    put_rack(&file, 2, FLAT, 2);
    put_many(&file, tasks, edges);
    return file;
}

/* The greatest job: its edges are from tasks 0 to 4, and each other task has a result. */
static struct file greatest(void)
{
    struct file file = {0};

    put_rack(&file, 16, WIRES, 100);
    for (uint32_t p = 0; p < 16; p++)
        for (uint32_t q = 0; q < 16; q++)
            if (p != q)
                put_wire(&file, p, q, 250 - p);
    put_many(&file, 256, 1024);
    for (uint32_t t = 5; t < 256; t++)
        put_result(&file, t, 1 + t);
    put_end(&file);
    return file;
}

/* A result in place of the greatest job's end record, of which `length` bytes are there: it can only be of a task that has one
 * already, and there is no 5 for results. */
static void past_the_last(uint32_t count, size_t length, uint32_t answer)
{
    struct file file = greatest();

    testing("a result of %u messages past the last, %zu bytes of it", count, length);
    file.length--;
    size_t due = file.length + length;
    put_result(&file, 255, count);
    put_end(&file);
    if (due < file.length)
        file.length = due;
    want_refused(&file, answer);
}

void refused_jobs(void)
{
    for (size_t i = 0; i < sizeof refused / sizeof refused[0]; i++) {
        testing("%s", refused[i].what);
        struct file file = file_of_hex(refused[i].bytes);
        want_refused(&file, refused[i].answer);
    }
    testing("257 steps");
    struct file file = many(257, 0);
    want_refused(&file, 5);
    testing("1,025 links");
    file = many(256, 1025);
    want_refused(&file, 5);
    testing("5 before 1");
    file = many(256, 1024);
    put_byte(&file, 3);
    want_refused(&file, 5);
    testing("the greatest job");
    file = greatest();
    struct plan plan = {.length = KELVRIST_PLAN_BYTES};
    if (file.length != KELVRIST_JOB_BYTES)
        fail("it has %zu bytes", file.length);
    want_plan(&file, 256, &plan, 0);
    want_check(&file, &plan, 0);
    struct page page = {.length = KELVRIST_PAGE_BYTES};
    want_page(&file, &plan, 16, &page, 0);
    testing("a byte after the greatest job");
    put_byte(&file, 4);
    want_refused(&file, 8);
    for (size_t length = 0; length < 4; length++)
        past_the_last(length % 2 == 0 ? 1 : 0, length, 1);
    for (size_t length = 4; length < 6; length++) {
        past_the_last(0, length, 4);
        past_the_last(1, length, 15);
        past_the_last(1000, length, 15);
        past_the_last(1001, length, 4);
    }
}

/* Two tasks and an edge: each value at an end of its range, and next to it. */
static const struct {
    uint32_t processors, wiring, unit, duration, count, answer;
} ends[] = {
    {1, FLAT, 2, 5, 1, 0},
    {0, FLAT, 2, 5, 1, 4},
    {16, FLAT, 2, 5, 1, 0},
    {17, FLAT, 2, 5, 1, 4},
    {2, RING, 2, 5, 1, 0},
    {2, WIRES, 2, 5, 1, 0},
    {2, 4, 2, 5, 1, 4},
    {1, WIRES, 2, 5, 1, 0},
    {16, WIRES, 2, 5, 1, 0},
    {2, WIRES, 100, 5, 1, 0},
    {2, WIRES, 101, 5, 1, 4},
    {2, FLAT, 0, 5, 1, 0},
    {2, FLAT, 100, 5, 1, 0},
    {2, FLAT, 101, 5, 1, 4},
    {2, FLAT, 2, 1, 1, 0},
    {2, FLAT, 2, 0, 1, 4},
    {2, FLAT, 2, 1000000, 1, 0},
    {2, FLAT, 2, 1000001, 1, 4},
    {2, FLAT, 2, 5, 0, 4},
    {2, FLAT, 2, 5, 1000, 0},
    {2, FLAT, 2, 5, 1001, 4},
};

/* A wire's cost, there or back. */
static void ends_of_costs(void)
{
    for (uint32_t cost = 249; cost <= 255; cost++)
        for (uint32_t p = 0; p < 2; p++) {
            struct job job = {.processors = 2, .wiring = WIRES, .tasks = 1, .durations = {5}};
            job.costs[p][1 - p] = cost;
            struct file file = file_of(&job);
            struct plan plan = {.length = 5};
            testing("a wire of cost %u from processor %u", cost, p);
            want_plan(&file, 1, &plan, cost <= 250 ? 0 : 4);
            want_check(&file, &plan, cost <= 250 ? 0 : 4);
        }
}

void ends_of_ranges(void)
{
    for (size_t i = 0; i < sizeof ends / sizeof ends[0]; i++) {
        struct job job = {.processors = ends[i].processors, .wiring = ends[i].wiring, .unit = ends[i].unit,
                          .tasks = 2, .durations = {5, ends[i].duration}, .edges = 1};
        job.edge[0] = (struct edge){.from = 0, .to = 1, .count = ends[i].count};
        struct file file = file_of(&job);
        struct plan plan = {.length = 10};
        testing("%u processors, wiring %u, unit cost %u, duration %u, message count %u", job.processors, job.wiring,
                job.unit, ends[i].duration, ends[i].count);
        want_plan(&file, 2, &plan, ends[i].answer);
        want_check(&file, &plan, ends[i].answer);
    }
    ends_of_costs();
}

/* Buffers of fewer, as many and more bytes than a plan has. */
void plan_buffers(void)
{
    static const size_t tasks[] = {1, 2, 3, 255, 256};

    for (size_t i = 0; i < sizeof tasks / sizeof tasks[0]; i++) {
        size_t due = 5 * tasks[i];
        const size_t lengths[] = {0, 1, due - 5, due - 1, due, due + 1, due + 7, due + 60};
        struct file file = many(tasks[i], 0);
        put_end(&file);
        for (size_t l = 0; l < sizeof lengths / sizeof lengths[0]; l++) {
            struct plan plan = {.length = lengths[l]};
            testing("%zu tasks, a buffer of %zu bytes", tasks[i], lengths[l]);
            want_plan(&file, tasks[i], &plan, lengths[l] < due ? 9 : 0);
            want_check(&file, &plan, lengths[l] < due ? 9 : 0);
        }
    }
}
