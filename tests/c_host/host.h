/* What the files of the C host share. */
#ifndef HOST_H
#define HOST_H

#include <stddef.h>
#include <stdint.h>

#include "kelvrist.h"

enum { FLAT = 0, CUBE = 1, RING = 2, WIRES = 3 };

/* Room for a job's bytes, also of a job with a record too many, for a plan's and for a page's. */
enum { FILE_ROOM = KELVRIST_JOB_BYTES + 64, PLAN_ROOM = KELVRIST_PLAN_BYTES + 64, PAGE_ROOM = KELVRIST_PAGE_BYTES + 64 };

enum { ROW = 70 };  /* the bytes of a page's row */

/* A job held as numbers, good or bad. With WIRES, costs[p][q] is that of the wire from p to q. The message count of task t's
 * result is results[t], 0 where it has none. */
struct edge {
    uint32_t from, to, count;
};

struct job {
    uint32_t processors, wiring, unit;
    uint32_t costs[KELVRIST_PROCESSORS][KELVRIST_PROCESSORS];
    size_t tasks, edges;
    uint32_t durations[KELVRIST_TASKS];
    struct edge edge[KELVRIST_EDGES];
    uint32_t results[KELVRIST_TASKS];
};

/* The bytes of a job, of a plan and of a page. */
struct file {
    size_t length;
    uint8_t bytes[FILE_ROOM];
};

struct plan {
    size_t length;
    uint8_t bytes[PLAN_ROOM];
};

struct page {
    size_t length;
    uint8_t bytes[PAGE_ROOM];
};

/* main.c: what is under test, for the message of a failure; a failure ends the program. */
void testing(const char *format, ...);
void fail(const char *format, ...);
extern uint8_t fill;
extern unsigned long calls;

/* jobs.c: jobs as bytes and plans as numbers. */
void put_rack(struct file *file, uint32_t processors, uint32_t wiring, uint32_t unit);
void put_wire(struct file *file, uint32_t from, uint32_t to, uint32_t cost);
void put_step(struct file *file, uint32_t duration);
void put_link(struct file *file, struct edge edge);
void put_result(struct file *file, uint32_t task, uint32_t count);
void put_end(struct file *file);
void put_byte(struct file *file, uint32_t byte);
struct file file_of(const struct job *job);
void place(struct plan *plan, size_t task, uint32_t processor, uint32_t start);
uint32_t processor_in(const struct plan *plan, size_t task);
uint32_t start_in(const struct plan *plan, size_t task);

/* judge.c: whether a plan is good for a job, by the documents and without the library. */
uint32_t judge(const struct job *job, const struct plan *plan);

/* draw.c: the page of a good plan for a job, by the documents and without the library. */
struct page page_of(const struct job *job, const struct plan *plan);

/* guarded.c: the five calls, with guard bytes around what is lent. Each plan is made by all planners. */
uint32_t call_plan(const struct file *file, size_t tasks, struct plan *plan);
uint32_t call_check(const struct file *file, const struct plan *plan);
uint32_t call_page(const struct file *file, const struct plan *plan, uint32_t processors, struct page *page);
void want_plan(const struct file *file, size_t tasks, struct plan *plan, uint32_t answer);
void want_by_weight(const struct file *file, size_t tasks, struct plan *plan, uint32_t answer);
void want_check(const struct file *file, const struct plan *plan, uint32_t answer);
void want_page(const struct file *file, const struct plan *plan, uint32_t processors, struct page *page, uint32_t answer);

/* pages.c: the page of a plan for a job, which gets this answer, with buffers of the length and a byte less. */
void want_drawn(const struct job *job, const struct file *file, const struct plan *plan, uint32_t answer);

/* The groups. */
void worked_cases(void);
void costs_by_wires(void);
void results_of_tasks(void);
void ties_by_weight(void);
void larger_jobs(void);
void plans_handed_in(void);
void order_of_refusals(void);
void refused_jobs(void);
void ends_of_ranges(void);
void plan_buffers(void);
void pages_drawn(void);
void bytes_unread(void);

#endif
