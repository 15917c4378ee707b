/* Kelvrist: plans a job for linked processors, checks plans, and draws them. Library libkelvrist.a.
 *
 * A job is a platform of 1 to 16 equal processors, 1 to 256 tasks and up to 1,024 edges. An edge says
 * that one task sends messages to another, which cannot start before they are there. A task that sends
 * to no other may have a result: messages to processor 0, where the reject gate hangs. A plan gives
 * each task a processor and a start. Times are whole ticks. (The customer's papers call a platform a
 * rack, a processor a board, a task a step and an edge a link.)
 *
 *     uint8_t plan[KELVRIST_PLAN_BYTES];
 *     uint32_t answer = kelvrist_plan(job, job_length, plan, sizeof plan);
 *     if (answer != KELVRIST_OK)
 *         return answer;
 *     for (t = 0; t < tasks; t++)
 *         begin(t, plan[5 * t], start_in(plan + 5 * t + 1));
 *
 * Any bytes may be handed in, and every call returns. What the five functions answer is proved for
 * all inputs; the statements are in crates/kelvrist/specs.
 *
 *
 * The job's bytes
 *
 * Records, each of one byte of kind and a body. Numbers of more than one byte are little-endian.
 *
 *     kind  name    body
 *     1     rack    processors n (1 byte, 1 to 16), wiring (1 byte: 0 flat, 1 cube, 2 ring,
 *                   3 by wires), unit cost c (1 byte, 0 to 100)
 *     5     wire    from processor (1 byte), to processor (1 byte), cost (1 byte, 0 to 250)
 *     2     step    a task: duration (4 bytes, 1 to 1,000,000)
 *     3     link    an edge: from (1 byte), to (1 byte), message count (2 bytes, 1 to 1,000)
 *     6     result  task (1 byte), message count (2 bytes, 1 to 1,000)
 *     4     end     none
 *
 * One rack, then under wiring 3 the wires, then the steps, then the links, then the results, then the
 * end record and no more bytes; there may be no links and no results. There is a wire for each ordered
 * pair of different processors below n, so n(n - 1) of them, and they rise by from, then by to. Tasks
 * are numbered from 0 as they stand; m is how many there are. An edge has from below to and to below m.
 * Edges rise by from, then by to, and no pair stands twice. A result is of a task below m that no edge
 * is from; results rise by task, and no task has two. A job has 5 + 5 times (tasks + edges) bytes, and
 * 4 more for each wire and for each result.
 *
 * Messages from processor p to processor q take their count times the cost from p to q. That is 0 from
 * a processor to itself; else, under wiring 3, the cost of the wire from p to q, which may differ from
 * that of the way back, and c is not used; else c times the hops: 1 (flat), the number of binary places
 * in which p and q differ (cube), or the shorter way round (ring).
 *
 * Results move no task: a job with results gets the plan that it gets without them. They count for the
 * plan's end, which is the greatest of all finishes and of each result's arrival: its task's finish
 * plus its count times the cost from the task's processor to processor 0. Program `plan` prints the
 * end; the functions here do not return it.
 *
 *
 * The plan's bytes
 *
 * 5 bytes a task, by the task's number: task t has its processor at place 5t (1 byte, 0 to n - 1) and
 * its start at places 5t + 1 to 5t + 4 (little-endian). So a plan has 5m bytes, at most 1,280.
 *
 *
 * The page's bytes
 *
 * A plan as text, to be taped inside the cabinet door: one row a processor, lowest first.
 *
 *      0 |####............................................................|
 *      1 |###...##........................................................|
 *
 * A row has 70 bytes: the processor's number in two columns, padded left with a space; a space; a bar;
 * 64 cells; a bar; a line feed. So a page has 70n bytes, at most 1,120, and no byte 0 after them. Let w
 * be the last finish divided by 64, rounded up. Cell j, counted from 0, is `#` if the processor runs a
 * task for at least one tick from jw up to (j + 1)w, else `.`. Results have no part in it: a plan's
 * last finish can be before its end.
 *
 *
 * What a caller sees to
 *
 * - A pointer is valid for as many bytes as the length beside it says, and is not null, also where that
 *   length is 0.
 * - The bytes of the job, of the plan and of the page do not overlap, and nobody else writes to them
 *   during a call, nor reads the plan that a planner is filling or the page that kelvrist_page is.
 * - The stack has room: kelvrist_plan and kelvrist_plan_by_weight take about 34 KB, kelvrist_plan_small
 *   about 15 KB, kelvrist_check and kelvrist_page about 9 KB.
 *
 * The library takes nothing from the heap, has no global data and keeps nothing between calls: calls
 * may run at the same time in different threads. Of the C library it needs memcpy and memset alone. It
 * is built for x86-64-v2.
 */
#ifndef KELVRIST_H
#define KELVRIST_H

#include <stddef.h>
#include <stdint.h>

#ifdef __cplusplus
extern "C" {
#endif

/* The greatest of each. A job, a plan buffer or a page of these lengths is enough for every job. */
#define KELVRIST_PROCESSORS 16
#define KELVRIST_TASKS 256
#define KELVRIST_EDGES 1024
#define KELVRIST_WIRES 240
#define KELVRIST_RESULTS 256
#define KELVRIST_JOB_BYTES 8369
#define KELVRIST_PLAN_BYTES 1280
#define KELVRIST_PAGE_BYTES 1120
#define KELVRIST_LATEST_START 600000000

/* What a call returns.
 *
 * The first trouble counts. Records are judged from the left, and within a record the order is 2, 3,
 * 5, 1, 4, 14, 15, 6, 7; then come 8 and 9. kelvrist_check and kelvrist_page go on with each task by
 * number, 10 before 11, then with 12 for any two tasks, then with 13 for any edge.
 */
enum kelvrist_answer {
    /* The job is planned, the plan handed in is good, or its page is drawn. */
    KELVRIST_OK = 0,

    /* The job is refused: each function. */

    /* The job's bytes end where a record or the rest of one is due. An empty job is one such. */
    KELVRIST_JOB_ENDS_EARLY = 1,
    /* A record's kind is not 1 to 6. */
    KELVRIST_KIND_UNKNOWN = 2,
    /* A record of a known kind may not stand here: the first is no rack, a rack stands again, a link, a
     * result or the end stands before any step, a step stands after a link or a result, a link stands
     * after a result, or a wire stands under a wiring other than 3 or after a step. */
    KELVRIST_KIND_OUT_OF_PLACE = 3,
    /* A number of processors, wiring, unit cost, duration, message count (of an edge or a result) or
     * cost of a wire is outside its range. */
    KELVRIST_VALUE_OUT_OF_RANGE = 4,
    /* There is a task past 256 or an edge past 1,024. */
    KELVRIST_TOO_MANY = 5,
    /* An edge has a from that is not below its to, or a to that is not below m. */
    KELVRIST_EDGE_ENDS = 6,
    /* An edge does not stand above the one before it, by from, then by to. */
    KELVRIST_EDGE_ORDER = 7,
    /* Bytes follow the end record. */
    KELVRIST_BYTES_AFTER_END = 8,
    /* A wire is not that of the next pair due or comes past the last, or a step stands before all pairs
     * have a wire. */
    KELVRIST_WIRE_ORDER = 14,
    /* A result is of a task that is not below m or that an edge is from, or it does not stand above the
     * result before it. */
    KELVRIST_RESULT_TASK = 15,

    /* A buffer is refused: each function. */

    /* The plan is shorter than 5m bytes, or the page shorter than 70n. */
    KELVRIST_PLAN_TOO_SHORT = 9,

    /* The plan handed in is refused: kelvrist_check and kelvrist_page. */

    /* A task's processor is not below n. */
    KELVRIST_NO_SUCH_PROCESSOR = 10,
    /* A task's start is above 600,000,000. */
    KELVRIST_START_TOO_LATE = 11,
    /* Two tasks overlap on one processor. One may start in the tick in which the other finishes. */
    KELVRIST_OVERLAP = 12,
    /* A task starts before messages sent to it are there: before the sender's finish plus their time. */
    KELVRIST_BEFORE_MESSAGES = 13
};

/* Plans a job: earliest task first (Algorithm ETF of Hwang, Chow, Anger and Lee), ties to the lowest
 * task, then to the lowest processor. The same job gives the same plan always, and kelvrist_check
 * accepts it.
 *
 * On KELVRIST_OK the first 5m bytes of the plan are filled, and no other byte is altered.
 * On 1 to 9, 14 and 15 nothing is altered. 10 to 13 are not returned.
 */
uint32_t kelvrist_plan(const uint8_t *job, size_t job_length, uint8_t *plan, size_t plan_length);

/* Plans a job as kelvrist_plan does: the same number and the same bytes, with less memory and more
 * time. It keeps no table of when messages arrive, and works arrivals out when they are wanted: mostly
 * 0.9 to 3.0 times kelvrist_plan's time; the longest known is 5 ms (x86-64), beside 0.7 ms.
 *
 * On KELVRIST_OK the first 5m bytes of the plan are filled, and no other byte is altered.
 * On 1 to 9, 14 and 15 nothing is altered. 10 to 13 are not returned.
 */
uint32_t kelvrist_plan_small(const uint8_t *job, size_t job_length, uint8_t *plan, size_t plan_length);

/* Plans a job as kelvrist_plan does, but with ties by the longest work left, for wide graphs, whose long
 * branches it begins early. A task's weight is its duration plus the greatest weight among its
 * successors, 0 if none. Ties in start go to the greatest weight, then to the lowest task, then to the
 * lowest processor. Its plan mostly ends no later than kelvrist_plan's, but it can end later.
 * kelvrist_check accepts it. For a job and a length it returns the number that kelvrist_plan returns.
 *
 * On KELVRIST_OK the first 5m bytes of the plan are filled, and no other byte is altered.
 * On 1 to 9, 14 and 15 nothing is altered. 10 to 13 are not returned.
 */
uint32_t kelvrist_plan_by_weight(const uint8_t *job, size_t job_length, uint8_t *plan, size_t plan_length);

/* Judges a plan for a job: every processor is below n, every start at most 600,000,000, no two tasks
 * overlap on a processor, and no task starts before the messages sent to it are there. The plan need
 * not be kelvrist_plan's.
 *
 * Returns KELVRIST_OK for a good plan, or 1 to 15. When results arrive is not judged. The first 5m
 * bytes of the plan are read, no others; nothing is altered.
 */
uint32_t kelvrist_check(const uint8_t *job, size_t job_length, const uint8_t *plan, size_t plan_length);

/* Draws the page of a plan for a job. The plan is judged as kelvrist_check does, and need not be
 * kelvrist_plan's.
 *
 * On KELVRIST_OK the first 70n bytes of the page are filled, and no other byte is altered. On 1 to 15
 * nothing is altered; 9, for the plan or for the page, comes before 10 to 13. The first 5m bytes of the
 * plan are read, no others.
 */
uint32_t kelvrist_page(const uint8_t *job, size_t job_length, const uint8_t *plan, size_t plan_length,
                       uint8_t *page, size_t page_length);

#ifdef __cplusplus
}
#endif

#endif
