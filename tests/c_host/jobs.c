/* Jobs as bytes, and plans as numbers. */
#include "host.h"

void put_byte(struct file *file, uint32_t byte)
{
    if (file->length < FILE_ROOM)
        file->bytes[file->length++] = (uint8_t)byte;
    else
        fail("the host's own buffer for a job is full");
}

static void put_number(struct file *file, uint32_t number, int bytes)
{
    for (; bytes > 0; bytes--, number /= 256)
        put_byte(file, number % 256);
}

void put_rack(struct file *file, uint32_t processors, uint32_t wiring, uint32_t unit)
{
    put_byte(file, 1);
    put_byte(file, processors);
    put_byte(file, wiring);
    put_byte(file, unit);
}

void put_wire(struct file *file, uint32_t from, uint32_t to, uint32_t cost)
{
    put_byte(file, 5);
    put_byte(file, from);
    put_byte(file, to);
    put_byte(file, cost);
}

void put_step(struct file *file, uint32_t duration)
{
    put_byte(file, 2);
    put_number(file, duration, 4);
}

void put_link(struct file *file, struct edge edge)
{
    put_byte(file, 3);
    put_byte(file, edge.from);
    put_byte(file, edge.to);
    put_number(file, edge.count, 2);
}

void put_result(struct file *file, uint32_t task, uint32_t count)
{
    put_byte(file, 6);
    put_byte(file, task);
    put_number(file, count, 2);
}

void put_end(struct file *file)
{
    put_byte(file, 4);
}

struct file file_of(const struct job *job)
{
    struct file file = {0};

    put_rack(&file, job->processors, job->wiring, job->unit);
    for (uint32_t p = 0; job->wiring == WIRES && p < job->processors; p++)
        for (uint32_t q = 0; q < job->processors; q++)
            if (p != q)
                put_wire(&file, p, q, job->costs[p][q]);
    for (size_t t = 0; t < job->tasks; t++)
        put_step(&file, job->durations[t]);
    for (size_t e = 0; e < job->edges; e++)
        put_link(&file, job->edge[e]);
    for (uint32_t t = 0; t < job->tasks; t++)
        if (job->results[t] != 0)
            put_result(&file, t, job->results[t]);
    put_end(&file);
    return file;
}

void place(struct plan *plan, size_t task, uint32_t processor, uint32_t start)
{
    uint8_t *bytes = plan->bytes + 5 * task;

    bytes[0] = (uint8_t)processor;
    bytes[1] = (uint8_t)start;
    bytes[2] = (uint8_t)(start >> 8);
    bytes[3] = (uint8_t)(start >> 16);
    bytes[4] = (uint8_t)(start >> 24);
}

uint32_t processor_in(const struct plan *plan, size_t task)
{
    return plan->bytes[5 * task];
}

uint32_t start_in(const struct plan *plan, size_t task)
{
    const uint8_t *bytes = plan->bytes + 5 * task + 1;

    return bytes[0] | (uint32_t)bytes[1] << 8 | (uint32_t)bytes[2] << 16 | (uint32_t)bytes[3] << 24;
}
