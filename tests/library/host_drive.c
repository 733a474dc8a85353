/* Reads cases from standard input, plays each through the C library, and writes what it answered: for tests/library/host.py.

   A case: the text's length and the text, the packed files' length and these, the number of files whose cost is asked for, and the length and
   bytes of each, the number of steps, and the steps. A step is a frame: 0, its
   port, length and bytes; or an added (1), deleted (2) or looked up (3) route: its table, address, depth and hop; or a burst of frames: 4, the
   port, their number, and the length and bytes of each.
   What is written: for each of these files the answer and the three numbers of its cost; the cause; where that is 0 the size that a batch needs,
   for each frame the answer and the records, for each route the answer and the hop of a look-up, and at last all numbers. Each struct that the
   library fills lies between bytes that have to stay as they are. All numbers have 32 bits, or 64 where the header has so, little-endian. */
#include "dpv.h"
#include <stdio.h>

#define GUARD 0xa5
#define MAX_BURST 64

static uint8_t *bytes_in(uint32_t *length)
{
    uint8_t *bytes;
    if (fread(length, 4, 1, stdin) != 1)
        return NULL;
    bytes = (uint8_t *)malloc(*length + 1);
    if (bytes == NULL || fread(bytes, 1, *length, stdin) != *length)
        exit(3);
    return bytes;
}

static void put32(uint32_t number)
{
    fwrite(&number, 4, 1, stdout);
}

static void put64(uint64_t number)
{
    fwrite(&number, 8, 1, stdout);
}

/* Ends where a byte after a struct was written. */
static void check_guard(const uint8_t *after, const char *name)
{
    for (int k = 0; k < 64; k++)
        if (after[k] != GUARD) {
            fprintf(stderr, "host_drive: %s is larger in the library\n", name);
            exit(4);
        }
}

/* A struct of the header with a guard after it. */
#define GUARDED(type) struct { struct type it; uint8_t after[64]; }

/* Writes records, each of which has to have this time. */
static void put_records(const struct dpv_batch *batch, uint64_t first, uint64_t count, uint64_t time)
{
    put64(count);
    for (uint64_t k = first; k < first + count; k++) {
        const struct dpv_record *record = &batch->records[k];
        if (record->time != time)
            exit(5);
        put32(record->port);
        put32(record->length);
        fwrite(batch->bytes + record->offset, 1, record->length, stdout);
    }
}

/* Passes in a burst of frames, each with a time of its own. */
static void burst(dpv_t *engine, struct dpv_batch *batch)
{
    struct dpv_frame frames[MAX_BURST];
    uint32_t port, count;
    if (fread(&port, 4, 1, stdin) != 1 || fread(&count, 4, 1, stdin) != 1 || count > MAX_BURST)
        exit(3);
    for (uint32_t k = 0; k < count; k++) {
        uint32_t length;
        frames[k].bytes = bytes_in(&length);
        frames[k].length = length;
        frames[k].time = 100 + k;
        if (frames[k].bytes == NULL)
            exit(3);
    }
    if (engine != NULL)
        dpv_pass_burst(engine, port, frames, count, batch);
    for (uint32_t k = 0; k < count; k++) {
        if (engine != NULL) {
            put32(frames[k].answer);
            put_records(batch, frames[k].first, frames[k].records, 100 + k);
        }
        free((void *)frames[k].bytes);
    }
}

static void pass(dpv_t *engine, struct dpv_batch *batch)
{
    uint32_t port, length;
    uint8_t *frame;
    if (fread(&port, 4, 1, stdin) != 1 || (frame = bytes_in(&length)) == NULL)
        exit(3);
    put32(dpv_pass(engine, port, frame, length, 7, batch));
    put_records(batch, 0, batch->filled.records, 7);
    free(frame);
}

/* Adds, deletes or looks up a route. */
static void change(dpv_t *engine, uint32_t kind)
{
    GUARDED(dpv_route) route;
    GUARDED(dpv_hop) hop;
    struct dpv_route before;
    memset(&route, GUARD, sizeof route);
    memset(&hop, GUARD, sizeof hop);
    if (fread(&route.it, sizeof route.it, 1, stdin) != 1)
        exit(3);
    before = route.it;
    hop.it.hop = 77;
    put32(kind == 1   ? dpv_route_add(engine, &route.it)
          : kind == 2 ? dpv_route_delete(engine, &route.it)
                      : dpv_route_lookup(engine, route.it.table, route.it.ip, &hop.it));
    put32(hop.it.hop);
    if (memcmp(&before, &route.it, sizeof before) != 0)
        exit(7);
    check_guard(route.after, "dpv_route");
    check_guard(hop.after, "dpv_hop");
}

/* Asks for the costs of some files. */
static void costs(void)
{
    uint32_t count, length;
    if (fread(&count, 4, 1, stdin) != 1)
        exit(3);
    while (count-- > 0) {
        GUARDED(dpv_cost) cost;
        uint8_t *bytes = bytes_in(&length);
        if (bytes == NULL)
            exit(3);
        memset(&cost, GUARD, sizeof cost);
        put32(dpv_cost(bytes, length, &cost.it));
        put32(cost.it.steps);
        put32(cost.it.jumps_back);
        put32(cost.it.label);
        check_guard(cost.after, "dpv_cost");
        free(bytes);
    }
}

/* Does the next step; where there is no engine, reads it alone. */
static void do_step(dpv_t *engine, struct dpv_batch *batch)
{
    uint32_t kind, length, words[4];
    if (fread(&kind, 4, 1, stdin) != 1)
        exit(3);
    if (kind == 4)
        burst(engine, batch);
    else if (engine != NULL && kind == 0)
        pass(engine, batch);
    else if (engine != NULL)
        change(engine, kind);
    else if (fread(words, 4, kind == 0 ? 1 : 4, stdin) < 1)
        exit(3);
    else if (kind == 0)
        free(bytes_in(&length));
}

/* Writes the size that a batch needs. */
static void put_size(dpv_t *engine)
{
    GUARDED(dpv_batch_size) size;
    memset(&size, GUARD, sizeof size);
    if (dpv_batch_size(engine, &size.it) != DPV_OK)
        exit(8);
    put64(size.it.records);
    put64(size.it.bytes);
    check_guard(size.after, "dpv_batch_size");
}

static void put_numbers(dpv_t *engine)
{
    GUARDED(dpv_port_stats) port;
    GUARDED(dpv_ring_stats) ring;
    GUARDED(dpv_pool_stats) pool;
    GUARDED(dpv_totals) totals;
    memset(&port, GUARD, sizeof port);
    memset(&ring, GUARD, sizeof ring);
    memset(&pool, GUARD, sizeof pool);
    memset(&totals, GUARD, sizeof totals);
    for (uint32_t k = 0; dpv_port(engine, k, &port.it) == DPV_OK; k++) {
        put64(port.it.received);
        put64(port.it.no_buffer);
        put64(port.it.oversize);
        put64(port.it.sent);
    }
    for (uint32_t k = 0; dpv_ring(engine, k, &ring.it) == DPV_OK; k++)
        put64(ring.it.waiting);
    for (uint32_t k = 0; dpv_pool(engine, k, &pool.it) == DPV_OK; k++) {
        put64(pool.it.free);
        put64(pool.it.count);
    }
    dpv_close(engine, &totals.it);
    put64(totals.it.turns);
    put64(totals.it.calls);
    put64(totals.it.cut);
    put64(totals.it.pools);
    check_guard(port.after, "dpv_port_stats");
    check_guard(ring.after, "dpv_ring_stats");
    check_guard(pool.after, "dpv_pool_stats");
    check_guard(totals.after, "dpv_totals");
}

/* Plays a case. Whether there was one. */
static int play(void)
{
    GUARDED(dpv_reason) reason;
    struct dpv_batch batch;
    uint32_t text_length, packed_length, steps;
    uint8_t *text = bytes_in(&text_length), *packed;
    dpv_t *engine;
    if (text == NULL)
        return 0;
    packed = bytes_in(&packed_length);
    if (packed == NULL)
        exit(3);
    costs();
    if (fread(&steps, 4, 1, stdin) != 1)
        exit(3);
    memset(&reason, GUARD, sizeof reason);
    engine = dpv_open(text, text_length, packed, packed_length, &reason.it);
    check_guard(reason.after, "dpv_reason");
    put32(reason.it.cause);
    put32(reason.it.length);
    fwrite(reason.it.text, 1, reason.it.length, stdout);
    if (engine != NULL && dpv_burst_open(engine, &batch, 4) != DPV_OK)
        exit(6);
    if (engine != NULL)
        put_size(engine);
    for (uint32_t k = 0; k < steps; k++)
        do_step(engine, &batch);
    if (engine != NULL) {
        put_numbers(engine);
        dpv_batch_close(&batch);
        dpv_free(engine);
    }
    free(text);
    free(packed);
    fflush(stdout);
    return 1;
}

int main(void)
{
    while (play()) {
    }
    return 0;
}
