/* wrong_callers PIPELINE NODE..: makes calls that nobody should make, and compares what each answers; for tests/library/host.py.
   PIPELINE has one pool, two ports, no ring and no table, and each of NODE is a file that it names. */
#include <stdlib.h>

/* How many more times the inline functions of dpv.h get memory; always, if it is below 0. */
static int granted = -1;

static void *limited(size_t size)
{
    if (granted == 0)
        return NULL;
    granted -= granted > 0;
    return malloc(size);
}

#define malloc limited
#include "dpv.h"
#undef malloc
#include <stdio.h>

static int wrong;

static void expect(uint32_t came, uint32_t wanted, const char *what)
{
    if (came != wanted) {
        printf("%s: answered %u and not %u\n", what, came, wanted);
        wrong = 1;
    }
}

static uint8_t *whole(const char *name, size_t *length)
{
    static uint8_t bytes[1 << 20];
    FILE *file = fopen(name, "rb");
    if (file == NULL)
        exit(3);
    *length = fread(bytes, 1, sizeof bytes, file);
    fclose(file);
    return bytes;
}

/* Calls on an engine that is open, each with something that is not there. */
static void call_wrongly(dpv_t *engine, struct dpv_batch *batch)
{
    static uint8_t frame[DPV_MAX_FRAME + 1];
    struct dpv_batch small = *batch;
    struct dpv_port_stats port, before;
    struct dpv_ring_stats ring;
    struct dpv_pool_stats pool;
    struct dpv_reason reason;
    struct dpv_route route = {0, 0x0a000000, 8, 1};
    struct dpv_hop hop = {77};
    expect(dpv_port(engine, 0, &before), DPV_OK, "port 0");
    expect(dpv_port(engine, 2, &port), DPV_NO_PORT, "port 2");
    expect(dpv_port(engine, UINT32_MAX, &port), DPV_NO_PORT, "port 2^32 - 1");
    expect(dpv_pool(engine, 1, &pool), DPV_NO_POOL, "pool 1");
    expect(dpv_ring(engine, 0, &ring), DPV_NO_RING, "ring 0");
    expect(dpv_route_add(engine, &route), DPV_NO_TABLE, "a route for table 0");
    expect(dpv_route_delete(engine, &route), DPV_NO_TABLE, "a route of table 0");
    expect(dpv_route_lookup(engine, 0, 0x0a000001, &hop), DPV_NO_TABLE, "a look-up in table 0");
    expect(dpv_route_lookup(engine, UINT32_MAX, 0x0a000001, &hop), DPV_NO_TABLE, "a look-up in table 2^32 - 1");
    expect(hop.hop, 77, "the hop of a look-up that was refused");
    expect(dpv_pass(engine, 2, frame, 60, 0, batch), DPV_NO_PORT, "a frame at port 2");
    expect(dpv_pass(engine, 256, frame, 60, 0, batch), DPV_NO_PORT, "a frame at port 256");
    expect(dpv_pass(engine, 0, frame, DPV_MAX_FRAME + 1, 0, batch), DPV_TOO_LONG, "a frame that is too long");
    small.room.records = batch->room.records - 1;
    expect(dpv_pass(engine, 0, frame, 60, 0, &small), DPV_BATCH_TOO_SMALL, "a batch with a record less");
    small.room = batch->room;
    small.room.bytes = batch->room.bytes - 1;
    expect(dpv_pass(engine, 0, frame, 60, 0, &small), DPV_BATCH_TOO_SMALL, "a batch with a byte less");
    expect((uint32_t)small.filled.records, 0, "records of a refused frame");
    expect(dpv_port(engine, 0, &port), DPV_OK, "port 0");
    expect((uint32_t)memcmp(&port, &before, sizeof port) != 0, 0, "numbers after calls that were refused");
    expect(dpv_why(engine, &reason), DPV_OK, "why");
    expect(reason.cause, 0, "the cause of an engine that is open");
}

/* Calls on an engine that was closed. */
static void call_late(dpv_t *engine, struct dpv_batch *batch)
{
    uint8_t frame[60] = {0};
    struct dpv_port_stats port;
    struct dpv_pool_stats pool;
    struct dpv_ring_stats ring;
    struct dpv_totals totals;
    struct dpv_batch_size size;
    struct dpv_route route = {0, 0x0a000000, 8, 1};
    struct dpv_hop hop = {77};
    expect(dpv_route_add(engine, &route), DPV_CLOSED, "a route after close");
    expect(dpv_route_delete(engine, &route), DPV_CLOSED, "a deletion after close");
    expect(dpv_route_lookup(engine, 0, 0x0a000001, &hop), DPV_CLOSED, "a look-up after close");
    expect(dpv_pass(engine, 0, frame, sizeof frame, 0, batch), DPV_CLOSED, "a frame after close");
    expect((uint32_t)batch->filled.records, 0, "records after close");
    expect(dpv_port(engine, 0, &port), DPV_CLOSED, "a port after close");
    expect(dpv_pool(engine, 0, &pool), DPV_CLOSED, "a pool after close");
    expect(dpv_ring(engine, 0, &ring), DPV_CLOSED, "a ring after close");
    expect(dpv_batch_size(engine, &size), DPV_CLOSED, "a batch after close");
    expect(dpv_close(engine, &totals), DPV_CLOSED, "close after close");
}

/* Expects that a batch which was not opened has nothing. */
static void expect_none(const struct dpv_batch *batch, const char *what)
{
    struct dpv_batch none;
    memset(&none, 0, sizeof none);
    expect(batch->records != NULL || batch->bytes != NULL, 0, what);
    expect((uint32_t)(memcmp(&batch->room, &none.room, sizeof none.room) != 0), 0, what);
    expect((uint32_t)(memcmp(&batch->filled, &none.filled, sizeof none.filled) != 0), 0, what);
}

/* What is opened where malloc refuses its first or its second call: nothing, and nothing is left of it. */
static void call_without_memory(const uint8_t *text, size_t text_length, const uint8_t *packed, size_t packed_length)
{
    struct dpv_reason reason;
    struct dpv_batch batch;
    struct dpv_totals totals;
    dpv_t *engine;
    memset(&reason, 0xa5, sizeof reason);
    granted = 0;
    expect(dpv_open(text, text_length, packed, packed_length, &reason) != NULL, 0, "an engine without memory");
    granted = -1;
    expect(reason.cause, 1, "the cause without memory");
    expect(reason.length, 6, "the length of its text");
    expect((uint32_t)(memcmp(reason.text, "memory\0", 8) != 0 || reason.text[DPV_MAX_REASON - 1] != 0), 0, "its text, and zeros");
    engine = dpv_open(text, text_length, packed, packed_length, &reason);
    if (engine == NULL)
        exit(3);
    for (int calls = 0; calls < 2; calls++) {
        memset(&batch, 0xa5, sizeof batch);
        granted = calls;
        expect(dpv_burst_open(engine, &batch, 3), 1, "a batch without memory");
        granted = -1;
        expect_none(&batch, "a batch without memory has nothing");
    }
    expect(dpv_close(engine, &totals), DPV_OK, "close");
    memset(&batch, 0xa5, sizeof batch);
    expect(dpv_batch_open(engine, &batch), DPV_CLOSED, "a batch of an engine that was closed");
    expect_none(&batch, "a batch of an engine that was closed has nothing");
    dpv_free(engine);
}

/* A pipeline whose first file is not packed: the cause is the file's, and not lack of memory. */
static void call_without_files(const uint8_t *text, size_t text_length, const uint8_t *packed)
{
    struct dpv_reason reason;
    memset(&reason, 0xa5, sizeof reason);
    expect(dpv_open(text, text_length, packed, 0, &reason) != NULL, 0, "an engine without files");
    expect(reason.cause, 15, "the cause without files");
    expect(reason.length, 13, "the length of its text");
    expect((uint32_t)(memcmp(reason.text, "5 File port 0\0", 15) != 0), 0, "its text");
}

/* Calls on an engine whose pipeline was not loaded. */
static void call_unopened(void)
{
    dpv_t *engine = (dpv_t *)malloc((dpv_size() + 15) / 16 * 16);
    static const uint8_t text[] = "region = ";
    uint8_t frame[60] = {0};
    struct dpv_reason reason;
    struct dpv_record record;
    struct dpv_batch batch;
    struct dpv_port_stats port;
    struct dpv_pool_stats pool;
    struct dpv_ring_stats ring;
    struct dpv_totals totals;
    struct dpv_route route = {0, 0x0a000000, 8, 1};
    struct dpv_hop hop = {77};
    if (engine == NULL)
        exit(3);
    dpv_begin(engine, text, sizeof text - 1, frame, 0);
    memset(&batch, 0xa5, sizeof batch);
    expect(dpv_batch_open(engine, &batch), DPV_NOT_OPEN, "a batch of no pipeline");
    expect_none(&batch, "a batch of no pipeline has nothing");
    batch.records = &record;
    batch.bytes = frame;
    batch.room.records = batch.room.bytes = 1;
    batch.filled.records = 7;
    expect(dpv_pass(engine, 0, frame, sizeof frame, 0, &batch), DPV_NOT_OPEN, "a frame");
    expect((uint32_t)batch.filled.records, 0, "records of no pipeline");
    expect(dpv_port(engine, 0, &port), DPV_NOT_OPEN, "a port");
    expect(dpv_pool(engine, 0, &pool), DPV_NOT_OPEN, "a pool");
    expect(dpv_ring(engine, 0, &ring), DPV_NOT_OPEN, "a ring");
    expect(dpv_route_add(engine, &route), DPV_NOT_OPEN, "a route");
    expect(dpv_route_delete(engine, &route), DPV_NOT_OPEN, "a deletion");
    expect(dpv_route_lookup(engine, 0, 0x0a000001, &hop), DPV_NOT_OPEN, "a look-up");
    expect(hop.hop, 77, "the hop of that look-up");
    expect(dpv_close(engine, &totals), DPV_NOT_OPEN, "close");
    expect(dpv_why(engine, &reason), DPV_OK, "why");
    expect(reason.cause, 11, "the cause of a text that is not TOML");
    dpv_free(engine);
}

int main(int argc, char **argv)
{
    static uint8_t text[1 << 20], packed[1 << 20];
    size_t text_length, packed_length = 0, length;
    struct dpv_reason reason;
    struct dpv_batch batch;
    struct dpv_totals totals;
    uint8_t frame[60] = {0};
    uint8_t *bytes = whole(argv[1], &text_length);
    memcpy(text, bytes, text_length);
    for (int k = 2; k < argc; k++) {
        bytes = whole(argv[k], &length);
        packed_length += dpv_pack(packed + packed_length, argv[k], bytes, length);
    }
    for (int round = 0; round < 3; round++) {
        dpv_t *engine = dpv_open(text, text_length, packed, packed_length, &reason);
        if (engine == NULL)
            return printf("not opened: %.*s\n", (int)reason.length, reason.text), 1;
        expect(dpv_batch_open(engine, &batch), DPV_OK, "a batch");
        for (int k = 0; k < 300; k++)
            expect(dpv_pass(engine, (uint32_t)k % 2, frame, sizeof frame, 0, &batch), DPV_RECEIVED, "a frame");
        call_wrongly(engine, &batch);
        expect(dpv_close(engine, &totals), DPV_OK, "close");
        expect((uint32_t)totals.turns, 300, "turns");
        expect((uint32_t)totals.pools, 1, "pools with all their buffers");
        call_late(engine, &batch);
        dpv_batch_close(&batch);
        dpv_free(engine);
    }
    call_without_memory(text, text_length, packed, packed_length);
    call_without_files(text, text_length, packed);
    call_unopened();
    /* Files that are cut at each byte: none of them opens, and each says why. */
    for (size_t cut = 0; cut < packed_length; cut++) {
        dpv_t *engine = dpv_open(text, text_length, packed, cut, &reason);
        expect(engine != NULL, 0, "an engine of packed files that are cut");
        expect(reason.cause == 0 || reason.length == 0 || reason.length >= DPV_MAX_REASON, 0, "the reason of packed files that are cut");
        expect(reason.text[reason.length], 0, "what follows the text of a reason");
    }
    printf("wrong callers: %s\n", wrong ? "not as they have to be" : "as they have to be");
    return wrong;
}
