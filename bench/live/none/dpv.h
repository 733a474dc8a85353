/* dpv.h without an engine, for bench/live.py: what comes to a port goes out at its neighbour as it is, 0 to 1, 1 to 0 and so on. A host of
   examples/live that is compiled over it is the same loop with no engine. */
#ifndef DPV_H
#define DPV_H

#include <stddef.h>
#include <stdint.h>
#include <stdlib.h>
#include <string.h>

#define PORTS 2
#define DPV_MAX_FRAME 262144u
#define DPV_MAX_TURNS UINT64_C(1099511627776)

enum {
    DPV_OK, DPV_RECEIVED = 0, DPV_NO_PORT = 18, DPV_TOO_LONG = 21, DPV_NO_TURNS, DPV_NO_TABLE = 24, DPV_BAD_DEPTH, DPV_BAD_HOP, DPV_RULES_FULL,
    DPV_GROUPS_FULL, DPV_NO_RULE, DPV_NO_MEMORY = 32
};

typedef struct { uint64_t received[PORTS]; } dpv_t;
struct dpv_record { uint64_t time, offset; uint32_t port, length; };
struct dpv_batch_size { uint64_t records, bytes; };
struct dpv_batch { struct dpv_record *records; uint8_t *bytes; struct dpv_batch_size room, filled; struct dpv_record only; };
struct dpv_reason { uint32_t cause, length; char text[1]; };
struct dpv_port_stats { uint64_t received, no_buffer, oversize, sent; };
struct dpv_pool_stats { uint64_t free, count; };
struct dpv_ring_stats { uint64_t waiting; };
struct dpv_totals { uint64_t turns, calls, cut, pools; };
struct dpv_route { uint32_t table, ip, depth, hop; };
struct dpv_cost { uint32_t steps, jumps_back, label; };

static inline uint32_t dpv_cost(const uint8_t *text, size_t length, struct dpv_cost *cost)
{
    (void)text, (void)length;
    memset(cost, 0, sizeof *cost);
    return DPV_OK;
}

static inline size_t dpv_pack(uint8_t *to, const char *name, const uint8_t *bytes, size_t length)
{
    (void)to, (void)name, (void)bytes, (void)length;
    return 1;
}

static inline dpv_t *dpv_open(const uint8_t *toml, size_t toml_length, const uint8_t *packed, size_t packed_length, struct dpv_reason *reason)
{
    (void)toml, (void)toml_length, (void)packed, (void)packed_length;
    memset(reason, 0, sizeof *reason);
    return (dpv_t *)calloc(1, sizeof(dpv_t));
}

static inline void dpv_free(dpv_t *engine)
{
    free(engine);
}

static inline uint32_t dpv_port(dpv_t *engine, uint32_t port, struct dpv_port_stats *stats)
{
    if (port >= PORTS)
        return DPV_NO_PORT;
    memset(stats, 0, sizeof *stats);
    stats->received = engine->received[port];
    stats->sent = engine->received[port ^ 1];
    return DPV_OK;
}

static inline uint32_t dpv_ring(dpv_t *engine, uint32_t ring, struct dpv_ring_stats *stats)
{
    (void)engine, (void)ring, (void)stats;
    return DPV_NO_PORT;
}

static inline uint32_t dpv_pool(dpv_t *engine, uint32_t pool, struct dpv_pool_stats *stats)
{
    (void)engine, (void)pool, (void)stats;
    return DPV_NO_PORT;
}

static inline uint32_t dpv_route_add(dpv_t *engine, struct dpv_route *route)
{
    (void)engine, (void)route;
    return DPV_NO_TABLE;
}

static inline uint32_t dpv_route_delete(dpv_t *engine, struct dpv_route *route)
{
    (void)engine, (void)route;
    return DPV_NO_TABLE;
}

static inline uint32_t dpv_close(dpv_t *engine, struct dpv_totals *totals)
{
    memset(totals, 0, sizeof *totals);
    totals->turns = engine->received[0] + engine->received[1];
    return DPV_OK;
}

static inline uint32_t dpv_batch_open(dpv_t *engine, struct dpv_batch *batch)
{
    (void)engine;
    memset(batch, 0, sizeof *batch);
    return DPV_OK;
}

static inline void dpv_batch_close(struct dpv_batch *batch)
{
    (void)batch;
}

static inline uint32_t dpv_pass(dpv_t *engine, uint32_t port, const uint8_t *frame, size_t length, uint64_t time, struct dpv_batch *batch)
{
    batch->only = (struct dpv_record){.time = time, .port = port ^ 1, .length = (uint32_t)length};
    batch->records = &batch->only;
    batch->bytes = (uint8_t *)frame;
    batch->filled.records = 1;
    engine->received[port]++;
    return DPV_RECEIVED;
}

#endif
