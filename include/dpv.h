/* dpv.h: an engine of dpv inside a program in C or C++. C99; link libdpv.a.

   dpv_open loads a pipeline file and opens its engine. Each dpv_pass takes one frame that a port received and returns all frames
   that the pipeline sends for it. dpv_close ends the engine. The library opens no socket, and after dpv_open only dpv_batch_open and
   dpv_burst_open allocate memory. dpv_cost, which needs no engine, bounds what a program can cost, before it is let in.

   What can be tested is tested: a refused call returns the reason, by one of the names below, and changes nothing, except that a refused
   dpv_pass or dpv_batch_open leaves the batch empty.
   What cannot be tested is up to the caller:
   1. only these calls use the memory of an engine, from dpv_open to dpv_free, and nobody moves it;
   2. there is one call at a time on one engine, on the thread that opened it, and none from a signal handler or a forked child;
   3. each pointer points to as much memory as the call says, which nobody else reads or writes during the call;
   4. malloc, realloc and free belong to one allocator, and align each block to 16 bytes, or to its size where that is less. */
#ifndef DPV_H
#define DPV_H

#include <stddef.h>
#include <stdint.h>
#include <stdlib.h>
#include <string.h>

#ifdef __cplusplus
extern "C" {
/* (dpv_cost and dpv_batch_size are both a call and a struct: of these g++ -Wshadow warns) */
#ifdef __GNUC__
#pragma GCC diagnostic push
#pragma GCC diagnostic ignored "-Wshadow"
#endif
#endif

/* An engine. */
typedef struct dpv dpv_t;

/* The results of calls. */
enum dpv_answer {
    DPV_OK = 0,               /* done */
    DPV_RECEIVED = 0,         /* dpv_pass: the frame was received, and the port's program ran */
    DPV_NO_BUFFER = 1,        /* dpv_pass: the frame was dropped, too few buffers of the port's pool are free */
    DPV_OVERSIZE = 2,         /* dpv_pass: the frame was dropped, it needs more segments than the port takes */
    /* From here on: the call was refused, and the engine has not changed. */
    DPV_NOT_OPEN = 16,        /* the pipeline was not loaded: dpv_why has the reason */
    DPV_CLOSED = 17,          /* the engine was closed */
    DPV_NO_PORT = 18,         /* no such port */
    DPV_NO_POOL = 19,         /* no such pool */
    DPV_NO_RING = 20,         /* no such ring */
    DPV_TOO_LONG = 21,        /* the frame has more than DPV_MAX_FRAME bytes */
    DPV_NO_TURNS = 22,        /* the engine has taken DPV_MAX_TURNS frames */
    DPV_BATCH_TOO_SMALL = 23, /* the batch is smaller than dpv_batch_size says */
    DPV_NO_TABLE = 24,        /* no such table */
    DPV_BAD_DEPTH = 25,       /* the depth is not 1 to 32 */
    DPV_BAD_HOP = 26,         /* the hop is above 16777215 */
    DPV_RULES_FULL = 27,      /* the table has as many routes as it was made for */
    DPV_GROUPS_FULL = 28,     /* the route is deeper than 24 bits, and no group is left for it */
    DPV_NO_RULE = 29,         /* the table has no such route */
    DPV_NO_ROUTE = 30,        /* no route of the table is for the address */
    DPV_NO_PROGRAM = 31,      /* the text is not a program */
    DPV_NO_MEMORY = 32        /* memory was refused */
};

#define DPV_MAX_FRAME 262144u                           /* bytes of a frame */
#define DPV_MAX_TURNS UINT64_C(1099511627776)           /* frames that one engine takes */
#define DPV_MAX_REASON 128                              /* bytes of a reason's text */

/* A record that a port sent: bytes[offset .. offset + length] of the batch. */
struct dpv_record {
    uint64_t time;   /* that of the pass */
    uint64_t offset; /* where its bytes begin */
    uint32_t port;   /* the port that sent it */
    uint32_t length; /* how many bytes it has */
};

/* The size that a batch needs, or the part of one that is filled. */
struct dpv_batch_size {
    uint64_t records; /* records */
    uint64_t bytes;   /* their bytes in all */
};

/* What one pass sent: records[0 .. filled.records], port by port, each port's in the order of sending, and their bytes in
   bytes[0 .. filled.bytes]. The caller owns both arrays; a pass changes nothing else of them. */
struct dpv_batch {
    struct dpv_record *records;
    uint8_t *bytes;
    struct dpv_batch_size room;
    struct dpv_batch_size filled;
};

/* A frame of a burst. The caller sets the first three; a burst sets the others. */
struct dpv_frame {
    const uint8_t *bytes;
    size_t length;
    uint64_t time;    /* when it was received, in the caller's unit */
    uint64_t first;   /* where its records begin in the batch */
    uint64_t records; /* how many they are */
    uint32_t answer;  /* as that of dpv_pass */
};

/* Why a pipeline was not loaded. cause is 0 (it was loaded), 1 (memory was refused), 2 (the packed files), 3 (the region is too small), or
   10 plus the cause that `dpv check` names, 11 to 19. From 11 to 17 the text is what `dpv check` prints after `fault: pipeline`; with 18 and
   19 it is the line that `dpv check` prints of the node; or `memory`, if there was none for the text. Zeros follow it, at least one. */
struct dpv_reason {
    uint32_t cause;
    uint32_t length;
    char text[DPV_MAX_REASON];
};

/* The counts of a port, in frames. */
struct dpv_port_stats {
    uint64_t received;
    uint64_t no_buffer;
    uint64_t oversize;
    uint64_t sent;
};

/* The counts of a pool, in buffers. */
struct dpv_pool_stats {
    uint64_t free;
    uint64_t count;
};

/* The counts of a ring, in packets. */
struct dpv_ring_stats {
    uint64_t waiting;
};

/* A route of a table. */
struct dpv_route {
    uint32_t table; /* its number, from 0 */
    uint32_t ip;    /* the address as a number, 0x0a010203 for 10.1.2.3; its bits below the depth are ignored */
    uint32_t depth; /* how many of the first bits count, 1 to 32 */
    uint32_t hop;   /* up to 16777215; a deletion ignores it */
};

/* The hop of an address. */
struct dpv_hop {
    uint32_t hop; /* that of the deepest route */
};

/* What a run of a program can cost. A frame costs at most the steps of its port's program, and 32 times the most steps of a ring's. */
struct dpv_cost {
    uint32_t steps;      /* the greatest number of instructions that one run takes, whatever packet comes: 1 to 263168 */
    uint32_t jumps_back; /* 1 if the program can jump back, and then steps is 257 times its length; else 0, and steps is its longest way */
    uint32_t label;      /* the first instruction, from 0, that can jump back; else 0 */
};

/* The counts of a closed engine. */
struct dpv_totals {
    uint64_t turns; /* frames that were passed in */
    uint64_t calls; /* allocation calls: one for each frame that was not oversize, each `alloc` and each `clone` */
    uint64_t cut;   /* node runs that were cut */
    uint64_t pools; /* pools, each of which has all its buffers then */
};

/* The bytes that an engine needs in the caller's memory, apart from its region. Align them to 16. */
size_t dpv_size(void);
/* Gets what a run of the program in this text can cost; it needs no engine, and keeps no memory. DPV_OK, DPV_NO_PROGRAM or DPV_NO_MEMORY. */
uint32_t dpv_cost(const uint8_t *text, size_t length, struct dpv_cost *cost);
/* Opens an engine in memory of dpv_size() bytes; dpv_open calls it. If it opens none, dpv_why has the reason, and all later calls but
   dpv_why return DPV_NOT_OPEN. */
void dpv_begin(dpv_t *engine, const uint8_t *toml, size_t toml_length, const uint8_t *packed, size_t packed_length);
/* Passes in a frame; dpv_pass calls it. `filled` is set to what of the arrays was filled: nothing, if the call is refused. */
uint32_t dpv_pass_into(dpv_t *engine, uint32_t port, uint64_t time, const uint8_t *frame, size_t length, struct dpv_record *records,
                       size_t max_records, uint8_t *bytes, size_t max_bytes, struct dpv_batch_size *filled);
/* Passes in the frames of a burst; dpv_pass_burst calls it. `filled` is set to what of the arrays was filled by all of them. */
void dpv_burst_into(dpv_t *engine, uint32_t port, struct dpv_frame *frames, size_t count, struct dpv_record *records, size_t max_records,
                    uint8_t *bytes, size_t max_bytes, struct dpv_batch_size *filled);

/* Gets the reason why the pipeline was not loaded; for an engine that is open or closed, cause is 0. DPV_OK. */
uint32_t dpv_why(dpv_t *engine, struct dpv_reason *reason);
/* Gets the size that a batch needs. DPV_OK, DPV_NOT_OPEN or DPV_CLOSED. */
uint32_t dpv_batch_size(dpv_t *engine, struct dpv_batch_size *size);
/* Get the counts so far of a port, a pool or a ring, all numbered from 0. DPV_OK, DPV_NOT_OPEN, DPV_CLOSED, or DPV_NO_PORT, .._POOL, .._RING. */
uint32_t dpv_port(dpv_t *engine, uint32_t port, struct dpv_port_stats *stats);
uint32_t dpv_pool(dpv_t *engine, uint32_t pool, struct dpv_pool_stats *stats);
uint32_t dpv_ring(dpv_t *engine, uint32_t ring, struct dpv_ring_stats *stats);
/* Add or delete a route of a table, between two passes: the next pass has the change, and nothing else changes. An addition replaces the hop
   where the table has a route of this address and depth. `route` is only read, and no memory is taken. DPV_OK, DPV_NOT_OPEN, DPV_CLOSED,
   DPV_NO_TABLE, DPV_BAD_DEPTH; of an addition DPV_BAD_HOP, DPV_RULES_FULL, DPV_GROUPS_FULL; of a deletion DPV_NO_RULE. */
uint32_t dpv_route_add(dpv_t *engine, struct dpv_route *route);
uint32_t dpv_route_delete(dpv_t *engine, struct dpv_route *route);
/* Gets the hop that a program's `lookup` would find now. DPV_OK, DPV_NOT_OPEN, DPV_CLOSED, DPV_NO_TABLE or DPV_NO_ROUTE. */
uint32_t dpv_route_lookup(dpv_t *engine, uint32_t table, uint32_t ip, struct dpv_hop *hop);
/* Ends the engine: frees the packets in rings, so every buffer is back in its pool, and frees the region's memory. All later calls
   but dpv_why return DPV_CLOSED. DPV_OK, DPV_NOT_OPEN or DPV_CLOSED. */
uint32_t dpv_close(dpv_t *engine, struct dpv_totals *totals);

/* Packs a file that the pipeline names: writes it at `to`, and returns the number of bytes that it takes. With NULL it writes nothing. */
static inline size_t dpv_pack(uint8_t *to, const char *name, const uint8_t *bytes, size_t length)
{
    uint32_t lengths[2];
    uint8_t head[8];
    int k;
    lengths[0] = (uint32_t)strlen(name);
    lengths[1] = (uint32_t)length;
    for (k = 0; k < 8; k++)
        head[k] = (uint8_t)(lengths[k / 4] >> 8 * (k % 4));
    if (to != NULL) {
        memcpy(to, head, 8);
        memcpy(to + 8, name, lengths[0]);
        if (length != 0)
            memcpy(to + 8 + lengths[0], bytes, length);
    }
    return 8 + (size_t)lengths[0] + length;
}

/* Opens an engine for a pipeline file and the files that it names, packed one after the other, at most 64, with names in UTF-8. NULL if it
   is not loaded; the reason says why. Free it by dpv_free after dpv_close. */
static inline dpv_t *dpv_open(const uint8_t *toml, size_t toml_length, const uint8_t *packed, size_t packed_length, struct dpv_reason *reason)
{
    dpv_t *engine = (dpv_t *)malloc((dpv_size() + 15) / 16 * 16);
    memset(reason, 0, sizeof *reason);
    if (engine == NULL) {
        reason->cause = 1;
        reason->length = 6;
        memcpy(reason->text, "memory", 6);
        return NULL;
    }
    dpv_begin(engine, toml, toml_length, packed, packed_length);
    dpv_why(engine, reason);
    if (reason->cause == 0)
        return engine;
    free(engine);
    return NULL;
}

/* Frees the memory of a closed engine. */
static inline void dpv_free(dpv_t *engine)
{
    free(engine);
}

/* Makes a batch that is large enough for bursts of this many frames of an engine, at least 1. It is filled from the front, so memory that no
   burst fills is never touched. DPV_OK; or DPV_NOT_OPEN, DPV_CLOSED, or 1 (here not DPV_NO_BUFFER) if there is no memory, and then the batch
   has no arrays. */
static inline uint32_t dpv_burst_open(dpv_t *engine, struct dpv_batch *batch, uint32_t frames)
{
    uint32_t answer;
    memset(batch, 0, sizeof *batch);
    answer = dpv_batch_size(engine, &batch->room);
    if (answer != DPV_OK)
        return answer;
    batch->room.records *= frames;
    batch->room.bytes *= frames;
    batch->records = (struct dpv_record *)malloc((size_t)batch->room.records * sizeof *batch->records);
    batch->bytes = (uint8_t *)malloc((size_t)batch->room.bytes + 1);
    if (batch->records != NULL && batch->bytes != NULL)
        return DPV_OK;
    free(batch->records);
    free(batch->bytes);
    memset(batch, 0, sizeof *batch);
    return 1;
}

/* Makes a batch that is large enough for each pass of an engine, as a burst of one frame. */
static inline uint32_t dpv_batch_open(dpv_t *engine, struct dpv_batch *batch)
{
    return dpv_burst_open(engine, batch, 1);
}

/* Frees the memory of a batch. */
static inline void dpv_batch_close(struct dpv_batch *batch)
{
    free(batch->records);
    free(batch->bytes);
    memset(batch, 0, sizeof *batch);
}

/* Passes in a frame that a port received at a time, in the caller's unit, and fills the batch with all frames that the pipeline sends
   for it. DPV_RECEIVED, DPV_NO_BUFFER or DPV_OVERSIZE; or the reason for a refusal, and then the batch is empty: DPV_NOT_OPEN, DPV_CLOSED,
   DPV_NO_PORT, DPV_TOO_LONG, DPV_NO_TURNS or DPV_BATCH_TOO_SMALL. */
static inline uint32_t dpv_pass(dpv_t *engine, uint32_t port, const uint8_t *frame, size_t length, uint64_t time, struct dpv_batch *batch)
{
    return dpv_pass_into(engine, port, time, frame, length, batch->records, (size_t)batch->room.records, batch->bytes,
                         (size_t)batch->room.bytes, &batch->filled);
}

/* Passes in the frames of one port, in order: for each what dpv_pass does, with its time, into what those before it left of the batch. Each
   frame gets its answer, and says where its records are; batch->filled is that of all of them, and each offset is one in batch->bytes. A
   frame for which less room is left than dpv_batch_size says is refused as DPV_BATCH_TOO_SMALL, and can be passed in again. */
static inline void dpv_pass_burst(dpv_t *engine, uint32_t port, struct dpv_frame *frames, size_t count, struct dpv_batch *batch)
{
    dpv_burst_into(engine, port, frames, count, batch->records, (size_t)batch->room.records, batch->bytes, (size_t)batch->room.bytes,
                   &batch->filled);
}

#ifdef __cplusplus
#ifdef __GNUC__
#pragma GCC diagnostic pop
#endif
}
#endif

#endif
