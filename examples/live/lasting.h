/* An engine that lasts. An engine takes at most DPV_MAX_TURNS frames; before its turns run out, the next one takes over between two bursts: with
   the same pipeline and programs, and with the routes of that moment. What waits in the rings of the first is sent before.

   Each engine ends with dpv_close, so the library's promise holds for the frames of each. Calls on one `struct lasting` come from one thread. */
#ifndef LASTING_H
#define LASTING_H

#include "load.h"

#define MAX_PORTS 8
/* How many turns may empty the rings of an engine: 65,535 packets, 32 in a turn, through eight rings. */
#define MAX_DRAIN 16384u
/* The greatest number of frames that a burst has, and the least that an engine takes. */
#define MAX_BURST 64
/* How many frames an engine takes, if the host says no other number. */
#define MAX_FRAMES (DPV_MAX_TURNS - MAX_DRAIN)

/* The last change of a route: whether it was added, or deleted. */
struct change {
    struct dpv_route route;
    int is_added;
};

/* The routes that have changed since the first engine was opened, in order of table, depth and address. */
struct changes {
    struct change *items;
    size_t count, room;
};

struct lasting {
    const struct pipeline *pipeline;
    dpv_t *engine;   /* the one that takes frames */
    dpv_t *next;     /* the one that takes over, or NULL if it is not open yet */
    uint64_t frames; /* how many the engine has taken */
    uint64_t limit;  /* how many each takes at most */
    uint64_t ended;  /* how many engines have ended */
    struct dpv_batch batch;
    struct changes changes;
    struct dpv_port_stats before[MAX_PORTS]; /* the counts of the engines that have ended */
};

/* What the host does with a batch that no frame of its own caused. */
typedef void deliver_batch(void *host, const struct dpv_batch *batch);

/* The place of a route among the changes: its index if it is there, else where it belongs. */
static inline size_t place_of(const struct changes *changes, const struct dpv_route *route)
{
    size_t low = 0, high = changes->count;
    while (low < high) {
        size_t middle = low + (high - low) / 2;
        const struct dpv_route *it = &changes->items[middle].route;
        int is_before = it->table != route->table   ? it->table < route->table
                        : it->depth != route->depth ? it->depth < route->depth
                                                    : it->ip < route->ip;
        if (is_before)
            low = middle + 1;
        else
            high = middle;
    }
    return low;
}

/* Makes room for one change more. */
static inline void grow(struct changes *changes)
{
    if (changes->count < changes->room)
        return;
    changes->room = changes->room * 2 + 64;
    changes->items = (struct change *)realloc(changes->items, changes->room * sizeof *changes->items);
    if (changes->items == NULL)
        die("memory");
}

/* Keeps a change that an engine has made, in place of an earlier one of the same prefix and depth. */
static inline void keep_change(struct changes *changes, struct dpv_route route, int is_added)
{
    size_t place;
    route.ip &= UINT32_MAX << (32 - route.depth);
    place = place_of(changes, &route);
    if (place == changes->count || memcmp(&changes->items[place].route, &route, offsetof(struct dpv_route, hop)) != 0) {
        memmove(&changes->items[place + 1], &changes->items[place], (changes->count - place) * sizeof *changes->items);
        changes->count++;
    }
    changes->items[place].route = route;
    changes->items[place].is_added = is_added;
}

/* Adds or deletes a route in one engine. */
static inline uint32_t make_change(dpv_t *engine, struct dpv_route *route, int is_added)
{
    return is_added ? dpv_route_add(engine, route) : dpv_route_delete(engine, route);
}

/* Adds or deletes a route, now and in all engines to come. Returns what the engine answers. */
static inline uint32_t change_lasting(struct lasting *lasting, struct dpv_route *route, int is_added)
{
    uint32_t answer;
    grow(&lasting->changes);
    answer = make_change(lasting->engine, route, is_added);
    if (answer != DPV_OK)
        return answer;
    keep_change(&lasting->changes, *route, is_added);
    if (lasting->next != NULL)
        (void)make_change(lasting->next, route, is_added);
    return answer;
}

/* Makes these changes in an engine that was just opened: first the deletions, so that there is room for all additions. A route that was added and
   deleted again is not in the pipeline file, so its deletion may be refused. */
static inline void repeat_changes(dpv_t *engine, struct changes *changes)
{
    for (int is_added = 0; is_added < 2; is_added++)
        for (size_t k = 0; k < changes->count; k++) {
            struct change *change = &changes->items[k];
            if (change->is_added == is_added && make_change(engine, &change->route, is_added) != DPV_OK && is_added)
                die("a route was refused by the next engine");
        }
}

/* Opens the first engine, and a batch for it. Each engine takes at most `limit` frames. */
static inline void open_lasting(struct lasting *lasting, const struct pipeline *pipeline, uint64_t limit)
{
    memset(lasting, 0, sizeof *lasting);
    lasting->pipeline = pipeline;
    lasting->limit = limit;
    lasting->engine = open_engine(pipeline);
    if (dpv_batch_open(lasting->engine, &lasting->batch) != DPV_OK)
        die("memory");
}

/* Opens the next engine, with the routes of the present one, if it is not open yet. */
static inline void open_next(struct lasting *lasting)
{
    if (lasting->next != NULL)
        return;
    lasting->next = open_engine(lasting->pipeline);
    repeat_changes(lasting->next, &lasting->changes);
}

/* Opens the next engine if half of the frames are taken. A host calls it in a quiet moment; if it never does, a burst waits for it. */
static inline void prepare_lasting(struct lasting *lasting)
{
    if (lasting->frames >= lasting->limit / 2 && lasting->frames > 0)
        open_next(lasting);
}

/* How many packets wait in the rings of an engine. */
static inline uint64_t count_waiting(dpv_t *engine)
{
    struct dpv_ring_stats stats;
    uint64_t waiting = 0;
    for (uint32_t ring = 0; dpv_ring(engine, ring, &stats) == DPV_OK; ring++)
        waiting += stats.waiting;
    return waiting;
}

/* Runs the programs of rings until nothing waits in them. A frame of DPV_MAX_FRAME bytes is oversize for every port, as 64 segments have no room
   for it and the headroom of the first: so its turn receives nothing, and runs up to 32 packets of rings. Returns how many turns that took. */
static inline uint64_t drain_rings(struct lasting *lasting, uint64_t time, deliver_batch *deliver, void *host)
{
    static const uint8_t oversize[DPV_MAX_FRAME];
    uint64_t turns = 0;
    while (turns < MAX_DRAIN && count_waiting(lasting->engine) > 0) {
        (void)dpv_pass(lasting->engine, 0, oversize, sizeof oversize, time, &lasting->batch);
        deliver(host, &lasting->batch);
        turns++;
    }
    return turns;
}

/* Adds the counts of the engine to those of the engines before it. Turns that emptied rings are no frames of the host. */
static inline void keep_counts(struct lasting *lasting, uint64_t drains)
{
    struct dpv_port_stats stats;
    for (uint32_t port = 0; port < MAX_PORTS && dpv_port(lasting->engine, port, &stats) == DPV_OK; port++) {
        struct dpv_port_stats *before = &lasting->before[port];
        before->received += stats.received;
        before->no_buffer += stats.no_buffer;
        before->oversize += stats.oversize;
        before->sent += stats.sent;
    }
    lasting->before[0].oversize -= drains;
}

/* Before a burst of up to this many frames: lets the next engine take over if the present one has too few turns left. In its last sixteenth it ends
   as soon as its rings are empty, so that all frames are sent in the order of a single engine; at its end they are emptied. What a program keeps
   in a ring for good is freed, and said. */
static inline void renew_lasting(struct lasting *lasting, uint32_t frames, uint64_t time, deliver_batch *deliver, void *host)
{
    uint64_t after = lasting->frames + frames, left;
    if (after <= lasting->limit - lasting->limit / 16 || lasting->frames == 0)
        return;
    if (after <= lasting->limit && count_waiting(lasting->engine) > 0)
        return;
    open_next(lasting);
    keep_counts(lasting, drain_rings(lasting, time, deliver, host));
    left = count_waiting(lasting->engine);
    if (left > 0)
        printf("engine ended with %llu packets in rings\n", (unsigned long long)left);
    close_engine(lasting->engine);
    lasting->engine = lasting->next;
    lasting->next = NULL;
    lasting->frames = 0;
    lasting->ended++;
}

/* Passes in a frame, and fills the batch. */
static inline uint32_t pass_lasting(struct lasting *lasting, uint32_t port, const uint8_t *frame, size_t length, uint64_t time)
{
    lasting->frames++;
    return dpv_pass(lasting->engine, port, frame, length, time, &lasting->batch);
}

/* Ends the last engine. */
static inline void close_lasting(struct lasting *lasting)
{
    dpv_batch_close(&lasting->batch);
    if (lasting->next != NULL) {
        struct dpv_totals unused;
        dpv_close(lasting->next, &unused);
        dpv_free(lasting->next);
    }
    close_engine(lasting->engine);
    free(lasting->changes.items);
}

#endif
