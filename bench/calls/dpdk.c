// The same benches over DPDK: dpdk NAME ROUNDS. It prints what the bench answers, and fails where that is 0 of some rounds.
#include <stdint.h>
#include <stdio.h>
#include <stdlib.h>
#include <string.h>

#include <rte_eal.h>
#include <rte_lpm.h>
#include <rte_malloc.h>
#include <rte_mbuf.h>
#include <rte_mempool.h>
#include <rte_ring.h>

#define OTHERS 10000
#define PLACES 1024
#define BULK 32
#define OBJECTS 8191
#define MBUFS 400
#define FRONT 16
#define RECEIVED 60
#define MAX_RULES 65536
#define GROUPS 256
#define RULES 60000

// Numbers that look random, the same as in the library.
static inline uint32_t next(uint64_t *state) {
    *state = *state * 6364136223846793005u + 1442695040888963407u;
    return *state >> 32;
}

static uint32_t blocks(int count, uint32_t rounds) {
    static void *others[OTHERS];
    for (int k = 0; k < count; k++) others[k] = rte_malloc(NULL, 64, 0);
    uint32_t served = 0;
    for (uint32_t k = 0; k < rounds; k++) {
        void *block = rte_malloc(NULL, 64, 0);
        if (block) {
            rte_free(block);
            served++;
        }
    }
    for (int k = 0; k < count; k++) rte_free(others[k]);
    return served;
}

// A number in and out, in a function of its own, as in the library.
__attribute__((noinline)) static int one(struct rte_ring *ring, uint32_t number) {
    void *out = NULL;
    return rte_ring_sp_enqueue(ring, (void *)(uintptr_t)number) == 0 && rte_ring_sc_dequeue(ring, &out) == 0 && (uintptr_t)out == number;
}

__attribute__((noinline)) static int bulk(struct rte_ring *ring, void *numbers[BULK]) {
    return rte_ring_sp_enqueue_bulk(ring, numbers, BULK, NULL) && rte_ring_sc_dequeue_bulk(ring, numbers, BULK, NULL);
}

__attribute__((noinline)) static int pair(struct rte_mempool *pool) {
    void *object;
    if (rte_mempool_get(pool, &object) != 0) return 0;
    rte_mempool_put(pool, object);
    return 1;
}

__attribute__((noinline)) static int pair_of_bulks(struct rte_mempool *pool, void *objects[BULK]) {
    if (rte_mempool_get_bulk(pool, objects, BULK) != 0) return 0;
    rte_mempool_put_bulk(pool, objects, BULK);
    return 1;
}

__attribute__((noinline)) static int is_routed(struct rte_lpm *table, uint32_t ip) {
    uint32_t hop;
    return rte_lpm_lookup(table, ip, &hop) == 0;
}

static struct rte_ring *ring_of(void) {
    return rte_ring_create("ring", PLACES, SOCKET_ID_ANY, RING_F_SP_ENQ | RING_F_SC_DEQ);
}

static uint32_t one_by_one(uint32_t rounds) {
    struct rte_ring *ring = ring_of();
    uint32_t moved = 0;
    for (uint32_t k = 0; k < rounds; k++) moved += one(ring, k);
    rte_ring_free(ring);
    return moved;
}

static uint32_t in_bulk(uint32_t rounds) {
    struct rte_ring *ring = ring_of();
    void *numbers[BULK];
    for (int k = 0; k < BULK; k++) numbers[k] = (void *)7;
    uint32_t moved = 0;
    for (uint32_t k = 0; k < rounds; k++) moved += bulk(ring, numbers);
    rte_ring_free(ring);
    return moved;
}

// The flags 0 give the default ring, for many producers and many consumers.
static uint32_t pairs(unsigned cache, unsigned flags, uint32_t rounds) {
    struct rte_mempool *pool = rte_mempool_create("pool", OBJECTS, 64, cache, 0, NULL, NULL, NULL, NULL, SOCKET_ID_ANY, flags);
    if (!pool) return 0;
    uint32_t served = 0;
    for (uint32_t k = 0; k < rounds; k++) served += pair(pool);
    rte_mempool_free(pool);
    return served;
}

static uint32_t pool_bulks(uint32_t rounds) {
    struct rte_mempool *pool = rte_mempool_create("pool", OBJECTS, 64, 256, 0, NULL, NULL, NULL, NULL, SOCKET_ID_ANY, 0);
    if (!pool) return 0;
    void *objects[BULK];
    uint32_t served = 0;
    for (uint32_t k = 0; k < rounds; k++) served += pair_of_bulks(pool, objects);
    rte_mempool_free(pool);
    return served;
}

__attribute__((noinline)) static int taken(struct rte_mempool *pool) {
    struct rte_mbuf *packet = rte_pktmbuf_alloc(pool);
    if (!packet) return 0;
    rte_pktmbuf_free(packet);
    return 1;
}

__attribute__((noinline)) static int cloned(struct rte_mempool *pool, struct rte_mbuf *packet) {
    struct rte_mbuf *clone = rte_pktmbuf_clone(packet, pool);
    if (!clone) return 0;
    rte_pktmbuf_free(clone);
    return 1;
}

__attribute__((noinline)) static int fronted(struct rte_mbuf *packet) {
    return rte_pktmbuf_prepend(packet, FRONT) && rte_pktmbuf_adj(packet, FRONT);
}

// A receive, as a driver over captures does it: the bytes are copied into a new packet.
__attribute__((noinline)) static int received(struct rte_mempool *pool, const char *bytes) {
    struct rte_mbuf *packet = rte_pktmbuf_alloc(pool);
    if (!packet) return 0;
    char *room = rte_pktmbuf_append(packet, RECEIVED);
    if (room) memcpy(room, bytes, RECEIVED);
    rte_pktmbuf_free(packet);
    return room != NULL;
}

// What is done in a round goes by the name's first letter: alloc, clone, front or receive.
static uint32_t mbufs(char deed, uint32_t rounds) {
    struct rte_mempool *pool = rte_pktmbuf_pool_create("mbufs", MBUFS, 256, 0, RTE_MBUF_DEFAULT_BUF_SIZE, SOCKET_ID_ANY);
    struct rte_mbuf *packet = pool ? rte_pktmbuf_alloc(pool) : NULL;
    if (!packet) return 0;
    char bytes[RECEIVED];
    memset(bytes, 7, RECEIVED);
    uint32_t served = 0;
    for (uint32_t k = 0; k < rounds; k++) served += deed == 'a' ? taken(pool) : deed == 'c' ? cloned(pool, packet) : deed == 'r' ? received(pool, bytes) : fronted(packet);
    rte_pktmbuf_free(packet);
    rte_mempool_free(pool);
    return served;
}

static uint8_t depth_of(uint32_t number) {
    uint8_t eighth = number / 256 % 8;
    return number % 100 < 60 ? 24 : number % 100 < 95 ? 16 + eighth : 8 + eighth;
}

static uint64_t routes(uint32_t rules, uint32_t addresses, uint32_t deletes) {
    struct rte_lpm_config config = {.max_rules = MAX_RULES, .number_tbl8s = GROUPS};
    struct rte_lpm *table = rte_lpm_create("table", SOCKET_ID_ANY, &config);
    if (!table) return 0;
    uint32_t added = 0, found = 0, deleted = 0;
    uint64_t numbers = 1;
    for (uint32_t k = 0; k < rules; k++) {
        uint32_t ip = next(&numbers);
        uint8_t depth = depth_of(next(&numbers));
        added += rte_lpm_add(table, ip, depth, next(&numbers) % 256) == 0;
    }
    numbers = 2;
    for (uint32_t k = 0; k < addresses; k++) found += is_routed(table, next(&numbers));
    numbers = 1;
    for (uint32_t k = 0; k < deletes; k++) {
        uint32_t ip = next(&numbers);
        uint8_t depth = depth_of(next(&numbers));
        next(&numbers);
        deleted += rte_lpm_delete(table, ip, depth) == 0;
    }
    rte_lpm_free(table);
    return (uint64_t)added + found + deleted;
}

int main(int argc, char **argv) {
    char *words[] = {argv[0], "--no-huge", "--no-pci", "-m", "256", "--no-telemetry", "--log-level", "lib.eal:error", "--no-shconf", NULL};
    if (argc != 3 || rte_eal_init(9, words) < 0) return 2;
    const char *name = argv[1];
    uint32_t rounds = strtoul(argv[2], NULL, 10);
    uint64_t answer;
    if (!strcmp(name, "block")) answer = blocks(100, rounds);
    else if (!strcmp(name, "blocks")) answer = blocks(OTHERS, rounds);
    else if (!strcmp(name, "ring")) answer = one_by_one(rounds);
    else if (!strcmp(name, "bulk")) answer = in_bulk(rounds);
    else if (!strcmp(name, "cached")) answer = pairs(256, 0, rounds);
    else if (!strcmp(name, "uncached")) answer = pairs(0, 0, rounds);
    else if (!strcmp(name, "single")) answer = pairs(0, RTE_MEMPOOL_F_SP_PUT | RTE_MEMPOOL_F_SC_GET, rounds);
    else if (!strcmp(name, "pools")) answer = pool_bulks(rounds);
    else if (!strcmp(name, "alloc") || !strcmp(name, "clone") || !strcmp(name, "front") || !strcmp(name, "receive")) answer = mbufs(name[0], rounds);
    else if (!strcmp(name, "add")) answer = routes(rounds, 0, 0);
    else if (!strcmp(name, "lookup")) answer = routes(RULES, rounds, 0);
    else if (!strcmp(name, "delete")) answer = routes(RULES, 0, rounds);
    else return 2;
    printf("%llu\n", (unsigned long long)answer);
    return rounds > 0 && answer == 0;
}
