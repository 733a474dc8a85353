// Calls one of the library's benches: dpv NAME ROUNDS. It prints what the bench answers, and fails where that is 0 of some rounds.
#include <stdbool.h>
#include <stdint.h>
#include <stdio.h>
#include <stdlib.h>
#include <string.h>

uint32_t dpv_blocks(uint32_t others, uint32_t rounds);
uint32_t dpv_ring(uint32_t rounds);
uint32_t dpv_ring_bulk(uint32_t rounds);
uint32_t dpv_pool(bool cached, uint32_t rounds);
uint32_t dpv_pool_bulk(uint32_t rounds);
uint32_t dpv_mbufs(uint32_t deed, uint32_t rounds);
uint64_t dpv_routes(uint32_t rules, uint32_t addresses, uint32_t deletes);

#define RULES 60000

int main(int argc, char **argv) {
    if (argc != 3) return 2;
    const char *name = argv[1];
    uint32_t rounds = strtoul(argv[2], NULL, 10);
    uint64_t answer;
    if (!strcmp(name, "block")) answer = dpv_blocks(100, rounds);
    else if (!strcmp(name, "blocks")) answer = dpv_blocks(10000, rounds);
    else if (!strcmp(name, "ring")) answer = dpv_ring(rounds);
    else if (!strcmp(name, "bulk")) answer = dpv_ring_bulk(rounds);
    else if (!strcmp(name, "cached")) answer = dpv_pool(true, rounds);
    else if (!strcmp(name, "uncached")) answer = dpv_pool(false, rounds);
    else if (!strcmp(name, "pools")) answer = dpv_pool_bulk(rounds);
    else if (!strcmp(name, "alloc")) answer = dpv_mbufs(0, rounds);
    else if (!strcmp(name, "clone")) answer = dpv_mbufs(1, rounds);
    else if (!strcmp(name, "front")) answer = dpv_mbufs(2, rounds);
    else if (!strcmp(name, "receive")) answer = dpv_mbufs(3, rounds);
    else if (!strcmp(name, "add")) answer = dpv_routes(rounds, 0, 0);
    else if (!strcmp(name, "lookup")) answer = dpv_routes(RULES, rounds, 0);
    else if (!strcmp(name, "delete")) answer = dpv_routes(RULES, 0, rounds);
    else return 2;
    printf("%llu\n", (unsigned long long)answer);
    return rounds > 0 && answer == 0;
}
