/* Opens the engine of a pipeline file, for the hosts beside this file: reads the file and each program and certificate that it names. */
#ifndef LOAD_H
#define LOAD_H

#include "dpv.h"
#include <ctype.h>
#include <stdio.h>

/* Ends the host with a line on standard error. */
static inline void die(const char *what)
{
    perror(what);
    exit(3);
}

/* The bytes of a file, with a zero after the last. */
static inline uint8_t *read_file(const char *name, size_t *length)
{
    FILE *file = fopen(name, "rb");
    uint8_t *bytes = NULL;
    size_t room = 0;
    *length = 0;
    if (file == NULL)
        die(name);
    do {
        room = room * 2 + 4096;
        bytes = (uint8_t *)realloc(bytes, room + 1);
        if (bytes == NULL)
            die("memory");
        *length += fread(bytes + *length, 1, room - *length, file);
    } while (*length == room);
    if (ferror(file))
        die(name);
    fclose(file);
    bytes[*length] = 0;
    return bytes;
}

/* The name that a key gives at this place of a pipeline file, as node = "ttl.dpv"; or no bytes, if there is no such key here. */
static inline size_t name_at(const char *text, const char *at, const char **name)
{
    const char *end;
    char quote;
    if ((strncmp(at, "node", 4) != 0 && strncmp(at, "cert", 4) != 0) || (at > text && (isalnum((unsigned char)at[-1]) || strchr("_-\"'", at[-1]))))
        return 0;
    at += 4 + strspn(at + 4, " \t");
    if (*at++ != '=')
        return 0;
    at += strspn(at, " \t");
    quote = *at++;
    if (quote != '"' && quote != '\'')
        return 0;
    end = strchr(at, quote);
    *name = at;
    return end == NULL ? 0 : (size_t)(end - at);
}

/* Where a text goes on after the comment or the string that begins here; after this byte, if neither does. */
static inline const char *step_over(const char *at)
{
    char first = *at++;
    if (first == '#')
        return at + strcspn(at, "\n");
    if (first != '"' && first != '\'')
        return at;
    while (*at != 0 && *at != first)
        at += first == '"' && *at == '\\' && at[1] != 0 ? 2 : 1;
    return *at == 0 ? at : at + 1;
}

/* Ends the host if a run of a program can take more instructions than this. What is no program is left to dpv_open, which says why. */
static inline void check_cost(const char *name, const uint8_t *text, size_t length, uint32_t max_cost)
{
    struct dpv_cost cost;
    uint32_t answer = dpv_cost(text, length, &cost);
    if (answer == DPV_NO_MEMORY)
        die("memory");
    if (answer != DPV_OK || cost.steps <= max_cost)
        return;
    fprintf(stderr, "%s: a run of it can take %u instructions, and --max-cost is %u", name, cost.steps, max_cost);
    if (cost.jumps_back)
        fprintf(stderr, "; instruction %u, from 0, can jump back", cost.label);
    fprintf(stderr, "\n");
    exit(1);
}

/* A pipeline file, and the files that it names, packed one after the other. */
struct pipeline {
    const char *name;
    uint8_t *text, *packed;
    size_t text_length, packed_length;
};

/* Reads and packs a file that a pipeline names; if it is a program, its cost is at most max_cost. */
static inline void pack_file(struct pipeline *pipeline, const char *path, int is_program, uint32_t max_cost)
{
    size_t size;
    uint8_t *bytes = read_file(path, &size);
    if (is_program)
        check_cost(path, bytes, size, max_cost);
    pipeline->packed = (uint8_t *)realloc(pipeline->packed, pipeline->packed_length + dpv_pack(NULL, path, bytes, size));
    if (pipeline->packed == NULL)
        die("memory");
    pipeline->packed_length += dpv_pack(pipeline->packed + pipeline->packed_length, path, bytes, size);
    free(bytes);
}

/* Reads a pipeline file and the files that it names. A program that can cost more than max_cost ends the host. */
static inline struct pipeline read_pipeline(const char *name, uint32_t max_cost)
{
    struct pipeline pipeline = {name, NULL, NULL, 0, 0};
    pipeline.text = read_file(name, &pipeline.text_length);
    for (const char *at = (const char *)pipeline.text; *at != 0; at = step_over(at)) {
        const char *begin = NULL;
        char path[4096];
        size_t count = name_at((const char *)pipeline.text, at, &begin);
        if (count == 0 || count >= sizeof path)
            continue;
        memcpy(path, begin, count);
        path[count] = 0;
        pack_file(&pipeline, path, *at == 'n', max_cost);
    }
    return pipeline;
}

/* Opens an engine for a pipeline. If it is not loaded, ends the host with the reason that dpv check prints. */
static inline dpv_t *open_engine(const struct pipeline *pipeline)
{
    struct dpv_reason reason;
    dpv_t *engine = dpv_open(pipeline->text, pipeline->text_length, pipeline->packed, pipeline->packed_length, &reason);
    if (engine == NULL) {
        fprintf(stderr, "%s: %.*s\n", pipeline->name, (int)reason.length, reason.text);
        exit(1);
    }
    return engine;
}

/* The engine of a pipeline file, whatever its programs cost. */
static inline dpv_t *open_pipeline(const char *name)
{
    struct pipeline pipeline = read_pipeline(name, UINT32_MAX);
    dpv_t *engine = open_engine(&pipeline);
    free(pipeline.text);
    free(pipeline.packed);
    return engine;
}

/* How many ports the pipeline of an engine has. */
static inline uint32_t count_ports(dpv_t *engine)
{
    struct dpv_port_stats stats;
    uint32_t ports = 0;
    while (dpv_port(engine, ports, &stats) == DPV_OK)
        ports++;
    return ports;
}

/* Prints the counts of each port, with those of the engines before this one and the records that the host could not send, and of each ring and
   pool. */
static inline void print_numbers(dpv_t *engine, const struct dpv_port_stats *before, const uint64_t *unsent)
{
    struct dpv_port_stats port;
    struct dpv_ring_stats ring;
    struct dpv_pool_stats pool;
    for (uint32_t k = 0; dpv_port(engine, k, &port) == DPV_OK; k++)
        printf("port %u received %llu nobuf %llu oversize %llu sent %llu unsent %llu\n", k, (unsigned long long)(before[k].received + port.received),
               (unsigned long long)(before[k].no_buffer + port.no_buffer), (unsigned long long)(before[k].oversize + port.oversize),
               (unsigned long long)(before[k].sent + port.sent), (unsigned long long)unsent[k]);
    for (uint32_t k = 0; dpv_ring(engine, k, &ring) == DPV_OK; k++)
        printf("ring %u waiting %llu\n", k, (unsigned long long)ring.waiting);
    for (uint32_t k = 0; dpv_pool(engine, k, &pool) == DPV_OK; k++)
        printf("pool %u free %llu of %llu\n", k, (unsigned long long)pool.free, (unsigned long long)pool.count);
    fflush(stdout);
}

/* Closes an engine, and prints the counts of its whole run. */
static inline void close_engine(dpv_t *engine)
{
    struct dpv_totals totals;
    dpv_close(engine, &totals);
    printf("turns %llu calls %llu cut %llu, all buffers of %llu pools free\n", (unsigned long long)totals.turns, (unsigned long long)totals.calls,
           (unsigned long long)totals.cut, (unsigned long long)totals.pools);
    dpv_free(engine);
}

#endif
