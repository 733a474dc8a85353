/* lasting_drive PIPELINE LIMIT FRAMES SEED [any]: passes the same frames and changes of routes into one engine and into one of
   examples/live/lasting.h, whose engines take LIMIT frames each, in bursts of 1 to 8; for tests/library/host.py. Each frame has to get the same
   answer and the same records, each change and look-up the same answer, and the counts have to be the same at the end.

   With `any` a frame may be sent later, and in any order: bytes 4 to 7 have its number, and each number has to be sent once, or to wait in a ring
   of the last engine. Prints how many engines ended; exits with 1 if something differs. */
#include "../../examples/live/lasting.h"

#define MAX_NUMBERS 65536

static uint64_t state;
static int is_any;
static uint8_t came[MAX_NUMBERS];

static uint32_t random_below(uint32_t bound)
{
    state ^= state << 13;
    state ^= state >> 7;
    state ^= state << 17;
    return (uint32_t)(state >> 32) % bound;
}

static void fail(const char *what, unsigned long k)
{
    printf("frame %lu: other %s\n", k, what);
    exit(1);
}

/* Notes the numbers of the frames that are sent. */
static void note(void *none, const struct dpv_batch *batch)
{
    (void)none;
    for (uint64_t k = 0; k < batch->filled.records; k++) {
        const uint8_t *bytes = batch->bytes + batch->records[k].offset;
        uint32_t number = (uint32_t)bytes[4] << 24 | (uint32_t)bytes[5] << 16 | (uint32_t)bytes[6] << 8 | bytes[7];
        if (number >= MAX_NUMBERS || came[number]++ != 0)
            fail("number, or one that was sent before", number);
    }
}

/* No engine has anything left when the rings are empty. */
static void expect_nothing(void *none, const struct dpv_batch *batch)
{
    (void)none;
    if (batch->filled.records != 0)
        fail("records between two bursts", 0);
}

/* A frame: an IPv4 packet to an address near some routes, or any bytes. */
static size_t make_frame(uint8_t *frame, uint32_t number)
{
    static const uint8_t head[34] = {2, 0, 0, 0, 0, 1, 2, 0, 0, 0, 1, 1, 8, 0, 0x45, 0, 0, 46, 0, 0, 0, 0, 64, 17, 0, 0, 10, 0, 0, 1, 10};
    size_t size = random_below(10) == 0 ? random_below(300) : 60 + random_below(60);
    for (size_t k = 0; k < size; k++)
        frame[k] = (uint8_t)random_below(256);
    if (is_any) {
        frame[0] = (uint8_t)random_below(200);
        for (int k = 0; k < 4; k++)
            frame[4 + k] = (uint8_t)(number >> (24 - 8 * k));
        return 60;
    }
    if (size > 34 && random_below(10) != 0) {
        memcpy(frame, head, 31);
        for (int k = 31; k < 34; k++)
            frame[k] = (uint8_t)random_below(4);
    }
    return size;
}

static void compare_batches(const struct dpv_batch *one, const struct dpv_batch *other, unsigned long k)
{
    if (one->filled.records != other->filled.records || one->filled.bytes != other->filled.bytes)
        fail("number of records", k);
    for (uint64_t j = 0; j < one->filled.records; j++)
        if (one->records[j].port != other->records[j].port || one->records[j].length != other->records[j].length)
            fail("record", k);
    if (memcmp(one->bytes, other->bytes, (size_t)one->filled.bytes) != 0)
        fail("bytes", k);
}

/* Adds, deletes or looks up a route in both. */
static void change_both(dpv_t *one, struct lasting *lasting, unsigned long k)
{
    struct dpv_route route = {random_below(2), 10u << 24 | random_below(4) << 16 | random_below(4) << 8 | random_below(4), 1 + random_below(32), random_below(3)};
    struct dpv_hop hop = {7}, other = {7};
    int is_added = (int)random_below(2);
    if (make_change(one, &route, is_added) != change_lasting(lasting, &route, is_added))
        fail("answer to a change", k);
    if (dpv_route_lookup(one, 0, route.ip, &hop) != dpv_route_lookup(lasting->engine, 0, route.ip, &other) || hop.hop != other.hop)
        fail("hop", k);
}

static void pass_both(dpv_t *one, struct dpv_batch *batch, struct lasting *lasting, uint32_t port, unsigned long k)
{
    static uint8_t frame[512];
    size_t size = make_frame(frame, (uint32_t)k);
    uint32_t answer = dpv_pass(one, port, frame, size, k, batch);
    if (pass_lasting(lasting, port, frame, size, k) != answer)
        fail("answer", k);
    if (is_any)
        note(NULL, &lasting->batch);
    else
        compare_batches(batch, &lasting->batch, k);
}

static void compare_counts(dpv_t *one, struct lasting *lasting)
{
    for (uint32_t port = 0; port < count_ports(one); port++) {
        struct dpv_port_stats stats, last;
        const struct dpv_port_stats *before = &lasting->before[port];
        dpv_port(one, port, &stats);
        dpv_port(lasting->engine, port, &last);
        if (stats.received != before->received + last.received || stats.no_buffer != before->no_buffer + last.no_buffer
            || stats.oversize != before->oversize + last.oversize || (!is_any && stats.sent != before->sent + last.sent))
            fail("counts", port);
    }
}

/* Each frame was sent, or waits in the last engine. */
static void compare_numbers(struct lasting *lasting, unsigned long frames)
{
    uint64_t sent = 0;
    for (unsigned long k = 0; k < frames; k++)
        sent += came[k];
    if (sent + count_waiting(lasting->engine) != frames)
        fail("number of frames in all", (unsigned long)sent);
}

int main(int argc, char **argv)
{
    struct pipeline pipeline;
    struct lasting lasting;
    struct dpv_batch batch;
    struct dpv_totals totals;
    unsigned long frames, k = 0;
    uint32_t ports;
    dpv_t *one;
    if (argc < 5)
        return 2;
    is_any = argc > 5;
    frames = strtoul(argv[3], NULL, 10);
    state = strtoul(argv[4], NULL, 10) * 2654435769u + 1;
    pipeline = read_pipeline(argv[1], UINT32_MAX);
    one = open_engine(&pipeline);
    open_lasting(&lasting, &pipeline, strtoull(argv[2], NULL, 10));
    if (dpv_batch_open(one, &batch) != DPV_OK)
        die("memory");
    ports = count_ports(one);
    while (k < frames) {
        uint32_t count = 1 + random_below(8), port = random_below(ports);
        if (!is_any && random_below(4) == 0)
            change_both(one, &lasting, k);
        if (random_below(2) == 0)
            prepare_lasting(&lasting);
        renew_lasting(&lasting, count, k, is_any ? note : expect_nothing, NULL);
        for (uint32_t j = 0; j < count && k < frames; j++)
            pass_both(one, &batch, &lasting, port, k++);
    }
    compare_counts(one, &lasting);
    if (is_any)
        compare_numbers(&lasting, frames);
    printf("engines that ended: %llu\n", (unsigned long long)lasting.ended);
    dpv_batch_close(&batch);
    dpv_close(one, &totals);
    dpv_free(one);
    close_lasting(&lasting);
    free(pipeline.text);
    free(pipeline.packed);
    return 0;
}
