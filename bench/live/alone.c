/* alone PIPELINE SIZE ROUNDS: hands frames of SIZE bytes, ROUNDS times, to port 0 of an engine, with no device; for bench/live.py.
   Prints the nanoseconds of processor time of a dpv_pass, and how many records came out. */
#define _POSIX_C_SOURCE 200809L
#include "frame.h"

int main(int argc, char **argv)
{
    static uint8_t frame[65536];
    uint64_t records = 0, begun;
    struct dpv_batch batch;
    dpv_t *engine;
    size_t size;
    long rounds;
    if (argc != 4)
        return 2;
    engine = open_pipeline(argv[1]);
    size = (size_t)atol(argv[2]);
    rounds = atol(argv[3]);
    if (dpv_batch_open(engine, &batch) != DPV_OK)
        return 3;
    fill(frame, size);
    begun = nanoseconds(CLOCK_PROCESS_CPUTIME_ID);
    for (long k = 0; k < rounds; k++) {
        if (dpv_pass(engine, 0, frame, size, (uint64_t)k, &batch) != DPV_RECEIVED)
            return 4;
        records += batch.filled.records;
    }
    printf("%.1f %llu\n", (double)(nanoseconds(CLOCK_PROCESS_CPUTIME_ID) - begun) / (double)(rounds > 0 ? rounds : 1), (unsigned long long)records);
    dpv_batch_close(&batch);
    return 0;
}
