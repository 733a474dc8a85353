/* threads PIPELINE THREADS ROUNDS: as many threads, each with an engine of its own, which it opens, hands frames of 60 bytes and changes of routes,
   and closes; for tests/library/host.py and bench/live.py. Prints the nanoseconds of a frame: of processor time in the mean of the threads, and by
   the clock from the first pass to the last, over the frames of all threads. Exits with 1 if the engines did not do the same. */
#define _POSIX_C_SOURCE 200809L
#include "frame.h"
#include <pthread.h>

#define MAX_THREADS 64
/* How many frames come between two changes of a route. */
#define BETWEEN_CHANGES 1024

struct share {
    const char *pipeline;
    long rounds;
    uint64_t records;
    double nanos;
    struct dpv_totals totals;
};

static pthread_barrier_t all_are_open;

/* What a thread does. */
static void *run(void *argument)
{
    struct share *share = (struct share *)argument;
    uint8_t frame[60];
    struct dpv_batch batch;
    dpv_t *engine = open_pipeline(share->pipeline);
    uint64_t begun;
    if (dpv_batch_open(engine, &batch) != DPV_OK)
        die("memory");
    fill(frame, sizeof frame);
    pthread_barrier_wait(&all_are_open);
    begun = nanoseconds(CLOCK_THREAD_CPUTIME_ID);
    for (long k = 0; k < share->rounds; k++) {
        struct dpv_route route = {0, 0x0a020000u, 16, (uint32_t)k & 1};
        if (k % BETWEEN_CHANGES == 0)
            (void)dpv_route_add(engine, &route);
        if (dpv_pass(engine, 0, frame, sizeof frame, (uint64_t)k, &batch) != DPV_RECEIVED)
            die("a frame was not received");
        share->records += batch.filled.records;
    }
    share->nanos = (double)(nanoseconds(CLOCK_THREAD_CPUTIME_ID) - begun);
    pthread_barrier_wait(&all_are_open);
    dpv_batch_close(&batch);
    dpv_close(engine, &share->totals);
    dpv_free(engine);
    return NULL;
}

int main(int argc, char **argv)
{
    static struct share shares[MAX_THREADS];
    pthread_t threads[MAX_THREADS];
    int count = argc == 4 ? atoi(argv[2]) : 0;
    double nanos = 0;
    uint64_t begun;
    if (count < 1 || count > MAX_THREADS)
        return 2;
    pthread_barrier_init(&all_are_open, NULL, (unsigned)count + 1);
    for (int k = 0; k < count; k++) {
        shares[k] = (struct share){.pipeline = argv[1], .rounds = atol(argv[3])};
        if (pthread_create(&threads[k], NULL, run, &shares[k]) != 0)
            die("thread");
    }
    pthread_barrier_wait(&all_are_open);
    begun = nanoseconds(CLOCK_MONOTONIC);
    pthread_barrier_wait(&all_are_open);
    begun = nanoseconds(CLOCK_MONOTONIC) - begun;
    for (int k = 0; k < count; k++)
        pthread_join(threads[k], NULL);
    for (int k = 0; k < count; k++) {
        nanos += shares[k].nanos / (double)shares[k].rounds / count;
        if (shares[k].records != shares[0].records || memcmp(&shares[k].totals, &shares[0].totals, sizeof shares[0].totals) != 0)
            return 1;
    }
    printf("%.1f %.1f\n", nanos, (double)begun / (double)shares[0].rounds / count);
    return 0;
}
