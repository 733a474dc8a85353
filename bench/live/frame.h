/* The frame that the measurements of an engine alone hand in, and the clocks that they read. */
#ifndef FRAME_H
#define FRAME_H

#include "../../examples/live/load.h"
#include <time.h>

/* An IPv4 packet in an Ethernet frame, from 10.0.0.1 to 10.1.0.1, with its checksum. */
static inline void fill(uint8_t *frame, size_t size)
{
    static const uint8_t head[34] = {2, 0, 0, 0, 0, 1, 2, 0, 0, 0, 1, 1, 8, 0, 0x45, 0, 0, 46, 0, 0, 0, 0, 64, 17, 0, 0, 10, 0, 0, 1, 10, 1, 0, 1};
    uint32_t sum = 0;
    memset(frame, 7, size);
    memcpy(frame, head, sizeof head);
    frame[16] = (uint8_t)((size - 14) >> 8);
    frame[17] = (uint8_t)(size - 14);
    for (int k = 14; k < 34; k += 2)
        sum += (uint32_t)(frame[k] << 8 | frame[k + 1]);
    sum = (sum & 0xffff) + (sum >> 16);
    sum = ~(sum + (sum >> 16));
    frame[24] = (uint8_t)(sum >> 8);
    frame[25] = (uint8_t)sum;
}

/* Nanoseconds of a clock. */
static inline uint64_t nanoseconds(clockid_t clock)
{
    struct timespec time;
    clock_gettime(clock, &time);
    return (uint64_t)time.tv_sec * 1000000000u + (uint64_t)time.tv_nsec;
}

#endif
