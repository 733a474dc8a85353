/* Records without their first 14 bytes, collected and written in large pieces; for mapped.c and pieces.c. */
#include <fcntl.h>
#include <stdint.h>
#include <string.h>
#include <unistd.h>

#define FILE_HEAD 24
#define HEAD 16
#define MAX_RECORD 262144
#define PIECE 262144

static uint8_t collected[PIECE + HEAD + MAX_RECORD];
static size_t used;

/* Writes what is collected; returns whether that succeeded. */
static inline int is_written(int file)
{
    size_t had = used;
    used = 0;
    return write(file, collected, had) == (ssize_t)had;
}

/* Collects the record that begins here, without the first 14 bytes of its packet; leaves out a shorter one. Returns whether that succeeded. */
static inline int is_put(int file, const uint8_t *record)
{
    uint32_t head[4];
    memcpy(head, record, HEAD);
    if (head[2] < 14)
        return 1;
    head[2] -= 14;
    head[3] = head[2];
    memcpy(collected + used, head, HEAD);
    memcpy(collected + used + HEAD, record + HEAD + 14, head[2]);
    used += HEAD + head[2];
    return used < PIECE || is_written(file);
}

/* The bytes of the record that begins here, its head with them, of which `left` are there; 0 where it is not whole, or too long. */
static inline size_t whole(const uint8_t *record, size_t left)
{
    uint32_t length;
    if (left < HEAD)
        return 0;
    memcpy(&length, record + 8, sizeof length);
    return length <= MAX_RECORD && length <= left - HEAD ? HEAD + (size_t)length : 0;
}
