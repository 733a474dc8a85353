// Nodes for librte_bpf, each compiled by itself: a packet's length and its first 64 bytes in, the port out, or all ones to drop it.
#include <stdint.h>

#define DROP UINT64_MAX
#define get16(p) __builtin_bswap16(*(uint16_t *)(p))
#define get32(p) __builtin_bswap32(*(uint32_t *)(p))
#define put16(p, n) (*(uint16_t *)(p) = __builtin_bswap16(n))

// The length, and the packet's bytes after it.
static inline uint64_t taken_length(uint8_t **p) {
    uint64_t length = *(uint16_t *)*p;
    *p += 2;
    return length;
}

#ifdef TTL
uint64_t node(uint8_t *p) {
    uint64_t length = taken_length(&p);
    if (length < 34 || get16(p + 12) != 0x0800) return 0;
    uint64_t old = get16(p + 22);
    if (old < 512) return DROP;
    uint64_t less = old - 256, sum = (get16(p + 24) ^ 0xffff) + (old ^ 0xffff) + less;
    sum = (sum & 0xffff) + (sum >> 16);
    sum = (sum & 0xffff) + (sum >> 16);
    put16(p + 22, less);
    put16(p + 24, sum ^ 0xffff);
    return 0;
}
#endif

#ifdef ACL
uint64_t node(uint8_t *p) {
    uint64_t length = taken_length(&p);
    if (length < 14) return DROP;
    uint64_t type = get16(p + 12);
    if (type == 0x0806) return 0;
    if (length < 38 || type != 0x0800 || p[14] != 0x45 || (get16(p + 20) & 0x3fff)) return DROP;
    if (p[23] == 1) return 0;
    uint64_t from = get16(p + 34), to = get16(p + 36);
    if (p[23] == 6) return get32(p + 30) >> 8 == 0xc00002 && (to == 80 || to == 443) ? 0 : DROP;
    return p[23] == 17 && (from == 53 || to == 53) ? 0 : DROP;
}
#endif

#ifdef SPLITTER
uint64_t node(uint8_t *p) {
    uint64_t length = taken_length(&p);
    if (length < 38 || get16(p + 12) != 0x0800) return 0;
    uint64_t hash = (uint64_t)get32(p + 26) ^ get32(p + 30);
    if (p[14] == 0x45 && (p[23] == 6 || p[23] == 17)) hash ^= get16(p + 34) ^ get16(p + 36);
    hash ^= hash >> 16;
    hash ^= hash >> 8;
    hash ^= hash >> 4;
    hash ^= hash >> 2;
    return hash & 3;
}
#endif
