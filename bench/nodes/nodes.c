// The nodes of examples/ over DPDK's mbufs, from captures to captures: nodes NODE PROGRAM INS.. -- OUTS..
// PROGRAM is -, for the node in C, or a file of eBPF instructions, which librte_bpf interprets, or jit:FILE, which it compiles.
#include <stdint.h>
#include <stdio.h>
#include <stdlib.h>
#include <string.h>

#include <rte_bpf.h>
#include <rte_byteorder.h>
#include <rte_eal.h>
#include <rte_lpm.h>
#include <rte_mbuf.h>
#include <rte_mempool.h>
#include <rte_ring.h>

#define COUNT 64
#define MAX_PORTS 8
#define DROP UINT64_MAX
#define BUFFER (1 << 18)

typedef uint64_t (*on_bytes)(void *bytes);

static struct rte_mempool *pool, *clones;
static struct rte_lpm *table;
static struct rte_ring *rings[2];
static FILE *ins[MAX_PORTS], *outs[MAX_PORTS];
static int in_count, out_count;
static struct { uint32_t seconds, fraction; } now;

static inline uint16_t get16(const uint8_t *p) { uint16_t n; memcpy(&n, p, 2); return rte_be_to_cpu_16(n); }
static inline uint32_t get32(const uint8_t *p) { uint32_t n; memcpy(&n, p, 4); return rte_be_to_cpu_32(n); }
static inline void put16(uint8_t *p, uint16_t n) { n = rte_cpu_to_be_16(n); memcpy(p, &n, 2); }
static inline void put32(uint8_t *p, uint32_t n) { n = rte_cpu_to_be_32(n); memcpy(p, &n, 4); }
static inline void put64(uint8_t *p, uint64_t n) { n = rte_cpu_to_be_64(n); memcpy(p, &n, 8); }

// A packet's record, and the packet given up.
static void sent(struct rte_mbuf *packet, unsigned port) {
    uint32_t head[4] = {now.seconds, now.fraction, packet->pkt_len, packet->pkt_len};
    fwrite(head, 1, 16, outs[port]);
    for (struct rte_mbuf *part = packet; part; part = part->next) fwrite(rte_pktmbuf_mtod(part, void *), 1, part->data_len, outs[port]);
    rte_pktmbuf_free(packet);
}

static inline void sent_or_dropped(struct rte_mbuf *packet, uint64_t port) {
    if (port == DROP) rte_pktmbuf_free(packet);
    else sent(packet, port);
}

static void send_node(struct rte_mbuf *packet, unsigned port) { sent(packet, port); }

static void strip(struct rte_mbuf *packet, unsigned port) {
    sent_or_dropped(packet, packet->data_len >= 14 && rte_pktmbuf_adj(packet, 14) ? port : DROP);
}

static void vlan_pop(struct rte_mbuf *packet, unsigned port) {
    uint8_t *p = rte_pktmbuf_mtod(packet, uint8_t *);
    if (packet->data_len >= 18 && get16(p + 12) == 0x8100) {
        memmove(p + 4, p, 12);
        rte_pktmbuf_adj(packet, 4);
    }
    sent(packet, port);
}

static void vlan_push(struct rte_mbuf *packet, unsigned port) {
    uint8_t *p;
    if (packet->data_len < 14 || !(p = (uint8_t *)rte_pktmbuf_prepend(packet, 4))) {
        rte_pktmbuf_free(packet);
        return;
    }
    memmove(p, p + 4, 12);
    put32(p + 12, 0x81000064);
    sent(packet, port);
}

// The time to live is one less, and the checksum is mended; false where the packet has expired.
static inline int one_hop_less(uint8_t *p) {
    uint16_t old = get16(p + 22), less = old - 256;
    if (old < 512) return 0;
    uint32_t sum = (uint32_t)(uint16_t)~get16(p + 24) + (uint16_t)~old + less;
    sum = (sum & 0xffff) + (sum >> 16);
    sum = (sum & 0xffff) + (sum >> 16);
    put16(p + 22, less);
    put16(p + 24, ~sum);
    return 1;
}

static void ttl(struct rte_mbuf *packet, unsigned port) {
    uint8_t *p = rte_pktmbuf_mtod(packet, uint8_t *);
    int is_ip = packet->data_len >= 34 && get16(p + 12) == 0x0800;
    sent_or_dropped(packet, !is_ip || one_hop_less(p) ? port : DROP);
}

static uint64_t route_of(struct rte_mbuf *packet) {
    uint8_t *p = rte_pktmbuf_mtod(packet, uint8_t *);
    uint32_t hop;
    if (packet->data_len < 34 || get16(p + 12) != 0x0800 || get16(p + 22) < 512) return DROP;
    if (rte_lpm_lookup(table, get32(p + 30), &hop) != 0 || hop >= 3) return DROP;
    one_hop_less(p);
    put64(p, (UINT64_C(0x020000000100) + hop) << 16 | 0x0200);
    put32(p + 8, hop);
    return hop;
}

static void router(struct rte_mbuf *packet, unsigned port) {
    (void)port;
    sent_or_dropped(packet, route_of(packet));
}

static int is_let_through(const uint8_t *p, uint16_t length) {
    if (length < 14) return 0;
    if (get16(p + 12) == 0x0806) return 1;
    if (get16(p + 12) != 0x0800 || length < 38 || p[14] != 0x45 || (get16(p + 20) & 0x3fff)) return 0;
    uint16_t from = get16(p + 34), to = get16(p + 36);
    if (p[23] == 1) return 1;
    if (p[23] == 6) return get32(p + 30) >> 8 == 0xc00002 && (to == 80 || to == 443);
    return p[23] == 17 && (from == 53 || to == 53);
}

static void acl(struct rte_mbuf *packet, unsigned port) {
    sent_or_dropped(packet, is_let_through(rte_pktmbuf_mtod(packet, uint8_t *), packet->data_len) ? port : DROP);
}

static void mirror(struct rte_mbuf *packet, unsigned port) {
    struct rte_mbuf *clone = rte_pktmbuf_clone(packet, clones);
    if (clone) sent(clone, 1);
    sent(packet, port);
}

static void splitter(struct rte_mbuf *packet, unsigned port) {
    const uint8_t *p = rte_pktmbuf_mtod(packet, uint8_t *);
    uint32_t hash = 0;
    (void)port;
    if (packet->data_len >= 38 && get16(p + 12) == 0x0800) {
        hash = get32(p + 26) ^ get32(p + 30);
        if (p[14] == 0x45 && (p[23] == 6 || p[23] == 17)) hash ^= get16(p + 34) ^ get16(p + 36);
        for (int half = 16; half > 1; half /= 2) hash ^= hash >> half;
        hash &= 3;
    }
    sent(packet, hash);
}

static void gre(struct rte_mbuf *packet, unsigned port) {
    uint8_t *p = rte_pktmbuf_mtod(packet, uint8_t *);
    if (packet->data_len < 34 || get16(p + 12) != 0x0800 || get16(p + 16) >= 65512) {
        rte_pktmbuf_free(packet);
        return;
    }
    uint32_t length = get16(p + 16) + 24, sum = length + 0x31998;
    rte_pktmbuf_adj(packet, 14);
    put32((uint8_t *)rte_pktmbuf_prepend(packet, 4), 0x0800);
    struct rte_mbuf *front = rte_pktmbuf_alloc(pool);
    if (!front) {
        rte_pktmbuf_free(packet);
        return;
    }
    uint8_t *q = (uint8_t *)rte_pktmbuf_append(front, 34);
    put64(q, UINT64_C(0x020000000102) << 16 | 0x0200);
    put32(q + 8, 1);
    put32(q + 12, 0x08004500);
    put16(q + 16, length);
    put16(q + 18, 0);
    put32(q + 20, 0x4000402f);
    put32(q + 26, 0xc6336401);
    put32(q + 30, 0xc6336402);
    sum = (sum & 0xffff) + (sum >> 16);
    sum = (sum & 0xffff) + (sum >> 16);
    put16(q + 24, ~sum);
    rte_pktmbuf_chain(front, packet);
    sent(front, port);
}

static void stages(struct rte_mbuf *packet, unsigned port) {
    const uint8_t *first = rte_pktmbuf_mtod(packet, uint8_t *);
    void *next;
    if (packet->data_len < 34 || get16(first + 12) != 0x0800 || rte_ring_sp_enqueue(rings[0], packet) != 0) {
        rte_pktmbuf_free(packet);
        return;
    }
    while (rte_ring_sc_dequeue(rings[0], &next) == 0) {
        if (!one_hop_less(rte_pktmbuf_mtod((struct rte_mbuf *)next, uint8_t *)) || rte_ring_sp_enqueue(rings[1], next) != 0) rte_pktmbuf_free(next);
    }
    while (rte_ring_sc_dequeue(rings[1], &next) == 0) {
        uint8_t *p = rte_pktmbuf_mtod((struct rte_mbuf *)next, uint8_t *);
        put64(p, UINT64_C(0x0200000001000200));
        put32(p + 8, 0);
        sent(next, port);
    }
}

static const struct { const char *name; void (*node)(struct rte_mbuf *, unsigned); } NODES[] = {
    {"sent", send_node}, {"strip", strip}, {"vlan_pop", vlan_pop}, {"vlan_push", vlan_push}, {"ttl", ttl}, {"router", router},
    {"acl", acl}, {"mirror", mirror}, {"splitter", splitter}, {"gre", gre}, {"stages", stages},
};

// The next record of a port as a packet; NULL at the end.
static struct rte_mbuf *received(FILE *in) {
    uint32_t head[4];
    if (fread(head, 1, 16, in) != 16) return NULL;
    struct rte_mbuf *packet = rte_pktmbuf_alloc(pool);
    char *room = packet ? rte_pktmbuf_append(packet, head[2]) : NULL;
    if (!room || fread(room, 1, head[2], in) != head[2]) exit(3);
    now.seconds = head[0];
    now.fraction = head[1];
    return packet;
}

static void tables_made(void) {
    static const struct { uint32_t ip; uint8_t depth, hop; } routes[] = {
        {0x0a000000, 8, 1}, {0x0a010000, 16, 2}, {0x0a010280, 25, 0}, {0xc0000200, 24, 0}, {0xc6336407, 32, 2}, {0xcb007100, 24, 9}};
    struct rte_lpm_config config = {.max_rules = 16, .number_tbl8s = 4};
    table = rte_lpm_create("table", SOCKET_ID_ANY, &config);
    for (unsigned k = 0; k < RTE_DIM(routes); k++) rte_lpm_add(table, routes[k].ip, routes[k].depth, routes[k].hop);
    for (int k = 0; k < 2; k++) rings[k] = rte_ring_create(k ? "b" : "a", 64, SOCKET_ID_ANY, RING_F_SP_ENQ | RING_F_SC_DEQ);
    pool = rte_pktmbuf_pool_create("packets", COUNT, 0, 0, RTE_MBUF_DEFAULT_BUF_SIZE, SOCKET_ID_ANY);
    clones = rte_pktmbuf_pool_create("clones", COUNT, 0, 0, 0, SOCKET_ID_ANY);
}

static void files_opened(char **names) {
    char head[24];
    int opened = 0;
    for (; strcmp(*names, "--"); names++) {
        ins[in_count] = fopen(*names, "rb");
        if (!ins[in_count] || setvbuf(ins[in_count], NULL, _IOFBF, BUFFER) || fread(head, 1, 24, ins[in_count++]) != 24) exit(4);
    }
    for (names++; *names; names++, opened++) {
        outs[opened] = fopen(*names, "wb");
        if (!outs[opened] || setvbuf(outs[opened], NULL, _IOFBF, BUFFER) || fwrite(head, 1, 24, outs[opened]) != 24) exit(4);
    }
    out_count = opened;
}

// The program of a file, as librte_bpf loads it: it gets the packet's length in 2 bytes, and 64 bytes after them, and returns the port,
// or all ones.
static struct rte_bpf *loaded(const char *name) {
    static struct ebpf_insn program[4096];
    FILE *file = fopen(name, "rb");
    if (!file) exit(4);
    uint32_t length = fread(program, sizeof *program, 4096, file);
    struct rte_bpf_prm prm = {.ins = program, .nb_ins = length, .prog_arg = {.type = RTE_BPF_ARG_PTR, .size = 66}};
    struct rte_bpf *bpf = rte_bpf_load(&prm);
    fclose(file);
    if (!bpf) exit(5);
    return bpf;
}

// A packet for librte_bpf: its length stands in the headroom, in front of its bytes.
static inline void *with_length(struct rte_mbuf *packet) {
    uint16_t length = rte_pktmbuf_data_len(packet);
    return memcpy(rte_pktmbuf_mtod(packet, uint8_t *) - 2, &length, 2);
}

static void each_record(void (*node)(struct rte_mbuf *, unsigned), const struct rte_bpf *bpf, on_bytes jit) {
    for (int left = in_count; left > 0;) {
        left = 0;
        for (int port = 0; port < in_count; port++) {
            struct rte_mbuf *packet = received(ins[port]);
            if (!packet) continue;
            left++;
            if (jit) sent_or_dropped(packet, jit(with_length(packet)));
            else if (bpf) sent_or_dropped(packet, rte_bpf_exec(bpf, with_length(packet)));
            else node(packet, port);
        }
    }
}

int main(int argc, char **argv) {
    char *words[] = {argv[0], "--no-huge", "--no-pci", "-m", "256", "--no-telemetry", "--log-level", "lib.eal:error", "--no-shconf", NULL};
    if (argc < 6 || rte_eal_init(9, words) < 0) return 2;
    tables_made();
    files_opened(argv + 3);
    int is_jit = !strncmp(argv[2], "jit:", 4);
    struct rte_bpf *bpf = strcmp(argv[2], "-") ? loaded(argv[2] + (is_jit ? 4 : 0)) : NULL;
    struct rte_bpf_jit jit = {0};
    if (is_jit && (rte_bpf_get_jit(bpf, &jit) != 0 || !jit.func)) return 6;
    for (unsigned k = 0; k < RTE_DIM(NODES); k++) {
        if (!strcmp(argv[1], NODES[k].name)) each_record(NODES[k].node, bpf, is_jit ? (on_bytes)jit.func : NULL);
    }
    for (int k = 0; k < out_count; k++) fclose(outs[k]);
    return 0;
}
