/* l2fwd EAL-OPTIONS: what DPDK's example l2fwd does with a frame, with no engine: from device k to its neighbour, with new Ethernet addresses,
   32 frames at once, on each lcore with a queue of its own; for bench/live.py. SIGUSR1 prints how many frames came to each device, for each
   lcore in turn; SIGTERM ends it. */
#include "../../examples/live/signals.h"
#include <rte_eal.h>
#include <rte_ethdev.h>
#include <rte_ether.h>
#include <rte_launch.h>
#include <rte_lcore.h>
#include <rte_mbuf.h>

#define BURST 32
#define DEVICES 2
#define LCORE_MBUFS 8191

/* How many frames came to each device, on an lcore. */
struct counts {
    uint64_t received[DEVICES];
} __rte_cache_aligned;

static struct counts counts[RTE_MAX_LCORE];
static uint16_t lcores;

static int open_device(uint16_t port, struct rte_mempool *pool)
{
    struct rte_eth_conf conf;
    memset(&conf, 0, sizeof conf);
    if (rte_eth_dev_configure(port, lcores, lcores, &conf) < 0)
        return 1;
    for (uint16_t queue = 0; queue < lcores; queue++)
        if (rte_eth_rx_queue_setup(port, queue, 512, rte_socket_id(), NULL, pool) < 0 || rte_eth_tx_queue_setup(port, queue, 512, rte_socket_id(), NULL) < 0)
            return 1;
    return rte_eth_dev_start(port) < 0;
}

static void new_addresses(struct rte_mbuf *mbuf, uint16_t port)
{
    struct rte_ether_hdr *ether = rte_pktmbuf_mtod(mbuf, struct rte_ether_hdr *);
    uint64_t to = 0x000000000002 + ((uint64_t)port << 40);
    memcpy(&ether->dst_addr, &to, 6);
    to += 1;
    memcpy(&ether->src_addr, &to, 6);
}

static void forward(uint16_t port, uint16_t queue)
{
    struct rte_mbuf *mbufs[BURST];
    uint16_t count = rte_eth_rx_burst(port, queue, mbufs, BURST), sent;
    for (uint16_t k = 0; k < count; k++)
        new_addresses(mbufs[k], port ^ 1);
    sent = rte_eth_tx_burst(port ^ 1, queue, mbufs, count);
    while (sent < count)
        rte_pktmbuf_free(mbufs[sent++]);
    counts[queue].received[port] += count;
}

static void print_numbers(void)
{
    for (uint16_t queue = 0; queue < lcores; queue++)
        for (int k = 0; k < DEVICES; k++)
            printf("port %d received %llu\n", k, (unsigned long long)counts[queue].received[k]);
    fflush(stdout);
}

/* Forwards on a queue of each device; the first also prints. */
static int forward_all(void *argument)
{
    uint16_t queue = (uint16_t)(uintptr_t)argument;
    while (!is_stopped) {
        for (uint16_t port = 0; port < DEVICES; port++)
            forward(port, queue);
        if (queue == 0 && is_asked) {
            is_asked = 0;
            print_numbers();
        }
    }
    return 0;
}

int main(int argc, char **argv)
{
    struct rte_mempool *pool;
    uint16_t next = 1;
    unsigned lcore;
    if (rte_eal_init(argc, argv) < 0)
        return 2;
    lcores = (uint16_t)rte_lcore_count();
    pool = rte_pktmbuf_pool_create("frames", LCORE_MBUFS * lcores, 256, 0, RTE_MBUF_DEFAULT_BUF_SIZE, SOCKET_ID_ANY);
    if (pool == NULL || rte_eth_dev_count_avail() != DEVICES)
        return 3;
    for (uint16_t port = 0; port < DEVICES; port++)
        if (open_device(port, pool))
            return 4;
    signal(SIGTERM, on_stop);
    signal(SIGUSR1, on_ask);
    RTE_LCORE_FOREACH_WORKER(lcore)
        (void)rte_eal_remote_launch(forward_all, (void *)(uintptr_t)next++, lcore);
    (void)forward_all((void *)(uintptr_t)0);
    rte_eal_mp_wait_lcore();
    print_numbers();
    return 0;
}
