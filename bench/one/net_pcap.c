// net_pcap IN OUT: takes 14 bytes off each packet of a capture, over DPDK's device net_pcap, which stamps its own times; for bench/one.py.
#include <stdio.h>

#include <rte_eal.h>
#include <rte_ethdev.h>
#include <rte_mbuf.h>

#define BURST 32
#define COUNT 1023
#define RINGS 256

// The device's one queue each way.
static int is_started(struct rte_mempool *pool) {
    struct rte_eth_conf conf = {0};
    return pool && rte_eth_dev_configure(0, 1, 1, &conf) == 0 && rte_eth_rx_queue_setup(0, 0, RINGS, SOCKET_ID_ANY, NULL, pool) == 0 &&
        rte_eth_tx_queue_setup(0, 0, RINGS, SOCKET_ID_ANY, NULL) == 0 && rte_eth_dev_start(0) == 0;
}

// Takes the bytes off, and gives up a packet that is too short; returns how many are left.
static uint16_t stripped(struct rte_mbuf **packets, uint16_t count) {
    uint16_t kept = 0;
    for (uint16_t k = 0; k < count; k++) {
        if (rte_pktmbuf_adj(packets[k], 14)) packets[kept++] = packets[k];
        else rte_pktmbuf_free(packets[k]);
    }
    return kept;
}

int main(int argc, char **argv) {
    char device[1024];
    struct rte_mbuf *packets[BURST];
    uint16_t came, kept;
    if (argc != 3) return 2;
    snprintf(device, sizeof device, "--vdev=net_pcap0,rx_pcap=%s,tx_pcap=%s", argv[1], argv[2]);
    char *words[] = {argv[0], "--no-huge", "--no-pci", "--no-shconf", "-m", "256", "--no-telemetry", "--log-level=lib.eal:error", device, NULL};
    if (rte_eal_init(9, words) < 0 || rte_eth_dev_count_avail() != 1) return 2;
    if (!is_started(rte_pktmbuf_pool_create("packets", COUNT, 256, 0, RTE_MBUF_DEFAULT_BUF_SIZE, SOCKET_ID_ANY))) return 2;
    // (the device hands out nothing at the capture's end, and only there)
    while ((came = rte_eth_rx_burst(0, 0, packets, BURST)) > 0) {
        kept = stripped(packets, came);
        if (rte_eth_tx_burst(0, 0, packets, kept) != kept) return 3;
    }
    return rte_eth_dev_stop(0) == 0 && rte_eth_dev_close(0) == 0 ? 0 : 3;
}
