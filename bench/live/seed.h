/* Put before a host by cc -include, for bench/live.py: a device that has started gets frames in each of its queues, from which they come back where
   its rings are its own (net_ring). So they circle between two devices for ever. SEED is how many each queue gets, of SIZE bytes. */
#ifndef SEED_H
#define SEED_H

#include <rte_ethdev.h>
#include <rte_mbuf.h>

#define SEED 256

static inline int start_with_frames(uint16_t port)
{
    int answer = rte_eth_dev_start(port);
    struct rte_eth_dev_info info;
    rte_eth_dev_info_get(port, &info);
    for (uint16_t queue = 0; answer == 0 && queue < info.nb_tx_queues; queue++)
        for (int k = 0; k < SEED; k++) {
            struct rte_mbuf *mbuf = rte_pktmbuf_alloc(rte_mempool_lookup("frames"));
            memset(rte_pktmbuf_append(mbuf, SIZE), 7, SIZE);
            if (rte_eth_tx_burst(port, queue, &mbuf, 1) != 1)
                rte_pktmbuf_free(mbuf);
        }
    return answer;
}

#define rte_eth_dev_start start_with_frames

#endif
