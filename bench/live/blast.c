/* blast INTERFACE SIZE: sends frames of SIZE bytes over an interface, as fast as it can, until a signal ends it; for bench/live.py. */
#define _GNU_SOURCE
#include <arpa/inet.h>
#include <linux/if_packet.h>
#include <net/ethernet.h>
#include <net/if.h>
#include <stdint.h>
#include <stdio.h>
#include <stdlib.h>
#include <string.h>
#include <sys/socket.h>

#define BURST 64

int main(int argc, char **argv)
{
    static uint8_t frame[65536] = {2, 0, 0, 0, 0, 2, 2, 0, 0, 0, 0, 1, 8, 0, 0x45, 0, 0, 46, 0, 0, 0, 0, 64, 17, 0, 0, 10, 0, 0, 1, 10, 1, 0, 1};
    struct mmsghdr messages[BURST];
    struct iovec part = {.iov_base = frame};
    struct sockaddr_ll address = {0};
    int fd = socket(AF_PACKET, SOCK_RAW, 0);
    if (argc != 3 || fd < 0)
        return 2;
    part.iov_len = (size_t)atol(argv[2]);
    address.sll_family = AF_PACKET;
    address.sll_ifindex = (int)if_nametoindex(argv[1]);
    if (bind(fd, (struct sockaddr *)&address, sizeof address) < 0)
        return perror(argv[1]), 3;
    memset(messages, 0, sizeof messages);
    for (int k = 0; k < BURST; k++) {
        messages[k].msg_hdr.msg_iov = &part;
        messages[k].msg_hdr.msg_iovlen = 1;
    }
    for (;;)
        (void)sendmmsg(fd, messages, BURST, 0);
}
