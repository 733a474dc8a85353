/* af_packet PIPELINE [OPTION ..] 0=INTERFACE 1=INTERFACE ..: forwards live frames by the node programs of a pipeline, over Linux packet sockets.

   Each PORT=INTERFACE connects a port of the pipeline to a network interface. Frames sent by a port without an interface are counted
   and dropped. SIGUSR1 prints the counts; SIGINT and SIGTERM print them and end the host. It needs CAP_NET_RAW. An interface that goes down is
   reported, and used again once it is up. Options:

   --control FIFO   takes the commands of control.h from a FIFO, between two bursts
   --max-cost N     ends with status 1 if a run of a program can take more than N instructions
   --turns N        an engine takes N frames, at least 64; then the next one takes over (lasting.h)

   cc -O2 af_packet.c $(pkg-config --cflags --libs dpv) -o af_packet */
#define _GNU_SOURCE
#include "control.h"
#include "options.h"
#include "signals.h"
#include <arpa/inet.h>
#include <errno.h>
#include <linux/if_packet.h>
#include <net/ethernet.h>
#include <net/if.h>
#include <poll.h>
#include <sys/eventfd.h>
#include <sys/socket.h>
#include <time.h>
#include <unistd.h>

#define BURST 64
#define ADDRESSES 12 /* bytes of the two addresses before a VLAN tag */
#define TAG 4        /* bytes of a VLAN tag */

static int sockets[MAX_PORTS];
static const char *names[MAX_PORTS];
static struct control control = {.fd = -1};
static uint64_t unsent[MAX_PORTS], missed[MAX_PORTS], too_long;
static uint8_t frames[BURST][DPV_MAX_FRAME];
static size_t besides[BURST][CMSG_SPACE(sizeof(struct tpacket_auxdata)) / sizeof(size_t)]; /* what the kernel says beside a frame */

/* A packet socket on an interface, which receives incoming frames and no outgoing ones. Until it is bound it has no protocol, and receives
   nothing: else it would also get frames of other interfaces. */
static int open_interface(const char *name)
{
    struct sockaddr_ll address = {0};
    struct packet_mreq everything = {0};
    int one = 1, room = 4 << 20, fd = socket(AF_PACKET, SOCK_RAW | SOCK_NONBLOCK, 0);
    if (fd < 0)
        die("socket");
    address.sll_family = AF_PACKET;
    address.sll_protocol = htons(ETH_P_ALL);
    address.sll_ifindex = (int)if_nametoindex(name);
    everything.mr_ifindex = address.sll_ifindex;
    everything.mr_type = PACKET_MR_PROMISC;
    if (address.sll_ifindex == 0 || setsockopt(fd, SOL_PACKET, PACKET_ADD_MEMBERSHIP, &everything, sizeof everything) < 0
        || setsockopt(fd, SOL_PACKET, PACKET_IGNORE_OUTGOING, &one, sizeof one) < 0
        || setsockopt(fd, SOL_PACKET, PACKET_AUXDATA, &one, sizeof one) < 0)
        die(name);
    /* Larger buffers help with bursts; without the privilege for them the default ones are used. */
    (void)setsockopt(fd, SOL_SOCKET, SO_RCVBUFFORCE, &room, sizeof room);
    (void)setsockopt(fd, SOL_SOCKET, SO_SNDBUFFORCE, &room, sizeof room);
    if (bind(fd, (struct sockaddr *)&address, sizeof address) < 0)
        die(name);
    return fd;
}

/* Takes the interfaces that the arguments name, each for its port. */
static void take_interfaces(int count, char **words, uint32_t ports)
{
    for (int k = 0; k < count; k++) {
        uint32_t port = (uint32_t)(words[k][0] - '0');
        if (port >= ports || words[k][1] != '=') {
            fprintf(stderr, "%s: it has to be PORT=INTERFACE, with a port from 0 to %u\n", words[k], ports - 1);
            exit(2);
        }
        if (names[port] != NULL) {
            fprintf(stderr, "%s: port %u has an interface already\n", words[k], port);
            exit(2);
        }
        names[port] = words[k] + 2;
    }
}

/* Connects the ports to their interfaces. */
static void open_interfaces(void)
{
    for (uint32_t port = 0; port < MAX_PORTS; port++)
        sockets[port] = names[port] == NULL ? -1 : open_interface(names[port]);
}

/* Sends all records of a batch, each at its port. */
static void send_batch(void *none, const struct dpv_batch *batch)
{
    (void)none;
    for (uint64_t k = 0; k < batch->filled.records; k++) {
        const struct dpv_record *record = &batch->records[k];
        int fd = sockets[record->port];
        if (fd < 0 || send(fd, batch->bytes + record->offset, record->length, MSG_DONTWAIT) != (ssize_t)record->length)
            unsent[record->port]++;
    }
}

/* Nanoseconds since 1970. */
static uint64_t now(void)
{
    struct timespec time;
    clock_gettime(CLOCK_REALTIME, &time);
    return (uint64_t)time.tv_sec * 1000000000u + (uint64_t)time.tv_nsec;
}

/* Puts the VLAN tag back that the kernel took off a frame, into the room before it. Returns how many bytes that adds before the frame. */
static uint32_t put_tag(struct msghdr *head, uint8_t *frame)
{
    const struct cmsghdr *beside = CMSG_FIRSTHDR(head);
    struct tpacket_auxdata said;
    uint16_t tag[2];
    if (beside == NULL || beside->cmsg_level != SOL_PACKET || beside->cmsg_type != PACKET_AUXDATA)
        return 0;
    memcpy(&said, CMSG_DATA(beside), sizeof said);
    if ((said.tp_status & TP_STATUS_VLAN_VALID) == 0)
        return 0;
    tag[0] = htons(said.tp_status & TP_STATUS_VLAN_TPID_VALID ? said.tp_vlan_tpid : ETH_P_8021Q);
    tag[1] = htons(said.tp_vlan_tci);
    memmove(frame - TAG, frame, ADDRESSES);
    memcpy(frame - TAG + ADDRESSES, tag, TAG);
    return TAG;
}

/* Receives up to a burst of frames. Returns how many there are; none if the interface is not up. */
static int receive_burst(uint32_t port, struct mmsghdr *messages)
{
    int count;
    for (int k = 0; k < BURST; k++)
        messages[k].msg_hdr.msg_controllen = sizeof besides[k];
    count = recvmmsg(sockets[port], messages, BURST, MSG_TRUNC, NULL);
    if (count < 0 && errno != EAGAIN && errno != EINTR)
        perror(names[port]);
    return count;
}

/* Passes in the frames that a port received, up to a burst. */
static void forward_burst(struct lasting *lasting, uint32_t port, struct mmsghdr *messages)
{
    int count;
    renew_lasting(lasting, BURST, now(), send_batch, NULL);
    count = receive_burst(port, messages);
    for (int k = 0; k < count; k++) {
        uint8_t *frame = frames[k] + TAG;
        uint32_t length = messages[k].msg_len, more;
        if (length > DPV_MAX_FRAME - TAG) {
            too_long++;
            continue;
        }
        more = put_tag(&messages[k].msg_hdr, frame);
        (void)pass_lasting(lasting, port, frame - more, length + more, now());
        send_batch(NULL, &lasting->batch);
    }
}

/* Prints how many frames the kernel dropped at a port, since its socket was full of frames. It counts those since it was asked last. */
static void print_missed(uint32_t port)
{
    struct tpacket_stats stats;
    socklen_t size = sizeof stats;
    if (sockets[port] >= 0 && getsockopt(sockets[port], SOL_PACKET, PACKET_STATISTICS, &stats, &size) == 0)
        missed[port] += stats.tp_drops;
    if (missed[port] > 0)
        printf("port %u missed %" PRIu64 "\n", port, missed[port]);
}

/* Prints the counts so far. */
static void print_all(const struct lasting *lasting)
{
    print_numbers(lasting->engine, lasting->before, unsent);
    for (uint32_t port = 0; port < MAX_PORTS; port++)
        print_missed(port);
    if (too_long > 0)
        printf("too long %" PRIu64 "\n", too_long);
    fflush(stdout);
}

/* Does what the commands say that have come. */
static void run_commands(struct lasting *lasting)
{
    struct command command;
    while (next_command(&control, &command)) {
        if (command.kind == PRINT_STATS)
            print_all(lasting);
        else
            change_route(lasting, &command);
    }
}

/* Where a burst is received. */
static void open_messages(struct mmsghdr *messages, struct iovec *rooms)
{
    memset(messages, 0, BURST * sizeof *messages);
    for (int k = 0; k < BURST; k++) {
        rooms[k].iov_base = frames[k] + TAG;
        rooms[k].iov_len = DPV_MAX_FRAME - TAG;
        messages[k].msg_hdr.msg_iov = &rooms[k];
        messages[k].msg_hdr.msg_iovlen = 1;
        messages[k].msg_hdr.msg_control = besides[k];
    }
}

/* Waits for frames, commands or signals. An interface that goes down is also an event, until its socket is read. */
static void wait_for_events(struct pollfd *waits, uint32_t ports)
{
    for (uint32_t port = 0; port < ports; port++)
        waits[port] = (struct pollfd){.fd = sockets[port], .events = POLLIN};
    waits[ports] = (struct pollfd){.fd = control.fd, .events = POLLIN};
    waits[ports + 1] = (struct pollfd){.fd = signals_come, .events = POLLIN};
    if (poll(waits, ports + 2, -1) < 0 && errno != EINTR)
        die("poll");
}

/* Forwards until a signal ends it. */
static void forward(struct lasting *lasting, uint32_t ports)
{
    struct mmsghdr messages[BURST];
    struct iovec rooms[BURST];
    struct pollfd waits[MAX_PORTS + 2];
    open_messages(messages, rooms);
    while (!is_stopped) {
        prepare_lasting(lasting);
        wait_for_events(waits, ports);
        if (waits[ports + 1].revents & POLLIN)
            take_signals();
        if (is_asked) {
            is_asked = 0;
            print_all(lasting);
            continue;
        }
        if (waits[ports].revents & POLLIN)
            run_commands(lasting);
        for (uint32_t port = 0; port < ports && !is_stopped; port++)
            if (waits[port].revents & (POLLIN | POLLERR))
                forward_burst(lasting, port, messages);
    }
}

int main(int argc, char **argv)
{
    struct sigaction stops = {0}, asks = {0};
    const char *name = take_option(&argc, argv, "--control");
    uint32_t max_cost = (uint32_t)take_number(&argc, argv, "--max-cost", 1, UINT32_MAX), ports;
    uint64_t limit = take_number(&argc, argv, "--turns", BURST, MAX_FRAMES);
    struct pipeline pipeline;
    struct lasting lasting;
    if (argc < 3) {
        fprintf(stderr, "usage: af_packet PIPELINE [--control FIFO] [--max-cost N] [--turns N] 0=INTERFACE 1=INTERFACE ..\n");
        return 2;
    }
    pipeline = read_pipeline(argv[1], max_cost);
    open_lasting(&lasting, &pipeline, limit);
    ports = count_ports(lasting.engine);
    take_interfaces(argc - 2, argv + 2, ports);
    open_interfaces();
    if (name != NULL)
        open_control(&control, name);
    signals_come = eventfd(0, EFD_NONBLOCK | EFD_CLOEXEC);
    if (signals_come < 0)
        die("eventfd");
    stops.sa_handler = on_stop;
    asks.sa_handler = on_ask;
    sigaction(SIGINT, &stops, NULL);
    sigaction(SIGTERM, &stops, NULL);
    sigaction(SIGUSR1, &asks, NULL);
    forward(&lasting, ports);
    print_all(&lasting);
    close_lasting(&lasting);
    return 0;
}
