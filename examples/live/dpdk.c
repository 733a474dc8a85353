/* dpdk EAL-OPTIONS -- PIPELINE [OPTION ..] [BURST [IDLE]]: forwards frames by the node programs of a pipeline, over DPDK's ethernet devices.

   Port k of the pipeline is device k of DPDK. Each lcore (-l 0-3) has an engine of its own, and of each device a receive queue and a transmit
   queue, up to as many lcores as each device has queues; a device with several queues hands each flow to one of them (RSS). BURST is how many
   frames are taken from a queue at once (32; some cards give none to a burst below 4 or 8); with IDLE an lcore ends after that many rounds
   without a frame. SIGUSR1 prints the counts; SIGINT and SIGTERM print them and end the host. Options:

   --control FIFO   a thread takes the commands of control.h from a FIFO, and hands each to every engine over a ring of its own, which is emptied
                    between two bursts
   --max-cost N     ends with status 1 if a run of a program can take more than N instructions
   --turns N        an engine takes N frames, at least BURST; then the next one takes over (lasting.h)

   Without huge pages or a card:

   dpdk --no-huge --no-pci -m 256 --vdev net_pcap0,rx_pcap=in.pcap,tx_pcap=out.pcap -- pipeline.toml 1 1000
   cc -O2 dpdk.c $(pkg-config --cflags --libs libdpdk dpv) -o dpdk */
#include "control.h"
#include "options.h"
#include "signals.h"
#include <pthread.h>
#include <rte_cycles.h>
#include <rte_eal.h>
#include <rte_ethdev.h>
#include <rte_launch.h>
#include <rte_lcore.h>
#include <rte_mbuf.h>
#include <rte_ring.h>

#define QUEUE_SLOTS 512
#define LCORE_MBUFS 8191
#define POOL_CACHE 256
#define MAX_FRAME 65536 /* no card receives longer ones, and the mbufs that net_pcap makes of them are wrong */
#define COMMANDS 256
#define FLOWS (RTE_ETH_RSS_IP | RTE_ETH_RSS_TCP | RTE_ETH_RSS_UDP)

/* What an lcore has for itself. */
struct worker {
    struct lasting lasting;
    struct rte_ring *commands;
    int has_ended; /* set by its lcore, for the control thread */
    uint16_t queue;
    uint16_t waits[MAX_PORTS];
    struct rte_mbuf *waiting[MAX_PORTS][MAX_BURST];
    uint64_t unsent[MAX_PORTS];
    uint64_t too_long;
    uint8_t flat[MAX_FRAME];
} __rte_cache_aligned;

static struct worker workers[RTE_MAX_LCORE];
static uint16_t lcores, devices, burst = 32;
static long idle;
static uint64_t limit;
static struct pipeline pipeline;
static struct rte_mempool *pool;
static struct control control = {.fd = -1};
static pthread_mutex_t printing = PTHREAD_MUTEX_INITIALIZER;

/* Ends the host if a call of DPDK failed. */
static void check(int answer, const char *what)
{
    if (answer >= 0)
        return;
    fprintf(stderr, "%s: %s\n", what, rte_strerror(-answer));
    exit(3);
}

/* How many lcores can have queues of their own at all devices. */
static uint16_t count_lcores(void)
{
    uint16_t count = (uint16_t)rte_lcore_count();
    for (uint16_t port = 0; port < devices; port++) {
        struct rte_eth_dev_info info;
        check(rte_eth_dev_info_get(port, &info), "information");
        if (count > info.max_rx_queues)
            count = info.max_rx_queues;
        if (count > info.max_tx_queues)
            count = info.max_tx_queues;
    }
    return count;
}

/* Opens a device with a queue each way for each lcore. Frames that are sent may have several segments, which a device may need to know. */
static void open_device(uint16_t port)
{
    struct rte_eth_conf conf;
    struct rte_eth_dev_info info;
    uint16_t receives = QUEUE_SLOTS, sends = QUEUE_SLOTS;
    memset(&conf, 0, sizeof conf);
    check(rte_eth_dev_info_get(port, &info), "information");
    if (lcores > 1 && (info.flow_type_rss_offloads & FLOWS) != 0) {
        conf.rxmode.mq_mode = RTE_ETH_MQ_RX_RSS;
        conf.rx_adv_conf.rss_conf.rss_hf = info.flow_type_rss_offloads & FLOWS;
    }
    conf.txmode.offloads = info.tx_offload_capa & RTE_ETH_TX_OFFLOAD_MULTI_SEGS;
    check(rte_eth_dev_configure(port, lcores, lcores, &conf), "configure");
    check(rte_eth_dev_adjust_nb_rx_tx_desc(port, &receives, &sends), "queue sizes");
    for (uint16_t queue = 0; queue < lcores; queue++) {
        check(rte_eth_rx_queue_setup(port, queue, receives, rte_socket_id(), NULL, pool), "receive queue");
        check(rte_eth_tx_queue_setup(port, queue, sends, rte_socket_id(), NULL), "transmit queue");
    }
    check(rte_eth_dev_start(port), "start");
    (void)rte_eth_promiscuous_enable(port);
}

/* An mbuf with these bytes, in as many segments as they need; or none. */
static struct rte_mbuf *mbuf_of(const uint8_t *bytes, uint32_t length)
{
    struct rte_mbuf *head = rte_pktmbuf_alloc(pool), *last = head;
    while (last != NULL) {
        uint16_t room = rte_pktmbuf_tailroom(last), part = length < room ? (uint16_t)length : room;
        memcpy(rte_pktmbuf_append(head, part), bytes, part);
        bytes += part;
        length -= part;
        if (length == 0)
            return head;
        last = rte_pktmbuf_alloc(pool);
        if (last == NULL || rte_pktmbuf_chain(head, last) != 0) {
            rte_pktmbuf_free(last);
            break;
        }
    }
    rte_pktmbuf_free(head);
    return NULL;
}

/* Sends the frames that wait at a port. One that its device does not take is counted, and those after it are tried again: the device may refuse it
   for its length alone. */
static void send_waiting(struct worker *worker, uint16_t port)
{
    uint16_t waits = worker->waits[port], done = 0;
    while (done < waits) {
        done += rte_eth_tx_burst(port, worker->queue, worker->waiting[port] + done, waits - done);
        if (done == waits)
            break;
        rte_pktmbuf_free(worker->waiting[port][done++]);
        worker->unsent[port]++;
    }
    worker->waits[port] = 0;
}

/* Queues all records of a batch, each at its port. */
static void keep_batch(void *host, const struct dpv_batch *batch)
{
    struct worker *worker = (struct worker *)host;
    for (uint64_t k = 0; k < batch->filled.records; k++) {
        const struct dpv_record *record = &batch->records[k];
        uint16_t port = (uint16_t)record->port;
        struct rte_mbuf *mbuf = port < devices ? mbuf_of(batch->bytes + record->offset, record->length) : NULL;
        if (mbuf == NULL) {
            worker->unsent[port]++;
            continue;
        }
        worker->waiting[port][worker->waits[port]++] = mbuf;
        if (worker->waits[port] == MAX_BURST)
            send_waiting(worker, port);
    }
}

/* Passes in a frame, and queues the frames that are sent for it. One that is too long is counted. */
static void forward_frame(struct worker *worker, uint16_t port, struct rte_mbuf *mbuf)
{
    uint32_t length = rte_pktmbuf_pkt_len(mbuf);
    const uint8_t *bytes = length > MAX_FRAME ? NULL : (const uint8_t *)rte_pktmbuf_read(mbuf, 0, length, worker->flat);
    if (bytes == NULL)
        worker->too_long++;
    else
        (void)pass_lasting(&worker->lasting, port, bytes, length, rte_rdtsc());
    rte_pktmbuf_free(mbuf);
    if (bytes != NULL)
        keep_batch(worker, &worker->lasting.batch);
}

/* Takes frames from each device in turn, and sends the results after each. Returns how many frames came. */
static long forward_round(struct worker *worker)
{
    long came = 0;
    for (uint16_t port = 0; port < devices; port++) {
        struct rte_mbuf *mbufs[MAX_BURST];
        uint16_t count;
        renew_lasting(&worker->lasting, burst, rte_rdtsc(), keep_batch, worker);
        count = rte_eth_rx_burst(port, worker->queue, mbufs, burst);
        for (uint16_t k = 0; k < count; k++)
            forward_frame(worker, port, mbufs[k]);
        for (uint16_t to = 0; to < devices; to++)
            send_waiting(worker, to);
        came += count;
    }
    return came;
}

/* Prints the counts of a worker's engine, and which engine it is where there are several. */
static void print_worker(const struct worker *worker)
{
    pthread_mutex_lock(&printing);
    if (lcores > 1)
        printf("engine %u\n", worker->queue);
    print_numbers(worker->lasting.engine, worker->lasting.before, worker->unsent);
    if (worker->too_long > 0)
        printf("too long %" PRIu64 "\n", worker->too_long);
    fflush(stdout);
    pthread_mutex_unlock(&printing);
}

/* Does what the commands say that were handed to a worker. */
static void run_commands(struct worker *worker)
{
    void *handed;
    while (rte_ring_dequeue(worker->commands, &handed) == 0) {
        struct command *command = (struct command *)handed;
        if (command->kind == PRINT_STATS) {
            print_worker(worker);
        } else {
            pthread_mutex_lock(&printing);
            change_route(&worker->lasting, command);
            pthread_mutex_unlock(&printing);
        }
        free(command);
    }
}

/* Hands a command to an engine, unless its lcore has ended. */
static void hand_to(struct worker *worker, const struct command *command)
{
    struct command *copy = (struct command *)malloc(sizeof *copy);
    if (copy == NULL)
        die("memory");
    *copy = *command;
    while (rte_ring_enqueue(worker->commands, copy) != 0) {
        if (is_stopped || __atomic_load_n(&worker->has_ended, __ATOMIC_ACQUIRE)) {
            free(copy);
            return;
        }
        usleep(1000);
    }
}

/* Hands a command to every engine. */
static void hand_to_all(const struct command *command)
{
    for (uint16_t k = 0; k < lcores; k++)
        hand_to(&workers[k], command);
}

/* The control thread: takes commands from the FIFO and from SIGUSR1. */
static void *read_commands(void *none)
{
    while (!is_stopped) {
        struct command command;
        while (control.fd >= 0 && next_command(&control, &command))
            hand_to_all(&command);
        if (is_asked) {
            is_asked = 0;
            command.kind = PRINT_STATS;
            hand_to_all(&command);
        }
        usleep(1000);
    }
    return none;
}

/* Forwards until a signal ends it, or no frame comes for `idle` rounds. */
static void forward_rounds(struct worker *worker)
{
    long quiet = 0;
    while (!is_stopped && (idle == 0 || quiet < idle)) {
        quiet = forward_round(worker) == 0 ? quiet + 1 : 0;
        if (quiet > 0)
            prepare_lasting(&worker->lasting);
        if (!rte_ring_empty(worker->commands))
            run_commands(worker);
    }
}

/* What an lcore does: it opens its engine, forwards, and closes it. The main lcore's is already open. */
static int forward(void *argument)
{
    struct worker *worker = (struct worker *)argument;
    if (worker->queue > 0)
        open_lasting(&worker->lasting, &pipeline, limit);
    forward_rounds(worker);
    __atomic_store_n(&worker->has_ended, 1, __ATOMIC_RELEASE);
    run_commands(worker);
    print_worker(worker);
    pthread_mutex_lock(&printing);
    close_lasting(&worker->lasting);
    pthread_mutex_unlock(&printing);
    return 0;
}

/* Makes the ring of a worker's commands. */
static void open_worker(uint16_t queue)
{
    struct worker *worker = &workers[queue];
    char name[32];
    snprintf(name, sizeof name, "commands%u", queue);
    worker->queue = queue;
    worker->commands = rte_ring_create(name, COMMANDS, SOCKET_ID_ANY, RING_F_SP_ENQ | RING_F_SC_DEQ);
    if (worker->commands == NULL)
        check(-rte_errno, "ring");
}

/* Opens all devices, and what the workers need. */
static void open_all(void)
{
    devices = rte_eth_dev_count_avail();
    if (devices == 0) {
        fprintf(stderr, "there is no device: name one by -a or --vdev\n");
        exit(2);
    }
    lcores = count_lcores();
    for (uint16_t queue = 0; queue < lcores; queue++)
        open_worker(queue);
    open_lasting(&workers[0].lasting, &pipeline, limit);
    if (devices > count_ports(workers[0].lasting.engine)) {
        fprintf(stderr, "there are %u devices, and the pipeline has fewer ports\n", devices);
        exit(2);
    }
    pool = rte_pktmbuf_pool_create("frames", LCORE_MBUFS * lcores, POOL_CACHE, 0, RTE_MBUF_DEFAULT_BUF_SIZE, SOCKET_ID_ANY);
    if (pool == NULL)
        check(-rte_errno, "mempool");
    for (uint16_t port = 0; port < devices; port++)
        open_device(port);
}

/* Forwards on all lcores, until all of them have ended. */
static void forward_on_all(void)
{
    unsigned lcore;
    uint16_t next = 1;
    pthread_t reader;
    if (rte_ctrl_thread_create(&reader, "control", NULL, read_commands, NULL) != 0)
        die("thread");
    RTE_LCORE_FOREACH_WORKER(lcore)
        if (next < lcores)
            check(rte_eal_remote_launch(forward, &workers[next++], lcore), "lcore");
    (void)forward(&workers[0]);
    rte_eal_mp_wait_lcore();
    is_stopped = 1;
    pthread_join(reader, NULL);
}

/* Takes the options and the arguments: how many frames are taken at once, and after how many rounds without a frame an lcore ends. Returns the
   name of the FIFO, or NULL. */
static const char *take_arguments(int words, char **argv)
{
    const char *name = take_option(&words, argv, "--control");
    uint32_t max_cost = (uint32_t)take_number(&words, argv, "--max-cost", 1, UINT32_MAX);
    limit = take_number(&words, argv, "--turns", 1, MAX_FRAMES);
    if (words < 2 || words > 4) {
        fprintf(stderr, "usage: dpdk EAL-OPTIONS -- PIPELINE [--control FIFO] [--max-cost N] [--turns N] [BURST [IDLE]]\n");
        exit(2);
    }
    if (words > 2)
        burst = (uint16_t)atoi(argv[2]);
    if (burst < 1 || burst > MAX_BURST)
        burst = 32;
    if (limit < burst) {
        fprintf(stderr, "--turns: it has to be at least the burst, %u\n", burst);
        exit(2);
    }
    idle = words > 3 ? atol(argv[3]) : 0;
    pipeline = read_pipeline(argv[1], max_cost);
    return name;
}

int main(int argc, char **argv)
{
    int used = rte_eal_init(argc, argv);
    const char *name;
    check(used, "EAL");
    name = take_arguments(argc - used, argv + used);
    open_all();
    if (name != NULL)
        open_control(&control, name);
    signal(SIGINT, on_stop);
    signal(SIGTERM, on_stop);
    signal(SIGUSR1, on_ask);
    forward_on_all();
    for (uint16_t port = 0; port < devices; port++) {
        rte_eth_dev_stop(port);
        rte_eth_dev_close(port);
    }
    rte_eal_cleanup();
    return 0;
}
