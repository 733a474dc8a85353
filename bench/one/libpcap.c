/* libpcap IN OUT: takes 14 bytes off each record of a capture, over libpcap; for bench/one.py. */
#include <pcap.h>

int main(int argc, char **argv)
{
    char why[PCAP_ERRBUF_SIZE];
    struct pcap_pkthdr *head;
    const u_char *bytes;
    int got;
    pcap_t *in = argc == 3 ? pcap_open_offline(argv[1], why) : NULL;
    pcap_dumper_t *out = in ? pcap_dump_open(in, argv[2]) : NULL;
    if (out == NULL)
        return 2;
    while ((got = pcap_next_ex(in, &head, &bytes)) == 1) {
        struct pcap_pkthdr less = *head;
        if (less.caplen < 14)
            continue;
        less.caplen -= 14;
        less.len = less.caplen;
        pcap_dump((u_char *)out, &less, bytes + 14);
    }
    int failed = got != PCAP_ERROR_BREAK || pcap_dump_flush(out) != 0;
    pcap_dump_close(out);
    pcap_close(in);
    return failed ? 3 : 0;
}
