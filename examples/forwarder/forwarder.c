/*
 * A small forwarder over bursts: reads raw IP packets, translates them by a table, up to 32 a call, and sends the results on. Captures
 * stand in for its two ports, so it runs anywhere; in a real one next_packet and send_on are the driver's, and the rest stays. With a
 * fourth name it sends the ICMPv6 messages about packets that are refused, into a capture of their own.
 */
#include <errno.h>
#include <kawsarpa.h>
#include <pcap/pcap.h>
#include <stdbool.h>
#include <stdint.h>
#include <stdio.h>
#include <stdlib.h>
#include <string.h>

/* Exit codes. */
enum { DONE = 0, BAD_INPUT = 1, WRONG_USAGE = 2, SYSTEM_FAILED = 3 };

enum { FRAME_MAX = 262144 }; /* octets of a frame that libpcap hands over */

/* The largest table, and an octet more: the library refuses a longer one. */
static uint8_t table[sizeof(struct kawsarpa_table_header) + KAWSARPA_ENTRIES_MAX * sizeof(struct kawsarpa_entry) +
                     KAWSARPA_RULES_MAX * sizeof(struct kawsarpa_rule) + KAWSARPA_POLICIES_MAX * sizeof(struct kawsarpa_policy) + 1];
static size_t table_len;

/* The packets that are gathered, one after the other, all of one IP version; and what a call makes of them. */
static struct {
    unsigned int version;
    size_t count;
    size_t packets_len;
    uint8_t packets[FRAME_MAX];
    uint32_t lengths[KAWSARPA_BURST_MAX];
    struct timeval times[KAWSARPA_BURST_MAX];
    uint64_t answers[KAWSARPA_BURST_MAX];
    uint8_t out[FRAME_MAX + KAWSARPA_BURST_MAX * KAWSARPA_GROWTH_MAX]; /* room for every result */
} burst;

static struct {
    unsigned long frames, left_out, bursts, echo_answered, messages, answers[UINT8_MAX + 1];
} counts;

static pcap_dumper_t *icmp_out; /* where ICMPv6 messages go; NULL: none is sent */

static void fail(int code, const char *name, const char *fault)
{
    fprintf(stderr, "forwarder: %s: %s\n", name, fault);
    exit(code);
}

/* A table is judged before it is used: with one that is not sound every packet would be refused. */
static void load_table(const char *name)
{
    uint64_t fault;
    FILE *file = fopen(name, "rb");
    if (file == NULL)
        fail(SYSTEM_FAILED, name, strerror(errno));
    table_len = fread(table, 1, sizeof table, file);
    if (ferror(file) != 0)
        fail(SYSTEM_FAILED, name, strerror(errno));
    fclose(file);
    fault = kawsarpa_call_table_fault(table, table_len);
    if (fault != 0) {
        fprintf(stderr, "forwarder: %s: not sound: %s (index %u)\n", name, kawsarpa_fault_name(fault),
                (unsigned int)kawsarpa_fault_index(fault));
        exit(BAD_INPUT);
    }
}

static pcap_t *open_in(const char *name)
{
    char fault[PCAP_ERRBUF_SIZE];
    pcap_t *in = pcap_open_offline_with_tstamp_precision(name, PCAP_TSTAMP_PRECISION_NANO, fault);
    if (in == NULL)
        fail(BAD_INPUT, name, fault);
    if (pcap_datalink(in) != DLT_RAW)
        fail(BAD_INPUT, name, "not a capture of raw IP");
    return in;
}

static pcap_dumper_t *open_out(const char *name)
{
    pcap_t *dead = pcap_open_dead_with_tstamp_precision(DLT_RAW, FRAME_MAX, PCAP_TSTAMP_PRECISION_NANO);
    pcap_dumper_t *out = dead == NULL ? NULL : pcap_dump_open(dead, name);
    if (out == NULL)
        fail(SYSTEM_FAILED, name, dead == NULL ? "no memory" : pcap_geterr(dead));
    pcap_close(dead);
    return out;
}

static void close_out(pcap_dumper_t *out, const char *name)
{
    if (pcap_dump_flush(out) != 0 || ferror(pcap_dump_file(out)) != 0)
        fail(SYSTEM_FAILED, name, strerror(errno));
    pcap_dump_close(out);
}

/* The next packet, whole and with the version of IP; what is none is left out. False at the end. */
static bool next_packet(pcap_t *in, const char *name, struct pcap_pkthdr **header, const uint8_t **packet)
{
    int result;
    while ((result = pcap_next_ex(in, header, packet)) == 1) {
        const unsigned int version = (*header)->caplen > 0 ? (*packet)[0] >> 4 : 0;
        counts.frames++;
        if ((*header)->caplen == (*header)->len && (*header)->caplen <= FRAME_MAX && (version == 4 || version == 6))
            return true;
        counts.left_out++;
    }
    if (result != PCAP_ERROR_BREAK)
        fail(BAD_INPUT, name, pcap_geterr(in));
    return false;
}

/* A result lies in the output of the burst, so it is sent on before the next burst. */
static void send_on(pcap_dumper_t *out, struct timeval time, const uint8_t *result, size_t length)
{
    const struct pcap_pkthdr header = {.ts = time, .caplen = (bpf_u_int32)length, .len = (bpf_u_int32)length};
    pcap_dump((u_char *)out, &header, result);
}

/* The ICMPv6 message about a packet that was refused, where one is due. A real forwarder limits their rate (RFC 4443, section 2.4 f). */
static void send_message(struct timeval time, const uint8_t *packet, size_t length)
{
    uint8_t message[KAWSARPA_ICMP_MAX];
    const uint64_t answer = kawsarpa_call_icmp_ipv6(packet, length, table, table_len, message, sizeof message);
    if (kawsarpa_answer_number(answer) != KAWSARPA_ANSWER_SENT)
        return;
    send_on(icmp_out, time, message, kawsarpa_answer_length(answer));
    counts.messages++;
}

static uint64_t translate(void)
{
    if (burst.version == 4)
        return kawsarpa_call_burst_ipv4(burst.packets, burst.packets_len, burst.lengths, burst.count, table, table_len, burst.out,
                                        sizeof burst.out, burst.answers, KAWSARPA_BURST_MAX);
    return kawsarpa_call_burst_ipv6(burst.packets, burst.packets_len, burst.lengths, burst.count, table, table_len, burst.out,
                                    sizeof burst.out, burst.answers, KAWSARPA_BURST_MAX);
}

/* Translates what is gathered, sends the results on, and begins anew. */
static void forward(pcap_dumper_t *out)
{
    struct kawsarpa_burst_result result;
    const uint8_t *packet = burst.packets;
    unsigned int number;
    size_t i;

    if (burst.count == 0)
        return;
    number = kawsarpa_answer_number(translate());
    if (number != KAWSARPA_ANSWER_SENT) /* the burst as a whole is refused, and no answer was written: our lengths are wrong */
        fail(SYSTEM_FAILED, "burst", kawsarpa_answer_name(number));

    /* what was sent: in the order of the packets, where refused ones have no place */
    kawsarpa_burst_first(&result);
    while (kawsarpa_burst_next(&result, burst.answers, burst.count)) {
        send_on(out, burst.times[result.packet], burst.out + result.at, result.length);
        counts.echo_answered += kawsarpa_is_echo_response(burst.out + result.at, result.length) != 0;
    }
    /* and each answer; of a refusal its ICMP fields say what to send back, if anything (kawsarpa_answer_icmp_type and so on) */
    for (i = 0; i < burst.count; packet += burst.lengths[i++]) {
        counts.answers[kawsarpa_answer_number(burst.answers[i])]++;
        if (icmp_out != NULL && kawsarpa_answer_icmp_type(burst.answers[i]) != 0)
            send_message(burst.times[i], packet, burst.lengths[i]);
    }

    counts.bursts++;
    burst.count = 0;
    burst.packets_len = 0;
}

/* A burst is of one IP version. A packet of the other version ends it, so that packets leave in the order in which they came. */
static void gather(pcap_dumper_t *out, const struct pcap_pkthdr *header, const uint8_t *packet)
{
    const unsigned int version = packet[0] >> 4;
    if (version != burst.version || header->caplen > sizeof burst.packets - burst.packets_len)
        forward(out);
    burst.version = version;
    memcpy(burst.packets + burst.packets_len, packet, header->caplen);
    burst.packets_len += header->caplen;
    burst.lengths[burst.count] = header->caplen;
    burst.times[burst.count] = header->ts;
    burst.count++;
    if (burst.count == KAWSARPA_BURST_MAX)
        forward(out);
}

static void say_counts(void)
{
    unsigned int number;
    printf("packets %lu, bursts %lu; frames left out %lu\n", counts.frames - counts.left_out, counts.bursts, counts.left_out);
    counts.answers[KAWSARPA_ANSWER_SENT] -= counts.echo_answered;
    for (number = 0; number <= UINT8_MAX; number++) {
        if (counts.answers[number] > 0)
            printf("%8lu  %2u %s\n", counts.answers[number], number, kawsarpa_answer_name(number));
        if (number == KAWSARPA_ANSWER_SENT && counts.echo_answered > 0)
            printf("%8lu  %2u Echo Request answered\n", counts.echo_answered, number);
    }
    if (icmp_out != NULL)
        printf("ICMPv6 messages sent: %lu\n", counts.messages);
}

int main(int argc, char **argv)
{
    static const char usage[] = "usage: forwarder TABLE IN.pcap OUT.pcap\n"
                                "       forwarder TABLE IN.pcap OUT.pcap ICMP.pcap\n"
                                "TABLE is made by `kawsarpa compile', the captures are of raw IP.\n"
                                "Exit codes: 0 done; 1 the table is not sound, or the capture bad; 2 wrong usage; 3 the system failed.\n";
    const bool help = argc == 2 && strcmp(argv[1], "--help") == 0;
    struct pcap_pkthdr *header;
    const uint8_t *packet;
    pcap_dumper_t *out;
    pcap_t *in;

    if (argc != 4 && argc != 5) {
        fputs(usage, help ? stdout : stderr);
        return help ? DONE : WRONG_USAGE;
    }
    load_table(argv[1]);
    in = open_in(argv[2]);
    out = open_out(argv[3]);
    icmp_out = argc == 5 ? open_out(argv[4]) : NULL;
    while (next_packet(in, argv[2], &header, &packet))
        gather(out, header, packet);
    forward(out); /* the rest; at a port, also where no packet waits */
    close_out(out, argv[3]);
    if (icmp_out != NULL)
        close_out(icmp_out, argv[4]);
    pcap_close(in);
    say_counts();
    return DONE;
}
