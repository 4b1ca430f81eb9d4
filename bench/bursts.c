/* Bursts beside single calls, the anchor's bursts and a copy of the same octets. */
#include "anchor.h"
#include "bench.h"
#include "cases.h"
#include "measure.h"

#include <stdio.h>
#include <string.h>

/* Instructions are counted of the first three subjects: those of a single call are counted by themselves. */
enum { BURSTS = 3, COUNTED = 3 };

static const unsigned int burst_counts[BURSTS] = {1, 8, KAWSARPA_BURST_MAX};

static uint8_t ring[(size_t)RING * PACKET_MOST], out[KAWSARPA_BURST_MAX * OUT_SIZE];
static uint32_t lengths[KAWSARPA_BURST_MAX];
static uint64_t answers[KAWSARPA_BURST_MAX];
static struct table table;

static uint64_t nothing(const uint8_t *packets, size_t packets_len, const uint32_t *sizes_of, size_t count, const uint8_t *octets,
                        size_t octets_len, uint8_t *to, size_t to_len, uint64_t *answered, size_t places)
{
    (void)packets, (void)packets_len, (void)sizes_of, (void)count, (void)octets, (void)octets_len, (void)to, (void)to_len, (void)answered;
    (void)places;
    return 0;
}

/* Packet by packet. */
static uint64_t copy(const uint8_t *packets, size_t packets_len, const uint32_t *sizes_of, size_t count, const uint8_t *octets,
                     size_t octets_len, uint8_t *to, size_t to_len, uint64_t *answered, size_t places)
{
    size_t at = 0;
    (void)octets, (void)octets_len, (void)to_len, (void)answered, (void)places;
    for (size_t i = 0; i < count; i++) {
        memcpy(to + at, packets + at, sizes_of[i]);
        at += sizes_of[i];
    }
    return packets_len;
}

/* What a burst does, by single calls. */
static inline uint64_t singly(call *single, const uint8_t *packets, const uint32_t *sizes_of, size_t count, const uint8_t *octets,
                              size_t octets_len, uint8_t *to, size_t to_len, uint64_t *answered)
{
    size_t used = 0;
    for (size_t i = 0; i < count; i++) {
        answered[i] = single(packets, sizes_of[i], octets, octets_len, to + used, to_len - used);
        used += kawsarpa_answer_length(answered[i]);
        packets += sizes_of[i];
    }
    return (uint64_t)used << 40;
}

static uint64_t single_calls6(const uint8_t *packets, size_t packets_len, const uint32_t *sizes_of, size_t count, const uint8_t *octets,
                              size_t octets_len, uint8_t *to, size_t to_len, uint64_t *answered, size_t places)
{
    (void)packets_len, (void)places;
    return singly(kawsarpa_translate_ipv6, packets, sizes_of, count, octets, octets_len, to, to_len, answered);
}

static uint64_t single_calls4(const uint8_t *packets, size_t packets_len, const uint32_t *sizes_of, size_t count, const uint8_t *octets,
                              size_t octets_len, uint8_t *to, size_t to_len, uint64_t *answered, size_t places)
{
    (void)packets_len, (void)places;
    return singly(kawsarpa_translate_ipv4, packets, sizes_of, count, octets, octets_len, to, to_len, answered);
}

/* All packets are sent, in bursts and by single calls with the same answers and octets. */
static void check(const struct kind *kind, const struct bursts *b, burst *const senders[], unsigned int sender_count)
{
    static uint8_t first[sizeof out];
    static uint64_t first_answers[KAWSARPA_BURST_MAX];
    const size_t octets = b->size * b->count, answer_octets = b->count * sizeof answers[0];
    for (unsigned int i = 0; i < b->bursts; i++)
        for (unsigned int s = 0; s < sender_count; s++) {
            const uint8_t *packets = b->packets + octets * i;
            memset(out, (int)s, octets + b->count * (size_t)KAWSARPA_GROWTH_MAX);
            const size_t sent = kawsarpa_answer_length(
                senders[s](packets, octets, b->lengths, b->count, b->table, b->table_len, b->out, b->out_len, b->answers, b->count));
            if (s == 0) {
                memcpy(first, out, sent);
                memcpy(first_answers, answers, answer_octets);
            }
            for (unsigned int k = 0; k < b->count; k++)
                if (kawsarpa_answer_number(answers[k]) != KAWSARPA_ANSWER_SENT)
                    fail("a packet of a burst is refused", kind->name);
            if (sent != kawsarpa_burst_at(answers, b->count) || memcmp(answers, first_answers, answer_octets) != 0 ||
                memcmp(out, first, sent) != 0)
                fail("bursts or single calls differ", kind->name);
        }
}

/* Bursts of a kind: all of the same packet, then the ring. */
static void measure_case(int count, const struct kind *kind, size_t size, unsigned int which, unsigned int packets)
{
    burst *const subjects[SUBJECTS_MOST] = {copy, kind->ipv4 ? anchor_burst_ipv4 : anchor_burst_ipv6,
                                            kind->ipv4 ? kawsarpa_burst_ipv4 : kawsarpa_burst_ipv6,
                                            kind->ipv4 ? single_calls4 : single_calls6};
    static const char *const called[SUBJECTS_MOST] = {"memcpy", "anchor", "library", "single"};
    double ns[SUBJECTS_MOST];
    char where[96], label[128];
    make_table(kind, which, &table);
    for (unsigned int i = 0; i < packets; i++) {
        make_packet(kind, table.records, 0, ring + size * i, size);
        lengths[i] = (uint32_t)size;
    }
    struct bursts b = {ring, size, lengths, packets, 1, table.octets, table.length, out, sizeof out, answers};
    check(kind, &b, subjects + 1, 3);
    snprintf(where, sizeof where, "%s|%zu|%u|%s|hot, bursts of %u", kind->name, size, table.records, table.order, packets);
    for (unsigned int s = 0; count && s < COUNTED; s++) {
        snprintf(label, sizeof label, "%s|%s", where, called[s]);
        measure_burst_instructions(&b, subjects[s], label);
    }
    if (count)
        return;
    measure_burst_times(&b, subjects, SUBJECTS_MOST, ns);
    print_times(where, ns, called, SUBJECTS_MOST);
    for (unsigned int i = 0; i < RING; i++)
        make_packet(kind, table.records, i, ring + size * i, size);
    b.bursts = RING / packets;
    check(kind, &b, subjects + 1, 3);
    snprintf(where, sizeof where, "%s|%zu|%u|%s|ring, bursts of %u", kind->name, size, table.records, table.order, packets);
    measure_burst_times(&b, subjects, SUBJECTS_MOST, ns);
    print_times(where, ns, called, SUBJECTS_MOST);
}

void measure_bursts(int count)
{
    for (unsigned int k = 0; k < kind_count; k++) {
        /* of each behaviour the kind with most segments */
        if (kinds[k].echo || next_is_alike(k))
            continue;
        for (unsigned int s = 1; s < SIZES; s++)
            for (unsigned int t = EIGHT_IN_ORDER; t <= MOST_IN_ORDER; t++)
                for (unsigned int n = 0; n < BURSTS; n++)
                    measure_case(count, &kinds[k], sizes[s], t, burst_counts[n]);
    }
}

void measure_no_burst(const char *label)
{
    const struct bursts none = {ring, 0, lengths, 0, 1, ring, 0, out, 0, answers};
    measure_burst_instructions(&none, nothing, label);
}
