/* bench time: nanoseconds a call. bench count, under callgrind: instructions a call. A line, or a label, for each:

       kind|octets|records|order|load|subject...

   All subjects of a line are measured together, batch by batch. Of bursts the nanoseconds are a packet's, the instructions a whole
   burst's. The kind of an ICMPv6 message is what is refused, and where. An offer's kind is its arrival and its records are rows; a
   reader's kind is IPv6 or IPv4. */
#include "anchor.h"
#include "bench.h"
#include "cases.h"
#include "measure.h"

#include <stdio.h>
#include <stdlib.h>
#include <string.h>

enum { STRIDE = 1600 }; /* an odd number of cache lines, so that packets spread over all sets of a cache */

static uint8_t ring[(size_t)RING * STRIDE], out[OUT_SIZE];
static struct table table;
static struct kawsarpa_loss_row rows[KAWSARPA_LOSS_ROWS_MAX];

/* The record that the first packet matches, for the anchor without a table. */
static const void *found;
static const struct kawsarpa_policy *found_policy;

static uint64_t nothing(const uint8_t *packet, size_t packet_len, const uint8_t *octets, size_t octets_len, uint8_t *to, size_t to_len)
{
    (void)packet, (void)packet_len, (void)octets, (void)octets_len, (void)to, (void)to_len;
    return 0;
}

static uint64_t copy(const uint8_t *packet, size_t packet_len, const uint8_t *octets, size_t octets_len, uint8_t *to, size_t to_len)
{
    (void)octets, (void)octets_len, (void)to_len;
    memcpy(to, packet, packet_len);
    return packet_len;
}

static uint64_t bare_ipv6(const uint8_t *packet, size_t packet_len, const uint8_t *octets, size_t octets_len, uint8_t *to, size_t to_len)
{
    (void)octets, (void)octets_len;
    return anchor_at_entry(found, found_policy, packet, packet_len, to, to_len);
}

static uint64_t bare_ipv4(const uint8_t *packet, size_t packet_len, const uint8_t *octets, size_t octets_len, uint8_t *to, size_t to_len)
{
    (void)octets, (void)octets_len;
    return anchor_at_rule(found, packet, packet_len, to, to_len);
}

static uint64_t nothing_offered(struct kawsarpa_loss_row *lent, size_t count, uint32_t teid, uint16_t number)
{
    (void)lent, (void)count, (void)teid, (void)number;
    return 0;
}

static uint64_t anchor_soundness(const uint8_t *packet, size_t packet_len, const uint8_t *octets, size_t octets_len, uint8_t *to,
                                 size_t to_len)
{
    struct anchor_table records;
    (void)packet, (void)packet_len, (void)to, (void)to_len;
    return anchor_sound(octets, octets_len, &records) ? 0 : 1;
}

static uint64_t library_soundness(const uint8_t *packet, size_t packet_len, const uint8_t *octets, size_t octets_len, uint8_t *to,
                                  size_t to_len)
{
    (void)packet, (void)packet_len, (void)to, (void)to_len;
    return kawsarpa_table_fault(octets, octets_len);
}

static uint64_t anchor_reader6(const uint8_t *packet, size_t packet_len, const uint8_t *octets, size_t octets_len, uint8_t *to,
                               size_t to_len)
{
    (void)octets, (void)octets_len, (void)to, (void)to_len;
    return anchor_sequence_ipv6(packet, packet_len);
}

static uint64_t anchor_reader4(const uint8_t *packet, size_t packet_len, const uint8_t *octets, size_t octets_len, uint8_t *to,
                               size_t to_len)
{
    (void)octets, (void)octets_len, (void)to, (void)to_len;
    return anchor_sequence_ipv4(packet, packet_len);
}

static uint64_t library_reader6(const uint8_t *packet, size_t packet_len, const uint8_t *octets, size_t octets_len, uint8_t *to,
                                size_t to_len)
{
    (void)octets, (void)octets_len, (void)to, (void)to_len;
    return kawsarpa_sequence_ipv6(packet, packet_len);
}

static uint64_t library_reader4(const uint8_t *packet, size_t packet_len, const uint8_t *octets, size_t octets_len, uint8_t *to,
                                size_t to_len)
{
    (void)octets, (void)octets_len, (void)to, (void)to_len;
    return kawsarpa_sequence_ipv4(packet, packet_len);
}

void fail(const char *what, const char *kind)
{
    fprintf(stderr, "bench: %s: %s\n", kind, what);
    exit(1);
}

/* What is measured is sent, and all senders send the same. */
static void check(const struct kind *kind, const struct load *l, call *const senders[], unsigned int sender_count)
{
    static uint8_t first[OUT_SIZE];
    for (unsigned int i = 0; i < l->count; i++) {
        const uint8_t *packet = l->packets + l->stride * i;
        const uint64_t answer = senders[0](packet, l->size, l->table, l->table_len, out, sizeof out);
        if (kawsarpa_answer_number(answer) != KAWSARPA_ANSWER_SENT)
            fail("a packet is refused", kind->name);
        memcpy(first, out, sizeof out);
        for (unsigned int s = 1; s < sender_count; s++)
            if (senders[s](packet, l->size, l->table, l->table_len, out, sizeof out) != answer || memcmp(out, first, sizeof out) != 0)
                fail("anchor and library differ", kind->name);
    }
}

static const char *const names[SUBJECTS_MOST] = {"memcpy", "bare", "anchor", "library"};

void print_times(const char *where, const double ns[], const char *const called[], unsigned int n)
{
    printf("%s", where);
    for (unsigned int s = 0; s < n; s++)
        printf("|%s=%.2f", called[s], ns[s]);
    printf("\n");
}

static void measure(int count, const char *where, const struct load *l, call *const subjects[], const char *const called[], unsigned int n)
{
    double ns[SUBJECTS_MOST];
    char label[128];
    if (count) {
        for (unsigned int s = 0; s < n; s++) {
            snprintf(label, sizeof label, "%s|%s", where, called[s]);
            measure_instructions(l, subjects[s], label);
        }
        return;
    }
    measure_times(l, subjects, n, ns);
    print_times(where, ns, called, n);
}

/* A kind with packets of a size and one of its tables: the same packet again and again, then the ring. */
static void measure_case(int count, const struct kind *kind, size_t size, unsigned int which)
{
    call *const subjects[SUBJECTS_MOST] = {copy, kind->ipv4 ? bare_ipv4 : bare_ipv6,
                                           kind->ipv4 ? anchor_translate_ipv4 : anchor_translate_ipv6,
                                           kind->ipv4 ? kawsarpa_translate_ipv4 : kawsarpa_translate_ipv6};
    call *const with_table[3] = {copy, subjects[2], subjects[3]};
    const char *const with_table_names[3] = {names[0], names[2], names[3]};
    struct anchor_table records;
    char where[96];
    make_table(kind, which, &table);
    for (unsigned int i = 0; i < (count ? 1 : RING); i++)
        make_packet(kind, table.records, i, ring + (size_t)STRIDE * i, size);
    struct load l = {ring, STRIDE, size, 1, table.octets, table.length, out, sizeof out};
    if (!anchor_sound(table.octets, table.length, &records))
        fail("table not sound", kind->name);
    found = kind->ipv4 ? (const void *)anchor_find_rule(&records, ring + 16) : (const void *)anchor_find_entry(&records, ring + 24);
    found_policy = records.policies;
    check(kind, &l, subjects + 1, 3);
    snprintf(where, sizeof where, "%s|%zu|%u|%s|hot", kind->name, size, table.records, table.order);
    measure(count, where, &l, subjects, names, SUBJECTS_MOST);
    if (count)
        return;
    l.count = RING;
    check(kind, &l, subjects + 2, 2);
    snprintf(where, sizeof where, "%s|%zu|%u|%s|ring", kind->name, size, table.records, table.order);
    measure(count, where, &l, with_table, with_table_names, 3);
}

/* Soundness alone. */
static void measure_soundness(int count, const char *name)
{
    call *const subjects[2] = {anchor_soundness, library_soundness};
    const struct load l = {ring, STRIDE, 0, 1, table.octets, table.length, out, sizeof out};
    char where[96];
    if (anchor_soundness(NULL, 0, table.octets, table.length, NULL, 0) != 0 || kawsarpa_table_fault(table.octets, table.length) != 0)
        fail("table not sound", name);
    snprintf(where, sizeof where, "%s|0|%u|%s|soundness", name, table.records, table.order);
    measure(count, where, &l, subjects, names + 2, 2);
}

/* Anchor and library give the report's answer, and leave the same octets. */
static void check_icmp(const struct report *report, const struct load *l)
{
    static uint8_t by_anchor[OUT_SIZE];
    memset(by_anchor, 0xA5, sizeof by_anchor);
    memset(out, 0xA5, sizeof out);
    const uint64_t answer = kawsarpa_icmp_ipv6(l->packets, l->size, l->table, l->table_len, out, sizeof out);
    if (kawsarpa_answer_number(answer) != report->answer)
        fail("another answer", report->name);
    if (anchor_icmp_ipv6(l->packets, l->size, l->table, l->table_len, by_anchor, sizeof by_anchor) != answer ||
        memcmp(by_anchor, out, sizeof out) != 0)
        fail("anchor and library differ", report->name);
}

/* The ICMPv6 message about a packet, or that none is due, beside the library's IPv6 call of that packet. */
static void measure_icmp(int count, const struct report *report, size_t size, unsigned int which)
{
    call *const subjects[3] = {kawsarpa_translate_ipv6, anchor_icmp_ipv6, kawsarpa_icmp_ipv6};
    const char *const called[3] = {"call", names[2], names[3]};
    char where[96];
    make_table(report->kind, which, &table);
    make_reported(report, table.records, ring, size);
    const struct load l = {ring, STRIDE, size, 1, table.octets, table.length, out, sizeof out};
    check_icmp(report, &l);
    snprintf(where, sizeof where, "%s|%zu|%u|%s|icmp", report->name, size, table.records, table.order);
    measure(count, where, &l, subjects, called, 3);
}

/* The offer gets the answer of its arrival, and anchor and library leave the same rows. */
static void check_offers(const struct arrival *arrival, size_t row_count)
{
    static struct kawsarpa_loss_row by_anchor[KAWSARPA_LOSS_ROWS_MAX], by_library[KAWSARPA_LOSS_ROWS_MAX];
    const struct offers a = make_offers(arrival, row_count, by_anchor), l = make_offers(arrival, row_count, by_library);
    const uint64_t answer = arrival->last == ROW_OF_ANOTHER ? KAWSARPA_ANSWER_NO_ROW : 0;
    if (kawsarpa_loss_offer(l.rows, l.count, l.teid, l.number) != answer)
        fail("another answer", arrival->name);
    if (anchor_loss_offer(a.rows, a.count, a.teid, a.number) != answer || memcmp(by_anchor, by_library, sizeof by_anchor) != 0)
        fail("anchor and library differ", arrival->name);
}

static void measure_offers(int count, const struct arrival *arrival, size_t row_count)
{
    offer *const subjects[2] = {anchor_loss_offer, kawsarpa_loss_offer};
    struct offers o = make_offers(arrival, row_count, rows);
    double ns[2];
    char where[96], label[128];
    check_offers(arrival, row_count);
    snprintf(where, sizeof where, "%s|0|%zu|last|offer", arrival->name, row_count);
    if (count) {
        for (unsigned int s = 0; s < 2; s++) {
            snprintf(label, sizeof label, "%s|%s", where, names[2 + s]);
            measure_offer_instructions(&o, subjects[s], label);
        }
        return;
    }
    measure_offer_times(&o, subjects, 2, ns);
    print_times(where, ns, names + 2, 2);
}

static void measure_readers(int count, bool ipv4)
{
    call *const subjects[2][2] = {{anchor_reader6, library_reader6}, {anchor_reader4, library_reader4}};
    const struct load l = {ring, STRIDE, sizes[1], 1, table.octets, 0, out, 0};
    const char *const name = ipv4 ? "IPv4" : "IPv6";
    char where[96];
    make_numbered(ipv4, ring, l.size);
    const uint64_t sequence = subjects[ipv4][1](ring, l.size, NULL, 0, NULL, 0);
    if (!kawsarpa_sequence_found(sequence))
        fail("no sequence number is found", name);
    if (subjects[ipv4][0](ring, l.size, NULL, 0, NULL, 0) != sequence)
        fail("anchor and library differ", name);
    snprintf(where, sizeof where, "%s|%zu|0|-|reader", name, l.size);
    measure(count, where, &l, subjects[ipv4], names + 2, 2);
}

int main(int argc, char **argv)
{
    const int count = argc == 2 && strcmp(argv[1], "count") == 0;
    if (!count && (argc != 2 || strcmp(argv[1], "time") != 0)) {
        fprintf(stderr, "usage: bench time | bench count\n");
        return 2;
    }
    if (count) {
        const struct load none = {ring, STRIDE, 0, 1, ring, 0, out, 0};
        struct offers offers = make_offers(&arrivals[0], 1, rows);
        measure_instructions(&none, nothing, "nothing");
        measure_offer_instructions(&offers, nothing_offered, "nothing offered");
        measure_no_burst("no burst");
    }
    for (unsigned int k = 0; k < kind_count; k++)
        for (unsigned int s = 0; s < SIZES; s++)
            for (unsigned int t = 0; t < TABLES; t++)
                measure_case(count, &kinds[k], sizes[s], t);
    for (unsigned int k = 0; k < checksum_kind_count; k++)
        for (unsigned int s = 0; s < SIZES; s++)
            measure_case(count, &checksum_kinds[k], sizes[s], EIGHT_IN_ORDER);
    measure_bursts(count);
    for (unsigned int k = 0; k < kind_count; k++) {
        /* the tables cost the same */
        if (next_is_alike(k))
            continue;
        for (unsigned int t = 0; t < TABLES; t++) {
            make_table(&kinds[k], t, &table);
            measure_soundness(count, kinds[k].name);
        }
    }
    for (int shuffled = 0; shuffled < 2; shuffled++) {
        make_full_table(shuffled != 0, &table);
        measure_soundness(count, "full");
    }
    for (unsigned int r = 0; r < report_count; r++)
        for (unsigned int s = 1; s < SIZES; s++)
            for (unsigned int t = EIGHT_IN_ORDER; t <= MOST_IN_ORDER; t++)
                measure_icmp(count, &reports[r], sizes[s], t);
    for (unsigned int c = 0; c < ROW_COUNTS; c++)
        for (unsigned int a = 0; a < arrival_count; a++)
            measure_offers(count, &arrivals[a], row_counts[c]);
    for (int ipv4 = 0; ipv4 < 2; ipv4++)
        measure_readers(count, ipv4 != 0);
    return 0;
}
