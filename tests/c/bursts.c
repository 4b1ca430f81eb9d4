/*
 * Bursts from C, with packets written by hand: results one after the other and refusals between them, room that ends, 32 packets, bursts
 * that are refused as a whole, a table that is not sound, where results lie, the example of kawsarpa.h, null pointers with a count of 0.
 * Prints a line for each check.
 */
#include "burst.h"
#include "checks.h"
#include "kawsarpa.h"
#include "packets.h"
#include "table.h"

#include <stdio.h>
#include <string.h>

/* THE PARTS */

/* Ten packets: each behaviour and an Echo Request, the result of E4 over IPv4; between them refusals with ICMP fields and without. */
static void add_every_kind(void)
{
    uint8_t packet[sizeof from_di];
    sends(OCTETS(to_di), OCTETS(from_di));
    refuses_with_icmp(OCTETS(nothing_for_d), KAWSARPA_ANSWER_UPPER_LAYER, KAWSARPA_ICMP_PARAMETER_PROBLEM, 4, 40);
    sends(OCTETS(to_d), OCTETS(from_d));
    memcpy(packet, from_di, sizeof packet);
    packet[7] = 1;
    refuses_with_icmp(OCTETS(packet), KAWSARPA_ANSWER_HOP_LIMIT, KAWSARPA_ICMP_TIME_EXCEEDED, 0, 0);
    sends(OCTETS(to_e4), OCTETS(from_e4));
    memcpy(packet, to_e6, sizeof packet);
    packet[43] = 2;
    refuses_with_icmp(OCTETS(packet), KAWSARPA_ANSWER_SEGMENTS_LEFT, KAWSARPA_ICMP_PARAMETER_PROBLEM, 0, 43);
    sends(OCTETS(echo_to_di), OCTETS(echo_from_di));
    refuses(OCTETS(to_d4), KAWSARPA_ANSWER_MALFORMED);
    sends(OCTETS(from_di), OCTETS(to_e6));
    sends(OCTETS(to_e6), OCTETS(from_e6));
}

static void check_results(const struct table *table)
{
    uint8_t packet[sizeof to_d4];

    begin();
    made(&ipv6, table, "no packet");
    made(&ipv4, table, "no packet over IPv4");
    made_in(0, &ipv6, table, "no packet, room 0");
    begin();
    sends(OCTETS(to_di), OCTETS(from_di));
    made(&ipv6, table, "one packet");
    begin();
    refuses_with_icmp(OCTETS(nothing_for_d), KAWSARPA_ANSWER_UPPER_LAYER, KAWSARPA_ICMP_PARAMETER_PROBLEM, 4, 40);
    made(&ipv6, table, "one packet, refused");
    begin();
    sends(OCTETS(to_di), OCTETS(from_di));
    sends(OCTETS(to_d), OCTETS(from_d));
    made(&ipv6, table, "two packets");
    begin();
    sends(OCTETS(to_di), OCTETS(from_di));
    refuses_with_icmp(OCTETS(nothing_for_d), KAWSARPA_ANSWER_UPPER_LAYER, KAWSARPA_ICMP_PARAMETER_PROBLEM, 4, 40);
    sends(OCTETS(to_d), OCTETS(from_d));
    made(&ipv6, table, "three packets, the second refused");
    begin();
    sends(OCTETS(to_d), OCTETS(from_d));
    sends(OCTETS(to_d), OCTETS(from_d));
    made(&ipv6, table, "the same packet twice");
    begin();
    add_every_kind();
    made(&ipv6, table, "every kind");

    begin();
    sends(OCTETS(to_d4), OCTETS(from_d4));
    sends(OCTETS(echo_to_d4), OCTETS(echo_from_d4));
    refuses(OCTETS(to_d), KAWSARPA_ANSWER_MALFORMED);
    memcpy(packet, to_d4, sizeof packet);
    packet[11] ^= 1;
    refuses(OCTETS(packet), KAWSARPA_ANSWER_BAD_HEADER4);
    memcpy(packet, to_d4, sizeof packet);
    packet[23] ^= 1;
    refuses(OCTETS(packet), KAWSARPA_ANSWER_UPPER_LAYER);
    sends(OCTETS(to_d4), OCTETS(from_d4));
    made(&ipv4, table, "D4, Echo and refusals over IPv4");
}

static void check_empty_packets(const struct table *table)
{
    begin();
    refuses(to_d, 0, KAWSARPA_ANSWER_MALFORMED);
    made(&ipv6, table, "one packet of 0 octets");
    begin();
    refuses(to_d, 0, KAWSARPA_ANSWER_MALFORMED);
    sends(OCTETS(to_d), OCTETS(from_d));
    refuses(to_d, 0, KAWSARPA_ANSWER_MALFORMED);
    refuses(to_d, 0, KAWSARPA_ANSWER_MALFORMED);
    sends(OCTETS(to_di), OCTETS(from_di));
    refuses(to_d, 0, KAWSARPA_ANSWER_MALFORMED);
    made(&ipv6, table, "packets of 0 octets before, between and behind");
    begin();
    refuses(to_d4, 0, KAWSARPA_ANSWER_MALFORMED);
    sends(OCTETS(to_d4), OCTETS(from_d4));
    made(&ipv4, table, "a packet of 0 octets over IPv4");

    /* the octets of two packets, cut an octet too early: neither is what it was */
    begin();
    sends(OCTETS(to_d), OCTETS(from_d));
    sends(OCTETS(to_di), OCTETS(from_di));
    made(&ipv6, table, "two packets by their lengths");
    lent.lengths[0]--;
    lent.lengths[1]++;
    fill(&expected);
    expected.answers[MARGIN] = expected.answers[MARGIN + 1] = KAWSARPA_ANSWER_MALFORMED;
    made(&ipv6, table, "the same octets, cut one too early");
}

/* Results of 101, 82 and 47 octets, 230 together, in the room that there is. */
static void check_room(const struct table *table)
{
    static const struct {
        size_t room;
        int di, d, e4; /* which are sent */
        const char *subject;
    } cases[] = {
        {230, 1, 1, 1, "room for all three"},
        {229, 1, 1, 0, "one octet short for the third"},
        {183, 1, 1, 0, "room for two"},
        {182, 1, 0, 1, "one octet short for the second, and the shorter third fits"},
        {148, 1, 0, 1, "room for the first and the third"},
        {147, 1, 0, 0, "one octet short for the third behind the first"},
        {101, 1, 0, 0, "room for the first"},
        {100, 0, 1, 0, "one octet short for the first, and the shorter second fits"},
        {81, 0, 0, 1, "one octet short for the second, and the shorter third fits where the first would be"},
        {47, 0, 0, 1, "room for the third alone"},
        {46, 0, 0, 0, "one octet short for the third alone"},
        {0, 0, 0, 0, "no room at all"},
    };
    size_t i;
    for (i = 0; i < sizeof cases / sizeof cases[0]; i++) {
        begin();
        if (cases[i].di)
            sends(OCTETS(to_di), OCTETS(from_di));
        else
            refuses(OCTETS(to_di), KAWSARPA_ANSWER_NO_ROOM);
        if (cases[i].d)
            sends(OCTETS(to_d), OCTETS(from_d));
        else
            refuses(OCTETS(to_d), KAWSARPA_ANSWER_NO_ROOM);
        if (cases[i].e4)
            sends(OCTETS(to_e4), OCTETS(from_e4));
        else
            refuses(OCTETS(to_e4), KAWSARPA_ANSWER_NO_ROOM);
        made_in(cases[i].room, &ipv6, table, cases[i].subject);
    }
    begin();
    sends(OCTETS(to_d4), OCTETS(from_d4));
    refuses(OCTETS(to_d4), KAWSARPA_ANSWER_NO_ROOM);
    sends(OCTETS(echo_to_d4), OCTETS(echo_from_d4));
    made_in(sizeof from_d4 + sizeof echo_from_d4, &ipv4, table, "an Echo Request where a second G-PDU has no room");
}

/* The longest burst, and how many places for answers there are. */
static void check_counts(const struct table *table)
{
    begin();
    while (lent.count < KAWSARPA_BURST_MAX)
        sends(OCTETS(to_di), OCTETS(from_di));
    made_in(KAWSARPA_BURST_MAX * sizeof from_di, &ipv6, table, "32 packets");
    answers_with(&ipv6, lent.packets_len, lent.count, table, sizeof *table, ROOM, MOST, (uint64_t)expected.sent << 40,
                 "32 packets, 33 places");
    bad(&ipv6, lent.packets_len, lent.count, KAWSARPA_BURST_MAX - 1, table, "32 packets, 31 places");
    begin();
    while (lent.count < 30)
        add_every_kind();
    refuses(to_d, 0, KAWSARPA_ANSWER_MALFORMED);
    sends(OCTETS(to_d), OCTETS(from_d));
    made(&ipv6, table, "32 packets, every kind three times");
    begin();
    while (lent.count < KAWSARPA_BURST_MAX)
        sends(OCTETS(to_d4), OCTETS(from_d4));
    made(&ipv4, table, "32 packets over IPv4");

    begin();
    while (lent.count < MOST)
        add(OCTETS(to_d), 0);
    bad(&ipv6, lent.packets_len, lent.count, MOST, table, "33 packets");
    begin();
    while (lent.count < MOST)
        add(OCTETS(to_d4), 0);
    bad(&ipv4, lent.packets_len, lent.count, MOST, table, "33 packets over IPv4");
    begin();
    bad(&ipv6, 0, MOST, MOST, table, "33 lengths of 0");

    begin();
    sends(OCTETS(to_d), OCTETS(from_d));
    sends(OCTETS(to_di), OCTETS(from_di));
    answers_with(&ipv6, lent.packets_len, 2, table, sizeof *table, ROOM, MOST, (uint64_t)expected.sent << 40, "2 packets, 33 places");
    bad(&ipv6, lent.packets_len, 2, 1, table, "2 packets, 1 place");
    bad(&ipv6, lent.packets_len, 2, 0, table, "2 packets, no place");
    bad(&ipv4, lent.packets_len, 2, 1, table, "2 packets, 1 place, over IPv4");
}

/* Lengths that do not add up. */
static void check_sums(const struct table *table)
{
    struct table unsound = *table;
    size_t i;

    begin();
    add(OCTETS(to_d), 0);
    add(OCTETS(to_di), 0);
    bad(&ipv6, lent.packets_len - 1, 2, 2, table, "an octet less than the lengths");
    bad(&ipv6, lent.packets_len + 1, 2, 2, table, "an octet more than the lengths");
    bad(&ipv6, lent.packets_len, 1, 2, table, "the octets of one packet more than the lengths");
    bad(&ipv6, lent.packets_len, 0, 2, table, "octets without a length");
    bad(&ipv4, lent.packets_len - 1, 2, 2, table, "an octet less than the lengths, over IPv4");
    bad(&ipv4, lent.packets_len + 1, 2, 2, table, "an octet more than the lengths, over IPv4");
    unsound.header.format = 2;
    bad(&ipv6, lent.packets_len + 1, 2, 2, &unsound, "an octet more than the lengths, and a table that is not sound");

    begin();
    add(OCTETS(to_d), 0);
    lent.lengths[0] = 0xFFFFFFFF;
    bad(&ipv6, lent.packets_len, 1, 1, table, "the highest length");
    lent.lengths[0] = 66;
    lent.lengths[1] = 0xFFFFFFFF;
    lent.lengths[2] = 1;
    bad(&ipv6, lent.packets_len, 3, 3, table, "lengths past 2^32 that wrap to those of the packets");
    bad(&ipv4, lent.packets_len, 3, 3, table, "lengths past 2^32 that wrap, over IPv4");
    begin();
    for (i = 0; i < KAWSARPA_BURST_MAX; i++)
        lent.lengths[i] = 0x80000000;
    bad(&ipv6, 0, KAWSARPA_BURST_MAX, KAWSARPA_BURST_MAX, table, "lengths of 2^36 together and no octet");
    for (i = 0; i < KAWSARPA_BURST_MAX; i++)
        lent.lengths[i] = 0xFFFFFFFF;
    bad(&ipv6, 0, KAWSARPA_BURST_MAX, KAWSARPA_BURST_MAX, table, "32 times the highest length");
}

/* With a table that is not sound each packet is refused with 1, an empty one too, and the burst answers 0. */
static void check_unsound(const struct table *table)
{
    struct table unsound = *table;
    unsound.entries[WAYPOINT].hop_limit = 0;
    begin();
    refuses(OCTETS(to_di), KAWSARPA_ANSWER_UNSOUND);
    refuses(to_d, 0, KAWSARPA_ANSWER_UNSOUND);
    refuses(OCTETS(to_d4), KAWSARPA_ANSWER_UNSOUND);
    made(&ipv6, &unsound, "hop limit 0 in an entry");
    made(&ipv4, &unsound, "hop limit 0 in an entry, over IPv4");
    made_in(0, &ipv6, &unsound, "hop limit 0 in an entry, room 0");
    answers_with(&ipv6, lent.packets_len, lent.count, table, 0, ROOM, MOST, 0, "a table of 0 octets");
    answers_with(&ipv6, lent.packets_len, lent.count, table, sizeof *table - 1, ROOM, MOST, 0, "a table one octet short");
    begin();
    made(&ipv6, &unsound, "no packet, and a table that is not sound");
}

/* WHERE RESULTS LIE */

static void check_next(struct kawsarpa_burst_result *result, const uint64_t *answers, size_t count, size_t packet, size_t at, size_t length,
                       const char *subject)
{
    char claim[80];
    const int found = kawsarpa_burst_next(result, answers, count);
    snprintf(claim, sizeof claim, "then %u octets of packet %u at %u", (unsigned int)length, (unsigned int)packet, (unsigned int)at);
    check(found == 1 && result->packet == packet && result->at == at && result->length == length, subject, claim);
}

static void check_end(struct kawsarpa_burst_result *result, const uint64_t *answers, size_t count, const char *subject)
{
    check(kawsarpa_burst_next(result, answers, count) == 0, subject, "then no more");
    check(kawsarpa_burst_next(result, answers, count) == 0, subject, "and none if it is asked again");
}

static void check_places(void)
{
    /* a refusal with ICMP fields, 82 octets, a refusal, 47 octets, a refusal; then a place that is not the burst's */
    static const uint64_t answers[6] = {0x2800040408, (uint64_t)82 << 40, 16, (uint64_t)47 << 40, 2, (uint64_t)99 << 40};
    static const size_t at[6] = {0, 0, 82, 82, 129, 129};
    struct kawsarpa_burst_result result;
    size_t i;
    int right = 1;

    kawsarpa_burst_first(&result);
    check_next(&result, answers, 5, 1, 0, 82, "results between refusals");
    check_next(&result, answers, 5, 3, 82, 47, "results between refusals");
    check_end(&result, answers, 5, "results between refusals");
    kawsarpa_burst_first(&result);
    check_next(&result, answers + 3, 1, 0, 0, 47, "one result, begun again");
    check_end(&result, answers + 3, 1, "one result, begun again");
    kawsarpa_burst_first(&result);
    check_end(&result, answers, 1, "refusals alone");
    kawsarpa_burst_first(&result);
    check_end(&result, answers, 0, "no packet");
    kawsarpa_burst_first(&result);
    check_end(&result, NULL, 0, "no packet, NULL answers");

    for (i = 0; i < 6; i++)
        right = right && kawsarpa_burst_at(answers, i) == at[i];
    check(right, "kawsarpa_burst_at", "0, 0, 82, 82, 129, 129");
    check(KAWSARPA_BURST_MAX == 32 && KAWSARPA_BURST_OUT_MAX == 2098400, "constants", "32 packets, 2,098,400 octets");
}

/* What the example of kawsarpa.h sends on. */
static uint8_t sent_on[ROOM];
static size_t sent_on_len;

static void send_on(const uint8_t *octets, size_t length)
{
    memcpy(sent_on + sent_on_len, octets, length);
    sent_on_len += length;
}

/* The example, which run.sh takes out of kawsarpa.h. */
static void example(const uint8_t *packets, size_t packets_len, const uint32_t *lengths, size_t count, const uint8_t *table,
                    size_t table_len, uint8_t *out, size_t out_len)
{
#include "burst_example.h"
}

static void check_example(const struct table *table)
{
    begin();
    add_every_kind();
    fill(&left);
    example(lent.packets + GUARD, lent.packets_len, lent.lengths, lent.count, (const uint8_t *)table, sizeof *table, left.out, ROOM);
    check(sent_on_len == expected.sent && memcmp(sent_on, expected.out + GUARD, sent_on_len) == 0, "the example of kawsarpa.h",
          "every result is sent on, in order");
}

/* The wrappers: the same as the calls, and NULL where the count is 0. */
static void check_wrappers(const struct table *table)
{
    static const struct form call_ipv6 = {kawsarpa_call_burst_ipv6, kawsarpa_call_ipv6};
    static const struct form call_ipv4 = {kawsarpa_call_burst_ipv4, kawsarpa_call_ipv4};
    static const uint32_t none[1] = {0}, one[1] = {sizeof to_d}, one4[1] = {sizeof to_d4};
    const uint8_t *octets = (const uint8_t *)table;
    uint8_t out[sizeof from_d];
    uint64_t answer = 99;

    begin();
    add_every_kind();
    made(&call_ipv6, table, "call_burst_ipv6");
    begin();
    sends(OCTETS(to_d4), OCTETS(from_d4));
    refuses(OCTETS(to_d), KAWSARPA_ANSWER_MALFORMED);
    made(&call_ipv4, table, "call_burst_ipv4");

    check(kawsarpa_call_burst_ipv6(NULL, 0, NULL, 0, NULL, 0, NULL, 0, NULL, 0) == 0 &&
              kawsarpa_call_burst_ipv4(NULL, 0, NULL, 0, NULL, 0, NULL, 0, NULL, 0) == 0,
          "all NULL", "answer 0");
    check(kawsarpa_call_burst_ipv6(NULL, 0, none, 1, octets, sizeof *table, OCTETS(out), &answer, 1) == 0 && answer == 2, "NULL packets",
          "answer 0, and 2 to the packet");
    check(kawsarpa_call_burst_ipv4(NULL, 0, none, 1, octets, sizeof *table, OCTETS(out), &answer, 1) == 0 && answer == 2,
          "NULL packets over IPv4", "answer 0, and 2 to the packet");
    check(kawsarpa_call_burst_ipv6(OCTETS(to_d), one, 1, NULL, 0, OCTETS(out), &answer, 1) == 0 && answer == 1, "NULL table",
          "answer 0, and 1 to the packet");
    check(kawsarpa_call_burst_ipv4(OCTETS(to_d4), one4, 1, NULL, 0, OCTETS(out), &answer, 1) == 0 && answer == 1, "NULL table over IPv4",
          "answer 0, and 1 to the packet");
    check(kawsarpa_call_burst_ipv6(OCTETS(to_d), one, 1, octets, sizeof *table, NULL, 0, &answer, 1) == 0 && answer == 16, "NULL output",
          "answer 0, and 16 to the packet");
    check(kawsarpa_call_burst_ipv4(OCTETS(to_d4), one4, 1, octets, sizeof *table, NULL, 0, &answer, 1) == 0 && answer == 16,
          "NULL output over IPv4", "answer 0, and 16 to the packet");
    check(kawsarpa_call_burst_ipv6(OCTETS(to_d), NULL, 0, octets, sizeof *table, OCTETS(out), &answer, 1) == 19 &&
              kawsarpa_call_burst_ipv4(OCTETS(to_d4), NULL, 0, octets, sizeof *table, OCTETS(out), &answer, 1) == 19,
          "NULL lengths, and a packet", "answer 19");
    check(kawsarpa_call_burst_ipv6(OCTETS(to_d), one, 1, octets, sizeof *table, OCTETS(out), NULL, 0) == 19 &&
              kawsarpa_call_burst_ipv4(OCTETS(to_d4), one4, 1, octets, sizeof *table, OCTETS(out), NULL, 0) == 19,
          "NULL answers, and a packet", "answer 19");
}

int main(void)
{
    struct table table = build();
    const struct table as_built = table;

    check_results(&table);
    check_empty_packets(&table);
    check_room(&table);
    check_counts(&table);
    check_sums(&table);
    check_unsound(&table);
    check_places();
    check_example(&table);
    check_wrappers(&table);
    check(memcmp(&table, &as_built, sizeof table) == 0, "table", "no burst changed it");

    if (failures != 0) {
        printf("bursts: %u of %u checks do not hold\n", failures, checks);
        return 1;
    }
    printf("bursts: all %u checks hold\n", checks);
    return 0;
}
