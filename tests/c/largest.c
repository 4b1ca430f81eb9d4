/*
 * KAWSARPA_GROWTH_MAX, KAWSARPA_OUT_MAX and KAWSARPA_BURST_OUT_MAX from C: for each behaviour the packet that grows most, the longest
 * packets that are sent, and bursts of 32 such packets. Prints a line for each check.
 */
#include "checks.h"
#include "checksum.h"
#include "kawsarpa.h"
#include "packets.h"
#include "table.h"

#include <stdio.h>
#include <string.h>

/* One octet more than is ever sent, so that a longer packet would be seen. */
static uint8_t out[KAWSARPA_OUT_MAX + 1];
static uint8_t packet[KAWSARPA_OUT_MAX + 1];

/* 32 copies of a packet, and one octet more than their results. */
static uint8_t packets[KAWSARPA_BURST_MAX * KAWSARPA_OUT_MAX];
static uint8_t burst_out[KAWSARPA_BURST_OUT_MAX + 1];

typedef uint64_t call_function(const uint8_t *, size_t, const uint8_t *, size_t, uint8_t *, size_t);
typedef uint64_t burst_function(const uint8_t *, size_t, const uint32_t *, size_t, const uint8_t *, size_t, uint8_t *, size_t, uint64_t *,
                                size_t);

/* The table of calls.c with 8 SIDs and 7 waypoints, for Ethernet throughout: there an inner packet may be empty. */
static struct table build_largest(void)
{
    struct table table = build();
    unsigned int i;
    for (i = D; i < ENTRIES; i++)
        table.entries[i].session_type = KAWSARPA_SESSION_ETHERNET;
    table.policies[0].sid_count = KAWSARPA_SIDS_MAX;
    memcpy(table.policies[0].sids[KAWSARPA_SIDS_MAX - 1], last_sid, sizeof last_sid);
    table.rules[0].waypoint_count = KAWSARPA_WAYPOINTS_MAX;
    return table;
}

/* The IPv6 header of a packet of calls.c, with another payload; what stands behind it is 0. */
static size_t head6(const uint8_t *like, uint8_t next_header, size_t payload)
{
    memset(packet, 0, sizeof packet);
    memcpy(packet, like, 40);
    kawsarpa_put16(packet + 4, (uint16_t)payload);
    packet[6] = next_header;
    return 40 + payload;
}

/* UDP, GTP-U with E alone, and a container of one unit: 24 octets, the least that a G-PDU has in front of its inner packet. */
static void g_pdu(uint8_t *at, uint8_t direction, size_t inner)
{
    kawsarpa_put16(at, 2152);
    kawsarpa_put16(at + 2, 2152);
    kawsarpa_put16(at + 4, (uint16_t)(24 + inner));
    at[8] = 0x34;
    at[9] = 0xFF;
    kawsarpa_put16(at + 10, (uint16_t)(8 + inner));
    at[19] = 0x85;
    at[20] = 1;
    at[21] = (uint8_t)(direction << 4);
}

static size_t g_pdu6(const uint8_t *like, uint8_t direction, size_t inner)
{
    const size_t length = head6(like, 17, 24 + inner);
    g_pdu(packet + 40, direction, inner);
    kawsarpa_put16(packet + 46, udp_checksum(packet, length, 40));
    return length;
}

static size_t g_pdu4(size_t inner)
{
    uint32_t sum = 0;
    unsigned int i;
    memset(packet, 0, sizeof packet);
    memcpy(packet, to_d4, 20);
    kawsarpa_put16(packet + 2, (uint16_t)(44 + inner));
    kawsarpa_put16(packet + 10, 0);
    for (i = 0; i < 20; i += 2)
        sum += kawsarpa_get16(packet + i);
    sum = (sum & 0xFFFF) + (sum >> 16);
    kawsarpa_put16(packet + 10, (uint16_t)(0xFFFFu & ~sum));
    g_pdu(packet + 20, KAWSARPA_DIRECTION_DOWNLINK, inner);
    return 44 + inner;
}

/* With one segment, which is the least that E6 takes. */
static size_t to_e6_with_one(size_t inner)
{
    const size_t length = head6(to_e6, 43, 24 + inner);
    packet[40] = 143;
    packet[41] = 2;
    packet[42] = 4;
    packet[43] = 1;
    return length;
}

static size_t to_e4_without_srh(size_t inner)
{
    return head6(to_e4, 143, inner);
}

static void sent(call_function *call, const struct table *table, size_t length, size_t sent_length, const char *subject)
{
    char claim[80];
    const uint64_t answer = call(packet, length, (const uint8_t *)table, sizeof *table, out, sizeof out);
    snprintf(claim, sizeof claim, "%u octets leave as %u", (unsigned int)length, (unsigned int)sent_length);
    check(kawsarpa_answer_number(answer) == KAWSARPA_ANSWER_SENT && kawsarpa_answer_length(answer) == sent_length, subject, claim);
    if (sent_length > length + KAWSARPA_GROWTH_MAX || sent_length > KAWSARPA_OUT_MAX)
        check(0, subject, "within the constants");
}

/* By E6, with UDP's checksum over every octet. */
static void sent_by_e6(const struct table *table, size_t length, size_t sent_length, const char *subject)
{
    size_t i;
    for (i = 64; i < length; i++)
        packet[i] = 0xFF;
    sent(kawsarpa_call_ipv6, table, length, sent_length, subject);
    check(kawsarpa_get16(out + 46) == udp_checksum(out, sent_length, 40), subject, "the UDP checksum is right");
}

static void too_long(call_function *call, const struct table *table, size_t length, const char *subject)
{
    check(kawsarpa_answer_number(call(packet, length, (const uint8_t *)table, sizeof *table, out, sizeof out)) == KAWSARPA_ANSWER_TOO_LONG,
          subject, "with one octet more, too long");
}

static void check_growth(const struct table *table)
{
    size_t length;
    sent(kawsarpa_call_ipv6, table, g_pdu6(to_d, KAWSARPA_DIRECTION_UPLINK, 0), 64 + 112, "D, 8 SIDs, nothing inside");
    sent(kawsarpa_call_ipv6, table, g_pdu6(to_di, KAWSARPA_DIRECTION_DOWNLINK, 0), 64 + 128, "Di, 8 SIDs, nothing inside");
    sent_by_e6(table, to_e6_with_one(0), 64, "E6, an SRH of one segment, nothing inside");
    sent(kawsarpa_call_ipv6, table, to_e4_without_srh(0), 40 + 4, "E4, no SRH, nothing inside");
    length = g_pdu4(0);
    sent(kawsarpa_call_ipv4, table, length, length + KAWSARPA_GROWTH_MAX, "D4, 7 waypoints, nothing inside");
    check(kawsarpa_answer_number(kawsarpa_call_ipv4(packet, length, (const uint8_t *)table, sizeof *table, out,
                                                    length + KAWSARPA_GROWTH_MAX - 1)) == KAWSARPA_ANSWER_NO_ROOM,
          "D4, 7 waypoints, nothing inside", "with one octet less of output, no room");
}

static void check_longest(const struct table *table)
{
    size_t length;
    sent(kawsarpa_call_ipv6, table, g_pdu6(to_d, KAWSARPA_DIRECTION_UPLINK, 65399), KAWSARPA_OUT_MAX, "D, 8 SIDs");
    too_long(kawsarpa_call_ipv6, table, g_pdu6(to_d, KAWSARPA_DIRECTION_UPLINK, 65400), "D, 8 SIDs");
    sent(kawsarpa_call_ipv6, table, g_pdu6(to_di, KAWSARPA_DIRECTION_DOWNLINK, 65383), KAWSARPA_OUT_MAX, "Di, 8 SIDs");
    too_long(kawsarpa_call_ipv6, table, g_pdu6(to_di, KAWSARPA_DIRECTION_DOWNLINK, 65384), "Di, 8 SIDs");
    sent_by_e6(table, to_e6_with_one(65511), KAWSARPA_OUT_MAX, "E6, an SRH of one segment");
    sent_by_e6(table, to_e6_with_one(65510), KAWSARPA_OUT_MAX - 1, "E6, an SRH of one segment");
    sent(kawsarpa_call_ipv6, table, to_e4_without_srh(65491), 65535, "E4, no SRH");
    too_long(kawsarpa_call_ipv6, table, to_e4_without_srh(65492), "E4, no SRH");

    length = g_pdu4(65399);
    check(length == 65443 && length + KAWSARPA_GROWTH_MAX == KAWSARPA_OUT_MAX, "D4, 7 waypoints", "both constants with 65,443 octets");
    sent(kawsarpa_call_ipv4, table, length, KAWSARPA_OUT_MAX, "D4, 7 waypoints");
    check(kawsarpa_answer_number(kawsarpa_call_ipv4(packet, length, (const uint8_t *)table, sizeof *table, out, KAWSARPA_OUT_MAX - 1)) ==
              KAWSARPA_ANSWER_NO_ROOM,
          "D4, 7 waypoints", "with one octet less of output, no room");
    too_long(kawsarpa_call_ipv4, table, g_pdu4(65400), "D4, 7 waypoints");

    length = head6(from_di, 43, 65535);
    memcpy(packet + 40, from_di + 40, sizeof from_di - 40);
    sent(kawsarpa_call_waypoint, table, length, KAWSARPA_OUT_MAX, "waypoint");
}

/* A burst of 32 times the packet: in the room that the header names all are sent, with an octet less all but the last. */
static void burst_sent(burst_function *burst, const struct table *table, size_t length, size_t room, const char *subject)
{
    uint32_t lengths[KAWSARPA_BURST_MAX];
    uint64_t answers[KAWSARPA_BURST_MAX], answer;
    struct kawsarpa_burst_result result;
    size_t results = 0, sent_length, short_by, i;
    char claim[80];

    for (i = 0; i < KAWSARPA_BURST_MAX; i++) {
        memcpy(packets + i * length, packet, length);
        lengths[i] = (uint32_t)length;
    }
    for (short_by = 0; short_by < 2; short_by++) {
        const size_t expected = KAWSARPA_BURST_MAX - short_by;
        answer = burst(packets, KAWSARPA_BURST_MAX * length, lengths, KAWSARPA_BURST_MAX, (const uint8_t *)table, sizeof *table, burst_out,
                       room - short_by, answers, KAWSARPA_BURST_MAX);
        sent_length = room / KAWSARPA_BURST_MAX;
        results = 0;
        kawsarpa_burst_first(&result);
        while (kawsarpa_burst_next(&result, answers, KAWSARPA_BURST_MAX))
            results += result.packet == results && result.at == results * sent_length && result.length == sent_length;
        snprintf(claim, sizeof claim, "room %u: %u of 32 are sent, %u octets each", (unsigned int)(room - short_by), (unsigned int)expected,
                 (unsigned int)sent_length);
        check(answer == (uint64_t)(expected * sent_length) << 40 && results == expected, subject, claim);
    }
    check(kawsarpa_answer_number(answers[KAWSARPA_BURST_MAX - 1]) == KAWSARPA_ANSWER_NO_ROOM, subject,
          "with an octet less the last has no room");
}

/* D4 with 7 waypoints grows most, and is longest: the rooms that the header names are no larger than they have to be. */
static void check_bursts(const struct table *table)
{
    size_t length = g_pdu4(0);
    burst_sent(kawsarpa_call_burst_ipv4, table, length, KAWSARPA_BURST_MAX * (length + KAWSARPA_GROWTH_MAX), "32 of D4, nothing inside");
    length = g_pdu4(1);
    burst_sent(kawsarpa_call_burst_ipv4, table, length, KAWSARPA_BURST_MAX * (length + KAWSARPA_GROWTH_MAX), "32 of D4, one octet inside");
    length = g_pdu4(65399);
    check(KAWSARPA_BURST_MAX * (length + KAWSARPA_GROWTH_MAX) == KAWSARPA_BURST_OUT_MAX, "32 of D4, the longest", "both rooms are one");
    burst_sent(kawsarpa_call_burst_ipv4, table, length, KAWSARPA_BURST_OUT_MAX, "32 of D4, the longest");
    burst_sent(kawsarpa_call_burst_ipv6, table, g_pdu6(to_di, KAWSARPA_DIRECTION_DOWNLINK, 65383), KAWSARPA_BURST_OUT_MAX,
               "32 of Di, the longest");
    burst_sent(kawsarpa_call_burst_ipv6, table, to_e6_with_one(65511), KAWSARPA_BURST_OUT_MAX, "32 of E6, the longest");
}

int main(void)
{
    const struct table table = build_largest();
    check(kawsarpa_call_table_fault((const uint8_t *)&table, sizeof table) == 0, "table", "sound");
    check_growth(&table);
    check_longest(&table);
    check_bursts(&table);
    if (failures != 0) {
        printf("largest: %u of %u checks do not hold\n", failures, checks);
        return 1;
    }
    printf("largest: all %u checks hold\n", checks);
    return 0;
}
