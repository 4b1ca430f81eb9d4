/*
 * ICMPv6 messages from C that are due: whole ones octet by octet, every kind of entry, the longest match, how much of a packet is quoted,
 * rooms, null pointers with a count of 0, the example of kawsarpa.h. Prints a line for each check.
 */
/* Octets that are lent as the output. */
#define CALL_ROOM (KAWSARPA_ICMP_MAX + 40)

#include "call.h"
#include "checks.h"
#include "icmp.h"
#include "kawsarpa.h"
#include "messages.h"
#include "packets.h"
#include "table.h"

#include <stdio.h>
#include <string.h>

/* WHOLE MESSAGES */

static void whole(const struct table *table, const uint8_t *octets, size_t length, unsigned int entry, struct refusal refusal,
                  const uint8_t *message, size_t message_len, const char *subject)
{
    uint8_t laid_out[KAWSARPA_ICMP_MAX];
    try_packet(octets, length);
    sent(kawsarpa_icmp_ipv6, packet, length, table, message, message_len, subject);
    check(lay_out(&table->entries[entry], refusal, length, laid_out) == message_len && memcmp(laid_out, message, message_len) == 0, subject,
          "laid out as the other messages here are, it is the same");
    due(table, length, entry, refusal, subject);
}

static void check_whole(const struct table *table)
{
    whole(table, expired, sizeof expired, WAYPOINT, hop_limit, about_expired, sizeof about_expired, "Time Exceeded at a waypoint");
    whole(table, nothing_for_d, sizeof nothing_for_d, D, upper_layer(40), about_nothing_for_d, sizeof about_nothing_for_d,
          "nothing behind the header at D");
    whole(table, spent, sizeof spent, E6, segments_left, about_spent, sizeof about_spent, "SL 0 at E6");
    whole(table, pinged, sizeof pinged, DI, upper_layer(64), about_pinged, sizeof about_pinged, "ICMPv6 behind an SRH at Di");
}

/* EVERY KIND OF ENTRY */

/* An SRH of one segment before what follows the header of `octets`, without segments left. */
static size_t try_behind_srh(const uint8_t *octets, size_t length)
{
    static const uint8_t srh[4] = {0, 2, 4, 0};
    memset(packet, 0, 64);
    memcpy(packet, octets, BEHIND);
    kawsarpa_put16(packet + 4, (uint16_t)(length - 40 + 24));
    packet[6] = NEXT_ROUTING;
    memcpy(packet + BEHIND, srh, sizeof srh);
    packet[BEHIND] = octets[6];
    memcpy(packet + 64, octets + BEHIND, length - BEHIND);
    return length + 24;
}

static void check_kinds(const struct table *table)
{
    size_t length;

    length = try_packet(expired, sizeof expired);
    packet[7] = 0;
    due(table, length, WAYPOINT, hop_limit, "waypoint, hop limit 0");
    packet[7] = 2;
    packet[43] = 2;
    due(table, length, WAYPOINT, segments_left, "waypoint, SL 2, LE 0");
    packet[43] = packet[44] = 1;
    due(table, length, WAYPOINT, segments_left, "waypoint, LE 1 of one segment");
    packet[7] = 1;
    due(table, length, WAYPOINT, hop_limit, "waypoint, LE 1 of one segment, hop limit 1");
    packet[43] = 0;
    due(table, length, WAYPOINT, upper_layer(64), "waypoint, SL 0");
    length = try_packet(nothing_for_d, sizeof nothing_for_d);
    packet[29] = 0x0A; /* to 2001:db8:a::1 */
    due(table, length, WAYPOINT, upper_layer(40), "waypoint without SRH");

    length = try_behind_srh(to_d, sizeof to_d);
    packet[43] = 1;
    due(table, length, D, segments_left, "D, SL 1");
    packet[43] = 0;
    packet[67]++;
    due(table, length, D, upper_layer(64), "D, another port behind an SRH");
    length = try_packet(to_d, sizeof to_d);
    packet[43]++;
    due(table, length, D, upper_layer(40), "D, another port");

    length = try_packet(to_di, sizeof to_di);
    packet[6] = 6;
    due(table, length, DI, upper_layer(40), "Di, TCP");
    length = try_behind_srh(to_di, sizeof to_di);
    packet[43] = 255;
    due(table, length, DI, segments_left, "Di, SL 255");

    length = try_packet(to_e6, sizeof to_e6);
    packet[43] = 2;
    due(table, length, E6, segments_left, "E6, SL 2");
    packet[43] = 1;
    packet[44] = 3;
    due(table, length, E6, segments_left, "E6, LE 3 of three segments");
    packet[44] = 2;
    packet[40] = 143;
    due(table, length, E6, upper_layer(96), "E6, Ethernet in an IPv4v6 session");

    length = try_packet(from_d4_directly, sizeof from_d4_directly);
    packet[6] = 41;
    due(table, length, E4, upper_layer(40), "E4 without SRH, IPv6 in an Ethernet session");
    length = try_packet(to_e4, sizeof to_e4);
    packet[43] = 1;
    due(table, length, E4, segments_left, "E4, SL 1");
    packet[43] = 0;
    packet[40] = NEXT_ICMPV6;
    packet[80] = 128;
    due(table, length, E4, upper_layer(80), "E4 behind an SRH, ICMPv6 in an Ethernet session");
}

/* THE ENTRY: THE LONGEST MATCH */

/* Waypoint 2001:db8:a::/48, D 2001:db8:a:1::/64 in it, waypoint 2001:db8:a:1::7 in that, E6 below the first, E4 for all the rest. */
static struct table build_nested(void)
{
    struct table table = build_with_sources();
    struct kawsarpa_entry *entries = table.entries;
    memcpy(entries[D].prefix, first_sid, sizeof first_sid);
    entries[D].prefix_length = 64;
    entries[DI] = entries[WAYPOINT];
    memcpy(entries[DI].prefix, first_sid, sizeof first_sid);
    entries[DI].prefix[15] = 7;
    entries[DI].prefix_length = 128;
    entries[DI].hop_limit = 255;
    entries[DI].source[15] = 2;
    entries[E6].prefix[5] = 0x0A;
    entries[E6].prefix[7] = 2;
    memset(entries[E4].prefix, 0, 16);
    entries[E4].prefix_length = 0;
    entries[E4].hop_limit = 1;
    return table;
}

static void check_longest_match(void)
{
    const struct table nested = build_nested();
    size_t length;
    check(kawsarpa_call_table_fault((const uint8_t *)&nested, sizeof nested) == 0, "nested entries", "sound");
    length = try_packet(expired, sizeof expired);
    packet[31] = 3; /* to 2001:db8:a:3:: */
    due(&nested, length, WAYPOINT, hop_limit, "nested: under the /48 alone");
    packet[31] = 2;
    packet[43] = 0;
    due(&nested, length, E6, segments_left, "nested: under the /64 of E6");
    packet[31] = 1;
    due(&nested, length, D, upper_layer(64), "nested: under the /64 of D");
    packet[39] = 7;
    packet[43] = 1;
    due(&nested, length, DI, hop_limit, "nested: the /128");
    packet[39] = 6;
    due(&nested, length, D, segments_left, "nested: next to the /128");
    packet[24] = 0xFE;
    due(&nested, length, E4, segments_left, "nested: under ::/0 alone");
}

/* HOW MUCH IS QUOTED */

/* A packet of so many octets to D and one to the waypoint; its octets are ones, but for the last. */
static void quoted(const struct table *table, size_t length)
{
    char subject[40];
    try_longer(to_d, BEHIND + 8, length);
    memset(packet + BEHIND + 8, 0xFF, length - BEHIND - 8);
    packet[length - 1] = 0x5A;
    packet[43]++;
    snprintf(subject, sizeof subject, "D, %u octets", (unsigned int)length);
    due(table, length, D, upper_layer(40), subject);

    try_longer(expired, 64, length);
    memset(packet + 64, 0xFF, length - 64);
    packet[length - 1] = 0x5A;
    snprintf(subject, sizeof subject, "waypoint, %u octets", (unsigned int)length);
    due(table, length, WAYPOINT, hop_limit, subject);
}

static void check_quoted(const struct table *table)
{
    static const size_t lengths[] = {65, QUOTED_MOST - 1, QUOTED_MOST, QUOTED_MOST + 1, KAWSARPA_ICMP_MAX, LONGEST};
    size_t length, i;
    for (i = 0; i < sizeof lengths / sizeof lengths[0]; i++)
        quoted(table, lengths[i]);
    check(KAWSARPA_ICMP_MAX == 1280, "KAWSARPA_ICMP_MAX", "1,280 octets");

    /* an SRH of 255 units: the pointer lies behind what is quoted */
    length = try_longer(expired, sizeof expired, 2088 + 3);
    packet[41] = 255;
    packet[43] = 0;
    due(table, length, WAYPOINT, upper_layer(2088), "waypoint, the upper layer at octet 2088");
}

static void check_computed_zero(const struct table *table)
{
    uint8_t message[KAWSARPA_ICMP_MAX];
    const size_t length = try_packet(expired, sizeof expired);
    /* 45AA + 7732: the checksum of the message is in its sum now, which is FFFF; its complement is 0 */
    kawsarpa_put16(packet + 64, 0xBCDC);
    due(table, length, WAYPOINT, hop_limit, "a checksum of 0");
    lay_out(&table->entries[WAYPOINT], hop_limit, length, message);
    check(kawsarpa_get16(message + 42) == 0, "a checksum of 0", "0 is computed, and no FFFF stands in its place");
}

/* What the example of kawsarpa.h sends on. */
static uint8_t sent_on[KAWSARPA_ICMP_MAX];
static size_t sent_on_len;

static void send_on(const uint8_t *octets, size_t length)
{
    memcpy(sent_on, octets, length);
    sent_on_len = length;
}

/* The example, which run.sh takes out of kawsarpa.h. The packet that is lent has the name of the one that is tried. */
static void example(size_t packet_len, const uint8_t *table, size_t table_len, uint8_t *out, size_t out_len)
{
#include "icmp_example.h"
}

static void check_example(const struct table *table)
{
    example(try_packet(expired, sizeof expired), (const uint8_t *)table, sizeof *table, buffer, ROOM);
    check(sent_on_len == sizeof about_expired && memcmp(sent_on, about_expired, sizeof about_expired) == 0, "the example of kawsarpa.h",
          "the message is sent on");
    sent_on_len = 0;
    example(try_packet(to_d, sizeof to_d), (const uint8_t *)table, sizeof *table, buffer, ROOM);
    check(sent_on_len == 0, "the example of kawsarpa.h", "nothing is, where the IPv6 call sends the packet");
    try_packet(expired, sizeof expired);
    set_source(0, 0, 0);
    example(sizeof expired, (const uint8_t *)table, sizeof *table, buffer, ROOM);
    check(sent_on_len == 0, "the example of kawsarpa.h", "nor where none is due");
}

/* The wrapper: the same as the call, and NULL where the count is 0. */
static void check_wrapper(const struct table *table)
{
    const uint8_t *octets = (const uint8_t *)table;
    sent(kawsarpa_call_icmp_ipv6, expired, sizeof expired, table, about_expired, sizeof about_expired, "by call_icmp_ipv6");
    refused(kawsarpa_call_icmp_ipv6, NULL, 0, table, sizeof *table, KAWSARPA_ANSWER_NONE_DUE, "NULL packet");
    refused(kawsarpa_call_icmp_ipv6, expired, sizeof expired, NULL, 0, KAWSARPA_ANSWER_NONE_DUE, "NULL table");
    check_answer(kawsarpa_call_icmp_ipv6(expired, sizeof expired, octets, sizeof *table, NULL, 0), KAWSARPA_ANSWER_NO_ROOM, 0, 0, 0, 0,
                 "NULL output");
    check_answer(kawsarpa_call_icmp_ipv6(to_d, sizeof to_d, octets, sizeof *table, NULL, 0), KAWSARPA_ANSWER_NONE_DUE, 0, 0, 0, 0,
                 "NULL output, none is due");
    check_answer(kawsarpa_call_icmp_ipv6(NULL, 0, NULL, 0, NULL, 0), KAWSARPA_ANSWER_NONE_DUE, 0, 0, 0, 0, "all NULL");
}

int main(void)
{
    const struct table as_built = build_with_sources();
    struct table table = as_built;

    check(kawsarpa_call_table_fault((const uint8_t *)&table, sizeof table) == 0, "table", "sound");
    check_whole(&table);
    check_kinds(&table);
    check_longest_match();
    check_quoted(&table);
    check_computed_zero(&table);
    check_example(&table);
    check_wrapper(&table);
    check(memcmp(&table, &as_built, sizeof table) == 0, "table", "no call changed it");

    if (failures != 0) {
        printf("icmps: %u of %u checks do not hold\n", failures, checks);
        return 1;
    }
    printf("icmps: all %u checks hold\n", checks);
    return 0;
}
