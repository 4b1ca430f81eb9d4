/*
 * Where no ICMPv6 message is due, from C, beside the nearest packets about which one is: sources, destinations, ICMPv6 types, packets that
 * the IPv6 call answers otherwise, messages that were built. Prints a line for each check.
 */
/* Octets that are lent as the output. */
#define CALL_ROOM (KAWSARPA_ICMP_MAX + 40)

#include "call.h"
#include "checks.h"
#include "checksum.h"
#include "icmp.h"
#include "kawsarpa.h"
#include "messages.h"
#include "packets.h"
#include "table.h"

#include <stdio.h>
#include <string.h>

/* The IPv6 call answers `packet` so, and none is due about it, whatever the room. */
static void none_due(const struct table *table, size_t packet_len, struct refusal refusal, const char *subject)
{
    refused_in(ROOM, kawsarpa_translate_ipv6, packet, packet_len, table, sizeof *table, refusal.number, refusal.type, refusal.code,
               refusal.pointer, subject);
    refused(kawsarpa_icmp_ipv6, packet, packet_len, table, sizeof *table, KAWSARPA_ANSWER_NONE_DUE, subject);
    refused_in(0, kawsarpa_icmp_ipv6, packet, packet_len, table, sizeof *table, KAWSARPA_ANSWER_NONE_DUE, 0, 0, 0, subject);
}

/* So for a refusal without ICMP fields. */
static void none_due_to(const struct table *table, size_t packet_len, unsigned int number, const char *subject)
{
    const struct refusal refusal = {number, 0, 0, 0};
    none_due(table, packet_len, refusal, subject);
}

static void check_sources(const struct table *table)
{
    const size_t length = try_packet(expired, sizeof expired);
    unsigned int bit;
    set_source(0, 0, 0);
    none_due(table, length, hop_limit, "from ::");
    set_source(0xFF, 0, 0);
    none_due(table, length, hop_limit, "from ff00::");
    set_source(0xFF, 0x02, 1);
    none_due(table, length, hop_limit, "from ff02::1");
    memset(packet + SOURCE, 0xFF, 16);
    none_due(table, length, hop_limit, "from the last address");
    packet[SOURCE] = 0xFE;
    due(table, length, WAYPOINT, hop_limit, "from the last address before ff00::");
    set_source(0xFE, 0xFF, 0);
    due(table, length, WAYPOINT, hop_limit, "from feff::");
    set_source(0, 0, 1);
    due(table, length, WAYPOINT, hop_limit, "from ::1");
    set_source(0, 0xFF, 0);
    due(table, length, WAYPOINT, hop_limit, "from ff::");
    for (bit = 0; bit < 128; bit++) {
        char subject[40];
        set_source(0, 0, 0);
        packet[SOURCE + bit / 8] = (uint8_t)(0x80 >> bit % 8);
        snprintf(subject, sizeof subject, "from the address with bit %u alone", bit);
        due(table, length, WAYPOINT, hop_limit, subject);
    }

    try_packet(nothing_for_d, sizeof nothing_for_d);
    packet[SOURCE] = 0xFF;
    none_due(table, sizeof nothing_for_d, upper_layer(40), "from a multicast address, at D");
    try_packet(to_e4, sizeof to_e4);
    packet[43] = 1;
    set_source(0, 0, 0);
    none_due(table, sizeof to_e4, segments_left, "from ::, at E4");
}

static void check_destinations(const struct table *table)
{
    struct table multicast = *table;
    size_t length = try_packet(expired, sizeof expired);
    memset(multicast.entries[WAYPOINT].prefix, 0, 16);
    multicast.entries[WAYPOINT].prefix[0] = 0xFE;
    multicast.entries[WAYPOINT].prefix_length = 7; /* fe00::/7 */
    packet[DESTINATION] = 0xFF;
    none_due(&multicast, length, hop_limit, "to a multicast address");
    packet[43] = 0;
    none_due(&multicast, length, upper_layer(64), "to a multicast address, SL 0");
    packet[7] = 9;
    packet[43] = 2;
    none_due(&multicast, length, segments_left, "to a multicast address, SL 2");
    packet[DESTINATION] = 0xFE;
    packet[DESTINATION + 1] = 0xFF;
    due(&multicast, length, WAYPOINT, segments_left, "to feff::");

    /* a segment is not the destination */
    length = try_packet(expired, sizeof expired);
    packet[48] = 0xFF;
    due(table, length, WAYPOINT, hop_limit, "to a waypoint, with a multicast segment");
}

static int is_error_or_redirect(unsigned int type)
{
    return type < 128 || type == 137;
}

/* Every ICMPv6 type, right behind the header, behind an SRH with a segment left, and within an inner packet, where it is not looked at. */
static void check_types(const struct table *table)
{
    unsigned int type;
    size_t length;
    char subject[60];
    for (type = 0; type < 256; type++) {
        length = try_longer(nothing_for_d, sizeof nothing_for_d, 41);
        packet[6] = NEXT_ICMPV6;
        packet[40] = (uint8_t)type;
        snprintf(subject, sizeof subject, "ICMPv6 type %u at D", type);
        if (is_error_or_redirect(type))
            none_due(table, length, upper_layer(40), subject);
        else
            due(table, length, D, upper_layer(40), subject);

        length = try_packet(expired, sizeof expired);
        packet[40] = NEXT_ICMPV6;
        packet[64] = (uint8_t)type;
        snprintf(subject, sizeof subject, "ICMPv6 type %u behind an SRH at a waypoint", type);
        if (is_error_or_redirect(type))
            none_due(table, length, hop_limit, subject);
        else
            due(table, length, WAYPOINT, hop_limit, subject);
    }

    length = try_packet(nothing_for_d, sizeof nothing_for_d);
    packet[6] = NEXT_ICMPV6;
    due(table, length, D, upper_layer(40), "ICMPv6 without a type at D");
    length = try_longer(expired, 64, 64);
    packet[40] = NEXT_ICMPV6;
    due(table, length, WAYPOINT, hop_limit, "ICMPv6 without a type behind an SRH at a waypoint");
    length = try_longer(expired, 64, 64 + sizeof about_expired);
    packet[40] = 41;
    memcpy(packet + 64, about_expired, sizeof about_expired);
    due(table, length, WAYPOINT, hop_limit, "an ICMPv6 message in an inner packet");
    length = try_packet(to_d, sizeof to_d);
    packet[40] = 0;
    packet[43]++;
    due(table, length, D, upper_layer(40), "UDP whose first octet is 0");
}

/* Neither is one about a message that was built: it goes to an entry of the same table, which refuses it too. */
static void fed_back(const struct table *table, const uint8_t *refused_packet, size_t length, const uint8_t *to, size_t octets,
                     unsigned int at, const char *subject)
{
    size_t built;
    try_packet(refused_packet, length);
    memset(packet + SOURCE, 0, 16);
    memcpy(packet + SOURCE, to, octets);
    built = kawsarpa_answer_length(
        kawsarpa_icmp_ipv6(packet, length, (const uint8_t *)table, sizeof *table, buffer + GUARD, KAWSARPA_ICMP_MAX));
    check(built == length + 48, subject, "a message is built");
    memcpy(packet, buffer + GUARD, built);
    none_due(table, built, upper_layer(at), subject);
}

static void check_fed_back(const struct table *table)
{
    fed_back(table, expired, sizeof expired, d_prefix, sizeof d_prefix, 40, "Time Exceeded to D");
    fed_back(table, expired, sizeof expired, waypoint_prefix, sizeof waypoint_prefix, 40, "Time Exceeded to a waypoint");
    fed_back(table, spent, sizeof spent, di_prefix, sizeof di_prefix, 40, "Parameter Problem to Di");
    fed_back(table, pinged, sizeof pinged, e4_prefix, sizeof e4_prefix, 40, "Parameter Problem to E4");
}

/* What the IPv6 call sends: with room enough it answers 0, else 16. */
static void none_due_to_sent(const struct table *table, size_t length, const char *subject)
{
    const uint64_t answer = kawsarpa_translate_ipv6(packet, length, (const uint8_t *)table, sizeof *table, buffer + GUARD, ROOM);
    check(kawsarpa_answer_number(answer) == KAWSARPA_ANSWER_SENT, subject, "the IPv6 call sends it");
    refused_in(10, kawsarpa_translate_ipv6, packet, length, table, sizeof *table, KAWSARPA_ANSWER_NO_ROOM, 0, 0, 0, subject);
    refused(kawsarpa_icmp_ipv6, packet, length, table, sizeof *table, KAWSARPA_ANSWER_NONE_DUE, subject);
    refused_in(10, kawsarpa_icmp_ipv6, packet, length, table, sizeof *table, KAWSARPA_ANSWER_NONE_DUE, 0, 0, 0, subject);
    refused_in(0, kawsarpa_icmp_ipv6, packet, length, table, sizeof *table, KAWSARPA_ANSWER_NONE_DUE, 0, 0, 0, subject);
}

/* The UDP checksum of the packet that is tried, behind its header. */
static void set_checksum(size_t length)
{
    kawsarpa_put16(packet + 46, udp_checksum(packet, length, BEHIND));
}

/* A packet to Di with one octet changed and the right UDP checksum. */
static size_t try_di(size_t at, uint8_t octet)
{
    const size_t length = try_packet(to_di, sizeof to_di);
    packet[at] = octet;
    set_checksum(length);
    return length;
}

static void check_other_answers(const struct table *table)
{
    struct table other = *table;
    size_t length;

    none_due_to_sent(table, try_packet(to_d, sizeof to_d), "0 and 16 at D");
    none_due_to_sent(table, try_packet(to_di, sizeof to_di), "0 and 16 at Di");
    none_due_to_sent(table, try_packet(from_di, sizeof from_di), "0 and 16 at a waypoint");
    none_due_to_sent(table, try_packet(to_e6, sizeof to_e6), "0 and 16 at E6");
    none_due_to_sent(table, try_packet(to_e4, sizeof to_e4), "0 and 16 at E4");
    none_due_to_sent(table, try_packet(echo_to_di, sizeof echo_to_di), "0 and 16, an Echo Response");

    length = try_packet(expired, sizeof expired);
    other.entries[E4].hop_limit = 0;
    none_due_to(&other, length, KAWSARPA_ANSWER_UNSOUND, "1, hop limit 0 in another entry");
    refused(kawsarpa_icmp_ipv6, expired, sizeof expired, table, sizeof *table - 1, KAWSARPA_ANSWER_NONE_DUE, "1, a table one octet short");
    refused(kawsarpa_icmp_ipv6, expired, sizeof expired, table, 0, KAWSARPA_ANSWER_NONE_DUE, "1, a table of 0 octets");
    none_due_to(table, 0, KAWSARPA_ANSWER_MALFORMED, "2, empty");
    none_due_to(table, 39, KAWSARPA_ANSWER_MALFORMED, "2, 39 octets");
    none_due_to(table, length - 1, KAWSARPA_ANSWER_MALFORMED, "2, the last octet missing");
    packet[0] = 0x4B;
    none_due_to(table, length, KAWSARPA_ANSWER_MALFORMED, "2, version 4");
    packet[0] = 0x6B;
    packet[29] = 0x33;
    none_due_to(table, length, KAWSARPA_ANSWER_NO_MATCH, "4");
    length = try_packet(expired, sizeof expired);
    packet[42] = 3;
    none_due_to(table, length, KAWSARPA_ANSWER_BAD_CHAIN, "5, routing type 3");
    length = try_packet(nothing_for_d, sizeof nothing_for_d);
    packet[6] = 60;
    none_due_to(table, length, KAWSARPA_ANSWER_BAD_CHAIN, "5, destination options");

    length = try_packet(to_di, sizeof to_di);
    packet[45]++;
    none_due_to(table, length, KAWSARPA_ANSWER_BAD_UDP, "9");
    none_due_to(table, try_di(48, 0x5F), KAWSARPA_ANSWER_BAD_GTPU, "10, version 2");
    none_due_to(table, try_di(49, 2), KAWSARPA_ANSWER_NOT_G_PDU, "11, type 2");
    none_due_to(table, try_di(59, 0x40), KAWSARPA_ANSWER_BAD_EXTENSIONS, "12, extension type 40");
    none_due_to(table, try_di(61, 0x1F), KAWSARPA_ANSWER_BAD_CONTAINER, "13, uplink");
    none_due_to(table, try_di(68, 0x55), KAWSARPA_ANSWER_BAD_INNER, "14, nibble 5");
    none_due_to(table, try_di(49, 1), KAWSARPA_ANSWER_BAD_ECHO, "17, a TEID");
    length = try_packet(to_di, sizeof to_di);
    packet[47] ^= 1;
    none_due_to(table, length, KAWSARPA_ANSWER_BAD_CHECKSUM, "18");

    /* an inner packet with which two SIDs and the SRH pass 65,535 octets */
    length = try_longer(to_d, sizeof to_d, LONGEST);
    kawsarpa_put16(packet + 44, (uint16_t)(length - 40));
    kawsarpa_put16(packet + 50, (uint16_t)(length - 56));
    set_checksum(length);
    none_due_to(table, length, KAWSARPA_ANSWER_TOO_LONG, "15");
}

int main(void)
{
    const struct table as_built = build_with_sources();
    struct table table = as_built;

    check_sources(&table);
    check_destinations(&table);
    check_types(&table);
    check_fed_back(&table);
    check_other_answers(&table);
    check(memcmp(&table, &as_built, sizeof table) == 0, "table", "no call changed it");

    if (failures != 0) {
        printf("none_due: %u of %u checks do not hold\n", failures, checks);
        return 1;
    }
    printf("none_due: all %u checks hold\n", checks);
    return 0;
}
