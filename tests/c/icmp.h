/*
 * What icmps.c and none_due.c share: the packet that is tried, how the IPv6 call refuses it, and the ICMPv6 message that there must be
 * about it (order 6, RFC 4443).
 */
#ifndef ICMP_H
#define ICMP_H

#include "call.h"
#include "checksum.h"
#include "kawsarpa.h"
#include "table.h"

#include <string.h>

enum { TIME_EXCEEDED = 3, PARAMETER_PROBLEM = 4, NEXT_ROUTING = 43, NEXT_ICMPV6 = 58 };

/* Where source, destination and, behind the header, an SRH or the upper layer begin in a packet. */
enum { SOURCE = 8, DESTINATION = 24, BEHIND = 40 };

/* The longest packet, and the longest of which all is quoted. */
enum { LONGEST = 65575, QUOTED_MOST = 1232 };

static uint8_t packet[LONGEST];

/* The table of calls.c, in which a waypoint has no source of its own. */
static struct table build_with_sources(void)
{
    struct table table = build();
    memcpy(table.entries[WAYPOINT].source, gateway_prefix, sizeof gateway_prefix);
    table.entries[WAYPOINT].source[15] = 5;
    return table;
}

/* What an answer to the IPv6 call says. */
struct refusal {
    unsigned int number, type, code, pointer;
};

static const struct refusal hop_limit = {KAWSARPA_ANSWER_HOP_LIMIT, TIME_EXCEEDED, 0, 0};
static const struct refusal segments_left = {KAWSARPA_ANSWER_SEGMENTS_LEFT, PARAMETER_PROBLEM, 0, 43};

static struct refusal upper_layer(unsigned int at)
{
    const struct refusal refusal = {KAWSARPA_ANSWER_UPPER_LAYER, PARAMETER_PROBLEM, 4, at};
    return refusal;
}

/* The message with an entry's source and hop limit, its checksum by a loop of its own. Gives its length. */
static size_t lay_out(const struct kawsarpa_entry *entry, struct refusal refusal, size_t packet_len, uint8_t message[KAWSARPA_ICMP_MAX])
{
    const size_t quoted = packet_len < QUOTED_MOST ? packet_len : (size_t)QUOTED_MOST;
    memset(message, 0, 48);
    message[0] = 0x60;
    kawsarpa_put16(message + 4, (uint16_t)(8 + quoted));
    message[6] = NEXT_ICMPV6;
    message[7] = entry->hop_limit;
    memcpy(message + SOURCE, entry->source, 16);
    memcpy(message + DESTINATION, packet + SOURCE, 16);
    message[40] = (uint8_t)refusal.type;
    message[41] = (uint8_t)refusal.code;
    kawsarpa_put16(message + 46, (uint16_t)refusal.pointer);
    memcpy(message + 48, packet, quoted);
    kawsarpa_put16(message + 42, icmp_checksum(message, 48 + quoted));
    return 48 + quoted;
}

/* The IPv6 call refuses `packet` so, and about it there is the message of this entry, with any room that is enough. */
static void due(const struct table *table, size_t packet_len, unsigned int entry, struct refusal refusal, const char *subject)
{
    uint8_t message[KAWSARPA_ICMP_MAX];
    const size_t length = lay_out(&table->entries[entry], refusal, packet_len, message);
    refused_in(ROOM, kawsarpa_translate_ipv6, packet, packet_len, table, sizeof *table, refusal.number, refusal.type, refusal.code,
               refusal.pointer, subject);
    sent(kawsarpa_icmp_ipv6, packet, packet_len, table, message, length, subject);
    refused_in(0, kawsarpa_icmp_ipv6, packet, packet_len, table, sizeof *table, KAWSARPA_ANSWER_NO_ROOM, 0, 0, 0, subject);
}

/* The packet that is tried next; gives its length. */
static size_t try_packet(const uint8_t *octets, size_t length)
{
    memcpy(packet, octets, length);
    return length;
}

/* The same of so many octets, zeros behind those that are given. */
static size_t try_longer(const uint8_t *octets, size_t count, size_t length)
{
    memset(packet, 0, sizeof packet);
    memcpy(packet, octets, count);
    kawsarpa_put16(packet + 4, (uint16_t)(length - 40));
    return length;
}

/* From an address of zeros but for its first two octets and its last. */
static void set_source(uint8_t first, uint8_t second, uint8_t last)
{
    memset(packet + SOURCE, 0, 16);
    packet[SOURCE] = first;
    packet[SOURCE + 1] = second;
    packet[SOURCE + 15] = last;
}

#endif
