/*
 * The calls from C: one of each kind, two whole trips, Echo Requests, UDP checksums, some refusals, null pointers with a count of 0.
 * Prints a line for each check.
 */
/* Octets that are lent as the output. */
#define CALL_ROOM 160

#include "call.h"
#include "checks.h"
#include "kawsarpa.h"
#include "packets.h"
#include "table.h"

#include <stdio.h>
#include <string.h>

static void refused_with_icmp(call_function *call, const uint8_t *packet, size_t packet_len, const struct table *table, unsigned int number,
                              unsigned int type, unsigned int code, unsigned int pointer, const char *subject)
{
    refused_in(ROOM, call, packet, packet_len, table, sizeof *table, number, type, code, pointer, subject);
}

/* What the last call sent, to be lent to the next: a copy, since an output overlaps no input. */
static uint8_t carried[ROOM];

static const uint8_t *carry(void)
{
    memcpy(carried, buffer + GUARD, ROOM);
    return carried;
}

static void check_header(const struct table *table)
{
    static const struct {
        size_t at, count;
        uint8_t octets[16];
    } parts[] = {
        {0, 8, {0x01, 0x00, 0x00, 0x05, 0x00, 0x01, 0x00, 0x01}},
        /* the waypoint */
        {16, 3, {0x01, 0x30, 0x40}},
        {32, 6, {0x20, 0x01, 0x0D, 0xB8, 0x00, 0x0A}},
        /* D */
        {80, 5, {0x45, 0x30, 0x3D, 0x01, 0x02}},
        {96, 6, {0x20, 0x01, 0x0D, 0xB8, 0x00, 0x01}},
        {112, 16, {0x20, 0x01, 0x0D, 0xB8, 0x00, 0x0F, 0, 0, 0, 0, 0, 0, 0, 0, 0, 0x01}},
        /* Di */
        {144, 5, {0x46, 0x30, 0x3E, 0x00, 0x03}},
        {160, 6, {0x20, 0x01, 0x0D, 0xB8, 0x00, 0x02}},
        {176, 16, {0x20, 0x01, 0x0D, 0xB8, 0x00, 0x0F, 0, 0, 0, 0, 0, 0, 0, 0, 0, 0x02}},
        /* E6 */
        {208, 12, {0x47, 0x40, 0x3F, 0x00, 0x03, 0x00, 0x40, 0x00, 0x00, 0x00, 0xC0, 0x01}},
        {224, 8, {0x20, 0x01, 0x0D, 0xB8, 0x00, 0x0B, 0x00, 0x01}},
        {240, 16, {0x20, 0x01, 0x0D, 0xB8, 0x00, 0x0F, 0, 0, 0, 0, 0, 0, 0, 0, 0, 0x03}},
        /* E4 */
        {272, 12, {0x48, 0x30, 0x41, 0x00, 0x05, 0x00, 0x00, 0x06, 0x08, 0x00, 0xC0, 0x02}},
        {288, 6, {0x20, 0x01, 0x0D, 0xB8, 0x00, 0x0C}},
        {304, 16, {0x20, 0x01, 0x0D, 0xB8, 0x00, 0x0F, 0, 0, 0, 0, 0, 0, 0, 0, 0, 0x04}},
        /* the rule */
        {336, 12, {0x18, 0x42, 0x00, 0x05, 0x06, 0x08, 0x01, 0x00, 0xC0, 0x00, 0x02, 0x00}},
        {352, 6, {0x20, 0x01, 0x0D, 0xB8, 0x00, 0x0C}},
        {368, 6, {0x20, 0x01, 0x0D, 0xB8, 0x00, 0x0D}},
        {384, 8, {0x20, 0x01, 0x0D, 0xB8, 0x00, 0x0A, 0x00, 0x04}},
        /* the policy */
        {496, 2, {0x02, 0x40}},
        {512, 8, {0x20, 0x01, 0x0D, 0xB8, 0x00, 0x0A, 0x00, 0x01}},
        {528, 16, {0x20, 0x01, 0x0D, 0xB8, 0x00, 0x0B, 0x00, 0x01, 0xFF, 0xFF, 0xFF, 0xFF, 0xFF, 0x00, 0x00, 0x5A}},
    };
    const uint64_t answer = (uint64_t)65575 << 40 | (uint64_t)0x2B28 << 24 | 0x040308;
    uint8_t octets[784];
    struct kawsarpa_entry entry;
    struct kawsarpa_policy policy;
    unsigned int i, j;
    int named = 1;

    memset(octets, 0, sizeof octets);
    for (i = 0; i < sizeof parts / sizeof parts[0]; i++)
        memcpy(octets + parts[i].at, parts[i].octets, parts[i].count);
    check(sizeof *table == sizeof octets && memcmp(table, octets, sizeof octets) == 0, "structs and setters",
          "the table has the expected octets");

    check(kawsarpa_table_size(0, 0, 0) == 16 && kawsarpa_table_size(ENTRIES, 1, 1) == sizeof *table &&
              kawsarpa_table_size(KAWSARPA_ENTRIES_MAX, KAWSARPA_RULES_MAX, KAWSARPA_POLICIES_MAX) == 11280,
          "kawsarpa_table_size", "16, 784 and 11,280 octets");
    check(kawsarpa_table_size(E4, 0, 0) == 272 && kawsarpa_table_size(ENTRIES, 0, 0) == 336 && kawsarpa_table_size(ENTRIES, 1, 0) == 496,
          "kawsarpa_table_size", "records stand at 272, 336 and 496");

    kawsarpa_entry_set_args_start_octets(&entry, 11);
    kawsarpa_policy_set_args_start_octets(&policy, 11);
    check(entry.args_start == 88 && policy.args_start == 88, "start of Args", "11 octets are 88 bits");
    kawsarpa_entry_set_args_start_bits(&entry, 88);
    kawsarpa_policy_set_args_start_bits(&policy, 88);
    check(entry.args_start == 88 && policy.args_start == 88, "start of Args", "88 bits are 88 bits");
    kawsarpa_entry_set_args_start_octets(&entry, 32);
    kawsarpa_policy_set_args_start_bits(&policy, 256 + 64);
    check(entry.args_start == 255 && policy.args_start == 255, "start of Args", "what an octet cannot hold is 255");

    check(kawsarpa_answer_number(answer) == 8 && kawsarpa_answer_icmp_type(answer) == 3 && kawsarpa_answer_icmp_code(answer) == 4 &&
              kawsarpa_answer_icmp_pointer(answer) == 0x2B28 && kawsarpa_answer_length(answer) == 65575,
          "readers of an answer", "each reads its own bits");

    for (i = 0; i <= 256; i++) {
        const int known = i <= KAWSARPA_ANSWER_BAD_BURST || i == KAWSARPA_ANSWER_NO_ROW || i == KAWSARPA_ANSWER_ROW_FULL;
        if ((strcmp(kawsarpa_answer_name(i), "unknown") != 0) != known)
            named = 0;
        for (j = 0; known && j < i; j++)
            if (strcmp(kawsarpa_answer_name(i), kawsarpa_answer_name(j)) == 0)
                named = 0;
    }
    check(named, "kawsarpa_answer_name", "0 to 19, 25 and 26 have names of their own, and the others up to 256 have none");
    check(strcmp(kawsarpa_answer_name(KAWSARPA_ANSWER_SENT), "sent") == 0 &&
              strcmp(kawsarpa_answer_name(KAWSARPA_ANSWER_BAD_UDP), "bad UDP") == 0 &&
              strcmp(kawsarpa_answer_name(KAWSARPA_ANSWER_NO_ROOM), "no room") == 0 &&
              strcmp(kawsarpa_answer_name(17), "bad Echo Request") == 0 && strcmp(kawsarpa_answer_name(18), "bad UDP checksum") == 0 &&
              strcmp(kawsarpa_answer_name(19), "bad burst") == 0 && strcmp(kawsarpa_answer_name(25), "no row free") == 0 &&
              strcmp(kawsarpa_answer_name(26), "row full") == 0,
          "kawsarpa_answer_name", "0, 9, 16 to 19, 25 and 26 have the right ones");
}

static void check_trip_ipv6(const struct table *table)
{
    sent(kawsarpa_translate_ipv6, to_di, sizeof to_di, table, from_di, sizeof from_di, "Di");
    sent(kawsarpa_translate_ipv6, carry(), sizeof from_di, table, to_e6, sizeof to_e6, "Di, waypoint by translate_ipv6");
    sent(kawsarpa_waypoint, carried, sizeof from_di, table, to_e6, sizeof to_e6, "Di, waypoint by waypoint");
    sent(kawsarpa_translate_ipv6, carry(), sizeof to_e6, table, from_e6, sizeof from_e6, "Di, waypoint, E6");
    check(buffer[GUARD + 62] == 0x45, "Di, waypoint, E6", "flow 5 with the reflective bit arrived as flow 5 with it");
}

static void check_trip_ipv4(const struct table *table)
{
    struct table direct = *table;
    sent(kawsarpa_translate_ipv4, to_d4, sizeof to_d4, table, from_d4, sizeof from_d4, "D4");
    sent(kawsarpa_waypoint, carry(), sizeof from_d4, table, to_e4, sizeof to_e4, "D4, waypoint");
    sent(kawsarpa_translate_ipv6, carry(), sizeof to_e4, table, from_e4, sizeof from_e4, "D4, waypoint, E4");

    direct.rules[0].waypoint_count = 0;
    memset(direct.rules[0].waypoints, 0, sizeof direct.rules[0].waypoints);
    sent(kawsarpa_translate_ipv4, to_d4, sizeof to_d4, &direct, from_d4_directly, sizeof from_d4_directly, "D4 without waypoints");
    sent(kawsarpa_translate_ipv6, carry(), sizeof from_d4_directly, &direct, from_e4, sizeof from_e4, "D4 without waypoints, E4");
}

static void check_d(const struct table *table)
{
    sent(kawsarpa_translate_ipv6, to_d, sizeof to_d, table, from_d, sizeof from_d, "D");
    sent(kawsarpa_waypoint, to_d, sizeof to_d, table, from_d, sizeof from_d, "D by waypoint, the IPv6 call");
}

/* Echo Requests are answered at D, Di and D4, where they have S and TEID 0. */
static void check_echo(const struct table *table)
{
    uint8_t packet[ROOM], reply[sizeof echo_from_di];

    sent(kawsarpa_translate_ipv6, echo_to_di, sizeof echo_to_di, table, echo_from_di, sizeof echo_from_di, "Echo at Di");
    check(kawsarpa_is_echo_response(buffer + GUARD, sizeof echo_from_di) == 1, "Echo at Di", "an Echo Response");
    memcpy(packet, echo_to_di, sizeof echo_to_di);
    memcpy(reply, echo_from_di, sizeof reply);
    packet[29] = reply[13] = 1; /* to the D entry, which has hop limit 61 */
    reply[7] = 61;
    kawsarpa_put16(packet + 70, 0x3C6B);
    kawsarpa_put16(reply + 46, 0xAAB0);
    sent(kawsarpa_translate_ipv6, packet, sizeof echo_to_di, table, reply, sizeof reply, "Echo at D");
    sent(kawsarpa_translate_ipv4, echo_to_d4, sizeof echo_to_d4, table, echo_from_d4, sizeof echo_from_d4, "Echo at D4");
    check(kawsarpa_is_echo_response(buffer + GUARD, sizeof echo_from_d4) == 1, "Echo at D4", "an Echo Response");

    memcpy(packet, echo_to_di, sizeof echo_to_di);
    packet[72] = 0x35;
    kawsarpa_put16(packet + 70, 0x3E6A);
    refused(kawsarpa_translate_ipv6, packet, sizeof echo_to_di, table, sizeof *table, KAWSARPA_ANSWER_BAD_ECHO, "Echo without S at Di");
    memcpy(packet, echo_to_d4, sizeof echo_to_d4);
    packet[32] = 1;
    refused(kawsarpa_translate_ipv4, packet, sizeof echo_to_d4, table, sizeof *table, KAWSARPA_ANSWER_BAD_ECHO, "Echo with a TEID at D4");
    refused_in(0, kawsarpa_translate_ipv4, packet, sizeof echo_to_d4, table, sizeof *table, KAWSARPA_ANSWER_BAD_ECHO, 0, 0, 0,
               "Echo with a TEID at D4, room 0");
    packet[29] = 2;
    refused(kawsarpa_translate_ipv4, packet, sizeof echo_to_d4, table, sizeof *table, KAWSARPA_ANSWER_NOT_G_PDU, "Echo Response at D4");

    check(kawsarpa_is_echo_response(from_e6, sizeof from_e6) == 0 && kawsarpa_is_echo_response(from_e4, sizeof from_e4) == 0 &&
              kawsarpa_is_echo_response(from_d, sizeof from_d) == 0 && kawsarpa_is_echo_response(NULL, 0) == 0,
          "kawsarpa_is_echo_response", "0 of packets that are sent on, and of nothing");
}

/* UDP checksums that arrive at D and Di: 18 has no ICMP, comes behind 8 and 9 and before all else, and allowing 0 allows nothing else. */
static void check_arriving_checksums(const struct table *table)
{
    struct table allowing = *table;
    uint8_t packet[ROOM];
    allowing.entries[D].zero_checksum = allowing.entries[DI].zero_checksum = KAWSARPA_ZERO_CHECKSUM_ALLOW;

    memcpy(packet, to_di, sizeof to_di);
    packet[47] ^= 1;
    refused(kawsarpa_translate_ipv6, packet, sizeof to_di, table, sizeof *table, KAWSARPA_ANSWER_BAD_CHECKSUM, "one off at Di");
    refused(kawsarpa_translate_ipv6, packet, sizeof to_di, &allowing, sizeof allowing, KAWSARPA_ANSWER_BAD_CHECKSUM,
            "one off at Di that allows 0");
    refused_in(0, kawsarpa_translate_ipv6, packet, sizeof to_di, table, sizeof *table, KAWSARPA_ANSWER_BAD_CHECKSUM, 0, 0, 0,
               "one off at Di, room 0");
    packet[48] = 0x5F;
    refused(kawsarpa_translate_ipv6, packet, sizeof to_di, table, sizeof *table, KAWSARPA_ANSWER_BAD_CHECKSUM, "and GTP-U version 2");
    packet[45]++;
    refused(kawsarpa_translate_ipv6, packet, sizeof to_di, table, sizeof *table, KAWSARPA_ANSWER_BAD_UDP, "and another UDP length");
    packet[43]++;
    refused_with_icmp(kawsarpa_translate_ipv6, packet, sizeof to_di, table, KAWSARPA_ANSWER_UPPER_LAYER, KAWSARPA_ICMP_PARAMETER_PROBLEM, 4,
                      40, "and another port");

    memcpy(packet, to_d, sizeof to_d);
    packet[65] ^= 1;
    refused(kawsarpa_translate_ipv6, packet, sizeof to_d, table, sizeof *table, KAWSARPA_ANSWER_BAD_CHECKSUM, "last octet changed at D");
    memcpy(packet, to_d, sizeof to_d);
    packet[8] ^= 1;
    refused(kawsarpa_translate_ipv6, packet, sizeof to_d, table, sizeof *table, KAWSARPA_ANSWER_BAD_CHECKSUM, "source changed at D");
    memcpy(packet, to_di, sizeof to_di);
    packet[72]++; /* the octet behind which one is missing in the last word, as if it were the lower one */
    packet[47]--;
    refused(kawsarpa_translate_ipv6, packet, sizeof to_di, table, sizeof *table, KAWSARPA_ANSWER_BAD_CHECKSUM,
            "the odd octet as a low one");

    memcpy(packet, to_d, sizeof to_d);
    kawsarpa_put16(packet + 46, 0);
    refused(kawsarpa_translate_ipv6, packet, sizeof to_d, table, sizeof *table, KAWSARPA_ANSWER_BAD_CHECKSUM, "0 at D");
    sent(kawsarpa_translate_ipv6, packet, sizeof to_d, &allowing, from_d, sizeof from_d, "0 at D that allows it");
    sent(kawsarpa_translate_ipv6, to_d, sizeof to_d, &allowing, from_d, sizeof from_d, "the right one at D that allows 0");
    memcpy(packet, to_di, sizeof to_di);
    kawsarpa_put16(packet + 46, 0);
    refused(kawsarpa_translate_ipv6, packet, sizeof to_di, table, sizeof *table, KAWSARPA_ANSWER_BAD_CHECKSUM, "0 at Di");
    sent(kawsarpa_translate_ipv6, packet, sizeof to_di, &allowing, from_di, sizeof from_di, "0 at Di that allows it");
    packet[48] = 0x5F;
    refused(kawsarpa_translate_ipv6, packet, sizeof to_di, &allowing, sizeof allowing, KAWSARPA_ANSWER_BAD_GTPU,
            "0 at Di that allows it, GTP-U version 2");
    allowing.entries[DI].zero_checksum = KAWSARPA_ZERO_CHECKSUM_REFUSE;
    packet[48] = 0x3F;
    refused(kawsarpa_translate_ipv6, packet, sizeof to_di, &allowing, sizeof allowing, KAWSARPA_ANSWER_BAD_CHECKSUM,
            "0 at Di where D alone allows it");

    memcpy(packet, to_di, sizeof to_di);
    kawsarpa_put16(packet + 46, 0x033A);
    packet[48] = 0x5F;
    refused(kawsarpa_translate_ipv6, packet, sizeof to_di, table, sizeof *table, KAWSARPA_ANSWER_BAD_GTPU, "right, with GTP-U version 2");
    memcpy(packet, to_di, sizeof to_di);
    kawsarpa_put16(packet + 46, 0xFFFF);
    refused(kawsarpa_translate_ipv6, packet, sizeof to_di, table, sizeof *table, KAWSARPA_ANSWER_BAD_CHECKSUM, "FFFF where 233A is right");
}

/* Where 0 is computed FFFF is right, in what arrives and in what is sent. */
static void check_computed_zero(const struct table *table)
{
    uint8_t packet[ROOM], expected[ROOM];

    memcpy(packet, to_di, sizeof to_di);
    memcpy(expected, from_di, sizeof from_di);
    kawsarpa_put16(packet + 70, 0xDF06); /* in the inner packet */
    kawsarpa_put16(expected + 98, 0xDF06);
    kawsarpa_put16(packet + 46, 0xFFFF);
    sent(kawsarpa_translate_ipv6, packet, sizeof to_di, table, expected, sizeof from_di, "FFFF at Di, 0 computed");
    kawsarpa_put16(packet + 46, 0);
    refused(kawsarpa_translate_ipv6, packet, sizeof to_di, table, sizeof *table, KAWSARPA_ANSWER_BAD_CHECKSUM, "0 at Di, 0 computed");

    memcpy(packet, to_e6, sizeof to_e6);
    memcpy(expected, from_e6, sizeof from_e6);
    kawsarpa_put16(packet + 98, 0x3902);
    kawsarpa_put16(expected + 66, 0x3902);
    kawsarpa_put16(expected + 46, 0xFFFF);
    sent(kawsarpa_translate_ipv6, packet, sizeof to_e6, table, expected, sizeof from_e6, "E6, 0 computed");
}

/* Echo Requests over IPv6: verified as G-PDUs are, and answered with the true checksum, also where a request had 0. */
static void check_echo_checksums(const struct table *table)
{
    struct table allowing = *table;
    uint8_t packet[ROOM], reply[sizeof echo_from_di];
    allowing.entries[DI].zero_checksum = KAWSARPA_ZERO_CHECKSUM_ALLOW;

    memcpy(packet, echo_to_di, sizeof echo_to_di);
    packet[70] ^= 0x80;
    refused(kawsarpa_translate_ipv6, packet, sizeof echo_to_di, table, sizeof *table, KAWSARPA_ANSWER_BAD_CHECKSUM, "Echo, wrong at Di");
    packet[72] = 0x35;
    refused(kawsarpa_translate_ipv6, packet, sizeof echo_to_di, table, sizeof *table, KAWSARPA_ANSWER_BAD_CHECKSUM,
            "Echo without S, wrong at Di");
    memcpy(packet, echo_to_di, sizeof echo_to_di);
    kawsarpa_put16(packet + 70, 0);
    refused(kawsarpa_translate_ipv6, packet, sizeof echo_to_di, table, sizeof *table, KAWSARPA_ANSWER_BAD_CHECKSUM, "Echo, 0 at Di");
    sent(kawsarpa_translate_ipv6, packet, sizeof echo_to_di, &allowing, echo_from_di, sizeof echo_from_di, "Echo, 0 at Di that allows it");
    packet[72] = 0x35;
    refused(kawsarpa_translate_ipv6, packet, sizeof echo_to_di, &allowing, sizeof allowing, KAWSARPA_ANSWER_BAD_ECHO,
            "Echo without S, 0 at Di that allows it");

    memcpy(packet, echo_to_di, sizeof echo_to_di);
    memcpy(reply, echo_from_di, sizeof reply);
    kawsarpa_put16(packet + 80, 0x567D); /* the sequence number */
    kawsarpa_put16(packet + 70, 0x91BA);
    kawsarpa_put16(reply + 56, 0x567D);
    kawsarpa_put16(reply + 46, 0xFFFF);
    sent(kawsarpa_translate_ipv6, packet, sizeof echo_to_di, table, reply, sizeof reply, "Echo at Di, 0 computed in the reply");
}

static void check_refusals(const struct table *table)
{
    struct kawsarpa_table_header empty;
    struct table unsound;
    uint8_t packet[ROOM];
    kawsarpa_table_header_set(&empty, 0, 0, 0);

    refused(kawsarpa_translate_ipv6, to_d, 0, table, sizeof *table, KAWSARPA_ANSWER_MALFORMED, "empty packet");
    refused(kawsarpa_translate_ipv4, to_d4, 0, table, sizeof *table, KAWSARPA_ANSWER_MALFORMED, "empty packet over IPv4");
    refused(kawsarpa_translate_ipv6, to_d, 39, table, sizeof *table, KAWSARPA_ANSWER_MALFORMED, "39 octets");
    refused(kawsarpa_translate_ipv6, to_d4, sizeof to_d4, table, sizeof *table, KAWSARPA_ANSWER_MALFORMED, "IPv4 packet in the IPv6 call");

    memcpy(packet, to_d4, sizeof to_d4);
    packet[11] ^= 1;
    refused(kawsarpa_translate_ipv4, packet, sizeof to_d4, table, sizeof *table, KAWSARPA_ANSWER_BAD_HEADER4, "wrong IPv4 checksum");

    refused(kawsarpa_translate_ipv6, to_d, sizeof to_d, &empty, sizeof empty, KAWSARPA_ANSWER_NO_MATCH, "empty table");
    refused(kawsarpa_translate_ipv4, to_d4, sizeof to_d4, &empty, sizeof empty, KAWSARPA_ANSWER_NO_MATCH, "empty table over IPv4");
    refused(kawsarpa_waypoint, from_di, sizeof from_di, &empty, sizeof empty, KAWSARPA_ANSWER_NO_MATCH, "empty table at a waypoint");

    memcpy(packet, from_di, sizeof from_di);
    packet[7] = 1;
    refused_with_icmp(kawsarpa_waypoint, packet, sizeof from_di, table, KAWSARPA_ANSWER_HOP_LIMIT, KAWSARPA_ICMP_TIME_EXCEEDED, 0, 0,
                      "hop limit 1 at a waypoint");
    memcpy(packet, to_e6, sizeof to_e6);
    packet[43] = 2;
    refused_with_icmp(kawsarpa_translate_ipv6, packet, sizeof to_e6, table, KAWSARPA_ANSWER_SEGMENTS_LEFT, KAWSARPA_ICMP_PARAMETER_PROBLEM,
                      0, 43, "SL 2 at E6");
    refused_with_icmp(kawsarpa_translate_ipv6, nothing_for_d, sizeof nothing_for_d, table, KAWSARPA_ANSWER_UPPER_LAYER,
                      KAWSARPA_ICMP_PARAMETER_PROBLEM, 4, 40, "40 octets with next header 59 at D");

    memcpy(packet, to_d4, sizeof to_d4);
    packet[23] ^= 1;
    refused(kawsarpa_translate_ipv4, packet, sizeof to_d4, table, sizeof *table, KAWSARPA_ANSWER_UPPER_LAYER, "UDP port 2153 at D4");
    memcpy(packet, to_di, sizeof to_di);
    packet[61] = 0x1F;
    kawsarpa_put16(packet + 46, 0x232A);
    refused(kawsarpa_translate_ipv6, packet, sizeof to_di, table, sizeof *table, KAWSARPA_ANSWER_BAD_CONTAINER,
            "uplink container at a Di entry for downlink");

    refused(kawsarpa_translate_ipv6, to_d, sizeof to_d, table, 0, KAWSARPA_ANSWER_UNSOUND, "table of 0 octets");
    refused(kawsarpa_translate_ipv6, to_d, sizeof to_d, table, sizeof *table - 1, KAWSARPA_ANSWER_UNSOUND, "table one octet short");
    unsound = *table;
    unsound.header.format = 2;
    refused(kawsarpa_translate_ipv6, to_d, sizeof to_d, &unsound, sizeof unsound, KAWSARPA_ANSWER_UNSOUND, "format 2");
    unsound = *table;
    unsound.entries[E4].zero_checksum = 1;
    refused(kawsarpa_waypoint, from_di, sizeof from_di, &unsound, sizeof unsound, KAWSARPA_ANSWER_UNSOUND,
            "reserved octet 1 in another entry");
    unsound = *table;
    unsound.entries[DI].zero_checksum = 2;
    refused(kawsarpa_translate_ipv6, to_d, sizeof to_d, &unsound, sizeof unsound, KAWSARPA_ANSWER_UNSOUND,
            "zero_checksum 2 in another entry");
    unsound = *table;
    unsound.entries[WAYPOINT].hop_limit = 0;
    refused(kawsarpa_translate_ipv4, to_d4, sizeof to_d4, &unsound, sizeof unsound, KAWSARPA_ANSWER_UNSOUND,
            "hop limit 0 in an entry, over IPv4");
    unsound = *table;
    kawsarpa_entry_set_args_start_bits(&unsound.entries[E6], 68);
    refused(kawsarpa_translate_ipv6, to_d, 0, &unsound, sizeof unsound, KAWSARPA_ANSWER_UNSOUND, "start of Args at bit 68, empty packet");
}

/* The wrappers: the same as the calls, and NULL where the count is 0. */
static void check_wrappers(const struct table *table)
{
    const uint8_t *octets = (const uint8_t *)table;

    sent(kawsarpa_call_ipv6, to_d, sizeof to_d, table, from_d, sizeof from_d, "D by call_ipv6");
    sent(kawsarpa_call_ipv4, to_d4, sizeof to_d4, table, from_d4, sizeof from_d4, "D4 by call_ipv4");
    sent(kawsarpa_call_waypoint, from_di, sizeof from_di, table, to_e6, sizeof to_e6, "waypoint by call_waypoint");

    refused(kawsarpa_call_ipv6, NULL, 0, table, sizeof *table, KAWSARPA_ANSWER_MALFORMED, "NULL packet");
    refused(kawsarpa_call_ipv4, NULL, 0, table, sizeof *table, KAWSARPA_ANSWER_MALFORMED, "NULL packet over IPv4");
    refused(kawsarpa_call_waypoint, NULL, 0, table, sizeof *table, KAWSARPA_ANSWER_MALFORMED, "NULL packet at a waypoint");
    refused(kawsarpa_call_ipv6, to_d, sizeof to_d, NULL, 0, KAWSARPA_ANSWER_UNSOUND, "NULL table");
    refused(kawsarpa_call_ipv4, to_d4, sizeof to_d4, NULL, 0, KAWSARPA_ANSWER_UNSOUND, "NULL table over IPv4");
    refused(kawsarpa_call_waypoint, from_di, sizeof from_di, NULL, 0, KAWSARPA_ANSWER_UNSOUND, "NULL table at a waypoint");

    check_answer(kawsarpa_call_ipv6(to_d, sizeof to_d, octets, sizeof *table, NULL, 0), KAWSARPA_ANSWER_NO_ROOM, 0, 0, 0, 0, "NULL output");
    check_answer(kawsarpa_call_ipv4(to_d4, sizeof to_d4, octets, sizeof *table, NULL, 0), KAWSARPA_ANSWER_NO_ROOM, 0, 0, 0, 0,
                 "NULL output over IPv4");
    check_answer(kawsarpa_call_waypoint(from_di, sizeof from_di, octets, sizeof *table, NULL, 0), KAWSARPA_ANSWER_NO_ROOM, 0, 0, 0, 0,
                 "NULL output at a waypoint");
    check_answer(kawsarpa_call_ipv6(NULL, 0, NULL, 0, NULL, 0), KAWSARPA_ANSWER_UNSOUND, 0, 0, 0, 0, "all NULL");
    check_answer(kawsarpa_call_ipv4(NULL, 0, NULL, 0, NULL, 0), KAWSARPA_ANSWER_UNSOUND, 0, 0, 0, 0, "all NULL over IPv4");
    check_answer(kawsarpa_call_waypoint(NULL, 0, NULL, 0, NULL, 0), KAWSARPA_ANSWER_UNSOUND, 0, 0, 0, 0, "all NULL at a waypoint");
}

int main(void)
{
    struct table table = build();
    const struct table as_built = table;

    check_header(&table);
    check_trip_ipv6(&table);
    check_trip_ipv4(&table);
    check_d(&table);
    check_echo(&table);
    check_arriving_checksums(&table);
    check_computed_zero(&table);
    check_echo_checksums(&table);
    check_refusals(&table);
    check_wrappers(&table);
    check(memcmp(&table, &as_built, sizeof table) == 0, "table", "no call changed it");

    if (failures != 0) {
        printf("calls: %u of %u checks do not hold\n", failures, checks);
        return 1;
    }
    printf("calls: all %u checks hold\n", checks);
    return 0;
}
