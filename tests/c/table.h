/*
 * The table of calls.c, built with the structs and setters of kawsarpa.h: one entry of each behaviour, one rule, one policy. Every
 * stop of its trips uses it.
 */
#ifndef TABLE_H
#define TABLE_H

#include "kawsarpa.h"

#include <string.h>

enum { WAYPOINT, D, DI, E6, E4, ENTRIES };

struct table {
    struct kawsarpa_table_header header;
    struct kawsarpa_entry entries[ENTRIES];
    struct kawsarpa_rule rules[1];
    struct kawsarpa_policy policies[1];
};

static const uint8_t waypoint_prefix[6] = {0x20, 0x01, 0x0D, 0xB8, 0x00, 0x0A};           /* 2001:db8:a::/48 */
static const uint8_t d_prefix[6] = {0x20, 0x01, 0x0D, 0xB8, 0x00, 0x01};                  /* 2001:db8:1::/48 */
static const uint8_t di_prefix[6] = {0x20, 0x01, 0x0D, 0xB8, 0x00, 0x02};                 /* 2001:db8:2::/48 */
static const uint8_t e6_prefix[8] = {0x20, 0x01, 0x0D, 0xB8, 0x00, 0x0B, 0x00, 0x01};     /* 2001:db8:b:1::/64 */
static const uint8_t e4_prefix[6] = {0x20, 0x01, 0x0D, 0xB8, 0x00, 0x0C};                 /* 2001:db8:c::/48 */
static const uint8_t source_prefix[6] = {0x20, 0x01, 0x0D, 0xB8, 0x00, 0x0D};             /* 2001:db8:d:0::/64 */
static const uint8_t gateway_prefix[6] = {0x20, 0x01, 0x0D, 0xB8, 0x00, 0x0F};            /* 2001:db8:f::, then 1, 2, 3 */
static const uint8_t rule_waypoint[8] = {0x20, 0x01, 0x0D, 0xB8, 0x00, 0x0A, 0x00, 0x04}; /* 2001:db8:a:4:: */
static const uint8_t first_sid[8] = {0x20, 0x01, 0x0D, 0xB8, 0x00, 0x0A, 0x00, 0x01};     /* 2001:db8:a:1:: */
static const uint8_t last_sid[16] = {0x20, 0x01, 0x0D, 0xB8, 0x00, 0x0B, 0x00, 0x01,      /* 2001:db8:b:1: */
                                     0xFF, 0xFF, 0xFF, 0xFF, 0xFF, 0x00, 0x00, 0x5A};     /* five octets for Args, 00 00 5A */

/* What every entry has. */
static void set_entry(struct kawsarpa_entry *entry, uint8_t behaviour, uint8_t hop_limit, const uint8_t *prefix, size_t octets)
{
    entry->behaviour = behaviour;
    entry->hop_limit = hop_limit;
    entry->prefix_length = (uint8_t)(8 * octets);
    memcpy(entry->prefix, prefix, octets);
}

/* What all entries but waypoints have. */
static void set_session(struct kawsarpa_entry *entry, uint8_t direction, uint8_t session_type, uint8_t last_source_octet)
{
    entry->direction = direction;
    entry->session_type = session_type;
    memcpy(entry->source, gateway_prefix, sizeof gateway_prefix);
    entry->source[15] = last_source_octet;
}

static struct table build(void)
{
    struct table table;
    struct kawsarpa_entry *entries = table.entries;
    struct kawsarpa_rule *rule = &table.rules[0];
    struct kawsarpa_policy *policy = &table.policies[0];
    memset(&table, 0, sizeof table);
    kawsarpa_table_header_set(&table.header, ENTRIES, 1, 1);

    set_entry(&entries[WAYPOINT], KAWSARPA_BEHAVIOUR_END, 64, waypoint_prefix, sizeof waypoint_prefix);

    set_entry(&entries[D], KAWSARPA_BEHAVIOUR_END_M_GTP6_D, 61, d_prefix, sizeof d_prefix);
    set_session(&entries[D], KAWSARPA_DIRECTION_UPLINK, KAWSARPA_SESSION_IPV6, 1);
    entries[D].policy = 0;

    set_entry(&entries[DI], KAWSARPA_BEHAVIOUR_END_M_GTP6_D_DI, 62, di_prefix, sizeof di_prefix);
    set_session(&entries[DI], KAWSARPA_DIRECTION_DOWNLINK, KAWSARPA_SESSION_IPV4V6, 2);
    entries[DI].policy = 0;

    set_entry(&entries[E6], KAWSARPA_BEHAVIOUR_END_M_GTP6_E, 63, e6_prefix, sizeof e6_prefix);
    set_session(&entries[E6], KAWSARPA_DIRECTION_DOWNLINK, KAWSARPA_SESSION_IPV4V6, 3);
    kawsarpa_entry_set_args_start_octets(&entries[E6], 8);
    kawsarpa_entry_set_source_port(&entries[E6], 49153);

    set_entry(&entries[E4], KAWSARPA_BEHAVIOUR_END_M_GTP4_E, 65, e4_prefix, sizeof e4_prefix);
    set_session(&entries[E4], KAWSARPA_DIRECTION_DOWNLINK, KAWSARPA_SESSION_ETHERNET, 4);
    entries[E4].p = 6;
    entries[E4].q = 8;
    kawsarpa_entry_set_source_port(&entries[E4], 49154);

    rule->prefix_length = 24;
    rule->hop_limit = 66;
    rule->direction = KAWSARPA_DIRECTION_DOWNLINK;
    rule->session_type = KAWSARPA_SESSION_ETHERNET;
    rule->p = 6;
    rule->q = 8;
    rule->waypoint_count = 1;
    kawsarpa_rule_set_prefix(rule, 0xC0000200); /* 192.0.2.0/24 */
    memcpy(rule->sid_prefix, e4_prefix, sizeof e4_prefix);
    memcpy(rule->source_prefix, source_prefix, sizeof source_prefix);
    memcpy(rule->waypoints[0], rule_waypoint, sizeof rule_waypoint);

    policy->sid_count = 2;
    kawsarpa_policy_set_args_start_bits(policy, 64);
    memcpy(policy->sids[0], first_sid, sizeof first_sid);
    memcpy(policy->sids[1], last_sid, sizeof last_sid);
    return table;
}

#endif
