/*
 * kawsarpa_table_fault from C: for every condition a table that breaks it alone, the order in which conditions are tried, and the
 * words for each. Prints a line for each check.
 */
#include "checks.h"
#include "kawsarpa.h"
#include "table.h"

#include <stdio.h>
#include <string.h>

/* The table of calls.c with a second rule and a second policy. */
struct twice {
    struct kawsarpa_table_header header;
    struct kawsarpa_entry entries[ENTRIES];
    struct kawsarpa_rule rules[2];
    struct kawsarpa_policy policies[2];
};

static struct twice build_twice(void)
{
    struct table once = build();
    struct twice twice;
    kawsarpa_table_header_set(&twice.header, ENTRIES, 2, 2);
    memcpy(twice.entries, once.entries, sizeof twice.entries);
    twice.rules[0] = once.rules[0];
    twice.rules[1] = once.rules[0];
    twice.rules[1].prefix_length = 25;
    twice.policies[0] = once.policies[0];
    twice.policies[1] = once.policies[0];
    return twice;
}

/* The fault is this one, and the calls answer that the table is not sound exactly where there is one. */
static void faulty(const void *table, size_t table_len, unsigned int record, unsigned int index, unsigned int condition,
                   const char *subject)
{
    const uint8_t *octets = (const uint8_t *)table;
    uint64_t fault = kawsarpa_table_fault(octets, table_len);
    uint8_t packet = 0, out = 0;
    int unsound = kawsarpa_answer_number(kawsarpa_translate_ipv6(&packet, 0, octets, table_len, &out, 0)) == KAWSARPA_ANSWER_UNSOUND;
    char claim[160];
    snprintf(claim, sizeof claim, "fault %u of record %u, index %u; got %u, %u, %u (%s)", condition, record, index,
             (unsigned int)kawsarpa_fault_condition(fault), (unsigned int)kawsarpa_fault_record(fault),
             (unsigned int)kawsarpa_fault_index(fault), kawsarpa_fault_name(fault));
    check(fault == ((uint64_t)index << 16 | (uint64_t)record << 8 | condition), subject, claim);
    check(unsound == (fault != 0), subject, "the IPv6 call says the same");
}

/* A sound table after some changes: the first condition that they break. The changes are the subject. */
#define BREAKS(record, index, condition, changes)                                                               \
    do {                                                                                                        \
        struct twice t = sound;                                                                                 \
        changes;                                                                                                \
        faulty(&t, sizeof t, KAWSARPA_RECORD_##record, index, KAWSARPA_FAULT_##record##_##condition, #changes); \
    } while (0)

#define HARMLESS(changes)                        \
    do {                                         \
        struct twice t = sound;                  \
        changes;                                 \
        faulty(&t, sizeof t, 0, 0, 0, #changes); \
    } while (0)

/* A table of so many waypoints, rules and policies, each sound and no two alike. */
static void counted(uint16_t entries, uint16_t rules, uint16_t policies, unsigned int condition, const char *subject)
{
    static uint8_t octets[16 + 65 * 64 + 17 * 160 + 17 * 288];
    const struct table once = build();
    struct kawsarpa_table_header header;
    uint16_t i;
    kawsarpa_table_header_set(&header, entries, rules, policies);
    memcpy(octets, &header, sizeof header);
    for (i = 0; i < entries; i++) {
        struct kawsarpa_entry entry = once.entries[WAYPOINT];
        entry.prefix[5] = (uint8_t)i;
        memcpy(octets + kawsarpa_table_size(i, 0, 0), &entry, sizeof entry);
    }
    for (i = 0; i < rules; i++) {
        struct kawsarpa_rule rule = once.rules[0];
        rule.prefix[2] = (uint8_t)i;
        memcpy(octets + kawsarpa_table_size(entries, i, 0), &rule, sizeof rule);
    }
    for (i = 0; i < policies; i++)
        memcpy(octets + kawsarpa_table_size(entries, rules, i), &once.policies[0], sizeof once.policies[0]);
    faulty(octets, kawsarpa_table_size(entries, rules, policies), condition == 0 ? 0 : KAWSARPA_RECORD_HEADER, 0, condition, subject);
}

static void check_header(void)
{
    const struct twice sound = build_twice();
    struct kawsarpa_table_header empty;
    uint8_t longer[sizeof sound + 1];
    static const uint8_t cut_short[3] = {1, 0, 0xFF};
    kawsarpa_table_header_set(&empty, 0, 0, 0);
    memcpy(longer, &sound, sizeof sound);
    longer[sizeof sound] = 0;

    HARMLESS((void)t);
    faulty(&empty, sizeof empty, 0, 0, 0, "empty table");
    BREAKS(HEADER, 0, FORMAT, t.header.format = 2);
    counted(64, 16, 16, 0, "64 entries, 16 rules, 16 policies");
    counted(65, 1, 1, KAWSARPA_FAULT_HEADER_ENTRIES, "65 entries");
    counted(1, 17, 1, KAWSARPA_FAULT_HEADER_RULES, "17 rules");
    counted(1, 1, 17, KAWSARPA_FAULT_HEADER_POLICIES, "17 policies");
    faulty(&sound, sizeof sound - 1, KAWSARPA_RECORD_HEADER, 0, KAWSARPA_FAULT_HEADER_SIZE, "an octet too few");
    faulty(longer, sizeof longer, KAWSARPA_RECORD_HEADER, 0, KAWSARPA_FAULT_HEADER_SIZE, "an octet too many");

    /* shorter than a header: the octets that are missing are read as 0 */
    faulty(&sound, 0, KAWSARPA_RECORD_HEADER, 0, KAWSARPA_FAULT_HEADER_FORMAT, "0 octets");
    faulty(&sound, 1, KAWSARPA_RECORD_HEADER, 0, KAWSARPA_FAULT_HEADER_SIZE, "1 octet");
    faulty(&empty, 15, KAWSARPA_RECORD_HEADER, 0, KAWSARPA_FAULT_HEADER_SIZE, "15 octets");
    faulty(cut_short, 3, KAWSARPA_RECORD_HEADER, 0, KAWSARPA_FAULT_HEADER_ENTRIES, "3 octets, the last of them 255");
    check(kawsarpa_call_table_fault(NULL, 0) == (KAWSARPA_RECORD_HEADER << 8 | KAWSARPA_FAULT_HEADER_FORMAT), "NULL table",
          "the fault of 0 octets");
    check(kawsarpa_call_table_fault((const uint8_t *)&sound, sizeof sound) == 0, "call_table_fault", "0 for a sound table");
}

static void check_entries(void)
{
    const struct twice sound = build_twice();
    BREAKS(ENTRY, D, BEHAVIOUR, t.entries[D].behaviour = 73);
    BREAKS(ENTRY, WAYPOINT, PREFIX_LENGTH, t.entries[WAYPOINT].prefix_length = 129);
    BREAKS(ENTRY, WAYPOINT, PREFIX_BITS, t.entries[WAYPOINT].prefix[6] = 0x80);
    BREAKS(ENTRY, E4, PREFIX_BITS, t.entries[E4].prefix[15] = 1);
    BREAKS(ENTRY, WAYPOINT, HOP_LIMIT, t.entries[WAYPOINT].hop_limit = 0);
    BREAKS(ENTRY, DI, DIRECTION, t.entries[DI].direction = 2);
    BREAKS(ENTRY, E6, SESSION_TYPE, t.entries[E6].session_type = 4);
    BREAKS(ENTRY, D, POLICY, t.entries[D].policy = 2);
    BREAKS(ENTRY, DI, POLICY, t.entries[DI].policy = 255);
    BREAKS(ENTRY, E6, ARGS_START, t.entries[E6].args_start = 68);
    BREAKS(ENTRY, E6, ARGS_START, t.entries[E6].args_start = 96);
    BREAKS(ENTRY, E6, PREFIX_BEFORE_ARGS, t.entries[E6].args_start = 56);
    BREAKS(ENTRY, E4, P, t.entries[E4].p = 8);
    BREAKS(ENTRY, E4, Q, t.entries[E4].q = 13);
    BREAKS(ENTRY, E4, PREFIX_BEFORE_ADDRESS, t.entries[E4].p = 5);
    BREAKS(ENTRY, WAYPOINT, RESERVED, t.entries[WAYPOINT].zero_checksum = 1);
    BREAKS(ENTRY, E6, RESERVED, t.entries[E6].zero_checksum = 1);
    BREAKS(ENTRY, E4, RESERVED, t.entries[E4].zero_checksum = 255);
    BREAKS(ENTRY, D, ZERO_CHECKSUM, t.entries[D].zero_checksum = 2);
    BREAKS(ENTRY, DI, ZERO_CHECKSUM, t.entries[DI].zero_checksum = 255);
    BREAKS(ENTRY, DI, REPEATED, memcpy(t.entries[DI].prefix, d_prefix, sizeof d_prefix));
    BREAKS(ENTRY, E4, REPEATED, memcpy(t.entries[E4].prefix, waypoint_prefix, sizeof waypoint_prefix));

    HARMLESS(t.entries[D].zero_checksum = KAWSARPA_ZERO_CHECKSUM_ALLOW; t.entries[DI].zero_checksum = KAWSARPA_ZERO_CHECKSUM_ALLOW);
    /* fields that a behaviour does not use */
    HARMLESS(t.entries[WAYPOINT].direction = 2; t.entries[WAYPOINT].policy = 9; t.entries[WAYPOINT].args_start = 1);
    HARMLESS(t.entries[D].args_start = 255; t.entries[D].p = 99; t.entries[E6].q = 99; t.entries[E4].policy = 9);
    /* another length is another prefix */
    HARMLESS(memcpy(t.entries[DI].prefix, d_prefix, sizeof d_prefix); t.entries[DI].prefix_length = 49);
}

static void check_rules(void)
{
    const struct twice sound = build_twice();
    BREAKS(RULE, 0, PREFIX_LENGTH, t.rules[0].prefix_length = 33);
    BREAKS(RULE, 1, PREFIX_BITS, t.rules[1].prefix[3] = 0x40);
    BREAKS(RULE, 0, HOP_LIMIT, t.rules[0].hop_limit = 0);
    BREAKS(RULE, 1, DIRECTION, t.rules[1].direction = 2);
    BREAKS(RULE, 0, SESSION_TYPE, t.rules[0].session_type = 0);
    BREAKS(RULE, 1, P, t.rules[1].p = 8);
    BREAKS(RULE, 0, Q, t.rules[0].q = 13);
    BREAKS(RULE, 1, SID_PREFIX_BITS, t.rules[1].p = 5);
    BREAKS(RULE, 0, SOURCE_PREFIX_BITS, t.rules[0].q = 5);
    BREAKS(RULE, 1, WAYPOINTS, t.rules[1].waypoint_count = 8);
    BREAKS(RULE, 0, RESERVED, t.rules[0].reserved = 1);
    BREAKS(RULE, 1, REPEATED, t.rules[1].prefix_length = 24);
}

static void check_policies(void)
{
    const struct twice sound = build_twice();
    BREAKS(POLICY, 0, SIDS, t.policies[0].sid_count = 0);
    BREAKS(POLICY, 1, SIDS, t.policies[1].sid_count = 9);
    BREAKS(POLICY, 1, ARGS_START, t.policies[1].args_start = 68);
    BREAKS(POLICY, 0, RESERVED, t.policies[0].reserved = 1);
}

/* Of two conditions the first: by number, by index, by kind of record; prefixes behind the other conditions of every record. */
static void check_order(void)
{
    const struct twice sound = build_twice();
    BREAKS(HEADER, 0, FORMAT, t.header.format = 0; t.header.policies[1] = 17; t.entries[0].hop_limit = 0);
    BREAKS(HEADER, 0, POLICIES, t.header.policies[1] = 17; t.entries[0].hop_limit = 0);
    BREAKS(HEADER, 0, SIZE, t.header.policies[1] = 1; t.entries[0].hop_limit = 0);
    BREAKS(ENTRY, E4, P, t.entries[E4].p = 8; t.entries[E4].q = 13; t.entries[E4].zero_checksum = 1);
    BREAKS(ENTRY, WAYPOINT, RESERVED, t.entries[WAYPOINT].zero_checksum = 1; t.entries[D].zero_checksum = 2; t.entries[E4].behaviour = 0);
    BREAKS(ENTRY, E4, RESERVED, memcpy(t.entries[D].prefix, waypoint_prefix, 6); t.entries[E4].zero_checksum = 1);
    BREAKS(ENTRY, D, POLICY, t.entries[D].policy = 2; t.entries[D].zero_checksum = 2);
    BREAKS(ENTRY, D, ZERO_CHECKSUM, t.entries[D].zero_checksum = 2; t.entries[E4].behaviour = 0; t.rules[0].prefix_length = 33);
    BREAKS(ENTRY, DI, ZERO_CHECKSUM, memcpy(t.entries[D].prefix, waypoint_prefix, 6); t.entries[DI].zero_checksum = 2);
    BREAKS(ENTRY, D, REPEATED, memcpy(t.entries[D].prefix, waypoint_prefix, 6); memcpy(t.entries[DI].prefix, waypoint_prefix, 6));
    BREAKS(ENTRY, D, REPEATED, memcpy(t.entries[D].prefix, waypoint_prefix, 6); t.rules[0].prefix_length = 33);
    BREAKS(RULE, 0, RESERVED, t.rules[0].reserved = 1; t.rules[1].prefix_length = 33; t.policies[0].sid_count = 0);
    BREAKS(RULE, 1, RESERVED, t.rules[1].prefix_length = 24; t.rules[1].reserved = 1);
    BREAKS(RULE, 1, REPEATED, t.rules[1].prefix_length = 24; t.policies[0].sid_count = 0);
    BREAKS(POLICY, 0, RESERVED, t.policies[0].reserved = 1; t.policies[1].sid_count = 0);
}

static void check_names(void)
{
    static const unsigned int conditions[] = {
        0, KAWSARPA_FAULT_HEADER_SIZE, KAWSARPA_FAULT_ENTRY_ZERO_CHECKSUM, KAWSARPA_FAULT_RULE_REPEATED, KAWSARPA_FAULT_POLICY_RESERVED, 0};
    unsigned int record, condition;
    int named = 1;
    for (record = 0; record < sizeof conditions / sizeof conditions[0]; record++)
        for (condition = 0; condition < 256; condition++) {
            const char *name = kawsarpa_fault_name((uint64_t)7 << 16 | record << 8 | condition);
            if ((strcmp(name, "unknown") != 0) != (condition >= 1 && condition <= conditions[record]))
                named = 0;
        }
    check(named, "kawsarpa_fault_name", "words for the conditions of each record and for no other number");
    check(strcmp(kawsarpa_fault_name(0), "sound") == 0 && strcmp(kawsarpa_fault_name((uint64_t)1 << 32 | 0x201), "unknown") == 0 &&
              strcmp(kawsarpa_fault_name(0x207), "entry: no such policy") == 0 &&
              strcmp(kawsarpa_fault_name(0x20F), "entry: zero_checksum not 0 or 1") == 0,
          "kawsarpa_fault_name", "0 is sound, and bits past 31 are no fault");
}

int main(void)
{
    check_header();
    check_entries();
    check_rules();
    check_policies();
    check_order();
    check_names();

    if (failures != 0) {
        printf("faults: %u of %u checks do not hold\n", failures, checks);
        return 1;
    }
    printf("faults: all %u checks hold\n", checks);
    return 0;
}
