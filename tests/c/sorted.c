/*
 * kawsarpa_table_sort from C: full tables in many orders come out as one, in ascending order, with the same answer to every packet; a
 * table that is not sound is left as it is. Prints a line for each check.
 */
#include "checks.h"
#include "checksum.h"
#include "kawsarpa.h"
#include "packets.h"
#include "table.h"

#include <stdio.h>
#include <string.h>

/* The records of calls.c and others, as many as a table holds. */
struct full {
    struct kawsarpa_table_header header;
    struct kawsarpa_entry entries[KAWSARPA_ENTRIES_MAX];
    struct kawsarpa_rule rules[KAWSARPA_RULES_MAX];
    struct kawsarpa_policy policies[KAWSARPA_POLICIES_MAX];
};

/*
 * Waypoints under prefixes of every kind of neighbour: the same prefix with another length, and prefixes that differ in the first octet,
 * in the last, and in one above 127. Policies differ, and so do the entries that name them; some of D's allow a UDP checksum of 0. The last
 * octet of each record, which no call examines, has its number.
 */
static struct full build_full(void)
{
    const struct table some = build();
    struct full full;
    unsigned int i;
    memset(&full, 0, sizeof full);
    kawsarpa_table_header_set(&full.header, KAWSARPA_ENTRIES_MAX, KAWSARPA_RULES_MAX, KAWSARPA_POLICIES_MAX);
    for (i = 0; i < KAWSARPA_ENTRIES_MAX; i++) {
        struct kawsarpa_entry *entry = &full.entries[i];
        *entry = some.entries[i < ENTRIES ? i : i % 2]; /* past them a waypoint or D */
        entry->policy = (uint8_t)(i % KAWSARPA_POLICIES_MAX);
        entry->zero_checksum = entry->behaviour == KAWSARPA_BEHAVIOUR_END_M_GTP6_D && i % 4 == 1;
        entry->spare48[15] = (uint8_t)i;
        if (i >= ENTRIES) {
            entry->hop_limit = (uint8_t)(i + 1);
            entry->prefix_length = (uint8_t)(i % 3 == 0 ? 128 : 44 + i % 3);
            entry->prefix[0] = (uint8_t)(i < 32 ? 0x20 : 0x80 + i / 4);
            entry->prefix[5] = (uint8_t)(i % 3 == 0 ? 0x0A : 0);
            entry->prefix[4] = (uint8_t)(i / 3);
            entry->prefix[15] = (uint8_t)(i % 3 == 0 ? i : 0);
        }
    }
    for (i = 0; i < KAWSARPA_RULES_MAX; i++) {
        full.rules[i] = some.rules[0];
        full.rules[i].waypoints[6][15] = (uint8_t)i;
        if (i > 0) {
            full.rules[i].prefix_length = (uint8_t)(i < 8 ? 24 + i : 16);
            full.rules[i].hop_limit = (uint8_t)(i + 1);
            if (i >= 8)
                kawsarpa_rule_set_prefix(&full.rules[i], 0xC0000000 + ((uint32_t)i << 17));
        }
    }
    for (i = 0; i < KAWSARPA_POLICIES_MAX; i++) {
        full.policies[i] = some.policies[0];
        full.policies[i].sids[0][15] = (uint8_t)i;
    }
    return full;
}

static uint32_t drawn = 1;

static unsigned int draw(unsigned int below)
{
    drawn = drawn * 1664525 + 1013904223;
    return (drawn >> 8) % below;
}

static void shuffle(struct full *full)
{
    unsigned int i;
    for (i = KAWSARPA_ENTRIES_MAX - 1; i > 0; i--) {
        const unsigned int other = draw(i + 1);
        const struct kawsarpa_entry entry = full->entries[i];
        full->entries[i] = full->entries[other];
        full->entries[other] = entry;
    }
    for (i = KAWSARPA_RULES_MAX - 1; i > 0; i--) {
        const unsigned int other = draw(i + 1);
        const struct kawsarpa_rule rule = full->rules[i];
        full->rules[i] = full->rules[other];
        full->rules[other] = rule;
    }
}

static int ascending(const struct full *full)
{
    unsigned int i;
    for (i = 1; i < KAWSARPA_ENTRIES_MAX; i++) {
        const int order = memcmp(full->entries[i - 1].prefix, full->entries[i].prefix, 16);
        if (order > 0 || (order == 0 && full->entries[i - 1].prefix_length >= full->entries[i].prefix_length))
            return 0;
    }
    for (i = 1; i < KAWSARPA_RULES_MAX; i++) {
        const int order = memcmp(full->rules[i - 1].prefix, full->rules[i].prefix, 4);
        if (order > 0 || (order == 0 && full->rules[i - 1].prefix_length >= full->rules[i].prefix_length))
            return 0;
    }
    return 1;
}

/* Whether two tables send a packet with the same octets. */
static int same_answer(const struct full *one, const struct full *other, const uint8_t *packet, size_t packet_len, int ipv4)
{
    static uint8_t out[2][512];
    uint64_t answer, other_answer;
    memset(out, 0xA5, sizeof out);
    if (ipv4) {
        answer = kawsarpa_call_ipv4(packet, packet_len, (const uint8_t *)one, sizeof *one, out[0], sizeof out[0]);
        other_answer = kawsarpa_call_ipv4(packet, packet_len, (const uint8_t *)other, sizeof *other, out[1], sizeof out[1]);
    } else {
        answer = kawsarpa_call_ipv6(packet, packet_len, (const uint8_t *)one, sizeof *one, out[0], sizeof out[0]);
        other_answer = kawsarpa_call_ipv6(packet, packet_len, (const uint8_t *)other, sizeof *other, out[1], sizeof out[1]);
    }
    return kawsarpa_answer_number(answer) == KAWSARPA_ANSWER_SENT && answer == other_answer && memcmp(out[0], out[1], sizeof out[0]) == 0;
}

/* An address under a prefix, and under no longer one that begins so: the first bit past the length is 1. */
static void under(uint8_t *address, const uint8_t *prefix, size_t octets, unsigned int length)
{
    memcpy(address, prefix, octets);
    if (length < 8 * octets)
        address[length / 8] = (uint8_t)(address[length / 8] | 0x80 >> length % 8);
}

/* The packets of calls.c, one for each waypoint and D entry, and one for each rule. */
static int same_answers(const struct full *one, const struct full *other)
{
    uint8_t packet[sizeof from_di];
    unsigned int i;
    if (!same_answer(one, other, to_di, sizeof to_di, 0) || !same_answer(one, other, from_di, sizeof from_di, 0) ||
        !same_answer(one, other, to_e6, sizeof to_e6, 0) || !same_answer(one, other, to_e4, sizeof to_e4, 0) ||
        !same_answer(one, other, to_d, sizeof to_d, 0) || !same_answer(one, other, to_d4, sizeof to_d4, 1))
        return 0;
    for (i = 0; i < KAWSARPA_ENTRIES_MAX; i++) {
        const struct kawsarpa_entry *entry = &one->entries[i];
        const int waypoint = entry->behaviour == KAWSARPA_BEHAVIOUR_END;
        if (!waypoint && entry->behaviour != KAWSARPA_BEHAVIOUR_END_M_GTP6_D)
            continue;
        memcpy(packet, waypoint ? from_di : to_d, waypoint ? sizeof from_di : sizeof to_d);
        under(packet + 24, entry->prefix, sizeof entry->prefix, entry->prefix_length);
        if (!waypoint) /* 0 where it is allowed */
            kawsarpa_put16(packet + 46, entry->zero_checksum != 0 ? 0 : udp_checksum(packet, sizeof to_d, 40));
        if (!same_answer(one, other, packet, waypoint ? sizeof from_di : sizeof to_d, 0))
            return 0;
    }
    for (i = 0; i < KAWSARPA_RULES_MAX; i++) {
        /* the checksum of to_d4, by RFC 1624, for another destination */
        uint32_t sum;
        memcpy(packet, to_d4, sizeof to_d4);
        sum = 0xFFFFu & ~(uint32_t)kawsarpa_get16(packet + 10);
        sum += (0xFFFFu & ~(uint32_t)kawsarpa_get16(packet + 16)) + (0xFFFFu & ~(uint32_t)kawsarpa_get16(packet + 18));
        under(packet + 16, one->rules[i].prefix, sizeof one->rules[i].prefix, one->rules[i].prefix_length);
        sum += (uint32_t)kawsarpa_get16(packet + 16) + kawsarpa_get16(packet + 18);
        sum = (sum & 0xFFFF) + (sum >> 16);
        sum = (sum & 0xFFFF) + (sum >> 16);
        kawsarpa_put16(packet + 10, (uint16_t)(0xFFFFu & ~sum));
        if (!same_answer(one, other, packet, sizeof to_d4, 1))
            return 0;
    }
    return 1;
}

static void check_shuffled(void)
{
    const struct full full = build_full();
    struct full sorted = full;
    int in_order = 1, sound = 1, one_table = 1, answers = 1, zero = 1;
    unsigned int i;

    check(kawsarpa_call_table_fault((const uint8_t *)&full, sizeof full) == 0 && !ascending(&full), "full table",
          "sound, and not in order");
    check(kawsarpa_table_sort((uint8_t *)&sorted, sizeof sorted) == 0 && ascending(&sorted), "full table", "0, and in order then");
    for (i = 0; i < 200; i++) {
        struct full shuffled = full;
        struct full table;
        shuffle(&shuffled);
        table = shuffled;
        zero = zero && kawsarpa_table_sort((uint8_t *)&table, sizeof table) == 0;
        in_order = in_order && ascending(&table);
        sound = sound && kawsarpa_table_fault((const uint8_t *)&table, sizeof table) == 0;
        one_table = one_table && memcmp(&table, &sorted, sizeof table) == 0;
        answers = answers && same_answers(&shuffled, &table);
    }
    check(zero && in_order, "200 shuffled tables", "0, and in order then");
    check(sound, "200 shuffled tables", "sound when sorted");
    check(one_table, "200 shuffled tables", "sorted all the same, with the same header and policies");
    check(answers, "200 shuffled tables", "packets for every entry and rule are sent with the same octets when sorted");
    check(kawsarpa_table_sort((uint8_t *)&sorted, sizeof sorted) == 0 && same_answers(&full, &sorted), "table in order",
          "0, and the same answers");
}

static void check_small(void)
{
    struct kawsarpa_table_header empty;
    struct kawsarpa_table_header as_it_was;
    struct table table = build();
    kawsarpa_table_header_set(&empty, 0, 0, 0);
    as_it_was = empty;
    check(kawsarpa_table_sort((uint8_t *)&empty, sizeof empty) == 0 && memcmp(&empty, &as_it_was, sizeof empty) == 0, "empty table",
          "0, and as it was");
    check(kawsarpa_table_sort((uint8_t *)&table, sizeof table) == 0 && memcmp(table.entries[0].prefix, d_prefix, sizeof d_prefix) == 0 &&
              memcmp(table.entries[1].prefix, di_prefix, sizeof di_prefix) == 0 &&
              memcmp(table.entries[2].prefix, waypoint_prefix, sizeof waypoint_prefix) == 0 &&
              memcmp(table.entries[3].prefix, e6_prefix, sizeof e6_prefix) == 0 &&
              memcmp(table.entries[4].prefix, e4_prefix, sizeof e4_prefix) == 0,
          "table of calls.c", "2001:db8:1::, 2::, a::, b:1:: and c::");
}

static void check_unsound(void)
{
    struct full broken = build_full();
    struct full as_it_was;
    uint64_t fault;

    broken.policies[15].reserved = 1;
    as_it_was = broken;
    fault = kawsarpa_table_sort((uint8_t *)&broken, sizeof broken);
    check(fault == kawsarpa_table_fault((const uint8_t *)&broken, sizeof broken) &&
              kawsarpa_fault_record(fault) == KAWSARPA_RECORD_POLICY && kawsarpa_fault_index(fault) == 15,
          "reserved octet in the last policy", "the fault");
    check(memcmp(&broken, &as_it_was, sizeof broken) == 0, "reserved octet in the last policy", "no octet is changed");

    broken = build_full();
    broken.entries[63] = broken.entries[0];
    as_it_was = broken;
    check(kawsarpa_fault_condition(kawsarpa_table_sort((uint8_t *)&broken, sizeof broken)) == KAWSARPA_FAULT_ENTRY_REPEATED &&
              memcmp(&broken, &as_it_was, sizeof broken) == 0,
          "prefix twice", "the fault, and no octet is changed");

    broken = build_full();
    kawsarpa_put16(broken.header.entries, 65535);
    as_it_was = broken;
    check(kawsarpa_fault_condition(kawsarpa_table_sort((uint8_t *)&broken, sizeof broken)) == KAWSARPA_FAULT_HEADER_ENTRIES &&
              memcmp(&broken, &as_it_was, sizeof broken) == 0,
          "65,535 entries in the header", "the fault, and no octet is changed");

    broken = build_full();
    as_it_was = broken;
    check(kawsarpa_fault_condition(kawsarpa_table_sort((uint8_t *)&broken, sizeof broken - 1)) == KAWSARPA_FAULT_HEADER_SIZE &&
              memcmp(&broken, &as_it_was, sizeof broken) == 0,
          "table one octet short", "the fault, and no octet is changed");
    check(kawsarpa_table_sort(NULL, 0) == kawsarpa_call_table_fault(NULL, 0), "NULL table", "the fault");
}

int main(void)
{
    check_shuffled();
    check_small();
    check_unsound();
    if (failures != 0) {
        printf("sorted: %u of %u checks do not hold\n", failures, checks);
        return 1;
    }
    printf("sorted: all %u checks hold\n", checks);
    return 0;
}
