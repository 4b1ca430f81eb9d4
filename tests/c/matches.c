/*
 * kawsarpa_match_ipv6, kawsarpa_match_ipv4 and kawsarpa_match_waypoint from C: tables that fit, for every condition a pair that breaks
 * it alone, the order in which conditions are tried, longer entries that some Args or destinations lead to, the words for each, and
 * the loop over a whole near table. Prints a line for each check.
 */
#include "checks.h"
#include "kawsarpa.h"
#include "table.h"

#include <stdio.h>
#include <string.h>

/* The table of calls.c with an entry more: what a longer prefix catches. */
struct longer {
    struct kawsarpa_table_header header;
    struct kawsarpa_entry entries[ENTRIES + 1];
    struct kawsarpa_rule rules[1];
    struct kawsarpa_policy policies[1];
};

static struct longer build_longer(uint8_t behaviour, const uint8_t *prefix, uint8_t prefix_length)
{
    struct table once = build();
    struct longer longer;
    kawsarpa_table_header_set(&longer.header, ENTRIES + 1, 1, 1);
    memcpy(longer.entries, once.entries, sizeof once.entries);
    longer.entries[ENTRIES] = once.entries[behaviour == KAWSARPA_BEHAVIOUR_END_M_GTP4_E ? E4 : E6];
    longer.entries[ENTRIES].behaviour = behaviour;
    longer.entries[ENTRIES].prefix_length = prefix_length;
    memcpy(longer.entries[ENTRIES].prefix, prefix, 16);
    longer.rules[0] = once.rules[0];
    longer.policies[0] = once.policies[0];
    return longer;
}

static void told(uint64_t mismatch, unsigned int condition, unsigned int record, unsigned int index, const char *subject)
{
    char claim[200];
    snprintf(claim, sizeof claim, "condition %u, record %u, index %u; got %u, %u, %u (%s)", condition, record, index,
             (unsigned int)kawsarpa_mismatch_condition(mismatch), (unsigned int)kawsarpa_mismatch_record(mismatch),
             (unsigned int)kawsarpa_mismatch_index(mismatch), kawsarpa_mismatch_name(mismatch));
    check(mismatch == ((uint64_t)index << 16 | (uint64_t)record << 8 | condition), subject, claim);
}

#define OCTETS(table) ((const uint8_t *)&(table))

/* The Di entry and the rule of `near` against `far`, which fit before the changes. */
#define DI_TELLS(condition, record, index, changes)                                                                                   \
    do {                                                                                                                              \
        struct table near = sound, far = sound;                                                                                       \
        changes;                                                                                                                      \
        told(kawsarpa_match_ipv6(OCTETS(near), sizeof near, DI, OCTETS(far), sizeof far), condition, record, index, "Di: " #changes); \
    } while (0)

#define RULE_TELLS(condition, record, index, changes)                                                                                  \
    do {                                                                                                                               \
        struct table near = sound, far = sound;                                                                                        \
        changes;                                                                                                                       \
        told(kawsarpa_match_ipv4(OCTETS(near), sizeof near, 0, OCTETS(far), sizeof far), condition, record, index, "rule: " #changes); \
    } while (0)

static void one_condition(const struct table sound)
{
    const struct table near_far = sound;
    const unsigned int entry = KAWSARPA_RECORD_ENTRY;
    DI_TELLS(0, 0, 0, (void)0);
    RULE_TELLS(0, 0, 0, (void)0);

    DI_TELLS(KAWSARPA_MISMATCH_NEAR_UNSOUND, 0, 0, near.header.format = 2);
    DI_TELLS(KAWSARPA_MISMATCH_FAR_UNSOUND, 0, 0, far.header.format = 2);
    RULE_TELLS(KAWSARPA_MISMATCH_NEAR_UNSOUND, 0, 0, near.rules[0].hop_limit = 0);
    RULE_TELLS(KAWSARPA_MISMATCH_FAR_UNSOUND, 0, 0, far.rules[0].hop_limit = 0);
    DI_TELLS(KAWSARPA_MISMATCH_NOT_DI, 0, 0, near.entries[DI].behaviour = KAWSARPA_BEHAVIOUR_END_M_GTP6_D);
    DI_TELLS(KAWSARPA_MISMATCH_NO_ENTRY, 0, 0, far.entries[E6].prefix[7] = 2);
    RULE_TELLS(KAWSARPA_MISMATCH_NO_ENTRY, 0, 0, far.entries[E4].prefix[5] = 0xE);
    DI_TELLS(KAWSARPA_MISMATCH_KIND, entry, E6, far.entries[E6].behaviour = KAWSARPA_BEHAVIOUR_END);
    RULE_TELLS(KAWSARPA_MISMATCH_KIND, entry, E4, far.entries[E4].behaviour = KAWSARPA_BEHAVIOUR_END);
    DI_TELLS(KAWSARPA_MISMATCH_DIRECTION, entry, E6, far.entries[E6].direction = KAWSARPA_DIRECTION_UPLINK);
    RULE_TELLS(KAWSARPA_MISMATCH_DIRECTION, entry, E4, near.rules[0].direction = KAWSARPA_DIRECTION_UPLINK);
    DI_TELLS(KAWSARPA_MISMATCH_SESSION, entry, E6, far.entries[E6].session_type = KAWSARPA_SESSION_IPV4);
    RULE_TELLS(KAWSARPA_MISMATCH_SESSION, entry, E4, far.entries[E4].session_type = KAWSARPA_SESSION_IPV6);
    DI_TELLS(KAWSARPA_MISMATCH_START, entry, E6, kawsarpa_entry_set_args_start_octets(&far.entries[E6], 9));
    DI_TELLS(KAWSARPA_MISMATCH_START, entry, E6, kawsarpa_policy_set_args_start_octets(&near.policies[0], 9));
    RULE_TELLS(KAWSARPA_MISMATCH_P, entry, E4, far.entries[E4].p = 7);
    RULE_TELLS(KAWSARPA_MISMATCH_Q, entry, E4, far.entries[E4].q = 9);
    DI_TELLS(KAWSARPA_MISMATCH_HOP_LIMIT, entry, E6, near.entries[DI].hop_limit = 1);
    DI_TELLS(0, 0, 0, near.entries[DI].hop_limit = 2);
    RULE_TELLS(KAWSARPA_MISMATCH_HOP_LIMIT, entry, E4, near.rules[0].hop_limit = 1);
    RULE_TELLS(0, 0, 0, near.rules[0].hop_limit = 2);

    told(kawsarpa_match_ipv6(OCTETS(near_far), sizeof near_far, ENTRIES, OCTETS(near_far), sizeof near_far), KAWSARPA_MISMATCH_NO_RECORD, 0,
         0, "an entry behind the last");
    told(kawsarpa_match_ipv6(OCTETS(near_far), sizeof near_far, SIZE_MAX, OCTETS(near_far), sizeof near_far), KAWSARPA_MISMATCH_NO_RECORD,
         0, 0, "the largest index, an entry");
    told(kawsarpa_match_ipv4(OCTETS(near_far), sizeof near_far, 1, OCTETS(near_far), sizeof near_far), KAWSARPA_MISMATCH_NO_RECORD, 0, 0,
         "a rule behind the last");
    told(kawsarpa_match_ipv4(OCTETS(near_far), sizeof near_far, SIZE_MAX, OCTETS(near_far), sizeof near_far), KAWSARPA_MISMATCH_NO_RECORD,
         0, 0, "the largest index, a rule");
}

/* Each change breaks a condition behind the one that the change before it breaks: the first is told. */
static void order(const struct table sound)
{
    const unsigned int entry = KAWSARPA_RECORD_ENTRY;
    DI_TELLS(KAWSARPA_MISMATCH_NEAR_UNSOUND, 0, 0, near.header.format = 2; far.header.format = 2);
    DI_TELLS(KAWSARPA_MISMATCH_FAR_UNSOUND, 0, 0, far.header.format = 2; near.entries[DI].behaviour = KAWSARPA_BEHAVIOUR_END);
    DI_TELLS(KAWSARPA_MISMATCH_NOT_DI, 0, 0, near.entries[DI].behaviour = KAWSARPA_BEHAVIOUR_END; far.entries[E6].prefix[7] = 2);
    DI_TELLS(KAWSARPA_MISMATCH_NO_ENTRY, 0, 0, far.entries[E6].prefix[7] = 2; far.entries[E6].direction = 1);
    DI_TELLS(KAWSARPA_MISMATCH_KIND, entry, E6, far.entries[E6].behaviour = KAWSARPA_BEHAVIOUR_END; far.entries[E6].direction = 1);
    DI_TELLS(KAWSARPA_MISMATCH_DIRECTION, entry, E6, far.entries[E6].direction = 1; far.entries[E6].session_type = 1);
    DI_TELLS(KAWSARPA_MISMATCH_SESSION, entry, E6, far.entries[E6].session_type = 1; far.entries[E6].args_start = 72);
    DI_TELLS(KAWSARPA_MISMATCH_START, entry, E6, far.entries[E6].args_start = 72; near.entries[DI].hop_limit = 1);
    RULE_TELLS(KAWSARPA_MISMATCH_SESSION, entry, E4, far.entries[E4].session_type = 1; far.entries[E4].p = 7);
    RULE_TELLS(KAWSARPA_MISMATCH_P, entry, E4, far.entries[E4].p = 7; far.entries[E4].q = 9);
    RULE_TELLS(KAWSARPA_MISMATCH_Q, entry, E4, far.entries[E4].q = 9; near.rules[0].hop_limit = 1);
}

/* A far table with an entry more, and the Di entry of `near`. */
static void with_longer(const struct table *near, uint8_t behaviour, const uint8_t *prefix, uint8_t prefix_length, uint64_t expected,
                        const char *subject)
{
    const struct longer far = build_longer(behaviour, prefix, prefix_length);
    const uint64_t mismatch = kawsarpa_match_ipv6((const uint8_t *)near, sizeof *near, DI, OCTETS(far), sizeof far);
    told(mismatch, kawsarpa_mismatch_condition(expected), kawsarpa_mismatch_record(expected), kawsarpa_mismatch_index(expected), subject);
}

static void with_longer4(const struct table *near, const uint8_t *prefix, uint8_t prefix_length, uint64_t expected, const char *subject)
{
    const struct longer far = build_longer(KAWSARPA_BEHAVIOUR_END, prefix, prefix_length);
    const uint64_t mismatch = kawsarpa_match_ipv4((const uint8_t *)near, sizeof *near, 0, OCTETS(far), sizeof far);
    told(mismatch, kawsarpa_mismatch_condition(expected), kawsarpa_mismatch_record(expected), kawsarpa_mismatch_index(expected), subject);
}

static void longer_entries(const struct table sound)
{
    const uint8_t end = KAWSARPA_BEHAVIOUR_END;
    const uint64_t kind = (uint64_t)ENTRIES << 16 | (uint64_t)KAWSARPA_RECORD_ENTRY << 8 | KAWSARPA_MISMATCH_KIND;
    struct table uplink = sound;
    uint8_t prefix[16];
    memset(prefix, 0, sizeof prefix);
    memcpy(prefix, e6_prefix, sizeof e6_prefix);

    prefix[8] = 5 << 2;
    with_longer(&sound, end, prefix, 70, kind, "a waypoint entry for flow 5");
    prefix[8] = 5 << 2 | 2;
    with_longer(&sound, end, prefix, 71, kind, "for flow 5 with R, in downlink");
    prefix[8] = 5 << 2 | 1;
    with_longer(&sound, end, prefix, 72, 0, "for U 1, which is sent 0");
    prefix[8] = 5 << 2;
    with_longer(&sound, end, prefix, 72, kind, "for U 0");
    prefix[9] = 0x0A;
    with_longer(&sound, end, prefix, 80, kind, "for flow 5 and TEIDs that begin with 0a");
    prefix[15] = 0x5A;
    with_longer(&sound, end, prefix, 128, kind, "for one TEID, and the SID's octets behind Args");
    prefix[15] = 0x5B;
    with_longer(&sound, end, prefix, 128, 0, "for another octet behind Args");
    prefix[7] = 2;
    with_longer(&sound, end, prefix, 128, 0, "for another octet before Args");

    uplink.entries[DI].direction = KAWSARPA_DIRECTION_UPLINK;
    memcpy(prefix, e6_prefix, sizeof e6_prefix);
    memset(prefix + 8, 0, 8);
    prefix[8] = 5 << 2 | 2;
    with_longer(&uplink, end, prefix, 71, (uint64_t)E6 << 16 | (uint64_t)KAWSARPA_RECORD_ENTRY << 8 | KAWSARPA_MISMATCH_DIRECTION,
                "for R, in uplink: not reached, so the E6 entry is the one");
    prefix[8] = 5 << 2;
    with_longer(&uplink, end, prefix, 71, kind, "for flow 5, in uplink");

    memset(prefix, 0, sizeof prefix);
    memcpy(prefix, e4_prefix, sizeof e4_prefix);
    prefix[6] = 192;
    with_longer4(&sound, prefix, 56, kind, "a waypoint entry for 192.0.0.0/8, a rule for 192.0.2.0/24");
    prefix[6] = 193;
    with_longer4(&sound, prefix, 56, 0, "for 193.0.0.0/8");
    prefix[6] = 192;
    prefix[8] = 2;
    prefix[9] = 7;
    with_longer4(&sound, prefix, 80, kind, "for 192.0.2.7");
    prefix[8] = 3;
    with_longer4(&sound, prefix, 80, 0, "for 192.0.3.7");
}

static void waypoints(const struct table sound)
{
    const uint8_t *table = OCTETS(sound);
    uint8_t sid[17];
    memset(sid, 0, sizeof sid);
    memcpy(sid, first_sid, sizeof first_sid);
    told(kawsarpa_match_waypoint(table, sizeof sound, sid, 16), 0, 0, 0, "the policy's first SID");
    told(kawsarpa_match_waypoint(table, sizeof sound, sound.rules[0].waypoints[0], 16), 0, 0, 0, "the rule's waypoint");
    told(kawsarpa_match_waypoint(table, sizeof sound - 1, sid, 16), KAWSARPA_MISMATCH_WAYPOINT_UNSOUND, 0, 0, "a table cut short");
    told(kawsarpa_match_waypoint(table, sizeof sound, sid, 15), KAWSARPA_MISMATCH_WAYPOINT_SID, 0, 0, "15 octets");
    told(kawsarpa_match_waypoint(table, sizeof sound, sid, 17), KAWSARPA_MISMATCH_WAYPOINT_SID, 0, 0, "17 octets");
    told(kawsarpa_match_waypoint(table, sizeof sound, last_sid, 16), KAWSARPA_MISMATCH_WAYPOINT_KIND, KAWSARPA_RECORD_ENTRY, E6,
         "the SID of the E6 entry");
    sid[5] = 0x77;
    told(kawsarpa_match_waypoint(table, sizeof sound, sid, 16), KAWSARPA_MISMATCH_WAYPOINT_NO_ENTRY, 0, 0, "a SID of no entry");
}

static void nulls(const struct table sound)
{
    const uint8_t *table = OCTETS(sound);
    told(kawsarpa_call_match_ipv6(NULL, 0, 0, table, sizeof sound), KAWSARPA_MISMATCH_NEAR_UNSOUND, 0, 0, "no near table, IPv6");
    told(kawsarpa_call_match_ipv6(table, sizeof sound, DI, NULL, 0), KAWSARPA_MISMATCH_FAR_UNSOUND, 0, 0, "no far table, IPv6");
    told(kawsarpa_call_match_ipv4(NULL, 0, 0, table, sizeof sound), KAWSARPA_MISMATCH_NEAR_UNSOUND, 0, 0, "no near table, IPv4");
    told(kawsarpa_call_match_ipv4(table, sizeof sound, 0, NULL, 0), KAWSARPA_MISMATCH_FAR_UNSOUND, 0, 0, "no far table, IPv4");
    told(kawsarpa_call_match_waypoint(NULL, 0, NULL, 0), KAWSARPA_MISMATCH_WAYPOINT_UNSOUND, 0, 0, "no waypoint table");
    told(kawsarpa_call_match_waypoint(table, sizeof sound, NULL, 0), KAWSARPA_MISMATCH_WAYPOINT_SID, 0, 0, "no SID");
}

/* The loop over a whole near table. */
static void whole(const struct table *near, const struct table *far, uint64_t condition, unsigned int record, size_t index,
                  const char *subject)
{
    uint8_t near_record = 0xFF;
    size_t near_index = SIZE_MAX;
    const uint64_t mismatch = kawsarpa_match_table((const uint8_t *)near, sizeof *near, (const uint8_t *)far, sizeof *far, &near_record,
                                                   &near_index);
    char claim[160];
    snprintf(claim, sizeof claim, "condition %u of near record %u, index %u; got %u, %u, %u", (unsigned int)condition, record,
             (unsigned int)index, (unsigned int)kawsarpa_mismatch_condition(mismatch), (unsigned int)near_record, (unsigned int)near_index);
    check(kawsarpa_mismatch_condition(mismatch) == condition && near_record == record && near_index == index, subject, claim);
}

static void whole_tables(const struct table sound)
{
    struct table other = sound;
    struct kawsarpa_table_header empty;
    uint8_t record = 0xFF;
    size_t index = SIZE_MAX;
    whole(&sound, &sound, 0, 0, 0, "a whole table");
    other.entries[DI].zero_checksum = KAWSARPA_ZERO_CHECKSUM_ALLOW;
    whole(&other, &sound, 0, 0, 0, "UDP checksum 0 allowed in the near table");
    other.entries[DI].zero_checksum = 2;
    whole(&other, &sound, KAWSARPA_MISMATCH_NEAR_UNSOUND, KAWSARPA_RECORD_HEADER, 0, "a near mark of 2");
    other = sound;
    other.entries[E6].args_start = 72;
    whole(&sound, &other, KAWSARPA_MISMATCH_START, KAWSARPA_RECORD_ENTRY, DI, "Args at octet 9 against 8");
    other = sound;
    other.entries[E4].q = 9;
    whole(&sound, &other, KAWSARPA_MISMATCH_Q, KAWSARPA_RECORD_RULE, 0, "another q");
    other.entries[E6].direction = KAWSARPA_DIRECTION_UPLINK;
    whole(&sound, &other, KAWSARPA_MISMATCH_DIRECTION, KAWSARPA_RECORD_ENTRY, DI, "an entry and a rule that do not fit");
    other = sound;
    other.header.format = 2;
    whole(&sound, &other, KAWSARPA_MISMATCH_FAR_UNSOUND, KAWSARPA_RECORD_HEADER, 0, "an unsound far table");
    whole(&other, &sound, KAWSARPA_MISMATCH_NEAR_UNSOUND, KAWSARPA_RECORD_HEADER, 0, "an unsound near table");
    kawsarpa_table_header_set(&empty, 0, 0, 0);
    check(kawsarpa_match_table(OCTETS(empty), sizeof empty, OCTETS(empty), sizeof empty, &record, &index) == 0 && record == 0 && index == 0,
          "empty tables", "nothing that does not fit");
    record = 0xFF;
    check(kawsarpa_match_table(NULL, 0, NULL, 0, &record, &index) == KAWSARPA_MISMATCH_NEAR_UNSOUND && record == KAWSARPA_RECORD_HEADER,
          "null pointers with a count of 0", "the near table is not sound");
}

static void words(void)
{
    static const struct {
        uint64_t mismatch;
        const char *name;
    } names[] = {
        {0, "fits"},
        {KAWSARPA_MISMATCH_NEAR_UNSOUND, "near table not sound"},
        {KAWSARPA_MISMATCH_FAR_UNSOUND, "far table not sound"},
        {KAWSARPA_MISMATCH_NO_RECORD, "no such near entry or rule"},
        {KAWSARPA_MISMATCH_NOT_DI, "near entry is not Di"},
        {KAWSARPA_MISMATCH_NO_ENTRY, "no far entry is reached"},
        {KAWSARPA_MISMATCH_KIND | 0x30200, "far entry of another kind"},
        {KAWSARPA_MISMATCH_DIRECTION | 0x30200, "directions differ"},
        {KAWSARPA_MISMATCH_SESSION | 0x30200, "session types differ"},
        {KAWSARPA_MISMATCH_START | 0x30200, "starts of Args differ"},
        {KAWSARPA_MISMATCH_P | 0x30200, "p differs"},
        {KAWSARPA_MISMATCH_Q | 0x30200, "q differs"},
        {KAWSARPA_MISMATCH_HOP_LIMIT | 0x30200, "hop limit not above the number of waypoints"},
        {KAWSARPA_MISMATCH_WAYPOINT_UNSOUND, "waypoint table not sound"},
        {KAWSARPA_MISMATCH_WAYPOINT_SID, "SID not of 16 octets"},
        {KAWSARPA_MISMATCH_WAYPOINT_NO_ENTRY, "no entry matches the waypoint"},
        {KAWSARPA_MISMATCH_WAYPOINT_KIND | 0x30200, "matched entry is no waypoint"},
        {17, "unknown"},
        {0x30200, "unknown"},
        {(uint64_t)1 << 32 | 9, "unknown"},
        {UINT64_MAX, "unknown"},
    };
    size_t i;
    for (i = 0; i < sizeof names / sizeof names[0]; i++)
        check(strcmp(kawsarpa_mismatch_name(names[i].mismatch), names[i].name) == 0, "kawsarpa_mismatch_name", names[i].name);
}

/* The example of kawsarpa.h, which run.sh writes to a file. It prints for a far table that does not fit. */
static void example(const struct table sound)
{
    struct table far = sound;
    const uint8_t *near_table = OCTETS(sound), *far_table = OCTETS(far);
    const size_t near_len = sizeof sound, far_len = sizeof far;
    far.entries[E6].args_start = 72;
    {
#include "match.h"
        check(mismatch != 0 && record == KAWSARPA_RECORD_ENTRY && index == DI, "the example of kawsarpa.h", "tells the Di entry");
    }
}

int main(void)
{
    const struct table sound = build();
    one_condition(sound);
    order(sound);
    longer_entries(sound);
    waypoints(sound);
    nulls(sound);
    whole_tables(sound);
    words();
    example(sound);

    if (failures != 0) {
        printf("matches: %u of %u checks do not hold\n", failures, checks);
        return 1;
    }
    printf("matches: all %u checks hold\n", checks);
    return 0;
}
