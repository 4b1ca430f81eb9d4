/* The anchor's tables: soundness and the longest match. */
#include "anchor.h"
#include "words.h"

enum { IPV4_BITS = 32, IPV6_BITS = 128, ARGS_START_MOST = 88, P_MOST = 7, Q_MOST = 12 };

/* An IPv6 prefix: its bits past the first `bits` are 0. */
static bool clear_past(const uint8_t *prefix, unsigned int bits)
{
    const uint64_t high = word64(prefix), low = word64(prefix + 8);
    if (bits > 64)
        return bits >= IPV6_BITS || low << (bits - 64) == 0;
    return low == 0 && (bits == 64 || high << bits == 0);
}

static bool direction_known(uint8_t direction)
{
    return direction <= KAWSARPA_DIRECTION_UPLINK;
}

static bool session_known(uint8_t type)
{
    return (type >= KAWSARPA_SESSION_IPV4 && type <= KAWSARPA_SESSION_IPV4V6) || type == KAWSARPA_SESSION_ETHERNET;
}

static bool args_start_within(uint8_t bits)
{
    return bits <= ARGS_START_MOST && bits % 8 == 0;
}

static bool entry_sound(const struct kawsarpa_entry *e, unsigned int policies)
{
    if (e->prefix_length > IPV6_BITS || e->hop_limit == 0 || !clear_past(e->prefix, e->prefix_length))
        return false;
    if (e->behaviour == KAWSARPA_BEHAVIOUR_END)
        return e->zero_checksum == 0;
    if (!direction_known(e->direction) || !session_known(e->session_type))
        return false;
    switch (e->behaviour) {
    case KAWSARPA_BEHAVIOUR_END_M_GTP6_D:
    case KAWSARPA_BEHAVIOUR_END_M_GTP6_D_DI:
        return e->policy < policies && e->zero_checksum <= KAWSARPA_ZERO_CHECKSUM_ALLOW;
    case KAWSARPA_BEHAVIOUR_END_M_GTP6_E:
        return args_start_within(e->args_start) && e->prefix_length <= e->args_start && e->zero_checksum == 0;
    case KAWSARPA_BEHAVIOUR_END_M_GTP4_E:
        return e->p <= P_MOST && e->q <= Q_MOST && e->prefix_length <= 8 * e->p && e->zero_checksum == 0;
    default:
        return false;
    }
}

static bool rule_sound(const struct kawsarpa_rule *r)
{
    return r->prefix_length <= IPV4_BITS && (uint32_t)((uint64_t)word32(r->prefix) << r->prefix_length) == 0 && r->hop_limit != 0 &&
           direction_known(r->direction) && session_known(r->session_type) && r->p <= P_MOST && r->q <= Q_MOST &&
           clear_past(r->sid_prefix, 8U * r->p) && clear_past(r->source_prefix, 8U * r->q) && r->waypoint_count <= KAWSARPA_WAYPOINTS_MAX &&
           r->reserved == 0;
}

static bool policy_sound(const struct kawsarpa_policy *y)
{
    return y->sid_count >= 1 && y->sid_count <= KAWSARPA_SIDS_MAX && args_start_within(y->args_start) && y->reserved == 0;
}

static bool entry_precedes(const struct kawsarpa_entry *e, const struct kawsarpa_entry *f)
{
    const uint64_t e0 = word64(e->prefix), f0 = word64(f->prefix), e8 = word64(e->prefix + 8), f8 = word64(f->prefix + 8);
    if (e0 != f0)
        return e0 < f0;
    if (e8 != f8)
        return e8 < f8;
    return e->prefix_length < f->prefix_length;
}

static bool entry_repeats(const struct kawsarpa_entry *e, const struct kawsarpa_entry *f)
{
    return memcmp(e->prefix, f->prefix, sizeof e->prefix) == 0 && e->prefix_length == f->prefix_length;
}

/* No prefix with its length occurs twice. As far as the entries stand in order this is seen in one pass; from there on, pair by pair. */
static bool entries_apart(const struct kawsarpa_entry *entries, unsigned int count)
{
    unsigned int j = 1;
    while (j < count && entry_precedes(&entries[j - 1], &entries[j]))
        j++;
    for (; j < count; j++)
        for (unsigned int i = 0; i < j; i++)
            if (entry_repeats(&entries[i], &entries[j]))
                return false;
    return true;
}

/* Prefix and length as one number. */
static uint64_t rule_key(const struct kawsarpa_rule *r)
{
    return (uint64_t)word32(r->prefix) << 8 | r->prefix_length;
}

static bool rules_apart(const struct kawsarpa_rule *rules, unsigned int count)
{
    unsigned int j = 1;
    while (j < count && rule_key(&rules[j - 1]) < rule_key(&rules[j]))
        j++;
    for (; j < count; j++)
        for (unsigned int i = 0; i < j; i++)
            if (rule_key(&rules[i]) == rule_key(&rules[j]))
                return false;
    return true;
}

/* The header's conditions; the records are set only where they hold. */
static bool header_sound(const uint8_t *table, size_t table_len, struct anchor_table *t)
{
    const struct kawsarpa_table_header *header = (const void *)table;
    if (table_len < sizeof *header || header->format != KAWSARPA_FORMAT)
        return false;
    t->entry_count = word16(header->entries);
    t->rule_count = word16(header->rules);
    t->policy_count = word16(header->policies);
    if (t->entry_count > KAWSARPA_ENTRIES_MAX || t->rule_count > KAWSARPA_RULES_MAX || t->policy_count > KAWSARPA_POLICIES_MAX)
        return false;
    t->entries = (const void *)(header + 1);
    t->rules = (const void *)(t->entries + t->entry_count);
    t->policies = (const void *)(t->rules + t->rule_count);
    return table_len ==
           sizeof *header + t->entry_count * sizeof *t->entries + t->rule_count * sizeof *t->rules + t->policy_count * sizeof *t->policies;
}

bool anchor_sound(const uint8_t *table, size_t table_len, struct anchor_table *t)
{
    if (!header_sound(table, table_len, t))
        return false;
    for (unsigned int i = 0; i < t->entry_count; i++)
        if (!entry_sound(&t->entries[i], t->policy_count))
            return false;
    for (unsigned int k = 0; k < t->rule_count; k++)
        if (!rule_sound(&t->rules[k]))
            return false;
    for (unsigned int j = 0; j < t->policy_count; j++)
        if (!policy_sound(&t->policies[j]))
            return false;
    return entries_apart(t->entries, t->entry_count) && rules_apart(t->rules, t->rule_count);
}

static bool under(uint64_t high, uint64_t low, const struct kawsarpa_entry *e)
{
    const unsigned int bits = e->prefix_length;
    const uint64_t high_differs = high ^ word64(e->prefix);
    if (bits <= 64)
        return bits == 0 || high_differs >> (64 - bits) == 0;
    return high_differs == 0 && (low ^ word64(e->prefix + 8)) >> (IPV6_BITS - bits) == 0;
}

const struct kawsarpa_entry *anchor_find_entry(const struct anchor_table *t, const uint8_t *address)
{
    const uint64_t high = word64(address), low = word64(address + 8);
    const struct kawsarpa_entry *best = NULL;
    for (unsigned int i = 0; i < t->entry_count; i++)
        if (under(high, low, &t->entries[i]) && (best == NULL || t->entries[i].prefix_length > best->prefix_length))
            best = &t->entries[i];
    return best;
}

const struct kawsarpa_rule *anchor_find_rule(const struct anchor_table *t, const uint8_t *address)
{
    const uint32_t number = word32(address);
    const struct kawsarpa_rule *best = NULL;
    for (unsigned int k = 0; k < t->rule_count; k++) {
        const struct kawsarpa_rule *r = &t->rules[k];
        if ((uint64_t)(number ^ word32(r->prefix)) >> (IPV4_BITS - r->prefix_length) == 0 &&
            (best == NULL || r->prefix_length > best->prefix_length))
            best = r;
    }
    return best;
}
