#include "fit.h"

#include <string.h>

#include "table.h"

/* The answer of the table that the waypoint fits; else of one where an entry of another kind matches; else of any. */
static struct fit_waypoint judge_waypoint(const struct fit_way *way, unsigned int place, const uint8_t sid[16])
{
    struct fit_waypoint found = {sid, NULL, 0};
    const size_t first = way->in_order ? place : 0;
    const size_t end = way->in_order ? place + 1U : way->via_count;
    for (size_t i = first; i < end && (found.via == NULL || found.mismatch != 0); i++) {
        const struct stop *via = &way->vias[i];
        const uint64_t mismatch = kawsarpa_call_match_waypoint(via->table.at, via->table.count, sid, 16);
        if (found.via == NULL || mismatch == 0 ||
            (kawsarpa_mismatch_condition(mismatch) == KAWSARPA_MISMATCH_WAYPOINT_KIND &&
             kawsarpa_mismatch_condition(found.mismatch) != KAWSARPA_MISMATCH_WAYPOINT_KIND))
            found = (struct fit_waypoint){sid, via, mismatch};
    }
    return found;
}

static void judge_waypoints(const struct fit_way *way, struct fit_record *record, const uint8_t sids[][16], unsigned int count)
{
    record->waypoint_count = count;
    if (!fit_waypoints_judged(way, record))
        return;
    for (unsigned int i = 0; i < count; i++)
        record->waypoints[i] = judge_waypoint(way, i, sids[i]);
}

/* The far entry of the mismatch. A record that fits leads to one entry with every SID that it sends, and that is no waypoint: so the
   library is asked which entry takes one of these SIDs. */
static unsigned int reached(const struct fit_way *way, uint64_t mismatch, const uint8_t sid[16])
{
    const struct octets *far = &way->far->table;
    return kawsarpa_mismatch_index(mismatch != 0 ? mismatch : kawsarpa_call_match_waypoint(far->at, far->count, sid, 16));
}

static void judge_entry(const struct fit_way *way, const struct table_records *near, struct fit_record *record)
{
    const struct kawsarpa_entry *entry = &near->entries[record->index];
    const struct kawsarpa_policy *policy = &near->policies[entry->policy];
    const unsigned int last = policy->sid_count - 1U;
    record->has_far = entry->behaviour == KAWSARPA_BEHAVIOUR_END_M_GTP6_D_DI;
    if (record->has_far) {
        uint8_t sid[16];
        memcpy(sid, policy->sids[last], sizeof sid);
        memset(sid + policy->args_start / 8, 0, FIT_ARGS_OCTETS);
        record->mismatch = kawsarpa_call_match_ipv6(way->near->table.at, way->near->table.count, record->index, way->far->table.at,
                                                    way->far->table.count);
        record->reached = reached(way, record->mismatch, sid);
    }
    judge_waypoints(way, record, policy->sids, last);
}

static void judge_rule(const struct fit_way *way, const struct table_records *near, struct fit_record *record)
{
    const struct kawsarpa_rule *rule = &near->rules[record->index];
    uint8_t sid[16];
    memcpy(sid, rule->sid_prefix, sizeof sid);
    memcpy(sid + rule->p, rule->prefix, sizeof rule->prefix);
    record->has_far = true;
    record->mismatch = kawsarpa_call_match_ipv4(way->near->table.at, way->near->table.count, record->index, way->far->table.at,
                                                way->far->table.count);
    record->reached = reached(way, record->mismatch, sid);
    judge_waypoints(way, record, rule->waypoints, rule->waypoint_count);
}

bool fit_record_asked(const struct fit_record *record)
{
    return record->has_far || record->waypoint_count != 0;
}

bool fit_record_fits(const struct fit_way *way, const struct fit_record *record)
{
    if (record->mismatch != 0 || !fit_waypoints_judged(way, record))
        return false;
    for (unsigned int i = 0; i < record->waypoint_count; i++)
        if (!fit_waypoint_fits(&record->waypoints[i]))
            return false;
    return true;
}

bool fit_names_entry(uint64_t mismatch)
{
    return kawsarpa_mismatch_record(mismatch) == KAWSARPA_RECORD_ENTRY;
}

bool fit_record_reaches(const struct fit_record *record)
{
    return record->has_far && (record->mismatch == 0 || fit_names_entry(record->mismatch));
}

bool fit_waypoints_judged(const struct fit_way *way, const struct fit_record *record)
{
    return !way->in_order || record->waypoint_count == way->via_count;
}

bool fit_waypoint_fits(const struct fit_waypoint *waypoint)
{
    return waypoint->via != NULL && waypoint->mismatch == 0;
}

bool fit_zero_checksum(const struct fit_way *way, const struct fit_record *record)
{
    if (record->kind != KAWSARPA_RECORD_ENTRY || (fit_record_asked(record) && !fit_record_fits(way, record)))
        return false;
    return table_records(&way->near->table).entries[record->index].zero_checksum == KAWSARPA_ZERO_CHECKSUM_ALLOW;
}

bool fit_one_asked(const struct fit_way *way)
{
    return way->in_order || way->via_count == 1;
}

static struct fit_values rule_values(const struct table_records *near, const struct fit_record *record)
{
    const struct kawsarpa_rule *rule = &near->rules[record->index];
    struct fit_values values = {
        .is_rule = true,
        .sid = rule->sid_prefix,
        .p = rule->p,
        .q = rule->q,
        .direction = rule->direction,
        .session_type = rule->session_type,
        .hop_limit = rule->hop_limit,
        .waypoint_count = record->waypoint_count,
    };
    rule_prefix_text(rule, values.prefix);
    return values;
}

static struct fit_values entry_values(const struct table_records *near, const struct fit_record *record)
{
    const struct kawsarpa_entry *entry = &near->entries[record->index];
    const struct kawsarpa_policy *policy = &near->policies[entry->policy];
    return (struct fit_values){
        .policy = entry->policy + 1U,
        .sid = policy->sids[policy->sid_count - 1],
        .args_octet = policy->args_start / 8,
        .direction = entry->direction,
        .session_type = entry->session_type,
        .hop_limit = entry->hop_limit,
        .waypoint_count = record->waypoint_count,
    };
}

struct fit_values fit_values(const struct fit_way *way, const struct fit_record *record)
{
    const struct table_records near = table_records(&way->near->table);
    return (record->kind == KAWSARPA_RECORD_RULE ? rule_values : entry_values)(&near, record);
}

const char *fit_far_behaviour(const struct fit_values *near)
{
    return near->is_rule ? "End.M.GTP4.E" : "End.M.GTP6.E";
}

static void add(struct fit *fit, const struct fit_way *way, const struct fit_record *record)
{
    fit->records[fit->record_count++] = *record;
    if (!fit_record_asked(record))
        return;
    fit->asked++;
    fit->fitting += fit_record_fits(way, record);
    fit->waypoints_only += !record->has_far;
}

static bool sends_on(const struct kawsarpa_entry *entry)
{
    return entry->behaviour == KAWSARPA_BEHAVIOUR_END_M_GTP6_D || entry->behaviour == KAWSARPA_BEHAVIOUR_END_M_GTP6_D_DI;
}

struct fit fit_judge(const struct fit_way *way)
{
    const struct table_records near = table_records(&way->near->table);
    struct fit fit = {.record_count = 0};
    for (unsigned int i = 0; i < near.entry_count; i++) {
        struct fit_record record = {.kind = KAWSARPA_RECORD_ENTRY, .index = i};
        if (!sends_on(&near.entries[i]))
            continue;
        judge_entry(way, &near, &record);
        add(&fit, way, &record);
    }
    for (unsigned int i = 0; i < near.rule_count; i++) {
        struct fit_record record = {.kind = KAWSARPA_RECORD_RULE, .index = i};
        judge_rule(way, &near, &record);
        add(&fit, way, &record);
    }
    return fit;
}
