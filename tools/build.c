#include "build.h"

#include <stdlib.h>
#include <string.h>

#include "say.h"
#include "values.h"

/* What is being built, and of what. */
struct work {
    const struct description *description;
    const struct text_source *source;
    uint8_t waypoints[DESCRIPTION_WAYPOINTS_MAX][16];
};

static struct record_place place_of(const struct work *work, const char *list, const char *kind, unsigned int index, const char *name)
{
    return (struct record_place){work->source, list, kind, index, name};
}

/* The names of a list, by number. */
typedef const char *(*name_of)(const struct description *description, unsigned int index);

static const char *waypoint_name(const struct description *description, unsigned int index)
{
    return description->waypoints[index].name;
}

static const char *policy_name(const struct description *description, unsigned int index)
{
    return description->policies[index].name;
}

static const char *entry_name(const struct description *description, unsigned int index)
{
    return description->entries[index].name;
}

static const char *rule_name(const struct description *description, unsigned int index)
{
    return description->rules[index].name;
}

/* The first of `count` records with a name, or `count`. */
static unsigned int find(const struct description *description, name_of name, unsigned int count, const char *wanted)
{
    unsigned int i = 0;
    while (i < count && strcmp(name(description, i), wanted) != 0)
        i++;
    return i;
}

/*
 * From here on every value is read, also behind one that is refused, so that all mistakes are told: `good = read() && good'.
 */

static bool check_names(const struct work *work, const char *list, const char *kind, name_of name, unsigned int count)
{
    bool good = true;
    for (unsigned int i = 0; i < count; i++) {
        const char *own = name(work->description, i);
        const struct record_place place = place_of(work, list, kind, i, own);
        if (!value_name(&place))
            good = false;
        else if (find(work->description, name, i, own) < i)
            good = value_refused(&place, "name", "an earlier %s has this name", kind);
    }
    return good;
}

static bool check_all_names(const struct work *work)
{
    const struct description *description = work->description;
    bool good = check_names(work, "waypoints", "waypoint", waypoint_name, description->waypoints_count);
    good = check_names(work, "policies", "policy", policy_name, description->policies_count) && good;
    good = check_names(work, "entries", "entry", entry_name, description->entries_count) && good;
    return check_names(work, "rules", "rule", rule_name, description->rules_count) && good;
}

static bool check_format(const struct work *work)
{
    const struct record_place whole = place_of(work, NULL, NULL, 0, NULL);
    unsigned int format = 0;
    return value_number(&whole, "format", work->description->format, KAWSARPA_FORMAT, KAWSARPA_FORMAT, &format);
}

static bool read_waypoints(struct work *work)
{
    bool good = true;
    for (unsigned int i = 0; i < work->description->waypoints_count; i++) {
        const struct waypoint_description *from = &work->description->waypoints[i];
        const struct record_place place = place_of(work, "waypoints", "waypoint", i, from->name);
        good = value_address(&place, "address", from->address, work->waypoints[i]) && good;
    }
    return good;
}

/* The addresses of waypoints that a record names, in order of travel. */
static bool place_waypoints(const struct work *work, const struct record_place *place, char *const *names, unsigned int count,
                            uint8_t addresses[][16])
{
    bool good = true;
    for (unsigned int i = 0; i < count; i++) {
        const unsigned int found = find(work->description, waypoint_name, work->description->waypoints_count, names[i]);
        if (found == work->description->waypoints_count)
            good = value_refused(place, "waypoints", "\"%.80s\" is not the name of a waypoint", names[i]);
        else
            memcpy(addresses[i], work->waypoints[found], sizeof addresses[i]);
    }
    return good;
}

static bool build_policy(const struct work *work, unsigned int index, struct kawsarpa_policy *policy)
{
    const struct policy_description *from = &work->description->policies[index];
    const struct record_place place = place_of(work, "policies", "policy", index, from->name);
    const unsigned int last = from->waypoints_count;
    unsigned int args_octet = 0;
    policy->sid_count = (uint8_t)(last + 1);
    bool good = place_waypoints(work, &place, from->waypoints, last, policy->sids);
    good = value_address(&place, "last-sid", from->last_sid, policy->sids[last]) && good;
    good = value_number(&place, "args-octet", from->args_octet, 0, ARGS_OCTET_MOST, &args_octet) && good;
    if (good)
        kawsarpa_policy_set_args_start_octets(policy, args_octet);
    return good;
}

/* Which behaviours use a field of an entry. Every entry may have a source address: what the gateway sends itself bears it. */

enum use { UNUSED, ALLOWED, NEEDED };

struct field_use {
    const char *field;
    char *(*text)(const struct entry_description *entry);
    enum use end, d, e6, e4; /* d: End.M.GTP6.D and End.M.GTP6.D.Di */
};

#define TEXT_OF(member)                                             \
    static char *member##_of(const struct entry_description *entry) \
    {                                                               \
        return entry->member;                                       \
    }
TEXT_OF(source)
TEXT_OF(direction)
TEXT_OF(session_type)
TEXT_OF(policy)
TEXT_OF(args_octet)
TEXT_OF(p)
TEXT_OF(q)
TEXT_OF(source_port)
TEXT_OF(zero_checksum)

static const struct field_use field_uses[] = {
    {"source", source_of, ALLOWED, NEEDED, NEEDED, ALLOWED},
    {"direction", direction_of, UNUSED, NEEDED, NEEDED, NEEDED},
    {"session-type", session_type_of, UNUSED, NEEDED, NEEDED, NEEDED},
    {"policy", policy_of, UNUSED, NEEDED, UNUSED, UNUSED},
    {"args-octet", args_octet_of, UNUSED, UNUSED, NEEDED, UNUSED},
    {"p", p_of, UNUSED, UNUSED, UNUSED, NEEDED},
    {"q", q_of, UNUSED, UNUSED, UNUSED, NEEDED},
    {"source-port", source_port_of, UNUSED, UNUSED, NEEDED, NEEDED},
    {"zero-checksum", zero_checksum_of, UNUSED, ALLOWED, UNUSED, UNUSED},
};

static enum use use_by(const struct field_use *field, uint8_t behaviour)
{
    switch (behaviour) {
    case KAWSARPA_BEHAVIOUR_END:
        return field->end;
    case KAWSARPA_BEHAVIOUR_END_M_GTP6_E:
        return field->e6;
    case KAWSARPA_BEHAVIOUR_END_M_GTP4_E:
        return field->e4;
    default:
        return field->d;
    }
}

static bool check_uses(const struct record_place *place, const struct entry_description *from, uint8_t behaviour)
{
    bool good = true;
    for (size_t i = 0; i < sizeof field_uses / sizeof field_uses[0]; i++) {
        const struct field_use *field = &field_uses[i];
        const bool given = field->text(from) != NULL;
        const enum use use = use_by(field, behaviour);
        if (given && use == UNUSED)
            good = value_refused(place, field->field, "%s uses no %s", from->behaviour, field->field);
        if (!given && use == NEEDED)
            good = value_refused(place, NULL, "%s needs %s", from->behaviour, field->field);
    }
    return good;
}

static bool build_entry_policy(const struct work *work, const struct record_place *place, const char *name, uint8_t *policy)
{
    const unsigned int count = work->description->policies_count;
    const unsigned int found = find(work->description, policy_name, count, name);
    *policy = (uint8_t)found;
    return found < count || value_refused(place, "policy", "\"%.80s\" is not the name of a policy", name);
}

/* What is sent bears it, and no packet may have such a source (RFC 4291, sections 2.5.2 and 2.7). The library takes any. */
static void warn_of_source(const struct record_place *place, const char *text, const uint8_t source[16])
{
    static const uint8_t unspecified[16];
    const bool multicast = source[0] == 0xFF;
    if (multicast || memcmp(source, unspecified, sizeof unspecified) == 0)
        value_warned(place, "source", "source is \"%.80s\", %s address: routers drop what bears it", text,
                     multicast ? "a multicast" : "the unspecified");
}

static bool build_source(const struct record_place *place, const char *text, uint8_t source[16])
{
    const bool good = value_address(place, "source", text, source);
    if (good)
        warn_of_source(place, text, source);
    return good;
}

/* The fields that not every behaviour has; which, is checked elsewhere. */
static bool build_entry_uses(const struct work *work, const struct record_place *place, const struct entry_description *from,
                             struct kawsarpa_entry *entry)
{
    unsigned int args_octet = 0;
    unsigned int port = 0;
    bool good = from->source == NULL || build_source(place, from->source, entry->source);
    if (from->direction != NULL)
        good = value_word(place, "direction", from->direction, directions, &entry->direction) && good;
    if (from->session_type != NULL)
        good = value_word(place, "session-type", from->session_type, session_types, &entry->session_type) && good;
    if (from->policy != NULL)
        good = build_entry_policy(work, place, from->policy, &entry->policy) && good;
    if (from->args_octet != NULL)
        good = value_number(place, "args-octet", from->args_octet, 0, ARGS_OCTET_MOST, &args_octet) && good;
    if (from->p != NULL)
        good = value_octet(place, "p", from->p, 0, P_MOST, &entry->p) && good;
    if (from->q != NULL)
        good = value_octet(place, "q", from->q, 0, Q_MOST, &entry->q) && good;
    if (from->source_port != NULL)
        good = value_number(place, "source-port", from->source_port, 0, UINT16_MAX, &port) && good;
    if (from->zero_checksum != NULL)
        good = value_word(place, "zero-checksum", from->zero_checksum, zero_checksums, &entry->zero_checksum) && good;
    if (good) {
        kawsarpa_entry_set_args_start_octets(entry, args_octet);
        kawsarpa_entry_set_source_port(entry, (uint16_t)port);
    }
    return good;
}

static bool build_entry(const struct work *work, unsigned int index, struct kawsarpa_entry *entry)
{
    const struct entry_description *from = &work->description->entries[index];
    const struct record_place place = place_of(work, "entries", "entry", index, from->name);
    bool good = value_word(&place, "behaviour", from->behaviour, behaviours, &entry->behaviour) &&
                check_uses(&place, from, entry->behaviour); /* of a behaviour that is none, nothing is known of its fields */
    good = value_prefix6(&place, "prefix", from->prefix, entry->prefix, &entry->prefix_length) && good;
    good = value_octet(&place, "hop-limit", from->hop_limit, 1, UINT8_MAX, &entry->hop_limit) && good;
    return build_entry_uses(work, &place, from, entry) && good;
}

static bool build_rule(const struct work *work, unsigned int index, struct kawsarpa_rule *rule)
{
    const struct rule_description *from = &work->description->rules[index];
    const struct record_place place = place_of(work, "rules", "rule", index, from->name);
    rule->waypoint_count = (uint8_t)from->waypoints_count;
    bool good = value_prefix4(&place, "prefix", from->prefix, rule->prefix, &rule->prefix_length);
    good = value_octet(&place, "hop-limit", from->hop_limit, 1, UINT8_MAX, &rule->hop_limit) && good;
    good = value_word(&place, "direction", from->direction, directions, &rule->direction) && good;
    good = value_word(&place, "session-type", from->session_type, session_types, &rule->session_type) && good;
    good = value_octet(&place, "p", from->p, 0, P_MOST, &rule->p) && good;
    good = value_octet(&place, "q", from->q, 0, Q_MOST, &rule->q) && good;
    good = value_address(&place, "sid-prefix", from->sid_prefix, rule->sid_prefix) && good;
    good = value_address(&place, "source-prefix", from->source_prefix, rule->source_prefix) && good;
    return place_waypoints(work, &place, from->waypoints, from->waypoints_count, rule->waypoints) && good;
}

/* Records that can be sorted without losing where they came from. */

struct sorted_entry {
    struct kawsarpa_entry entry;
    unsigned int from;
};

struct sorted_rule {
    struct kawsarpa_rule rule;
    unsigned int from;
};

/* By prefix, then by its length; the earlier of two equal ones stays the earlier. */
static int compare(int by_prefix, int by_length, int by_place)
{
    if (by_prefix != 0)
        return by_prefix;
    return by_length != 0 ? by_length : by_place;
}

static int compare_entries(const void *left, const void *right)
{
    const struct sorted_entry *a = left;
    const struct sorted_entry *b = right;
    return compare(memcmp(a->entry.prefix, b->entry.prefix, sizeof a->entry.prefix), a->entry.prefix_length - b->entry.prefix_length,
                   (int)a->from - (int)b->from);
}

static int compare_rules(const void *left, const void *right)
{
    const struct sorted_rule *a = left;
    const struct sorted_rule *b = right;
    return compare(memcmp(a->rule.prefix, b->rule.prefix, sizeof a->rule.prefix), a->rule.prefix_length - b->rule.prefix_length,
                   (int)a->from - (int)b->from);
}

static bool build_entries(const struct work *work, struct built *built, uint8_t *at)
{
    const unsigned int count = work->description->entries_count;
    struct sorted_entry sorted[KAWSARPA_ENTRIES_MAX];
    bool good = true;
    memset(sorted, 0, sizeof sorted);
    for (unsigned int i = 0; i < count; i++) {
        sorted[i].from = i;
        good = build_entry(work, i, &sorted[i].entry) && good;
    }
    if (!good)
        return false;
    qsort(sorted, count, sizeof sorted[0], compare_entries);
    for (unsigned int i = 0; i < count; i++) {
        built->entry_from[i] = sorted[i].from;
        memcpy(at + i * sizeof sorted[i].entry, &sorted[i].entry, sizeof sorted[i].entry);
    }
    return true;
}

static bool build_rules(const struct work *work, struct built *built, uint8_t *at)
{
    const unsigned int count = work->description->rules_count;
    struct sorted_rule sorted[KAWSARPA_RULES_MAX];
    bool good = true;
    memset(sorted, 0, sizeof sorted);
    for (unsigned int i = 0; i < count; i++) {
        sorted[i].from = i;
        good = build_rule(work, i, &sorted[i].rule) && good;
    }
    if (!good)
        return false;
    qsort(sorted, count, sizeof sorted[0], compare_rules);
    for (unsigned int i = 0; i < count; i++) {
        built->rule_from[i] = sorted[i].from;
        memcpy(at + i * sizeof sorted[i].rule, &sorted[i].rule, sizeof sorted[i].rule);
    }
    return true;
}

/* Policies keep the order of the description: entries name them by number. */
static bool build_policies(const struct work *work, uint8_t *at)
{
    bool good = true;
    for (unsigned int i = 0; i < work->description->policies_count; i++)
        good = build_policy(work, i, (struct kawsarpa_policy *)at + i) && good;
    return good;
}

static bool build_records(struct work *work, struct built *built)
{
    const uint16_t entries = (uint16_t)work->description->entries_count;
    const uint16_t rules = (uint16_t)work->description->rules_count;
    const uint16_t policies = (uint16_t)work->description->policies_count;
    kawsarpa_table_header_set((struct kawsarpa_table_header *)built->table.at, entries, rules, policies);
    if (!check_format(work)) /* which may give all else another meaning */
        return false;
    bool good = check_all_names(work);
    good = read_waypoints(work) && good;
    good = build_policies(work, built->table.at + kawsarpa_table_size(entries, rules, 0)) && good;
    good = build_entries(work, built, built->table.at + kawsarpa_table_size(0, 0, 0)) && good;
    return build_rules(work, built, built->table.at + kawsarpa_table_size(entries, 0, 0)) && good;
}

bool build_table(const struct description *description, const struct text_source *source, struct built *built)
{
    struct work work = {.description = description, .source = source};
    built->table.count = kawsarpa_table_size((uint16_t)description->entries_count, (uint16_t)description->rules_count,
                                             (uint16_t)description->policies_count);
    built->table.at = calloc(1, built->table.count);
    if (built->table.at == NULL)
        say_no_memory();
    if (build_records(&work, built))
        return true;
    free(built->table.at);
    return false;
}
