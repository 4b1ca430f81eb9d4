/* What fit_say.c says of records, as JSON. */
#include <arpa/inet.h>

#include "fit.h"
#include "table.h"
#include "words.h"

static void json_entry(struct json *json, const char *name, const struct stop *stop, unsigned int index)
{
    stop_json_record(json, name, stop, (struct stop_record){KAWSARPA_RECORD_ENTRY, index});
}

static void json_both_numbers(struct json *json, unsigned int at_near, unsigned int at_far)
{
    json_number(json, "near", at_near);
    json_number(json, "far", at_far);
}

static void json_both_words(struct json *json, const struct word *words, uint8_t at_near, uint8_t at_far)
{
    json_text(json, "near", word_numbered(words, at_near)->name);
    json_text(json, "far", word_numbered(words, at_far)->name);
}

/* The SIDs that a near record sends. */
static void json_sids(struct json *json, const struct fit_values *near)
{
    char sid[INET6_ADDRSTRLEN] = "";
    char prefix[PREFIX_ROOM];
    inet_ntop(AF_INET6, near->sid, sid, sizeof sid);
    snprintf(prefix, sizeof prefix, "%s/%u", sid, 8U * near->p);
    if (near->is_rule) {
        json_text(json, "sid_prefix", prefix);
        json_text(json, "destinations", near->prefix);
    } else {
        json_text(json, "last_sid", sid);
        json_number(json, "args_first", near->args_octet);
        json_number(json, "args_last", near->args_octet + FIT_ARGS_OCTETS - 1U);
    }
}

static void json_condition(struct json *json, uint64_t mismatch)
{
    json_object(json, "mismatch");
    json_number(json, "condition", kawsarpa_mismatch_condition(mismatch));
    json_text(json, "name", kawsarpa_mismatch_name(mismatch));
}

/* Both values of a condition that fails; the far entry is there where the library names one. */
static void json_values(struct json *json, unsigned int condition, const struct fit_values *near, const struct kawsarpa_entry *far)
{
    switch (condition) {
    case KAWSARPA_MISMATCH_NO_ENTRY:
        json_sids(json, near);
        break;
    case KAWSARPA_MISMATCH_KIND:
        json_text(json, "needed", fit_far_behaviour(near));
        json_sids(json, near);
        break;
    case KAWSARPA_MISMATCH_DIRECTION:
        json_both_words(json, directions, near->direction, far->direction);
        break;
    case KAWSARPA_MISMATCH_SESSION:
        json_both_words(json, session_types, near->session_type, far->session_type);
        break;
    case KAWSARPA_MISMATCH_START:
        json_both_numbers(json, near->args_octet, far->args_start / 8U);
        break;
    case KAWSARPA_MISMATCH_P:
        json_both_numbers(json, near->p, far->p);
        break;
    case KAWSARPA_MISMATCH_Q:
        json_both_numbers(json, near->q, far->q);
        break;
    case KAWSARPA_MISMATCH_HOP_LIMIT:
        json_number(json, "hop_limit", near->hop_limit);
        json_number(json, "waypoint_count", near->waypoint_count);
        break;
    default: /* the tables are sound, and only records that are there are asked for */
        break;
    }
}

static void json_mismatch(struct json *json, const struct fit_way *way, const struct fit_record *record)
{
    const struct table_records far = table_records(&way->far->table);
    const struct fit_values near = fit_values(way, record);
    json_condition(json, record->mismatch);
    if (!near.is_rule)
        json_number(json, "policy", near.policy);
    json_values(json, kawsarpa_mismatch_condition(record->mismatch), &near, far.entries + record->reached);
    json_close(json);
}

static void json_waypoint(struct json *json, const struct fit_way *way, const struct fit_waypoint *waypoint, unsigned int place)
{
    const bool entry = fit_names_entry(waypoint->mismatch);
    char address[INET6_ADDRSTRLEN] = "";
    inet_ntop(AF_INET6, waypoint->sid, address, sizeof address);
    json_object(json, NULL);
    json_number(json, "number", place + 1);
    json_text(json, "address", address);
    json_flag(json, "checked", waypoint->via != NULL);
    json_flag(json, "fits", fit_waypoint_fits(waypoint));
    if (waypoint->via != NULL && (waypoint->mismatch == 0 || entry || fit_one_asked(way)))
        json_text(json, "via", waypoint->via->name);
    if (waypoint->mismatch != 0) {
        json_condition(json, waypoint->mismatch);
        if (entry)
            json_entry(json, "entry", waypoint->via, kawsarpa_mismatch_index(waypoint->mismatch));
        json_close(json);
    }
    json_close(json);
}

static void json_waypoints(struct json *json, const struct fit_way *way, const struct fit_record *record)
{
    json_number(json, "waypoint_count", record->waypoint_count);
    if (!fit_waypoints_judged(way, record)) {
        json_number(json, "via_count", way->via_count);
        return;
    }
    json_array(json, "waypoints");
    for (unsigned int i = 0; i < record->waypoint_count; i++)
        json_waypoint(json, way, &record->waypoints[i], i);
    json_close(json);
}

static void json_record(struct json *json, const struct fit_way *way, const struct fit_record *record)
{
    json_object(json, NULL);
    stop_json_record(json, "near", way->near, (struct stop_record){record->kind, record->index});
    if (fit_zero_checksum(way, record))
        json_flag(json, "zero_checksum_allowed", true);
    json_flag(json, "checked", fit_record_asked(record));
    if (fit_record_asked(record)) {
        json_flag(json, "fits", fit_record_fits(way, record));
        json_flag(json, "waypoints_only", !record->has_far);
        if (fit_record_reaches(record))
            json_entry(json, "far", way->far, record->reached);
        if (record->mismatch != 0)
            json_mismatch(json, way, record);
        json_waypoints(json, way, record);
    }
    json_close(json);
}

void fit_json_counts(struct json *json, unsigned int fitting, unsigned int asked, unsigned int waypoints_only)
{
    json_number(json, "fit", fitting);
    json_number(json, "of", asked);
    json_number(json, "waypoints_only", waypoints_only);
}

void fit_json(struct json *json, const char *name, const struct fit_way *way, const struct fit *fit)
{
    json_object(json, name);
    json_text(json, "from", way->near->name);
    json_array(json, "via");
    for (size_t i = 0; i < way->via_count; i++)
        json_text(json, NULL, way->vias[i].name);
    json_close(json);
    json_text(json, "to", way->far->name);
    fit_json_counts(json, fit->fitting, fit->asked, fit->waypoints_only);
    json_array(json, "records");
    for (unsigned int i = 0; i < fit->record_count; i++)
        json_record(json, way, &fit->records[i]);
    json_close(json);
    json_close(json);
}
