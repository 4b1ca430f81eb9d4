/* The lines about records that fit, and that do not: the two records, the library's number and name of the condition, and both values. */
#include <arpa/inet.h>

#include "fit.h"
#include "table.h"
#include "words.h"

static const char *near_name(const struct fit_values *near)
{
    return near->is_rule ? "rule" : "entry";
}

static void say_entry(FILE *to, const struct stop *stop, unsigned int index)
{
    stop_say_record(to, stop, (struct stop_record){KAWSARPA_RECORD_ENTRY, index});
}

static void say_near(FILE *to, const struct fit_way *way, const struct fit_record *record)
{
    fputs("  ", to);
    stop_say_record(to, way->near, (struct stop_record){record->kind, record->index});
}

static void say_near_and_far(FILE *to, const struct fit_way *way, const struct fit_record *record)
{
    say_near(to, way, record);
    fputs(" -> far ", to);
    say_entry(to, way->far, record->reached);
}

/* The SIDs that a near record sends, with "any" or "some" of what packets bring. */
static void say_sids(FILE *to, const struct fit_values *near, const char *which)
{
    char sid[INET6_ADDRSTRLEN] = "";
    inet_ntop(AF_INET6, near->sid, sid, sizeof sid);
    if (near->is_rule)
        fprintf(to, "%s/%u, the SID prefix of the near rule, with %s destination under %s behind it", sid, 8U * near->p, which,
                near->prefix);
    else
        fprintf(to, "%s, the last SID of near policy %u, with %s Args in octets %u to %u", sid, near->policy, which, near->args_octet,
                near->args_octet + FIT_ARGS_OCTETS - 1U);
}

static void say_both_words(FILE *to, const struct fit_values *near, const struct word *words, uint8_t at_near, uint8_t at_far)
{
    fprintf(to, ": %s in the near %s, %s in the far entry", word_numbered(words, at_near)->name, near_name(near),
            word_numbered(words, at_far)->name);
}

static void say_hop_limit(FILE *to, const struct fit_values *near)
{
    fprintf(to, ": hop limit %u in the near %s, %u waypoint%s in ", near->hop_limit, near_name(near), near->waypoint_count,
            near->waypoint_count == 1 ? "" : "s");
    if (near->is_rule)
        fputs("it", to);
    else
        fprintf(to, "near policy %u", near->policy);
}

/* Both values of a condition that fails; the far entry is there where the library names one. */
static void say_values(FILE *to, unsigned int condition, const struct fit_values *near, const struct kawsarpa_entry *far)
{
    switch (condition) {
    case KAWSARPA_MISMATCH_NO_ENTRY:
        fputs(": looked for ", to);
        say_sids(to, near, "any");
        break;
    case KAWSARPA_MISMATCH_KIND:
        fprintf(to, ": %s, not %s, takes ", word_numbered(behaviours, far->behaviour)->name, fit_far_behaviour(near));
        say_sids(to, near, "some");
        break;
    case KAWSARPA_MISMATCH_DIRECTION:
        say_both_words(to, near, directions, near->direction, far->direction);
        break;
    case KAWSARPA_MISMATCH_SESSION:
        say_both_words(to, near, session_types, near->session_type, far->session_type);
        break;
    case KAWSARPA_MISMATCH_START:
        fprintf(to, ": octet %u in near policy %u, octet %u in the far entry", near->args_octet, near->policy, far->args_start / 8U);
        break;
    case KAWSARPA_MISMATCH_P:
        fprintf(to, ": %u in the near rule, %u in the far entry", near->p, far->p);
        break;
    case KAWSARPA_MISMATCH_Q:
        fprintf(to, ": %u in the near rule, %u in the far entry", near->q, far->q);
        break;
    case KAWSARPA_MISMATCH_HOP_LIMIT:
        say_hop_limit(to, near);
        break;
    default: /* the tables are sound, and only records that are there are asked for */
        break;
    }
}

static void say_condition(FILE *to, uint64_t mismatch)
{
    fprintf(to, ": %u %s", kawsarpa_mismatch_condition(mismatch), kawsarpa_mismatch_name(mismatch));
}

static void say_mismatch(FILE *to, const struct fit_way *way, const struct fit_record *record)
{
    const struct table_records far = table_records(&way->far->table);
    const struct fit_values values = fit_values(way, record);
    (fit_record_reaches(record) ? say_near_and_far : say_near)(to, way, record);
    say_condition(to, record->mismatch);
    say_values(to, kawsarpa_mismatch_condition(record->mismatch), &values, far.entries + record->reached);
    fputc('\n', to);
}

static void say_waypoint(FILE *to, const struct fit_way *way, const struct fit_record *record, unsigned int place)
{
    const struct fit_waypoint *waypoint = &record->waypoints[place];
    char address[INET6_ADDRSTRLEN] = "";
    inet_ntop(AF_INET6, waypoint->sid, address, sizeof address);
    say_near(to, way, record);
    fprintf(to, " -> waypoint %u %s", place + 1, address);
    if (waypoint->via == NULL) {
        fputs(": not checked, since no --via table was given\n", to);
        return;
    }
    say_condition(to, waypoint->mismatch);
    if (fit_names_entry(waypoint->mismatch)) {
        fputs(": ", to);
        say_entry(to, waypoint->via, kawsarpa_mismatch_index(waypoint->mismatch));
        fprintf(to, " of %s\n", waypoint->via->name);
    } else if (fit_one_asked(way))
        fprintf(to, ": not in %s\n", waypoint->via->name);
    else
        fprintf(to, ": in none of the %zu --via tables\n", way->via_count);
}

static void say_waypoint_count(FILE *to, const struct fit_way *way, const struct fit_record *record)
{
    const unsigned int count = record->waypoint_count;
    say_near(to, way, record);
    fprintf(to, ": %u waypoint%s, but %zu --via table%s\n", count, count == 1 ? "" : "s", way->via_count, way->via_count == 1 ? "" : "s");
}

/* The end of a line about a record with which nothing is wrong. */
static void say_end(FILE *to, const struct fit_way *way, const struct fit_record *record)
{
    fputs(fit_zero_checksum(way, record) ? "; the near entry allows UDP checksum 0\n" : "\n", to);
}

static void say_fits(FILE *to, const struct fit_way *way, const struct fit_record *record)
{
    (fit_record_reaches(record) ? say_near_and_far : say_near)(to, way, record);
    fputs(record->waypoint_count == 0 ? ": fits, with no waypoint" : ": fits, via ", to);
    for (unsigned int i = 0; i < record->waypoint_count; i++)
        fprintf(to, "%s%s", i == 0 ? "" : ", ", record->waypoints[i].via->name);
    fputs(record->has_far ? "" : "; End.M.GTP6.D has no far end in the tables, so only its waypoints are checked", to);
    say_end(to, way, record);
}

/* A line for each thing that does not fit. */
static void say_faults(FILE *to, const struct fit_way *way, const struct fit_record *record)
{
    if (record->mismatch != 0)
        say_mismatch(to, way, record);
    if (!fit_waypoints_judged(way, record)) {
        say_waypoint_count(to, way, record);
        return;
    }
    for (unsigned int i = 0; i < record->waypoint_count; i++)
        if (!fit_waypoint_fits(&record->waypoints[i]))
            say_waypoint(to, way, record, i);
}

void fit_say_record(FILE *to, const struct fit_way *way, const struct fit_record *record)
{
    if (!fit_record_asked(record)) {
        say_near(to, way, record);
        fputs(": nothing to check: no waypoint, and End.M.GTP6.D has no far end in the tables", to);
        say_end(to, way, record);
    } else if (fit_record_fits(way, record))
        say_fits(to, way, record);
    else
        say_faults(to, way, record);
}
