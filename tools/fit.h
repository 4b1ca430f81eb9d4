/* Whether tables belong together: what sends packets on in a near table, beside the tables of its waypoints and the far table. The library
   alone judges, from the tables; its answers are gathered here and put into words. */
#ifndef FIT_H
#define FIT_H

#include <stdbool.h>
#include <stddef.h>
#include <stdint.h>
#include <stdio.h>

#include "json.h"
#include "kawsarpa.h"
#include "stop.h"
#include "table.h"

/* Args.Mob.Session (RFC 9433, section 6.1). */
enum { FIT_ARGS_OCTETS = 5 };

/* The tables from a near gateway to a far one. */
struct fit_way {
    const struct stop *near;
    const struct stop *vias;
    size_t via_count;
    const struct stop *far;
    bool in_order; /* waypoint n of a record is the n-th of vias, and there are no others; else a waypoint is any of them */
};

struct fit_waypoint {
    const uint8_t *sid;
    const struct stop *via; /* the table that it fits, or that tells most; NULL where there is none to ask */
    uint64_t mismatch;      /* of that table, as kawsarpa_match_waypoint tells it */
};

/* An entry or rule of the near table that sends packets on, and what the library says of it. */
struct fit_record {
    unsigned int kind; /* KAWSARPA_RECORD_ENTRY or KAWSARPA_RECORD_RULE */
    unsigned int index;
    bool has_far;         /* End.M.GTP6.D has none */
    uint64_t mismatch;    /* with the far table, as kawsarpa_match_ipv6 and _ipv4 tell it; 0 where it has none */
    unsigned int reached; /* the far entry to which it leads, where the mismatch names one or is 0 */
    struct fit_waypoint waypoints[KAWSARPA_WAYPOINTS_MAX];
    unsigned int waypoint_count;
};

struct fit {
    struct fit_record records[KAWSARPA_ENTRIES_MAX + KAWSARPA_RULES_MAX];
    unsigned int record_count;
    unsigned int asked;          /* records of which the library was asked: all but End.M.GTP6.D without waypoints */
    unsigned int fitting;        /* of these, those that fit */
    unsigned int waypoints_only; /* of these, End.M.GTP6.D */
};

/* The tables are sound. */
struct fit fit_judge(const struct fit_way *way);

bool fit_record_asked(const struct fit_record *record);
bool fit_record_fits(const struct fit_way *way, const struct fit_record *record);

/* Whether the far entry to which the record leads is known. */
bool fit_record_reaches(const struct fit_record *record);

/* False: in order, and there are not as many tables as waypoints. */
bool fit_waypoints_judged(const struct fit_way *way, const struct fit_record *record);
bool fit_waypoint_fits(const struct fit_waypoint *waypoint);

/* Whether a waypoint that nothing matches was looked for in one table alone. */
bool fit_one_asked(const struct fit_way *way);

/* Whether a mismatch names an entry of the table that was asked. */
bool fit_names_entry(uint64_t mismatch);

/* Whether the record is an entry that allows UDP checksum 0, and nothing is wrong with it: no matter to the fit, since what is sent bears
   the true one, but less than IPv6 asks for. */
bool fit_zero_checksum(const struct fit_way *way, const struct fit_record *record);

/* What is told of a near entry with its policy, or of a near rule. */
struct fit_values {
    bool is_rule;
    unsigned int policy; /* from 1 */
    const uint8_t *sid;  /* the policy's last SID; the rule's SID prefix */
    uint8_t args_octet;  /* of the policy */
    uint8_t p, q;        /* of the rule */
    uint8_t direction, session_type, hop_limit;
    unsigned int waypoint_count;
    char prefix[PREFIX_ROOM]; /* of the rule */
};

struct fit_values fit_values(const struct fit_way *way, const struct fit_record *record);

/* The behaviour that the far entry has to have. */
const char *fit_far_behaviour(const struct fit_values *near);

/* One line where the record fits, else one for each thing that does not. */
void fit_say_record(FILE *to, const struct fit_way *way, const struct fit_record *record);

/* A JSON object about all records of a way. */
void fit_json(struct json *json, const char *name, const struct fit_way *way, const struct fit *fit);

/* Members of one: how many of how many fit. */
void fit_json_counts(struct json *json, unsigned int fitting, unsigned int asked, unsigned int waypoints_only);

#endif
