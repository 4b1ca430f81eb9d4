/* The description of a table, as people write it: YAML, held here as the text of its values. docs/TABLES.md says what each is. */
#ifndef DESCRIPTION_H
#define DESCRIPTION_H

#include "file.h"
#include "marks.h"

/* Values that are not given are NULL. */
struct waypoint_description {
    char *name;
    char *address;
};

struct policy_description {
    char *name;
    char **waypoints;
    unsigned int waypoints_count;
    char *last_sid;
    char *args_octet;
};

struct entry_description {
    char *name;
    char *behaviour;
    char *prefix;
    char *hop_limit;
    char *source;
    char *direction;
    char *session_type;
    char *policy;
    char *args_octet;
    char *p;
    char *q;
    char *source_port;
    char *zero_checksum;
};

struct rule_description {
    char *name;
    char *prefix;
    char *hop_limit;
    char *direction;
    char *session_type;
    char *p;
    char *q;
    char *sid_prefix;
    char *source_prefix;
    char **waypoints;
    unsigned int waypoints_count;
};

struct description {
    char *format;
    struct waypoint_description *waypoints;
    unsigned int waypoints_count;
    struct policy_description *policies;
    unsigned int policies_count;
    struct entry_description *entries;
    unsigned int entries_count;
    struct rule_description *rules;
    unsigned int rules_count;
};

/* As many waypoints as all policies and rules can name. */
enum { DESCRIPTION_WAYPOINTS_MAX = 224 };

/* The description in a text whose marks were read. NULL: the fault was reported. */
struct description *description_load(const char *file, const struct octets *text, const struct marks *marks);

/* The text of a description; the caller frees it. */
struct octets description_save(const struct description *description);

void description_free(struct description *description);

#endif
