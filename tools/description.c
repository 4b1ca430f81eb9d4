#include "description.h"

#include <cyaml/cyaml.h>
#include <stdarg.h>
#include <stdio.h>
#include <stdlib.h>
#include <string.h>

#include "kawsarpa.h"
#include "say.h"

/*
 * The schema. All values are texts: libcyaml's own numbers take "12x" for 12 and "010" for 8, and its messages name neither the record
 * nor what would be right.
 */

enum {
    GIVEN = CYAML_FLAG_POINTER,
    NOT_ALWAYS = CYAML_FLAG_POINTER | CYAML_FLAG_OPTIONAL,
    QUOTED = CYAML_FLAG_SCALAR_QUOTE_DOUBLE, /* an address may end in a colon, which only quotes keep in it */
    IN_A_LINE = CYAML_FLAG_FLOW
};

#define TEXT(key, flags, record, member) CYAML_FIELD_STRING_PTR(key, flags, struct record##_description, member, 0, CYAML_UNLIMITED)

static const cyaml_schema_value_t name_schema = {CYAML_VALUE_STRING(CYAML_FLAG_POINTER, char, 0, CYAML_UNLIMITED)};

static const cyaml_schema_field_t waypoint_fields[] = {
    TEXT("name", GIVEN, waypoint, name),
    TEXT("address", GIVEN | QUOTED, waypoint, address),
    CYAML_FIELD_END,
};

static const cyaml_schema_field_t policy_fields[] = {
    TEXT("name", GIVEN, policy, name),
    CYAML_FIELD_SEQUENCE("waypoints", NOT_ALWAYS | IN_A_LINE, struct policy_description, waypoints, &name_schema, 0, KAWSARPA_SIDS_MAX - 1),
    TEXT("last-sid", GIVEN | QUOTED, policy, last_sid),
    TEXT("args-octet", GIVEN, policy, args_octet),
    CYAML_FIELD_END,
};

static const cyaml_schema_field_t entry_fields[] = {
    TEXT("name", GIVEN, entry, name),
    TEXT("behaviour", GIVEN, entry, behaviour),
    TEXT("prefix", GIVEN | QUOTED, entry, prefix),
    TEXT("hop-limit", GIVEN, entry, hop_limit),
    TEXT("source", NOT_ALWAYS | QUOTED, entry, source),
    TEXT("direction", NOT_ALWAYS, entry, direction),
    TEXT("session-type", NOT_ALWAYS, entry, session_type),
    TEXT("policy", NOT_ALWAYS, entry, policy),
    TEXT("args-octet", NOT_ALWAYS, entry, args_octet),
    TEXT("p", NOT_ALWAYS, entry, p),
    TEXT("q", NOT_ALWAYS, entry, q),
    TEXT("source-port", NOT_ALWAYS, entry, source_port),
    TEXT("zero-checksum", NOT_ALWAYS, entry, zero_checksum),
    CYAML_FIELD_END,
};

static const cyaml_schema_field_t rule_fields[] = {
    TEXT("name", GIVEN, rule, name),
    TEXT("prefix", GIVEN | QUOTED, rule, prefix),
    TEXT("hop-limit", GIVEN, rule, hop_limit),
    TEXT("direction", GIVEN, rule, direction),
    TEXT("session-type", GIVEN, rule, session_type),
    TEXT("p", GIVEN, rule, p),
    TEXT("q", GIVEN, rule, q),
    TEXT("sid-prefix", GIVEN | QUOTED, rule, sid_prefix),
    TEXT("source-prefix", GIVEN | QUOTED, rule, source_prefix),
    CYAML_FIELD_SEQUENCE("waypoints", NOT_ALWAYS | IN_A_LINE, struct rule_description, waypoints, &name_schema, 0, KAWSARPA_WAYPOINTS_MAX),
    CYAML_FIELD_END,
};

#define RECORD(record) CYAML_VALUE_MAPPING(CYAML_FLAG_DEFAULT, struct record##_description, record##_fields)

static const cyaml_schema_value_t waypoint_schema = {RECORD(waypoint)};
static const cyaml_schema_value_t policy_schema = {RECORD(policy)};
static const cyaml_schema_value_t entry_schema = {RECORD(entry)};
static const cyaml_schema_value_t rule_schema = {RECORD(rule)};

#define LIST(member, record, most) CYAML_FIELD_SEQUENCE(#member, NOT_ALWAYS, struct description, member, &record##_schema, 0, most)

static const cyaml_schema_field_t description_fields[] = {
    CYAML_FIELD_STRING_PTR("format", GIVEN, struct description, format, 0, CYAML_UNLIMITED),
    LIST(waypoints, waypoint, DESCRIPTION_WAYPOINTS_MAX),
    LIST(policies, policy, KAWSARPA_POLICIES_MAX),
    LIST(entries, entry, KAWSARPA_ENTRIES_MAX),
    LIST(rules, rule, KAWSARPA_RULES_MAX),
    CYAML_FIELD_END,
};

static const cyaml_schema_value_t description_schema = {CYAML_VALUE_MAPPING(CYAML_FLAG_POINTER, struct description, description_fields)};

/* What libcyaml logs about a text that it refuses: the reason, then where it stood, from the inside out. */

enum { REASON_ROOM = 512, FRAMES = 4 };

struct position {
    unsigned long line, column;
};

struct refusal {
    char reason[REASON_ROOM];
    char field[64]; /* the innermost one */
    struct position frames[FRAMES];
    size_t frame_count;
};

/* What stands behind the first occurrence of a text, or NULL. */
static const char *after(const char *text, const char *part)
{
    const char *found = strstr(text, part);
    return found == NULL ? NULL : found + strlen(part);
}

/* "  in mapping field 'hop-limit' (line: 4, column: 16)", or another word than field. */
static void note_frame(struct refusal *refusal, const char *text)
{
    const char *field = after(text, "in mapping field '");
    const char *line = after(text, "(line: ");
    const char *column = after(text, ", column: ");
    if (field != NULL && refusal->field[0] == 0)
        snprintf(refusal->field, sizeof refusal->field, "%.*s", (int)strcspn(field, "'"), field);
    if (line != NULL && column != NULL && refusal->frame_count < FRAMES)
        refusal->frames[refusal->frame_count++] = (struct position){strtoul(line, NULL, 10), strtoul(column, NULL, 10)};
}

static void note(cyaml_log_t level, void *context, const char *format, va_list arguments)
{
    struct refusal *refusal = context;
    char text[REASON_ROOM];
    vsnprintf(text, sizeof text, format, arguments);
    text[strcspn(text, "\n")] = 0;
    if (level == CYAML_LOG_ERROR && strncmp(text, "  in ", 5) == 0)
        note_frame(refusal, text);
    else if (level == CYAML_LOG_ERROR && refusal->reason[0] == 0 && strcmp(text, "Load: Backtrace:") != 0)
        memcpy(refusal->reason, text, sizeof text);
}

/* What stands behind the beginning of a text, or NULL. */
static const char *behind(const char *text, const char *beginning)
{
    const size_t length = strlen(beginning);
    return strncmp(text, beginning, length) == 0 ? text + length : NULL;
}

static unsigned long frame_line(const struct refusal *refusal, size_t i)
{
    return i < refusal->frame_count ? refusal->frames[i].line : 1;
}

/* A key that is refused stands behind the place that libcyaml tells. */
static unsigned long key_line(const struct refusal *refusal, const struct marks *marks, const char *key)
{
    const struct position start = {1, 1};
    const struct position *frame = refusal->frame_count == 0 ? &start : &refusal->frames[0];
    return marks_key_line(marks, key, frame->line, frame->column);
}

static void say_refusal(const char *file, const struct refusal *refusal, const struct marks *marks, cyaml_err_t error)
{
    const char *rest; /* of the reason: a key, or a number */
    const unsigned long line = frame_line(refusal, 0);
    if ((rest = behind(refusal->reason, "Load: Unexpected key: ")) != NULL)
        say_error_at(file, key_line(refusal, marks, rest), "unknown key \"%s\"", rest);
    else if ((rest = behind(refusal->reason, "Load: Mapping field already seen: ")) != NULL)
        say_error_at(file, key_line(refusal, marks, rest), "%s is given twice", rest);
    else if ((rest = behind(refusal->reason, "Load: Missing required mapping field: ")) != NULL)
        say_error_at(file, frame_line(refusal, 1), "%s is missing", rest);
    else if ((rest = behind(refusal->reason, "Load: Excessive entries (")) != NULL)
        say_error_at(file, line, "too many %s: at most %.*s", refusal->field, (int)strcspn(rest, " "), rest);
    else if (behind(refusal->reason, "Load: Expecting SEQUENCE") != NULL)
        say_error_at(file, line, "%s is not a list", refusal->field);
    else if (behind(refusal->reason, "Load: Expecting MAPPING") != NULL)
        say_error_at(file, line, "%s%skeys with values are expected", refusal->field, refusal->field[0] == 0 ? "" : ": ");
    else if (behind(refusal->reason, "Load: Expecting STRING") != NULL)
        say_error_at(file, line, "%s is not one value", refusal->field);
    else
        say_error_at(file, line, "%s", refusal->reason[0] == 0 ? cyaml_strerror(error) : refusal->reason);
}

static cyaml_config_t config(struct refusal *refusal)
{
    return (cyaml_config_t){
        .log_fn = note,
        .log_ctx = refusal,
        .mem_fn = cyaml_mem,
        .log_level = CYAML_LOG_ERROR,
        .flags = CYAML_CFG_NO_ALIAS | CYAML_CFG_STYLE_BLOCK,
    };
}

struct description *description_load(const char *file, const struct octets *text, const struct marks *marks)
{
    struct refusal refusal = {.frame_count = 0};
    const cyaml_config_t loading = config(&refusal);
    cyaml_data_t *loaded = NULL;
    const cyaml_err_t error = cyaml_load_data(text->at, text->count, &loading, &description_schema, &loaded, NULL);
    if (error != CYAML_OK) {
        say_refusal(file, &refusal, marks, error);
        return NULL;
    }
    if (loaded == NULL)
        say_error_at(file, 0, "no description: the file is empty");
    return loaded;
}

struct octets description_save(const struct description *description)
{
    struct refusal refusal = {.frame_count = 0};
    const cyaml_config_t saving = config(&refusal);
    char *text = NULL;
    size_t length = 0;
    if (cyaml_save_data(&text, &length, &saving, &description_schema, description, 0) != CYAML_OK)
        say_no_memory(); /* nothing else can fail: the schema is right, and the emitter writes to memory */
    return (struct octets){(uint8_t *)text, length};
}

void description_free(struct description *description)
{
    struct refusal refusal = {.frame_count = 0};
    const cyaml_config_t freeing = config(&refusal);
    cyaml_free(&freeing, &description_schema, description, 0);
}
