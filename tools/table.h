/* A compiled table: its octets, its records where they stand in them, and the library's judgement. */
#ifndef TABLE_H
#define TABLE_H

#include <stdbool.h>
#include <stddef.h>
#include <stdint.h>
#include <stdio.h>

#include "file.h"
#include "json.h"
#include "kawsarpa.h"

/* Longer than the largest table, so that the library judges every length that a table may have by mistake. */
enum { TABLE_READ_MOST = 1 << 20 };

/* The records of a table whose header is sound. */
struct table_records {
    unsigned int entry_count, rule_count, policy_count;
    const struct kawsarpa_entry *entries;
    const struct kawsarpa_rule *rules;
    const struct kawsarpa_policy *policies;
};

struct table_records table_records(const struct octets *table);

/* Reads a table and has the library judge it. 0, or the exit code after it was reported that it cannot be read. */
int table_read(const char *name, struct octets *table, uint64_t *fault);

/* Says which record of a table breaks which condition, or that the octets are those of a description. */
void table_say_unsound(const char *name, const struct octets *table, uint64_t fault);

/* The same as members of a JSON object. */
void table_json_unsound(struct json *json, const struct octets *table, uint64_t fault);

/* Reads a table that the library finds sound. 0, or the exit code after the fault was reported. */
int table_read_sound(const char *name, struct octets *table);

/* Whether the fault is an entry or rule whose prefix and length an earlier one has. */
bool fault_is_same_prefix(uint64_t fault);

/* The earlier entry or rule with the prefix and length of this one; without one, this one. */
unsigned int table_earlier(const struct table_records *records, unsigned int record, unsigned int index);

/* "2001:db8::/32", "192.0.2.0/24". */
enum { PREFIX_ROOM = 64 };
void entry_prefix_text(const struct kawsarpa_entry *entry, char text[PREFIX_ROOM]);
void rule_prefix_text(const struct kawsarpa_rule *rule, char text[PREFIX_ROOM]);

/* How a record is called: "entry 1 End 2001:db8:1::/48", "rule 1 H.M.GTP4.D 192.0.2.0/24". */
struct record_words {
    const char *kind;
    unsigned int number;      /* from 1 */
    const char *behaviour;    /* NULL: none, or one that is unknown */
    char prefix[PREFIX_ROOM]; /* empty: none */
};

struct record_words table_record_words(const struct table_records *records, unsigned int kind, unsigned int index);

/* Members of a JSON object: what a record is called, and how many there are. */
void table_json_counts(struct json *json, const struct table_records *records);
void table_json_record(struct json *json, const struct record_words *words);

#endif
