#include "table.h"

#include <arpa/inet.h>
#include <stdlib.h>
#include <string.h>

#include "commands.h"
#include "say.h"
#include "words.h"

static unsigned int number16(const uint8_t octets[2])
{
    return (unsigned int)octets[0] << 8 | octets[1];
}

struct table_records table_records(const struct octets *table)
{
    const struct kawsarpa_table_header *header = (const void *)table->at;
    struct table_records records;
    records.entry_count = number16(header->entries);
    records.rule_count = number16(header->rules);
    records.policy_count = number16(header->policies);
    records.entries = (const void *)(header + 1);
    records.rules = (const void *)(records.entries + records.entry_count);
    records.policies = (const void *)(records.rules + records.rule_count);
    return records;
}

/* Text with the key that every description has, where a table has its format. */
static bool is_description(const struct octets *octets)
{
    static const char key[] = "format";
    return octets->count > 0 && octets->at[0] != KAWSARPA_FORMAT && memmem(octets->at, octets->count, key, strlen(key)) != NULL;
}

int table_read(const char *name, struct octets *table, uint64_t *fault)
{
    const int code = file_read(name, TABLE_READ_MOST, table);
    if (code == EXIT_DONE)
        *fault = kawsarpa_table_fault(table->at, table->count);
    return code;
}

int table_read_sound(const char *name, struct octets *table)
{
    uint64_t fault = 0;
    const int code = table_read(name, table, &fault);
    if (code != EXIT_DONE || fault == 0)
        return code;
    table_say_unsound(name, table, fault);
    free(table->at);
    return EXIT_INPUT;
}

void entry_prefix_text(const struct kawsarpa_entry *entry, char text[PREFIX_ROOM])
{
    char address[INET6_ADDRSTRLEN] = "";
    inet_ntop(AF_INET6, entry->prefix, address, sizeof address);
    snprintf(text, PREFIX_ROOM, "%s/%u", address, entry->prefix_length);
}

void rule_prefix_text(const struct kawsarpa_rule *rule, char text[PREFIX_ROOM])
{
    char address[INET_ADDRSTRLEN] = "";
    inet_ntop(AF_INET, rule->prefix, address, sizeof address);
    snprintf(text, PREFIX_ROOM, "%s/%u", address, rule->prefix_length);
}

struct record_words table_record_words(const struct table_records *records, unsigned int kind, unsigned int index)
{
    struct record_words words = {record_name(kind), index + 1, NULL, ""};
    if (kind == KAWSARPA_RECORD_ENTRY) {
        const struct word *behaviour = word_numbered(behaviours, records->entries[index].behaviour);
        words.behaviour = behaviour == NULL ? NULL : behaviour->name;
        entry_prefix_text(&records->entries[index], words.prefix);
    } else if (kind == KAWSARPA_RECORD_RULE) {
        words.behaviour = "H.M.GTP4.D";
        rule_prefix_text(&records->rules[index], words.prefix);
    }
    return words;
}

void table_json_record(struct json *json, const struct record_words *words)
{
    json_text(json, "kind", words->kind);
    json_number(json, "number", words->number);
    if (words->behaviour != NULL)
        json_text(json, "behaviour", words->behaviour);
    if (*words->prefix != 0)
        json_text(json, "prefix", words->prefix);
}

void table_json_counts(struct json *json, const struct table_records *records)
{
    json_number(json, "entries", records->entry_count);
    json_number(json, "rules", records->rule_count);
    json_number(json, "policies", records->policy_count);
}

static bool same_entry_prefix(const struct kawsarpa_entry *a, const struct kawsarpa_entry *b)
{
    return a->prefix_length == b->prefix_length && memcmp(a->prefix, b->prefix, sizeof a->prefix) == 0;
}

static bool same_rule_prefix(const struct kawsarpa_rule *a, const struct kawsarpa_rule *b)
{
    return a->prefix_length == b->prefix_length && memcmp(a->prefix, b->prefix, sizeof a->prefix) == 0;
}

unsigned int table_earlier(const struct table_records *records, unsigned int record, unsigned int index)
{
    for (unsigned int i = 0; i < index; i++)
        if (record == KAWSARPA_RECORD_ENTRY ? same_entry_prefix(&records->entries[i], &records->entries[index])
                                            : same_rule_prefix(&records->rules[i], &records->rules[index]))
            return i;
    return index;
}

bool fault_is_same_prefix(uint64_t fault)
{
    const unsigned int condition = kawsarpa_fault_condition(fault);
    switch (kawsarpa_fault_record(fault)) {
    case KAWSARPA_RECORD_ENTRY:
        return condition == KAWSARPA_FAULT_ENTRY_REPEATED;
    case KAWSARPA_RECORD_RULE:
        return condition == KAWSARPA_FAULT_RULE_REPEATED;
    default:
        return false;
    }
}

/* What is told of a header that is not sound. */
struct header_words {
    bool whole; /* else there are no counts */
    struct table_records counts;
    size_t size; /* of what is counted */
};

static struct header_words header_words(const struct octets *table)
{
    if (table->count < sizeof(struct kawsarpa_table_header))
        return (struct header_words){.whole = false};
    const struct table_records counts = table_records(table);
    return (struct header_words){
        true, counts, kawsarpa_table_size((uint16_t)counts.entry_count, (uint16_t)counts.rule_count, (uint16_t)counts.policy_count)};
}

static void say_header_fault(const char *name, const struct octets *table, const char *broken)
{
    const struct header_words header = header_words(table);
    if (!header.whole)
        say_error_at(name, 0, "not sound: %s (%zu octets are no header)", broken, table->count);
    else
        say_error_at(name, 0, "not sound: %s (format %u; entries %u, rules %u, policies %u, which take %zu octets; there are %zu)", broken,
                     table->at[0], header.counts.entry_count, header.counts.rule_count, header.counts.policy_count, header.size,
                     table->count);
}

static void json_header_fault(struct json *json, const struct octets *table)
{
    const struct header_words header = header_words(table);
    json_text(json, "kind", record_name(KAWSARPA_RECORD_HEADER));
    if (header.whole) {
        json_number(json, "format", table->at[0]);
        table_json_counts(json, &header.counts);
        json_number(json, "octets_needed", header.size);
    }
    json_number(json, "octets", table->count);
}

/* What is told of a fault: the record, and the earlier one with its prefix, from 1; 0 where the fault is another. */
struct fault_told {
    struct record_words record;
    unsigned int earlier;
};

static struct fault_told tell_fault(const struct octets *table, uint64_t fault)
{
    const struct table_records records = table_records(table);
    const unsigned int kind = kawsarpa_fault_record(fault);
    const unsigned int index = kawsarpa_fault_index(fault);
    const unsigned int earlier = fault_is_same_prefix(fault) ? table_earlier(&records, kind, index) + 1 : 0;
    return (struct fault_told){table_record_words(&records, kind, index), earlier};
}

static void say_record_fault(const char *name, const struct octets *table, uint64_t fault, const char *broken)
{
    const struct fault_told told = tell_fault(table, fault);
    const char *prefix = told.record.prefix;
    char earlier[32] = "";
    if (told.earlier != 0)
        snprintf(earlier, sizeof earlier, " (%s %u)", told.record.kind, told.earlier);
    say_error_at(name, 0, "not sound: %s %u%s%s: %s%s", told.record.kind, told.record.number, *prefix == 0 ? "" : " ", prefix, broken,
                 earlier);
}

static void json_record_fault(struct json *json, const struct octets *table, uint64_t fault)
{
    const struct fault_told told = tell_fault(table, fault);
    table_json_record(json, &told.record);
    if (told.earlier != 0)
        json_number(json, "earlier", told.earlier);
}

static const char *broken_words(uint64_t fault)
{
    const struct fault_words *words = fault_words(kawsarpa_fault_record(fault), kawsarpa_fault_condition(fault));
    return words == NULL ? "a condition that this program does not know" : words->broken;
}

static void say_fault(const char *name, const struct octets *table, uint64_t fault)
{
    if (kawsarpa_fault_record(fault) == KAWSARPA_RECORD_HEADER)
        say_header_fault(name, table, broken_words(fault));
    else
        say_record_fault(name, table, fault, broken_words(fault));
    say_error("fault %llu; `kawsarpa explain --fault %llu' says more", (unsigned long long)fault, (unsigned long long)fault);
}

void table_say_unsound(const char *name, const struct octets *table, uint64_t fault)
{
    const char *shown = file_shown_name(name, "standard input");
    if (is_description(table))
        say_error_at(shown, 0, "a description: compile it first, with `kawsarpa compile'");
    else
        say_fault(shown, table, fault);
}

static void json_fault(struct json *json, const struct octets *table, uint64_t fault)
{
    json_object(json, "fault");
    json_number(json, "number", fault);
    json_number(json, "condition", kawsarpa_fault_condition(fault));
    json_text(json, "broken", broken_words(fault));
    json_object(json, "record");
    if (kawsarpa_fault_record(fault) == KAWSARPA_RECORD_HEADER)
        json_header_fault(json, table);
    else
        json_record_fault(json, table, fault);
    json_close(json);
    json_close(json);
}

void table_json_unsound(struct json *json, const struct octets *table, uint64_t fault)
{
    const bool description = is_description(table);
    json_flag(json, "description", description);
    if (!description)
        json_fault(json, table, fault);
}
