/* kawsarpa show: the description of a table. */
#include <argp.h>
#include <arpa/inet.h>
#include <stdarg.h>
#include <stdlib.h>
#include <string.h>

#include "build.h"
#include "commands.h"
#include "options.h"
#include "say.h"
#include "table.h"
#include "words.h"

static error_t parse(int key, char *argument, struct argp_state *state)
{
    const char **table = state->input;
    switch (key) {
    case ARGP_KEY_ARG:
        if (*table != NULL)
            argp_error(state, "one table is enough: %s", argument);
        *table = argument;
        return 0;
    case ARGP_KEY_NO_ARGS:
        argp_error(state, "a table is needed");
        return 0;
    default:
        return ARGP_ERR_UNKNOWN;
    }
}

static const char help_text[] =
    "Prints the description of a sound table as YAML, see kawsarpa-table(5). A table holds no names: records are called waypoint-1, "
    "policy-1, entry-1, rule-1 and so on. `kawsarpa compile' makes the same octets of it, if it made the table. TABLE may be `-'."
    "\vExit codes: 0 printed; 1 the table is not sound; 2 wrong usage; 3 the system failed.";

static const struct argp argp = {NULL, parse, "TABLE", help_text, shared_options, NULL, NULL};

__attribute__((format(printf, 1, 2))) static char *text(const char *format, ...)
{
    char *made = NULL;
    va_list arguments;
    va_start(arguments, format);
    const int length = vasprintf(&made, format, arguments);
    va_end(arguments);
    if (length < 0)
        say_no_memory();
    return made;
}

static char *number_text(unsigned int number)
{
    return text("%u", number);
}

/* Of a sound table: the number has a word. */
static char *word_text(const struct word *list, unsigned int number)
{
    return text("%s", word_numbered(list, number)->name);
}

static char *address_text(const uint8_t address[16])
{
    char made[INET6_ADDRSTRLEN] = "";
    inet_ntop(AF_INET6, address, made, sizeof made);
    return text("%s", made);
}

/* Room for a list; none for an empty one. */
static void *list_of(unsigned int count, size_t size)
{
    void *list = count == 0 ? NULL : calloc(count, size);
    if (count != 0 && list == NULL)
        say_no_memory();
    return list;
}

/* The name of the waypoint at an address, which becomes one where it is not yet. */
static char *waypoint_text(struct description *description, const uint8_t address[16])
{
    char *wanted = address_text(address);
    unsigned int i = 0;
    while (i < description->waypoints_count && strcmp(description->waypoints[i].address, wanted) != 0)
        i++;
    if (i < description->waypoints_count)
        free(wanted);
    else {
        description->waypoints[i] = (struct waypoint_description){text("waypoint-%u", i + 1), wanted};
        description->waypoints_count++;
    }
    return text("%s", description->waypoints[i].name);
}

static char **waypoints_text(struct description *description, const uint8_t addresses[][16], unsigned int count)
{
    char **names = list_of(count, sizeof *names);
    for (unsigned int i = 0; i < count; i++)
        names[i] = waypoint_text(description, addresses[i]);
    return names;
}

static void show_policy(struct description *description, unsigned int index, const struct kawsarpa_policy *policy)
{
    struct policy_description *to = &description->policies[index];
    const unsigned int last = policy->sid_count - 1U;
    to->name = text("policy-%u", index + 1);
    to->waypoints = waypoints_text(description, policy->sids, last);
    to->waypoints_count = last;
    to->last_sid = address_text(policy->sids[last]);
    to->args_octet = number_text(policy->args_start / 8U);
}

static bool is_zero(const uint8_t *octets, size_t count)
{
    for (size_t i = 0; i < count; i++)
        if (octets[i] != 0)
            return false;
    return true;
}

/* What all behaviours but End use. */
static void show_session(struct entry_description *to, const struct kawsarpa_entry *entry)
{
    to->direction = word_text(directions, entry->direction);
    to->session_type = word_text(session_types, entry->session_type);
}

static void show_source(struct entry_description *to, const struct kawsarpa_entry *entry)
{
    to->source = address_text(entry->source);
}

static void show_source_port(struct entry_description *to, const struct kawsarpa_entry *entry)
{
    to->source_port = number_text((unsigned int)entry->source_port[0] << 8 | entry->source_port[1]);
}

static void show_entry(struct description *description, unsigned int index, const struct kawsarpa_entry *entry)
{
    struct entry_description *to = &description->entries[index];
    char prefix[PREFIX_ROOM];
    entry_prefix_text(entry, prefix);
    to->name = text("entry-%u", index + 1);
    to->behaviour = word_text(behaviours, entry->behaviour);
    to->prefix = text("%s", prefix);
    to->hop_limit = number_text(entry->hop_limit);
    switch (entry->behaviour) {
    case KAWSARPA_BEHAVIOUR_END:
        if (!is_zero(entry->source, sizeof entry->source))
            show_source(to, entry);
        break;
    case KAWSARPA_BEHAVIOUR_END_M_GTP6_E:
        show_source(to, entry);
        show_session(to, entry);
        to->args_octet = number_text(entry->args_start / 8U);
        show_source_port(to, entry);
        break;
    case KAWSARPA_BEHAVIOUR_END_M_GTP4_E:
        if (!is_zero(entry->source, sizeof entry->source))
            show_source(to, entry);
        show_session(to, entry);
        to->p = number_text(entry->p);
        to->q = number_text(entry->q);
        show_source_port(to, entry);
        break;
    default: /* End.M.GTP6.D and End.M.GTP6.D.Di */
        show_source(to, entry);
        show_session(to, entry);
        to->policy = text("policy-%u", entry->policy + 1U);
        if (entry->zero_checksum != KAWSARPA_ZERO_CHECKSUM_REFUSE) /* which holds without a word */
            to->zero_checksum = word_text(zero_checksums, entry->zero_checksum);
        break;
    }
}

static void show_rule(struct description *description, unsigned int index, const struct kawsarpa_rule *rule)
{
    struct rule_description *to = &description->rules[index];
    char prefix[PREFIX_ROOM];
    rule_prefix_text(rule, prefix);
    to->name = text("rule-%u", index + 1);
    to->prefix = text("%s", prefix);
    to->hop_limit = number_text(rule->hop_limit);
    to->direction = word_text(directions, rule->direction);
    to->session_type = word_text(session_types, rule->session_type);
    to->p = number_text(rule->p);
    to->q = number_text(rule->q);
    to->sid_prefix = address_text(rule->sid_prefix);
    to->source_prefix = address_text(rule->source_prefix);
    to->waypoints = waypoints_text(description, rule->waypoints, rule->waypoint_count);
    to->waypoints_count = rule->waypoint_count;
}

static struct description *describe(const struct octets *table)
{
    const struct table_records records = table_records(table);
    struct description *description = list_of(1, sizeof *description);
    description->format = number_text(KAWSARPA_FORMAT);
    description->waypoints = list_of(DESCRIPTION_WAYPOINTS_MAX, sizeof *description->waypoints);
    description->policies = list_of(records.policy_count, sizeof *description->policies);
    description->policies_count = records.policy_count;
    description->entries = list_of(records.entry_count, sizeof *description->entries);
    description->entries_count = records.entry_count;
    description->rules = list_of(records.rule_count, sizeof *description->rules);
    description->rules_count = records.rule_count;
    for (unsigned int i = 0; i < records.policy_count; i++)
        show_policy(description, i, &records.policies[i]);
    for (unsigned int i = 0; i < records.entry_count; i++)
        show_entry(description, i, &records.entries[i]);
    for (unsigned int i = 0; i < records.rule_count; i++)
        show_rule(description, i, &records.rules[i]);
    if (description->waypoints_count == 0) {
        free(description->waypoints);
        description->waypoints = NULL;
    }
    return description;
}

/* Whether compile would make the same octets. */
static bool is_compiled(const struct description *description, const struct octets *table, const char *name)
{
    const struct text_source source = {name, NULL};
    struct built built;
    if (!build_table(description, &source, &built))
        return false;
    const bool same = built.table.count == table->count && memcmp(built.table.at, table->at, table->count) == 0;
    free(built.table.at);
    return same;
}

int command_show(int argc, char **argv)
{
    const char *name = NULL;
    struct octets table;
    argp_parse(&argp, argc, argv, 0, NULL, &name);
    const int code = table_read_sound(name, &table);
    if (code != EXIT_DONE)
        return code;
    struct description *description = describe(&table);
    const struct octets shown = description_save(description);
    if (!is_compiled(description, &table, name))
        fputs("# Compiling this gives a table that answers the same, with other octets: it stands in another order, or has octets that\n"
              "# are never examined.\n",
              stdout);
    fwrite(shown.at, 1, shown.count, stdout);
    free(shown.at);
    description_free(description);
    free(table.at);
    return EXIT_DONE;
}
