/* kawsarpa check: whether a table is sound, and what it does to the lengths of packets. */
#include <argp.h>
#include <stdarg.h>
#include <stdlib.h>
#include <string.h>

#include "commands.h"
#include "options.h"
#include "table.h"
#include "values.h"
#include "words.h"

enum { INNER = 1500, INNER_MOST = 65000 /* sent by every sound table: no length field passes 65,535 */ };

struct options {
    const char *table;
    unsigned int inner;
    bool json;
    bool quiet;
};

/* Options without a short name have numbers past those of characters. */
enum { OPTION_JSON = 256 };

static const struct argp_option option_list[] = {
    {"inner", 'i', "OCTETS", 0, "the length of the inner packet for which MTUs are told, instead of 1500", 0},
    {"json", OPTION_JSON, NULL, 0, json_option_words, 0},
    {"quiet", 'q', NULL, 0, "print nothing but faults; the exit code says whether the table is sound", 0},
    {NULL, 0, NULL, 0, NULL, 0},
};

static error_t parse(int key, char *argument, struct argp_state *state)
{
    struct options *options = state->input;
    switch (key) {
    case 'i':
        if (!number_read(argument, &options->inner) || options->inner > INNER_MOST)
            argp_error(state, "an inner packet has 0 to %d octets, not %s", INNER_MOST, argument);
        return 0;
    case OPTION_JSON:
        options->json = true;
        return 0;
    case 'q':
        options->quiet = true;
        return 0;
    case ARGP_KEY_ARG:
        if (options->table != NULL)
            argp_error(state, "one table is enough: %s", argument);
        options->table = argument;
        return 0;
    case ARGP_KEY_NO_ARGS:
        argp_error(state, "a table is needed");
        return 0;
    case ARGP_KEY_END:
        options_exclude(state, options->json, "--json", options->quiet, "--quiet");
        return 0;
    default:
        return ARGP_ERR_UNKNOWN;
    }
}

static const char help_text[] =
    "Says whether a table is sound, by the library; if not, which record breaks which condition. Of a sound table it prints by how many "
    "octets each entry and rule lengthens or shortens a packet, and the MTU that either side needs. TABLE may be `-'."
    "\vExit codes: 0 sound; 1 not sound; 2 wrong usage; 3 the system failed.";

static const struct argp argp = {option_list, parse, "TABLE", help_text, shared_options, NULL, NULL};

/* Octets around the inner packet. The container has one unit, as the gateway writes it; before translation there is no SRH. */
enum {
    GTPU = 8 + 8 + 4 + 4, /* UDP; GTP-U; its optional fields; the PDU Session container */
    OVER_IPV6 = 40 + GTPU,
    OVER_IPV4 = 20 + GTPU,
    SEGMENT = 16
};

static unsigned int srv6(unsigned int segments)
{
    return 40 + (segments == 0 ? 0 : 8 + SEGMENT * segments);
}

/* The length of the SRv6 packet; with a letter, and so many octets more for each of what it stands for. */
struct form {
    unsigned int srv6;
    unsigned int each;
    const char *letter; /* NULL: none */
};

/* What a record does to the length of a packet. End does nothing, and has no form. */
struct lengths {
    struct record_words record;
    bool to_srv6; /* else from it */
    unsigned int gtpu;
    struct form forms[2];
    size_t form_count;
};

/* All of them, and the largest SRv6 packet that the table sends; 0 where it sends none. */
struct list {
    unsigned int inner;
    struct lengths records[KAWSARPA_ENTRIES_MAX + KAWSARPA_RULES_MAX];
    size_t count;
    unsigned int largest;
};

static int change(const struct lengths *lengths, const struct form *form)
{
    return lengths->to_srv6 ? (int)form->srv6 - (int)lengths->gtpu : (int)lengths->gtpu - (int)form->srv6;
}

/* GTP-U in, SRv6 with this many segments out. */
static void fill_to_srv6(struct lengths *lengths, unsigned int inner, unsigned int before, unsigned int segments)
{
    lengths->to_srv6 = true;
    lengths->gtpu = inner + before;
    lengths->forms[lengths->form_count++] = (struct form){inner + srv6(segments), 0, NULL};
}

static void fill_entry(struct lengths *lengths, unsigned int inner, const struct table_records *records, unsigned int index)
{
    const struct kawsarpa_entry *entry = &records->entries[index];
    switch (entry->behaviour) {
    case KAWSARPA_BEHAVIOUR_END:
        break;
    case KAWSARPA_BEHAVIOUR_END_M_GTP6_D:
        fill_to_srv6(lengths, inner, OVER_IPV6, records->policies[entry->policy].sid_count);
        break;
    case KAWSARPA_BEHAVIOUR_END_M_GTP6_D_DI:
        fill_to_srv6(lengths, inner, OVER_IPV6, records->policies[entry->policy].sid_count + 1U);
        break;
    case KAWSARPA_BEHAVIOUR_END_M_GTP6_E: /* n + 1 segments arrive */
        lengths->gtpu = inner + OVER_IPV6;
        lengths->forms[lengths->form_count++] = (struct form){inner + srv6(1), SEGMENT, "n"};
        break;
    default: /* End.M.GTP4.E: w + 1 segments arrive, or no SRH */
        lengths->gtpu = inner + OVER_IPV4;
        lengths->forms[lengths->form_count++] = (struct form){inner + srv6(0), 0, NULL};
        lengths->forms[lengths->form_count++] = (struct form){inner + srv6(1), SEGMENT, "w"};
        break;
    }
}

static void fill_rule(struct lengths *lengths, unsigned int inner, const struct kawsarpa_rule *rule)
{
    fill_to_srv6(lengths, inner, OVER_IPV4, rule->waypoint_count == 0 ? 0 : rule->waypoint_count + 1U);
}

static void add_record(struct list *list, const struct table_records *records, unsigned int kind, unsigned int index)
{
    struct lengths *lengths = &list->records[list->count++];
    *lengths = (struct lengths){.record = table_record_words(records, kind, index)};
    if (kind == KAWSARPA_RECORD_ENTRY)
        fill_entry(lengths, list->inner, records, index);
    else
        fill_rule(lengths, list->inner, &records->rules[index]);
    if (lengths->to_srv6 && lengths->forms[0].srv6 > list->largest)
        list->largest = lengths->forms[0].srv6;
}

static struct list make_list(const struct table_records *records, unsigned int inner)
{
    struct list list = {.inner = inner};
    for (unsigned int i = 0; i < records->entry_count; i++)
        add_record(&list, records, KAWSARPA_RECORD_ENTRY, i);
    for (unsigned int i = 0; i < records->rule_count; i++)
        add_record(&list, records, KAWSARPA_RECORD_RULE, i);
    return list;
}

struct line {
    char record[24];
    const char *behaviour;
    const char *prefix;
    char change[32];
    char gtpu[16];
    char srv6[48];
};

static void print_line(int prefix_width, const struct line *line)
{
    printf("%-9s %-16s %-*s  %-12s %-6s %s\n", line->record, line->behaviour, prefix_width, line->prefix, line->change, line->gtpu,
           line->srv6);
}

/* Adds to a text that ends in its room. */
__attribute__((format(printf, 3, 4))) static void append(char *text, size_t room, const char *format, ...)
{
    const size_t length = strlen(text);
    va_list arguments;
    va_start(arguments, format);
    vsnprintf(text + length, room - length, format, arguments);
    va_end(arguments);
}

/* "+48" and "1612"; "-16n" and "1564 + 16n"; behind another form, with a comma. */
static void append_form(struct line *line, const struct lengths *lengths, const struct form *form)
{
    const int octets = change(lengths, form);
    const char *comma = line->change[0] == 0 ? "" : ", ";
    append(line->change, sizeof line->change, "%s", comma);
    if (octets != 0)
        append(line->change, sizeof line->change, "%+d", octets);
    else if (form->letter == NULL)
        append(line->change, sizeof line->change, "0");
    append(line->srv6, sizeof line->srv6, "%s%u", comma, form->srv6);
    if (form->letter != NULL) {
        append(line->change, sizeof line->change, "-%u%s", form->each, form->letter);
        append(line->srv6, sizeof line->srv6, " + %u%s", form->each, form->letter);
    }
}

static void print_lengths(int prefix_width, const struct lengths *lengths)
{
    struct line line = {.behaviour = lengths->record.behaviour, .prefix = lengths->record.prefix};
    snprintf(line.record, sizeof line.record, "%s %u", lengths->record.kind, lengths->record.number);
    if (lengths->form_count == 0) {
        snprintf(line.change, sizeof line.change, "0");
        snprintf(line.gtpu, sizeof line.gtpu, "-");
        snprintf(line.srv6, sizeof line.srv6, "as it arrives");
    } else
        snprintf(line.gtpu, sizeof line.gtpu, "%u", lengths->gtpu);
    for (size_t i = 0; i < lengths->form_count; i++)
        append_form(&line, lengths, &lengths->forms[i]);
    print_line(prefix_width, &line);
}

static int prefix_width(const struct list *list)
{
    size_t width = strlen("prefix");
    for (size_t i = 0; i < list->count; i++)
        width = strlen(list->records[i].record.prefix) > width ? strlen(list->records[i].record.prefix) : width;
    return (int)width;
}

static bool has_letter(const struct list *list, char letter)
{
    for (size_t i = 0; i < list->count; i++)
        for (size_t form = 0; form < list->records[i].form_count; form++)
            if (list->records[i].forms[form].letter != NULL && list->records[i].forms[form].letter[0] == letter)
                return true;
    return false;
}

static void print_legend(const struct list *list)
{
    printf("Octets that a packet gains or loses, and the MTU that either side needs, for an inner packet of %u octets and a PDU Session\n"
           "container of one unit.\n",
           list->inner);
    if (has_letter(list, 'n'))
        puts("n: SIDs of the policy with which End.M.GTP6.D.Di sent the packet.");
    if (has_letter(list, 'w'))
        puts("w: waypoints of the rule with which H.M.GTP4.D sent the packet, 1 or more; before the comma, for none.");
    if (list->largest != 0)
        printf("The SRv6 path needs an MTU of %u for what this table sends.\n", list->largest);
}

static void print_list(const struct list *list)
{
    const struct line head = {"record", "behaviour", "prefix", "octets", "GTP-U", "SRv6"};
    const int width = prefix_width(list);
    print_line(width, &head);
    for (size_t i = 0; i < list->count; i++)
        print_lengths(width, &list->records[i]);
    print_legend(list);
}

static void print_count(unsigned int count, const char *one, const char *many, const char *end)
{
    printf("%u %s%s", count, count == 1 ? one : many, end);
}

static void print_sound(const struct options *options, const struct octets *table)
{
    const struct table_records records = table_records(table);
    const struct list list = make_list(&records, options->inner);
    printf("%s: sound: ", file_shown_name(options->table, "standard input"));
    print_count(records.entry_count, "entry", "entries", ", ");
    print_count(records.rule_count, "rule", "rules", ", ");
    print_count(records.policy_count, "policy", "policies", "\n");
    if (list.count != 0)
        print_list(&list);
}

static void json_form(struct json *json, const struct lengths *lengths, const struct form *form)
{
    json_object(json, NULL);
    json_signed(json, "octets", change(lengths, form));
    json_number(json, "srv6", form->srv6);
    if (form->letter != NULL) {
        json_text(json, "letter", form->letter);
        json_signed(json, "octets_each", -(int)form->each);
        json_number(json, "srv6_each", form->each);
    }
    json_close(json);
}

static void json_lengths(struct json *json, const struct lengths *lengths)
{
    json_object(json, NULL);
    table_json_record(json, &lengths->record);
    if (lengths->form_count != 0)
        json_number(json, "gtpu", lengths->gtpu);
    json_array(json, "lengths");
    for (size_t i = 0; i < lengths->form_count; i++)
        json_form(json, lengths, &lengths->forms[i]);
    json_close(json);
    json_close(json);
}

static void json_sound(struct json *json, const struct octets *table, unsigned int inner)
{
    const struct table_records records = table_records(table);
    const struct list list = make_list(&records, inner);
    table_json_counts(json, &records);
    json_number(json, "inner", inner);
    json_array(json, "records");
    for (size_t i = 0; i < list.count; i++)
        json_lengths(json, &list.records[i]);
    json_close(json);
    if (list.largest != 0)
        json_number(json, "mtu", list.largest);
}

static void json_table(const struct options *options, const struct octets *table, uint64_t fault)
{
    struct json json;
    json_begin(&json, stdout, "check");
    json_text(&json, "table", file_shown_name(options->table, "standard input"));
    json_flag(&json, "sound", fault == 0);
    if (fault == 0)
        json_sound(&json, table, options->inner);
    else
        table_json_unsound(&json, table, fault);
    json_end(&json);
}

int command_check(int argc, char **argv)
{
    struct options options = {.inner = INNER};
    struct octets table;
    uint64_t fault = 0;
    argp_parse(&argp, argc, argv, 0, NULL, &options);
    const int code = table_read(options.table, &table, &fault);
    if (code != EXIT_DONE)
        return code;
    if (fault != 0)
        table_say_unsound(options.table, &table, fault);
    if (options.json)
        json_table(&options, &table, fault);
    else if (fault == 0 && !options.quiet)
        print_sound(&options, &table);
    free(table.at);
    return fault == 0 ? EXIT_DONE : EXIT_INPUT;
}
