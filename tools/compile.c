/* kawsarpa compile: the octets of a table, made of its description. */
#include <argp.h>
#include <stdlib.h>

#include "build.h"
#include "commands.h"
#include "file.h"
#include "options.h"
#include "table.h"
#include "values.h"

/* Far more than the largest table takes, with comments; and no endless input. */
enum { DESCRIPTION_MOST = 1 << 20 };

struct options {
    const char *description;
    const char *table;
};

static const struct argp_option option_list[] = {
    {"output", 'o', "TABLE", 0, "the file to write", 0},
    {NULL, 0, NULL, 0, NULL, 0},
};

static error_t parse(int key, char *argument, struct argp_state *state)
{
    struct options *options = state->input;
    switch (key) {
    case 'o':
        options->table = argument;
        return 0;
    case ARGP_KEY_ARG:
        if (options->description != NULL)
            argp_error(state, "one description is enough: %s", argument);
        options->description = argument;
        return 0;
    case ARGP_KEY_END:
        if (options->description == NULL || options->table == NULL)
            argp_error(state, "a description and -o TABLE are needed");
        return 0;
    default:
        return ARGP_ERR_UNKNOWN;
    }
}

static const char help_text[] =
    "Makes a table of its description in YAML, see kawsarpa-table(5). The table is written only if the library finds it sound; entries and "
    "rules stand in it in the order of their prefixes. DESCRIPTION and TABLE may be `-'. TABLE may not be DESCRIPTION."
    "\vExit codes: 0 written; 1 the description is bad, or its table not sound; 2 wrong usage; 3 the system failed.";

static const struct argp argp = {option_list, parse, "DESCRIPTION -o TABLE", help_text, shared_options, NULL, NULL};

/* The record of the description that a record of the table was made of. */
static struct record_place place_of(const struct description *description, const struct text_source *source, const struct built *built,
                                    unsigned int record, unsigned int index)
{
    if (record == KAWSARPA_RECORD_ENTRY) {
        const unsigned int from = built->entry_from[index];
        return (struct record_place){source, "entries", "entry", from, description->entries[from].name};
    }
    if (record == KAWSARPA_RECORD_RULE) {
        const unsigned int from = built->rule_from[index];
        return (struct record_place){source, "rules", "rule", from, description->rules[from].name};
    }
    if (record == KAWSARPA_RECORD_POLICY)
        return (struct record_place){source, "policies", "policy", index, description->policies[index].name};
    return (struct record_place){source, NULL, NULL, 0, NULL};
}

/* Of an entry or rule whose prefix an earlier one has: which one that is. */
static void name_earlier(const struct description *description, const struct text_source *source, const struct built *built, uint64_t fault,
                         char *text, size_t room)
{
    const struct table_records records = table_records(&built->table);
    const unsigned int record = kawsarpa_fault_record(fault);
    const unsigned int earlier = table_earlier(&records, record, kawsarpa_fault_index(fault));
    snprintf(text, room, ": \"%s\"", place_of(description, source, built, record, earlier).name);
}

static void say_fault(const struct description *description, const struct text_source *source, const struct built *built, uint64_t fault)
{
    const unsigned int record = kawsarpa_fault_record(fault);
    const struct record_place place = place_of(description, source, built, record, kawsarpa_fault_index(fault));
    const struct fault_words *words = fault_words(record, kawsarpa_fault_condition(fault));
    char earlier[80] = "";
    if (fault_is_same_prefix(fault))
        name_earlier(description, source, built, fault, earlier, sizeof earlier);
    value_refused(&place, words == NULL ? NULL : words->field, "not sound: %s%s (number %u of the %s)",
                  words == NULL ? "a condition that this program does not know" : words->broken, earlier, place.index + 1,
                  place.list == NULL ? "table" : place.list);
}

static int write_table(const char *name, const struct octets *table)
{
    struct output output;
    const int code = output_open(&output, name);
    if (code != EXIT_DONE)
        return code;
    fwrite(table->at, 1, table->count, output.file);
    return output_commit(&output);
}

static int judge_and_write(const struct description *description, const struct text_source *source, const struct built *built,
                           const char *name)
{
    const uint64_t fault = kawsarpa_table_fault(built->table.at, built->table.count);
    if (fault == 0)
        return write_table(name, &built->table);
    say_fault(description, source, built, fault);
    return EXIT_INPUT;
}

static int compile(const struct text_source *source, const struct octets *text, const char *name)
{
    struct description *description = description_load(source->file, text, source->marks);
    struct built built;
    int code = EXIT_INPUT;
    if (description == NULL)
        return EXIT_INPUT;
    if (build_table(description, source, &built)) {
        code = judge_and_write(description, source, &built, name);
        free(built.table.at);
    }
    description_free(description);
    return code;
}

int command_compile(int argc, char **argv)
{
    struct options options = {NULL, NULL};
    struct octets text;
    struct marks marks;
    argp_parse(&argp, argc, argv, 0, NULL, &options);
    if (output_is_input(options.table, options.description, "the description"))
        return EXIT_USAGE;
    int code = file_read(options.description, DESCRIPTION_MOST, &text);
    if (code != EXIT_DONE)
        return code;
    const struct text_source source = {file_shown_name(options.description, "standard input"), &marks};
    code = EXIT_INPUT;
    if (marks_read(&marks, source.file, &text)) {
        code = compile(&source, &text, options.table);
        marks_free(&marks);
    }
    free(text.at);
    return code;
}
