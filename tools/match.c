/* kawsarpa match: whether the tables of two gateways and of the waypoints between them belong together. */
#include <argp.h>
#include <stdbool.h>
#include <stdio.h>
#include <string.h>

#include "commands.h"
#include "fit.h"
#include "kawsarpa.h"
#include "options.h"
#include "stop.h"

/* As many as the waypoints that two tables can name. */
enum { VIAS_MAX = 2 * KAWSARPA_WAYPOINTS_MAX * (KAWSARPA_POLICIES_MAX + KAWSARPA_RULES_MAX) };

struct arguments {
    const char *near;
    const char *vias[VIAS_MAX];
    size_t via_count;
    const char *far;
    bool both;
    bool json;
    bool quiet;
};

/* The tables that are loaded: near, far, then those of the waypoints. */
struct tables {
    struct stop stops[2 + VIAS_MAX];
    size_t count;
};

static int add_table(struct tables *tables, const char *name)
{
    const int code = stop_load(&tables->stops[tables->count], name);
    if (code == EXIT_DONE)
        tables->count++;
    return code;
}

static int add_tables(struct tables *tables, const struct arguments *arguments)
{
    int code = add_table(tables, arguments->near);
    if (code == EXIT_DONE)
        code = add_table(tables, arguments->far);
    for (size_t i = 0; code == EXIT_DONE && i < arguments->via_count; i++)
        code = add_table(tables, arguments->vias[i]);
    return code;
}

/* What is said: one way or both, and the sums of them. */
struct report {
    struct fit_way ways[2];
    struct fit fits[2];
    size_t count;
    unsigned int fitting, asked, waypoints_only;
};

static void add_way(struct report *report, const struct fit_way *way)
{
    const struct fit fit = fit_judge(way);
    report->ways[report->count] = *way;
    report->fits[report->count] = fit;
    report->count++;
    report->fitting += fit.fitting;
    report->asked += fit.asked;
    report->waypoints_only += fit.waypoints_only;
}

static struct report make_report(const struct tables *tables, bool both)
{
    const struct stop *vias = &tables->stops[2];
    const struct fit_way way = {&tables->stops[0], vias, tables->count - 2, &tables->stops[1], false};
    const struct fit_way way_back = {way.far, vias, way.via_count, way.near, false};
    struct report report = {.count = 0};
    add_way(&report, &way);
    if (both)
        add_way(&report, &way_back);
    return report;
}

static void say_way(FILE *to, const struct fit_way *way, const struct fit *fit)
{
    fprintf(to, "from %s to %s:\n", way->near->name, way->far->name);
    for (unsigned int i = 0; i < fit->record_count; i++)
        fit_say_record(to, way, &fit->records[i]);
    if (fit->record_count == 0)
        fprintf(to, "  nothing to check: %s has no End.M.GTP6.D.Di entry and no rule\n", way->near->name);
}

static void say_summary(FILE *to, const struct report *report)
{
    fprintf(to, "%u of %u fit", report->fitting, report->asked);
    for (size_t i = 0; report->count > 1 && i < report->count; i++)
        fprintf(to, "%s%u of %u from %s to %s", i == 0 ? ": " : ", ", report->fits[i].fitting, report->fits[i].asked,
                report->ways[i].near->name, report->ways[i].far->name);
    if (report->waypoints_only != 0)
        fprintf(to, "; of %u End.M.GTP6.D %s only the waypoints are checked", report->waypoints_only,
                report->waypoints_only == 1 ? "entry" : "entries");
    fputc('\n', to);
}

static void say_report(FILE *to, const struct report *report)
{
    for (size_t i = 0; i < report->count; i++)
        say_way(to, &report->ways[i], &report->fits[i]);
    say_summary(to, report);
}

static void json_report(FILE *to, const struct report *report)
{
    struct json json;
    json_begin(&json, to, "match");
    json_array(&json, "ways");
    for (size_t i = 0; i < report->count; i++)
        fit_json(&json, NULL, &report->ways[i], &report->fits[i]);
    json_close(&json);
    fit_json_counts(&json, report->fitting, report->asked, report->waypoints_only);
    json_end(&json);
}

/* The exit code. */
static int match(const struct arguments *arguments, const struct tables *tables)
{
    const struct report report = make_report(tables, arguments->both);
    (arguments->json ? json_report : say_report)(arguments->quiet ? output_nowhere() : stdout, &report);
    return report.fitting == report.asked ? EXIT_DONE : EXIT_INPUT;
}

static bool input_taken(const struct arguments *arguments)
{
    const char *inputs[2 + VIAS_MAX] = {arguments->near, arguments->far};
    memcpy(inputs + 2, arguments->vias, arguments->via_count * sizeof inputs[0]);
    return file_standard_twice(inputs, 2 + arguments->via_count);
}

static void set_once(struct argp_state *state, const char **name, const char *value, const char *option)
{
    if (*name != NULL)
        argp_error(state, "one %s table is enough: %s", option, value);
    *name = value;
}

static void add_via(struct argp_state *state, struct arguments *arguments, const char *value)
{
    if (arguments->via_count == VIAS_MAX)
        argp_error(state, "at most %d --via tables: two tables name no more waypoints", VIAS_MAX);
    arguments->vias[arguments->via_count++] = value;
}

/* Options without a short name have numbers past those of characters. */
enum { OPTION_NEAR = 256, OPTION_VIA, OPTION_FAR, OPTION_BOTH, OPTION_JSON };

static error_t parse(int key, char *value, struct argp_state *state)
{
    struct arguments *arguments = state->input;
    switch (key) {
    case OPTION_NEAR:
        set_once(state, &arguments->near, value, "--near");
        return 0;
    case OPTION_VIA:
        add_via(state, arguments, value);
        return 0;
    case OPTION_FAR:
        set_once(state, &arguments->far, value, "--far");
        return 0;
    case OPTION_BOTH:
        arguments->both = true;
        return 0;
    case OPTION_JSON:
        arguments->json = true;
        return 0;
    case 'q':
        arguments->quiet = true;
        return 0;
    case ARGP_KEY_ARG:
        argp_error(state, "tables stand behind --near, --via and --far: %s", value);
        return 0;
    case ARGP_KEY_END:
        if (arguments->near == NULL || arguments->far == NULL)
            argp_error(state, "--near and --far are needed");
        options_exclude(state, arguments->json, "--json", arguments->quiet, "--quiet");
        return 0;
    default:
        return ARGP_ERR_UNKNOWN;
    }
}

static const struct argp_option option_list[] = {
    {"near", OPTION_NEAR, "TABLE", 0, "the table of the gateway where packets go in", 0},
    {"via", OPTION_VIA, "TABLE", 0, "the table of a waypoint; given once for each, in any order", 0},
    {"far", OPTION_FAR, "TABLE", 0, "the table of the gateway where packets come out", 0},
    {"both", OPTION_BOTH, NULL, 0, "check the way back as well, from the far gateway to the near one", 0},
    {"json", OPTION_JSON, NULL, 0, json_option_words, 0},
    {"quiet", 'q', NULL, 0, "print nothing but faults; the exit code says whether all fit", 0},
    {NULL, 0, NULL, 0, NULL, 0},
};

static const char words[] =
    "Says of each entry and rule of the near table that sends packets on whether it fits the far table and the tables of its waypoints: by "
    "the library, from the tables alone, without a packet. Where one does not, it names both records, the condition that fails and both "
    "values. Each waypoint has to be matched by an End entry of one of the --via tables. A TABLE may be `-'."
    "\vEnd.M.GTP6.D has no far end in the tables: only its waypoints are checked. A waypoint does not fit where no --via table is given. "
    "A near table that sends nothing on has nothing to check: that is said, and counts as fitting. `kawsarpa explain --match NUMBER' says "
    "more of a condition.\n"
    "\n"
    "Whether a near entry allows UDP checksum 0 is no matter, since what is sent has the true one; where it does, and fits, its line says "
    "so.\n"
    "\n"
    "Exit codes: 0 all fit, or there is nothing to check; 1 one does not fit, or a table is not sound; 2 wrong usage; 3 the system failed.";

static const struct argp argp = {option_list, parse, "--near TABLE [--via TABLE]... --far TABLE", words, shared_options, NULL, NULL};

int command_match(int argc, char **argv)
{
    struct arguments arguments = {.via_count = 0};
    struct tables tables = {.count = 0};
    argp_parse(&argp, argc, argv, 0, NULL, &arguments);
    if (input_taken(&arguments))
        return EXIT_USAGE;
    int code = add_tables(&tables, &arguments);
    if (code == EXIT_DONE)
        code = match(&arguments, &tables);
    for (size_t i = 0; i < tables.count; i++)
        stop_free(&tables.stops[i]);
    return code;
}
