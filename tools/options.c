#include "options.h"

#include <stddef.h>

static error_t parse(int key, __attribute__((unused)) char *value, struct argp_state *state)
{
    if (key != 'h')
        return ARGP_ERR_UNKNOWN;
    argp_state_help(state, state->out_stream, ARGP_HELP_STD_HELP);
    return 0;
}

/* Group -1 is that of --help. */
static const struct argp_option option_list[] = {
    {NULL, 'h', NULL, 0, "as --help", -1},
    {NULL, 0, NULL, 0, NULL, 0},
};

static const struct argp argp = {option_list, parse, NULL, NULL, NULL, NULL, NULL};

const struct argp_child shared_options[] = {{&argp, 0, NULL, 0}, {NULL, 0, NULL, 0}};

const char json_option_words[] = "print one JSON object in place of the text; kawsarpa(1) lists its members";

void options_exclude(struct argp_state *state, bool first_given, const char *first, bool second_given, const char *second)
{
    if (first_given && second_given)
        argp_error(state, "%s and %s cannot be had together", first, second);
}
