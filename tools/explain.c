/* kawsarpa explain: what a number of the library means, and what to look at on site. */
#include <argp.h>
#include <errno.h>
#include <stdbool.h>
#include <stdlib.h>
#include <string.h>

#include "commands.h"
#include "kawsarpa.h"
#include "options.h"
#include "say.h"
#include "words.h"

struct options {
    bool fault;
    bool match;
    const char *number;
};

static const struct argp_option option_list[] = {
    {"fault", 'f', NULL, 0, "NUMBER is a table's fault, as `kawsarpa check' prints it and kawsarpa_table_fault gives it", 0},
    {"match", 'm', NULL, 0, "NUMBER is a mismatch of tables, as `kawsarpa match' prints it and kawsarpa_match_ipv6 gives it", 0},
    {NULL, 0, NULL, 0, NULL, 0},
};

static error_t parse(int key, char *argument, struct argp_state *state)
{
    struct options *options = state->input;
    switch (key) {
    case 'f':
        options->fault = true;
        return 0;
    case 'm':
        options->match = true;
        return 0;
    case ARGP_KEY_ARG:
        if (options->number != NULL)
            argp_error(state, "one number is enough: %s", argument);
        options->number = argument;
        return 0;
    case ARGP_KEY_NO_ARGS:
        argp_error(state, "a number is needed");
        return 0;
    case ARGP_KEY_END:
        if (options->fault && options->match)
            argp_error(state, "a number is a fault or a mismatch, not both");
        return 0;
    default:
        return ARGP_ERR_UNKNOWN;
    }
}

static const char help_text[] =
    "Says what an answer (0 to 19, 25 or 26) means, what it is likely to come from, and what to do next; with --fault, what is wrong with "
    "a table; with --match, why tables do not fit. NUMBER is decimal, or hexadecimal behind 0x."
    "\vExit codes: 0 explained; 1 there is no such number; 2 wrong usage; 3 the system failed.";

static const struct argp argp = {option_list, parse, "NUMBER", help_text, shared_options, NULL, NULL};

static bool read_number(const char *text, unsigned long long *number)
{
    const bool hexadecimal = text[0] == '0' && (text[1] == 'x' || text[1] == 'X');
    const char *digits = hexadecimal ? text + 2 : text;
    char *end = NULL;
    errno = 0;
    *number = strtoull(digits, &end, hexadecimal ? 16 : 10);
    return errno == 0 && end != digits && *end == 0 && digits[0] != '-' && digits[0] != '+' && digits[0] != ' ' &&
           !(hexadecimal && (digits[1] == 'x' || digits[1] == 'X'));
}

enum { INDENT = 12, WIDTH = 100 };

/* A heading, and words behind it on as many lines as they take. */
static void print_words(const char *heading, const char *text)
{
    size_t column = (size_t)printf("%-*s", INDENT - 1, heading);
    while (*text != 0) {
        const size_t length = strcspn(text, " ");
        if (column + 1 + length > WIDTH)
            column = (size_t)printf("\n%*s", INDENT - 1, "") - 1;
        column += (size_t)printf(" %.*s", (int)length, text);
        text += length;
        text += *text == ' ';
    }
    putchar('\n');
}

static int explain_answer(const char *text, unsigned long long number)
{
    const struct answer_words *answer = answer_words(number);
    if (answer == NULL) {
        say_error("%s is no answer: answers are 0 to %d, %d and %d", text, KAWSARPA_ANSWER_BAD_BURST, KAWSARPA_ANSWER_NO_ROW,
                  KAWSARPA_ANSWER_ROW_FULL);
        return EXIT_INPUT;
    }
    printf("%llu: %s\n", number, kawsarpa_answer_name((unsigned int)number));
    print_words("Given when:", answer->given_when);
    print_words("ICMPv6:", answer->icmp == NULL ? "none" : answer->icmp);
    print_words("Likely:", answer->likely);
    print_words("Next step:", answer->next);
    return EXIT_DONE;
}

static int explain_fault(const char *text, unsigned long long fault)
{
    const unsigned int record = kawsarpa_fault_record(fault);
    const unsigned int condition = kawsarpa_fault_condition(fault);
    const unsigned int index = kawsarpa_fault_index(fault);
    const struct fault_words *broken = fault_words(record, condition);
    if (fault == 0) {
        puts("0: the table is sound");
        return EXIT_DONE;
    }
    if (broken == NULL || fault >> 32 != 0) {
        say_error("%s is no fault of a table: a fault is condition + 256 * record + 65536 * number, as `kawsarpa check' prints it", text);
        return EXIT_INPUT;
    }
    if (record == KAWSARPA_RECORD_HEADER)
        printf("%llu: the header, condition %u\n", fault, condition);
    else
        printf("%llu: %s %u (from 1), condition %u\n", fault, record_name(record), index + 1, condition);
    print_words("Broken:", broken->broken);
    print_words("Next step:", broken->next);
    return EXIT_DONE;
}

/* The library names an entry with some conditions; the number of a condition alone will do for each. */
static int explain_mismatch(const char *text, unsigned long long mismatch)
{
    const unsigned int condition = kawsarpa_mismatch_condition(mismatch);
    const bool entry = kawsarpa_mismatch_record(mismatch) == KAWSARPA_RECORD_ENTRY;
    const struct mismatch_words *failing = mismatch_words(condition);
    if (mismatch == 0) {
        puts("0: the tables fit");
        return EXIT_DONE;
    }
    if (failing == NULL || mismatch >> 32 != 0 || (!entry && mismatch >> 8 != 0)) {
        say_error("%s is no mismatch of tables: conditions are %d to %d, as `kawsarpa match' prints them", text,
                  KAWSARPA_MISMATCH_NEAR_UNSOUND, KAWSARPA_MISMATCH_WAYPOINT_KIND);
        return EXIT_INPUT;
    }
    printf("%llu: %s", mismatch, kawsarpa_mismatch_name(mismatch));
    if (entry)
        printf(", condition %u, entry %u (from 1)", condition, kawsarpa_mismatch_index(mismatch) + 1U);
    putchar('\n');
    print_words("Means:", failing->means);
    print_words("Next step:", failing->next);
    return EXIT_DONE;
}

int command_explain(int argc, char **argv)
{
    struct options options = {false, false, NULL};
    unsigned long long number = 0;
    argp_parse(&argp, argc, argv, 0, NULL, &options);
    if (!read_number(options.number, &number)) {
        say_error("%s is no number", options.number);
        return EXIT_USAGE;
    }
    if (options.fault)
        return explain_fault(options.number, number);
    return options.match ? explain_mismatch(options.number, number) : explain_answer(options.number, number);
}
