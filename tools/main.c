/* kawsarpa COMMAND ...: tables and captures of the gateway, on site. */
#include <argp.h>
#include <signal.h>
#include <stdio.h>
#include <stdlib.h>
#include <string.h>
#include <unistd.h>

#include "commands.h"
#include "file.h"
#include "kawsarpa.h"
#include "options.h"

struct command {
    const char *name;
    const char *line;
    int (*run)(int argc, char **argv);
};

static const struct command commands[] = {
    {"compile", "make a table of its description", command_compile},
    {"show", "print the description of a table", command_show},
    {"check", "say whether a table is sound, and what it does to packet lengths", command_check},
    {"match", "say whether the tables of a trip belong together", command_match},
    {"explain", "say what an answer, a fault or a mismatch of tables means", command_explain},
    {"translate", "send the packets of a capture through a table", command_translate},
    {"trip", "send the packets of a capture through every stop of a trip", command_trip},
    {"loss", "count the lost sequence numbers of each TEID in a capture", command_loss},
    {"echo", "send GTP-U Echo Requests to a gateway or its peers, as ping does", command_echo},
};

enum { COMMANDS = sizeof commands / sizeof commands[0] };

static const struct command *find(const char *name)
{
    for (size_t i = 0; i < COMMANDS; i++)
        if (strcmp(commands[i].name, name) == 0)
            return &commands[i];
    return NULL;
}

/* The list of commands stands in the help between what argp prints itself. */
static char *help(int key, const char *text, void *input)
{
    char *list = NULL;
    size_t length = 0;
    (void)input;
    if (key != ARGP_KEY_HELP_PRE_DOC)
        return (char *)text;
    FILE *to = open_memstream(&list, &length);
    if (to == NULL)
        return (char *)text;
    fprintf(to, "%s\n\nCommands:\n", text);
    for (size_t i = 0; i < COMMANDS; i++)
        fprintf(to, "  %-10s %s\n", commands[i].name, commands[i].line);
    return fclose(to) == 0 ? list : (char *)text;
}

struct chosen {
    const struct command *command;
    int at; /* the place of its name in argv */
};

static error_t parse(int key, char *argument, struct argp_state *state)
{
    struct chosen *chosen = state->input;
    switch (key) {
    case ARGP_KEY_ARG:
        chosen->command = find(argument);
        if (chosen->command == NULL)
            argp_error(state, "no such command: %s", argument);
        chosen->at = state->next - 1;
        state->next = state->argc; /* the rest is the command's own */
        return 0;
    case ARGP_KEY_NO_ARGS:
        argp_error(state, "a command is needed");
        return 0;
    default:
        return ARGP_ERR_UNKNOWN;
    }
}

static const char help_text[] =
    "Tables and captures of the gateway between GTP-U and SRv6 (RFC 9433)."
    "\v`kawsarpa COMMAND --help' says more. FILE may be `-', standard input or output.\n"
    "\n"
    "Exit codes: 0 done; 1 the input is bad (check: the table is not sound; match: tables do not fit; trip: a packet did not "
    "arrive, or arrived changed; echo: no response was received); 2 wrong usage; 3 the system failed: cannot open, read or write.";

static const struct argp argp = {NULL, parse, "COMMAND [ARGUMENT...]", help_text, shared_options, help, NULL};

/* TOOLCHAIN is what rt.version says; the Makefile gives it. */
static void say_version(FILE *to, struct argp_state *state)
{
    (void)state;
    fprintf(to, "kawsarpa %s, table format %d\nproofs checked with %s\n", KAWSARPA_VERSION, KAWSARPA_FORMAT, TOOLCHAIN);
}

void (*argp_program_version_hook)(FILE *to, struct argp_state *state) = say_version;

/* What was printed counts as done only when it is written. */
static void close_output(void)
{
    if (!output_close_standard())
        _exit(EXIT_SYSTEM);
}

int main(int argc, char **argv)
{
    struct chosen chosen = {NULL, 0};
    char name[64];
    file_hold_standard();
    signal(SIGPIPE, SIG_IGN); /* the write fails, and that is reported */
    signal(SIGXFSZ, SIG_IGN);
    argp_err_exit_status = EXIT_USAGE;
    argv[0] = "kawsarpa";
    if (atexit(close_output) != 0)
        return EXIT_SYSTEM;
    argp_parse(&argp, argc, argv, ARGP_IN_ORDER, NULL, &chosen);
    snprintf(name, sizeof name, "kawsarpa %s", chosen.command->name);
    argv[chosen.at] = name;
    return chosen.command->run(argc - chosen.at, argv + chosen.at);
}
