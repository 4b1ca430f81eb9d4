/* Options that every command has. */
#ifndef OPTIONS_H
#define OPTIONS_H

#include <argp.h>
#include <stdbool.h>

/* -h, beside what argp has itself; closed by an argp of NULL. */
extern const struct argp_child shared_options[];

/* What the help says of --json, which commands that report something have. */
extern const char json_option_words[];

/* Wrong usage where two options, or an option and an argument, are both given. */
void options_exclude(struct argp_state *state, bool first_given, const char *first, bool second_given, const char *second);

#endif
