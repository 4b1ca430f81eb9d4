/* The commands of kawsarpa and the exit codes that they share. */
#ifndef COMMANDS_H
#define COMMANDS_H

enum {
    EXIT_DONE = 0,
    EXIT_INPUT = 1, /* the input is bad; check: the table is not sound; match: one does not fit; trip: one did not arrive, or changed;
                       echo: no response */
    EXIT_USAGE = 2, /* wrong options or arguments; an output that is an input */
    EXIT_SYSTEM = 3 /* the system failed: cannot open, read or write */
};

/* Each takes the arguments behind its name, with what is said of the program in messages as argv[0], and gives an exit code. */
int command_compile(int argc, char **argv);
int command_show(int argc, char **argv);
int command_check(int argc, char **argv);
int command_match(int argc, char **argv);
int command_explain(int argc, char **argv);
int command_translate(int argc, char **argv);
int command_trip(int argc, char **argv);
int command_loss(int argc, char **argv);
int command_echo(int argc, char **argv);

#endif
