/* Whole files in, whole files out. The name "-" is standard input or standard output. */
#ifndef FILE_H
#define FILE_H

#include <stdbool.h>
#include <stddef.h>
#include <stdint.h>
#include <stdio.h>

struct octets {
    uint8_t *at; /* never NULL after file_read; the caller frees it */
    size_t count;
};

/* Takes the places of standard streams that are closed, so that no file gets them; to use one of them fails. */
void file_hold_standard(void);

/* Whether a name is "-"; NULL is none. */
bool file_is_standard(const char *name);

/* How a file is called in messages. */
const char *file_shown_name(const char *name, const char *standard_stream);

/* What is said of a compressed input. */
extern const char file_gzip_fault[];

/* Whether these are the first octets of what gzip makes (RFC 1952). */
bool file_is_gzip(int first, int second);

/* Reads all octets of a file. One with more octets than `most`, or a compressed one, is refused. 0, or the exit code after the fault was
   reported. */
int file_read(const char *name, size_t most, struct octets *octets);

/* Whether more than one of these inputs is "-"; if so, it is reported: the second would find nothing. */
bool file_standard_twice(const char *const *names, size_t count);

/* A file that appears under its name only when it is whole, also where a signal ends the program. */
struct output {
    const char *name; /* for messages */
    char *final;      /* the name behind all links; NULL where the file is written in place */
    char *temporary;  /* the name until then */
    FILE *file;       /* NULL: nothing is open */
};

/* Whether a file to write is a regular file that is read too, by device and inode; if so, it is reported. `what` names the input. */
bool output_is_input(const char *out, const char *in, const char *what);

/* Whether it is the regular file that a standard stream goes to; if so, it is reported. */
bool output_is_stream(const char *out, FILE *stream);

/* Whether two files to write are one, also where it is not there yet; if so, it is reported. `what` names the other. A device, as
   /dev/null, may be both. */
bool output_is_output(const char *out, const char *other, const char *what);

/* 0, or the exit code after the fault was reported. At most two may be open. */
int output_open(struct output *output, const char *name);

/* Closes the file, with all octets where they belong, and leaves its name for output_commit: so that of two files neither gets its name
   where the disk is too small for one. 0, or the exit code after the fault was reported; then nothing is left. */
int output_settle(struct output *output);

/* Settles the file, where that is not done, and gives it its name. 0, or the exit code after the fault was reported; then nothing new has
   the name. */
int output_commit(struct output *output);

/* Closes and removes what was written so far. Does nothing to an output that is not open. */
void output_abandon(struct output *output);

/* Reports a write that failed, by errno; the exit code. */
int output_fault(const struct output *output);

/* Where what is not wanted can be printed: a stream that keeps nothing. Ends the program where there is none. */
FILE *output_nowhere(void);

/* Whether what was just printed was written, as not to a closed pipe; the exit code after a fault was reported. */
int output_printed(FILE *stream);

/* Closes standard output at the end of the program. False: something was not written, and that was reported. */
bool output_close_standard(void);

#endif
