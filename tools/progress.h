/* A line on the terminal, where standard error is one, about how far a long run has come. */
#ifndef PROGRESS_H
#define PROGRESS_H

#include <stdbool.h>
#include <time.h>

struct progress {
    struct timespec said; /* when the last line was, or the start */
    bool wanted;
    bool shown;
};

/* Not wanted: nothing is said at all. */
struct progress progress_begin(bool wanted);

/* Says the count if a second has gone by since it was last said. */
void progress_at(struct progress *progress, unsigned long packets);

/* Removes the line from a terminal. */
void progress_end(const struct progress *progress);

#endif
