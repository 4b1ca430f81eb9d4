#include "progress.h"

#include <stdio.h>
#include <unistd.h>

/* The clock is asked once in this many packets. */
enum { PACKETS_A_LOOK = 256 };

static struct timespec now(void)
{
    struct timespec time = {0, 0};
    clock_gettime(CLOCK_MONOTONIC, &time);
    return time;
}

static bool second_between(struct timespec from, struct timespec to)
{
    const time_t seconds = to.tv_sec - from.tv_sec;
    return seconds > 1 || (seconds == 1 && to.tv_nsec >= from.tv_nsec);
}

struct progress progress_begin(bool wanted)
{
    return (struct progress){now(), wanted && isatty(STDERR_FILENO), false};
}

void progress_at(struct progress *progress, unsigned long packets)
{
    if (!progress->wanted || packets % PACKETS_A_LOOK != 0)
        return;
    const struct timespec time = now();
    if (!second_between(progress->said, time))
        return;
    fprintf(stderr, "\r%lu packets ...", packets); /* each replaces the one before it */
    fflush(stderr);
    progress->said = time;
    progress->shown = true;
}

void progress_end(const struct progress *progress)
{
    if (progress->shown)
        fputs("\r\033[K", stderr);
}
