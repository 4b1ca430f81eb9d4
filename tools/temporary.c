#include "temporary.h"

#include <assert.h>
#include <errno.h>
#include <signal.h>
#include <stdio.h>
#include <stdlib.h>
#include <unistd.h>

/* Signals by which people and systems end a program. One that is ignored from the start, as by nohup, stays so. */
static const int endings[] = {SIGHUP, SIGINT, SIGQUIT, SIGTERM};

enum { ENDINGS = sizeof endings / sizeof endings[0] };

enum { UNFINISHED_MOST = 2 };

static const char *volatile unfinished[UNFINISHED_MOST]; /* NULL: none. They are changed only while the signals wait */

/* The signal waits while this runs; when it returns the program ends by it, as it would have without this. */
static void remove_and_end(int number)
{
    for (size_t i = 0; i < UNFINISHED_MOST; i++)
        if (unfinished[i] != NULL)
            unlink(unfinished[i]);
    signal(number, SIG_DFL);
    raise(number);
}

static void watch(void)
{
    struct sigaction action = {.sa_handler = remove_and_end};
    sigfillset(&action.sa_mask);
    for (size_t i = 0; i < ENDINGS; i++) {
        struct sigaction present;
        if (sigaction(endings[i], NULL, &present) == 0 && present.sa_handler == SIG_DFL)
            sigaction(endings[i], &action, NULL);
    }
}

/* The signals wait from here on; what was to wait before. */
static sigset_t hold(void)
{
    sigset_t held;
    sigset_t before;
    sigemptyset(&held);
    for (size_t i = 0; i < ENDINGS; i++)
        sigaddset(&held, endings[i]);
    sigprocmask(SIG_BLOCK, &held, &before);
    return before;
}

static void release(const sigset_t *before)
{
    const int reason = errno;
    sigprocmask(SIG_SETMASK, before, NULL);
    errno = reason;
}

/* The place of a name; with NULL, a free one. */
static const char *volatile *place_of(const char *name)
{
    size_t i = 0;
    while (i < UNFINISHED_MOST && unfinished[i] != name)
        i++;
    assert(i < UNFINISHED_MOST);
    return &unfinished[i];
}

int temporary_create(char *name)
{
    const sigset_t before = hold();
    watch();
    const int descriptor = mkstemp(name);
    if (descriptor >= 0)
        *place_of(NULL) = name;
    release(&before);
    return descriptor;
}

bool temporary_keep(const char *name, const char *final)
{
    const sigset_t before = hold();
    const bool kept = rename(name, final) == 0;
    if (kept)
        *place_of(name) = NULL;
    else
        temporary_remove(name);
    release(&before);
    return kept;
}

void temporary_remove(const char *name)
{
    const int reason = errno;
    const sigset_t before = hold();
    unlink(name);
    *place_of(name) = NULL;
    release(&before);
    errno = reason;
}
