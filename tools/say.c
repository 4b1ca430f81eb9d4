#include "say.h"

#include <ctype.h>
#include <stdarg.h>
#include <stdio.h>
#include <stdlib.h>

#include "commands.h"

enum { MESSAGE_ROOM = 2048 };

/* Messages cite what stands in files; a control character of theirs is not for the terminal. */
static void replace_controls(char *text)
{
    for (; *text != 0; text++)
        if (iscntrl((unsigned char)*text))
            *text = '?';
}

static void say(const char *where, const char *format, va_list arguments)
{
    char message[MESSAGE_ROOM];
    vsnprintf(message, sizeof message, format, arguments);
    replace_controls(message);
    fprintf(stderr, "kawsarpa: %s%s\n", where, message);
}

void say_error(const char *format, ...)
{
    va_list arguments;
    va_start(arguments, format);
    say("", format, arguments);
    va_end(arguments);
}

void say_error_at(const char *file, unsigned long line, const char *format, ...)
{
    char where[MESSAGE_ROOM];
    va_list arguments;
    if (line == 0)
        snprintf(where, sizeof where, "%s: ", file);
    else
        snprintf(where, sizeof where, "%s:%lu: ", file, line);
    replace_controls(where);
    va_start(arguments, format);
    say(where, format, arguments);
    va_end(arguments);
}

void say_no_memory(void)
{
    say_error("out of memory");
    exit(EXIT_SYSTEM);
}
