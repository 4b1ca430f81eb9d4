/* Messages on standard error, each a line that begins with the program's name. */
#ifndef SAY_H
#define SAY_H

__attribute__((format(printf, 1, 2))) void say_error(const char *format, ...);

/* The same about a line of a file, from 1; with line 0 about the file. */
__attribute__((format(printf, 3, 4))) void say_error_at(const char *file, unsigned long line, const char *format, ...);

/* Ends the program: memory ran out. */
__attribute__((noreturn)) void say_no_memory(void);

#endif
