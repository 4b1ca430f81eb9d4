/* Temporary files that do not outlive the program: a signal that ends the program removes them first. There are two at a time at most. */
#ifndef TEMPORARY_H
#define TEMPORARY_H

#include <stdbool.h>

/* As mkstemp. The name stays the caller's, and as it is until the file is kept or removed: by this very pointer. */
int temporary_create(char *name);

/* Gives it its final name. False: errno says why, and the file is removed. */
bool temporary_keep(const char *name, const char *final);

/* Removes it; errno stays. */
void temporary_remove(const char *name);

#endif
