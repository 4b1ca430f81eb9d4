/* The lines at which the values of a YAML text stand. */
#ifndef MARKS_H
#define MARKS_H

#include <stdbool.h>
#include <yaml.h>

#include "file.h"

struct marks {
    yaml_document_t document;
};

/* Reads a text of one document. False: the fault was reported, and there is nothing to free. */
bool marks_read(struct marks *marks, const char *file, const struct octets *text);

void marks_free(struct marks *marks);

/* The line of a field in record `index`, from 0, of a list; of the record where it has no such field. With list NULL, of a field of the
   whole. 0 where nothing is known. */
unsigned long marks_line(const struct marks *marks, const char *list, unsigned int index, const char *field);

/* The line of the first key with this text at a place or behind it; line and column from 1. */
unsigned long marks_key_line(const struct marks *marks, const char *key, unsigned long line, unsigned long column);

#endif
