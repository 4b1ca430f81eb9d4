/* The octets of a table, built of its description. */
#ifndef BUILD_H
#define BUILD_H

#include <stdbool.h>

#include "description.h"
#include "file.h"
#include "kawsarpa.h"
#include "marks.h"

/* A table, and for each entry and rule its place in the description: they are sorted, as the library judges them fastest so. */
struct built {
    struct octets table;
    unsigned int entry_from[KAWSARPA_ENTRIES_MAX];
    unsigned int rule_from[KAWSARPA_RULES_MAX];
};

/* What a description is called in messages, and where its values stand; marks may be NULL. */
struct text_source {
    const char *file;
    const struct marks *marks;
};

/* False: the fault was reported. Whether the table is sound is not judged here. */
bool build_table(const struct description *description, const struct text_source *source, struct built *built);

#endif
