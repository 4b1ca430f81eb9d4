/* The values of a description: texts to numbers and octets, with a message that names the record where one is not right. */
#ifndef VALUES_H
#define VALUES_H

#include <stdbool.h>
#include <stdint.h>

#include "build.h"
#include "words.h"

/* What the fields hold at the most, beside what kawsarpa.h names; the library judges the table all the same. */
enum { ARGS_OCTET_MOST = 11, P_MOST = 7, Q_MOST = 12 };

/* A record of a description. */
struct record_place {
    const struct text_source *source;
    const char *list; /* its key: "entries" */
    const char *kind; /* "entry" */
    unsigned int index;
    const char *name;
};

/* Up to nine decimal digits alone: no sign, no space, no leading zero that could mean octal. */
bool number_read(const char *text, unsigned int *number);

/* Says what is wrong with a field of a record. Always false. */
__attribute__((format(printf, 3, 4))) bool value_refused(const struct record_place *place, const char *field, const char *format, ...);

/* Says what is odd about a field that is taken. */
__attribute__((format(printf, 3, 4))) void value_warned(const struct record_place *place, const char *field, const char *format, ...);

/* Each reads the text of a field. False: it was refused. */
bool value_number(const struct record_place *place, const char *field, const char *text, unsigned int low, unsigned int high,
                  unsigned int *number);
bool value_octet(const struct record_place *place, const char *field, const char *text, unsigned int low, unsigned int high,
                 uint8_t *octet);
bool value_word(const struct record_place *place, const char *field, const char *text, const struct word *words, uint8_t *octet);
bool value_address(const struct record_place *place, const char *field, const char *text, uint8_t address[16]);
bool value_prefix6(const struct record_place *place, const char *field, const char *text, uint8_t prefix[16], uint8_t *length);
bool value_prefix4(const struct record_place *place, const char *field, const char *text, uint8_t prefix[4], uint8_t *length);

/* Whether the record's own name is one. */
bool value_name(const struct record_place *place);

#endif
