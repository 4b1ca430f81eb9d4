/* Octets of hexadecimal fields. */
#ifndef HEX_H
#define HEX_H

#include <stdint.h>
#include <stdlib.h>
#include <string.h>

/* The octets of a hexadecimal field into a buffer; "-" is an empty one. Gives their count, or -1 for what is no such field or too long. */
static inline long hex_octets(const char *field, uint8_t *into, size_t most)
{
    const size_t n = strlen(field) / 2;
    if (strcmp(field, "-") == 0)
        return 0;
    if (strlen(field) % 2 != 0 || n > most)
        return -1;
    for (size_t i = 0; i < n; i++) {
        const char pair[3] = {field[2 * i], field[2 * i + 1], 0};
        char *end;
        into[i] = (uint8_t)strtoul(pair, &end, 16);
        if (*end != 0)
            return -1;
    }
    return (long)n;
}

#endif
