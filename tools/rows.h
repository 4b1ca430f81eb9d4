/* The sequence numbers of packets offered to rows, one for each TEID. */
#ifndef ROWS_H
#define ROWS_H

#include <stdbool.h>
#include <stddef.h>
#include <stdint.h>

#include "capture.h"
#include "kawsarpa.h"

/* Where the packets of a row go. The receiver chooses its TEIDs, so with two addresses under one TEID the row may mix two streams. */
struct destination {
    unsigned int version;
    uint8_t address[16];
    bool several;
};

/* All zero at first. */
struct rows {
    struct kawsarpa_loss_row rows[KAWSARPA_LOSS_ROWS_MAX];
    struct destination destinations[KAWSARPA_LOSS_ROWS_MAX]; /* of the row at the same place */
    unsigned long not_counted[UINT8_MAX + 1];                /* packets by answer number, or by SEQUENCE_NO_S */
};

void rows_take(struct rows *rows, const struct capture_packet *packet);

/* What the report says of a TEID. */
struct line {
    struct kawsarpa_loss_row row;
    bool several_destinations;
};

/* Most lost first, then the lower TEID. */
struct report {
    struct line lines[KAWSARPA_LOSS_ROWS_MAX];
    size_t count;
};

struct report rows_report(const struct rows *rows);

#endif
