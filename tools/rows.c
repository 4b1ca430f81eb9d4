#include "rows.h"

#include <stdlib.h>
#include <string.h>

#include "sequence.h"

/* The place of a row that has counted: such rows stand before the free ones. */
static size_t place_of(const struct rows *rows, uint32_t teid)
{
    size_t at = 0;
    while (rows->rows[at].teid != teid)
        at++;
    return at;
}

static void note_destination(struct rows *rows, const struct capture_packet *packet, uint32_t teid)
{
    const uint8_t *address = packet->octets + (packet->version == 4 ? 16 : 24);
    const size_t size = packet->version == 4 ? 4 : 16;
    const size_t at = place_of(rows, teid);
    struct destination *known = &rows->destinations[at];
    if (rows->rows[at].seen == 1) {
        known->version = packet->version;
        memcpy(known->address, address, size);
    } else if (known->version != packet->version || memcmp(known->address, address, size) != 0) {
        known->several = true;
    }
}

static void offer(struct rows *rows, const struct capture_packet *packet, uint64_t sequence)
{
    const uint32_t teid = kawsarpa_sequence_teid(sequence);
    const uint64_t answer = kawsarpa_loss_offer(rows->rows, KAWSARPA_LOSS_ROWS_MAX, teid, kawsarpa_sequence_number(sequence));
    const unsigned int number = kawsarpa_answer_number(answer);
    if (number == 0)
        note_destination(rows, packet, teid);
    else
        rows->not_counted[number]++;
}

void rows_take(struct rows *rows, const struct capture_packet *packet)
{
    const uint64_t sequence = sequence_read(packet->version, packet->octets, packet->length);
    if (kawsarpa_sequence_found(sequence))
        offer(rows, packet, sequence);
    else
        rows->not_counted[sequence_missing(packet->version, packet->octets, packet->length)]++;
}

static int compare(const void *left, const void *right)
{
    const struct kawsarpa_loss_row *a = &((const struct line *)left)->row;
    const struct kawsarpa_loss_row *b = &((const struct line *)right)->row;
    if (a->lost != b->lost)
        return a->lost > b->lost ? -1 : 1;
    return (a->teid > b->teid) - (a->teid < b->teid);
}

struct report rows_report(const struct rows *rows)
{
    struct report report = {.count = 0};
    for (size_t i = 0; i < KAWSARPA_LOSS_ROWS_MAX && rows->rows[i].seen != 0; i++)
        report.lines[report.count++] = (struct line){rows->rows[i], rows->destinations[i].several};
    qsort(report.lines, report.count, sizeof report.lines[0], compare);
    return report;
}
