/* The anchor's offers: one loop for the row that serves, then the row is changed where it stands. */
#include "anchor.h"

/* The lowest row of the TEID, else the lowest free one, else NULL. */
static struct kawsarpa_loss_row *find_row(struct kawsarpa_loss_row *rows, size_t count, uint32_t teid)
{
    struct kawsarpa_loss_row *free_row = NULL;
    for (size_t i = 0; i < count; i++) {
        if (rows[i].seen == 0) {
            if (free_row == NULL)
                free_row = &rows[i];
        } else if (rows[i].teid == teid) {
            return &rows[i];
        }
    }
    return free_row;
}

uint64_t anchor_loss_offer(struct kawsarpa_loss_row *rows, size_t count, uint32_t teid, uint16_t number)
{
    struct kawsarpa_loss_row *row = find_row(rows, count < KAWSARPA_LOSS_ROWS_MAX ? count : KAWSARPA_LOSS_ROWS_MAX, teid);
    if (row == NULL)
        return KAWSARPA_ANSWER_NO_ROW;
    if (row->seen == 0) {
        *row = (struct kawsarpa_loss_row){.teid = teid, .first = number, .highest = number, .seen = 1, .new = 1};
        return 0;
    }
    if (row->seen == UINT32_MAX)
        return KAWSARPA_ANSWER_ROW_FULL;
    const int16_t distance = (int16_t)(number - row->highest);
    row->seen++;
    if (distance > 0) {
        row->new += 1; /* clang-format takes `new` for that of C++, and would part it from `++` */
        row->lost += (uint64_t)distance - 1;
        row->highest = number;
    } else if (distance == 0) {
        row->repeated++;
    } else {
        row->late++;
    }
    return 0;
}
