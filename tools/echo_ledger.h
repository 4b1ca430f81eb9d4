/* The Echo Requests that were sent: which are still awaited, and what became of the others. Times are in nanoseconds. */
#ifndef ECHO_LEDGER_H
#define ECHO_LEDGER_H

#include <stdbool.h>
#include <stdint.h>

enum { ECHO_NUMBERS = UINT16_MAX + 1 };

enum echo_state { ECHO_UNSENT, ECHO_AWAITED, ECHO_ANSWERED, ECHO_LOST };

struct echo_ledger {
    uint16_t first;   /* sequence number; they go on with 0 behind 65,535 */
    int64_t timeout;  /* a request is lost after so long; by then its number is not sent again */
    uint64_t sent;    /* requests */
    uint64_t settled; /* those before it are awaited no longer */
    uint64_t received, lost, late, duplicate, not_valid;
    int64_t least, most, sum; /* times of those that were received */
    struct {
        int64_t sent_at;
        enum echo_state state;
    } requests[ECHO_NUMBERS]; /* by sequence number, the last with it */
};

/* Begins from a ledger of zeros. */
void ledger_begin(struct echo_ledger *ledger, uint16_t first, int64_t timeout);

/* A request is sent; its sequence number. */
uint16_t ledger_add(struct echo_ledger *ledger, int64_t now);

enum echo_arrival { ECHO_RECEIVED, ECHO_LATE, ECHO_DUPLICATE, ECHO_NOT_SENT };

/* A well-formed response has arrived: what it is, and the time since its request was sent. */
enum echo_arrival ledger_take(struct echo_ledger *ledger, uint16_t number, int64_t now, int64_t *took);

/* A request is lost: an error tells it. False: it was not awaited. */
bool ledger_fail(struct echo_ledger *ledger, uint16_t number);

/* Whether a request is lost by now; its number. To be asked until none is. */
bool ledger_expire(struct echo_ledger *ledger, int64_t now, uint16_t *number);

/* When the next request that is awaited will be lost; INT64_MAX where none is. */
int64_t ledger_deadline(const struct echo_ledger *ledger);

uint64_t ledger_awaited(const struct echo_ledger *ledger);

#endif
