/* What `kawsarpa echo' prints: a line for each thing that happens and a summary, or the same as JSON. Each is written when it is told. */
#ifndef ECHO_TELL_H
#define ECHO_TELL_H

#include <stdbool.h>
#include <stddef.h>
#include <stdint.h>
#include <stdio.h>

#include "echo_ledger.h"
#include "echo_message.h"
#include "echo_peer.h"
#include "json.h"

struct echo_teller {
    FILE *to;
    struct json json; /* begun with the first thing that is told, where JSON is wanted */
    bool as_json;
    const struct echo_peer *peer;
    int code; /* not 0: something could not be written; that was reported, and this is the exit code */
};

void tell_begin(struct echo_teller *teller, const char *name);

/* A response that was received, late or a duplicate. */
void tell_response(struct echo_teller *teller, enum echo_arrival arrival, const struct echo_response *response, int64_t took);

/* What arrived and is no Echo Response to a request that was sent. */
void tell_not_valid(struct echo_teller *teller, size_t octets, const char *fault);

void tell_no_response(struct echo_teller *teller, uint16_t sequence_number, int64_t timeout);

void tell_error(struct echo_teller *teller, const struct echo_error *error);

void tell_summary(struct echo_teller *teller, const struct echo_ledger *ledger);

/* A fault has ended the work, and was reported: there is no summary. */
void tell_broken_off(struct echo_teller *teller);

#endif
