/* The packet that has to come out of a trip (docs/STATEMENTS.md, demand 3), put together here from what went in and from the entry of the
   far gateway, and how a packet that came out differs from it. */
#ifndef PROMISE_H
#define PROMISE_H

#include <stdbool.h>
#include <stddef.h>
#include <stdint.h>

#include "describe.h"
#include "kawsarpa.h"
#include "stop.h"

struct promise {
    uint8_t octets[STOP_ROOM];
    size_t length;
};

/*
 * Puts the packet together: what went in, a packet that the near gateway has sent on, and the entries that both gateways went by, as
 * stop_entry tells them. False where there is no promise: it is made of a G-PDU from End.M.GTP6.D.Di to End.M.GTP6.E, and from a rule to
 * End.M.GTP4.E.
 */
bool promise_make(struct promise *promise, const struct packet_reading *in, const struct kawsarpa_entry *near,
                  const struct kawsarpa_entry *far);

/* Whether a packet is the promised one, octet for octet. */
bool promise_kept(const struct promise *promise, const uint8_t *packet, size_t length);

/* What differs, in words, in the order in which it is told. Room for every octet of the headers, and their fields. */
enum { DIFFERENCES_MAX = 96, DIFFERENCE_ROOM = 32 };

struct differences {
    char words[DIFFERENCES_MAX][DIFFERENCE_ROOM];
    size_t count;
};

__attribute__((format(printf, 2, 3))) void differences_add(struct differences *differences, const char *format, ...);

/* Names what differs in a packet that is not: fields, then the other octets of the headers, each counted from 0 in its header. */
void promise_differences(const struct promise *promise, const uint8_t *packet, size_t length, struct differences *differences);

#endif
