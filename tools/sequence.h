/* The sequence number of a packet, or why it has none. The library decides both. */
#ifndef SEQUENCE_H
#define SEQUENCE_H

#include <stddef.h>
#include <stdint.h>

/* What the library's reader of this IP version gives: TEID and number, or 0. */
uint64_t sequence_read(unsigned int version, const uint8_t *packet, size_t length);

/* No answer number: a well-formed G-PDU in which S is clear. */
enum { SEQUENCE_NO_S = 0 };

/* Why a packet has none: SEQUENCE_NO_S, or the answer number that says what it is instead; of an Echo Request 11, not a G-PDU. */
unsigned int sequence_missing(unsigned int version, const uint8_t *packet, size_t length);

#endif
