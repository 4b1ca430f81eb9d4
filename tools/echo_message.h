/* GTP-U Echo Requests and Echo Responses (TS 29.281, section 7.2): the octets behind UDP. */
#ifndef ECHO_MESSAGE_H
#define ECHO_MESSAGE_H

#include <stdbool.h>
#include <stddef.h>
#include <stdint.h>

#include "formats.h"

/* With S set and no elements: an Echo Request needs none. */
enum { ECHO_REQUEST_OCTETS = GTPU_HEADER + GTPU_OPTIONAL };

void echo_request_make(uint8_t request[ECHO_REQUEST_OCTETS], uint16_t sequence_number);

/* The sequence number of a request that was made here, as an ICMP message cites it. False: too little is cited. */
bool echo_request_number(const uint8_t *cited, size_t length, uint16_t *sequence_number);

struct echo_response {
    uint16_t sequence_number;
    bool has_recovery;
    uint8_t recovery;
};

/* Room for what is wrong, in words. */
enum { ECHO_FAULT_ROOM = 96 };

/* False: it is no Echo Response, or not well-formed, and the fault says why. */
bool echo_response_read(const uint8_t *octets, size_t length, struct echo_response *response, char fault[ECHO_FAULT_ROOM]);

#endif
