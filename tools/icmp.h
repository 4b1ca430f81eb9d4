/* The ICMPv6 message about a packet that a stop has refused (RFC 4443). The library builds it; why none is due the tool says, by its own
   reader. */
#ifndef ICMP_H
#define ICMP_H

#include <stdbool.h>
#include <stddef.h>
#include <stdint.h>
#include <stdio.h>

#include "json.h"
#include "kawsarpa.h"
#include "stop.h"

enum { ICMP_REASON_ROOM = 80 };

struct icmp_message {
    bool asked;            /* the answer to the packet has an ICMP type; else nothing below is set */
    size_t length;         /* 0: none is due */
    bool from_unspecified; /* its source, which is the entry's, is ::, so that routers drop it */
    uint8_t octets[KAWSARPA_ICMP_MAX];
    char reason[ICMP_REASON_ROOM]; /* why none is due */
};

/* Asks the library for the message about a packet, where the stop's answer to it has an ICMP type. */
void icmp_ask(struct icmp_message *message, const struct stop *stop, uint64_t answer, const uint8_t *packet, size_t length);

/* What is sent, or why nothing is, without the end of the line; and as a member of a JSON object. Of one that was asked for. */
void icmp_say(FILE *to, const struct icmp_message *message);
void icmp_json(struct json *json, const struct icmp_message *message);

#endif
