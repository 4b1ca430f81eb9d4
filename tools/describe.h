/* What a packet says of itself, as far as it can be read: for people. The library alone judges packets. */
#ifndef DESCRIBE_H
#define DESCRIBE_H

#include <stdbool.h>
#include <stddef.h>
#include <stdint.h>
#include <stdio.h>

#include "json.h"

struct packet_reading {
    unsigned int version; /* 0: not even an IP header could be read, and nothing below is set */
    size_t length;
    uint8_t traffic_class;
    const uint8_t *source; /* 4 or 16 octets */
    const uint8_t *destination;
    unsigned int next_header; /* behind the SRH, where there is one */

    bool has_srh;
    unsigned int segments_left;
    size_t segment_count;    /* whole segments that are there */
    const uint8_t *segments; /* as they stand: the last one of the path first */

    const uint8_t *udp; /* its header and all behind it; NULL where there is none */
    size_t udp_length;

    const uint8_t *icmp; /* ICMPv6: its type and all behind it; NULL where there is none */
    size_t icmp_length;

    bool has_gtpu;
    unsigned int message_type;
    uint32_t teid;
    bool has_sequence_number; /* S is set */
    unsigned int sequence_number;
    const uint8_t *inner; /* behind the GTP-U header and its extensions; NULL where their end could not be found */
    size_t inner_length;

    bool has_container;    /* the PDU Session container */
    unsigned int pdu_type; /* 0 downlink, 1 uplink */
    unsigned int qfi;
    unsigned int reflective; /* R: only downlink has it */
};

/* The reading points into the packet. */
struct packet_reading packet_read(const uint8_t *packet, size_t length);

/* One line without its end. */
void packet_describe(FILE *to, const uint8_t *packet, size_t length);

/* The same of an ICMPv6 message of the library, with its type, code and pointer in the place of its next header. */
void icmp_describe(FILE *to, const uint8_t *message, size_t length);

/* The same as a JSON object. */
void packet_json(struct json *json, const char *name, const uint8_t *packet, size_t length);

#endif
