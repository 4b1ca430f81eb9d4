/* Internet checksums (RFC 1071): of an IPv4 header, and of UDP over IPv6 (RFC 8200, section 8.1). The library has its own. */
#ifndef CHECKSUM_H
#define CHECKSUM_H

#include <stddef.h>
#include <stdint.h>

#include "describe.h"
#include "formats.h"

/* Of a header without options, whatever its checksum is. */
uint16_t checksum_ipv4(const uint8_t header[IPV4_HEADER]);

/* Of a datagram between two addresses, whatever its checksum is; FFFF in the place of 0. */
uint16_t checksum_udp6(const uint8_t source[16], const uint8_t destination[16], const uint8_t *datagram, size_t length);

/* What is wrong with the UDP checksum of a packet that was refused for it. */
enum checksum_fault {
    CHECKSUM_ZERO,       /* and the entry does not allow it */
    CHECKSUM_UNFINISHED, /* the sum of the pseudo-header alone, as a host leaves it for its network card to finish */
    CHECKSUM_WRONG
};

struct checksum_reading {
    enum checksum_fault fault;
    uint16_t held;
    uint16_t right;
};

/* The packet has UDP over IPv6. */
struct checksum_reading checksum_read(const struct packet_reading *packet);

#endif
