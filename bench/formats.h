/* IPv6, SRH, IPv4, UDP and GTP-U headers as the anchor writes them, and the numbers that the standards fix. */
#ifndef FORMATS_H
#define FORMATS_H

#include "kawsarpa.h"
#include "words.h"

enum { IPV6_SIZE = 40, IPV4_SIZE = 20, UDP_SIZE = 8, SRH_SIZE = 8, ADDRESS = 16, ARGS_SIZE = 5 };
/* GTP-U without and with the four octets more; UDP, GTP-U and a container of one unit; UDP and an Echo Response. */
enum { GTPU_SIZE = 8, GTPU_LONG_SIZE = 12, DATAGRAM_SIZE = 24, ECHO_SIZE = 22 };
/* Next headers. */
enum { HOP_BY_HOP = 0, IPV4 = 4, UDP = 17, IPV6 = 41, ROUTING = 43, FRAGMENT = 44, ICMPV6 = 58, DESTINATION_OPTIONS = 60, ETHERNET = 143 };
enum { ROUTING_TYPE_SRH = 4, GTPU_PORT = 2152, PDU_SESSION_CONTAINER = 0x85, RECOVERY = 14, LENGTH_MOST = 65535 };
/* GTP-U messages. */
enum { ECHO_REQUEST = 1, ECHO_RESPONSE = 2, G_PDU = 255 };

static inline void put_ipv6(uint8_t *out, uint8_t class, size_t payload, uint8_t next, uint8_t hop_limit, const uint8_t *source,
                            const uint8_t *to)
{
    put16(out, (uint16_t)(0x6000 | class << 4));
    put16(out + 2, 0);
    put16(out + 4, (uint16_t)payload);
    out[6] = next;
    out[7] = hop_limit;
    memcpy(out + 8, source, ADDRESS);
    memcpy(out + 24, to, ADDRESS);
}

/* The first eight octets of an SRH of n segments. */
static inline void put_srh(uint8_t *srh, uint8_t next, size_t n)
{
    srh[0] = next;
    srh[1] = (uint8_t)(2 * n);
    srh[2] = ROUTING_TYPE_SRH;
    srh[3] = srh[4] = (uint8_t)(n - 1);
    memset(srh + 5, 0, 3);
}

/* Addresses in order of travel, the last of them first. */
static inline void put_reversed(uint8_t *segments, const uint8_t addresses[][ADDRESS], size_t n)
{
    for (size_t i = 0; i < n; i++)
        memcpy(segments + ADDRESS * i, addresses[n - 1 - i], ADDRESS);
}

/* UDP, GTP-U and the container before an inner packet. `args` are 5 octets of an arriving address. */
static inline void put_datagram(uint8_t *udp, const struct kawsarpa_entry *e, const uint8_t *args, size_t inner)
{
    static const uint8_t fixed[DATAGRAM_SIZE] = {
        [2] = GTPU_PORT >> 8, GTPU_PORT & 0xFF, [8] = 0x34, G_PDU, [19] = PDU_SESSION_CONTAINER, 1};
    const uint8_t reflective = e->direction == KAWSARPA_DIRECTION_DOWNLINK ? (uint8_t)(args[0] << 5 & 0x40) : 0;
    memcpy(udp, fixed, sizeof fixed);
    memcpy(udp, e->source_port, 2);
    put16(udp + 4, (uint16_t)(DATAGRAM_SIZE + inner));
    put16(udp + 10, (uint16_t)(DATAGRAM_SIZE - UDP_SIZE - GTPU_SIZE + inner));
    memcpy(udp + 12, args + 1, 4);
    udp[21] = (uint8_t)(e->direction << 4);
    udp[22] = (uint8_t)(args[0] >> 2 | reflective);
}

/* The sum of a datagram and its pseudo-header; `addresses` are source and destination. FFFF where the checksum in the datagram is right;
   where that is 0, the complement of the checksum, as it lies in memory. */
uint16_t anchor_udp_sum(const uint8_t *addresses, const uint8_t *udp, size_t size);

/* The same of an ICMPv6 message. */
uint16_t anchor_icmp_sum(const uint8_t *addresses, const uint8_t *icmp, size_t size);

/* The checksum of a datagram behind an IPv6 header in `out`, in which it is 0: a computed 0 is sent as FFFF. */
static inline void put_checksum(uint8_t *out, size_t size)
{
    const uint16_t checksum = (uint16_t)~anchor_udp_sum(out + 8, out + IPV6_SIZE, size);
    const uint16_t sent = checksum == 0 ? 0xFFFF : checksum;
    memcpy(out + IPV6_SIZE + 6, &sent, sizeof sent);
}

/* The reply to an Echo Request. */
static inline void put_echo(uint8_t *udp, const uint8_t *request)
{
    static const uint8_t fixed[ECHO_SIZE] = {GTPU_PORT >> 8, GTPU_PORT & 0xFF, [5] = ECHO_SIZE, [8] = 0x32,
                                             ECHO_RESPONSE,  [11] = 6,         [20] = RECOVERY};
    memcpy(udp, fixed, sizeof fixed);
    memcpy(udp + 2, request, 2);
    memcpy(udp + 16, request + 16, 2);
}

/* The ones' complement sum of an IPv4 header without options (RFC 1071). */
static inline uint16_t header_sum(const uint8_t *header)
{
    uint64_t sum = (uint64_t)word32(header) + word32(header + 4) + word32(header + 8) + word32(header + 12) + word32(header + 16);
    sum = (sum & 0xFFFF) + (sum >> 16 & 0xFFFF) + (sum >> 32);
    sum = (sum & 0xFFFF) + (sum >> 16);
    return (uint16_t)((sum & 0xFFFF) + (sum >> 16));
}

static inline void put_ipv4(uint8_t *out, uint8_t tos, size_t total, uint8_t ttl, const uint8_t *source, const uint8_t *to)
{
    static const uint8_t fixed[IPV4_SIZE] = {0x45, [6] = 0x40, [9] = UDP};
    memcpy(out, fixed, sizeof fixed);
    out[1] = tos;
    put16(out + 2, (uint16_t)total);
    out[8] = ttl;
    memcpy(out + 12, source, 4);
    memcpy(out + 16, to, 4);
    put16(out + 10, (uint16_t)~header_sum(out));
}

static inline uint8_t traffic_class(const uint8_t *packet)
{
    return (uint8_t)(word16(packet) >> 4 & 0xFF);
}

#endif
