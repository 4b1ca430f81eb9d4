/* Checksums over IPv6 (RFC 8200, section 8.1) of packets that a test makes, or is sent. */
#ifndef CHECKSUM_H
#define CHECKSUM_H

#include <stddef.h>
#include <stdint.h>

/* Of what follows from `upper_at` on, whatever stands in the field at `field_at`. */
static inline uint16_t upper_checksum(uint8_t next_header, const uint8_t *packet, size_t length, size_t upper_at, size_t field_at)
{
    uint64_t sum = next_header + (uint64_t)(length - upper_at);
    size_t i;
    for (i = 8; i < 40; i += 2)
        sum += (uint64_t)packet[i] << 8 | packet[i + 1];
    for (i = upper_at; i < length; i++)
        if (i != field_at && i != field_at + 1)
            sum += (i - upper_at) % 2 == 0 ? (uint64_t)packet[i] << 8 : packet[i];
    while (sum > 0xFFFF)
        sum = (sum & 0xFFFF) + (sum >> 16);
    return (uint16_t)(0xFFFF - sum);
}

/* Of a packet whose UDP header is at `udp_at`; FFFF in the place of 0. */
static inline uint16_t udp_checksum(const uint8_t *packet, size_t length, size_t udp_at)
{
    const uint16_t checksum = upper_checksum(17, packet, length, udp_at, udp_at + 6);
    return checksum == 0 ? 0xFFFF : checksum;
}

/* Of an ICMPv6 message right behind the IPv6 header; 0 stays 0 (RFC 4443, section 2.3). */
static inline uint16_t icmp_checksum(const uint8_t *packet, size_t length)
{
    return upper_checksum(58, packet, length, 40, 42);
}

#endif
