/* The anchor's readers of TEID and sequence number. Where nothing but a number is asked, tests of several rows are one. */
#include "anchor.h"
#include "formats.h"

/* Of a UDP datagram. With S the header is the long one, and its first octet has the bits 0011..1. */
static inline uint64_t read_datagram(const uint8_t *udp, size_t size)
{
    const uint8_t *gtpu = udp + UDP_SIZE;
    if (size < UDP_SIZE + GTPU_LONG_SIZE || word16(udp + 2) != GTPU_PORT || word16(udp + 4) != size || (gtpu[0] & 0xF2) != 0x32 ||
        gtpu[1] != G_PDU || word16(gtpu + 2) + UDP_SIZE + GTPU_SIZE != (int)size)
        return 0;
    return UINT64_C(1) << 48 | (uint64_t)word32(gtpu + 4) << 16 | word16(gtpu + 8);
}

uint64_t anchor_sequence_ipv6(const uint8_t *packet, size_t size)
{
    if (size < IPV6_SIZE || packet[0] >> 4 != 6 || IPV6_SIZE + (size_t)word16(packet + 4) != size)
        return 0;
    uint8_t next = packet[6];
    size_t at = IPV6_SIZE;
    if (next == ROUTING) {
        const uint8_t *srh = packet + IPV6_SIZE;
        if (size < IPV6_SIZE + SRH_SIZE || srh[2] != ROUTING_TYPE_SRH || srh[3] != 0)
            return 0;
        next = srh[0];
        at += SRH_SIZE + 8U * srh[1];
    }
    return next == UDP && at <= size ? read_datagram(packet + at, size - at) : 0;
}

uint64_t anchor_sequence_ipv4(const uint8_t *packet, size_t size)
{
    if (size < IPV4_SIZE || packet[0] != 0x45 || word16(packet + 2) != size || (word16(packet + 6) & 0x3FFF) != 0 || packet[9] != UDP ||
        header_sum(packet) != 0xFFFF)
        return 0;
    return read_datagram(packet + IPV4_SIZE, size - IPV4_SIZE);
}
