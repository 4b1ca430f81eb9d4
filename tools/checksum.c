#include "checksum.h"

#include <assert.h>

#include "octets.h"

/* The words of octets added to a sum; behind the last of an odd number stands a 0. */
static uint64_t add(uint64_t sum, const uint8_t *octets, size_t count)
{
    for (size_t i = 0; i + 1 < count; i += 2)
        sum += get16(octets + i);
    return count % 2 == 0 ? sum : sum + (uint64_t)(octets[count - 1] << 8);
}

static uint16_t fold(uint64_t sum)
{
    while (sum > UINT16_MAX)
        sum = (sum & UINT16_MAX) + (sum >> 16);
    return (uint16_t)sum;
}

uint16_t checksum_ipv4(const uint8_t header[IPV4_HEADER])
{
    const uint64_t before = add(0, header, IPV4_CHECKSUM);
    return (uint16_t)~fold(add(before, header + IPV4_CHECKSUM + 2, IPV4_HEADER - IPV4_CHECKSUM - 2));
}

/* The pseudo-header: both addresses, the length in 32 bits, and the next header. */
static uint64_t add_pseudo_header(const uint8_t source[16], const uint8_t destination[16], size_t length)
{
    const uint64_t addresses = add(add(0, source, 16), destination, 16);
    return addresses + (length >> 16) + (length & UINT16_MAX) + NEXT_UDP;
}

uint16_t checksum_udp6(const uint8_t source[16], const uint8_t destination[16], const uint8_t *datagram, size_t length)
{
    const uint64_t before = add(add_pseudo_header(source, destination, length), datagram, UDP_CHECKSUM);
    const uint16_t computed = (uint16_t)~fold(add(before, datagram + UDP_HEADER, length - UDP_HEADER));
    return computed == 0 ? UINT16_MAX : computed;
}

struct checksum_reading checksum_read(const struct packet_reading *packet)
{
    assert(packet->version == 6 && packet->udp != NULL);
    const uint16_t unfinished = fold(add_pseudo_header(packet->source, packet->destination, packet->udp_length));
    struct checksum_reading reading = {
        .fault = CHECKSUM_WRONG,
        .held = get16(packet->udp + UDP_CHECKSUM),
        .right = checksum_udp6(packet->source, packet->destination, packet->udp, packet->udp_length),
    };
    if (reading.held == 0)
        reading.fault = CHECKSUM_ZERO;
    else if (reading.held == unfinished)
        reading.fault = CHECKSUM_UNFINISHED;
    return reading;
}
