/* The anchor's checksums over IPv6 (RFC 8200, 8.1): of UDP, and of ICMPv6 messages. 16-bit words are added as they lie in memory, four at a
   time, and what carries out is added at the low end (RFC 1071): the sum is that of the big-endian words with its octets exchanged. */
#include "formats.h"

static uint64_t load64(const uint8_t *octets)
{
    uint64_t word;
    memcpy(&word, octets, sizeof word);
    return word;
}

/* Up to four octets, and 0 behind them. */
static uint64_t load(const uint8_t *octets, size_t size)
{
    uint32_t word = 0;
    memcpy(&word, octets, size);
    return word;
}

static uint64_t add(uint64_t sum, uint64_t word)
{
    const uint64_t with = sum + word;
    return with + (with < sum);
}

/* Four sums, so that no addition waits for the carry of the last. */
static uint64_t sum_of(const uint8_t *octets, size_t size)
{
    uint64_t a = 0, b = 0, c = 0, d = 0;
    for (; size >= 32; octets += 32, size -= 32) {
        a = add(a, load64(octets));
        b = add(b, load64(octets + 8));
        c = add(c, load64(octets + 16));
        d = add(d, load64(octets + 24));
    }
    a = add(add(a, c), add(b, d));
    for (; size >= 8; octets += 8, size -= 8)
        a = add(a, load64(octets));
    if (size & 4) {
        a = add(a, load(octets, 4));
        octets += 4;
    }
    if (size & 2) {
        a = add(a, load(octets, 2));
        octets += 2;
    }
    return size & 1 ? add(a, load(octets, 1)) : a;
}

static inline uint16_t sum_with(uint8_t next, const uint8_t *addresses, const uint8_t *upper, size_t size)
{
    uint8_t length_and_next[4] = {[3] = next};
    put16(length_and_next, (uint16_t)size);
    uint64_t sum = add(add(sum_of(addresses, (size_t)2 * ADDRESS), load(length_and_next, 4)), sum_of(upper, size));
    sum = (sum & 0xFFFFFFFF) + (sum >> 32);
    sum = (sum & 0xFFFF) + (sum >> 16);
    sum = (sum & 0xFFFF) + (sum >> 16);
    return (uint16_t)((sum & 0xFFFF) + (sum >> 16));
}

uint16_t anchor_udp_sum(const uint8_t *addresses, const uint8_t *udp, size_t size)
{
    return sum_with(UDP, addresses, udp, size);
}

uint16_t anchor_icmp_sum(const uint8_t *addresses, const uint8_t *icmp, size_t size)
{
    return sum_with(ICMPV6, addresses, icmp, size);
}
