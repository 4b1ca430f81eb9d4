/* Big-endian numbers in octets. The caller sees to it that the octets are there. */
#ifndef OCTETS_H
#define OCTETS_H

#include <stdint.h>

static inline uint16_t get16(const uint8_t *octets)
{
    return (uint16_t)(octets[0] << 8 | octets[1]);
}

static inline uint32_t get32(const uint8_t *octets)
{
    return (uint32_t)get16(octets) << 16 | get16(octets + 2);
}

static inline void put16(uint8_t *octets, uint16_t number)
{
    octets[0] = (uint8_t)(number >> 8);
    octets[1] = (uint8_t)(number & 0xFF);
}

static inline void put32(uint8_t *octets, uint32_t number)
{
    put16(octets, (uint16_t)(number >> 16));
    put16(octets + 2, (uint16_t)(number & 0xFFFF));
}

#endif
