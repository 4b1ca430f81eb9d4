/* Big-endian numbers in octets. */
#ifndef WORDS_H
#define WORDS_H

#include <stdint.h>
#include <string.h>

static inline uint16_t word16(const uint8_t *octets)
{
    uint16_t word;
    memcpy(&word, octets, sizeof word);
    return __builtin_bswap16(word);
}

static inline uint32_t word32(const uint8_t *octets)
{
    uint32_t word;
    memcpy(&word, octets, sizeof word);
    return __builtin_bswap32(word);
}

static inline uint64_t word64(const uint8_t *octets)
{
    uint64_t word;
    memcpy(&word, octets, sizeof word);
    return __builtin_bswap64(word);
}

static inline void put16(uint8_t *octets, uint16_t number)
{
    number = __builtin_bswap16(number);
    memcpy(octets, &number, sizeof number);
}

#endif
