/*
 * A library whose far gateway errs, for promise.sh: linked with --wrap=kawsarpa_translate_ipv6. Of the G-PDUs that the far gateway sends,
 * the first is as it was; then one bit is turned, in each the next one; and behind the last bit the length is wrong in several ways.
 */
#include "kawsarpa.h"

uint64_t __real_kawsarpa_translate_ipv6(const uint8_t *packet, size_t packet_len, const uint8_t *table, size_t table_len, uint8_t *out,
                                        size_t out_len);
uint64_t __wrap_kawsarpa_translate_ipv6(const uint8_t *packet, size_t packet_len, const uint8_t *table, size_t table_len, uint8_t *out,
                                        size_t out_len);

static uint64_t with_length(uint64_t answer, size_t length)
{
    return (answer & UINT64_C(0xFFFFFFFFFF)) | (uint64_t)length << 40;
}

static uint64_t err(uint64_t answer, uint8_t *out)
{
    static size_t turn;
    const size_t length = kawsarpa_answer_length(answer);
    const size_t at = turn++;
    if (at == 0)
        return answer;
    if (at <= 8 * length) {
        out[(at - 1) / 8] ^= (uint8_t)(0x80 >> (at - 1) % 8);
        return answer;
    }
    switch (at - 8 * length) {
    case 1: /* the last octet is missing */
        return with_length(answer, length - 1);
    case 2: /* one more */
        out[length] = 0;
        return with_length(answer, length + 1);
    case 3: /* a part of the headers alone */
        return with_length(answer, 30);
    default: /* nothing at all */
        return with_length(answer, 0);
    }
}

uint64_t __wrap_kawsarpa_translate_ipv6(const uint8_t *packet, size_t packet_len, const uint8_t *table, size_t table_len, uint8_t *out,
                                        size_t out_len)
{
    const uint64_t answer = __real_kawsarpa_translate_ipv6(packet, packet_len, table, table_len, out, out_len);
    if (kawsarpa_answer_number(answer) != KAWSARPA_ANSWER_SENT)
        return answer;
    const int is_udp = out[0] >> 4 == 4 || out[6] == 17; /* the near gateway and the waypoints send IPv6 with something else in it */
    return is_udp ? err(answer, out) : answer;
}
