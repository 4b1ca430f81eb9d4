/* The anchor's bursts: the table is judged once, then packet after packet goes into the unused rest of the output. */
#include "anchor.h"

/* Row 19. */
static bool unfit(size_t packets_len, const uint32_t *lengths, size_t count, size_t places)
{
    size_t sum = 0;
    if (count > KAWSARPA_BURST_MAX || places < count)
        return true;
    for (size_t i = 0; i < count; i++)
        sum += lengths[i];
    return sum != packets_len;
}

typedef uint64_t call_sound(const struct anchor_table *records, const uint8_t *packet, size_t packet_len, uint8_t *out, size_t out_len);

/* Expanded in place, so that `call` is no pointer to the compiler. */
static inline __attribute__((always_inline)) uint64_t burst(call_sound *call, const uint8_t *packets, size_t packets_len,
                                                            const uint32_t *lengths, size_t count, const uint8_t *table, size_t table_len,
                                                            uint8_t *out, size_t out_len, uint64_t *answers, size_t answers_count)
{
    struct anchor_table t;
    size_t used = 0;
    if (unfit(packets_len, lengths, count, answers_count))
        return KAWSARPA_ANSWER_BAD_BURST;
    if (!anchor_sound(table, table_len, &t)) {
        for (size_t i = 0; i < count; i++)
            answers[i] = KAWSARPA_ANSWER_UNSOUND;
        return 0;
    }
    for (size_t i = 0; i < count; i++) {
        const uint32_t size = lengths[i];
        const uint64_t answer = call(&t, packets, size, out + used, out_len - used);
        answers[i] = answer;
        packets += size;
        used += kawsarpa_answer_length(answer);
    }
    return (uint64_t)used << 40;
}

uint64_t anchor_burst_ipv6(const uint8_t *packets, size_t packets_len, const uint32_t *lengths, size_t count, const uint8_t *table,
                           size_t table_len, uint8_t *out, size_t out_len, uint64_t *answers, size_t answers_count)
{
    return burst(anchor_ipv6_sound, packets, packets_len, lengths, count, table, table_len, out, out_len, answers, answers_count);
}

uint64_t anchor_burst_ipv4(const uint8_t *packets, size_t packets_len, const uint32_t *lengths, size_t count, const uint8_t *table,
                           size_t table_len, uint8_t *out, size_t out_len, uint64_t *answers, size_t answers_count)
{
    return burst(anchor_ipv4_sound, packets, packets_len, lengths, count, table, table_len, out, out_len, answers, answers_count);
}
