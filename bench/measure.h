/* How long a call, a burst or an offer takes, and, under callgrind, how many instructions. */
#ifndef MEASURE_H
#define MEASURE_H

#include "kawsarpa.h"

typedef uint64_t call(const uint8_t *packet, size_t packet_len, const uint8_t *table, size_t table_len, uint8_t *out, size_t out_len);

/* What the calls are given: `count` packets of one length, a power of two of them, one every `stride` octets, taken in turn. */
struct load {
    const uint8_t *packets;
    size_t stride, size;
    unsigned int count;
    const uint8_t *table;
    size_t table_len;
    uint8_t *out;
    size_t out_len;
};

enum { SUBJECTS_MOST = 4 };

/* Nanoseconds a call of each subject: the 5th percentile of batches, in which the subjects take turns. */
void measure_times(const struct load *load, call *const subjects[], unsigned int subject_count, double ns[]);

/* One call with the first packet, written to a file by callgrind under this label; the call of a function that does nothing first. */
void measure_instructions(const struct load *load, call *subject, const char *label);

typedef uint64_t burst(const uint8_t *packets, size_t packets_len, const uint32_t *lengths, size_t count, const uint8_t *table,
                       size_t table_len, uint8_t *out, size_t out_len, uint64_t *answers, size_t answers_count);

/* What the bursts are given: packets of one length with nothing between them, `count` of them a burst; `bursts` bursts, taken in turn. Both
   numbers are powers of two. */
struct bursts {
    const uint8_t *packets;
    size_t size;
    const uint32_t *lengths;
    unsigned int count, bursts;
    const uint8_t *table;
    size_t table_len;
    uint8_t *out;
    size_t out_len;
    uint64_t *answers;
};

/* The same of bursts: nanoseconds a packet, and the instructions of the first burst. */
void measure_burst_times(const struct bursts *bursts, burst *const subjects[], unsigned int subject_count, double ns[]);

void measure_burst_instructions(const struct bursts *bursts, burst *subject, const char *label);

typedef uint64_t offer(struct kawsarpa_loss_row *rows, size_t count, uint32_t teid, uint16_t number);

/* What the offers are given. Behind each, the number grows by `step`, and the row `cleared`, unless it is NULL, is made free. */
struct offers {
    struct kawsarpa_loss_row *rows;
    size_t count;
    uint32_t teid;
    uint16_t number, step;
    struct kawsarpa_loss_row *cleared;
};

/* The same of offers. */
void measure_offer_times(struct offers *offers, offer *const subjects[], unsigned int subject_count, double ns[]);

void measure_offer_instructions(struct offers *offers, offer *subject, const char *label);

#endif
