/* The library's functions written by hand in C: what their cost is held against. Same arguments, same answers, same octets. */
#ifndef ANCHOR_H
#define ANCHOR_H

#include "kawsarpa.h"

#include <stdbool.h>

uint64_t anchor_translate_ipv6(const uint8_t *packet, size_t packet_len, const uint8_t *table, size_t table_len, uint8_t *out,
                               size_t out_len);

uint64_t anchor_translate_ipv4(const uint8_t *packet, size_t packet_len, const uint8_t *table, size_t table_len, uint8_t *out,
                               size_t out_len);

/* The same without a table: all rows but 1 and 4. The record comes from a sound table; `policy` is read at D and Di only. */
uint64_t anchor_at_entry(const struct kawsarpa_entry *entry, const struct kawsarpa_policy *policy, const uint8_t *packet, size_t packet_len,
                         uint8_t *out, size_t out_len);

uint64_t anchor_at_rule(const struct kawsarpa_rule *rule, const uint8_t *packet, size_t packet_len, uint8_t *out, size_t out_len);

uint64_t anchor_burst_ipv6(const uint8_t *packets, size_t packets_len, const uint32_t *lengths, size_t count, const uint8_t *table,
                           size_t table_len, uint8_t *out, size_t out_len, uint64_t *answers, size_t answers_count);

uint64_t anchor_burst_ipv4(const uint8_t *packets, size_t packets_len, const uint32_t *lengths, size_t count, const uint8_t *table,
                           size_t table_len, uint8_t *out, size_t out_len, uint64_t *answers, size_t answers_count);

uint64_t anchor_icmp_ipv6(const uint8_t *packet, size_t packet_len, const uint8_t *table, size_t table_len, uint8_t *out, size_t out_len);

uint64_t anchor_loss_offer(struct kawsarpa_loss_row *rows, size_t count, uint32_t teid, uint16_t number);

uint64_t anchor_sequence_ipv6(const uint8_t *packet, size_t packet_len);

uint64_t anchor_sequence_ipv4(const uint8_t *packet, size_t packet_len);

/* A table's records. */
struct anchor_table {
    const struct kawsarpa_entry *entries;
    const struct kawsarpa_rule *rules;
    const struct kawsarpa_policy *policies;
    unsigned int entry_count, rule_count, policy_count;
};

/* Whether the table is sound; if it is, where its records stand. */
bool anchor_sound(const uint8_t *table, size_t table_len, struct anchor_table *records);

/* The calls with a table that is known to be sound: single calls and bursts both make them. */
uint64_t anchor_ipv6_sound(const struct anchor_table *records, const uint8_t *packet, size_t packet_len, uint8_t *out, size_t out_len);

uint64_t anchor_ipv4_sound(const struct anchor_table *records, const uint8_t *packet, size_t packet_len, uint8_t *out, size_t out_len);

/* The longest match, or NULL. */
const struct kawsarpa_entry *anchor_find_entry(const struct anchor_table *records, const uint8_t *address);

const struct kawsarpa_rule *anchor_find_rule(const struct anchor_table *records, const uint8_t *address);

#endif
