/*
 * A burst, packet by packet with the answers and octets that are expected of it, and what a call leaves: every octet of the output and
 * every place for an answer is compared, and so for the same packets in single calls.
 */
#ifndef BURST_H
#define BURST_H

#include "checks.h"
#include "kawsarpa.h"
#include "table.h"

#include <stdio.h>
#include <string.h>

/* A burst, and the call for a single packet that each of its answers and results is held against. */
struct form {
    uint64_t (*burst)(const uint8_t *, size_t, const uint32_t *, size_t, const uint8_t *, size_t, uint8_t *, size_t, uint64_t *, size_t);
    uint64_t (*single)(const uint8_t *, size_t, const uint8_t *, size_t, uint8_t *, size_t);
};

static const struct form ipv6 = {kawsarpa_burst_ipv6, kawsarpa_translate_ipv6};
static const struct form ipv4 = {kawsarpa_burst_ipv4, kawsarpa_translate_ipv4};

/* One packet more than a burst takes. The guards are odd, so that packets and output begin at odd addresses. */
enum { MOST = KAWSARPA_BURST_MAX + 1, LONGEST = 101, ROOM = MOST * LONGEST, GUARD = 13, MARGIN = 2 };

struct lent {
    uint8_t packets[GUARD + ROOM];
    size_t packets_len;
    uint32_t lengths[MOST];
    size_t count;
};

/* What is lent to be written lies between octets and places that must stay as they are too. */
struct left {
    uint8_t out[GUARD + ROOM + GUARD];
    size_t sent;
    uint64_t answers[MARGIN + MOST + MARGIN];
};

static struct lent lent;
static struct left left, expected;

static void fill(struct left *what)
{
    size_t i;
    what->sent = 0;
    for (i = 0; i < sizeof what->out; i++)
        what->out[i] = (uint8_t)(0xA5 ^ (i & 0xFF));
    for (i = 0; i < sizeof what->answers / sizeof what->answers[0]; i++)
        what->answers[i] = 0xA5A5A5A5A5A5A500 + i;
}

static void begin(void)
{
    memset(&lent, 0, sizeof lent);
    fill(&expected);
}

static void add(const uint8_t *packet, size_t length, uint64_t answer)
{
    memcpy(lent.packets + GUARD + lent.packets_len, packet, length);
    lent.packets_len += length;
    lent.lengths[lent.count] = (uint32_t)length;
    expected.answers[MARGIN + lent.count++] = answer;
}

/* The next packet of the burst, which is refused. */
static void refuses(const uint8_t *packet, size_t length, unsigned int number)
{
    add(packet, length, number);
}

static void refuses_with_icmp(const uint8_t *packet, size_t length, unsigned int number, unsigned int type, unsigned int code,
                              unsigned int pointer)
{
    add(packet, length, (uint64_t)pointer << 24 | (uint64_t)code << 16 | (uint64_t)type << 8 | number);
}

/* The next packet of the burst, which is sent with these octets behind those that were sent before. */
static void sends(const uint8_t *packet, size_t length, const uint8_t *result, size_t result_len)
{
    memcpy(expected.out + GUARD + expected.sent, result, result_len);
    expected.sent += result_len;
    add(packet, length, (uint64_t)result_len << 40);
}

#define OCTETS(array) array, sizeof array

/* The answers that are left are the expected ones, and so is every octet of the output. */
static void check_left(const char *subject)
{
    char claim[80] = "every place for an answer is as expected";
    const size_t places = sizeof left.answers / sizeof left.answers[0];
    size_t i = 0;
    while (i < places && left.answers[i] == expected.answers[i])
        i++;
    if (i < places)
        snprintf(claim, sizeof claim, "answer %d is %llX; got %llX", (int)i - MARGIN, (unsigned long long)expected.answers[i],
                 (unsigned long long)left.answers[i]);
    check(i == places, subject, claim);
    i = 0;
    while (i < sizeof left.out && left.out[i] == expected.out[i])
        i++;
    snprintf(claim, sizeof claim, "every octet of the output is as expected");
    if (i < sizeof left.out)
        snprintf(claim, sizeof claim, "octet %d is %02X; got %02X", (int)i - GUARD, (unsigned int)expected.out[i],
                 (unsigned int)left.out[i]);
    check(i == sizeof left.out, subject, claim);
}

static void answers_with(const struct form *form, size_t packets_len, size_t count, const void *table, size_t table_len, size_t room,
                         size_t places, uint64_t answer, const char *subject)
{
    static struct lent as_lent;
    uint64_t got;
    char claim[80];
    as_lent = lent;
    fill(&left);
    got = form->burst(lent.packets + GUARD, packets_len, lent.lengths, count, (const uint8_t *)table, table_len, left.out + GUARD, room,
                      left.answers + MARGIN, places);
    snprintf(claim, sizeof claim, "the burst answers %u, length %u; got %llX", (unsigned int)kawsarpa_answer_number(answer),
             (unsigned int)kawsarpa_answer_length(answer), (unsigned long long)got);
    check(got == answer, subject, claim);
    check_left(subject);
    check(memcmp(&lent, &as_lent, sizeof lent) == 0, subject, "packets and lengths are unchanged");
}

/* The same packets, each in a single call with the room then left. */
static void check_single(const struct form *form, const void *table, size_t table_len, size_t room, const char *subject)
{
    char with_singles[80];
    size_t in = 0, out = 0, i;
    fill(&left);
    for (i = 0; i < lent.count; i++) {
        left.answers[MARGIN + i] = form->single(lent.packets + GUARD + in, lent.lengths[i], (const uint8_t *)table, table_len,
                                                left.out + GUARD + out, room - out);
        in += lent.lengths[i];
        out += kawsarpa_answer_length(left.answers[MARGIN + i]);
    }
    snprintf(with_singles, sizeof with_singles, "%s, by single calls", subject);
    check_left(with_singles);
}

/* Answers 0 and leaves what is expected, in so much room; and so do single calls. There is a place for each answer, and no more. */
static void made_in(size_t room, const struct form *form, const struct table *table, const char *subject)
{
    answers_with(form, lent.packets_len, lent.count, table, sizeof *table, room, lent.count, (uint64_t)expected.sent << 40, subject);
    check_single(form, table, sizeof *table, room, subject);
}

static void made(const struct form *form, const struct table *table, const char *subject)
{
    made_in(ROOM, form, table, subject);
}

/* Answers 19 and leaves nothing. */
static void bad(const struct form *form, size_t packets_len, size_t count, size_t places, const struct table *table, const char *subject)
{
    fill(&expected);
    answers_with(form, packets_len, count, table, sizeof *table, ROOM, places, KAWSARPA_ANSWER_BAD_BURST, subject);
}

#endif
