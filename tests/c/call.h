/* A call and what it leaves: the answer, the octets of the output that are sent, and that every other octet stays as it is. */
#ifndef CALL_H
#define CALL_H

#include "checks.h"
#include "kawsarpa.h"
#include "table.h"

#include <stdio.h>

typedef uint64_t call_function(const uint8_t *, size_t, const uint8_t *, size_t, uint8_t *, size_t);

/* More room than any result needs that is compared: a program that includes this says how much. */
enum { ROOM = CALL_ROOM, GUARD = 16, BUFFER = GUARD + ROOM + GUARD };

/* The output that is lent lies within this buffer: octets before and behind it must stay as they are too. */
static uint8_t buffer[BUFFER];

static uint8_t filling(size_t i)
{
    return (uint8_t)(0xA5 ^ (i & 0xFF));
}

static void fill(void)
{
    size_t i;
    for (i = 0; i < BUFFER; i++)
        buffer[i] = filling(i);
}

static int filled(size_t from, size_t to)
{
    size_t i;
    for (i = from; i < to; i++)
        if (buffer[i] != filling(i))
            return 0;
    return 1;
}

static void check_answer(uint64_t answer, unsigned int number, unsigned int type, unsigned int code, unsigned int pointer, size_t length,
                         const char *subject)
{
    char claim[160];
    int holds = kawsarpa_answer_number(answer) == number && kawsarpa_answer_icmp_type(answer) == type &&
                kawsarpa_answer_icmp_code(answer) == code && kawsarpa_answer_icmp_pointer(answer) == pointer &&
                kawsarpa_answer_length(answer) == length;
    int written = snprintf(claim, sizeof claim, "answer %u (%s), ICMP %u %u %u, length %u", number, kawsarpa_answer_name(number), type,
                           code, pointer, (unsigned int)length);
    if (!holds && written > 0 && (size_t)written < sizeof claim)
        snprintf(claim + written, sizeof claim - (size_t)written, "; got %u, ICMP %u %u %u, length %u",
                 (unsigned int)kawsarpa_answer_number(answer), (unsigned int)kawsarpa_answer_icmp_type(answer),
                 (unsigned int)kawsarpa_answer_icmp_code(answer), (unsigned int)kawsarpa_answer_icmp_pointer(answer),
                 (unsigned int)kawsarpa_answer_length(answer));
    check(holds, subject, claim);
}

static void check_octets(const uint8_t *expected, size_t expected_len, const char *subject)
{
    const uint8_t *out = buffer + GUARD;
    char claim[80] = "the octets are the expected ones";
    size_t i = 0;
    while (i < expected_len && out[i] == expected[i])
        i++;
    if (i < expected_len)
        snprintf(claim, sizeof claim, "octet %u is %02X; got %02X", (unsigned int)i, (unsigned int)expected[i], (unsigned int)out[i]);
    check(i == expected_len, subject, claim);
}

static void refused_in(size_t room, call_function *call, const uint8_t *packet, size_t packet_len, const void *table, size_t table_len,
                       unsigned int number, unsigned int type, unsigned int code, unsigned int pointer, const char *subject)
{
    uint64_t answer;
    fill();
    answer = call(packet, packet_len, (const uint8_t *)table, table_len, buffer + GUARD, room);
    check_answer(answer, number, type, code, pointer, 0, subject);
    check(filled(0, BUFFER), subject, "no octet of the output is changed");
}

static void refused(call_function *call, const uint8_t *packet, size_t packet_len, const void *table, size_t table_len, unsigned int number,
                    const char *subject)
{
    refused_in(ROOM, call, packet, packet_len, table, table_len, number, 0, 0, 0, subject);
}

static void sent_in(size_t room, call_function *call, const uint8_t *packet, size_t packet_len, const struct table *table,
                    const uint8_t *expected, size_t expected_len, const char *subject)
{
    uint64_t answer;
    fill();
    answer = call(packet, packet_len, (const uint8_t *)table, sizeof *table, buffer + GUARD, room);
    check_answer(answer, KAWSARPA_ANSWER_SENT, 0, 0, 0, expected_len, subject);
    check_octets(expected, expected_len, subject);
    check(filled(0, GUARD) && filled(GUARD + expected_len, BUFFER), subject, "no other octet is changed");
}

/* Sent with more room than is needed; refused with one octet too few; sent with just enough, which is what the buffer then holds. */
static void sent(call_function *call, const uint8_t *packet, size_t packet_len, const struct table *table, const uint8_t *expected,
                 size_t expected_len, const char *subject)
{
    char with_room[80];
    sent_in(ROOM, call, packet, packet_len, table, expected, expected_len, subject);
    snprintf(with_room, sizeof with_room, "%s, room %u", subject, (unsigned int)(expected_len - 1));
    refused_in(expected_len - 1, call, packet, packet_len, table, sizeof *table, KAWSARPA_ANSWER_NO_ROOM, 0, 0, 0, with_room);
    snprintf(with_room, sizeof with_room, "%s, room %u", subject, (unsigned int)expected_len);
    sent_in(expected_len, call, packet, packet_len, table, expected, expected_len, with_room);
}

#endif
