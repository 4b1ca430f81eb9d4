/* Reads lines of `second vectors`, `second burst-vectors`, `second icmp-vectors`, `second loss-vectors`, `second sequence-vectors` and
   `second match-vectors` from standard input and makes their calls through the library. Compared are, of a case, the answer, the octets
   sent and every other octet of the output; of an ICMPv6 message, the same; of a burst, the same and every answer place; of a history,
   each answer and, in the end, every octet of the rows; of a reader, what it gives; of a pair, the mismatch. Status 0: no difference;
   1: a difference, or a line that is not one. */
#include "hex.h"
#include "kawsarpa.h"

#include <limits.h>
#include <stdio.h>
#include <stdlib.h>
#include <string.h>

enum { FIELDS = 11, MARGIN = 64, PLACES = 256, MARGIN_PLACES = 2, ROWS = 512, MARGIN_ROWS = 2, SHOWN = 5 };

/* The fields of a line, in order; those of a burst line, of an icmp line, of a loss line, of a sequence line, of a match line and of one
   for a waypoint. */
enum { KIND, CALL, NUMBER, ICMP_TYPE, ICMP_CODE, ICMP_POINTER, LENGTH, ROOM, PACKET, TABLE, OUT };
enum {
    BURST_CALL = 1,
    BURST_ANSWER,
    BURST_LENGTHS,
    BURST_PACKETS,
    BURST_TABLE,
    BURST_ROOM,
    BURST_PLACES,
    BURST_ANSWERS,
    BURST_OUT,
    BURST_FIELDS
};
enum { ICMP_ANSWER = 1, ICMP_ROOM, ICMP_PACKET, ICMP_TABLE, ICMP_OUT, ICMP_FIELDS };
enum { LOSS_BEFORE = 1, LOSS_OFFERS, LOSS_AFTER, LOSS_FIELDS };
enum { SEQUENCE_CALL = 1, SEQUENCE_VALUE, SEQUENCE_PACKET, SEQUENCE_FIELDS };
enum { MATCH_CALL = 1, MATCH_MISMATCH, MATCH_INDEX, MATCH_NEAR, MATCH_FAR, MATCH_FIELDS };
enum { WAYPOINT_TABLE = 3, WAYPOINT_SID, WAYPOINT_FIELDS };

static uint8_t packet[1 << 17], table[1 << 17], other[1 << 17], expected[1 << 17], out[(1 << 17) + MARGIN];
static uint32_t lengths[PLACES];
static uint64_t numbers[PLACES], answers[PLACES + MARGIN_PLACES];
static struct kawsarpa_loss_row rows[ROWS + MARGIN_ROWS];
static char line[1 << 20];

static uint8_t filler(size_t i)
{
    return (uint8_t)(i * 7 + 3);
}

/* How many fields there are; a field too many counts, but is not kept. */
static int split(char *text, char *fields[FIELDS])
{
    int n = 0;
    for (char *f = strtok(text, " \n"); f != NULL; f = strtok(NULL, " \n"), n++)
        if (n < FIELDS)
            fields[n] = f;
    return n;
}

static int equals(unsigned long value, const char *field)
{
    return value == strtoul(field, NULL, 10);
}

static int is_call(const char *field)
{
    return strcmp(field, "ipv6") == 0 || strcmp(field, "ipv4") == 0;
}

/* What kawsarpa.h says of the two constants: nothing that is sent is longer, and an output of such a size has room. */
static int is_within_constants(uint64_t answer, size_t packet_len, size_t room)
{
    const size_t most = packet_len + KAWSARPA_GROWTH_MAX < KAWSARPA_OUT_MAX ? packet_len + KAWSARPA_GROWTH_MAX : KAWSARPA_OUT_MAX;
    return kawsarpa_answer_length(answer) <= most && (kawsarpa_answer_number(answer) != KAWSARPA_ANSWER_NO_ROOM || room < most);
}

/* The tries of a line: 1: as expected, 0: a difference, -1: no line of vectors. */
static int try_case(char *fields[FIELDS])
{
    const long packet_len = hex_octets(fields[PACKET], packet, sizeof packet);
    const long table_len = hex_octets(fields[TABLE], table, sizeof table);
    const long length = hex_octets(fields[OUT], expected, sizeof expected);
    const size_t room = strtoul(fields[ROOM], NULL, 10);
    const int ipv6 = strcmp(fields[CALL], "ipv6") == 0;
    uint64_t answer;
    if (packet_len < 0 || table_len < 0 || length < 0 || room > sizeof out - MARGIN || !is_call(fields[CALL]))
        return -1;
    for (size_t i = 0; i < room + MARGIN; i++)
        out[i] = filler(i);
    answer = ipv6 ? kawsarpa_call_ipv6(packet, (size_t)packet_len, table, (size_t)table_len, out, room)
                  : kawsarpa_call_ipv4(packet, (size_t)packet_len, table, (size_t)table_len, out, room);
    if (!equals(kawsarpa_answer_number(answer), fields[NUMBER]) || !equals(kawsarpa_answer_icmp_type(answer), fields[ICMP_TYPE]) ||
        !equals(kawsarpa_answer_icmp_code(answer), fields[ICMP_CODE]) ||
        !equals(kawsarpa_answer_icmp_pointer(answer), fields[ICMP_POINTER]) || !equals(kawsarpa_answer_length(answer), fields[LENGTH]) ||
        kawsarpa_answer_length(answer) != (size_t)length)
        return 0;
    if (memcmp(out, expected, (size_t)length) != 0 || !is_within_constants(answer, (size_t)packet_len, room))
        return 0;
    for (size_t i = (size_t)length; i < room + MARGIN; i++)
        if (out[i] != filler(i))
            return 0;
    return 1;
}

/* Numbers with commas between, "-" for none, into `numbers`. Gives their count, or -1 for what is no such list. */
static long list(const char *field, int base)
{
    long n = 0;
    if (strcmp(field, "-") == 0)
        return 0;
    for (const char *at = field; n < PLACES; at++) {
        char *end;
        numbers[n++] = strtoul(at, &end, base);
        if (end == at || (*end != ',' && *end != 0))
            return -1;
        if (*end == 0)
            return n;
        at = end;
    }
    return -1;
}

static uint64_t filler_place(size_t i)
{
    return 0x0102030405060708 * (i + 1);
}

/* The results lie where kawsarpa.h says that they do, one after the other; and one of the two outputs that always have room has it. */
static int is_within_burst(uint64_t answer, size_t packets_len, size_t count, size_t room)
{
    struct kawsarpa_burst_result result;
    size_t end = 0;
    for (size_t i = 0; i < count; i++)
        if (kawsarpa_answer_number(answers[i]) == KAWSARPA_ANSWER_NO_ROOM &&
            (room >= packets_len + count * KAWSARPA_GROWTH_MAX || room >= KAWSARPA_BURST_OUT_MAX))
            return 0;
    kawsarpa_burst_first(&result);
    while (kawsarpa_burst_next(&result, answers, count)) {
        if (result.at != end || result.at != kawsarpa_burst_at(answers, result.packet) || result.length == 0)
            return 0;
        end += result.length;
    }
    return end == kawsarpa_answer_length(answer);
}

/* What is empty is lent as a null pointer. */
static uint64_t call_burst(const char *call, size_t packets_len, size_t count, size_t table_len, size_t room, size_t places)
{
    const uint8_t *packets_at = packets_len == 0 ? NULL : packet;
    const uint32_t *lengths_at = count == 0 ? NULL : lengths;
    const uint8_t *table_at = table_len == 0 ? NULL : table;
    uint8_t *out_at = room == 0 ? NULL : out;
    uint64_t *answers_at = places == 0 ? NULL : answers;
    return strcmp(call, "ipv6") == 0
               ? kawsarpa_call_burst_ipv6(packets_at, packets_len, lengths_at, count, table_at, table_len, out_at, room, answers_at, places)
               : kawsarpa_call_burst_ipv4(packets_at, packets_len, lengths_at, count, table_at, table_len, out_at, room, answers_at,
                                          places);
}

static int try_burst(char *fields[FIELDS])
{
    const long packets_len = hex_octets(fields[BURST_PACKETS], packet, sizeof packet);
    const long table_len = hex_octets(fields[BURST_TABLE], table, sizeof table);
    const long length = hex_octets(fields[BURST_OUT], expected, sizeof expected);
    const size_t room = strtoul(fields[BURST_ROOM], NULL, 10), places = strtoul(fields[BURST_PLACES], NULL, 10);
    const uint64_t wanted = strtoul(fields[BURST_ANSWER], NULL, 16);
    const long count = list(fields[BURST_LENGTHS], 10);
    long answered;
    uint64_t answer;
    if (packets_len < 0 || table_len < 0 || length < 0 || count < 0 || room > sizeof out - MARGIN || places > PLACES ||
        !is_call(fields[BURST_CALL]))
        return -1;
    for (long i = 0; i < count; i++) {
        lengths[i] = (uint32_t)numbers[i];
        if (lengths[i] != numbers[i])
            return -1;
    }
    answered = list(fields[BURST_ANSWERS], 16);
    if (answered < 0 || (size_t)answered > places)
        return -1;
    for (size_t i = 0; i < room + MARGIN; i++)
        out[i] = filler(i);
    for (size_t i = 0; i < places + MARGIN_PLACES; i++)
        answers[i] = filler_place(i);
    answer = call_burst(fields[BURST_CALL], (size_t)packets_len, (size_t)count, (size_t)table_len, room, places);
    if (answer != wanted || kawsarpa_answer_length(answer) != (size_t)length || memcmp(out, expected, (size_t)length) != 0)
        return 0;
    for (size_t i = (size_t)length; i < room + MARGIN; i++)
        if (out[i] != filler(i))
            return 0;
    for (size_t i = 0; i < places + MARGIN_PLACES; i++)
        if (answers[i] != (i < (size_t)answered ? numbers[i] : filler_place(i)))
            return 0;
    return kawsarpa_answer_number(answer) == KAWSARPA_ANSWER_BAD_BURST || is_within_burst(answer, (size_t)packets_len, (size_t)count, room);
}

/* What is empty is lent as a null pointer. kawsarpa.h says that an output of KAWSARPA_ICMP_MAX octets has room. */
static int try_icmp(char *fields[FIELDS])
{
    const long packet_len = hex_octets(fields[ICMP_PACKET], packet, sizeof packet);
    const long table_len = hex_octets(fields[ICMP_TABLE], table, sizeof table);
    const long length = hex_octets(fields[ICMP_OUT], expected, sizeof expected);
    char *end, *room_end;
    const uint64_t wanted = strtoul(fields[ICMP_ANSWER], &end, 16);
    const size_t room = strtoul(fields[ICMP_ROOM], &room_end, 10);
    uint64_t answer;
    if (packet_len < 0 || table_len < 0 || length < 0 || *end != 0 || *room_end != 0 || room > sizeof out - MARGIN)
        return -1;
    for (size_t i = 0; i < room + MARGIN; i++)
        out[i] = filler(i);
    answer = kawsarpa_call_icmp_ipv6(packet_len == 0 ? NULL : packet, (size_t)packet_len, table_len == 0 ? NULL : table, (size_t)table_len,
                                     room == 0 ? NULL : out, room);
    if (answer != wanted || kawsarpa_answer_length(answer) != (size_t)length || memcmp(out, expected, (size_t)length) != 0)
        return 0;
    for (size_t i = (size_t)length; i < room + MARGIN; i++)
        if (out[i] != filler(i))
            return 0;
    return length <= KAWSARPA_ICMP_MAX && (kawsarpa_answer_number(answer) != KAWSARPA_ANSWER_NO_ROOM || room < KAWSARPA_ICMP_MAX);
}

/* Offers are TEID:NUMBER:ANSWER, the TEID in hexadecimal digits, with commas between. */
static int try_loss(char *fields[FIELDS])
{
    uint8_t *octets = (uint8_t *)rows;
    const long before = hex_octets(fields[LOSS_BEFORE], octets, ROWS * sizeof rows[0]);
    const long after = hex_octets(fields[LOSS_AFTER], expected, sizeof expected);
    const size_t length = (size_t)before;
    char *at = fields[LOSS_OFFERS];
    if (before < 0 || after != before || length % sizeof rows[0] != 0)
        return -1;
    for (size_t i = 0; i < MARGIN_ROWS * sizeof rows[0]; i++)
        octets[length + i] = filler(i);
    for (;; at++) {
        const unsigned long teid = strtoul(at, &at, 16);
        const unsigned long number = *at == ':' ? strtoul(at + 1, &at, 10) : ULONG_MAX;
        const unsigned long answer = *at == ':' ? strtoul(at + 1, &at, 10) : ULONG_MAX;
        if (teid > UINT32_MAX || number > UINT16_MAX || answer == ULONG_MAX || (*at != ',' && *at != 0))
            return -1;
        if (kawsarpa_call_loss_offer(rows, length / sizeof rows[0], (uint32_t)teid, (uint16_t)number) != answer)
            return 0;
        if (*at == 0)
            break;
    }
    if (memcmp(octets, expected, length) != 0)
        return 0;
    for (size_t i = 0; i < MARGIN_ROWS * sizeof rows[0]; i++)
        if (octets[length + i] != filler(i))
            return 0;
    return 1;
}

static int try_sequence(char *fields[FIELDS])
{
    const long packet_len = hex_octets(fields[SEQUENCE_PACKET], packet, sizeof packet);
    char *end;
    const uint64_t value = strtoul(fields[SEQUENCE_VALUE], &end, 16);
    if (packet_len < 0 || *end != 0 || !is_call(fields[SEQUENCE_CALL]))
        return -1;
    return value == (strcmp(fields[SEQUENCE_CALL], "ipv6") == 0 ? kawsarpa_call_sequence_ipv6(packet, (size_t)packet_len)
                                                                : kawsarpa_call_sequence_ipv4(packet, (size_t)packet_len));
}

static int try_match(char *fields[FIELDS])
{
    const long near_len = hex_octets(fields[MATCH_NEAR], table, sizeof table);
    const long far_len = hex_octets(fields[MATCH_FAR], other, sizeof other);
    char *end, *index_end;
    const uint64_t mismatch = strtoul(fields[MATCH_MISMATCH], &end, 16);
    const size_t index = strtoul(fields[MATCH_INDEX], &index_end, 10);
    if (near_len < 0 || far_len < 0 || *end != 0 || *index_end != 0 || !is_call(fields[MATCH_CALL]))
        return -1;
    return mismatch == (strcmp(fields[MATCH_CALL], "ipv6") == 0
                            ? kawsarpa_call_match_ipv6(table, (size_t)near_len, index, other, (size_t)far_len)
                            : kawsarpa_call_match_ipv4(table, (size_t)near_len, index, other, (size_t)far_len));
}

static int try_waypoint(char *fields[FIELDS])
{
    const long table_len = hex_octets(fields[WAYPOINT_TABLE], table, sizeof table);
    const long sid_len = hex_octets(fields[WAYPOINT_SID], other, sizeof other);
    char *end;
    const uint64_t mismatch = strtoul(fields[MATCH_MISMATCH], &end, 16);
    if (table_len < 0 || sid_len < 0 || *end != 0 || strcmp(fields[MATCH_CALL], "waypoint") != 0)
        return -1;
    return mismatch == kawsarpa_call_match_waypoint(table, (size_t)table_len, other, (size_t)sid_len);
}

static int try_line(char *fields[FIELDS], int n)
{
    if (n == BURST_FIELDS && strcmp(fields[KIND], "burst") == 0)
        return try_burst(fields);
    if (n == ICMP_FIELDS && strcmp(fields[KIND], "icmp") == 0)
        return try_icmp(fields);
    if (n == LOSS_FIELDS && strcmp(fields[KIND], "loss") == 0)
        return try_loss(fields);
    if (n == SEQUENCE_FIELDS && strcmp(fields[KIND], "sequence") == 0)
        return try_sequence(fields);
    if (n == MATCH_FIELDS && strcmp(fields[KIND], "match") == 0)
        return try_match(fields);
    if (n == WAYPOINT_FIELDS && strcmp(fields[KIND], "match") == 0)
        return try_waypoint(fields);
    return n == FIELDS ? try_case(fields) : -1;
}

/* What a difference is about, in one line. */
static void show(unsigned long number, char *fields[FIELDS], int n)
{
    if (n == FIELDS)
        fprintf(stderr, "vectors: case %lu differs: %s, expected answer %s and length %s\n", number, fields[KIND], fields[NUMBER],
                fields[LENGTH]);
    else
        fprintf(stderr, "vectors: case %lu differs: %s\n", number, fields[KIND]);
}

int main(void)
{
    unsigned long cases = 0, differences = 0;
    while (fgets(line, sizeof line, stdin) != NULL) {
        char *fields[FIELDS];
        int n, as_expected;
        if (line[0] == '#')
            continue;
        cases++;
        n = split(line, fields);
        as_expected = try_line(fields, n);
        if (as_expected < 0) {
            fprintf(stderr, "vectors: case %lu is not a line of vectors\n", cases);
            return 1;
        }
        if (as_expected == 0 && ++differences <= SHOWN)
            show(cases, fields, n);
    }
    printf("vectors: %lu cases, %lu differences\n", cases, differences);
    return cases == 0 || differences != 0;
}
