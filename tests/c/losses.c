/*
 * Lost sequence numbers from C: what the readers give of packets written by hand, what offers leave of rows, the example of
 * kawsarpa.h, null pointers with a count of 0. Prints a line for each check.
 */
#include "checks.h"
#include "kawsarpa.h"
#include "numbered.h"

#include <stdio.h>
#include <string.h>

/* THE READERS */

typedef uint64_t reader_function(const uint8_t *, size_t);

static const uint64_t ABCD_OF_01020304 = 0x000101020304ABCD;

static void reads(reader_function *reader, const uint8_t *packet, size_t packet_len, uint64_t expected, const char *subject)
{
    const uint64_t sequence = reader(packet, packet_len);
    char claim[80];
    snprintf(claim, sizeof claim, "gives %012llX; got %012llX", (unsigned long long)expected, (unsigned long long)sequence);
    check(sequence == expected, subject, claim);
}

/* The same for the packet with other octets from a place on. */
static void reads_changed(reader_function *reader, const uint8_t *packet, size_t packet_len, size_t at, const uint8_t *octets, size_t count,
                          uint64_t expected, const char *subject)
{
    uint8_t changed[sizeof over_srh];
    memcpy(changed, packet, packet_len);
    memcpy(changed + at, octets, count);
    reads(reader, changed, packet_len, expected, subject);
}

static void nothing_read(reader_function *reader, const uint8_t *packet, size_t packet_len, size_t at, uint8_t octet, const char *subject)
{
    reads_changed(reader, packet, packet_len, at, &octet, 1, 0, subject);
}

/* A packet with a number, its GTP-U header at a place: the number, with S alone; TEID and number at their ends; what is no G-PDU; the
   packet cut short. */
static void check_reader(reader_function *reader, const uint8_t *packet, size_t packet_len, size_t gtpu, const char *over)
{
    static const uint8_t ends[2][6] = {{0, 0, 0, 0, 0, 0}, {0xFF, 0xFF, 0xFF, 0xFF, 0xFF, 0xFF}};
    char subject[80];
    uint8_t flags;
    size_t length, found = 0;

    reads(reader, packet, packet_len, ABCD_OF_01020304, over);
    for (flags = 0x30; flags <= 0x3F; flags++) {
        snprintf(subject, sizeof subject, "flags %02X over %s", (unsigned int)flags, over);
        reads_changed(reader, packet, packet_len, gtpu + FLAGS, &flags, 1, (flags & 2) != 0 ? ABCD_OF_01020304 : 0, subject);
    }
    snprintf(subject, sizeof subject, "TEID 0 and number 0 over %s", over);
    reads_changed(reader, packet, packet_len, gtpu + TEID, ends[0], 6, 0x0001000000000000, subject);
    snprintf(subject, sizeof subject, "the highest TEID and number over %s", over);
    reads_changed(reader, packet, packet_len, gtpu + TEID, ends[1], 6, 0x0001FFFFFFFFFFFF, subject);

    snprintf(subject, sizeof subject, "Echo Request over %s", over);
    nothing_read(reader, packet, packet_len, gtpu + MESSAGE_TYPE, 1, subject);
    snprintf(subject, sizeof subject, "GTP-U version 2 over %s", over);
    nothing_read(reader, packet, packet_len, gtpu + FLAGS, 0x56, subject);
    snprintf(subject, sizeof subject, "GTP-U length one less over %s", over);
    nothing_read(reader, packet, packet_len, gtpu + MESSAGE_LENGTH, 9, subject);
    snprintf(subject, sizeof subject, "UDP port 2153 over %s", over);
    nothing_read(reader, packet, packet_len, gtpu - 5, 0x69, subject);
    snprintf(subject, sizeof subject, "UDP length one more over %s", over);
    nothing_read(reader, packet, packet_len, gtpu - 3, 27, subject);

    for (length = 0; length < packet_len; length++)
        found += reader(packet, length) != 0;
    check(found == 0, over, "cut by one octet, or by more, it has no number");
}

static void check_readers(void)
{
    check_reader(kawsarpa_sequence_ipv6, over_ipv6, sizeof over_ipv6, GTPU_OVER_IPV6, "IPv6");
    check_reader(kawsarpa_sequence_ipv6, over_srh, sizeof over_srh, GTPU_OVER_SRH, "IPv6 with SRH");
    check_reader(kawsarpa_sequence_ipv4, over_ipv4, sizeof over_ipv4, GTPU_OVER_IPV4, "IPv4");

    reads(kawsarpa_sequence_ipv6, without_inner, sizeof without_inner, ABCD_OF_01020304, "twelve octets of GTP-U");
    reads(kawsarpa_sequence_ipv6, without_number, sizeof without_number, 0, "eight octets of GTP-U with S");

    nothing_read(kawsarpa_sequence_ipv6, over_ipv6, sizeof over_ipv6, 5, 25, "IPv6 payload length one less");
    nothing_read(kawsarpa_sequence_ipv6, over_srh, sizeof over_srh, 43, 1, "SL 1");
    nothing_read(kawsarpa_sequence_ipv6, over_srh, sizeof over_srh, 42, 2, "routing type 2");
    nothing_read(kawsarpa_sequence_ipv6, over_ipv6, sizeof over_ipv6, 6, 6, "TCP over IPv6");
    reads(kawsarpa_sequence_ipv6, fragment_over_ipv6, sizeof fragment_over_ipv6, 0, "fragment over IPv6");

    nothing_read(kawsarpa_sequence_ipv4, over_ipv4, sizeof over_ipv4, 11, 0x7A, "wrong IPv4 checksum");
    reads_changed(kawsarpa_sequence_ipv4, over_ipv4, sizeof over_ipv4, 0, shorter, sizeof shorter, 0, "IPv4 length one less");
    reads_changed(kawsarpa_sequence_ipv4, over_ipv4, sizeof over_ipv4, 0, first_fragment, sizeof first_fragment, 0,
                  "first fragment over IPv4");
    reads_changed(kawsarpa_sequence_ipv4, over_ipv4, sizeof over_ipv4, 0, last_fragment, sizeof last_fragment, 0,
                  "last fragment over IPv4");

    reads(kawsarpa_sequence_ipv4, over_ipv6, sizeof over_ipv6, 0, "IPv6 packet to the IPv4 reader");
    reads(kawsarpa_sequence_ipv6, over_ipv4, sizeof over_ipv4, 0, "IPv4 packet to the IPv6 reader");

    reads(kawsarpa_call_sequence_ipv6, over_ipv6, sizeof over_ipv6, ABCD_OF_01020304, "call_sequence_ipv6");
    reads(kawsarpa_call_sequence_ipv4, over_ipv4, sizeof over_ipv4, ABCD_OF_01020304, "call_sequence_ipv4");
    reads(kawsarpa_call_sequence_ipv6, NULL, 0, 0, "NULL packet over IPv6");
    reads(kawsarpa_call_sequence_ipv4, NULL, 0, 0, "NULL packet over IPv4");
}

static void check_parts(void)
{
    const uint64_t sequence = 0x0001A1B2C3D4E5F6, zeros = 0x0001000000000000;
    check(kawsarpa_sequence_teid(sequence) == 0xA1B2C3D4 && kawsarpa_sequence_number(sequence) == 0xE5F6, "parts of a sequence",
          "each reads its own bits");
    check(kawsarpa_sequence_found(sequence) && kawsarpa_sequence_found(zeros) && !kawsarpa_sequence_found(0), "kawsarpa_sequence_found",
          "all but 0, so TEID 0 with number 0 too");
    check(kawsarpa_sequence_teid(zeros) == 0 && kawsarpa_sequence_number(zeros) == 0, "parts of a sequence", "bit 48 is in neither");
}

/* AN OFFER AND WHAT IT LEAVES */

enum { MOST = KAWSARPA_LOSS_ROWS_MAX + 1, GUARD = 2 };

/* The rows that are lent lie between others, which must stay as they are too; and what all of them must be. */
static struct kawsarpa_loss_row space[GUARD + MOST + GUARD], expected[GUARD + MOST + GUARD];
static size_t lent;

static struct kawsarpa_loss_row row(uint32_t teid, uint16_t first, uint16_t highest, uint32_t seen, uint32_t new_, uint32_t repeated,
                                    uint32_t late, uint64_t lost)
{
    const struct kawsarpa_loss_row made = {teid, first, highest, seen, new_, repeated, late, lost};
    return made;
}

/* So many rows, all free, are lent from here on; every octet of the others is A5. */
static void lend(size_t count)
{
    memset(space, 0xA5, sizeof space);
    memset(space + GUARD, 0, count * sizeof space[0]);
    memcpy(expected, space, sizeof space);
    lent = count;
}

/* The row at a place, before an offer. */
static void set(size_t place, struct kawsarpa_loss_row is)
{
    space[GUARD + place] = is;
    expected[GUARD + place] = is;
}

typedef uint64_t offer_function(struct kawsarpa_loss_row *, size_t, uint32_t, uint16_t);

static void offered_by(offer_function *offer, uint32_t teid, uint16_t number, uint64_t answer, const char *subject)
{
    const uint64_t got = offer(space + GUARD, lent, teid, number);
    char claim[80];
    size_t i = 0;
    snprintf(claim, sizeof claim, "answer %u; got %llX", (unsigned int)answer, (unsigned long long)got);
    check(got == answer, subject, claim);
    while (i < GUARD + MOST + GUARD && memcmp(&space[i], &expected[i], sizeof space[i]) == 0)
        i++;
    snprintf(claim, sizeof claim, "every octet of every row is the expected one");
    if (i < GUARD + MOST + GUARD)
        snprintf(claim, sizeof claim, "row %d is the expected one", (int)i - GUARD);
    check(i == GUARD + MOST + GUARD, subject, claim);
}

/* The row at a place is this one behind the offer, and the others are as they were. */
static void counted(size_t place, struct kawsarpa_loss_row left, uint32_t teid, uint16_t number, const char *subject)
{
    expected[GUARD + place] = left;
    offered_by(kawsarpa_loss_offer, teid, number, 0, subject);
}

static void refused(uint32_t teid, uint16_t number, unsigned int answer, const char *subject)
{
    offered_by(kawsarpa_loss_offer, teid, number, answer, subject);
}

/* THE PARTS */

static void check_row(void)
{
    /* clang-format off */
    static const uint8_t octets[32] = {
        /* TEID 01020304, first 0506, highest 0708, all in the order of x86-64 */
        0x04, 0x03, 0x02, 0x01, 0x06, 0x05, 0x08, 0x07,
        /* seen, new, repeated, late */
        0x0C, 0x0B, 0x0A, 0x09, 0x10, 0x0F, 0x0E, 0x0D, 0x14, 0x13, 0x12, 0x11, 0x18, 0x17, 0x16, 0x15,
        /* lost */
        0x20, 0x1F, 0x1E, 0x1D, 0x1C, 0x1B, 0x1A, 0x19};
    /* clang-format on */
    struct kawsarpa_loss_row by_name;
    by_name.teid = 0x01020304;
    by_name.first = 0x0506;
    by_name.highest = 0x0708;
    by_name.seen = 0x090A0B0C;
#ifdef __cplusplus
    by_name.new_ = 0x0D0E0F10;
#else
    by_name.new = 0x0D0E0F10;
#endif
    by_name.repeated = 0x11121314;
    by_name.late = 0x15161718;
    by_name.lost = 0x191A1B1C1D1E1F20;
    check(sizeof by_name == sizeof octets && memcmp(&by_name, octets, sizeof octets) == 0, "a row", "it has the expected octets");
}

/* What is counted; the rows are all free at the start. */
static void check_distances(void)
{
    lend(4);
    counted(0, row(7, 100, 100, 1, 1, 0, 0, 0), 7, 100, "first");
    counted(0, row(7, 100, 101, 2, 2, 0, 0, 0), 7, 101, "next");
    counted(0, row(7, 100, 105, 3, 3, 0, 0, 3), 7, 105, "gap of three");
    counted(0, row(7, 100, 105, 4, 3, 1, 0, 3), 7, 105, "repeat");
    counted(0, row(7, 100, 105, 5, 3, 1, 1, 3), 7, 103, "late");
    counted(1, row(8, 9, 9, 1, 1, 0, 0, 0), 8, 9, "first of another TEID");
    counted(0, row(7, 100, 106, 6, 4, 1, 1, 3), 7, 106, "next behind another TEID");

    lend(1);
    counted(0, row(7, 0, 0, 1, 1, 0, 0, 0), 7, 0, "first, 0");
    counted(0, row(7, 0, 0, 2, 1, 0, 1, 0), 7, 32768, "-32,768 is late");
    counted(0, row(7, 0, 32767, 3, 2, 0, 1, 32766), 7, 32767, "+32,767 is new");
    counted(0, row(7, 0, 65534, 4, 3, 0, 1, 65532), 7, 65534, "+32,767 again");
    counted(0, row(7, 0, 65535, 5, 4, 0, 1, 65532), 7, 65535, "65,535");
    counted(0, row(7, 0, 0, 6, 5, 0, 1, 65532), 7, 0, "0 behind 65,535");
    counted(0, row(7, 0, 0, 7, 5, 0, 2, 65532), 7, 65535, "65,535 behind 0 is late");
    counted(0, row(7, 0, 0, 8, 5, 0, 3, 65532), 7, 32768, "-32,768 behind 0");

    lend(1);
    counted(0, row(7, 65534, 65534, 1, 1, 0, 0, 0), 7, 65534, "first, 65,534");
    counted(0, row(7, 65534, 1, 2, 2, 0, 0, 2), 7, 1, "gap of two past 65,535");
}

/* Which row serves. Each row that is set has numbers of its own, so that any other would show. */
static void check_places(void)
{
    const struct kawsarpa_loss_row filled = row(7, 1, 2, 0, 3, 4, 5, 6);

    lend(4);
    set(0, row(9, 1, 10, 3, 3, 0, 0, 7));
    set(1, row(7, 1, 10, 3, 3, 0, 0, 7));
    set(2, row(7, 1, 20, 5, 5, 0, 0, 15));
    counted(1, row(7, 1, 11, 4, 4, 0, 0, 7), 7, 11, "the lowest row of the TEID");

    lend(4);
    set(2, row(7, 1, 10, 3, 3, 0, 0, 7));
    counted(2, row(7, 1, 11, 4, 4, 0, 0, 7), 7, 11, "a free row before the TEID's");
    counted(0, row(8, 50, 50, 1, 1, 0, 0, 0), 8, 50, "the lowest free row");
    counted(1, row(9, 60, 60, 1, 1, 0, 0, 0), 9, 60, "the lowest row that is free still");

    lend(4);
    set(0, filled);
    set(2, row(7, 1, 10, 3, 3, 0, 0, 7));
    counted(2, row(7, 1, 11, 4, 4, 0, 0, 7), 7, 11, "a free row that holds the TEID, before the TEID's");
    counted(0, row(8, 50, 50, 1, 1, 0, 0, 0), 8, 50, "a free row that holds another TEID");

    lend(4);
    set(0, row(9, 1, 10, 3, 3, 0, 0, 7));
    set(2, filled);
    counted(1, row(7, 2, 2, 1, 1, 0, 0, 0), 7, 2, "a free row before a free one that holds the TEID");

    lend(1);
    set(0, filled);
    counted(0, row(7, 2, 2, 1, 1, 0, 0, 0), 7, 2, "a free row that holds the TEID begins from 0");

    lend(4);
    counted(0, row(0, 300, 300, 1, 1, 0, 0, 0), 0, 300, "TEID 0");
    counted(0, row(0, 300, 302, 2, 2, 0, 0, 1), 0, 302, "TEID 0 again");
    lend(4);
    set(1, row(0, 1, 10, 3, 3, 0, 0, 7));
    counted(1, row(0, 1, 11, 4, 4, 0, 0, 7), 0, 11, "TEID 0 behind a free row, whose octets are 0");
    counted(0, row(0xFFFFFFFF, 1, 1, 1, 1, 0, 0, 0), 0xFFFFFFFF, 1, "the highest TEID");
}

static void check_refusals(void)
{
    lend(2);
    set(0, row(8, 1, 10, 3, 3, 0, 0, 7));
    set(1, row(9, 1, 10, 0xFFFFFFFF, 3, 0, 0, 7));
    refused(7, 11, KAWSARPA_ANSWER_NO_ROW, "all rows used");
    refused(9, 11, KAWSARPA_ANSWER_ROW_FULL, "a full row, no row free");
    counted(0, row(8, 1, 11, 4, 4, 0, 0, 7), 8, 11, "next of a TEID where all rows are used");

    lend(0);
    refused(7, 11, KAWSARPA_ANSWER_NO_ROW, "0 rows");

    lend(4);
    set(1, row(7, 1, 10, 0xFFFFFFFE, 3, 0, 0, 7));
    set(2, row(7, 1, 20, 5, 5, 0, 0, 15));
    counted(1, row(7, 1, 11, 0xFFFFFFFF, 4, 0, 0, 7), 7, 11, "4,294,967,295 seen");
    refused(7, 12, KAWSARPA_ANSWER_ROW_FULL, "new in a full row, before another of the TEID and free ones");
    refused(7, 11, KAWSARPA_ANSWER_ROW_FULL, "repeat in a full row");
    refused(7, 10, KAWSARPA_ANSWER_ROW_FULL, "late in a full row");
}

/* 257 rows, of which the last is not used. */
static void check_most_rows(void)
{
    const size_t last = KAWSARPA_LOSS_ROWS_MAX - 1;
    uint32_t i;

    lend(MOST);
    for (i = 0; i < last; i++)
        set(i, row(1000 + i, 1, 10, 3, 3, 0, 0, 7));
    set(last + 1, row(7, 1, 20, 5, 5, 0, 0, 15));
    counted(last, row(7, 11, 11, 1, 1, 0, 0, 0), 7, 11, "row 256 is free, row 257 is the TEID's");
    counted(last, row(7, 11, 12, 2, 2, 0, 0, 0), 7, 12, "row 256 and row 257 are the TEID's");

    set(last, row(8, 1, 10, 3, 3, 0, 0, 7));
    refused(7, 21, KAWSARPA_ANSWER_NO_ROW, "row 257 is the TEID's");
    set(last + 1, row(0, 0, 0, 0, 0, 0, 0, 0));
    refused(7, 21, KAWSARPA_ANSWER_NO_ROW, "row 257 is free");
}

/* Rows that no history gives: each count at its end. */
static void check_wraps(void)
{
    lend(1);
    set(0, row(7, 1, 10, 3, 0xFFFFFFFF, 1, 2, 5));
    counted(0, row(7, 1, 11, 4, 0, 1, 2, 5), 7, 11, "new at 2^32");
    set(0, row(7, 1, 10, 3, 1, 0xFFFFFFFF, 2, 5));
    counted(0, row(7, 1, 10, 4, 1, 0, 2, 5), 7, 10, "repeated at 2^32");
    set(0, row(7, 1, 10, 3, 1, 2, 0xFFFFFFFF, 5));
    counted(0, row(7, 1, 10, 4, 1, 2, 0, 5), 7, 9, "late at 2^32");
    set(0, row(7, 1, 10, 3, 1, 2, 3, 0xFFFFFFFFFFFFFFFF));
    counted(0, row(7, 1, 11, 4, 2, 2, 3, 0xFFFFFFFFFFFFFFFF), 7, 11, "lost at its highest, and nothing lost");
    counted(0, row(7, 1, 13, 5, 3, 2, 3, 0), 7, 13, "lost at 2^64");
    set(0, row(7, 1, 10, 3, 1, 2, 3, 0xFFFFFFFFFFFFFFFF));
    counted(0, row(7, 1, 32777, 4, 2, 2, 3, 32765), 7, 32777, "lost past 2^64 by a long gap");
    set(0, row(7, 1, 10, 3, 1, 2, 3, 0xFFFFFFFF));
    counted(0, row(7, 1, 12, 4, 2, 2, 3, 0x100000000), 7, 12, "lost past 2^32");
}

static void check_reset(void)
{
    lend(2);
    counted(0, row(7, 100, 100, 1, 1, 0, 0, 0), 7, 100, "before a reset");
    counted(0, row(7, 100, 104, 2, 2, 0, 0, 3), 7, 104, "before a reset, a gap");
    counted(1, row(8, 9, 9, 1, 1, 0, 0, 0), 8, 9, "before a reset, another TEID");
    memset(&space[GUARD], 0, sizeof space[GUARD]);
    counted(0, row(7, 50, 50, 1, 1, 0, 0, 0), 7, 50, "behind a reset of the row");
    counted(1, row(8, 9, 10, 2, 2, 0, 0, 0), 8, 10, "behind a reset of another row");
    memset(space + GUARD, 0, lent * sizeof space[0]);
    memset(expected + GUARD, 0, lent * sizeof expected[0]);
    counted(0, row(8, 11, 11, 1, 1, 0, 0, 0), 8, 11, "behind a reset of all rows");
}

static void check_wrapper(void)
{
    lend(2);
    expected[GUARD] = row(7, 100, 100, 1, 1, 0, 0, 0);
    offered_by(kawsarpa_call_loss_offer, 7, 100, 0, "call_loss_offer");
    lend(0);
    offered_by(kawsarpa_call_loss_offer, 7, 100, KAWSARPA_ANSWER_NO_ROW, "call_loss_offer, 0 rows");
    check(kawsarpa_call_loss_offer(NULL, 0, 7, 100) == KAWSARPA_ANSWER_NO_ROW, "NULL rows", "answer 25");
}

/* The example of kawsarpa.h, which run.sh takes out of it: what it counts. */
static const struct kawsarpa_loss_row *example(const uint8_t *packet, size_t packet_len)
{
#include "example.h"
    return rows;
}

static void check_example(void)
{
    static struct kawsarpa_loss_row left[KAWSARPA_LOSS_ROWS_MAX];
    const struct kawsarpa_loss_row *rows = example(over_ipv6, sizeof over_ipv6);
    example(without_number, sizeof without_number);
    left[0] = row(0x01020304, 0xABCD, 0xABCD, 1, 1, 0, 0, 0);
    check(memcmp(rows, left, sizeof left) == 0, "the example of kawsarpa.h", "one packet counted, one without a number not");
    example(over_srh, sizeof over_srh);
    left[0] = row(0x01020304, 0xABCD, 0xABCD, 2, 1, 1, 0, 0);
    check(memcmp(rows, left, sizeof left) == 0, "the example of kawsarpa.h", "the same number again is a repeat");
}

int main(void)
{
    check_readers();
    check_parts();
    check_row();
    check_distances();
    check_places();
    check_refusals();
    check_most_rows();
    check_wraps();
    check_reset();
    check_wrapper();
    check_example();

    if (failures != 0) {
        printf("losses: %u of %u checks do not hold\n", failures, checks);
        return 1;
    }
    printf("losses: all %u checks hold\n", checks);
    return 0;
}
