/*
 * Kawsarpa: translation between GTP-U and SRv6 (RFC 9433), a packet at a time or up to 32.
 *
 * A call is lent a packet, a table and a buffer for the packet to send, and answers with one number:
 *
 *     uint64_t answer = kawsarpa_call_ipv6(packet, packet_len, table, table_len, out, sizeof out);
 *     if (kawsarpa_answer_number(answer) == KAWSARPA_ANSWER_SENT)
 *         send_on(out, kawsarpa_answer_length(answer));
 *
 * kawsarpa_burst_ipv6 and _ipv4 take up to 32 packets a call. kawsarpa_icmp_ipv6 builds the ICMPv6 message about a packet that was
 * refused. kawsarpa_table_fault says of a table, before it is used, which condition it breaks, if any. kawsarpa_match_ipv6, _ipv4 and
 * _waypoint say of the tables of both ends, and of those between, whether they fit. kawsarpa_loss_offer counts the sequence numbers that
 * were lost on the way, for the stations that send them.
 *
 * The parts of this file: the version, the calls, what they answer, ICMPv6 messages, bursts, lost sequence numbers, the faults of a
 * table, tables that fit, the octets of a table. The library is for x86-64.
 */
#ifndef KAWSARPA_H
#define KAWSARPA_H

#include <assert.h>
#include <stddef.h>
#include <stdint.h>
#include <string.h>

/*
 * A number as another type, an address as a number, and what stands at an address as octets, in the words of either language. All are
 * undefined again at the end.
 */
#ifdef __cplusplus
#define KAWSARPA_AS(type, number) static_cast<type>(number)
#define KAWSARPA_ADDRESS(pointer) reinterpret_cast<uintptr_t>(pointer)
#define KAWSARPA_OCTETS(pointer) reinterpret_cast<const uint8_t *>(pointer)
#else
#define KAWSARPA_AS(type, number) ((type)(number))
#define KAWSARPA_ADDRESS(pointer) ((uintptr_t)(pointer))
#define KAWSARPA_OCTETS(pointer) ((const uint8_t *)(pointer))
#endif

/*
 * THE VERSION
 *
 * Of this header, and of the library and the tool that were built with it. CHANGELOG.md says what each version brought.
 */
#define KAWSARPA_VERSION_MAJOR 0
#define KAWSARPA_VERSION_MINOR 8
#define KAWSARPA_VERSION_PATCH 0

/* The same as a string: "1.2.3" for 1, 2 and 3. */
#define KAWSARPA_VERSION KAWSARPA_VERSION_OF(KAWSARPA_VERSION_MAJOR, KAWSARPA_VERSION_MINOR, KAWSARPA_VERSION_PATCH)
#define KAWSARPA_VERSION_OF(major, minor, patch) KAWSARPA_VERSION_TEXT(major, minor, patch)
#define KAWSARPA_VERSION_TEXT(major, minor, patch) #major "." #minor "." #patch

/*
 * THE CALLS
 *
 * kawsarpa_translate_ipv6 takes an IPv6 packet, looks its destination up among the table's entries and does what the longest match
 * says: a waypoint (an SRv6 End node), D, Di, E6 or E4.
 * kawsarpa_translate_ipv4 takes an IPv4 packet, looks its destination up among the table's rules and does H.M.GTP4.D (D4).
 * kawsarpa_waypoint is the IPv6 call under another name: it gives the same answer and the same octets, whatever kind of entry
 * matches. It is not confined to waypoint entries, because the list of answers has no number for "matched, but another kind".
 * kawsarpa_table_fault takes a table alone and tells its fault: 0 exactly when the table is sound.
 *
 * At D, Di and D4 an Echo Request (TS 29.281, type 1), by which a base station sees whether the path is alive, is answered and not
 * translated: with S set and TEID 0 the call answers 0, and the output is the Echo Response (type 2) with the request's sequence number
 * and the Recovery element 0E 00. Its addresses are those of the request exchanged, its ports 2152 and the request's source port. The
 * caller sends it like any other packet. kawsarpa_is_echo_response tells it from a packet that is sent on.
 *
 * Over IPv6 the UDP checksum is computed (RFC 8200, section 8.1): in what E6 sends and in an Echo Response, with FFFF in the place of a
 * computed 0. D and Di verify it in what arrives, in Echo Requests too; an entry may allow a checksum of 0 there, which is then not
 * verified (zero_checksum). Over IPv4 it is written as 0, and not examined.
 *
 * A refusal changes no octet of the output. A packet that is sent changes the first octets of the output, as many as the answer's
 * length says, and no other octet. An output of KAWSARPA_OUT_MAX octets, or of KAWSARPA_GROWTH_MAX more than the packet has, always
 * has room.
 *
 * The caller owes this, and nothing else:
 * - no pointer is null, and each is valid for its count (with a count of 0 any address that is not null will do);
 * - the output overlaps neither the packet nor the table;
 * - packet and table do not change during the call.
 * Any octets may stand in them: what is not a packet, or not a sound table, is refused.
 *
 * No state is kept from call to call. Any number of threads may call at the same time, each with an output of its own, and they may
 * share packets and tables. A new table is a new buffer, swapped in between calls.
 */
#ifdef __cplusplus
extern "C" {
#endif

uint64_t kawsarpa_translate_ipv6(const uint8_t *packet, size_t packet_len, const uint8_t *table, size_t table_len, uint8_t *out,
                                 size_t out_len);

uint64_t kawsarpa_translate_ipv4(const uint8_t *packet, size_t packet_len, const uint8_t *table, size_t table_len, uint8_t *out,
                                 size_t out_len);

uint64_t kawsarpa_waypoint(const uint8_t *packet, size_t packet_len, const uint8_t *table, size_t table_len, uint8_t *out, size_t out_len);

uint64_t kawsarpa_table_fault(const uint8_t *table, size_t table_len);

#ifdef __cplusplus
}
#endif

/*
 * How much longer a packet leaves than it arrived, and how long it is then, at most, in octets. In front of the inner packet:
 *
 *               is written at most                          is taken away at least                       grows by at most
 *     D         IPv6 40, SRH 8 + 16 x 8 SIDs         = 176  IPv6 40, UDP 8, GTP-U 12, container 4 = 64   112
 *     Di        IPv6 40, SRH 8 + 16 x (8 + 1) SIDs   = 192  the same                              = 64   128
 *     D4        IPv6 40, SRH 8 + 16 x (7 + 1) SIDs   = 176  IPv4 20, UDP 8, GTP-U 12, container 4 = 44   132
 *     E6        IPv6 40, UDP 8, GTP-U 12, container 4 = 64  IPv6 40, SRH 8 + 16                   = 64   0
 *     E4        IPv4 20, UDP 8, GTP-U 12, container 4 = 44  IPv6 40                               = 40   4
 *     Echo      IPv6 40, UDP 8, GTP-U 12, Recovery 2  = 62  IPv6 40, UDP 8, GTP-U 12              = 60   2
 *               IPv4 20, UDP 8, GTP-U 12, Recovery 2  = 42  IPv4 20, UDP 8, GTP-U 12              = 40   2
 *     waypoint  what was there                                                                           0
 *
 * What is sent is longest with an IPv6 payload of 65,535 octets, behind 40 of header. D4 with 7 waypoints reaches both at once, with a
 * packet of 65,443 octets.
 */
enum {
    KAWSARPA_GROWTH_MAX = 132,
    KAWSARPA_OUT_MAX = 65575
};

/* 1 where two pieces of memory have no octet in common, else 0. */
static inline int kawsarpa_apart(const uint8_t *one, size_t one_len, const uint8_t *other, size_t other_len)
{
    const uintptr_t at = KAWSARPA_ADDRESS(one);
    const uintptr_t other_at = KAWSARPA_ADDRESS(other);
    return one_len == 0 || other_len == 0 || (at < other_at ? other_at - at >= one_len : at - other_at >= other_len);
}

/*
 * The same calls, for a caller whose pointer may be null where the count is 0. Those with an output assert (assert.h) that it overlaps
 * neither the packet nor the table; with NDEBUG defined that costs nothing.
 */

static inline uint64_t kawsarpa_call_ipv6(const uint8_t *packet, size_t packet_len, const uint8_t *table, size_t table_len, uint8_t *out,
                                          size_t out_len)
{
    uint8_t none = 0;
    assert(kawsarpa_apart(out, out_len, packet, packet_len));
    assert(kawsarpa_apart(out, out_len, table, table_len));
    return kawsarpa_translate_ipv6(packet_len == 0 ? &none : packet, packet_len, table_len == 0 ? &none : table, table_len,
                                   out_len == 0 ? &none : out, out_len);
}

static inline uint64_t kawsarpa_call_ipv4(const uint8_t *packet, size_t packet_len, const uint8_t *table, size_t table_len, uint8_t *out,
                                          size_t out_len)
{
    uint8_t none = 0;
    assert(kawsarpa_apart(out, out_len, packet, packet_len));
    assert(kawsarpa_apart(out, out_len, table, table_len));
    return kawsarpa_translate_ipv4(packet_len == 0 ? &none : packet, packet_len, table_len == 0 ? &none : table, table_len,
                                   out_len == 0 ? &none : out, out_len);
}

static inline uint64_t kawsarpa_call_waypoint(const uint8_t *packet, size_t packet_len, const uint8_t *table, size_t table_len,
                                              uint8_t *out, size_t out_len)
{
    uint8_t none = 0;
    assert(kawsarpa_apart(out, out_len, packet, packet_len));
    assert(kawsarpa_apart(out, out_len, table, table_len));
    return kawsarpa_waypoint(packet_len == 0 ? &none : packet, packet_len, table_len == 0 ? &none : table, table_len,
                             out_len == 0 ? &none : out, out_len);
}

static inline uint64_t kawsarpa_call_table_fault(const uint8_t *table, size_t table_len)
{
    uint8_t none = 0;
    return kawsarpa_table_fault(table_len == 0 ? &none : table, table_len);
}

/*
 * WHAT A CALL ANSWERS
 *
 * Number in bits 0 to 7, ICMP type in 8 to 15, ICMP code in 16 to 23, ICMP pointer in 24 to 39, length in 40 to 63.
 */

/*
 * The first number that applies, in this order: 1 to 9, 18, 10, 17 (of an Echo Request) or 11 (of other messages), 12 to 16. A burst as a
 * whole answers 0 or 19.
 */
static inline uint8_t kawsarpa_answer_number(uint64_t answer)
{
    return KAWSARPA_AS(uint8_t, answer & 0xFF);
}

/* What an ICMPv6 message about the packet says; 0 throughout where there is none to send. The library sends none itself.
   kawsarpa_icmp_ipv6 builds the message. */
static inline uint8_t kawsarpa_answer_icmp_type(uint64_t answer)
{
    return KAWSARPA_AS(uint8_t, answer >> 8 & 0xFF);
}

static inline uint8_t kawsarpa_answer_icmp_code(uint64_t answer)
{
    return KAWSARPA_AS(uint8_t, answer >> 16 & 0xFF);
}

static inline uint16_t kawsarpa_answer_icmp_pointer(uint64_t answer)
{
    return KAWSARPA_AS(uint16_t, answer >> 24 & 0xFFFF);
}

/* The length of the packet in the output; 0 for a refusal. */
static inline size_t kawsarpa_answer_length(uint64_t answer)
{
    return answer >> 40;
}

/* The answer numbers. SL is Segments Left, LE is Last Entry. */
enum {
    /* sent: no other number applies */
    KAWSARPA_ANSWER_SENT = 0,
    /* the table is not sound */
    KAWSARPA_ANSWER_UNSOUND = 1,
    /* shorter than 40 (IPv4: 20) octets, wrong version, or the length field disagrees with the packet lent */
    KAWSARPA_ANSWER_MALFORMED = 2,
    /* IPv4: header length not 5, wrong checksum, a fragment */
    KAWSARPA_ANSWER_BAD_HEADER4 = 3,
    /* no entry or rule matches */
    KAWSARPA_ANSWER_NO_MATCH = 4,
    /* next header 0, 44 or 60 in the chain, a second 43, routing type not 4, SRH cut short, or E6 without SRH */
    KAWSARPA_ANSWER_BAD_CHAIN = 5,
    /* waypoint, SL > 0, hop limit 0 or 1: Time Exceeded code 0 */
    KAWSARPA_ANSWER_HOP_LIMIT = 6,
    /* SL not 0 (D, Di, E4) or not 1 (E6); at E6 and at a waypoint with SL > 0, LE beyond the segments held; at that waypoint also
       SL > LE + 1: Parameter Problem code 0, pointer 43 */
    KAWSARPA_ANSWER_SEGMENTS_LEFT = 7,
    /* D, Di: not UDP, or destination port not 2152; E6, E4: next header not the session's; waypoint: SL 0 or no SRH: Parameter
       Problem code 4, pointer at the upper-layer header. D4: not UDP, or another port: no ICMP */
    KAWSARPA_ANSWER_UPPER_LAYER = 8,
    /* UDP under 8 octets, or its length disagrees */
    KAWSARPA_ANSWER_BAD_UDP = 9,
    /* GTP-U header cut short, not version 1 or PT 1, or length disagrees */
    KAWSARPA_ANSWER_BAD_GTPU = 10,
    /* GTP-U message type neither 255 (G-PDU) nor 1 (Echo Request) */
    KAWSARPA_ANSWER_NOT_G_PDU = 11,
    /* an extension type but 0x85, a second container, unit count 0 or past the end */
    KAWSARPA_ANSWER_BAD_EXTENSIONS = 12,
    /* no PDU Session container, or not the entry's direction */
    KAWSARPA_ANSWER_BAD_CONTAINER = 13,
    /* IPv4v6 session: inner packet empty, or its first nibble not 4 or 6 */
    KAWSARPA_ANSWER_BAD_INNER = 14,
    /* a length field would pass 65,535 */
    KAWSARPA_ANSWER_TOO_LONG = 15,
    /* the output is shorter than the result */
    KAWSARPA_ANSWER_NO_ROOM = 16,
    /* an Echo Request (type 1) without S or with a TEID other than 0; in the place of 11 for that type */
    KAWSARPA_ANSWER_BAD_ECHO = 17,
    /* D, Di: UDP checksum wrong, or 0 where the entry does not allow it; between 9 and 10 */
    KAWSARPA_ANSWER_BAD_CHECKSUM = 18,
    /* bursts only: over 32 lengths, lengths that do not add up to the input, or fewer places for answers than lengths */
    KAWSARPA_ANSWER_BAD_BURST = 19,
    /* ICMPv6 messages only: none is due; it has no name */
    KAWSARPA_ANSWER_NONE_DUE = 23,
    /* offers only: no row is free for a new TEID */
    KAWSARPA_ANSWER_NO_ROW = 25,
    /* offers only: the row has seen 4,294,967,295 */
    KAWSARPA_ANSWER_ROW_FULL = 26
};

/* ICMPv6 types (RFC 4443): answer 6 has the first, answers 7 and 8 the second. */
enum {
    KAWSARPA_ICMP_TIME_EXCEEDED = 3,
    KAWSARPA_ICMP_PARAMETER_PROBLEM = 4
};

/* A short name for an answer number; "unknown" for a number that is not in the list. */
static inline const char *kawsarpa_answer_name(unsigned int number)
{
    /* clang-format off */
    static const char *const names[] = {
        "sent", "table not sound", "malformed packet", "bad IPv4 header", "no match", "bad header chain", "hop limit exceeded",
        "bad segments left", "bad upper layer", "bad UDP", "bad GTP-U", "not a G-PDU", "bad extensions", "bad container",
        "bad inner packet", "too long", "no room", "bad Echo Request", "bad UDP checksum", "bad burst", 0, 0, 0, 0, 0, "no row free",
        "row full"
    };
    /* clang-format on */
    return number < sizeof names / sizeof names[0] && names[number] != 0 ? names[number] : "unknown";
}

/* The length of an Echo Response that a call sends. */
enum {
    KAWSARPA_ECHO_RESPONSE_IPV6 = 62,
    KAWSARPA_ECHO_RESPONSE_IPV4 = 42
};

/*
 * 1 where what a call sent, with answer 0, is an Echo Response of its own, 0 where it is a packet that is sent on. That is exact: beside
 * it E6 and E4 alone send UDP (17), always a G-PDU (255) of 64 octets or more, over IPv4 44; all else is IPv6 with another next header.
 */
static inline int kawsarpa_is_echo_response(const uint8_t *sent, size_t length)
{
    if (length == KAWSARPA_ECHO_RESPONSE_IPV6)
        return sent[0] >> 4 == 6 && sent[6] == 17 && sent[49] == 2;
    return length == KAWSARPA_ECHO_RESPONSE_IPV4 && sent[0] >> 4 == 4 && sent[29] == 2;
}

/*
 * ICMPV6 MESSAGES
 *
 * kawsarpa_icmp_ipv6 is lent what the IPv6 call is lent. For a packet that the IPv6 call answers 6, 7 or 8 it builds the ICMPv6 error
 * message of RFC 4443, which says at the packet's source what became of it:
 *
 *     uint64_t answer = kawsarpa_call_ipv6(packet, packet_len, table, table_len, out, out_len);
 *     if (kawsarpa_answer_icmp_type(answer) != 0) {
 *         uint64_t message = kawsarpa_call_icmp_ipv6(packet, packet_len, table, table_len, out, out_len);
 *         if (kawsarpa_answer_number(message) == KAWSARPA_ANSWER_SENT)
 *             send_on(out, kawsarpa_answer_length(message));
 *     }
 *
 *     IPv6     traffic class 0, flow label 0, next header 58; source and hop limit of the entry that is the longest match for the
 *              packet's destination, of whatever kind; destination the packet's source
 *     ICMPv6   type, code and pointer as the IPv6 call answers them; in Time Exceeded, which has no pointer, 0 stands in its place; the
 *              checksum, in which a computed 0 stays 0
 *     then     the packet as it arrived, from its first octet on: all of it, or its first 1,232 octets, so that the whole has at most
 *              KAWSARPA_ICMP_MAX
 *
 * It answers 0 with the length of the message; 23 where none is due, whatever the room; then 16, where the output is shorter than the
 * message. All ICMP fields of its answers are 0. None is due
 * - for a packet that the IPv6 call answers otherwise, with 0 or with any other number;
 * - toward a multicast source (ff00::/8) or the unspecified one (::);
 * - about a packet to a multicast destination;
 * - about a packet whose upper layer is ICMPv6 (58) with a type under 128, which is an error message, or 137, a Redirect. Where such a
 *   packet ends before its type, the message is built.
 * So none is ever built about a message that this call built.
 *
 * What the output then holds, and what the caller owes, is as with the calls. RFC 4443 asks the sender to limit the rate of such messages
 * (section 2.4 f): that is left to the caller, as the sending is.
 */
enum {
    KAWSARPA_ICMP_MAX = 1280
};

#ifdef __cplusplus
extern "C" {
#endif

uint64_t kawsarpa_icmp_ipv6(const uint8_t *packet, size_t packet_len, const uint8_t *table, size_t table_len, uint8_t *out, size_t out_len);

#ifdef __cplusplus
}
#endif

/* The same, for a caller whose pointer may be null where the count is 0. It asserts that the output overlaps neither packet nor table. */
static inline uint64_t kawsarpa_call_icmp_ipv6(const uint8_t *packet, size_t packet_len, const uint8_t *table, size_t table_len,
                                               uint8_t *out, size_t out_len)
{
    uint8_t none = 0;
    assert(kawsarpa_apart(out, out_len, packet, packet_len));
    assert(kawsarpa_apart(out, out_len, table, table_len));
    return kawsarpa_icmp_ipv6(packet_len == 0 ? &none : packet, packet_len, table_len == 0 ? &none : table, table_len,
                              out_len == 0 ? &none : out, out_len);
}

/*
 * BURSTS
 *
 * Up to KAWSARPA_BURST_MAX packets a call, all IPv6 or all IPv4. The table is judged once for all of them. The packets lie one after the
 * other in `packets`, and `lengths` has the length of each. The results lie one after the other in `out`, from its first octet on, with
 * nothing between them; answers[i] is the answer to packet i, in the form of a single call's.
 *
 *     uint64_t answers[KAWSARPA_BURST_MAX];
 *     struct kawsarpa_burst_result result;
 *
 *     uint64_t answer = kawsarpa_call_burst_ipv6(packets, packets_len, lengths, count, table, table_len, out, out_len, answers,
 *                                                KAWSARPA_BURST_MAX);
 *     if (kawsarpa_answer_number(answer) == KAWSARPA_ANSWER_SENT) {
 *         kawsarpa_burst_first(&result);
 *         while (kawsarpa_burst_next(&result, answers, count))
 *             send_on(out + result.at, result.length);
 *     }
 *
 * Each answer, and each octet, is that of a single call for the packet with the room then left, which is the output less what was sent
 * before. A refused packet takes no room, so after one that was refused with 16 a shorter one may still be sent. ICMP pointers count
 * within each packet. A length of 0 is a packet too, and refused with 2. With a table that is not sound each packet is refused with 1.
 *
 * The burst itself answers 0, with the sum of the lengths sent as its length; so for a burst without packets. It answers 19, with nothing
 * written, neither to the output nor to the answers, for the burst as a whole and before anything else is looked at: where there are more
 * than KAWSARPA_BURST_MAX lengths, where they do not add up to packets_len, and where there are fewer places for answers than lengths.
 * Places for answers past the burst stay as they are, and so do the octets of the output behind the last result.
 *
 * An output of packets_len + count x KAWSARPA_GROWTH_MAX octets has room for every result, and so has one of KAWSARPA_BURST_OUT_MAX.
 *
 * The caller owes what he owes a call; that the answers overlap nothing else that is lent, and `out` neither lengths nor answers; and
 * that the lengths do not change during the call. `count` and `answers_count` count lengths and answers, not octets; these are aligned
 * as their types ask. Packets, table and output may begin at any address, and results lie at any.
 */
enum {
    KAWSARPA_BURST_MAX = 32,
    KAWSARPA_BURST_OUT_MAX = KAWSARPA_BURST_MAX * KAWSARPA_OUT_MAX
};

#ifdef __cplusplus
extern "C" {
#endif

uint64_t kawsarpa_burst_ipv6(const uint8_t *packets, size_t packets_len, const uint32_t *lengths, size_t count, const uint8_t *table,
                             size_t table_len, uint8_t *out, size_t out_len, uint64_t *answers, size_t answers_count);

uint64_t kawsarpa_burst_ipv4(const uint8_t *packets, size_t packets_len, const uint32_t *lengths, size_t count, const uint8_t *table,
                             size_t table_len, uint8_t *out, size_t out_len, uint64_t *answers, size_t answers_count);

#ifdef __cplusplus
}
#endif

/* 1 where what a burst is lent lies apart as the caller owes it, else 0. */
static inline int kawsarpa_burst_apart(const uint8_t *packets, size_t packets_len, const uint32_t *lengths, size_t count,
                                       const uint8_t *table, size_t table_len, const uint8_t *out, size_t out_len, const uint64_t *answers,
                                       size_t answers_count)
{
    const uint8_t *const length_octets = KAWSARPA_OCTETS(lengths);
    const uint8_t *const answer_octets = KAWSARPA_OCTETS(answers);
    const size_t lengths_len = count * sizeof *lengths;
    const size_t answers_len = answers_count * sizeof *answers;
    return kawsarpa_apart(out, out_len, packets, packets_len) && kawsarpa_apart(out, out_len, table, table_len) &&
           kawsarpa_apart(out, out_len, length_octets, lengths_len) && kawsarpa_apart(out, out_len, answer_octets, answers_len) &&
           kawsarpa_apart(answer_octets, answers_len, packets, packets_len) &&
           kawsarpa_apart(answer_octets, answers_len, table, table_len) &&
           kawsarpa_apart(answer_octets, answers_len, length_octets, lengths_len);
}

/* The same bursts, for a caller whose pointer may be null where the count is 0. They assert that what is lent lies apart. */

static inline uint64_t kawsarpa_call_burst_ipv6(const uint8_t *packets, size_t packets_len, const uint32_t *lengths, size_t count,
                                                const uint8_t *table, size_t table_len, uint8_t *out, size_t out_len, uint64_t *answers,
                                                size_t answers_count)
{
    uint8_t none = 0;
    uint32_t no_length = 0;
    uint64_t no_answer = 0;
    assert(kawsarpa_burst_apart(packets, packets_len, lengths, count, table, table_len, out, out_len, answers, answers_count));
    return kawsarpa_burst_ipv6(packets_len == 0 ? &none : packets, packets_len, count == 0 ? &no_length : lengths, count,
                               table_len == 0 ? &none : table, table_len, out_len == 0 ? &none : out, out_len,
                               answers_count == 0 ? &no_answer : answers, answers_count);
}

static inline uint64_t kawsarpa_call_burst_ipv4(const uint8_t *packets, size_t packets_len, const uint32_t *lengths, size_t count,
                                                const uint8_t *table, size_t table_len, uint8_t *out, size_t out_len, uint64_t *answers,
                                                size_t answers_count)
{
    uint8_t none = 0;
    uint32_t no_length = 0;
    uint64_t no_answer = 0;
    assert(kawsarpa_burst_apart(packets, packets_len, lengths, count, table, table_len, out, out_len, answers, answers_count));
    return kawsarpa_burst_ipv4(packets_len == 0 ? &none : packets, packets_len, count == 0 ? &no_length : lengths, count,
                               table_len == 0 ? &none : table, table_len, out_len == 0 ? &none : out, out_len,
                               answers_count == 0 ? &no_answer : answers, answers_count);
}

/* A result of a burst: which packet it is of, from 0, and where it lies in the output. */
struct kawsarpa_burst_result {
    size_t packet;
    size_t at;
    size_t length;
    size_t next; /* the packet that is looked at next */
};

/* Before the first result. */
static inline void kawsarpa_burst_first(struct kawsarpa_burst_result *result)
{
    result->packet = 0;
    result->at = 0;
    result->length = 0;
    result->next = 0;
}

/* Goes on to the next packet that was sent: 1 where there is one, 0 behind the last. The burst answered 0, and `count` is its own. */
static inline int kawsarpa_burst_next(struct kawsarpa_burst_result *result, const uint64_t *answers, size_t count)
{
    result->at += result->length;
    result->length = 0;
    while (result->next < count) {
        result->packet = result->next++;
        if (kawsarpa_answer_number(answers[result->packet]) == KAWSARPA_ANSWER_SENT) {
            result->length = kawsarpa_answer_length(answers[result->packet]);
            return 1;
        }
    }
    return 0;
}

/* Where the result of packet i begins in the output, if it was sent: behind the results of the packets before it. */
static inline size_t kawsarpa_burst_at(const uint64_t *answers, size_t i)
{
    size_t at = 0;
    size_t k;
    for (k = 0; k < i; k++)
        at += kawsarpa_answer_length(answers[k]);
    return at;
}

/*
 * LOST SEQUENCE NUMBERS
 *
 * Some base stations set S in the GTP-U header and number their packets. The readers give TEID and sequence number of a packet as it
 * arrives; an offer counts the number in the row of its TEID.
 *
 *     static struct kawsarpa_loss_row rows[KAWSARPA_LOSS_ROWS_MAX];
 *
 *     uint64_t sequence = kawsarpa_call_sequence_ipv6(packet, packet_len);
 *     if (kawsarpa_sequence_found(sequence))
 *         kawsarpa_loss_offer(rows, KAWSARPA_LOSS_ROWS_MAX, kawsarpa_sequence_teid(sequence), kawsarpa_sequence_number(sequence));
 *
 * Offer the numbers in the order in which the packets arrived. A row is for one TEID, whatever the addresses are. Receivers choose
 * TEIDs, so the same one may be used in the other direction or at another port: keep one array of rows for each direction or port,
 * or such streams are counted as one.
 *
 * The lowest row of the TEID serves, else the lowest free one. Rows past KAWSARPA_LOSS_ROWS_MAX are never read or changed. The count
 * is in rows; TEID, number and the fields of a row are plain numbers. An offer answers in the packed form of the calls, with nothing
 * but a number: 0 where it was counted, in one row; KAWSARPA_ANSWER_NO_ROW or KAWSARPA_ANSWER_ROW_FULL where nothing was changed.
 * To read the report, go through the rows in which seen is not 0: lost / (new + lost) is the part that was lost.
 *
 * Beside what the calls are owed, the caller owes that rows are aligned as the struct is, and that nobody else reads or changes them
 * during an offer: threads have rows of their own, or a lock. Any octets may stand in rows; in rows that were not all free at the
 * start new, repeated and late wrap at 2^32, and lost at 2^64.
 *
 * To begin, and to reset, zero the rows: memset the array, or the one row, between two offers. A row that has seen 4,294,967,295
 * counts no further: at a million packets a second that is after 71 minutes, so read and reset within that time.
 */

enum {
    KAWSARPA_LOSS_ROWS_MAX = 256
};

/*
 * One TEID. The row is free where seen is 0, whatever else stands there. In every row that is used, on rows that were all free at
 * the start: seen = new + repeated + late, and first + new - 1 + lost is highest mod 65,536.
 */
/* clang-format off */
struct kawsarpa_loss_row {
    uint32_t teid;
    uint16_t first;    /* the number with which the row began */
    uint16_t highest;  /* the number from which distances are taken: that of the last new packet */
    uint32_t seen;     /* packets offered and counted */
#ifdef __cplusplus
    uint32_t new_;     /* new, which C++ keeps for itself */
#else
    uint32_t new;      /* distance 1 to 32,767 from the highest number, and the first */
#endif
    uint32_t repeated; /* distance 0 */
    uint32_t late;     /* distance -1 to -32,768 */
    uint64_t lost;     /* numbers passed over: distance less one of every new packet. A late packet takes nothing from it */
};
/* clang-format on */

#ifdef __cplusplus
extern "C" {
#endif

uint64_t kawsarpa_loss_offer(struct kawsarpa_loss_row *rows, size_t count, uint32_t teid, uint16_t number);

/*
 * TEID and sequence number of a well-formed G-PDU with S; 0 for everything else, a G-PDU without S included. Well-formed: of the
 * answers 2, 3, 5 and 7 to 11 none applies, as at D, Di and D4. No table is asked, and no UDP checksum verified.
 */
uint64_t kawsarpa_sequence_ipv6(const uint8_t *packet, size_t packet_len);

uint64_t kawsarpa_sequence_ipv4(const uint8_t *packet, size_t packet_len);

#ifdef __cplusplus
}
#endif

/* The same, for a caller whose pointer may be null where the count is 0. */

static inline uint64_t kawsarpa_call_loss_offer(struct kawsarpa_loss_row *rows, size_t count, uint32_t teid, uint16_t number)
{
    struct kawsarpa_loss_row none;
    return kawsarpa_loss_offer(count == 0 ? &none : rows, count, teid, number);
}

static inline uint64_t kawsarpa_call_sequence_ipv6(const uint8_t *packet, size_t packet_len)
{
    uint8_t none = 0;
    return kawsarpa_sequence_ipv6(packet_len == 0 ? &none : packet, packet_len);
}

static inline uint64_t kawsarpa_call_sequence_ipv4(const uint8_t *packet, size_t packet_len)
{
    uint8_t none = 0;
    return kawsarpa_sequence_ipv4(packet_len == 0 ? &none : packet, packet_len);
}

/* What a reader gives: bit 48 set, TEID in bits 16 to 47, sequence number in bits 0 to 15; or 0. */

static inline int kawsarpa_sequence_found(uint64_t sequence)
{
    return sequence != 0;
}

static inline uint32_t kawsarpa_sequence_teid(uint64_t sequence)
{
    return KAWSARPA_AS(uint32_t, sequence >> 16 & 0xFFFFFFFF);
}

static inline uint16_t kawsarpa_sequence_number(uint64_t sequence)
{
    return KAWSARPA_AS(uint16_t, sequence & 0xFFFF);
}

/*
 * THE FAULTS OF A TABLE
 *
 * 0 for a sound table. Otherwise the condition that is broken in bits 0 to 7, the kind of its record in bits 8 to 15, the record's
 * index, from 0, in bits 16 to 31. All other bits are 0.
 *
 *     uint64_t fault = kawsarpa_call_table_fault(table, table_len);
 *     if (fault != 0)
 *         printf("%s (index %u)\n", kawsarpa_fault_name(fault), (unsigned int)kawsarpa_fault_index(fault));
 *
 * The first condition that is broken is told, in this order: the header's; then each entry's, entry after entry; then the entries'
 * prefixes; then each rule's; then the rules' prefixes; then each policy's. Within a record they are tried in the order of their
 * numbers. Octets of the header that a shorter table lacks are read as 0.
 */

/* The condition that is broken: KAWSARPA_FAULT_... of its record. */
static inline uint8_t kawsarpa_fault_condition(uint64_t fault)
{
    return KAWSARPA_AS(uint8_t, fault & 0xFF);
}

/* The kind of record that breaks it: KAWSARPA_RECORD_... */
static inline uint8_t kawsarpa_fault_record(uint64_t fault)
{
    return KAWSARPA_AS(uint8_t, fault >> 8 & 0xFF);
}

/* Which record of its kind; 0 for the header. */
static inline uint16_t kawsarpa_fault_index(uint64_t fault)
{
    return KAWSARPA_AS(uint16_t, fault >> 16 & 0xFFFF);
}

/* The kinds of record. */
enum {
    KAWSARPA_RECORD_HEADER = 1,
    KAWSARPA_RECORD_ENTRY = 2,
    KAWSARPA_RECORD_RULE = 3,
    KAWSARPA_RECORD_POLICY = 4
};

/* The conditions on the header. */
enum {
    /* the format is known */
    KAWSARPA_FAULT_HEADER_FORMAT = 1,
    /* at most 64 entries */
    KAWSARPA_FAULT_HEADER_ENTRIES = 2,
    /* at most 16 rules */
    KAWSARPA_FAULT_HEADER_RULES = 3,
    /* at most 16 policies */
    KAWSARPA_FAULT_HEADER_POLICIES = 4,
    /* the octets are those of the records */
    KAWSARPA_FAULT_HEADER_SIZE = 5
};

/* The conditions on an entry. */
enum {
    /* the behaviour is known */
    KAWSARPA_FAULT_ENTRY_BEHAVIOUR = 1,
    /* the prefix length is at most 128 */
    KAWSARPA_FAULT_ENTRY_PREFIX_LENGTH = 2,
    /* bits past the prefix's length are 0 */
    KAWSARPA_FAULT_ENTRY_PREFIX_BITS = 3,
    /* the hop limit is 1 to 255 */
    KAWSARPA_FAULT_ENTRY_HOP_LIMIT = 4,
    /* D, Di, E6, E4: the direction is known */
    KAWSARPA_FAULT_ENTRY_DIRECTION = 5,
    /* D, Di, E6, E4: the session type is known */
    KAWSARPA_FAULT_ENTRY_SESSION_TYPE = 6,
    /* D, Di: the policy exists */
    KAWSARPA_FAULT_ENTRY_POLICY = 7,
    /* E6: the start of Args is 8a with a from 0 to 11 */
    KAWSARPA_FAULT_ENTRY_ARGS_START = 8,
    /* E6: the prefix has at most 8a bits */
    KAWSARPA_FAULT_ENTRY_PREFIX_BEFORE_ARGS = 9,
    /* E4: p is at most 7 */
    KAWSARPA_FAULT_ENTRY_P = 10,
    /* E4: q is at most 12 */
    KAWSARPA_FAULT_ENTRY_Q = 11,
    /* E4: the prefix has at most 8p bits */
    KAWSARPA_FAULT_ENTRY_PREFIX_BEFORE_ADDRESS = 12,
    /* waypoint, E6, E4: the reserved octet, which is D's and Di's zero_checksum, is 0 */
    KAWSARPA_FAULT_ENTRY_RESERVED = 13,
    /* no earlier entry has this prefix with its length; tried behind 15 */
    KAWSARPA_FAULT_ENTRY_REPEATED = 14,
    /* D, Di: zero_checksum is 0 or 1 */
    KAWSARPA_FAULT_ENTRY_ZERO_CHECKSUM = 15
};

/* The conditions on a rule. */
enum {
    /* the prefix length is at most 32 */
    KAWSARPA_FAULT_RULE_PREFIX_LENGTH = 1,
    /* bits past the prefix's length are 0 */
    KAWSARPA_FAULT_RULE_PREFIX_BITS = 2,
    /* the hop limit is 1 to 255 */
    KAWSARPA_FAULT_RULE_HOP_LIMIT = 3,
    /* the direction is known */
    KAWSARPA_FAULT_RULE_DIRECTION = 4,
    /* the session type is known */
    KAWSARPA_FAULT_RULE_SESSION_TYPE = 5,
    /* p is at most 7 */
    KAWSARPA_FAULT_RULE_P = 6,
    /* q is at most 12 */
    KAWSARPA_FAULT_RULE_Q = 7,
    /* bits past 8p of the SID prefix are 0 */
    KAWSARPA_FAULT_RULE_SID_PREFIX_BITS = 8,
    /* bits past 8q of the source prefix are 0 */
    KAWSARPA_FAULT_RULE_SOURCE_PREFIX_BITS = 9,
    /* at most 7 waypoints */
    KAWSARPA_FAULT_RULE_WAYPOINTS = 10,
    /* the reserved octet is 0 */
    KAWSARPA_FAULT_RULE_RESERVED = 11,
    /* no earlier rule has this prefix with its length */
    KAWSARPA_FAULT_RULE_REPEATED = 12
};

/* The conditions on a policy. */
enum {
    /* 1 to 8 SIDs */
    KAWSARPA_FAULT_POLICY_SIDS = 1,
    /* the start of Args is 8a with a from 0 to 11 */
    KAWSARPA_FAULT_POLICY_ARGS_START = 2,
    /* the reserved octet is 0 */
    KAWSARPA_FAULT_POLICY_RESERVED = 3
};

/* What is wrong, in words, whatever the index is; "unknown" for a number that is no fault. */
static inline const char *kawsarpa_fault_name(uint64_t fault)
{
    static const char *const names[4][15] = {
        {"unknown format", "too many entries", "too many rules", "too many policies", "wrong length of the table"},
        {"entry: unknown behaviour", "entry: prefix length over 128", "entry: bits past the prefix's length", "entry: hop limit 0",
         "entry: unknown direction", "entry: unknown session type", "entry: no such policy", "entry: bad start of Args",
         "entry: prefix longer than 8a", "entry: p over 7", "entry: q over 12", "entry: prefix longer than 8p",
         "entry: reserved octet not 0", "entry: prefix of an earlier entry", "entry: zero_checksum not 0 or 1"},
        {"rule: prefix length over 32", "rule: bits past the prefix's length", "rule: hop limit 0", "rule: unknown direction",
         "rule: unknown session type", "rule: p over 7", "rule: q over 12", "rule: bits past 8p of the SID prefix",
         "rule: bits past 8q of the source prefix", "rule: over 7 waypoints", "rule: reserved octet not 0",
         "rule: prefix of an earlier rule"},
        {"policy: not 1 to 8 SIDs", "policy: bad start of Args", "policy: reserved octet not 0"},
    };
    unsigned int condition = kawsarpa_fault_condition(fault);
    unsigned int record = kawsarpa_fault_record(fault);
    if (fault == 0)
        return "sound";
    if (fault >> 32 != 0 || record < 1 || record > 4 || condition < 1 || condition > 15 || names[record - 1][condition - 1] == NULL)
        return "unknown";
    return names[record - 1][condition - 1];
}

/*
 * TABLES THAT FIT
 *
 * Tables may each be sound and not belong together: with Args at octet 8 in the near table and at octet 9 in the far one every call
 * answers as it should, and packets leave with another TEID. These calls tell it without a packet, from the tables alone.
 *
 * kawsarpa_match_ipv6 takes a Di entry of the near table and the far table, kawsarpa_match_ipv4 a rule of the near table and the far
 * table, kawsarpa_match_waypoint a waypoint's table and the SID that leads there (a policy's SIDs but the last; a rule's waypoints).
 * Each answers 0 exactly when they fit. Where the entry or rule and all its waypoints do, every packet that the near gateway sends on
 * there is delivered by the far gateway with the destination, TEID, QFI, reflective bit, traffic class and inner octets that went in,
 * if the buffers have room.
 *
 *     uint8_t record;
 *     size_t index;
 *     uint64_t mismatch = kawsarpa_match_table(near_table, near_len, far_table, far_len, &record, &index);
 *     if (mismatch != 0)
 *         printf("%s (far entry %u)\n", kawsarpa_mismatch_name(mismatch), (unsigned int)kawsarpa_mismatch_index(mismatch));
 *
 * Index counts from 0. They fit where every Args that can be written (any QFI and TEID; any reflective bit in downlink, 0 in uplink)
 * and over IPv4 every destination under the rule's prefix lead to one entry of the far table, of the right kind and with the same
 * values. Destinations that a longer rule of the near table takes away are not left out. Whether the near entry allows a UDP checksum
 * of 0 is no matter. A D entry has no far end: only its waypoints can be asked for.
 *
 * Otherwise the first condition that fails is told, by its number, in bits 0 to 7. From KAWSARPA_MISMATCH_KIND on, and for
 * KAWSARPA_MISMATCH_WAYPOINT_KIND, bits 8 to 15 hold KAWSARPA_RECORD_ENTRY and bits 16 to 31 the index of the entry of the far, or
 * waypoint's, table: the longest that some such Args and destination lead to, of equally long ones the first. All other bits are 0.
 *
 * The caller owes what is owed to the calls. No state is kept.
 */
#ifdef __cplusplus
extern "C" {
#endif

uint64_t kawsarpa_match_ipv6(const uint8_t *near_table, size_t near_len, size_t index, const uint8_t *far_table, size_t far_len);

uint64_t kawsarpa_match_ipv4(const uint8_t *near_table, size_t near_len, size_t index, const uint8_t *far_table, size_t far_len);

uint64_t kawsarpa_match_waypoint(const uint8_t *table, size_t table_len, const uint8_t *sid, size_t sid_len);

#ifdef __cplusplus
}
#endif

/* The conditions. */
enum {
    /* the near table is sound */
    KAWSARPA_MISMATCH_NEAR_UNSOUND = 1,
    /* the far table is sound */
    KAWSARPA_MISMATCH_FAR_UNSOUND = 2,
    /* the near table has an entry (IPv4: a rule) of this index */
    KAWSARPA_MISMATCH_NO_RECORD = 3,
    /* IPv6: that entry is Di */
    KAWSARPA_MISMATCH_NOT_DI = 4,
    /* some Args (IPv4: and some destination) lead to an entry of the far table */
    KAWSARPA_MISMATCH_NO_ENTRY = 5,
    /* the longest entry that some lead to is E6 (IPv4: E4) */
    KAWSARPA_MISMATCH_KIND = 6,
    /* its direction is that of the near entry or rule */
    KAWSARPA_MISMATCH_DIRECTION = 7,
    /* its session type is */
    KAWSARPA_MISMATCH_SESSION = 8,
    /* IPv6: its start of Args is the policy's */
    KAWSARPA_MISMATCH_START = 9,
    /* IPv4: its p is the rule's */
    KAWSARPA_MISMATCH_P = 10,
    /* IPv4: its q is the rule's */
    KAWSARPA_MISMATCH_Q = 11,
    /* the near hop limit is above the number of waypoints */
    KAWSARPA_MISMATCH_HOP_LIMIT = 12,
    /* waypoint: the table is sound */
    KAWSARPA_MISMATCH_WAYPOINT_UNSOUND = 13,
    /* waypoint: the SID has 16 octets */
    KAWSARPA_MISMATCH_WAYPOINT_SID = 14,
    /* waypoint: an entry of the table matches the SID */
    KAWSARPA_MISMATCH_WAYPOINT_NO_ENTRY = 15,
    /* waypoint: the longest match is a waypoint entry */
    KAWSARPA_MISMATCH_WAYPOINT_KIND = 16
};

/* The condition that fails: KAWSARPA_MISMATCH_... */
static inline uint8_t kawsarpa_mismatch_condition(uint64_t mismatch)
{
    return KAWSARPA_AS(uint8_t, mismatch & 0xFF);
}

/* KAWSARPA_RECORD_ENTRY where an entry of the far, or waypoint's, table is named, else 0. */
static inline uint8_t kawsarpa_mismatch_record(uint64_t mismatch)
{
    return KAWSARPA_AS(uint8_t, mismatch >> 8 & 0xFF);
}

/* Which entry. */
static inline uint16_t kawsarpa_mismatch_index(uint64_t mismatch)
{
    return KAWSARPA_AS(uint16_t, mismatch >> 16 & 0xFFFF);
}

/* A short name for a mismatch; "unknown" for a number that is none. */
static inline const char *kawsarpa_mismatch_name(uint64_t mismatch)
{
    static const char *const names[] = {
        "fits",
        "near table not sound",
        "far table not sound",
        "no such near entry or rule",
        "near entry is not Di",
        "no far entry is reached",
        "far entry of another kind",
        "directions differ",
        "session types differ",
        "starts of Args differ",
        "p differs",
        "q differs",
        "hop limit not above the number of waypoints",
        "waypoint table not sound",
        "SID not of 16 octets",
        "no entry matches the waypoint",
        "matched entry is no waypoint",
    };
    unsigned int condition = kawsarpa_mismatch_condition(mismatch);
    return mismatch >> 32 == 0 && condition < sizeof names / sizeof names[0] && (condition != 0 || mismatch == 0) ? names[condition]
                                                                                                                  : "unknown";
}

/* The same calls, for a caller whose pointer may be null where the count is 0. */

static inline uint64_t kawsarpa_call_match_ipv6(const uint8_t *near_table, size_t near_len, size_t index, const uint8_t *far_table,
                                                size_t far_len)
{
    uint8_t none = 0;
    return kawsarpa_match_ipv6(near_len == 0 ? &none : near_table, near_len, index, far_len == 0 ? &none : far_table, far_len);
}

static inline uint64_t kawsarpa_call_match_ipv4(const uint8_t *near_table, size_t near_len, size_t index, const uint8_t *far_table,
                                                size_t far_len)
{
    uint8_t none = 0;
    return kawsarpa_match_ipv4(near_len == 0 ? &none : near_table, near_len, index, far_len == 0 ? &none : far_table, far_len);
}

static inline uint64_t kawsarpa_call_match_waypoint(const uint8_t *table, size_t table_len, const uint8_t *sid, size_t sid_len)
{
    uint8_t none = 0;
    return kawsarpa_match_waypoint(table_len == 0 ? &none : table, table_len, sid_len == 0 ? &none : sid, sid_len);
}

/*
 * A whole near table against a far table, but for the waypoints: every Di entry, then every rule. 0 where all fit, also where there are
 * none; else the first mismatch, with the kind and the index of the near record in `record` and `index`. Where a table is not sound
 * these are KAWSARPA_RECORD_HEADER and 0.
 */
static inline uint64_t kawsarpa_match_table(const uint8_t *near_table, size_t near_len, const uint8_t *far_table, size_t far_len,
                                            uint8_t *record, size_t *index)
{
    uint64_t mismatch;
    *record = KAWSARPA_RECORD_ENTRY;
    for (*index = 0;; ++*index) {
        mismatch = kawsarpa_call_match_ipv6(near_table, near_len, *index, far_table, far_len);
        if (mismatch == KAWSARPA_MISMATCH_NO_RECORD)
            break;
        if (mismatch == KAWSARPA_MISMATCH_NEAR_UNSOUND || mismatch == KAWSARPA_MISMATCH_FAR_UNSOUND)
            *record = KAWSARPA_RECORD_HEADER;
        if (mismatch != 0 && mismatch != KAWSARPA_MISMATCH_NOT_DI)
            return mismatch;
    }
    *record = KAWSARPA_RECORD_RULE;
    for (*index = 0;; ++*index) {
        mismatch = kawsarpa_call_match_ipv4(near_table, near_len, *index, far_table, far_len);
        if (mismatch == KAWSARPA_MISMATCH_NO_RECORD)
            break;
        if (mismatch != 0)
            return mismatch;
    }
    *record = 0;
    *index = 0;
    return 0;
}

/*
 * THE OCTETS OF A TABLE
 *
 * A header, then the entries, the rules and the policies, with nothing between or behind them. The records are made of octets, so
 * their structs have no padding and any address suits them: a struct of one header and arrays of records is a table.
 *
 *     struct { struct kawsarpa_table_header header; struct kawsarpa_entry entries[2]; struct kawsarpa_policy policies[1]; } table;
 *
 * Numbers of more than one octet are big-endian; the setters take them as plain numbers. Addresses and prefixes are octets in the
 * order in which they are sent, as inet_pton writes them.
 *
 * Spare octets, and slots past a count, are written 0 and never examined. A reserved octet is 0, else the table is not sound. A
 * condition on a field is tested where the kind uses the field; so begin with a record of zeros and set the fields that are used.
 *
 * A table is sound if its format is 1, its counts are within the limits, its length is the size that they give, the bits past each
 * prefix's length are 0, no prefix with its length occurs twice among entries or among rules, and each field is as said beside it.
 * kawsarpa_table_fault tells which of these a table breaks.
 *
 * Write the entries, and the rules, in ascending order of prefix, then of its length, or have kawsarpa_table_sort bring them into it.
 * No packet is answered otherwise for it, but every call judges the whole table: in order a record is compared with the one before
 * it, out of order each with every other. Of 64 entries that is 2,016 pairs at 9 instructions each, and a call takes more than four times
 * as long (docs/PERFORMANCE.md).
 */

/* The format of a table, and how many records it holds at most. */
enum {
    KAWSARPA_FORMAT = 1,
    KAWSARPA_ENTRIES_MAX = 64,
    KAWSARPA_RULES_MAX = 16,
    KAWSARPA_POLICIES_MAX = 16,
    /* of a rule and of a policy */
    KAWSARPA_WAYPOINTS_MAX = 7,
    KAWSARPA_SIDS_MAX = 8
};

/* Behaviours by their IANA numbers (RFC 8986, RFC 9433). */
enum {
    KAWSARPA_BEHAVIOUR_END = 1,              /* waypoint */
    KAWSARPA_BEHAVIOUR_END_M_GTP6_D = 69,    /* D */
    KAWSARPA_BEHAVIOUR_END_M_GTP6_D_DI = 70, /* Di */
    KAWSARPA_BEHAVIOUR_END_M_GTP6_E = 71,    /* E6 */
    KAWSARPA_BEHAVIOUR_END_M_GTP4_E = 72     /* E4 */
};

/* Directions, by the PDU types of the PDU Session container (TS 38.415). */
enum {
    KAWSARPA_DIRECTION_DOWNLINK = 0,
    KAWSARPA_DIRECTION_UPLINK = 1
};

/* PDU session types (TS 24.501). */
enum {
    KAWSARPA_SESSION_IPV4 = 1,
    KAWSARPA_SESSION_IPV6 = 2,
    KAWSARPA_SESSION_IPV4V6 = 3,
    KAWSARPA_SESSION_ETHERNET = 5
};

/* What D and Di do with a packet that arrives with UDP checksum 0. */
enum {
    KAWSARPA_ZERO_CHECKSUM_REFUSE = 0, /* with answer 18 */
    KAWSARPA_ZERO_CHECKSUM_ALLOW = 1   /* it is not verified: only for a tunnel that is set up for it (RFC 6935) */
};

struct kawsarpa_table_header {
    uint8_t format;      /* KAWSARPA_FORMAT */
    uint8_t spare1;      /* never examined */
    uint8_t entries[2];  /* at most KAWSARPA_ENTRIES_MAX */
    uint8_t rules[2];    /* at most KAWSARPA_RULES_MAX */
    uint8_t policies[2]; /* at most KAWSARPA_POLICIES_MAX */
    uint8_t spare8[8];   /* never examined */
};

/* A SID entry. */
struct kawsarpa_entry {
    uint8_t behaviour;      /* KAWSARPA_BEHAVIOUR_... */
    uint8_t prefix_length;  /* 0 to 128; E6: at most args_start; E4: at most 8p */
    uint8_t hop_limit;      /* 1 to 255; E4: the TTL; of ICMPv6 messages too */
    uint8_t direction;      /* D, Di, E6, E4: KAWSARPA_DIRECTION_... */
    uint8_t session_type;   /* D, Di, E6, E4: KAWSARPA_SESSION_... */
    uint8_t policy;         /* D, Di: a policy of this table, from 0 */
    uint8_t args_start;     /* E6: the bit of the destination at which Args begin, 8a with a from 0 to 11 */
    uint8_t p;              /* E4: octets of the destination before the IPv4 destination, 0 to 7 */
    uint8_t q;              /* E4: octets of the source before the IPv4 source, 0 to 12 */
    uint8_t zero_checksum;  /* D, Di: KAWSARPA_ZERO_CHECKSUM_...; else reserved, 0 */
    uint8_t source_port[2]; /* E6, E4: UDP source port of what is sent */
    uint8_t spare12[4];     /* never examined */
    uint8_t prefix[16];     /* bits past prefix_length are 0 */
    uint8_t source[16];     /* D, Di, E6: source address of what is sent; all: of ICMPv6 messages */
    uint8_t spare48[16];    /* never examined */
};

/* An IPv4 rule. */
struct kawsarpa_rule {
    uint8_t prefix_length;     /* 0 to 32 */
    uint8_t hop_limit;         /* 1 to 255 */
    uint8_t direction;         /* KAWSARPA_DIRECTION_... */
    uint8_t session_type;      /* KAWSARPA_SESSION_... */
    uint8_t p;                 /* octets of sid_prefix, 0 to 7 */
    uint8_t q;                 /* octets of source_prefix, 0 to 12 */
    uint8_t waypoint_count;    /* 0 to KAWSARPA_WAYPOINTS_MAX */
    uint8_t reserved;          /* 0 */
    uint8_t prefix[4];         /* bits past prefix_length are 0 */
    uint8_t spare12[4];        /* never examined */
    uint8_t sid_prefix[16];    /* prefix of the SID that the rule builds; bits past 8p are 0 */
    uint8_t source_prefix[16]; /* prefix of the source address that it builds; bits past 8q are 0 */
    uint8_t waypoints[7][16];  /* in order of travel */
};

/* A policy. */
struct kawsarpa_policy {
    uint8_t sid_count;     /* 1 to KAWSARPA_SIDS_MAX */
    uint8_t args_start;    /* the bit of the last SID at which Args begin, 8a with a from 0 to 11 */
    uint8_t reserved;      /* 0 */
    uint8_t spare3[13];    /* never examined */
    uint8_t sids[8][16];   /* in order of travel */
    uint8_t spare144[144]; /* never examined */
};

/* Sizes and offsets, in octets, of the records of a table and of a row. The compiler refuses any other: an array of -1 octets. */
#define KAWSARPA_SIZE(record, size) typedef char kawsarpa_size_##record[sizeof(struct kawsarpa_##record) == (size) ? 1 : -1]
#define KAWSARPA_AT(offset, record, field) \
    typedef char kawsarpa_at_##record##_##field[offsetof(struct kawsarpa_##record, field) == (offset) ? 1 : -1]

KAWSARPA_SIZE(table_header, 16);
KAWSARPA_AT(0, table_header, format);
KAWSARPA_AT(2, table_header, entries);
KAWSARPA_AT(4, table_header, rules);
KAWSARPA_AT(6, table_header, policies);

KAWSARPA_SIZE(entry, 64);
KAWSARPA_AT(0, entry, behaviour);
KAWSARPA_AT(1, entry, prefix_length);
KAWSARPA_AT(2, entry, hop_limit);
KAWSARPA_AT(3, entry, direction);
KAWSARPA_AT(4, entry, session_type);
KAWSARPA_AT(5, entry, policy);
KAWSARPA_AT(6, entry, args_start);
KAWSARPA_AT(7, entry, p);
KAWSARPA_AT(8, entry, q);
KAWSARPA_AT(9, entry, zero_checksum);
KAWSARPA_AT(10, entry, source_port);
KAWSARPA_AT(16, entry, prefix);
KAWSARPA_AT(32, entry, source);

KAWSARPA_SIZE(rule, 160);
KAWSARPA_AT(0, rule, prefix_length);
KAWSARPA_AT(1, rule, hop_limit);
KAWSARPA_AT(2, rule, direction);
KAWSARPA_AT(3, rule, session_type);
KAWSARPA_AT(4, rule, p);
KAWSARPA_AT(5, rule, q);
KAWSARPA_AT(6, rule, waypoint_count);
KAWSARPA_AT(7, rule, reserved);
KAWSARPA_AT(8, rule, prefix);
KAWSARPA_AT(16, rule, sid_prefix);
KAWSARPA_AT(32, rule, source_prefix);
KAWSARPA_AT(48, rule, waypoints);

KAWSARPA_SIZE(policy, 288);
KAWSARPA_AT(0, policy, sid_count);
KAWSARPA_AT(1, policy, args_start);
KAWSARPA_AT(2, policy, reserved);
KAWSARPA_AT(16, policy, sids);

KAWSARPA_SIZE(loss_row, 32);
KAWSARPA_AT(0, loss_row, teid);
KAWSARPA_AT(4, loss_row, first);
KAWSARPA_AT(6, loss_row, highest);
KAWSARPA_AT(8, loss_row, seen);
#ifdef __cplusplus
KAWSARPA_AT(12, loss_row, new_);
#else
KAWSARPA_AT(12, loss_row, new);
#endif
KAWSARPA_AT(16, loss_row, repeated);
KAWSARPA_AT(20, loss_row, late);
KAWSARPA_AT(24, loss_row, lost);

#undef KAWSARPA_SIZE
#undef KAWSARPA_AT

/*
 * The octets that a table with these counts has. It is also where records stand: entry i at kawsarpa_table_size(i, 0, 0), rule k at
 * kawsarpa_table_size(entries, k, 0), policy j at kawsarpa_table_size(entries, rules, j).
 */
static inline size_t kawsarpa_table_size(uint16_t entries, uint16_t rules, uint16_t policies)
{
    return sizeof(struct kawsarpa_table_header) + sizeof(struct kawsarpa_entry) * entries + sizeof(struct kawsarpa_rule) * rules +
           sizeof(struct kawsarpa_policy) * policies;
}

/* Writes a number into two octets, big-endian. */
static inline void kawsarpa_put16(uint8_t *octets, uint16_t number)
{
    octets[0] = KAWSARPA_AS(uint8_t, number >> 8);
    octets[1] = KAWSARPA_AS(uint8_t, number & 0xFF);
}

/* Reads it. */
static inline uint16_t kawsarpa_get16(const uint8_t *octets)
{
    return KAWSARPA_AS(uint16_t, octets[0] << 8 | octets[1]);
}

/* Writes the whole header: the format, the counts, and 0 into the spare octets. */
static inline void kawsarpa_table_header_set(struct kawsarpa_table_header *header, uint16_t entries, uint16_t rules, uint16_t policies)
{
    size_t i;
    header->format = KAWSARPA_FORMAT;
    header->spare1 = 0;
    kawsarpa_put16(header->entries, entries);
    kawsarpa_put16(header->rules, rules);
    kawsarpa_put16(header->policies, policies);
    for (i = 0; i < sizeof header->spare8; i++)
        header->spare8[i] = 0;
}

static inline void kawsarpa_entry_set_source_port(struct kawsarpa_entry *entry, uint16_t port)
{
    kawsarpa_put16(entry->source_port, port);
}

/* The IPv4 prefix as a number: 192.0.2.0 is 0xC0000200. */
static inline void kawsarpa_rule_set_prefix(struct kawsarpa_rule *rule, uint32_t prefix)
{
    kawsarpa_put16(rule->prefix, KAWSARPA_AS(uint16_t, prefix >> 16));
    kawsarpa_put16(rule->prefix + 2, KAWSARPA_AS(uint16_t, prefix & 0xFFFF));
}

/*
 * The start of Args, given in bits or, as a, in octets. The field holds bits; a start that it cannot hold is written as 255, with
 * which no E6 entry and no policy is sound.
 */

static inline void kawsarpa_put_args_start(uint8_t *args_start, unsigned int bits)
{
    *args_start = KAWSARPA_AS(uint8_t, bits < 255 ? bits : 255);
}

static inline void kawsarpa_entry_set_args_start_bits(struct kawsarpa_entry *entry, unsigned int bits)
{
    kawsarpa_put_args_start(&entry->args_start, bits);
}

static inline void kawsarpa_entry_set_args_start_octets(struct kawsarpa_entry *entry, unsigned int a)
{
    kawsarpa_put_args_start(&entry->args_start, a < 32 ? 8 * a : 255);
}

static inline void kawsarpa_policy_set_args_start_bits(struct kawsarpa_policy *policy, unsigned int bits)
{
    kawsarpa_put_args_start(&policy->args_start, bits);
}

static inline void kawsarpa_policy_set_args_start_octets(struct kawsarpa_policy *policy, unsigned int a)
{
    kawsarpa_put_args_start(&policy->args_start, a < 32 ? 8 * a : 255);
}

/* Brings records of `size` octets into ascending order of their prefix, `prefix_octets` at `prefix_at`, then of its length. */
static inline void kawsarpa_records_sort(uint8_t *records, size_t count, size_t size, size_t prefix_at, size_t prefix_octets,
                                         size_t length_at)
{
    size_t i, j, k;
    for (i = 0; i < count; i++) {
        uint8_t *place = records + i * size;
        uint8_t *least = place;
        for (j = i + 1; j < count; j++) {
            uint8_t *record = records + j * size;
            const int order = memcmp(record + prefix_at, least + prefix_at, prefix_octets);
            if (order < 0 || (order == 0 && record[length_at] < least[length_at]))
                least = record;
        }
        for (k = 0; least != place && k < size; k++) {
            const uint8_t octet = place[k];
            place[k] = least[k];
            least[k] = octet;
        }
    }
}

/*
 * Brings the entries, and the rules, of a sound table into ascending order of prefix, then of its length, and gives 0. A table that is
 * not sound is left as it is, and its fault given. Policies stay where they are, because entries name them by index; an index of an
 * entry or rule that was told before is another one then. Nobody else reads the table meanwhile.
 */
static inline uint64_t kawsarpa_table_sort(uint8_t *table, size_t table_len)
{
    const uint64_t fault = kawsarpa_call_table_fault(table, table_len);
    uint16_t entries, rules;
    if (fault != 0)
        return fault;
    entries = kawsarpa_get16(table + offsetof(struct kawsarpa_table_header, entries));
    rules = kawsarpa_get16(table + offsetof(struct kawsarpa_table_header, rules));
    kawsarpa_records_sort(table + kawsarpa_table_size(0, 0, 0), entries, sizeof(struct kawsarpa_entry),
                          offsetof(struct kawsarpa_entry, prefix), 16, offsetof(struct kawsarpa_entry, prefix_length));
    kawsarpa_records_sort(table + kawsarpa_table_size(entries, 0, 0), rules, sizeof(struct kawsarpa_rule),
                          offsetof(struct kawsarpa_rule, prefix), 4, offsetof(struct kawsarpa_rule, prefix_length));
    return 0;
}

#undef KAWSARPA_AS
#undef KAWSARPA_ADDRESS
#undef KAWSARPA_OCTETS

#endif
