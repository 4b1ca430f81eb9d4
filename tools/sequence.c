#include "sequence.h"

#include <stdbool.h>
#include <string.h>

#include "describe.h"
#include "formats.h"
#include "kawsarpa.h"
#include "octets.h"

/*
 * The readers give 0 exactly where one of the answers 2, 3, 5 and 7 to 11 applies, the packet is an Echo Request, or S is clear. With a
 * table that leads every address to End.M.GTP6.D, or over IPv4 to a rule, the library's call tells which it is. The readers do not verify
 * UDP checksums: the table allows 0.
 */
static const struct {
    struct kawsarpa_table_header header;
    struct kawsarpa_entry entry;
    struct kawsarpa_rule rule;
    struct kawsarpa_policy policy;
} everywhere = {
    .header = {.format = KAWSARPA_FORMAT, .entries = {0, 1}, .rules = {0, 1}, .policies = {0, 1}},
    .entry = {.behaviour = KAWSARPA_BEHAVIOUR_END_M_GTP6_D,
              .hop_limit = 1,
              .session_type = KAWSARPA_SESSION_IPV4,
              .zero_checksum = KAWSARPA_ZERO_CHECKSUM_ALLOW},
    .rule = {.hop_limit = 1, .session_type = KAWSARPA_SESSION_IPV4},
    .policy = {.sid_count = 1},
};

uint64_t sequence_read(unsigned int version, const uint8_t *packet, size_t length)
{
    return version == 4 ? kawsarpa_call_sequence_ipv4(packet, length) : kawsarpa_call_sequence_ipv6(packet, length);
}

/* Room for an Echo Response; a longer packet is answered 16. */
enum { ROOM = KAWSARPA_ECHO_RESPONSE_IPV6 };

static uint64_t ask(unsigned int version, const uint8_t *packet, size_t length, uint8_t out[ROOM])
{
    const uint8_t *table = (const uint8_t *)&everywhere;
    return version == 4 ? kawsarpa_call_ipv4(packet, length, table, sizeof everywhere, out, ROOM)
                        : kawsarpa_call_ipv6(packet, length, table, sizeof everywhere, out, ROOM);
}

/* The same for a packet that is refused for its UDP checksum, with 0 in its place. */
static uint64_t ask_without_checksum(const uint8_t *packet, size_t length, uint8_t out[ROOM])
{
    static uint8_t copy[KAWSARPA_OUT_MAX]; /* such a packet is well-formed as far as its length goes */
    const struct packet_reading reading = packet_read(packet, length);
    memcpy(copy, packet, length);
    put16(copy + (reading.udp - packet) + UDP_CHECKSUM, 0);
    return ask(6, copy, length, out);
}

unsigned int sequence_missing(unsigned int version, const uint8_t *packet, size_t length)
{
    uint8_t out[ROOM];
    uint64_t answer = ask(version, packet, length, out);
    if (kawsarpa_answer_number(answer) == KAWSARPA_ANSWER_BAD_CHECKSUM)
        answer = ask_without_checksum(packet, length, out);
    const unsigned int number = kawsarpa_answer_number(answer);
    /* an Echo Request is no G-PDU, though the call has an answer of its own for it */
    if (number == KAWSARPA_ANSWER_BAD_ECHO ||
        (number == KAWSARPA_ANSWER_SENT && kawsarpa_is_echo_response(out, kawsarpa_answer_length(answer))))
        return KAWSARPA_ANSWER_NOT_G_PDU;
    /* sent, and these five, are about what a well-formed G-PDU holds, or about sending it */
    const bool g_pdu = number == KAWSARPA_ANSWER_SENT || (number >= KAWSARPA_ANSWER_BAD_EXTENSIONS && number <= KAWSARPA_ANSWER_NO_ROOM);
    return g_pdu ? SEQUENCE_NO_S : number;
}
