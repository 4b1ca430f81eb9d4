/* The anchor's ICMPv6 messages (RFC 4443). The translation decides, with no room for what it would send; then the message is built. */
#include "anchor.h"
#include "formats.h"

enum { ICMP_SIZE = 8, QUOTED_MOST = KAWSARPA_ICMP_MAX - IPV6_SIZE - ICMP_SIZE, MULTICAST = 0xFF };
/* ICMPv6 types: from the first on they are no errors. */
enum { INFORMATIONAL = 128, REDIRECT = 137 };

/* An ICMPv6 error message or a Redirect (RFC 4443, 2.4 e). The chain has been judged: an SRH is whole. */
static bool is_error_or_redirect(const uint8_t *packet, size_t size)
{
    const bool routed = packet[6] == ROUTING;
    const size_t at = routed ? IPV6_SIZE + SRH_SIZE + 8U * packet[IPV6_SIZE + 1] : IPV6_SIZE;
    if ((routed ? packet[IPV6_SIZE] : packet[6]) != ICMPV6 || at == size)
        return false;
    return packet[at] < INFORMATIONAL || packet[at] == REDIRECT;
}

static bool none_toward(const uint8_t *source)
{
    return source[0] == MULTICAST || (word64(source) | word64(source + 8)) == 0;
}

uint64_t anchor_icmp_ipv6(const uint8_t *packet, size_t size, const uint8_t *table, size_t table_len, uint8_t *out, size_t room)
{
    struct anchor_table t;
    if (!anchor_sound(table, table_len, &t) || size < IPV6_SIZE)
        return KAWSARPA_ANSWER_NONE_DUE;
    const struct kawsarpa_entry *e = anchor_find_entry(&t, packet + 24);
    if (e == NULL)
        return KAWSARPA_ANSWER_NONE_DUE;
    const uint64_t answer = anchor_at_entry(e, t.policies + e->policy, packet, size, out, 0);
    if (kawsarpa_answer_icmp_type(answer) == 0 || none_toward(packet + 8) || packet[24] == MULTICAST || is_error_or_redirect(packet, size))
        return KAWSARPA_ANSWER_NONE_DUE;
    const size_t quoted = size < QUOTED_MOST ? size : QUOTED_MOST;
    const size_t length = IPV6_SIZE + ICMP_SIZE + quoted;
    if (room < length)
        return KAWSARPA_ANSWER_NO_ROOM;
    uint8_t *icmp = out + IPV6_SIZE;
    put_ipv6(out, 0, ICMP_SIZE + quoted, ICMPV6, e->hop_limit, e->source, packet + 8);
    memset(icmp, 0, ICMP_SIZE);
    icmp[0] = kawsarpa_answer_icmp_type(answer);
    icmp[1] = kawsarpa_answer_icmp_code(answer);
    put16(icmp + 6, kawsarpa_answer_icmp_pointer(answer));
    memcpy(icmp + ICMP_SIZE, packet, quoted);
    const uint16_t checksum = (uint16_t)~anchor_icmp_sum(out + 8, icmp, ICMP_SIZE + quoted);
    memcpy(icmp + 2, &checksum, sizeof checksum);
    return (uint64_t)length << 40;
}
