/* The anchor's behaviours: a function for each, checks first, then the packet. */
#include "anchor.h"
#include "formats.h"

static uint64_t sent(size_t length)
{
    return (uint64_t)length << 40;
}

/* Answers 7 and 8: Parameter Problem. */
static uint64_t problem(unsigned int number, unsigned int code, size_t pointer)
{
    return number | KAWSARPA_ICMP_PARAMETER_PROBLEM << 8 | code << 16 | (uint64_t)pointer << 24;
}

static uint64_t bad_segments_left(void)
{
    return problem(KAWSARPA_ANSWER_SEGMENTS_LEFT, 0, 43);
}

static uint64_t bad_upper_layer(size_t at)
{
    return problem(KAWSARPA_ANSWER_UPPER_LAYER, 4, at);
}

/* The chain of an IPv6 packet: the SRH, or NULL, and the upper layer behind it. */
struct chain {
    const uint8_t *srh;
    size_t upper_at;
    uint8_t upper;
};

static bool refused_in_chain(uint8_t next)
{
    return next == HOP_BY_HOP || next == FRAGMENT || next == DESTINATION_OPTIONS;
}

/* Row 5. */
static bool read_chain(const uint8_t *packet, size_t size, struct chain *c)
{
    c->srh = NULL;
    c->upper = packet[6];
    c->upper_at = IPV6_SIZE;
    if (c->upper == ROUTING) {
        if (size < IPV6_SIZE + SRH_SIZE)
            return false;
        c->srh = packet + IPV6_SIZE;
        c->upper = c->srh[0];
        c->upper_at = IPV6_SIZE + SRH_SIZE + 8U * c->srh[1];
        if (c->srh[2] != ROUTING_TYPE_SRH || size < c->upper_at || c->upper == ROUTING)
            return false;
    }
    return !refused_in_chain(c->upper);
}

/* LE beyond the segments held. */
static bool beyond_held(const uint8_t *srh)
{
    return srh[4] >= srh[1] / 2;
}

/* What a G-PDU carries. */
struct g_pdu {
    size_t inner_at; /* in the datagram */
    uint8_t args[ARGS_SIZE];
};

/* In place of a row: the message is an Echo Request that is to be answered. */
enum { ANSWER_ECHO = 255 };

/* Row 17. */
static unsigned int judge_echo(const uint8_t *gtpu)
{
    return (gtpu[0] & 2) == 0 || word32(gtpu + 4) != 0 ? KAWSARPA_ANSWER_BAD_ECHO : ANSWER_ECHO;
}

/* Row 9. */
static bool bad_udp(const uint8_t *udp, size_t size)
{
    return size < UDP_SIZE || word16(udp + 4) != size;
}

/* Row 18. */
static bool bad_checksum(const uint8_t *packet, const uint8_t *udp, size_t size, bool zero_allowed)
{
    return word16(udp + 6) == 0 ? !zero_allowed : anchor_udp_sum(packet + 8, udp, size) != 0xFFFF;
}

/* Rows 10 to 13 of a UDP datagram; 0 if none applies. */
static inline unsigned int read_g_pdu(const uint8_t *udp, size_t size, uint8_t direction, struct g_pdu *g)
{
    const uint8_t *gtpu = udp + UDP_SIZE;
    if (size < UDP_SIZE + GTPU_SIZE || gtpu[0] >> 4 != 3 || word16(gtpu + 2) + UDP_SIZE + GTPU_SIZE != (int)size ||
        ((gtpu[0] & 7) != 0 && size < UDP_SIZE + GTPU_LONG_SIZE))
        return KAWSARPA_ANSWER_BAD_GTPU;
    if (gtpu[1] != G_PDU)
        return gtpu[1] == ECHO_REQUEST ? judge_echo(gtpu) : KAWSARPA_ANSWER_NOT_G_PDU;
    if ((gtpu[0] & 4) == 0 || gtpu[11] == 0)
        return KAWSARPA_ANSWER_BAD_CONTAINER;
    if (gtpu[11] != PDU_SESSION_CONTAINER || size < UDP_SIZE + GTPU_LONG_SIZE + 1 || gtpu[12] == 0)
        return KAWSARPA_ANSWER_BAD_EXTENSIONS;
    g->inner_at = UDP_SIZE + GTPU_LONG_SIZE + 4U * gtpu[12];
    if (size < g->inner_at || udp[g->inner_at - 1] != 0)
        return KAWSARPA_ANSWER_BAD_EXTENSIONS;
    if (gtpu[13] >> 4 != direction)
        return KAWSARPA_ANSWER_BAD_CONTAINER;
    g->args[0] = (uint8_t)((gtpu[14] & 0x3F) << 2 | (direction == KAWSARPA_DIRECTION_DOWNLINK ? gtpu[14] >> 5 & 2 : 0));
    memcpy(g->args + 1, gtpu + 4, 4);
    return 0;
}

/* The next header of an inner packet, or 0 where row 14 applies. */
static uint8_t inner_next(uint8_t session, const uint8_t *inner, size_t size)
{
    switch (session) {
    case KAWSARPA_SESSION_IPV4:
        return IPV4;
    case KAWSARPA_SESSION_IPV6:
        return IPV6;
    case KAWSARPA_SESSION_ETHERNET:
        return ETHERNET;
    default:
        if (size == 0)
            return 0;
        return inner[0] >> 4 == 4 ? IPV4 : inner[0] >> 4 == 6 ? IPV6 : 0;
    }
}

/* Row 8 at E6 and E4. */
static bool session_accepts(uint8_t session, uint8_t next)
{
    switch (session) {
    case KAWSARPA_SESSION_IPV4:
        return next == IPV4;
    case KAWSARPA_SESSION_IPV6:
        return next == IPV6;
    case KAWSARPA_SESSION_ETHERNET:
        return next == ETHERNET;
    default:
        return next == IPV4 || next == IPV6;
    }
}

/* End (RFC 8986, 4.1). */
static uint64_t at_waypoint(const uint8_t *packet, size_t size, uint8_t *out, size_t room)
{
    struct chain c;
    if (!read_chain(packet, size, &c))
        return KAWSARPA_ANSWER_BAD_CHAIN;
    if (c.srh == NULL || c.srh[3] == 0)
        return bad_upper_layer(c.upper_at);
    if (packet[7] <= 1)
        return KAWSARPA_ANSWER_HOP_LIMIT | KAWSARPA_ICMP_TIME_EXCEEDED << 8;
    if (beyond_held(c.srh) || c.srh[3] > c.srh[4] + 1)
        return bad_segments_left();
    if (room < size)
        return KAWSARPA_ANSWER_NO_ROOM;
    const uint8_t left = (uint8_t)(c.srh[3] - 1);
    memcpy(out, packet, size);
    out[7] = (uint8_t)(packet[7] - 1);
    out[IPV6_SIZE + 3] = left;
    memcpy(out + 24, c.srh + SRH_SIZE + ADDRESS * left, ADDRESS);
    return sent(size);
}

/* The replies to Echo Requests; not expanded in place, so that a G-PDU's way stays as short as it is without them. */
static __attribute__((noinline)) uint64_t reply6(uint8_t hop_limit, const uint8_t *packet, const uint8_t *udp, uint8_t *out, size_t room)
{
    if (room < IPV6_SIZE + ECHO_SIZE)
        return KAWSARPA_ANSWER_NO_ROOM;
    put_ipv6(out, traffic_class(packet), ECHO_SIZE, UDP, hop_limit, packet + 24, packet + 8);
    put_echo(out + IPV6_SIZE, udp);
    put_checksum(out, ECHO_SIZE);
    return sent(IPV6_SIZE + ECHO_SIZE);
}

static __attribute__((noinline)) uint64_t reply4(uint8_t ttl, const uint8_t *packet, const uint8_t *udp, uint8_t *out, size_t room)
{
    if (room < IPV4_SIZE + ECHO_SIZE)
        return KAWSARPA_ANSWER_NO_ROOM;
    put_ipv4(out, packet[1], IPV4_SIZE + ECHO_SIZE, ttl, packet + 16, packet + 12);
    put_echo(out + IPV4_SIZE, udp);
    return sent(IPV4_SIZE + ECHO_SIZE);
}

/* What D and Di do; with `drop_in` the arriving destination follows the last SID. */
static inline uint64_t encapsulate(const struct kawsarpa_entry *e, const struct kawsarpa_policy *y, bool drop_in, const uint8_t *packet,
                                   size_t size, uint8_t *out, size_t room)
{
    struct chain c;
    if (!read_chain(packet, size, &c))
        return KAWSARPA_ANSWER_BAD_CHAIN;
    if (c.srh != NULL && c.srh[3] != 0)
        return bad_segments_left();
    const uint8_t *udp = packet + c.upper_at;
    const size_t datagram = size - c.upper_at;
    if (c.upper != UDP || (datagram >= UDP_SIZE && word16(udp + 2) != GTPU_PORT))
        return bad_upper_layer(c.upper_at);
    if (bad_udp(udp, datagram))
        return KAWSARPA_ANSWER_BAD_UDP;
    if (bad_checksum(packet, udp, datagram, e->zero_checksum == KAWSARPA_ZERO_CHECKSUM_ALLOW))
        return KAWSARPA_ANSWER_BAD_CHECKSUM;
    struct g_pdu g;
    const unsigned int refusal = read_g_pdu(udp, datagram, e->direction, &g);
    if (refusal != 0)
        return refusal == ANSWER_ECHO ? reply6(e->hop_limit, packet, udp, out, room) : refusal;
    const uint8_t *inner = udp + g.inner_at;
    const size_t inner_size = datagram - g.inner_at;
    const uint8_t next = inner_next(e->session_type, inner, inner_size);
    if (next == 0)
        return KAWSARPA_ANSWER_BAD_INNER;
    const size_t n = y->sid_count, segments = n + drop_in;
    const size_t head = IPV6_SIZE + SRH_SIZE + ADDRESS * segments;
    if (head - IPV6_SIZE + inner_size > LENGTH_MOST)
        return KAWSARPA_ANSWER_TOO_LONG;
    if (room < head + inner_size)
        return KAWSARPA_ANSWER_NO_ROOM;
    uint8_t *last = out + IPV6_SIZE + SRH_SIZE;
    put_srh(out + IPV6_SIZE, next, segments);
    if (drop_in) {
        memcpy(last, packet + 24, ADDRESS);
        last += ADDRESS;
    }
    put_reversed(last, y->sids, n);
    memcpy(last + y->args_start / 8, g.args, ARGS_SIZE);
    /* the first SID now stands at the end of the list, Args and all if it is also the last */
    put_ipv6(out, traffic_class(packet), head - IPV6_SIZE + inner_size, ROUTING, e->hop_limit, e->source, out + head - ADDRESS);
    memcpy(out + head, inner, inner_size);
    return sent(head + inner_size);
}

/* End.M.GTP6.D (RFC 9433, 6.3). */
static uint64_t at_d(const struct kawsarpa_entry *e, const struct kawsarpa_policy *y, const uint8_t *packet, size_t size, uint8_t *out,
                     size_t room)
{
    return encapsulate(e, y, false, packet, size, out, room);
}

/* End.M.GTP6.D.Di (RFC 9433, 6.4). */
static uint64_t at_di(const struct kawsarpa_entry *e, const struct kawsarpa_policy *y, const uint8_t *packet, size_t size, uint8_t *out,
                      size_t room)
{
    return encapsulate(e, y, true, packet, size, out, room);
}

/* End.M.GTP6.E (RFC 9433, 6.5). */
static __attribute__((noinline)) uint64_t at_e6(const struct kawsarpa_entry *e, const uint8_t *packet, size_t size, uint8_t *out,
                                                size_t room)
{
    const size_t head = IPV6_SIZE + DATAGRAM_SIZE;
    struct chain c;
    if (!read_chain(packet, size, &c) || c.srh == NULL)
        return KAWSARPA_ANSWER_BAD_CHAIN;
    if (c.srh[3] != 1 || beyond_held(c.srh))
        return bad_segments_left();
    if (!session_accepts(e->session_type, c.upper))
        return bad_upper_layer(c.upper_at);
    const size_t inner = size - c.upper_at;
    if (DATAGRAM_SIZE + inner > LENGTH_MOST)
        return KAWSARPA_ANSWER_TOO_LONG;
    if (room < head + inner)
        return KAWSARPA_ANSWER_NO_ROOM;
    put_ipv6(out, traffic_class(packet), DATAGRAM_SIZE + inner, UDP, e->hop_limit, e->source, c.srh + SRH_SIZE);
    put_datagram(out + IPV6_SIZE, e, packet + 24 + e->args_start / 8, inner);
    memcpy(out + head, packet + c.upper_at, inner);
    put_checksum(out, DATAGRAM_SIZE + inner);
    return sent(head + inner);
}

/* End.M.GTP4.E (RFC 9433, 6.6). */
static __attribute__((noinline)) uint64_t at_e4(const struct kawsarpa_entry *e, const uint8_t *packet, size_t size, uint8_t *out,
                                                size_t room)
{
    const size_t head = IPV4_SIZE + DATAGRAM_SIZE;
    struct chain c;
    if (!read_chain(packet, size, &c))
        return KAWSARPA_ANSWER_BAD_CHAIN;
    if (c.srh != NULL && c.srh[3] != 0)
        return bad_segments_left();
    if (!session_accepts(e->session_type, c.upper))
        return bad_upper_layer(c.upper_at);
    const size_t inner = size - c.upper_at;
    if (head + inner > LENGTH_MOST)
        return KAWSARPA_ANSWER_TOO_LONG;
    if (room < head + inner)
        return KAWSARPA_ANSWER_NO_ROOM;
    const uint8_t *to = packet + 24 + e->p;
    put_ipv4(out, traffic_class(packet), head + inner, e->hop_limit, packet + 8 + e->q, to);
    put_datagram(out + IPV4_SIZE, e, to + 4, inner);
    memcpy(out + head, packet + c.upper_at, inner);
    return sent(head + inner);
}

/* H.M.GTP4.D (RFC 9433, 6.7); rows 2 and 3 have been passed. */
static uint64_t at_d4(const struct kawsarpa_rule *r, const uint8_t *packet, size_t size, uint8_t *out, size_t room)
{
    const uint8_t *udp = packet + IPV4_SIZE;
    const size_t datagram = size - IPV4_SIZE;
    if (packet[9] != UDP || (datagram >= UDP_SIZE && word16(udp + 2) != GTPU_PORT))
        return KAWSARPA_ANSWER_UPPER_LAYER;
    if (bad_udp(udp, datagram))
        return KAWSARPA_ANSWER_BAD_UDP;
    struct g_pdu g;
    const unsigned int refusal = read_g_pdu(udp, datagram, r->direction, &g);
    if (refusal != 0)
        return refusal == ANSWER_ECHO ? reply4(r->hop_limit, packet, udp, out, room) : refusal;
    const uint8_t *inner = udp + g.inner_at;
    const size_t inner_size = datagram - g.inner_at;
    const uint8_t next = inner_next(r->session_type, inner, inner_size);
    if (next == 0)
        return KAWSARPA_ANSWER_BAD_INNER;
    const size_t w = r->waypoint_count;
    const size_t head = w == 0 ? IPV6_SIZE : IPV6_SIZE + SRH_SIZE + ADDRESS * (w + 1);
    if (head - IPV6_SIZE + inner_size > LENGTH_MOST)
        return KAWSARPA_ANSWER_TOO_LONG;
    if (room < head + inner_size)
        return KAWSARPA_ANSWER_NO_ROOM;
    uint8_t sid[ADDRESS], source[ADDRESS];
    memcpy(sid, r->sid_prefix, sizeof sid);
    memcpy(sid + r->p, packet + 16, 4);
    memcpy(sid + r->p + 4, g.args, ARGS_SIZE);
    memcpy(source, r->source_prefix, sizeof source);
    memcpy(source + r->q, packet + 12, 4);
    put_ipv6(out, packet[1], head - IPV6_SIZE + inner_size, w == 0 ? next : ROUTING, r->hop_limit, source, w == 0 ? sid : r->waypoints[0]);
    if (w != 0) {
        put_srh(out + IPV6_SIZE, next, w + 1);
        memcpy(out + IPV6_SIZE + SRH_SIZE, sid, ADDRESS);
        put_reversed(out + IPV6_SIZE + SRH_SIZE + ADDRESS, r->waypoints, w);
    }
    memcpy(out + head, inner, inner_size);
    return sent(head + inner_size);
}

/* Row 2. */
static bool malformed(const uint8_t *packet, size_t size)
{
    return size < IPV6_SIZE || packet[0] >> 4 != 6 || IPV6_SIZE + (size_t)word16(packet + 4) != size;
}

static bool malformed4(const uint8_t *packet, size_t size)
{
    return size < IPV4_SIZE || packet[0] >> 4 != 4 || word16(packet + 2) != size;
}

/* Row 3: MF and the offset are the low 14 bits of octets 6 and 7. */
static bool bad_header4(const uint8_t *packet)
{
    return (packet[0] & 15) != 5 || (word16(packet + 6) & 0x3FFF) != 0 || header_sum(packet) != 0xFFFF;
}

static inline uint64_t behave(const struct kawsarpa_entry *e, const struct kawsarpa_policy *y, const uint8_t *packet, size_t size,
                              uint8_t *out, size_t room)
{
    switch (e->behaviour) {
    case KAWSARPA_BEHAVIOUR_END:
        return at_waypoint(packet, size, out, room);
    case KAWSARPA_BEHAVIOUR_END_M_GTP6_D:
        return at_d(e, y, packet, size, out, room);
    case KAWSARPA_BEHAVIOUR_END_M_GTP6_D_DI:
        return at_di(e, y, packet, size, out, room);
    case KAWSARPA_BEHAVIOUR_END_M_GTP6_E:
        return at_e6(e, packet, size, out, room);
    default:
        return at_e4(e, packet, size, out, room);
    }
}

/* Waypoint, D and Di are expanded in place in all three functions of IPv6, E6 and E4 called. So the compiler chose before there was a
   checksum, and counts from then can be held against those from now. */

__attribute__((flatten)) uint64_t anchor_at_entry(const struct kawsarpa_entry *e, const struct kawsarpa_policy *y, const uint8_t *packet,
                                                  size_t size, uint8_t *out, size_t room)
{
    return malformed(packet, size) ? KAWSARPA_ANSWER_MALFORMED : behave(e, y, packet, size, out, room);
}

uint64_t anchor_at_rule(const struct kawsarpa_rule *r, const uint8_t *packet, size_t size, uint8_t *out, size_t room)
{
    if (malformed4(packet, size))
        return KAWSARPA_ANSWER_MALFORMED;
    return bad_header4(packet) ? KAWSARPA_ANSWER_BAD_HEADER4 : at_d4(r, packet, size, out, room);
}

__attribute__((flatten)) uint64_t anchor_ipv6_sound(const struct anchor_table *t, const uint8_t *packet, size_t size, uint8_t *out,
                                                    size_t room)
{
    if (malformed(packet, size))
        return KAWSARPA_ANSWER_MALFORMED;
    const struct kawsarpa_entry *e = anchor_find_entry(t, packet + 24);
    return e == NULL ? KAWSARPA_ANSWER_NO_MATCH : behave(e, t->policies + e->policy, packet, size, out, room);
}

uint64_t anchor_ipv4_sound(const struct anchor_table *t, const uint8_t *packet, size_t size, uint8_t *out, size_t room)
{
    if (malformed4(packet, size))
        return KAWSARPA_ANSWER_MALFORMED;
    if (bad_header4(packet))
        return KAWSARPA_ANSWER_BAD_HEADER4;
    const struct kawsarpa_rule *r = anchor_find_rule(t, packet + 16);
    return r == NULL ? KAWSARPA_ANSWER_NO_MATCH : at_d4(r, packet, size, out, room);
}

__attribute__((flatten)) uint64_t anchor_translate_ipv6(const uint8_t *packet, size_t size, const uint8_t *table, size_t table_len,
                                                        uint8_t *out, size_t room)
{
    struct anchor_table t;
    return anchor_sound(table, table_len, &t) ? anchor_ipv6_sound(&t, packet, size, out, room) : KAWSARPA_ANSWER_UNSOUND;
}

uint64_t anchor_translate_ipv4(const uint8_t *packet, size_t size, const uint8_t *table, size_t table_len, uint8_t *out, size_t room)
{
    struct anchor_table t;
    return anchor_sound(table, table_len, &t) ? anchor_ipv4_sound(&t, packet, size, out, room) : KAWSARPA_ANSWER_UNSOUND;
}
