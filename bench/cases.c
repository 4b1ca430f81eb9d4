/* Packets and tables of each kind, packets of each report, rows of each arrival. All are made from numbers, so every run has the same. */
#include "cases.h"
#include "formats.h"

const struct kind kinds[] = {
    {"waypoint", false, KAWSARPA_BEHAVIOUR_END, 128, 0, false, 0, false},
    {"D, 1 SID", false, KAWSARPA_BEHAVIOUR_END_M_GTP6_D, 64, 1, false, 0, false},
    {"D, 3 SIDs", false, KAWSARPA_BEHAVIOUR_END_M_GTP6_D, 64, 3, false, 0, false},
    {"Di, 3 SIDs", false, KAWSARPA_BEHAVIOUR_END_M_GTP6_D_DI, 64, 3, false, 0, false},
    {"D4, 0 waypoints", true, 0, 24, 0, false, 0, false},
    {"D4, 2 waypoints", true, 0, 24, 2, false, 0, false},
    {"E6", false, KAWSARPA_BEHAVIOUR_END_M_GTP6_E, 64, 0, false, 0, false},
    {"E4", false, KAWSARPA_BEHAVIOUR_END_M_GTP4_E, 48, 0, false, 0, false},
    {"D, Echo", false, KAWSARPA_BEHAVIOUR_END_M_GTP6_D, 64, 1, true, 0, false},
    {"D4, Echo", true, 0, 24, 0, true, 0, false},
};
const unsigned int kind_count = sizeof kinds / sizeof kinds[0];

bool next_is_alike(unsigned int kind)
{
    return kind + 1 < kind_count && kinds[kind].behaviour == kinds[kind + 1].behaviour;
}

const struct kind checksum_kinds[] = {
    {"D, zero", false, KAWSARPA_BEHAVIOUR_END_M_GTP6_D, 64, 3, false, KAWSARPA_ZERO_CHECKSUM_ALLOW, true},
    {"D, right", false, KAWSARPA_BEHAVIOUR_END_M_GTP6_D, 64, 3, false, KAWSARPA_ZERO_CHECKSUM_ALLOW, false},
    {"Di, zero", false, KAWSARPA_BEHAVIOUR_END_M_GTP6_D_DI, 64, 3, false, KAWSARPA_ZERO_CHECKSUM_ALLOW, true},
    {"Di, right", false, KAWSARPA_BEHAVIOUR_END_M_GTP6_D_DI, 64, 3, false, KAWSARPA_ZERO_CHECKSUM_ALLOW, false},
    {"Echo, zero", false, KAWSARPA_BEHAVIOUR_END_M_GTP6_D, 64, 1, true, KAWSARPA_ZERO_CHECKSUM_ALLOW, true},
    {"Echo, right", false, KAWSARPA_BEHAVIOUR_END_M_GTP6_D, 64, 1, true, KAWSARPA_ZERO_CHECKSUM_ALLOW, false},
};
const unsigned int checksum_kind_count = sizeof checksum_kinds / sizeof checksum_kinds[0];

/* At D the port is another one, in its low octet; at the waypoint the hop limit is 1. */
enum { WAYPOINT = 0, D_3_SIDS = 2, PORT_AT = 43, HOP_LIMIT_AT = 7 };
const struct report reports[] = {
    {"8 at D", &kinds[D_3_SIDS], PORT_AT, 0, KAWSARPA_ANSWER_SENT},
    {"6 at a waypoint", &kinds[WAYPOINT], HOP_LIMIT_AT, 1, KAWSARPA_ANSWER_SENT},
    {"23 at D", &kinds[D_3_SIDS], 0, 0, KAWSARPA_ANSWER_NONE_DUE},
    {"23 at a waypoint", &kinds[WAYPOINT], 0, 0, KAWSARPA_ANSWER_NONE_DUE},
};
const unsigned int report_count = sizeof reports / sizeof reports[0];

const size_t sizes[SIZES] = {64, 164, 1500};

enum { ARGS_OCTET = 8, P = 6, Q = 8, DIRECTION = KAWSARPA_DIRECTION_DOWNLINK, SESSION = KAWSARPA_SESSION_IPV4 };

/* Entries are told apart by the octet behind 2001:db8::/32, which lies within every kind's prefix. */
static const uint8_t base[ADDRESS] = {0x20, 0x01, 0x0d, 0xb8};
enum { TELLING = 5 };

static uint8_t telling(unsigned int number)
{
    return (uint8_t)(2 * number + 1);
}

static void set_entry(struct kawsarpa_entry *e, uint8_t behaviour, uint8_t prefix_length, unsigned int number)
{
    memset(e, 0, sizeof *e);
    e->behaviour = behaviour;
    e->prefix_length = prefix_length;
    e->hop_limit = 64;
    e->direction = DIRECTION;
    e->session_type = SESSION;
    e->args_start = 8 * ARGS_OCTET;
    e->p = P;
    e->q = Q;
    kawsarpa_entry_set_source_port(e, GTPU_PORT);
    memcpy(e->prefix, base, ADDRESS);
    e->prefix[TELLING] = telling(number);
    memcpy(e->source, base, ADDRESS);
}

static void set_rule(struct kawsarpa_rule *r, uint8_t waypoints, unsigned int number)
{
    memset(r, 0, sizeof *r);
    r->prefix_length = 24;
    r->hop_limit = 64;
    r->direction = DIRECTION;
    r->session_type = SESSION;
    r->p = P;
    r->q = Q;
    r->waypoint_count = waypoints;
    kawsarpa_rule_set_prefix(r, 0x0A000000U | (uint32_t)telling(number) << 8);
    memcpy(r->sid_prefix, base, P);
    memcpy(r->source_prefix, base, Q);
    for (unsigned int i = 0; i < KAWSARPA_WAYPOINTS_MAX && i < waypoints; i++) {
        memcpy(r->waypoints[i], base, ADDRESS);
        r->waypoints[i][15] = (uint8_t)(i + 1);
    }
}

static void set_policy(struct kawsarpa_policy *y, uint8_t sids)
{
    memset(y, 0, sizeof *y);
    y->sid_count = sids;
    y->args_start = 8 * ARGS_OCTET;
    for (unsigned int i = 0; i < KAWSARPA_SIDS_MAX && i < sids; i++) {
        memcpy(y->sids[i], base, ADDRESS);
        y->sids[i][TELLING] = (uint8_t)(i + 1);
    }
}

/* The place of record i: itself, or one of a fixed disorder. The counts are powers of two, so an odd factor reaches every place. */
static unsigned int placed(unsigned int i, unsigned int count, bool shuffled)
{
    return shuffled ? (i * 37 + count / 2 + 1) % count : i;
}

static bool uses_policy(const struct kind *kind)
{
    return kind->behaviour == KAWSARPA_BEHAVIOUR_END_M_GTP6_D || kind->behaviour == KAWSARPA_BEHAVIOUR_END_M_GTP6_D_DI;
}

/* The header, and where entries, rules and policies go. */
static void lay_out(struct table *t, unsigned int entries, unsigned int rules, unsigned int policies, struct kawsarpa_entry **e,
                    struct kawsarpa_rule **r, struct kawsarpa_policy **y)
{
    memset(t, 0, sizeof *t);
    kawsarpa_table_header_set((void *)t->octets, (uint16_t)entries, (uint16_t)rules, (uint16_t)policies);
    *e = (void *)(t->octets + sizeof(struct kawsarpa_table_header));
    *r = (void *)(*e + entries);
    *y = (void *)(*r + rules);
    t->length = kawsarpa_table_size((uint16_t)entries, (uint16_t)rules, (uint16_t)policies);
}

void make_table(const struct kind *kind, unsigned int which, struct table *t)
{
    static const unsigned int counts[2][TABLES] = {{1, 8, 64, 8, 64}, {1, 8, 16, 8, 16}};
    const unsigned int count = counts[kind->ipv4][which];
    const bool shuffled = which >= 3;
    struct kawsarpa_entry *e;
    struct kawsarpa_rule *r;
    struct kawsarpa_policy *y;
    lay_out(t, kind->ipv4 ? 0 : count, kind->ipv4 ? count : 0, uses_policy(kind), &e, &r, &y);
    for (unsigned int i = 0; i < count; i++) {
        const unsigned int place = placed(i, count, shuffled);
        if (kind->ipv4) {
            set_rule(&r[place], kind->segments, i);
        } else {
            set_entry(&e[place], kind->behaviour, kind->prefix_length, i);
            e[place].zero_checksum = kind->zero_checksum;
        }
    }
    if (uses_policy(kind))
        set_policy(y, kind->segments);
    t->order = shuffled ? "shuffled" : "in order";
    t->records = count;
}

void make_full_table(bool shuffled, struct table *t)
{
    struct kawsarpa_entry *e;
    struct kawsarpa_rule *r;
    struct kawsarpa_policy *y;
    lay_out(t, KAWSARPA_ENTRIES_MAX, KAWSARPA_RULES_MAX, KAWSARPA_POLICIES_MAX, &e, &r, &y);
    for (unsigned int i = 0, k = 0; i < KAWSARPA_ENTRIES_MAX; i++, k = (k + 1) % kind_count) {
        while (kinds[k].ipv4 || kinds[k].echo)
            k = (k + 1) % kind_count;
        struct kawsarpa_entry *entry = &e[placed(i, KAWSARPA_ENTRIES_MAX, shuffled)];
        set_entry(entry, kinds[k].behaviour, kinds[k].prefix_length, i);
        entry->policy = (uint8_t)(i % KAWSARPA_POLICIES_MAX);
    }
    for (unsigned int i = 0; i < KAWSARPA_RULES_MAX; i++)
        set_rule(&r[placed(i, KAWSARPA_RULES_MAX, shuffled)], (uint8_t)(i % (KAWSARPA_WAYPOINTS_MAX + 1)), i);
    for (unsigned int i = 0; i < KAWSARPA_POLICIES_MAX; i++)
        set_policy(&y[i], (uint8_t)(i % KAWSARPA_SIDS_MAX + 1));
    t->order = shuffled ? "shuffled" : "in order";
    t->records = KAWSARPA_ENTRIES_MAX;
}

/* UDP, GTP-U and a container of one unit, before an inner packet. */
static void put_g_pdu(uint8_t *udp, unsigned int number, size_t inner)
{
    struct kawsarpa_entry e;
    uint8_t args[ARGS_SIZE] = {(uint8_t)(number << 2)};
    set_entry(&e, KAWSARPA_BEHAVIOUR_END_M_GTP6_E, 64, 0);
    kawsarpa_put16(args + 1, (uint16_t)(number >> 16));
    kawsarpa_put16(args + 3, (uint16_t)number);
    put_datagram(udp, &e, args, inner);
}

/* An Echo Request of `size` octets with its UDP header; what follows the twelve octets of the message is not examined. */
static void put_echo_request(uint8_t *udp, unsigned int number, size_t size)
{
    static const uint8_t fixed[UDP_SIZE + GTPU_LONG_SIZE] = {[2] = GTPU_PORT >> 8, GTPU_PORT & 0xFF, [8] = 0x32, ECHO_REQUEST};
    memcpy(udp, fixed, sizeof fixed);
    kawsarpa_put16(udp, (uint16_t)(49152 + number % 16384));
    kawsarpa_put16(udp + 4, (uint16_t)size);
    kawsarpa_put16(udp + 10, (uint16_t)(size - UDP_SIZE - GTPU_SIZE));
    kawsarpa_put16(udp + 16, (uint16_t)number);
}

/* What a near gateway gets: UDP to the end of the packet. */
static void put_message(const struct kind *kind, uint8_t *udp, unsigned int number, size_t size)
{
    if (kind->echo)
        put_echo_request(udp, number, size);
    else
        put_g_pdu(udp, number, size - DATAGRAM_SIZE);
}

void make_packet(const struct kind *kind, unsigned int records, unsigned int number, uint8_t *packet, size_t size)
{
    uint8_t source[ADDRESS], to[ADDRESS];
    memcpy(source, base, ADDRESS);
    memcpy(to, base, ADDRESS);
    to[TELLING] = telling(number % records);
    for (size_t i = 0; i < size; i++)
        packet[i] = (uint8_t)(i * 7 + number);
    if (kind->ipv4) {
        const uint8_t from4[4] = {192, 0, 2, 1}, to4[4] = {10, 0, telling(number % records), (uint8_t)number};
        put_ipv4(packet, 0, size, 64, from4, to4);
        put_message(kind, packet + IPV4_SIZE, number, size - IPV4_SIZE);
    } else if (uses_policy(kind)) {
        put_ipv6(packet, 0, size - IPV6_SIZE, UDP, 64, source, to);
        put_message(kind, packet + IPV6_SIZE, number, size - IPV6_SIZE);
        if (!kind->zero)
            put_checksum(packet, size - IPV6_SIZE);
    } else if (kind->behaviour == KAWSARPA_BEHAVIOUR_END_M_GTP4_E) {
        /* no SRH, as D4 without waypoints sends */
        to[P + 4] = (uint8_t)(number << 2);
        put_ipv6(packet, 0, size - IPV6_SIZE, IPV4, 64, source, to);
    } else {
        /* an SRH of one segment, not yet reached, for the waypoint and for E6 */
        if (kind->behaviour == KAWSARPA_BEHAVIOUR_END_M_GTP6_E)
            to[ARGS_OCTET] = (uint8_t)(number << 2);
        put_ipv6(packet, 0, size - IPV6_SIZE, ROUTING, 64, source, to);
        put_srh(packet + IPV6_SIZE, IPV4, 1);
        packet[IPV6_SIZE + 3] = 1;
        memcpy(packet + IPV6_SIZE + SRH_SIZE, source, ADDRESS);
    }
}

void make_reported(const struct report *r, unsigned int records, uint8_t *packet, size_t size)
{
    make_packet(r->kind, records, 0, packet, size);
    if (r->at != 0)
        packet[r->at] = r->octet;
}

void make_numbered(bool ipv4, uint8_t *packet, size_t size)
{
    const struct kind kind = {"", ipv4, KAWSARPA_BEHAVIOUR_END_M_GTP6_D, 64, 1, false, 0, true};
    uint8_t *gtpu = packet + (ipv4 ? IPV4_SIZE : IPV6_SIZE) + UDP_SIZE;
    make_packet(&kind, 1, 0, packet, size);
    gtpu[0] |= 2;
    kawsarpa_put16(gtpu + 8, 7);
}

const struct arrival arrivals[] = {
    {"new", ROW_OF_TEID, 1, 1},    {"repeated", ROW_OF_TEID, 0, 0},       {"late", ROW_OF_TEID, -1, 0},
    {"row taken", ROW_FREE, 0, 0}, {"no row free", ROW_OF_ANOTHER, 0, 0},
};
const unsigned int arrival_count = sizeof arrivals / sizeof arrivals[0];

const size_t row_counts[ROW_COUNTS] = {1, 16, KAWSARPA_LOSS_ROWS_MAX};

struct offers make_offers(const struct arrival *a, size_t count, struct kawsarpa_loss_row rows[KAWSARPA_LOSS_ROWS_MAX])
{
    const uint32_t teid = 1000;
    const uint16_t highest = 1000;
    struct kawsarpa_loss_row *last = &rows[count - 1];
    for (size_t i = 0; i < count; i++) {
        const uint32_t other = teid + 1 + (uint32_t)i;
        rows[i] = (struct kawsarpa_loss_row){.teid = other, .first = highest, .highest = highest, .seen = 1, .new = 1};
    }
    if (a->last == ROW_OF_TEID)
        last->teid = teid;
    if (a->last == ROW_FREE)
        memset(last, 0, sizeof *last);
    return (struct offers){rows, count, teid, (uint16_t)(highest + a->distance), a->step, a->last == ROW_FREE ? last : NULL};
}
