/* What is measured: a kind of translation with its packets and its tables; packets about which an ICMPv6 message is due, or none; an
   arrival of a sequence number with its rows. */
#ifndef CASES_H
#define CASES_H

#include "anchor.h"
#include "measure.h"

#include <stdbool.h>

enum { RING = 4096, PACKET_MOST = 1500, OUT_SIZE = 2048, SIZES = 3, TABLES = 5, ROW_COUNTS = 3 };

/* The octets of a table: as many as the largest has. */
enum { TABLE_MOST = 16 + 64 * 64 + 16 * 160 + 16 * 288 };

struct table {
    uint8_t octets[TABLE_MOST];
    size_t length;
    const char *order; /* "in order" or "shuffled" */
    unsigned int records;
};

struct kind {
    const char *name;
    bool ipv4;
    uint8_t behaviour;     /* of its entries */
    uint8_t prefix_length; /* of its entries or rules */
    uint8_t segments;      /* SIDs of its policy, waypoints of its rule */
    bool echo;             /* its packets are Echo Requests */
    uint8_t zero_checksum; /* of its entries: what they do with UDP checksum 0 */
    bool zero;             /* its packets have UDP checksum 0; else, over IPv6, the right one */
};

extern const struct kind kinds[];
extern const unsigned int kind_count;

/* Whether the next kind differs in segments alone, of which it has more. */
bool next_is_alike(unsigned int kind);

/* What verifying adds: in pairs, packets with UDP checksum 0 and the same with the right one, both at entries that allow 0. */
extern const struct kind checksum_kinds[];
extern const unsigned int checksum_kind_count;

/* Lengths of arriving packets. */
extern const size_t sizes[SIZES];

/* Table `which` of a kind, 0 to TABLES - 1: records of this kind alone, with one policy where the kind uses one. */
void make_table(const struct kind *kind, unsigned int which, struct table *table);

/* The largest table, all kinds mixed: 64 entries, 16 rules, 16 policies, in ascending order or shuffled. */
void make_full_table(bool shuffled, struct table *table);

/* A packet of `size` octets that a table of the kind sends on or answers. Its number says which of `records` records it matches, and
   what Args it carries. */
void make_packet(const struct kind *kind, unsigned int records, unsigned int number, uint8_t *packet, size_t size);

/* A packet for the ICMP call: one of a kind, with an octet for which it is refused, or as it is sent on. */
struct report {
    const char *name;
    const struct kind *kind;
    uint8_t at, octet; /* at 0: none */
    uint8_t answer;    /* to the ICMP call */
};

extern const struct report reports[];
extern const unsigned int report_count;

void make_reported(const struct report *report, unsigned int records, uint8_t *packet, size_t size);

/* A G-PDU of `size` octets with a sequence number. */
void make_numbered(bool ipv4, uint8_t *packet, size_t size);

/* An offer by what it meets. The last row is of its TEID, free or of another TEID; all rows before are used and of other TEIDs. */
struct arrival {
    const char *name;
    enum { ROW_OF_TEID, ROW_FREE, ROW_OF_ANOTHER } last;
    int distance;  /* of the first number from the highest */
    uint16_t step; /* from one number to the next */
};

extern const struct arrival arrivals[];
extern const unsigned int arrival_count;

extern const size_t row_counts[ROW_COUNTS];

/* The offers of an arrival, and the rows that they are made to. */
struct offers make_offers(const struct arrival *arrival, size_t count, struct kawsarpa_loss_row rows[KAWSARPA_LOSS_ROWS_MAX]);

#endif
