/* A stop of a trip: a gateway or a waypoint with its table, and the library's call there. */
#ifndef STOP_H
#define STOP_H

#include <stdbool.h>
#include <stddef.h>
#include <stdint.h>
#include <stdio.h>

#include "checksum.h"
#include "file.h"
#include "json.h"
#include "kawsarpa.h"

/* Room for every packet that the library can send. */
enum { STOP_ROOM = KAWSARPA_OUT_MAX };

struct stop {
    const char *name; /* of its table, for messages */
    struct octets table;
};

/* Reads a compiled table and has the library judge it. Not 0: the fault was reported, and this is the exit code. */
int stop_load(struct stop *stop, const char *name);

void stop_free(struct stop *stop);

/* What the library did with a packet. */
struct outcome {
    uint64_t answer;
    const uint8_t *sent; /* NULL after a refusal */
    size_t sent_length;
    bool echo_answered;               /* the packet is an Echo Request, and what is sent the Echo Response; else it is sent on */
    struct checksum_reading checksum; /* of the packet, where it was refused for it */
};

/* What an answer of the library says of a packet; what was sent, where something was, stands in sent. */
struct outcome stop_outcome(uint64_t answer, const uint8_t *packet, size_t length, const uint8_t *sent);

/* The library's call for a packet of this IP version; what is sent stands in out. */
struct outcome stop_call(const struct stop *stop, unsigned int version, const uint8_t *packet, size_t length, uint8_t out[STOP_ROOM]);

/* The entry that the library goes by for a packet of this IP version. NULL: a waypoint's, a rule, or none. */
const struct kawsarpa_entry *stop_entry(const struct stop *stop, unsigned int version, const uint8_t *packet, size_t length);

/* The entry or rule that a packet of this IP version is led to by its destination. */
struct stop_record {
    unsigned int kind; /* KAWSARPA_RECORD_ENTRY or KAWSARPA_RECORD_RULE */
    unsigned int index;
};

/* False: none, or there is no whole IP header. */
bool stop_find(const struct stop *stop, unsigned int version, const uint8_t *packet, size_t length, struct stop_record *record);

/* "entry 1 End 2001:db8:1::/48", "rule 1 H.M.GTP4.D 192.0.2.0/24". */
void stop_say_record(FILE *to, const struct stop *stop, struct stop_record record);
void stop_json_record(struct json *json, const char *name, const struct stop *stop, struct stop_record record);

/* The answer in words, where it is a refusal with its number, what an ICMPv6 message would say, and both UDP checksums; else with what is
   sent. */
void stop_say_outcome(FILE *to, const struct outcome *outcome);
void stop_json_outcome(struct json *json, const struct outcome *outcome);

#endif
