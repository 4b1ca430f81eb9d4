/* What came out of a trip, held against what went in. */
#ifndef ARRIVAL_H
#define ARRIVAL_H

#include <stdbool.h>
#include <stddef.h>
#include <stdint.h>
#include <stdio.h>

#include "capture.h"
#include "json.h"
#include "kawsarpa.h"
#include "promise.h"

/* A packet on its way. */
struct parcel {
    const uint8_t *octets;
    size_t length;
};

/* What left the last stop, nothing after a refusal or where a stop has answered an Echo Request; and the entries by which it went in and
   came out, as stop_entry tells them. */
struct arrival {
    struct parcel out;
    const struct kawsarpa_entry *near;
    const struct kawsarpa_entry *far;
    bool echo_answered;
};

struct verdict {
    bool arrived;
    bool echo_answered;  /* the trip ended there, as it should */
    size_t inner_length; /* of what went in */
    struct differences differences;
};

/* Where nothing is promised the parts that the line names are compared. */
struct verdict arrival_judge(const struct capture_packet *packet, const struct arrival *arrival);

/* Whether it arrived as it went in. */
bool verdict_unchanged(const struct verdict *verdict);

/* A line of its own; nothing where nothing arrived. */
void verdict_say(FILE *to, const struct verdict *verdict);

/* Members of a JSON object. */
void verdict_json(struct json *json, const struct verdict *verdict);

#endif
