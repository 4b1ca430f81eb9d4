/*
 * Packets that follow each other in a capture, for one call of the library for each IP version among them: a call judges the table once
 * for all its packets.
 */
#ifndef BURST_H
#define BURST_H

#include <stdbool.h>
#include <stddef.h>
#include <stdint.h>

#include "capture.h"
#include "kawsarpa.h"
#include "stop.h"

/* Octets of packets that a lane has room for, and of what is sent for them. */
enum { BURST_ROOM = 65536, BURST_OUT_ROOM = BURST_ROOM + KAWSARPA_BURST_MAX * KAWSARPA_GROWTH_MAX };

/* The packets of one IP version, and what is sent for them. */
struct burst_lane {
    size_t count;
    size_t length;          /* of all packets */
    const uint8_t *packets; /* one after the other */
    uint32_t lengths[KAWSARPA_BURST_MAX];
    uint64_t answers[KAWSARPA_BURST_MAX];
    size_t told; /* packets whose outcome is read, and octets of their results */
    size_t sent;
    uint8_t in[BURST_ROOM];
    uint8_t out[BURST_OUT_ROOM];
};

struct burst {
    size_t count;
    struct capture_packet packets[KAWSARPA_BURST_MAX]; /* in the order of the capture */
    struct outcome outcomes[KAWSARPA_BURST_MAX];       /* of each, behind the call */
    struct burst_lane ipv4, ipv6;
};

/* Whether there is room for the packet beside those that are gathered. */
bool burst_takes(const struct burst *burst, const struct capture_packet *packet);

/* Adds such a packet, or any to an empty burst. */
void burst_add(struct burst *burst, const struct capture_packet *packet);

/* Whether the call is due, before another packet is read. */
bool burst_full(const struct burst *burst);

/* The library's calls for what is gathered. */
void burst_call(struct burst *burst, const struct stop *stop);

/* Begins anew, without a packet. */
void burst_clear(struct burst *burst);

#endif
