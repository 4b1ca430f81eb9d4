#include "burst.h"

#include <string.h>

_Static_assert(BURST_OUT_ROOM >= (int)KAWSARPA_OUT_MAX, "a packet that is longer than a lane would have no room");

bool burst_takes(const struct burst *burst, const struct capture_packet *packet)
{
    const struct burst_lane *lane = packet->version == 4 ? &burst->ipv4 : &burst->ipv6;
    return packet->length <= BURST_ROOM - lane->length;
}

/* A packet that is longer than a lane stays where the capture has it: it is the only one. */
void burst_add(struct burst *burst, const struct capture_packet *packet)
{
    struct burst_lane *lane = packet->version == 4 ? &burst->ipv4 : &burst->ipv6;
    struct capture_packet *added = &burst->packets[burst->count++];
    *added = *packet;
    if (packet->length <= BURST_ROOM - lane->length)
        added->octets = memcpy(lane->in + lane->length, packet->octets, packet->length);
    if (lane->count == 0)
        lane->packets = added->octets;
    lane->lengths[lane->count++] = (uint32_t)packet->length;
    lane->length += packet->length;
}

bool burst_full(const struct burst *burst)
{
    return burst->count == KAWSARPA_BURST_MAX || burst->ipv4.length > BURST_ROOM || burst->ipv6.length > BURST_ROOM;
}

static void call(struct burst_lane *lane, unsigned int version, const struct stop *stop)
{
    if (lane->count == 0)
        return;
    /* no answer is written where the burst is refused as a whole: this one is told of each packet then */
    for (size_t i = 0; i < lane->count; i++)
        lane->answers[i] = KAWSARPA_ANSWER_BAD_BURST;
    (version == 4 ? kawsarpa_call_burst_ipv4 : kawsarpa_call_burst_ipv6)(lane->packets, lane->length, lane->lengths, lane->count,
                                                                         stop->table.at, stop->table.count, lane->out, sizeof lane->out,
                                                                         lane->answers, KAWSARPA_BURST_MAX);
}

/* Results lie one after the other in the order of the lane's packets. */
static struct outcome next_outcome(struct burst_lane *lane, const struct capture_packet *packet)
{
    const uint64_t answer = lane->answers[lane->told++];
    const uint8_t *sent = lane->out + lane->sent;
    lane->sent += kawsarpa_answer_length(answer);
    return stop_outcome(answer, packet->octets, packet->length, sent);
}

void burst_call(struct burst *burst, const struct stop *stop)
{
    call(&burst->ipv4, 4, stop);
    call(&burst->ipv6, 6, stop);
    for (size_t i = 0; i < burst->count; i++) {
        const struct capture_packet *packet = &burst->packets[i];
        burst->outcomes[i] = next_outcome(packet->version == 4 ? &burst->ipv4 : &burst->ipv6, packet);
    }
}

static void clear(struct burst_lane *lane)
{
    lane->count = 0;
    lane->length = 0;
    lane->told = 0;
    lane->sent = 0;
}

void burst_clear(struct burst *burst)
{
    burst->count = 0;
    clear(&burst->ipv4);
    clear(&burst->ipv6);
}
