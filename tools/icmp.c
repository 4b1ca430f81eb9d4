#include "icmp.h"

#include <string.h>

#include "describe.h"
#include "formats.h"

static bool is_multicast(const uint8_t address[16])
{
    return address[0] == 0xFF;
}

static bool is_unspecified(const uint8_t address[16])
{
    static const uint8_t unspecified[16];
    return memcmp(address, unspecified, sizeof unspecified) == 0;
}

/* The first of RFC 4443's exceptions (section 2.4 e) that the packet is one of. */
static void find_reason(char reason[ICMP_REASON_ROOM], const struct packet_reading *packet)
{
    const char *words = "the library tells no reason";
    const bool headed = packet->version == 6;
    if (headed && is_multicast(packet->source))
        words = "the source is multicast";
    else if (headed && is_unspecified(packet->source))
        words = "the source is unspecified";
    else if (headed && is_multicast(packet->destination))
        words = "the destination is multicast";
    else if (packet->icmp != NULL && packet->icmp[0] < ICMPV6_ECHO_REQUEST) {
        snprintf(reason, ICMP_REASON_ROOM, "the upper layer is ICMPv6 of type %u, an error message", packet->icmp[0]);
        return;
    } else if (packet->icmp != NULL && packet->icmp[0] == ICMPV6_REDIRECT)
        words = "the upper layer is ICMPv6 of type 137, a Redirect";
    snprintf(reason, ICMP_REASON_ROOM, "%s", words);
}

void icmp_ask(struct icmp_message *message, const struct stop *stop, uint64_t answer, const uint8_t *packet, size_t length)
{
    message->asked = kawsarpa_answer_icmp_type(answer) != 0;
    message->length = 0;
    message->from_unspecified = false;
    if (!message->asked)
        return;
    const uint64_t built = kawsarpa_call_icmp_ipv6(packet, length, stop->table.at, stop->table.count, message->octets,
                                                   sizeof message->octets);
    if (kawsarpa_answer_number(built) == KAWSARPA_ANSWER_SENT) {
        message->length = kawsarpa_answer_length(built);
        message->from_unspecified = is_unspecified(message->octets + IPV6_SOURCE);
    } else {
        const struct packet_reading reading = packet_read(packet, length);
        find_reason(message->reason, &reading);
    }
}

void icmp_say(FILE *to, const struct icmp_message *message)
{
    fputs("ICMPv6 message: ", to);
    if (message->length == 0) {
        fprintf(to, "none is due: %s", message->reason);
        return;
    }
    icmp_describe(to, message->octets, message->length);
    if (message->from_unspecified)
        fputs("; routers drop it, since the entry has no source", to);
}

void icmp_json(struct json *json, const struct icmp_message *message)
{
    if (message->length > 0)
        packet_json(json, "icmp_message", message->octets, message->length);
    else
        json_text(json, "none_due", message->reason);
}
