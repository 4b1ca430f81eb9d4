#include "promise.h"

#include <assert.h>
#include <stdarg.h>
#include <stdio.h>
#include <string.h>

#include "checksum.h"
#include "formats.h"
#include "octets.h"

/* GTP-U as it is written: with the optional part and a container of one unit, four octets. */
enum { CONTAINER = 4, GTPU_FRONT = GTPU_HEADER + GTPU_OPTIONAL + CONTAINER };

/* Before the inner octets, over IPv6 and over IPv4. */
enum { FRONT6 = IPV6_HEADER + UDP_HEADER + GTPU_FRONT, FRONT4 = IPV4_HEADER + UDP_HEADER + GTPU_FRONT };

enum { VERSION_4_NO_OPTIONS = 0x45, DONT_FRAGMENT = 0x4000, VERSION_1_PT_E = 0x34 };

/* In a packet over IPv6. */
enum { CHECKSUM6 = IPV6_HEADER + UDP_CHECKSUM };

/* Of a whole packet. */
static uint16_t checksum6(const uint8_t *packet, size_t length)
{
    return checksum_udp6(packet + IPV6_SOURCE, packet + IPV6_DESTINATION, packet + IPV6_HEADER, length - IPV6_HEADER);
}

/* Octets that are not written here stay 0: the flow label, the identification, over IPv4 the UDP checksum, sequence and N-PDU number. */

static void put_ipv6(uint8_t *at, const struct packet_reading *in, const struct kawsarpa_entry *far, uint16_t length)
{
    put32(at, UINT32_C(6) << 28 | (uint32_t)in->traffic_class << 20);
    put16(at + 4, length);
    at[6] = NEXT_UDP;
    at[7] = far->hop_limit;
    memcpy(at + IPV6_SOURCE, far->source, 16);
    memcpy(at + IPV6_DESTINATION, in->destination, 16);
}

static void put_ipv4(uint8_t *at, const struct packet_reading *in, const struct kawsarpa_entry *far, uint16_t length)
{
    at[0] = VERSION_4_NO_OPTIONS;
    at[1] = in->traffic_class;
    put16(at + 2, (uint16_t)(IPV4_HEADER + length));
    put16(at + 6, DONT_FRAGMENT);
    at[8] = far->hop_limit;
    at[9] = NEXT_UDP;
    memcpy(at + 12, in->source, 4);
    memcpy(at + IPV4_DESTINATION, in->destination, 4);
    put16(at + IPV4_CHECKSUM, checksum_ipv4(at));
}

static void put_udp(uint8_t *at, const struct kawsarpa_entry *far, uint16_t length)
{
    memcpy(at, far->source_port, 2);
    put16(at + 2, GTPU_PORT);
    put16(at + 4, length);
}

/* The direction is that of the container that went in, which is the far entry's too where tables fit. */
static void put_gtpu(uint8_t *at, const struct packet_reading *in)
{
    at[0] = VERSION_1_PT_E;
    at[1] = G_PDU;
    put16(at + 2, (uint16_t)(GTPU_FRONT - GTPU_HEADER + in->inner_length));
    put32(at + 4, in->teid);
    at[11] = EXTENSION_CONTAINER;
    at[12] = 1;
    at[13] = (uint8_t)(in->pdu_type << 4);
    at[14] = (uint8_t)(in->reflective << 6 | in->qfi);
    memcpy(at + GTPU_FRONT, in->inner, in->inner_length);
}

/* Whether what went in has all that is promised of it. The near gateway sends on nothing else. */
static bool has_values(const struct packet_reading *in)
{
    return in->has_gtpu && in->message_type == G_PDU && in->has_container && in->inner != NULL && in->inner_length <= STOP_ROOM - FRONT6;
}

static bool between_gateways(unsigned int version, const struct kawsarpa_entry *near, const struct kawsarpa_entry *far)
{
    if (far == NULL)
        return false;
    if (version == 4)
        return far->behaviour == KAWSARPA_BEHAVIOUR_END_M_GTP4_E;
    return near != NULL && near->behaviour == KAWSARPA_BEHAVIOUR_END_M_GTP6_D_DI && far->behaviour == KAWSARPA_BEHAVIOUR_END_M_GTP6_E;
}

bool promise_make(struct promise *promise, const struct packet_reading *in, const struct kawsarpa_entry *near,
                  const struct kawsarpa_entry *far)
{
    if (!between_gateways(in->version, near, far) || !has_values(in))
        return false;
    const size_t header = in->version == 4 ? IPV4_HEADER : IPV6_HEADER;
    const uint16_t payload = (uint16_t)(UDP_HEADER + GTPU_FRONT + in->inner_length);
    promise->length = header + payload;
    memset(promise->octets, 0, header + UDP_HEADER + GTPU_FRONT);
    (in->version == 4 ? put_ipv4 : put_ipv6)(promise->octets, in, far, payload);
    put_udp(promise->octets + header, far, payload);
    put_gtpu(promise->octets + header + UDP_HEADER, in);
    if (in->version == 6)
        put16(promise->octets + CHECKSUM6, checksum6(promise->octets, promise->length));
    return true;
}

bool promise_kept(const struct promise *promise, const uint8_t *packet, size_t length)
{
    return length == promise->length && memcmp(packet, promise->octets, length) == 0;
}

/* Octets in the front of a packet that have a name, with the bits of the first and of the last one that belong to it. */
struct field {
    const char *name;
    size_t at;
    size_t count;
    uint8_t first;
    uint8_t last;
};

static const struct field fields6[] = {
    {"source", 8, 16, 0xFF, 0xFF},
    {"destination", 24, 16, 0xFF, 0xFF},
    {"TEID", 52, 4, 0xFF, 0xFF},
    {"QFI", 62, 1, 0x3F, 0x3F},
    {"R", 62, 1, 0x40, 0x40},
    {"direction", 61, 1, 0xF0, 0xF0},
    {"traffic class", 0, 2, 0x0F, 0xF0},
    {"UDP checksum", CHECKSUM6, 2, 0xFF, 0xFF},
};

static const struct field fields4[] = {
    {"source", 12, 4, 0xFF, 0xFF},
    {"destination", 16, 4, 0xFF, 0xFF},
    {"TEID", 32, 4, 0xFF, 0xFF},
    {"QFI", 42, 1, 0x3F, 0x3F},
    {"R", 42, 1, 0x40, 0x40},
    {"direction", 41, 1, 0xF0, 0xF0},
    {"traffic class", 1, 1, 0xFF, 0xFF},
    {"header checksum", IPV4_CHECKSUM, 2, 0xFF, 0xFF},
};

static const struct layout {
    const char *name; /* of the IP header */
    size_t header;
    size_t front;
    const struct field *fields;
    size_t field_count;
} layout6 = {"IPv6", IPV6_HEADER, FRONT6, fields6, sizeof fields6 / sizeof fields6[0]},
  layout4 = {"IPv4", IPV4_HEADER, FRONT4, fields4, sizeof fields4 / sizeof fields4[0]};

/* Whether a bit of the field is among those that differ; it is taken out of them. */
static bool take(const struct field *field, uint8_t *differing)
{
    unsigned int found = 0;
    for (size_t i = 0; i < field->count; i++) {
        unsigned int bits = i == 0 ? field->first : 0xFF;
        bits &= i + 1 == field->count ? field->last : 0xFF;
        found |= differing[field->at + i] & bits;
        differing[field->at + i] &= (uint8_t)~bits;
    }
    return found != 0;
}

void differences_add(struct differences *differences, const char *format, ...)
{
    va_list arguments;
    assert(differences->count < DIFFERENCES_MAX);
    va_start(arguments, format);
    vsnprintf(differences->words[differences->count++], DIFFERENCE_ROOM, format, arguments);
    va_end(arguments);
}

static void add_fields(struct differences *differences, const struct layout *layout, uint8_t *differing)
{
    for (size_t i = 0; i < layout->field_count; i++)
        if (take(&layout->fields[i], differing))
            differences_add(differences, "%s", layout->fields[i].name);
}

static void add_octets(struct differences *differences, const struct layout *layout, const uint8_t *differing)
{
    const size_t udp = layout->header;
    const size_t gtpu = udp + UDP_HEADER;
    for (size_t i = 0; i < layout->front; i++) {
        if (differing[i] == 0)
            continue;
        if (i < udp)
            differences_add(differences, "octet %zu of the %s header", i, layout->name);
        else if (i < gtpu)
            differences_add(differences, "octet %zu of UDP", i - udp);
        else
            differences_add(differences, "octet %zu of GTP-U", i - gtpu);
    }
}

/* Whether a packet over IPv6 is as long as it says, and its UDP checksum that of its own octets. */
static bool right_checksum6(const uint8_t *packet, size_t length)
{
    return length >= FRONT6 && get16(packet + 4) == length - IPV6_HEADER && get16(packet + CHECKSUM6) == checksum6(packet, length);
}

void promise_differences(const struct promise *promise, const uint8_t *packet, size_t length, struct differences *differences)
{
    const struct layout *layout = promise->octets[0] >> 4 == 4 ? &layout4 : &layout6;
    const size_t inner = layout->front;
    uint8_t front[FRONT6] = {0};
    uint8_t differing[FRONT6] = {0};
    memcpy(front, packet, length < inner ? length : inner);
    for (size_t i = 0; i < inner; i++)
        differing[i] = front[i] ^ promise->octets[i];
    /* with another value the checksum is another too: it is told where it is not that of its own header, or of its own packet */
    if (layout == &layout4 && get16(front + IPV4_CHECKSUM) == checksum_ipv4(front))
        memset(differing + IPV4_CHECKSUM, 0, 2);
    if (layout == &layout6 && right_checksum6(packet, length))
        memset(differing + CHECKSUM6, 0, 2);
    add_fields(differences, layout, differing);
    if (length != promise->length || memcmp(packet + inner, promise->octets + inner, length - inner) != 0)
        differences_add(differences, "inner octets");
    add_octets(differences, layout, differing);
}
