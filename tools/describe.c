#include "describe.h"

#include <arpa/inet.h>
#include <sys/socket.h>

#include "formats.h"
#include "kawsarpa.h"
#include "octets.h"
#include "words.h"

enum { SRH_FRONT = 8, SEGMENT = 16, ROUTING_TYPE_SRH = 4 };

enum { NEXT_IPV4 = 4, NEXT_IPV6 = 41, NEXT_ROUTING = 43, NEXT_ETHERNET = 143 };

/* What of the packet is still to be read. */
struct rest {
    const uint8_t *octets;
    size_t length;
};

static struct rest behind(struct rest rest, size_t octets)
{
    return (struct rest){rest.octets + octets, rest.length - octets};
}

static void read_container(struct packet_reading *reading, const uint8_t *contents)
{
    reading->has_container = true;
    reading->pdu_type = contents[0] >> 4;
    reading->qfi = contents[1] & 0x3F;
    reading->reflective = reading->pdu_type == KAWSARPA_DIRECTION_DOWNLINK ? contents[1] >> 6 & 1 : 0;
}

/* Walks the extensions: a length in units of four octets, contents, the next type. */
static void read_extensions(struct packet_reading *reading, struct rest rest, unsigned int type)
{
    while (type != 0) {
        if (rest.length == 0)
            return;
        const size_t extension = (size_t)rest.octets[0] * 4;
        if (extension == 0 || extension > rest.length)
            return;
        if (type == EXTENSION_CONTAINER && !reading->has_container)
            read_container(reading, rest.octets + 1);
        type = rest.octets[extension - 1];
        rest = behind(rest, extension);
    }
    reading->inner = rest.octets;
    reading->inner_length = rest.length;
}

static void read_gtpu(struct packet_reading *reading, struct rest rest)
{
    if (rest.length < GTPU_HEADER || rest.octets[0] >> 4 != 3) /* version 1, PT 1 */
        return;
    const unsigned int flags = rest.octets[0] & 7;
    reading->has_gtpu = true;
    reading->message_type = rest.octets[1];
    reading->teid = get32(rest.octets + 4);
    rest = behind(rest, GTPU_HEADER);
    if (flags == 0) {
        read_extensions(reading, rest, 0);
    } else if (rest.length >= GTPU_OPTIONAL) {
        const unsigned int type = (flags & GTPU_E) != 0 ? rest.octets[3] : 0; /* each counts only if its flag is set */
        reading->has_sequence_number = (flags & GTPU_S) != 0;
        reading->sequence_number = get16(rest.octets);
        read_extensions(reading, behind(rest, GTPU_OPTIONAL), type);
    }
}

/* An Echo Response comes from the port of GTP-U, and goes to the source port of the request. */
static bool is_echo_response(struct rest rest)
{
    return get16(rest.octets) == GTPU_PORT && rest.length >= UDP_HEADER + GTPU_HEADER && rest.octets[UDP_HEADER + 1] == ECHO_RESPONSE;
}

static void read_upper(struct packet_reading *reading, struct rest rest)
{
    if (reading->version == 6 && reading->next_header == NEXT_ICMPV6 && rest.length > 0) {
        reading->icmp = rest.octets;
        reading->icmp_length = rest.length;
    }
    if (reading->next_header != NEXT_UDP || rest.length < UDP_HEADER)
        return;
    reading->udp = rest.octets;
    reading->udp_length = rest.length;
    if (get16(rest.octets + 2) == GTPU_PORT || is_echo_response(rest))
        read_gtpu(reading, behind(rest, UDP_HEADER));
}

static struct rest read_srh(struct packet_reading *reading, struct rest rest)
{
    if (rest.length < SRH_FRONT || rest.octets[2] != ROUTING_TYPE_SRH)
        return rest;
    const size_t whole = SRH_FRONT + (size_t)rest.octets[1] * 8;
    const size_t last_entry = rest.octets[4];
    if (whole > rest.length)
        return rest;
    reading->has_srh = true;
    reading->next_header = rest.octets[0];
    reading->segments_left = rest.octets[3];
    reading->segments = rest.octets + SRH_FRONT;
    reading->segment_count = (whole - SRH_FRONT) / SEGMENT;
    if (reading->segment_count > last_entry + 1) /* TLVs follow the segments */
        reading->segment_count = last_entry + 1;
    return behind(rest, whole);
}

static void read_ipv6(struct packet_reading *reading, struct rest rest)
{
    reading->version = 6;
    reading->traffic_class = (uint8_t)(get16(rest.octets) >> 4 & 0xFF);
    reading->next_header = rest.octets[6];
    reading->source = rest.octets + 8;
    reading->destination = rest.octets + 24;
    rest = behind(rest, IPV6_HEADER);
    if (reading->next_header == NEXT_ROUTING)
        rest = read_srh(reading, rest);
    read_upper(reading, rest);
}

static void read_ipv4(struct packet_reading *reading, struct rest rest)
{
    const size_t header = (size_t)(rest.octets[0] & 0x0F) * 4;
    reading->version = 4;
    reading->traffic_class = rest.octets[1];
    reading->next_header = rest.octets[9];
    reading->source = rest.octets + 12;
    reading->destination = rest.octets + 16;
    const bool later_fragment = (get16(rest.octets + 6) & 0x1FFF) != 0;
    if (header >= IPV4_HEADER && header <= rest.length && !later_fragment)
        read_upper(reading, behind(rest, header));
}

struct packet_reading packet_read(const uint8_t *packet, size_t length)
{
    struct packet_reading reading = {.length = length};
    const struct rest whole = {packet, length};
    if (length >= IPV6_HEADER && packet[0] >> 4 == 6)
        read_ipv6(&reading, whole);
    else if (length >= IPV4_HEADER && packet[0] >> 4 == 4)
        read_ipv4(&reading, whole);
    return reading;
}

/* Room for an address of either version. */
enum { ADDRESS_ROOM = INET6_ADDRSTRLEN };

static const char *address_text(unsigned int version, const uint8_t *address, char text[ADDRESS_ROOM])
{
    return inet_ntop(version == 4 ? AF_INET : AF_INET6, address, text, ADDRESS_ROOM);
}

/* How many segments are still to come; none where the packet says more than it has. */
static size_t segments_to_come(const struct packet_reading *reading)
{
    return reading->segments_left > reading->segment_count ? 0 : reading->segments_left;
}

/* One of these, in order of travel from 0. */
static const uint8_t *segment_to_come(const struct packet_reading *reading, size_t place)
{
    return reading->segments + SEGMENT * (reading->segments_left - 1 - place);
}

static const struct word insides[] = {
    {NEXT_IPV4, "IPv4"},
    {NEXT_IPV6, "IPv6"},
    {NEXT_ETHERNET, "Ethernet"},
    {0, NULL},
};

static void say_segments(FILE *to, const struct packet_reading *reading)
{
    char address[ADDRESS_ROOM];
    fprintf(to, ", SL %u", reading->segments_left);
    for (size_t i = 0; i < segments_to_come(reading); i++)
        fprintf(to, "%s%s", i == 0 ? " then " : ", ", address_text(6, segment_to_come(reading, i), address));
}

static void say_next_header(FILE *to, unsigned int next_header)
{
    const char *inside = word_name(insides, next_header);
    if (inside != NULL)
        fprintf(to, ", %s inside", inside);
    else
        fprintf(to, ", next header %u", next_header);
}

static void say_gtpu(FILE *to, const struct packet_reading *reading)
{
    const char *message = word_name(messages, reading->message_type);
    const char *direction = word_name(directions, reading->pdu_type);
    if (message != NULL)
        fprintf(to, ", %s", message);
    else
        fprintf(to, ", GTP-U type %u", reading->message_type);
    fprintf(to, ", TEID 0x%08x", (unsigned int)reading->teid);
    if (reading->has_sequence_number)
        fprintf(to, ", sequence number %u", reading->sequence_number);
    if (!reading->has_container)
        return;
    fprintf(to, ", QFI %u, R %u", reading->qfi, reading->reflective);
    if (direction != NULL)
        fprintf(to, ", %s", direction);
    else
        fprintf(to, ", PDU type %u", reading->pdu_type);
}

/* What an ICMPv6 message says of itself, as far as it is there. */
struct icmp_reading {
    unsigned int type;
    const char *name; /* NULL: none is known */
    bool has_code;
    unsigned int code;
    bool has_pointer; /* of a Parameter Problem */
    uint32_t pointer;
};

static struct icmp_reading read_icmp(const struct packet_reading *reading)
{
    const uint8_t *octets = reading->icmp;
    struct icmp_reading icmp = {.type = octets[0], .name = word_name(icmp_types, octets[0])};
    icmp.has_code = reading->icmp_length > ICMPV6_CODE;
    if (icmp.has_code)
        icmp.code = octets[ICMPV6_CODE];
    icmp.has_pointer = icmp.type == KAWSARPA_ICMP_PARAMETER_PROBLEM && reading->icmp_length >= ICMPV6_POINTER + sizeof icmp.pointer;
    if (icmp.has_pointer)
        icmp.pointer = get32(octets + ICMPV6_POINTER);
    return icmp;
}

static void say_icmp(FILE *to, const struct packet_reading *reading)
{
    const struct icmp_reading icmp = read_icmp(reading);
    if (icmp.name != NULL)
        fprintf(to, ", ICMPv6 %s", icmp.name);
    else
        fprintf(to, ", ICMPv6 type %u", icmp.type);
    if (icmp.has_code)
        fprintf(to, ", code %u", icmp.code);
    if (icmp.has_pointer)
        fprintf(to, ", pointer %u", (unsigned int)icmp.pointer);
}

static void say_addresses(FILE *to, const struct packet_reading *reading)
{
    char source[ADDRESS_ROOM];
    char destination[ADDRESS_ROOM];
    fprintf(to, "IPv%u %s > %s, traffic class 0x%02x", reading->version, address_text(reading->version, reading->source, source),
            address_text(reading->version, reading->destination, destination), reading->traffic_class);
}

void packet_describe(FILE *to, const uint8_t *packet, size_t length)
{
    const struct packet_reading reading = packet_read(packet, length);
    if (reading.version == 0) {
        fprintf(to, "%zu octets, no IP header", length);
        return;
    }
    say_addresses(to, &reading);
    if (reading.has_srh)
        say_segments(to, &reading);
    if (reading.has_gtpu)
        say_gtpu(to, &reading);
    else
        say_next_header(to, reading.next_header);
    fprintf(to, ", %zu octets", length);
}

void icmp_describe(FILE *to, const uint8_t *message, size_t length)
{
    const struct packet_reading reading = packet_read(message, length);
    say_addresses(to, &reading);
    if (reading.icmp != NULL)
        say_icmp(to, &reading);
    else
        say_next_header(to, reading.next_header);
    fprintf(to, ", %zu octets", length);
}

/* A number, and its name where it has one. */
static void json_named(struct json *json, const char *number_key, unsigned int number, const char *text_key, const char *text)
{
    json_number(json, number_key, number);
    if (text != NULL)
        json_text(json, text_key, text);
}

static void json_segments(struct json *json, const struct packet_reading *reading)
{
    char address[ADDRESS_ROOM];
    json_number(json, "segments_left", reading->segments_left);
    json_array(json, "segments");
    for (size_t i = 0; i < segments_to_come(reading); i++)
        json_text(json, NULL, address_text(6, segment_to_come(reading, i), address));
    json_close(json);
}

static void json_gtpu(struct json *json, const struct packet_reading *reading)
{
    json_named(json, "message_type", reading->message_type, "message", word_name(messages, reading->message_type));
    json_number(json, "teid", reading->teid);
    if (reading->has_sequence_number)
        json_number(json, "sequence_number", reading->sequence_number);
    if (!reading->has_container)
        return;
    json_number(json, "qfi", reading->qfi);
    json_flag(json, "reflective", reading->reflective != 0);
    json_named(json, "pdu_type", reading->pdu_type, "direction", word_name(directions, reading->pdu_type));
}

static void json_icmp(struct json *json, const struct packet_reading *reading)
{
    const struct icmp_reading icmp = read_icmp(reading);
    json_object(json, "icmp");
    json_named(json, "type", icmp.type, "name", icmp.name);
    if (icmp.has_code)
        json_number(json, "code", icmp.code);
    if (icmp.has_pointer)
        json_number(json, "pointer", icmp.pointer);
    json_close(json);
}

static void json_reading(struct json *json, const struct packet_reading *reading)
{
    char address[ADDRESS_ROOM];
    json_number(json, "version", reading->version);
    json_text(json, "source", address_text(reading->version, reading->source, address));
    json_text(json, "destination", address_text(reading->version, reading->destination, address));
    json_number(json, "traffic_class", reading->traffic_class);
    if (reading->has_srh)
        json_segments(json, reading);
    if (reading->has_gtpu)
        json_gtpu(json, reading);
    else
        json_named(json, "next_header", reading->next_header, "inside", word_name(insides, reading->next_header));
    if (reading->icmp != NULL)
        json_icmp(json, reading);
}

void packet_json(struct json *json, const char *name, const uint8_t *packet, size_t length)
{
    const struct packet_reading reading = packet_read(packet, length);
    json_object(json, name);
    if (reading.version != 0)
        json_reading(json, &reading);
    json_number(json, "octets", length);
    json_close(json);
}
