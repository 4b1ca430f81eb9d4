#include "echo_message.h"

#include <stdarg.h>
#include <stdio.h>
#include <string.h>

#include "octets.h"
#include "words.h"

enum { VERSION_1_PT_S = 0x32 };

/* Elements: Recovery has a type and one octet; types from 128 on have a length of two octets and as many behind it. */
enum { RECOVERY = 14, FIRST_WITH_LENGTH = 128 };

void echo_request_make(uint8_t request[ECHO_REQUEST_OCTETS], uint16_t sequence_number)
{
    memset(request, 0, ECHO_REQUEST_OCTETS);
    request[0] = VERSION_1_PT_S;
    request[1] = ECHO_REQUEST;
    put16(request + 2, GTPU_OPTIONAL);
    put16(request + GTPU_HEADER, sequence_number);
}

bool echo_request_number(const uint8_t *cited, size_t length, uint16_t *sequence_number)
{
    uint8_t same[ECHO_REQUEST_OCTETS];
    if (length < GTPU_HEADER + 2)
        return false;
    *sequence_number = get16(cited + GTPU_HEADER);
    echo_request_make(same, *sequence_number);
    return memcmp(cited, same, length < sizeof same ? length : sizeof same) == 0;
}

__attribute__((format(printf, 2, 3))) static bool wrong(char fault[ECHO_FAULT_ROOM], const char *format, ...)
{
    va_list arguments;
    va_start(arguments, format);
    vsnprintf(fault, ECHO_FAULT_ROOM, format, arguments);
    va_end(arguments);
    return false;
}

static bool wrong_type(char fault[ECHO_FAULT_ROOM], unsigned int type)
{
    const char *name = word_name(messages, type);
    return name == NULL ? wrong(fault, "GTP-U message type %u, not an Echo Response (2)", type)
                        : wrong(fault, "%s (type %u), not an Echo Response (2)", name, type);
}

static bool header_good(const uint8_t *octets, size_t length, char fault[ECHO_FAULT_ROOM])
{
    if (length < GTPU_HEADER)
        return wrong(fault, "shorter than a GTP-U header, which has %d octets", GTPU_HEADER);
    if (octets[0] >> 5 != 1)
        return wrong(fault, "version %u, not 1", (unsigned int)octets[0] >> 5);
    if ((octets[0] >> 4 & 1) == 0)
        return wrong(fault, "GTP' (PT 0), not GTP-U");
    if (octets[1] != ECHO_RESPONSE)
        return wrong_type(fault, octets[1]);
    if (get16(octets + 2) != length - GTPU_HEADER)
        return wrong(fault, "its length field says %u, and %zu octets follow the header", get16(octets + 2), length - GTPU_HEADER);
    if (get32(octets + 4) != 0)
        return wrong(fault, "TEID 0x%08x, not 0", (unsigned int)get32(octets + 4));
    if ((octets[0] & GTPU_S) == 0)
        return wrong(fault, "S is not set, so it has no sequence number");
    if (length < GTPU_HEADER + GTPU_OPTIONAL)
        return wrong(fault, "S is set, but it ends before the sequence number and what belongs to it");
    return true;
}

/* Where the elements begin: behind the extensions, each with its length in units of four octets and the next type as its last octet. */
static bool skip_extensions(const uint8_t *octets, size_t length, size_t *at)
{
    unsigned int type = (octets[0] & GTPU_E) != 0 ? octets[GTPU_HEADER + GTPU_OPTIONAL - 1] : 0;
    *at = GTPU_HEADER + GTPU_OPTIONAL;
    while (type != 0) {
        const size_t extension = *at < length ? (size_t)octets[*at] * 4 : 0;
        if (extension == 0 || extension > length - *at)
            return false;
        *at += extension;
        type = octets[*at - 1];
    }
    return true;
}

/* The length of an element with its type, 0 where it is cut short; of an unknown one without a length, all that is left. */
static size_t element_length(const uint8_t *element, size_t left)
{
    size_t length = left;
    if (element[0] == RECOVERY)
        length = 2;
    else if (element[0] >= FIRST_WITH_LENGTH)
        length = left < 3 ? left + 1 : 3 + (size_t)get16(element + 1);
    return length > left ? 0 : length;
}

bool echo_response_read(const uint8_t *octets, size_t length, struct echo_response *response, char fault[ECHO_FAULT_ROOM])
{
    size_t at = 0;
    if (!header_good(octets, length, fault))
        return false;
    *response = (struct echo_response){.sequence_number = get16(octets + GTPU_HEADER)};
    if (!skip_extensions(octets, length, &at))
        return wrong(fault, "an extension is cut short");
    while (at < length) {
        const size_t element = element_length(octets + at, length - at);
        if (element == 0)
            return wrong(fault, "an element of type %u is cut short", octets[at]);
        if (octets[at] == RECOVERY && !response->has_recovery) {
            response->has_recovery = true;
            response->recovery = octets[at + 1];
        }
        at += element;
    }
    return true;
}
