#include "values.h"

#include <arpa/inet.h>
#include <ctype.h>
#include <stdarg.h>
#include <stdio.h>
#include <stdlib.h>
#include <string.h>

#include "say.h"

enum { NAME_MOST = 63, REASON_ROOM = 512 };

static void say(const struct record_place *place, const char *field, const char *degree, const char *format, va_list arguments)
{
    const struct text_source *source = place->source;
    const unsigned long line = source->marks == NULL ? 0 : marks_line(source->marks, place->list, place->index, field);
    char reason[REASON_ROOM];
    vsnprintf(reason, sizeof reason, format, arguments);
    if (place->kind == NULL)
        say_error_at(source->file, line, "%s%s", degree, reason);
    else
        say_error_at(source->file, line, "%s \"%.63s\": %s%s", place->kind, place->name, degree, reason);
}

bool value_refused(const struct record_place *place, const char *field, const char *format, ...)
{
    va_list arguments;
    va_start(arguments, format);
    say(place, field, "", format, arguments);
    va_end(arguments);
    return false;
}

void value_warned(const struct record_place *place, const char *field, const char *format, ...)
{
    va_list arguments;
    va_start(arguments, format);
    say(place, field, "warning: ", format, arguments);
    va_end(arguments);
}

bool number_read(const char *text, unsigned int *number)
{
    const size_t length = strlen(text);
    if (length == 0 || length > 9 || strspn(text, "0123456789") != length || (text[0] == '0' && length > 1))
        return false;
    *number = (unsigned int)strtoul(text, NULL, 10);
    return true;
}

bool value_number(const struct record_place *place, const char *field, const char *text, unsigned int low, unsigned int high,
                  unsigned int *number)
{
    if (number_read(text, number) && *number >= low && *number <= high)
        return true;
    if (low == high)
        return value_refused(place, field, "%s is \"%.80s\", not %u", field, text, low);
    return value_refused(place, field, "%s is \"%.80s\", not a number from %u to %u", field, text, low, high);
}

bool value_octet(const struct record_place *place, const char *field, const char *text, unsigned int low, unsigned int high, uint8_t *octet)
{
    unsigned int number = 0;
    if (!value_number(place, field, text, low, high, &number))
        return false;
    *octet = (uint8_t)number;
    return true;
}

static void list_words(const struct word *words, char *list, size_t room)
{
    size_t length = 0;
    for (const struct word *word = words; word->name != NULL && length < room; word++) {
        const char *between = word == words ? "" : word[1].name == NULL ? " or " : ", ";
        length += (size_t)snprintf(list + length, room - length, "%s%s", between, word->name);
    }
}

bool value_word(const struct record_place *place, const char *field, const char *text, const struct word *words, uint8_t *octet)
{
    const struct word *word = word_named(words, text);
    char list[256];
    if (word == NULL) {
        list_words(words, list, sizeof list);
        return value_refused(place, field, "%s is \"%.80s\", not %s", field, text, list);
    }
    *octet = word->number;
    return true;
}

bool value_address(const struct record_place *place, const char *field, const char *text, uint8_t address[16])
{
    if (inet_pton(AF_INET6, text, address) == 1)
        return true;
    return value_refused(place, field, "%s is \"%.80s\", not an IPv6 address", field, text);
}

/* The address before the slash, and the number behind it. */
static bool read_prefix(int family, const char *text, unsigned int most, void *prefix, uint8_t *length)
{
    const char *slash = strchr(text, '/');
    const size_t size = slash == NULL ? 0 : (size_t)(slash - text);
    char address[INET6_ADDRSTRLEN];
    unsigned int number = 0;
    if (slash == NULL || size >= sizeof address || !number_read(slash + 1, &number) || number > most)
        return false;
    memcpy(address, text, size);
    address[size] = 0;
    *length = (uint8_t)number;
    return inet_pton(family, address, prefix) == 1;
}

bool value_prefix6(const struct record_place *place, const char *field, const char *text, uint8_t prefix[16], uint8_t *length)
{
    if (read_prefix(AF_INET6, text, 128, prefix, length))
        return true;
    return value_refused(place, field, "%s is \"%.80s\", not an IPv6 prefix such as 2001:db8::/32", field, text);
}

bool value_prefix4(const struct record_place *place, const char *field, const char *text, uint8_t prefix[4], uint8_t *length)
{
    if (read_prefix(AF_INET, text, 32, prefix, length))
        return true;
    return value_refused(place, field, "%s is \"%.80s\", not an IPv4 prefix such as 192.0.2.0/24", field, text);
}

static bool name_character(char c)
{
    return isalnum((unsigned char)c) || strchr("-_.", c) != NULL;
}

bool value_name(const struct record_place *place)
{
    const size_t length = strlen(place->name);
    bool good = length >= 1 && length <= NAME_MOST;
    for (size_t i = 0; good && i < length; i++)
        good = name_character(place->name[i]);
    return good || value_refused(place, "name", "a name is 1 to %d letters, digits, - _ or .", NAME_MOST);
}
