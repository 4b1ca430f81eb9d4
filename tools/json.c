#include "json.h"

#include <assert.h>
#include <inttypes.h>
#include <stddef.h>

/* The length of the well-formed UTF-8 at the start of a text (RFC 3629, section 4), which is not empty; 0 where there is none. */
static size_t character_length(const unsigned char *text)
{
    const unsigned char first = text[0];
    const size_t length = first < 0x80                    ? 1
                          : first >= 0xC2 && first < 0xE0 ? 2
                          : first >= 0xE0 && first < 0xF0 ? 3
                          : first >= 0xF0 && first < 0xF5 ? 4
                                                          : 0;
    if (length < 2)
        return length;
    const unsigned char low = first == 0xE0 ? 0xA0 : first == 0xF0 ? 0x90 : 0x80;
    const unsigned char high = first == 0xED ? 0x9F : first == 0xF4 ? 0x8F : 0xBF;
    if (text[1] < low || text[1] > high)
        return 0;
    for (size_t i = 2; i < length; i++)
        if ((text[i] & 0xC0) != 0x80)
            return 0;
    return length;
}

/* The number of a control character, which is not for a terminal either; else 0. */
static unsigned int control(const unsigned char *character)
{
    if (character[0] == 0xC2 && character[1] < 0xA0)
        return character[1];
    return character[0] < 0x20 || character[0] == 0x7F ? character[0] : 0;
}

static void print_string(FILE *to, const char *text)
{
    const unsigned char *at = (const unsigned char *)text;
    fputc('"', to);
    while (*at != 0) {
        const size_t length = character_length(at);
        if (length == 0)
            fputs("\xEF\xBF\xBD", to);
        else if (*at == '"' || *at == '\\')
            fprintf(to, "\\%c", *at);
        else if (control(at) != 0)
            fprintf(to, "\\u%04x", control(at));
        else
            fwrite(at, 1, length, to);
        at += length == 0 ? 1 : length;
    }
    fputc('"', to);
}

/* What stands before a value. Members of the whole object and elements of its arrays have a line each. */
static void print_name(struct json *json, const char *name)
{
    bool *filled = &json->filled[json->depth - 1];
    if (*filled)
        fputc(',', json->to);
    if (json->depth == 1 || (json->depth == 2 && json->ends[1] == ']'))
        fprintf(json->to, "\n%*s", (int)(2 * json->depth), "");
    else if (*filled)
        fputc(' ', json->to);
    *filled = true;
    if (name != NULL) {
        print_string(json->to, name);
        fputs(": ", json->to);
    }
}

static void open_level(struct json *json, char begin, char end)
{
    assert(json->depth < JSON_DEPTH_MOST);
    fputc(begin, json->to);
    json->ends[json->depth] = end;
    json->filled[json->depth] = false;
    json->depth++;
}

void json_begin(struct json *json, FILE *to, const char *command)
{
    *json = (struct json){.to = to};
    open_level(json, '{', '}');
    json_text(json, "command", command);
}

bool json_open(const struct json *json)
{
    return json->depth > 0;
}

void json_end(struct json *json)
{
    while (json_open(json))
        json_close(json);
}

void json_finish(struct json *json, bool broken_off)
{
    while (json->depth > 1)
        json_close(json);
    json_flag(json, "broken_off", broken_off);
    json_end(json);
}

void json_object(struct json *json, const char *name)
{
    print_name(json, name);
    open_level(json, '{', '}');
}

void json_array(struct json *json, const char *name)
{
    print_name(json, name);
    open_level(json, '[', ']');
}

void json_number(struct json *json, const char *name, uint64_t number)
{
    print_name(json, name);
    fprintf(json->to, "%" PRIu64, number);
}

void json_signed(struct json *json, const char *name, int number)
{
    print_name(json, name);
    fprintf(json->to, "%d", number);
}

void json_percent(struct json *json, const char *name, double percent)
{
    print_name(json, name);
    fprintf(json->to, "%.4f", percent);
}

void json_milliseconds(struct json *json, const char *name, double milliseconds)
{
    print_name(json, name);
    fprintf(json->to, "%.3f", milliseconds);
}

void json_flag(struct json *json, const char *name, bool flag)
{
    print_name(json, name);
    fputs(flag ? "true" : "false", json->to);
}

void json_text(struct json *json, const char *name, const char *text)
{
    print_name(json, name);
    print_string(json->to, text);
}

void json_close(struct json *json)
{
    json->depth--;
    fputc(json->ends[json->depth], json->to);
    if (json->depth == 0)
        fputc('\n', json->to);
}
