/* A JSON object (RFC 8259) that is printed as it comes: what is open is remembered, and nothing else of it. */
#ifndef JSON_H
#define JSON_H

#include <stdbool.h>
#include <stdint.h>
#include <stdio.h>

enum { JSON_DEPTH_MOST = 12 };

/* All zero before it is begun. */
struct json {
    FILE *to;
    unsigned int depth;         /* of what is open; 0: not begun, or ended */
    char ends[JSON_DEPTH_MOST]; /* what closes each */
    bool filled[JSON_DEPTH_MOST];
};

/* Begins the object, with the command's name as its first member. */
void json_begin(struct json *json, FILE *to, const char *command);

/* Whether it is begun and not ended. */
bool json_open(const struct json *json);

/* Closes all that is open. */
void json_end(struct json *json);

/* The same with a last member, for what is printed while it is read: whether a fault has broken the work off. */
void json_finish(struct json *json, bool broken_off);

/* Each writes a member of the innermost object, or where the name is NULL an element of the innermost array. */
void json_object(struct json *json, const char *name);
void json_array(struct json *json, const char *name);
void json_number(struct json *json, const char *name, uint64_t number);
void json_signed(struct json *json, const char *name, int number);
void json_percent(struct json *json, const char *name, double percent);
void json_milliseconds(struct json *json, const char *name, double milliseconds);
void json_flag(struct json *json, const char *name, bool flag);

/* An octet that is no part of valid UTF-8 is written as U+FFFD. */
void json_text(struct json *json, const char *name, const char *text);

/* Closes the innermost object or array. */
void json_close(struct json *json);

#endif
