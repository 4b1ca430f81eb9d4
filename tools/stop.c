#include "stop.h"

#include <stdlib.h>
#include <string.h>

#include "commands.h"
#include "describe.h"
#include "formats.h"
#include "table.h"
#include "words.h"

static uint64_t call(const struct stop *stop, unsigned int version, const uint8_t *packet, size_t length, uint8_t out[STOP_ROOM])
{
    return version == 4 ? kawsarpa_call_ipv4(packet, length, stop->table.at, stop->table.count, out, STOP_ROOM)
                        : kawsarpa_call_ipv6(packet, length, stop->table.at, stop->table.count, out, STOP_ROOM);
}

struct outcome stop_outcome(uint64_t answer, const uint8_t *packet, size_t length, const uint8_t *sent)
{
    struct outcome outcome = {.answer = answer};
    if (kawsarpa_answer_number(answer) == KAWSARPA_ANSWER_SENT) {
        outcome.sent = sent;
        outcome.sent_length = kawsarpa_answer_length(answer);
        outcome.echo_answered = kawsarpa_is_echo_response(sent, outcome.sent_length) != 0;
    }
    if (kawsarpa_answer_number(answer) == KAWSARPA_ANSWER_BAD_CHECKSUM) {
        const struct packet_reading reading = packet_read(packet, length);
        outcome.checksum = checksum_read(&reading);
    }
    return outcome;
}

struct outcome stop_call(const struct stop *stop, unsigned int version, const uint8_t *packet, size_t length, uint8_t out[STOP_ROOM])
{
    return stop_outcome(call(stop, version, packet, length, out), packet, length, out);
}

/* What the library says of an IPv6 destination: 0 where an End entry is its longest match; it names one of another behaviour. */
static uint64_t ask_waypoint(const struct stop *stop, const uint8_t destination[16])
{
    return kawsarpa_call_match_waypoint(stop->table.at, stop->table.count, destination, 16);
}

const struct kawsarpa_entry *stop_entry(const struct stop *stop, unsigned int version, const uint8_t *packet, size_t length)
{
    if (version != 6 || length < IPV6_HEADER)
        return NULL;
    /* the library names the longest match where that is no waypoint's */
    const uint64_t mismatch = ask_waypoint(stop, packet + IPV6_DESTINATION);
    if (kawsarpa_mismatch_condition(mismatch) != KAWSARPA_MISMATCH_WAYPOINT_KIND)
        return NULL;
    return &table_records(&stop->table).entries[kawsarpa_mismatch_index(mismatch)];
}

static bool covers(const uint8_t *prefix, unsigned int length, const uint8_t *address)
{
    const unsigned int whole = length / 8;
    const unsigned int rest = length % 8;
    return memcmp(prefix, address, whole) == 0 && (rest == 0 || (prefix[whole] ^ address[whole]) >> (8 - rest) == 0);
}

/* The End entry, where the library has said that it is one; among End entries it is then the longest that covers the destination. */
static unsigned int longest_end(const struct table_records *records, const uint8_t *destination)
{
    unsigned int found = records->entry_count;
    for (unsigned int i = 0; i < records->entry_count; i++) {
        const struct kawsarpa_entry *entry = &records->entries[i];
        if (entry->behaviour == KAWSARPA_BEHAVIOUR_END && covers(entry->prefix, entry->prefix_length, destination) &&
            (found == records->entry_count || entry->prefix_length > records->entries[found].prefix_length))
            found = i;
    }
    return found;
}

static bool find_entry(const struct stop *stop, const uint8_t *destination, struct stop_record *record)
{
    const uint64_t mismatch = ask_waypoint(stop, destination);
    const struct table_records records = table_records(&stop->table);
    unsigned int index = records.entry_count;
    if (mismatch == 0)
        index = longest_end(&records, destination);
    else if (kawsarpa_mismatch_condition(mismatch) == KAWSARPA_MISMATCH_WAYPOINT_KIND)
        index = kawsarpa_mismatch_index(mismatch);
    *record = (struct stop_record){KAWSARPA_RECORD_ENTRY, index};
    return index < records.entry_count;
}

/* The library has no call that names the rule of a destination. */
static bool find_rule(const struct stop *stop, const uint8_t *destination, struct stop_record *record)
{
    const struct table_records records = table_records(&stop->table);
    unsigned int found = records.rule_count;
    for (unsigned int i = 0; i < records.rule_count; i++) {
        const struct kawsarpa_rule *rule = &records.rules[i];
        if (covers(rule->prefix, rule->prefix_length, destination) &&
            (found == records.rule_count || rule->prefix_length > records.rules[found].prefix_length))
            found = i;
    }
    *record = (struct stop_record){KAWSARPA_RECORD_RULE, found};
    return found < records.rule_count;
}

bool stop_find(const struct stop *stop, unsigned int version, const uint8_t *packet, size_t length, struct stop_record *record)
{
    if (length < (version == 4 ? IPV4_HEADER : IPV6_HEADER))
        return false;
    return version == 4 ? find_rule(stop, packet + IPV4_DESTINATION, record) : find_entry(stop, packet + IPV6_DESTINATION, record);
}

static struct record_words record_words(const struct stop *stop, struct stop_record record)
{
    const struct table_records records = table_records(&stop->table);
    return table_record_words(&records, record.kind, record.index);
}

void stop_say_record(FILE *to, const struct stop *stop, struct stop_record record)
{
    const struct record_words words = record_words(stop, record);
    fprintf(to, "%s %u %s %s", words.kind, words.number, words.behaviour, words.prefix);
}

void stop_json_record(struct json *json, const char *name, const struct stop *stop, struct stop_record record)
{
    const struct record_words words = record_words(stop, record);
    json_object(json, name);
    table_json_record(json, &words);
    json_close(json);
}

int stop_load(struct stop *stop, const char *name)
{
    struct octets table;
    const int code = table_read_sound(name, &table);
    if (code == EXIT_DONE)
        *stop = (struct stop){file_shown_name(name, "standard input"), table};
    return code;
}

void stop_free(struct stop *stop)
{
    free(stop->table.at);
    stop->table.at = NULL;
}

static void say_checksum(FILE *to, const struct checksum_reading *checksum)
{
    if (checksum->fault == CHECKSUM_ZERO)
        fputs(" (0, and the entry does not allow it)", to);
    else
        fprintf(to, " (0x%04x%s; 0x%04x is right)", checksum->held,
                checksum->fault == CHECKSUM_UNFINISHED ? ", only the sum of the pseudo-header" : "", checksum->right);
}

static void say_refusal(FILE *to, const struct outcome *outcome)
{
    const uint64_t answer = outcome->answer;
    const unsigned int number = kawsarpa_answer_number(answer);
    fprintf(to, "refused, %u %s", number, kawsarpa_answer_name(number));
    if (number == KAWSARPA_ANSWER_BAD_CHECKSUM)
        say_checksum(to, &outcome->checksum);
    if (kawsarpa_answer_icmp_type(answer) != 0)
        fprintf(to, " (ICMPv6 type %u, code %u, pointer %u)", kawsarpa_answer_icmp_type(answer), kawsarpa_answer_icmp_code(answer),
                kawsarpa_answer_icmp_pointer(answer));
}

void stop_say_outcome(FILE *to, const struct outcome *outcome)
{
    if (outcome->sent == NULL) {
        say_refusal(to, outcome);
        return;
    }
    fprintf(to, "%s: ", outcome->echo_answered ? echo_answered_words : kawsarpa_answer_name(KAWSARPA_ANSWER_SENT));
    packet_describe(to, outcome->sent, outcome->sent_length);
}

static void json_checksum(struct json *json, const struct checksum_reading *checksum)
{
    static const char *const faults[] = {[CHECKSUM_ZERO] = "zero", [CHECKSUM_UNFINISHED] = "unfinished", [CHECKSUM_WRONG] = "wrong"};
    json_object(json, "udp_checksum");
    json_text(json, "fault", faults[checksum->fault]);
    json_number(json, "held", checksum->held);
    json_number(json, "right", checksum->right);
    json_close(json);
}

static void json_answer(struct json *json, const struct outcome *outcome)
{
    const uint64_t answer = outcome->answer;
    const unsigned int number = kawsarpa_answer_number(answer);
    json_object(json, "answer");
    json_number(json, "number", number);
    json_text(json, "name", kawsarpa_answer_name(number));
    json_flag(json, "refused", number != KAWSARPA_ANSWER_SENT);
    if (kawsarpa_answer_icmp_type(answer) != 0) {
        json_object(json, "icmp");
        json_number(json, "type", kawsarpa_answer_icmp_type(answer));
        json_number(json, "code", kawsarpa_answer_icmp_code(answer));
        json_number(json, "pointer", kawsarpa_answer_icmp_pointer(answer));
        json_close(json);
    }
    if (number == KAWSARPA_ANSWER_BAD_CHECKSUM)
        json_checksum(json, &outcome->checksum);
    json_close(json);
}

void stop_json_outcome(struct json *json, const struct outcome *outcome)
{
    json_answer(json, outcome);
    if (outcome->sent == NULL)
        return;
    if (outcome->echo_answered)
        json_flag(json, "echo_answered", true);
    packet_json(json, "sent", outcome->sent, outcome->sent_length);
}
