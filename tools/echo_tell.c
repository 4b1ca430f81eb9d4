#include "echo_tell.h"

#include <errno.h>
#include <inttypes.h>
#include <string.h>

#include "commands.h"
#include "file.h"

static double milliseconds(int64_t nanoseconds)
{
    return (double)nanoseconds / 1e6;
}

/* What was printed is written at once, as whoever looks on wants it. */
static void write_out(struct echo_teller *teller)
{
    fflush(teller->to);
    if (teller->code == EXIT_DONE)
        teller->code = output_printed(teller->to);
}

void tell_begin(struct echo_teller *teller, const char *name)
{
    const struct echo_peer *peer = teller->peer;
    const bool named = strcmp(name, peer->to.address) != 0;
    if (teller->as_json) {
        json_begin(&teller->json, teller->to, "echo");
        json_text(&teller->json, "address", peer->to.address);
        json_number(&teller->json, "port", peer->to.port);
        json_text(&teller->json, "source", peer->from.address);
        json_number(&teller->json, "source_port", peer->from.port);
        json_array(&teller->json, "events");
    } else {
        fprintf(teller->to, "Echo Requests to %s%s%s%s port %u, from %s port %u\n", named ? name : "", named ? " (" : "", peer->to.address,
                named ? ")" : "", peer->to.port, peer->from.address, peer->from.port);
    }
    write_out(teller);
}

static void json_event(struct json *json, const char *event)
{
    json_object(json, NULL);
    json_text(json, "event", event);
}

static void end_event(struct echo_teller *teller)
{
    if (teller->as_json)
        json_close(&teller->json);
    write_out(teller);
}

static const char *const arrivals[] = {[ECHO_RECEIVED] = "response", [ECHO_LATE] = "late", [ECHO_DUPLICATE] = "duplicate"};

static void json_response(struct json *json, enum echo_arrival arrival, const struct echo_response *response, int64_t took)
{
    json_event(json, arrivals[arrival]);
    json_number(json, "sequence_number", response->sequence_number);
    if (response->has_recovery)
        json_number(json, "recovery", response->recovery);
    json_milliseconds(json, "ms", milliseconds(took));
}

static void say_response(struct echo_teller *teller, enum echo_arrival arrival, const struct echo_response *response, int64_t took)
{
    if (arrival != ECHO_RECEIVED)
        fprintf(teller->to, "%s ", arrivals[arrival]);
    fprintf(teller->to, "Echo Response from %s: sequence number %u, ", teller->peer->to.address, response->sequence_number);
    if (response->has_recovery)
        fprintf(teller->to, "Recovery %u, ", response->recovery);
    else
        fputs("no Recovery, ", teller->to);
    fprintf(teller->to, "%.3f ms\n", milliseconds(took));
}

void tell_response(struct echo_teller *teller, enum echo_arrival arrival, const struct echo_response *response, int64_t took)
{
    if (teller->as_json)
        json_response(&teller->json, arrival, response, took);
    else
        say_response(teller, arrival, response, took);
    end_event(teller);
}

void tell_not_valid(struct echo_teller *teller, size_t octets, const char *fault)
{
    if (teller->as_json) {
        json_event(&teller->json, "not valid");
        json_number(&teller->json, "octets", octets);
        json_text(&teller->json, "reason", fault);
    } else {
        fprintf(teller->to, "not valid, %zu octets from %s: %s\n", octets, teller->peer->to.address, fault);
    }
    end_event(teller);
}

void tell_no_response(struct echo_teller *teller, uint16_t sequence_number, int64_t timeout)
{
    if (teller->as_json) {
        json_event(&teller->json, "no response");
        json_number(&teller->json, "sequence_number", sequence_number);
    } else {
        fprintf(teller->to, "no Echo Response to sequence number %u within %g s\n", sequence_number, milliseconds(timeout) / 1e3);
    }
    end_event(teller);
}

/* Time Exceeded and Destination Unreachable with its codes for a filter: RFC 792, RFC 1812 (section 5.2.7.1), RFC 4443. */
enum { ICMP_UNREACHABLE = 3, ICMP_TIME_EXCEEDED = 11, ICMPV6_TIME_EXCEEDED = 3 };

static bool is_over_ipv4(const struct echo_error *error)
{
    return error->icmp != NULL && strcmp(error->icmp, "ICMP") == 0;
}

static bool is_time_exceeded(const struct echo_error *error)
{
    return error->icmp != NULL && error->type == (is_over_ipv4(error) ? ICMP_TIME_EXCEEDED : ICMPV6_TIME_EXCEEDED);
}

static bool is_filtered(const struct echo_error *error)
{
    if (is_over_ipv4(error))
        return error->type == ICMP_UNREACHABLE && (error->code == 9 || error->code == 10 || error->code == 13);
    return error->icmp != NULL && error->reason == EACCES;
}

enum { REASON_ROOM = 96 };

static void error_reason(const struct echo_error *error, unsigned int port, char reason[REASON_ROOM])
{
    if (is_time_exceeded(error))
        snprintf(reason, REASON_ROOM, "hop limit exceeded on the way");
    else if (is_filtered(error))
        snprintf(reason, REASON_ROOM, "a filter on the way refuses it");
    else if (error->reason == ECONNREFUSED)
        snprintf(reason, REASON_ROOM, "port %u is closed", port);
    else if (error->icmp != NULL && error->reason == EHOSTUNREACH)
        snprintf(reason, REASON_ROOM, "the host cannot be reached");
    else if (error->icmp != NULL && error->reason == ENETUNREACH)
        snprintf(reason, REASON_ROOM, "the network cannot be reached");
    else if (error->icmp != NULL && error->reason == EPROTO)
        snprintf(reason, REASON_ROOM, "Parameter Problem: the node does not take GTP-U at this address");
    else
        snprintf(reason, REASON_ROOM, "%s", strerror(error->reason));
}

static void json_error(struct json *json, const struct echo_error *error, const char *reason)
{
    json_event(json, "error");
    if (error->has_number)
        json_number(json, "sequence_number", error->sequence_number);
    json_text(json, "reason", reason);
    if (error->icmp == NULL)
        return;
    json_object(json, "icmp");
    json_number(json, "type", error->type);
    json_number(json, "code", error->code);
    json_text(json, "from", error->from);
    json_close(json);
}

static void say_error_line(FILE *to, const struct echo_error *error, const char *reason)
{
    if (error->has_number)
        fprintf(to, "sequence number %u: ", error->sequence_number);
    fputs(reason, to);
    if (error->icmp != NULL)
        fprintf(to, " (%s type %u, code %u, from %s)", error->icmp, error->type, error->code, error->from);
    fputc('\n', to);
}

void tell_error(struct echo_teller *teller, const struct echo_error *error)
{
    char reason[REASON_ROOM];
    error_reason(error, teller->peer->to.port, reason);
    if (teller->as_json)
        json_error(&teller->json, error, reason);
    else
        say_error_line(teller->to, error, reason);
    end_event(teller);
}

/* Of the requests that are awaited no longer; there is one at least. */
static double lost_percent(const struct echo_ledger *ledger)
{
    return 100.0 * (double)ledger->lost / (double)(ledger->received + ledger->lost);
}

static double average(const struct echo_ledger *ledger)
{
    return milliseconds(ledger->sum) / (double)ledger->received;
}

static void json_summary(struct json *json, const struct echo_ledger *ledger)
{
    json_close(json); /* events */
    json_number(json, "requests", ledger->sent);
    json_number(json, "responses", ledger->received);
    json_number(json, "lost", ledger->lost);
    if (ledger->received + ledger->lost != 0)
        json_percent(json, "lost_percent", lost_percent(ledger));
    json_number(json, "awaited", ledger_awaited(ledger));
    json_number(json, "late", ledger->late);
    json_number(json, "duplicate", ledger->duplicate);
    json_number(json, "not_valid", ledger->not_valid);
    if (ledger->received != 0) {
        json_milliseconds(json, "min_ms", milliseconds(ledger->least));
        json_milliseconds(json, "avg_ms", average(ledger));
        json_milliseconds(json, "max_ms", milliseconds(ledger->most));
    }
    json_finish(json, false);
}

static void say_count(FILE *to, const char *words, uint64_t count)
{
    if (count != 0)
        fprintf(to, ", %s %" PRIu64, words, count);
}

static void say_summary(struct echo_teller *teller, const struct echo_ledger *ledger)
{
    FILE *to = teller->to;
    fprintf(to, "--- %s port %u\n", teller->peer->to.address, teller->peer->to.port);
    fprintf(to, "Echo Requests sent %" PRIu64 ", Echo Responses received %" PRIu64 ", lost %" PRIu64, ledger->sent, ledger->received,
            ledger->lost);
    if (ledger->received + ledger->lost != 0)
        fprintf(to, " (%.1f %%)", lost_percent(ledger));
    say_count(to, "still awaited", ledger_awaited(ledger));
    say_count(to, "late", ledger->late);
    say_count(to, "duplicate", ledger->duplicate);
    say_count(to, "not valid", ledger->not_valid);
    fputc('\n', to);
    if (ledger->received != 0)
        fprintf(to, "time min/avg/max %.3f/%.3f/%.3f ms\n", milliseconds(ledger->least), average(ledger), milliseconds(ledger->most));
}

void tell_summary(struct echo_teller *teller, const struct echo_ledger *ledger)
{
    if (teller->as_json)
        json_summary(&teller->json, ledger);
    else
        say_summary(teller, ledger);
    write_out(teller);
}

void tell_broken_off(struct echo_teller *teller)
{
    if (json_open(&teller->json))
        json_finish(&teller->json, true);
}
