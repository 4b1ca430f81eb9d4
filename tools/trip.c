/* kawsarpa trip: the packets of a capture through a whole trip, with what left each stop. */
#include <argp.h>
#include <stdbool.h>
#include <stdint.h>
#include <stdio.h>
#include <string.h>

#include "arrival.h"
#include "capture.h"
#include "commands.h"
#include "describe.h"
#include "file.h"
#include "fit.h"
#include "icmp.h"
#include "kawsarpa.h"
#include "options.h"
#include "progress.h"
#include "stop.h"
#include "words.h"

/* The near gateway, the waypoints, the far gateway. */
enum { STOPS_MAX = KAWSARPA_WAYPOINTS_MAX + 2 };

struct arguments {
    const char *near;
    const char *via[KAWSARPA_WAYPOINTS_MAX];
    size_t via_count;
    const char *far;
    const char *in;
    const char *out; /* NULL: what comes out is not kept */
    bool json;
    bool quiet;
};

struct trip {
    struct stop stops[STOPS_MAX];
    size_t stop_count;
    struct capture_reader reader;
    struct output out;
    FILE *account;
    struct json json;
    bool as_json;
    bool quiet;
    unsigned long arrived;
    unsigned long unchanged; /* of those, what came out as it has to */
    unsigned long echo_answered;
};

static void say_packet(struct trip *trip, const struct capture_packet *packet)
{
    fprintf(trip->account, "packet %lu: ", packet->number);
    packet_describe(trip->account, packet->octets, packet->length);
    fputc('\n', trip->account);
}

static void json_packet(struct trip *trip, const struct capture_packet *packet)
{
    json_object(&trip->json, NULL);
    json_number(&trip->json, "number", packet->number);
    packet_json(&trip->json, "in", packet->octets, packet->length);
    json_array(&trip->json, "stops");
}

/* What happened at a stop: near, via or far. */
struct event {
    const char *stop;
    size_t via; /* from 1, at a waypoint; else 0 */
    struct outcome outcome;
    const struct icmp_message *message;
};

static struct event make_event(const struct trip *trip, size_t stop, const struct outcome *outcome, const struct icmp_message *message)
{
    struct event event = {.stop = "via", .outcome = *outcome, .message = message};
    if (stop == 0)
        event.stop = "near";
    else if (stop + 1 == trip->stop_count)
        event.stop = "far";
    else
        event.via = stop;
    return event;
}

static void say_event(struct trip *trip, const struct event *event)
{
    fprintf(trip->account, "  %s", event->stop);
    if (event->via != 0)
        fprintf(trip->account, " %zu", event->via);
    fputs(": ", trip->account);
    stop_say_outcome(trip->account, &event->outcome);
    if (event->message->asked) {
        fputs("\n    ", trip->account);
        icmp_say(trip->account, event->message);
    }
    fputc('\n', trip->account);
}

static void json_event(struct trip *trip, const struct event *event)
{
    struct json *json = &trip->json;
    json_object(json, NULL);
    json_text(json, "stop", event->stop);
    if (event->via != 0)
        json_number(json, "number", event->via);
    stop_json_outcome(json, &event->outcome);
    if (event->message->asked)
        icmp_json(json, event->message);
    json_close(json);
}

/* Sends a packet through every stop, but not past one that refuses it, or that answers it as an Echo Request. */
static struct arrival walk(struct trip *trip, const struct capture_packet *packet)
{
    static uint8_t buffers[2][STOP_ROOM]; /* what arrives at a stop and what leaves it */
    static struct icmp_message message;
    struct arrival arrival = {.near = stop_entry(&trip->stops[0], packet->version, packet->octets, packet->length)};
    struct parcel here = {packet->octets, packet->length};
    unsigned int version = packet->version;
    for (size_t i = 0; i < trip->stop_count; i++) {
        uint8_t *sent = buffers[i % 2];
        const struct outcome outcome = stop_call(&trip->stops[i], version, here.octets, here.length, sent);
        icmp_ask(&message, &trip->stops[i], outcome.answer, here.octets, here.length);
        const struct event event = make_event(trip, i, &outcome, &message);
        (trip->as_json ? json_event : say_event)(trip, &event);
        arrival.echo_answered = outcome.echo_answered;
        if (outcome.sent == NULL || outcome.echo_answered)
            return arrival;
        if (i + 1 == trip->stop_count)
            arrival.far = stop_entry(&trip->stops[i], version, here.octets, here.length);
        here = (struct parcel){outcome.sent, outcome.sent_length};
        version = sent[0] >> 4;
    }
    arrival.out = here;
    return arrival;
}

static void say_verdict(struct trip *trip, const struct verdict *verdict)
{
    verdict_say(trip->account, verdict);
}

static void json_verdict(struct trip *trip, const struct verdict *verdict)
{
    json_close(&trip->json); /* stops */
    verdict_json(&trip->json, verdict);
    json_close(&trip->json);
}

/* One packet's trip; the exit code, not 0 where what came out, or what is told of it, could not be written. */
static int send_packet(struct trip *trip, const struct capture_packet *packet)
{
    (trip->as_json ? json_packet : say_packet)(trip, packet);
    const struct arrival arrival = walk(trip, packet);
    const struct parcel *out = &arrival.out;
    const struct verdict verdict = arrival_judge(packet, &arrival);
    (trip->as_json ? json_verdict : say_verdict)(trip, &verdict);
    trip->arrived += verdict.arrived;
    trip->unchanged += verdict_unchanged(&verdict);
    trip->echo_answered += verdict.echo_answered;
    const int code = output_printed(trip->account);
    if (code != EXIT_DONE || out->octets == NULL)
        return code;
    const bool added = trip->out.file == NULL || capture_add(trip->out.file, packet->time, out->octets, out->length);
    return added ? EXIT_DONE : output_fault(&trip->out);
}

/* All packets, one after the other; the exit code. */
static int send_all(struct trip *trip)
{
    struct capture_packet packet;
    struct progress progress = progress_begin(!trip->quiet);
    const bool begun = trip->out.file == NULL || capture_begin(trip->out.file);
    int code = begun ? EXIT_DONE : output_fault(&trip->out);
    while (code == EXIT_DONE && capture_next(&trip->reader, &packet)) {
        code = send_packet(trip, &packet);
        progress_at(&progress, packet.number);
    }
    progress_end(&progress);
    return code == EXIT_DONE ? trip->reader.code : code;
}

/* How many packets have to arrive. */
static unsigned long travellers(const struct trip *trip)
{
    return trip->reader.counts.packets - trip->echo_answered;
}

static void say_summary(struct trip *trip)
{
    capture_say_counts(trip->account, &trip->reader.counts);
    if (trip->echo_answered > 0)
        fprintf(trip->account, "%8lu  %s\n", trip->echo_answered, echo_answered_words);
    fprintf(trip->account,
            "%lu of %lu %spackets arrived, %lu of them with the destination, TEID, QFI, R, traffic class and inner octets "
            "that went in\n",
            trip->arrived, travellers(trip), trip->echo_answered > 0 ? "other " : "", trip->unchanged);
}

static void json_summary(struct trip *trip)
{
    json_close(&trip->json); /* packets */
    capture_json(&trip->json, &trip->reader);
    json_number(&trip->json, "arrived", trip->arrived);
    json_number(&trip->json, "unchanged", trip->unchanged);
    json_number(&trip->json, "echo_answered", trip->echo_answered);
    json_finish(&trip->json, false);
}

static int summarize(struct trip *trip)
{
    (trip->as_json ? json_summary : say_summary)(trip);
    return trip->unchanged == travellers(trip) ? capture_end_code(&trip->reader) : EXIT_INPUT;
}

static int trip_into(struct trip *trip, const char *out)
{
    int code = out == NULL ? EXIT_DONE : output_open(&trip->out, out);
    if (code != EXIT_DONE)
        return code;
    code = send_all(trip);
    if (code != EXIT_DONE) {
        output_abandon(&trip->out);
        return code;
    }
    code = out == NULL ? EXIT_DONE : output_commit(&trip->out);
    return code == EXIT_DONE ? summarize(trip) : code;
}

static void say_fit(struct trip *trip, const struct fit_way *way, const struct fit *fit)
{
    fprintf(trip->account, "tables: %u of %u near entries and rules fit\n", fit->fitting, fit->asked);
    for (unsigned int i = 0; i < fit->record_count; i++)
        if (fit_record_asked(&fit->records[i]) && !fit_record_fits(way, &fit->records[i]))
            fit_say_record(trip->account, way, &fit->records[i]);
}

static void json_fit(struct trip *trip, const struct fit_way *way, const struct fit *fit)
{
    json_begin(&trip->json, trip->account, "trip");
    fit_json(&trip->json, "tables", way, fit);
    json_array(&trip->json, "packets");
}

/* Whether the tables fit, told before any packet; the trip is made all the same. */
static void tell_fit(struct trip *trip)
{
    const size_t far = trip->stop_count - 1;
    const struct fit_way way = {&trip->stops[0], &trip->stops[1], far - 1, &trip->stops[far], true};
    const struct fit fit = fit_judge(&way);
    (trip->as_json ? json_fit : say_fit)(trip, &way, &fit);
}

static int trip_capture(struct trip *trip, const struct arguments *arguments)
{
    int code = capture_open(&trip->reader, arguments->in);
    if (code != EXIT_DONE)
        return code;
    tell_fit(trip);
    code = trip_into(trip, arguments->out);
    if (json_open(&trip->json))
        json_finish(&trip->json, true);
    capture_close(&trip->reader);
    return code;
}

/* Loads the next stop's table; the exit code. */
static int add_stop(struct trip *trip, const char *name)
{
    const int code = stop_load(&trip->stops[trip->stop_count], name);
    if (code == EXIT_DONE)
        trip->stop_count++;
    return code;
}

static int add_stops(struct trip *trip, const struct arguments *arguments)
{
    int code = add_stop(trip, arguments->near);
    for (size_t i = 0; code == EXIT_DONE && i < arguments->via_count; i++)
        code = add_stop(trip, arguments->via[i]);
    return code == EXIT_DONE ? add_stop(trip, arguments->far) : code;
}

/* Whether what is written would replace something that is read, or printed beside it; if so, it is reported. */
static bool output_taken(const struct arguments *arguments, FILE *account)
{
    bool taken = output_is_input(arguments->out, arguments->in, "the capture") ||
                 output_is_input(arguments->out, arguments->near, "the near table") ||
                 output_is_input(arguments->out, arguments->far, "the far table");
    for (size_t i = 0; !taken && i < arguments->via_count; i++)
        taken = output_is_input(arguments->out, arguments->via[i], "the table of a waypoint");
    return taken || output_is_stream(arguments->out, account);
}

static bool input_taken(const struct arguments *arguments)
{
    const char *inputs[STOPS_MAX + 1] = {arguments->near, arguments->far, arguments->in};
    memcpy(inputs + 3, arguments->via, arguments->via_count * sizeof inputs[0]);
    return file_standard_twice(inputs, 3 + arguments->via_count);
}

static void add_via(struct argp_state *state, struct arguments *arguments, const char *value)
{
    if (arguments->via_count == KAWSARPA_WAYPOINTS_MAX)
        argp_error(state, "a trip has at most %d waypoints", KAWSARPA_WAYPOINTS_MAX);
    arguments->via[arguments->via_count++] = value;
}

/* Options without a short name have numbers past those of characters. */
enum { OPTION_NEAR = 256, OPTION_VIA, OPTION_FAR, OPTION_JSON };

static error_t parse(int key, char *value, struct argp_state *state)
{
    struct arguments *arguments = state->input;
    switch (key) {
    case OPTION_NEAR:
        arguments->near = value;
        return 0;
    case OPTION_VIA:
        add_via(state, arguments, value);
        return 0;
    case OPTION_FAR:
        arguments->far = value;
        return 0;
    case OPTION_JSON:
        arguments->json = true;
        return 0;
    case 'q':
        arguments->quiet = true;
        return 0;
    case 'o':
        arguments->out = value;
        return 0;
    case ARGP_KEY_ARG:
        if (arguments->in != NULL)
            argp_error(state, "one capture is enough: %s", value);
        arguments->in = value;
        return 0;
    case ARGP_KEY_END:
        if (arguments->near == NULL || arguments->far == NULL || arguments->in == NULL)
            argp_error(state, "--near, --far and a capture are needed");
        options_exclude(state, arguments->json, "--json", arguments->quiet, "--quiet");
        options_exclude(state, arguments->json, "--json", file_is_standard(arguments->out), "OUT.pcap on standard output");
        return 0;
    default:
        return ARGP_ERR_UNKNOWN;
    }
}

static const struct argp_option option_list[] = {
    {"near", OPTION_NEAR, "TABLE", 0, "the table of the gateway where packets go in", 0},
    {"via", OPTION_VIA, "TABLE", 0, "the table of a waypoint; given once for each, in order of travel", 0},
    {"far", OPTION_FAR, "TABLE", 0, "the table of the gateway where packets come out", 0},
    {"output", 'o', "OUT.pcap", 0, "keep what comes out, as raw IP with the times of the packets that went in", 0},
    {"json", OPTION_JSON, NULL, 0, json_option_words, 0},
    {"quiet", 'q', NULL, 0, "print nothing but faults; the exit code says whether every packet arrived", 0},
    {NULL, 0, NULL, 0, NULL, 0},
};

static const char words[] =
    "Sends each IP packet of a capture through all stops of a trip, prints what leaves each, and compares what comes out with what went "
    "in. IN.pcap is a pcap or pcapng capture of Ethernet, Linux cooked or raw IP. A TABLE, IN.pcap and OUT.pcap may be `-'; if "
    "OUT.pcap is, all else is printed on standard error. OUT.pcap may not be a file that is read. Of a capture that is cut at its end the "
    "packets before the cut are used."
    "\vBefore the packets it says how many entries and rules of the near table fit the other tables, and why the rest does not, as "
    "`kawsarpa match' does; but in order: waypoint n has to fit the n-th --via table, with as many of one as of the other. The trip is "
    "made all the same, and its exit code is that of the packets alone.\n"
    "\n"
    "A packet that goes in at End.M.GTP6.D.Di and comes out at End.M.GTP6.E, or goes in by a rule and comes out at End.M.GTP4.E, is "
    "compared octet for octet with the one that has to come out: destination, traffic class, TEID, QFI, R, direction and inner octets as "
    "they went in, over IPv4 the source too; hop limit, UDP source port and over IPv6 the source of the far entry; over IPv6 the UDP "
    "checksum of all this; all else as it is always written. One that is not so has arrived changed, and its line says in what: fields, "
    "and octets of a header, counted from 0. Of other packets the parts that the line names are compared, and the direction.\n"
    "\n"
    "The trip of an Echo Request ends at the stop that answers it. It is counted apart, and is no fault.\n"
    "\n"
    "Exit codes: 0 every packet arrived with what went in; 1 one did not arrive, or arrived changed, the capture is bad or cut, or a table "
    "not sound; 2 wrong usage; 3 the system failed.";

static const struct argp argp = {
    option_list, parse, "--near TABLE [--via TABLE]... --far TABLE IN.pcap", words, shared_options, NULL, NULL,
};

int command_trip(int argc, char **argv)
{
    struct arguments arguments = {0};
    argp_parse(&argp, argc, argv, 0, NULL, &arguments);
    struct trip trip = {.as_json = arguments.json, .quiet = arguments.quiet};
    trip.account = trip.quiet ? output_nowhere() : file_is_standard(arguments.out) ? stderr : stdout;
    if (input_taken(&arguments) || (arguments.out != NULL && output_taken(&arguments, trip.account)))
        return EXIT_USAGE;
    int code = add_stops(&trip, &arguments);
    if (code == EXIT_DONE)
        code = trip_capture(&trip, &arguments);
    for (size_t i = 0; i < trip.stop_count; i++)
        stop_free(&trip.stops[i]);
    return code;
}
