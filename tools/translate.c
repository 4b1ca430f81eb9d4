/* kawsarpa translate: every packet of a capture through the library, with one table. */
#include <argp.h>
#include <stdbool.h>
#include <stdint.h>
#include <stdio.h>

#include "burst.h"
#include "capture.h"
#include "commands.h"
#include "describe.h"
#include "file.h"
#include "icmp.h"
#include "kawsarpa.h"
#include "options.h"
#include "progress.h"
#include "stop.h"
#include "words.h"

struct arguments {
    const char *table;
    const char *in;
    const char *out;  /* NULL: what is sent is not kept; then the messages are */
    const char *icmp; /* NULL: ICMPv6 messages are not kept */
    bool trace;
    bool json;
    bool quiet;
};

struct run {
    struct stop stop;
    struct capture_reader reader;
    struct burst burst;
    struct progress progress;
    struct output out;
    struct output icmp;
    FILE *account;    /* where the trace and the summary go */
    struct json json; /* begun when there is something to tell */
    bool trace;
    bool as_json;
    bool quiet;
    bool keeps_messages;
    unsigned long answers[UINT8_MAX + 1];
    unsigned long echo_answered;                 /* not among the answers */
    unsigned long checksums[CHECKSUM_WRONG + 1]; /* of what is refused with 18 */
    unsigned long messages;                      /* ICMPv6 messages that are due */
    unsigned long messages_unspecified;          /* of those, from :: */
    unsigned long none_due;                      /* refusals that have an ICMP type, but no message */
    size_t longest_in;
    size_t longest_sent;
};

/* Whether the answer tells that an entry or rule was found: a refusal with a smaller number comes before that. */
static bool found_record(unsigned int number)
{
    return number == KAWSARPA_ANSWER_SENT || number > KAWSARPA_ANSWER_NO_MATCH;
}

/* What is told of a packet. */
struct trace {
    const struct capture_packet *packet;
    bool found;
    struct stop_record record; /* where one was found */
    const struct outcome *outcome;
    const struct icmp_message *message;
};

static struct trace make_trace(const struct run *run, const struct capture_packet *packet, const struct outcome *outcome,
                               const struct icmp_message *message)
{
    struct trace trace = {.packet = packet, .outcome = outcome, .message = message};
    trace.found = found_record(kawsarpa_answer_number(outcome->answer)) &&
                  stop_find(&run->stop, packet->version, packet->octets, packet->length, &trace.record);
    return trace;
}

static void say_trace(struct run *run, const struct trace *trace)
{
    fprintf(run->account, "packet %lu: ", trace->packet->number);
    packet_describe(run->account, trace->packet->octets, trace->packet->length);
    fputs("\n  ", run->account);
    if (trace->found) {
        stop_say_record(run->account, &run->stop, trace->record);
        fputs(": ", run->account);
    }
    stop_say_outcome(run->account, trace->outcome);
    if (trace->message->asked) {
        fputs("\n  ", run->account);
        icmp_say(run->account, trace->message);
    }
    fputc('\n', run->account);
}

static void json_head(struct run *run)
{
    if (json_open(&run->json))
        return;
    json_begin(&run->json, run->account, "translate");
    json_text(&run->json, "table", run->stop.name);
    if (run->trace)
        json_array(&run->json, "packets");
}

static void json_trace(struct run *run, const struct trace *trace)
{
    struct json *json = &run->json;
    json_head(run);
    json_object(json, NULL);
    json_number(json, "number", trace->packet->number);
    packet_json(json, "in", trace->packet->octets, trace->packet->length);
    if (trace->found)
        stop_json_record(json, "record", &run->stop, trace->record);
    stop_json_outcome(json, trace->outcome);
    if (trace->message->asked)
        icmp_json(json, trace->message);
    json_close(json);
}

static size_t larger(size_t a, size_t b)
{
    return a > b ? a : b;
}

/* Echo Requests that were answered are counted apart from what is sent on. */
static void count(struct run *run, const struct capture_packet *packet, const struct outcome *outcome)
{
    if (outcome->echo_answered) {
        run->echo_answered++;
        return;
    }
    run->answers[kawsarpa_answer_number(outcome->answer)]++;
    if (kawsarpa_answer_number(outcome->answer) == KAWSARPA_ANSWER_BAD_CHECKSUM)
        run->checksums[outcome->checksum.fault]++;
    if (outcome->sent != NULL) {
        run->longest_in = larger(run->longest_in, packet->length);
        run->longest_sent = larger(run->longest_sent, outcome->sent_length);
    }
}

static void count_message(struct run *run, const struct icmp_message *message)
{
    run->messages += message->length > 0;
    run->messages_unspecified += message->from_unspecified;
    run->none_due += message->asked && message->length == 0;
}

/* Adds a packet to a capture, where that is written; the exit code. */
static int keep(struct output *output, struct timespec time, const uint8_t *octets, size_t length)
{
    const bool added = output->file == NULL || capture_add(output->file, time, octets, length);
    return added ? EXIT_DONE : output_fault(output);
}

/* What becomes of a packet; the exit code, not 0 where what was sent, a message about it, or its trace, could not be written. */
static int finish_packet(struct run *run, const struct capture_packet *packet, const struct outcome *outcome)
{
    static struct icmp_message message;
    int code = EXIT_DONE;
    count(run, packet, outcome);
    if (run->trace || run->icmp.file != NULL) {
        icmp_ask(&message, &run->stop, outcome->answer, packet->octets, packet->length);
        count_message(run, &message);
    }
    if (run->trace) {
        const struct trace trace = make_trace(run, packet, outcome, &message);
        (run->as_json ? json_trace : say_trace)(run, &trace);
        code = output_printed(run->account);
    }
    if (code == EXIT_DONE && outcome->sent != NULL)
        code = keep(&run->out, packet->time, outcome->sent, outcome->sent_length);
    if (code == EXIT_DONE && message.length > 0)
        code = keep(&run->icmp, packet->time, message.octets, message.length);
    return code;
}

/* Translates the packets that are gathered; the exit code. */
static int translate_burst(struct run *run)
{
    struct burst *burst = &run->burst;
    int code = EXIT_DONE;
    burst_call(burst, &run->stop);
    for (size_t i = 0; code == EXIT_DONE && i < burst->count; i++) {
        code = finish_packet(run, &burst->packets[i], &burst->outcomes[i]);
        progress_at(&run->progress, burst->packets[i].number);
    }
    burst_clear(burst);
    return code;
}

/* Gathers a packet, and translates what is gathered where that is due; the exit code. */
static int gather_packet(struct run *run, const struct capture_packet *packet)
{
    const int code = burst_takes(&run->burst, packet) ? EXIT_DONE : translate_burst(run);
    if (code != EXIT_DONE)
        return code;
    burst_add(&run->burst, packet);
    return burst_full(&run->burst) ? translate_burst(run) : EXIT_DONE;
}

/* Translates a packet by itself; the exit code. */
static int translate_packet(struct run *run, const struct capture_packet *packet)
{
    static uint8_t sent[STOP_ROOM];
    const struct outcome outcome = stop_call(&run->stop, packet->version, packet->octets, packet->length, sent);
    const int code = finish_packet(run, packet, &outcome);
    progress_at(&run->progress, packet->number);
    return code;
}

/* Begins a capture, where it is written; the exit code. */
static int begin(struct output *output)
{
    return output->file == NULL || capture_begin(output->file) ? EXIT_DONE : output_fault(output);
}

/* From the reader into the outputs, in bursts; but a trace is told packet by packet, while the capture comes. The exit code. */
static int translate_all(struct run *run)
{
    struct capture_packet packet;
    enum capture_step step = CAPTURE_WORDS;
    run->progress = progress_begin(!run->quiet);
    int code = begin(&run->out);
    if (code == EXIT_DONE)
        code = begin(&run->icmp);
    while (code == EXIT_DONE && step != CAPTURE_END) {
        step = capture_step(&run->reader, &packet);
        if (step == CAPTURE_PACKET)
            code = (run->trace ? translate_packet : gather_packet)(run, &packet);
        else /* nothing is said of a frame before what comes before it is translated */
            code = translate_burst(run);
    }
    progress_end(&run->progress);
    return code == EXIT_DONE ? run->reader.code : code;
}

static void say_count(struct run *run, unsigned long packets, unsigned int number, const char *words)
{
    if (packets > 0)
        fprintf(run->account, "%8lu  %2u %s\n", packets, number, words);
}

/* What may be no damage: checksums that are 0, and those that a network card had yet to finish. */
static void say_checksums(struct run *run)
{
    const unsigned long zero = run->checksums[CHECKSUM_ZERO];
    const unsigned long unfinished = run->checksums[CHECKSUM_UNFINISHED];
    if (zero > 0)
        fprintf(run->account, "%13s%lu of them %s 0, which the entry does not allow\n", "", zero, zero == 1 ? "is" : "are");
    if (unfinished > 0)
        fprintf(run->account,
                "%13s%lu of them %s only the sum of the pseudo-header: a capture on the sending host, before its network card finished the "
                "checksum\n",
                "", unfinished, unfinished == 1 ? "holds" : "hold");
}

static void say_messages(struct run *run)
{
    const unsigned long unspecified = run->messages_unspecified;
    fprintf(run->account, "ICMPv6 messages: %lu written, none due for %lu packet%s\n", run->messages, run->none_due,
            run->none_due == 1 ? "" : "s");
    if (unspecified > 0)
        fprintf(run->account,
                unspecified == 1 ? "%13s%lu message is from ::, since its entry has no source: routers drop it\n"
                                 : "%13s%lu messages are from ::, since their entries have no source: routers drop them\n",
                "", unspecified);
}

static void say_summary(struct run *run)
{
    capture_say_counts(run->account, &run->reader.counts);
    for (unsigned int number = 0; number <= UINT8_MAX; number++) {
        say_count(run, run->answers[number], number, kawsarpa_answer_name(number));
        if (number == KAWSARPA_ANSWER_SENT)
            say_count(run, run->echo_answered, number, echo_answered_words);
        if (number == KAWSARPA_ANSWER_BAD_CHECKSUM)
            say_checksums(run);
    }
    if (run->longest_sent > 0)
        fprintf(run->account, "longest packet: %zu octets in, %zu sent\n", run->longest_in, run->longest_sent);
    if (run->keeps_messages)
        say_messages(run);
}

static void json_answers(struct run *run)
{
    struct json *json = &run->json;
    json_array(json, "answers");
    for (unsigned int number = 0; number <= UINT8_MAX; number++) {
        if (run->answers[number] == 0)
            continue;
        json_object(json, NULL);
        json_number(json, "number", number);
        json_text(json, "name", kawsarpa_answer_name(number));
        json_number(json, "packets", run->answers[number]);
        if (number == KAWSARPA_ANSWER_BAD_CHECKSUM) {
            json_number(json, "zero", run->checksums[CHECKSUM_ZERO]);
            json_number(json, "unfinished", run->checksums[CHECKSUM_UNFINISHED]);
        }
        json_close(json);
    }
    json_close(json);
}

static void json_summary(struct run *run)
{
    struct json *json = &run->json;
    json_head(run);
    if (run->trace)
        json_close(json);
    capture_json(json, &run->reader);
    json_answers(run);
    json_number(json, "echo_answered", run->echo_answered);
    if (run->longest_sent > 0) {
        json_object(json, "longest");
        json_number(json, "in", run->longest_in);
        json_number(json, "sent", run->longest_sent);
        json_close(json);
    }
    if (run->keeps_messages) {
        json_object(json, "icmp_messages");
        json_number(json, "written", run->messages);
        json_number(json, "from_unspecified", run->messages_unspecified);
        json_number(json, "none_due", run->none_due);
        json_close(json);
    }
    json_finish(json, false);
}

static int open_outputs(struct run *run, const struct arguments *arguments)
{
    int code = arguments->out == NULL ? EXIT_DONE : output_open(&run->out, arguments->out);
    if (code == EXIT_DONE && arguments->icmp != NULL)
        code = output_open(&run->icmp, arguments->icmp);
    return code;
}

/* Both outputs get their names only if both are whole. */
static int commit_outputs(struct run *run)
{
    int code = output_settle(&run->out);
    if (code == EXIT_DONE)
        code = output_settle(&run->icmp);
    if (code == EXIT_DONE)
        code = output_commit(&run->out);
    if (code == EXIT_DONE)
        code = output_commit(&run->icmp);
    return code;
}

static int translate_into(struct run *run, const struct arguments *arguments)
{
    int code = open_outputs(run, arguments);
    if (code == EXIT_DONE)
        code = translate_all(run);
    if (code == EXIT_DONE)
        code = commit_outputs(run);
    if (code != EXIT_DONE) {
        output_abandon(&run->out);
        output_abandon(&run->icmp);
        return code;
    }
    (run->as_json ? json_summary : say_summary)(run);
    return capture_end_code(&run->reader);
}

static int translate_capture(struct run *run, const struct arguments *arguments)
{
    int code = capture_open(&run->reader, arguments->in);
    if (code != EXIT_DONE)
        return code;
    code = translate_into(run, arguments);
    if (json_open(&run->json))
        json_finish(&run->json, true);
    capture_close(&run->reader);
    return code;
}

/* Whether a file to write would replace something that is read, or printed beside it; if so, it is reported. */
static bool output_taken(const struct arguments *arguments, const char *out, FILE *account)
{
    return out != NULL && (output_is_input(out, arguments->in, "the capture") || output_is_input(out, arguments->table, "the table") ||
                           output_is_stream(out, account));
}

/* The same of both, and whether they are one. */
static bool outputs_taken(const struct arguments *arguments, FILE *account)
{
    return output_taken(arguments, arguments->out, account) || output_taken(arguments, arguments->icmp, account) ||
           (arguments->out != NULL && arguments->icmp != NULL && output_is_output(arguments->icmp, arguments->out, "OUT.pcap"));
}

/* Options without a short name have numbers past those of characters. */
enum { OPTION_TABLE = 256, OPTION_ICMP, OPTION_TRACE, OPTION_JSON };

static error_t parse(int key, char *value, struct argp_state *state)
{
    struct arguments *arguments = state->input;
    switch (key) {
    case OPTION_TABLE:
        arguments->table = value;
        return 0;
    case OPTION_ICMP:
        arguments->icmp = value;
        return 0;
    case OPTION_TRACE:
        arguments->trace = true;
        return 0;
    case OPTION_JSON:
        arguments->json = true;
        return 0;
    case 'q':
        arguments->quiet = true;
        return 0;
    case ARGP_KEY_ARG:
        if (state->arg_num >= 2)
            argp_error(state, "two captures are enough: %s", value);
        *(state->arg_num == 0 ? &arguments->in : &arguments->out) = value;
        return 0;
    case ARGP_KEY_END:
        if (arguments->table == NULL || arguments->in == NULL || (arguments->out == NULL && arguments->icmp == NULL))
            argp_error(state, "--table, IN.pcap, and OUT.pcap or --icmp are needed");
        options_exclude(state, arguments->trace, "--trace", arguments->quiet, "--quiet");
        options_exclude(state, arguments->json, "--json", arguments->quiet, "--quiet");
        options_exclude(state, arguments->json, "--json", file_is_standard(arguments->out), "OUT.pcap on standard output");
        options_exclude(state, arguments->json, "--json", file_is_standard(arguments->icmp), "ICMP.pcap on standard output");
        return 0;
    default:
        return ARGP_ERR_UNKNOWN;
    }
}

static const struct argp_option option_list[] = {
    {"table", OPTION_TABLE, "TABLE", 0, "the table to translate by", 0},
    {"icmp", OPTION_ICMP, "ICMP.pcap", 0,
     "keep the ICMPv6 messages that are due about packets refused with 6, 7 or 8; then OUT.pcap may be left out", 0},
    {"trace", OPTION_TRACE, NULL, 0,
     "print of each packet what it is, the entry or rule that matched, the answer, what leaves, and the ICMPv6 message about it", 0},
    {"json", OPTION_JSON, NULL, 0, json_option_words, 0},
    {"quiet", 'q', NULL, 0, "print nothing but faults", 0},
    {NULL, 0, NULL, 0, NULL, 0},
};

static const char words[] =
    "Makes the call of its IP version for each packet of a capture, and counts the answers; Echo Requests that are answered are counted "
    "apart from what is sent on. IN.pcap is a pcap or pcapng capture of Ethernet, Linux cooked or raw IP. OUT.pcap gets what is sent, "
    "Echo Responses too, as raw IP with the times of the packets that went in. ICMP.pcap gets the ICMPv6 messages, each with the time of "
    "the packet that it is about. Frames that are "
    "not IP or are snapped are left out and counted; padding of the link is cut off. TABLE, IN.pcap and one of OUT.pcap and ICMP.pcap may "
    "be `-'; if one of the latter is, all else is printed on standard error. Neither may be a file that is read. Of a capture that is cut "
    "at its end the packets before the cut are used."
    "\vAn ICMPv6 message (RFC 4443) goes from the source of the entry that matched to the source of the packet, which it quotes. None is "
    "due toward a multicast or unspecified source, about a packet to a multicast destination, and about an ICMPv6 error or Redirect; "
    "with --icmp it says of how many packets. Over IPv4 there are none.\n"
    "\n"
    "Of the packets that are refused for their UDP checksum it says how many have 0, and how many only the sum of the pseudo-header. "
    "That is what a sending host leaves there for its network card to finish: on the wire such a packet is right.\n"
    "\n"
    "Exit codes: 0 written; 1 the capture is bad or cut, or the table not sound; 2 wrong usage; 3 the system failed.";

static const struct argp argp = {
    option_list, parse, "--table TABLE IN.pcap OUT.pcap\n--table TABLE --icmp ICMP.pcap IN.pcap [OUT.pcap]", words, shared_options,
    NULL,        NULL,
};

int command_translate(int argc, char **argv)
{
    struct arguments arguments = {.table = NULL};
    argp_parse(&argp, argc, argv, 0, NULL, &arguments);
    static struct run run; /* a burst is large */
    run.trace = arguments.trace;
    run.as_json = arguments.json;
    run.quiet = arguments.quiet;
    run.keeps_messages = arguments.icmp != NULL;
    const bool printed = file_is_standard(arguments.out) || file_is_standard(arguments.icmp);
    run.account = run.quiet ? output_nowhere() : printed ? stderr : stdout;
    const char *const inputs[] = {arguments.table, arguments.in};
    if (file_standard_twice(inputs, 2) || outputs_taken(&arguments, run.account))
        return EXIT_USAGE;
    int code = stop_load(&run.stop, arguments.table);
    if (code != EXIT_DONE)
        return code;
    code = translate_capture(&run, &arguments);
    stop_free(&run.stop);
    return code;
}
