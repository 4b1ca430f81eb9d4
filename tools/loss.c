/* kawsarpa loss: the sequence numbers of a capture offered to rows, one for each TEID, and a report of what was lost. */
#include <argp.h>
#include <inttypes.h>
#include <stdbool.h>
#include <stdint.h>
#include <stdio.h>

#include "capture.h"
#include "commands.h"
#include "kawsarpa.h"
#include "options.h"
#include "progress.h"
#include "rows.h"
#include "sequence.h"

struct arguments {
    const char *in;
    bool csv;
    bool json;
};

struct run {
    struct capture_reader reader;
    struct rows rows;
};

/* All packets in the order of the capture; the exit code. */
static int take_all(struct run *run)
{
    struct capture_packet packet;
    struct progress progress = progress_begin(true);
    while (capture_next(&run->reader, &packet)) {
        rows_take(&run->rows, &packet);
        progress_at(&progress, packet.number);
    }
    progress_end(&progress);
    return run->reader.code;
}

static double percent(uint64_t lost, uint64_t new)
{
    return 100.0 * (double)lost / (double)(new + lost);
}

static void print_table(const struct report *report)
{
    printf("%-10s %5s %7s %8s %8s %8s %8s %8s %8s\n", "TEID", "first", "highest", "seen", "new", "repeated", "late", "lost", "lost %");
    for (size_t i = 0; i < report->count; i++) {
        const struct kawsarpa_loss_row *row = &report->lines[i].row;
        printf("0x%08" PRIx32 " %5u %7u %8" PRIu32 " %8" PRIu32 " %8" PRIu32 " %8" PRIu32 " %8" PRIu64 " %8.4f\n", row->teid, row->first,
               row->highest, row->seen, row->new, row->repeated, row->late, row->lost, percent(row->lost, row->new));
    }
}

static void print_csv(const struct report *report)
{
    puts("teid,first,highest,seen,new,repeated,late,lost,lost_percent");
    for (size_t i = 0; i < report->count; i++) {
        const struct kawsarpa_loss_row *row = &report->lines[i].row;
        printf("0x%08" PRIx32 ",%u,%u,%" PRIu32 ",%" PRIu32 ",%" PRIu32 ",%" PRIu32 ",%" PRIu64 ",%.4f\n", row->teid, row->first,
               row->highest, row->seen, row->new, row->repeated, row->late, row->lost, percent(row->lost, row->new));
    }
}

/* The packets of a row, or of all rows. */
struct counts {
    uint64_t seen, new, repeated, late, lost;
};

static struct counts row_counts(const struct kawsarpa_loss_row *row)
{
    return (struct counts){row->seen, row->new, row->repeated, row->late, row->lost};
}

static struct counts sum(const struct report *report)
{
    struct counts sum = {0, 0, 0, 0, 0};
    for (size_t i = 0; i < report->count; i++) {
        const struct counts row = row_counts(&report->lines[i].row);
        sum.seen += row.seen;
        sum.new += row.new;
        sum.repeated += row.repeated;
        sum.late += row.late;
        sum.lost += row.lost;
    }
    return sum;
}

static void say_totals(FILE *to, const struct report *report)
{
    const struct counts all = sum(report);
    if (report->count == 0) {
        fputs("TEIDs 0: no sequence number was read\n", to);
        return;
    }
    fprintf(to,
            "TEIDs %zu, worst first by lost, then by TEID: seen %" PRIu64 ", new %" PRIu64 ", repeated %" PRIu64 ", late %" PRIu64
            ", lost %" PRIu64 ", %.4f %% of new + lost\n",
            report->count, all.seen, all.new, all.repeated, all.late, all.lost, percent(all.lost, all.new));
}

/* What it means for a packet that was not counted: an answer number, or SEQUENCE_NO_S. */
static const char *meaning(unsigned int number)
{
    switch (number) {
    case SEQUENCE_NO_S:
        return "G-PDUs without a sequence number";
    case KAWSARPA_ANSWER_MALFORMED:
        return "cut short, of another IP version, or its length is wrong";
    case KAWSARPA_ANSWER_BAD_HEADER4:
        return "a fragment, options, or a wrong checksum";
    case KAWSARPA_ANSWER_BAD_CHAIN:
        return "a fragment, options, a second routing header, or one that is not a whole SRH";
    case KAWSARPA_ANSWER_SEGMENTS_LEFT:
        return "an SRH with segments left, so on its way to another stop";
    case KAWSARPA_ANSWER_UPPER_LAYER:
        return "not UDP to port 2152, the port of GTP-U";
    case KAWSARPA_ANSWER_BAD_UDP:
        return "cut short, or its length is wrong";
    case KAWSARPA_ANSWER_BAD_GTPU:
        return "cut short, not version 1, GTP', or its length is wrong";
    case KAWSARPA_ANSWER_NOT_G_PDU:
        return "Echo, End Marker, Error Indication and so on";
    case KAWSARPA_ANSWER_NO_ROW:
        return "256 other TEIDs have the rows";
    case KAWSARPA_ANSWER_ROW_FULL:
        return "the row has seen 4,294,967,295";
    default: /* the library gives no other */
        return "";
    }
}

static const char *reason_name(unsigned int number)
{
    return number == SEQUENCE_NO_S ? "no S" : kawsarpa_answer_name(number);
}

static unsigned long all_not_counted(const struct run *run)
{
    unsigned long all = 0;
    for (unsigned int number = 0; number <= UINT8_MAX; number++)
        all += run->rows.not_counted[number];
    return all;
}

static void say_not_counted(FILE *to, const struct run *run)
{
    const unsigned long *packets = run->rows.not_counted;
    const unsigned long all = all_not_counted(run);
    fprintf(to, "not counted %lu of %lu IP packets%s\n", all, run->reader.counts.packets, all == 0 ? "" : ":");
    for (unsigned int number = 0; number <= UINT8_MAX; number++) {
        if (packets[number] == 0)
            continue;
        fprintf(to, "%8lu  ", packets[number]);
        if (number == SEQUENCE_NO_S)
            fputs("  ", to);
        else
            fprintf(to, "%2u", number);
        fprintf(to, " %s: %s\n", reason_name(number), meaning(number));
    }
}

/* Packets that may have had a number, which then is missing in its row. */
static unsigned long unreadable(const struct run *run)
{
    const unsigned long *packets = run->rows.not_counted;
    return run->reader.counts.snapped + packets[KAWSARPA_ANSWER_MALFORMED] + packets[KAWSARPA_ANSWER_BAD_HEADER4] +
           packets[KAWSARPA_ANSWER_BAD_CHAIN] + packets[KAWSARPA_ANSWER_BAD_UDP] + packets[KAWSARPA_ANSWER_BAD_GTPU];
}

static void say_several_destinations(FILE *to, const struct report *report)
{
    unsigned int said = 0;
    for (size_t i = 0; i < report->count; i++)
        if (report->lines[i].several_destinations)
            fprintf(to, "%s0x%08" PRIx32, said++ == 0 ? "sent to more than one address: " : ", ", report->lines[i].row.teid);
    if (said > 0)
        fputs("; such a row may mix streams, so filter the capture by destination\n", to);
}

static void say_account(FILE *to, const struct run *run, const struct report *report)
{
    say_totals(to, report);
    capture_say_counts(to, &run->reader.counts);
    say_not_counted(to, run);
    if (unreadable(run) > 0)
        fprintf(to,
                "unreadable %lu (snapped, 2, 3, 5, 9 and 10): a number in such a packet is not offered, and counts as lost in its "
                "row\n",
                unreadable(run));
    say_several_destinations(to, report);
}

static void json_counts(struct json *json, const struct counts *counts)
{
    json_number(json, "seen", counts->seen);
    json_number(json, "new", counts->new);
    json_number(json, "repeated", counts->repeated);
    json_number(json, "late", counts->late);
    json_number(json, "lost", counts->lost);
    if (counts->new + counts->lost != 0)
        json_percent(json, "lost_percent", percent(counts->lost, counts->new));
}

static void json_rows(struct json *json, const struct report *report)
{
    json_array(json, "rows");
    for (size_t i = 0; i < report->count; i++) {
        const struct kawsarpa_loss_row *row = &report->lines[i].row;
        const struct counts counts = row_counts(row);
        json_object(json, NULL);
        json_number(json, "teid", row->teid);
        json_number(json, "first", row->first);
        json_number(json, "highest", row->highest);
        json_counts(json, &counts);
        json_flag(json, "several_destinations", report->lines[i].several_destinations);
        json_close(json);
    }
    json_close(json);
}

static void json_totals(struct json *json, const struct report *report)
{
    const struct counts all = sum(report);
    json_object(json, "totals");
    json_number(json, "teids", report->count);
    json_counts(json, &all);
    json_close(json);
}

static void json_not_counted(struct json *json, const struct run *run)
{
    json_object(json, "not_counted");
    json_number(json, "packets", all_not_counted(run));
    json_array(json, "reasons");
    for (unsigned int number = 0; number <= UINT8_MAX; number++) {
        if (run->rows.not_counted[number] == 0)
            continue;
        json_object(json, NULL);
        if (number != SEQUENCE_NO_S)
            json_number(json, "number", number);
        json_text(json, "name", reason_name(number));
        json_text(json, "meaning", meaning(number));
        json_number(json, "packets", run->rows.not_counted[number]);
        json_close(json);
    }
    json_close(json);
    json_close(json);
}

static void json_report(const struct run *run, const struct report *report)
{
    struct json json;
    json_begin(&json, stdout, "loss");
    json_rows(&json, report);
    json_totals(&json, report);
    capture_json(&json, &run->reader);
    json_not_counted(&json, run);
    json_number(&json, "unreadable", unreadable(run));
    json_end(&json);
}

/* Options without a short name have numbers past those of characters. */
enum { OPTION_CSV = 256, OPTION_JSON };

static error_t parse(int key, char *value, struct argp_state *state)
{
    struct arguments *arguments = state->input;
    switch (key) {
    case OPTION_CSV:
        arguments->csv = true;
        return 0;
    case OPTION_JSON:
        arguments->json = true;
        return 0;
    case ARGP_KEY_ARG:
        if (arguments->in != NULL)
            argp_error(state, "one capture is enough: %s", value);
        arguments->in = value;
        return 0;
    case ARGP_KEY_NO_ARGS:
        argp_error(state, "a capture is needed");
        return 0;
    case ARGP_KEY_END:
        options_exclude(state, arguments->json, "--json", arguments->csv, "--csv");
        return 0;
    default:
        return ARGP_ERR_UNKNOWN;
    }
}

static const struct argp_option option_list[] = {
    {"csv", OPTION_CSV, NULL, 0, "print the rows as comma-separated values; what was not counted then goes to standard error", 0},
    {"json", OPTION_JSON, NULL, 0, json_option_words, 0},
    {NULL, 0, NULL, 0, NULL, 0},
};

static const char words[] =
    "Offers the sequence numbers of a capture's G-PDUs in its order, and prints for each TEID: the first and the highest number; the "
    "packets seen, which are new, repeated or late; the numbers lost, also in percent of new + lost. Under it stands what was not counted, "
    "and why. IN.pcap is a pcap or pcapng capture of Ethernet, Linux cooked or raw IP, or `-'. Frames that are not IP or are snapped are "
    "left out and counted; padding of the link is cut off. Of a capture that is cut at its end the packets before the cut are counted."
    "\vA row is for one TEID, whatever the addresses are. Receivers choose TEIDs, so a capture of both directions or of several stations "
    "will do as long as no two receivers use the same. TEIDs that are sent to more than one address are named; for these take one address "
    "alone, as with `tcpdump -r IN.pcap -w ONE.pcap dst host ADDRESS'.\n"
    "\n"
    "Exit codes: 0 printed, whatever was lost; 1 the capture is bad or cut; 2 wrong usage; 3 the system failed.";

static const struct argp argp = {option_list, parse, "IN.pcap", words, shared_options, NULL, NULL};

int command_loss(int argc, char **argv)
{
    struct arguments arguments = {.in = NULL};
    struct run run = {.rows = {.not_counted = {0}}};
    argp_parse(&argp, argc, argv, 0, NULL, &arguments);
    int code = capture_open(&run.reader, arguments.in);
    if (code != EXIT_DONE)
        return code;
    code = take_all(&run);
    capture_close(&run.reader);
    if (code != EXIT_DONE)
        return code;
    const struct report report = rows_report(&run.rows);
    if (arguments.json)
        json_report(&run, &report);
    else {
        (arguments.csv ? print_csv : print_table)(&report);
        say_account(arguments.csv ? stderr : stdout, &run, &report);
    }
    return capture_end_code(&run.reader);
}
