/* kawsarpa echo: GTP-U Echo Requests to a peer, and the Echo Responses with their times, as ping does it. */
#include <argp.h>
#include <errno.h>
#include <poll.h>
#include <signal.h>
#include <stdbool.h>
#include <stdint.h>
#include <stdio.h>
#include <stdlib.h>
#include <string.h>
#include <sys/socket.h>
#include <time.h>

#include "commands.h"
#include "echo_ledger.h"
#include "echo_message.h"
#include "echo_peer.h"
#include "echo_tell.h"
#include "file.h"
#include "formats.h"
#include "options.h"
#include "say.h"
#include "values.h"

/* Nanoseconds. */
#define SECOND INT64_C(1000000000)

/* A number comes again after 65,536 requests: by then the one before is awaited no longer. */
#define INTERVAL_LEAST (SECOND / 100)
#define INTERVAL_MOST (3600 * SECOND)
#define TIMEOUT_LEAST (SECOND / 100)
#define TIMEOUT_MOST (600 * SECOND)
_Static_assert(ECHO_NUMBERS *INTERVAL_LEAST > TIMEOUT_MOST, "a number that is awaited would be sent again");

struct arguments {
    struct echo_way way;
    unsigned int count; /* 0: until a signal ends it */
    unsigned int first;
    int64_t interval;
    int64_t timeout;
    bool json;
    bool quiet;
};

struct run {
    const struct arguments *arguments;
    struct echo_peer peer;
    struct echo_teller teller;
    struct echo_ledger ledger;
    int64_t next; /* when the next request is due */
};

static volatile sig_atomic_t interrupted;

static void interrupt(int number)
{
    (void)number;
    interrupted = 1;
}

/* These end the run with its summary. They wait but for the time of a poll. One that is ignored from the start stays so. */
static sigset_t watch_signals(void)
{
    static const int endings[] = {SIGINT, SIGTERM};
    const struct sigaction action = {.sa_handler = interrupt};
    sigset_t held;
    sigset_t before;
    sigemptyset(&held);
    for (size_t i = 0; i < sizeof endings / sizeof endings[0]; i++) {
        struct sigaction present;
        if (sigaction(endings[i], NULL, &present) == 0 && present.sa_handler == SIG_DFL)
            sigaction(endings[i], &action, NULL);
        sigaddset(&held, endings[i]);
    }
    sigprocmask(SIG_BLOCK, &held, &before);
    return before;
}

/* By a clock that nobody sets back. */
static int64_t now(void)
{
    struct timespec time = {0, 0};
    clock_gettime(CLOCK_MONOTONIC, &time);
    return time.tv_sec * SECOND + time.tv_nsec;
}

static bool take_errors(struct run *run)
{
    struct echo_error error;
    bool taken = false;
    while (echo_take_error(&run->peer, &error)) {
        if (error.has_number)
            ledger_fail(&run->ledger, error.sequence_number);
        tell_error(&run->teller, &error);
        taken = true;
    }
    return taken;
}

enum { DATAGRAMS_MOST = 64 };

static void take_datagram(struct run *run, const uint8_t *octets, size_t length)
{
    struct echo_response response;
    char fault[ECHO_FAULT_ROOM];
    int64_t took = 0;
    const int64_t arrived = now();
    if (!echo_response_read(octets, length, &response, fault)) {
        run->ledger.not_valid++;
        tell_not_valid(&run->teller, length, fault);
        return;
    }
    const enum echo_arrival arrival = ledger_take(&run->ledger, response.sequence_number, arrived, &took);
    if (arrival == ECHO_NOT_SENT) {
        snprintf(fault, sizeof fault, "sequence number %u was not sent", response.sequence_number);
        tell_not_valid(&run->teller, length, fault);
    } else {
        tell_response(&run->teller, arrival, &response, took);
    }
}

/* Not without end: requests are due meanwhile. */
static void take_datagrams(struct run *run)
{
    static uint8_t octets[UINT16_MAX];
    size_t length = 0;
    for (int i = 0; i < DATAGRAMS_MOST && echo_receive(&run->peer, octets, sizeof octets, &length); i++)
        take_datagram(run, octets, length);
}

static void send_request(struct run *run)
{
    uint8_t request[ECHO_REQUEST_OCTETS];
    const uint16_t number = ledger_add(&run->ledger, now());
    echo_request_make(request, number);
    bool sent = echo_send(&run->peer, request, sizeof request);
    struct echo_error error = {.reason = errno, .has_number = true, .sequence_number = number};
    if (!sent && take_errors(run)) { /* what failed was an earlier request */
        sent = echo_send(&run->peer, request, sizeof request);
        error.reason = errno;
    }
    if (!sent && ledger_fail(&run->ledger, number))
        tell_error(&run->teller, &error);
}

static void tell_lost(struct run *run)
{
    uint16_t number = 0;
    while (ledger_expire(&run->ledger, now(), &number))
        tell_no_response(&run->teller, number, run->ledger.timeout);
}

static bool all_sent(const struct run *run)
{
    return run->arguments->count != 0 && run->ledger.sent == run->arguments->count;
}

/* Sends what is due. The interval is never shorter than was asked for. */
static void send_due(struct run *run)
{
    const int64_t time = now();
    if (all_sent(run) || time < run->next)
        return;
    send_request(run);
    run->next = time + run->arguments->interval;
}

/* Waits until something arrives, a request is due or lost, or a signal comes; the exit code. */
static int wait_for_next(struct run *run, const sigset_t *mask)
{
    const int64_t lost = ledger_deadline(&run->ledger);
    const int64_t until = all_sent(run) || lost < run->next ? lost : run->next;
    const int64_t left = until > now() ? until - now() : 0;
    const struct timespec timeout = {left / SECOND, left % SECOND};
    struct pollfd ready = {.fd = run->peer.descriptor, .events = POLLIN};
    if (ppoll(&ready, 1, &timeout, mask) >= 0 || errno == EINTR)
        return EXIT_DONE;
    say_error("waiting: %s", strerror(errno));
    return EXIT_SYSTEM;
}

/* The exit code, not 0 where the system failed. */
static int exchange(struct run *run, const sigset_t *mask)
{
    int code = run->teller.code;
    run->next = now();
    while (code == EXIT_DONE && !interrupted) {
        take_errors(run);
        take_datagrams(run);
        tell_lost(run);
        send_due(run);
        code = run->teller.code;
        if (all_sent(run) && ledger_awaited(&run->ledger) == 0)
            break;
        if (code == EXIT_DONE)
            code = wait_for_next(run, mask);
    }
    return code;
}

static int echo(struct run *run, const struct arguments *arguments)
{
    int code = echo_open(&run->peer, &arguments->way);
    if (code != EXIT_DONE)
        return code;
    const sigset_t mask = watch_signals();
    run->arguments = arguments;
    run->teller = (struct echo_teller){
        .to = arguments->quiet ? output_nowhere() : stdout,
        .as_json = arguments->json,
        .peer = &run->peer,
    };
    ledger_begin(&run->ledger, (uint16_t)arguments->first, arguments->timeout);
    tell_begin(&run->teller, arguments->way.name);
    code = exchange(run, &mask);
    echo_close(&run->peer);
    if (code != EXIT_DONE) {
        tell_broken_off(&run->teller);
        return code;
    }
    tell_summary(&run->teller, &run->ledger);
    if (run->teller.code != EXIT_DONE)
        return run->teller.code;
    return run->ledger.received > 0 ? EXIT_DONE : EXIT_INPUT;
}

enum { SECONDS_ROOM = 15 };

/* Seconds in digits, with a point among them or none: no sign, no exponent. */
static int64_t read_seconds(struct argp_state *state, const char *what, const char *text, int64_t least, int64_t most)
{
    const size_t length = strlen(text);
    const bool digits = strspn(text, "0123456789.") == length && strpbrk(text, "0123456789") != NULL;
    const bool one_point = strchr(text, '.') == strrchr(text, '.');
    const double seconds = digits && one_point && length <= SECONDS_ROOM ? strtod(text, NULL) : -1;
    const int64_t nanoseconds = seconds * 1e9 < (double)most + 1 ? (int64_t)(seconds * 1e9 + 0.5) : -1;
    if (nanoseconds < least || nanoseconds > most)
        argp_error(state, "%s is %g to %g seconds, not %s", what, (double)least / 1e9, (double)most / 1e9, text);
    return nanoseconds;
}

static unsigned int read_number(struct argp_state *state, const char *what, const char *text, unsigned int least, unsigned int most)
{
    unsigned int number = 0;
    if (!number_read(text, &number) || number < least || number > most)
        argp_error(state, "%s is %u to %u, not %s", what, least, most, text);
    return number;
}

/* Options without a short name have numbers past those of characters. */
enum { OPTION_PORT = 256, OPTION_SOURCE_PORT, OPTION_FIRST, OPTION_JSON };

enum { COUNT_MOST = 999999999 };

static void set_family(struct argp_state *state, struct arguments *arguments, int family)
{
    const int before = arguments->way.family;
    options_exclude(state, before != AF_UNSPEC && before != family, "--ipv4", true, "--ipv6");
    arguments->way.family = family;
}

static void check_arguments(struct argp_state *state, const struct arguments *arguments)
{
    if (arguments->way.name == NULL)
        argp_error(state, "an address is needed");
    options_exclude(state, arguments->json, "--json", arguments->quiet, "--quiet");
}

static error_t parse(int key, char *value, struct argp_state *state)
{
    struct arguments *arguments = state->input;
    switch (key) {
    case '4':
        set_family(state, arguments, AF_INET);
        return 0;
    case '6':
        set_family(state, arguments, AF_INET6);
        return 0;
    case 'c':
        arguments->count = read_number(state, "a count", value, 1, COUNT_MOST);
        return 0;
    case 'i':
        arguments->interval = read_seconds(state, "an interval", value, INTERVAL_LEAST, INTERVAL_MOST);
        return 0;
    case 'W':
        arguments->timeout = read_seconds(state, "a timeout", value, TIMEOUT_LEAST, TIMEOUT_MOST);
        return 0;
    case 'I':
        arguments->way.source = value;
        return 0;
    case OPTION_PORT:
        arguments->way.port = read_number(state, "a port", value, 1, UINT16_MAX);
        return 0;
    case OPTION_SOURCE_PORT:
        arguments->way.source_port = read_number(state, "a port", value, 1, UINT16_MAX);
        return 0;
    case OPTION_FIRST:
        arguments->first = read_number(state, "a sequence number", value, 0, UINT16_MAX);
        return 0;
    case OPTION_JSON:
        arguments->json = true;
        return 0;
    case 'q':
        arguments->quiet = true;
        return 0;
    case ARGP_KEY_ARG:
        if (arguments->way.name != NULL)
            argp_error(state, "one address is enough: %s", value);
        arguments->way.name = value;
        return 0;
    case ARGP_KEY_END:
        check_arguments(state, arguments);
        return 0;
    default:
        return ARGP_ERR_UNKNOWN;
    }
}

static const struct argp_option option_list[] = {
    {"ipv4", '4', NULL, 0, "over IPv4 alone", 0},
    {"ipv6", '6', NULL, 0, "over IPv6 alone", 0},
    {"count", 'c', "NUMBER", 0, "end after so many Echo Requests, instead of with Ctrl-C", 0},
    {"interval", 'i', "SECONDS", 0, "time from one Echo Request to the next, 0.01 to 3600, instead of 1", 0},
    {"timeout", 'W', "SECONDS", 0, "an Echo Request is lost after so long, 0.01 to 600, instead of 1", 0},
    {"source", 'I', "ADDRESS", 0, "send from this address of the machine", 0},
    {"port", OPTION_PORT, "PORT", 0, "the port of the peer, instead of 2152", 0},
    {"source-port", OPTION_SOURCE_PORT, "PORT", 0, "send from this port, instead of any that is free", 0},
    {"first", OPTION_FIRST, "NUMBER", 0, "the first sequence number, 0 to 65535, instead of 1", 0},
    {"json", OPTION_JSON, NULL, 0, json_option_words, 0},
    {"quiet", 'q', NULL, 0, "print nothing but faults; the exit code says whether an Echo Response was received", 0},
    {NULL, 0, NULL, 0, NULL, 0},
};

static const char words[] =
    "Sends GTP-U Echo Requests to an address, as ping does, and prints each Echo Response with its time. ADDRESS is that of a base "
    "station, a UPF or a gateway, or its name. An Echo Request has S set, TEID 0, a sequence number of its own (behind 65535 comes 0), and "
    "no element. Ctrl-C ends the run; a summary follows."
    "\vOnly what comes from that address and port counts, and only a well-formed Echo Response with a number that was sent: other things "
    "are told with what is wrong. A response that comes after the timeout is told as late; its request stays lost. What ICMP says of a "
    "request, such as that the port is closed, is told in its place.\n"
    "\n"
    "The kernel writes the UDP checksum of what is sent, and drops a response with a wrong one, or over IPv6 with 0: nothing is told of "
    "such a response, and its request is lost.\n"
    "\n"
    "Exit codes: 0 at least one Echo Response was received in time; 1 none was; 2 wrong usage; 3 the system failed: the name is unknown, "
    "there is no route, the source cannot be had, or what is printed cannot be written.";

static const struct argp argp = {option_list, parse, "ADDRESS", words, shared_options, NULL, NULL};

int command_echo(int argc, char **argv)
{
    static struct run run; /* large, and zero at first */
    struct arguments arguments = {.way = {.family = AF_UNSPEC, .port = GTPU_PORT}, .first = 1, .interval = SECOND, .timeout = SECOND};
    argp_parse(&argp, argc, argv, 0, NULL, &arguments);
    return echo(&run, &arguments);
}
