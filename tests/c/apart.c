/*
 * Overlapping buffers from C: kawsarpa_apart says which overlap, and the forms kawsarpa_call_... of a build without NDEBUG assert that
 * the output overlaps neither the packet nor the table; kawsarpa_burst_apart asks it of all that a burst is lent. Prints a line for each
 * check.
 */
#undef NDEBUG
#include "checks.h"
#include "kawsarpa.h"

#include <setjmp.h>
#include <signal.h>
#include <stdio.h>

static jmp_buf caught;

static void catch_abort(int number)
{
    signal(number, catch_abort);
    longjmp(caught, 1);
}

typedef uint64_t call_function(const uint8_t *, size_t, const uint8_t *, size_t, uint8_t *, size_t);

/* The table, the packet and the output lie in here. */
static uint8_t memory[256];

enum { LENGTH = 40 };

/* Whether a call ends in an assertion. */
static int aborts(call_function *call, size_t packet_at, size_t table_at, size_t out_at, size_t out_len)
{
    if (setjmp(caught) != 0)
        return 1;
    call(memory + packet_at, LENGTH, memory + table_at, LENGTH, memory + out_at, out_len);
    return 0;
}

static void check_call(call_function *call, const char *name)
{
    check(!aborts(call, 0, 100, 40, 60), name, "an output from the packet's end to the table's start is apart");
    check(!aborts(call, 100, 0, 40, 60), name, "an output from the table's end to the packet's start is apart");
    check(!aborts(call, 0, 0, 40, 60), name, "a packet may overlap the table");
    check(!aborts(call, 0, 100, 10, 0), name, "an output of 0 octets is apart");
    check(aborts(call, 0, 100, 39, 60), name, "the packet's last octet is asserted");
    check(aborts(call, 0, 100, 40, 61), name, "the table's first octet is asserted");
    check(aborts(call, 0, 100, 0, LENGTH), name, "an output that is the packet is asserted");
    check(aborts(call, 0, 100, 100, LENGTH), name, "an output that is the table is asserted");
    check(aborts(call, 50, 150, 40, 60), name, "an output around the packet is asserted");
    check(aborts(call, 0, 100, 110, 1), name, "an output within the table is asserted");
}

/* A burst of one packet. */
static uint64_t burst_ipv6(const uint8_t *packet, size_t packet_len, const uint8_t *table, size_t table_len, uint8_t *out, size_t out_len)
{
    const uint32_t length = (uint32_t)packet_len;
    uint64_t answer;
    return kawsarpa_call_burst_ipv6(packet, packet_len, &length, 1, table, table_len, out, out_len, &answer, 1);
}

static uint64_t burst_ipv4(const uint8_t *packet, size_t packet_len, const uint8_t *table, size_t table_len, uint8_t *out, size_t out_len)
{
    const uint32_t length = (uint32_t)packet_len;
    uint64_t answer;
    return kawsarpa_call_burst_ipv4(packet, packet_len, &length, 1, table, table_len, out, out_len, &answer, 1);
}

/* What a burst is lent, 16 octets of each. */
static union {
    uint8_t octets[128];
    uint32_t lengths[32];
    uint64_t answers[16];
} space;

/* Whether it lies apart from these octets on; lengths and answers are aligned. */
static int burst_apart(size_t packets, size_t table, size_t lengths, size_t out, size_t answers)
{
    return kawsarpa_burst_apart(space.octets + packets, 16, space.lengths + lengths / 4, 4, space.octets + table, 16, space.octets + out,
                                16, space.answers + answers / 8, 2);
}

static void check_burst_apart(void)
{
    check(burst_apart(0, 16, 32, 48, 64), "burst", "one behind the other is apart");
    check(burst_apart(64, 48, 32, 16, 0), "burst", "and so in the other order");
    check(burst_apart(0, 0, 0, 16, 32), "burst", "packets, table and lengths may overlap");
    check(!burst_apart(0, 32, 48, 15, 64), "burst", "an output over the packets");
    check(!burst_apart(32, 0, 48, 15, 64), "burst", "an output over the table");
    check(!burst_apart(32, 48, 0, 15, 64), "burst", "an output over the lengths");
    check(!burst_apart(32, 48, 64, 15, 0), "burst", "an output over the answers");
    check(!burst_apart(9, 32, 48, 64, 0), "burst", "answers over the packets");
    check(!burst_apart(32, 9, 48, 64, 0), "burst", "answers over the table");
    check(!burst_apart(32, 48, 12, 64, 0), "burst", "answers over the lengths");
}

static void check_apart(void)
{
    uint8_t *const end = memory + sizeof memory;
    check(kawsarpa_apart(memory, 10, memory + 10, 5) && kawsarpa_apart(memory + 10, 5, memory, 10), "kawsarpa_apart",
          "1 for neighbours, either way");
    check(!kawsarpa_apart(memory, 11, memory + 10, 5) && !kawsarpa_apart(memory + 10, 5, memory, 11), "kawsarpa_apart",
          "0 for one octet in common, either way");
    check(!kawsarpa_apart(memory, 1, memory, 1) && !kawsarpa_apart(memory, 20, memory + 5, 2) && !kawsarpa_apart(memory + 5, 2, memory, 20),
          "kawsarpa_apart", "0 for the same octet, and for one within the other");
    check(kawsarpa_apart(memory, 0, memory, 20) && kawsarpa_apart(memory + 5, 0, memory, 20) && kawsarpa_apart(NULL, 0, NULL, 0) &&
              kawsarpa_apart(NULL, 0, end, 0),
          "kawsarpa_apart", "1 where a count is 0");
    check(!kawsarpa_apart(memory + 1, SIZE_MAX, end - 1, 1), "kawsarpa_apart", "0 for a count that would pass the end of memory");
}

int main(void)
{
    signal(SIGABRT, catch_abort);
    check_apart();
    check_call(kawsarpa_call_ipv6, "call_ipv6");
    check_call(kawsarpa_call_ipv4, "call_ipv4");
    check_call(kawsarpa_call_waypoint, "call_waypoint");
    check_call(kawsarpa_call_icmp_ipv6, "call_icmp_ipv6");
    check_burst_apart();
    check_call(burst_ipv6, "call_burst_ipv6");
    check_call(burst_ipv4, "call_burst_ipv4");
    if (failures != 0) {
        printf("apart: %u of %u checks do not hold\n", failures, checks);
        return 1;
    }
    printf("apart: all %u checks hold\n", checks);
    return 0;
}
