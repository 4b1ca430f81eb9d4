/* Makes calls through the library. A line in: `ipv6|ipv4|waypoint|icmp packet-hex table-hex`; `icmp` is the ICMPv6 message about a packet.
   A line out: `number icmp_type icmp_code icmp_pointer out-hex`, where `-` is an empty output. A line in: `sequence-ipv6|sequence-ipv4
   packet-hex`. A line out: what the reader gives, in hexadecimal digits. Status 1: a line that is not one. */
#include "../c/hex.h"
#include "kawsarpa.h"

#include <stdio.h>
#include <stdlib.h>
#include <string.h>

enum { MOST = 1 << 17 };

static char line[5 * MOST];
static uint8_t packet[MOST], table[MOST], out[MOST];

/* 0 where the call is not one of the four. */
static int make_call(const char *call, size_t packet_len, size_t table_len, uint64_t *answer)
{
    if (strcmp(call, "ipv6") == 0)
        *answer = kawsarpa_call_ipv6(packet, packet_len, table, table_len, out, sizeof out);
    else if (strcmp(call, "ipv4") == 0)
        *answer = kawsarpa_call_ipv4(packet, packet_len, table, table_len, out, sizeof out);
    else if (strcmp(call, "waypoint") == 0)
        *answer = kawsarpa_call_waypoint(packet, packet_len, table, table_len, out, sizeof out);
    else if (strcmp(call, "icmp") == 0)
        *answer = kawsarpa_call_icmp_ipv6(packet, packet_len, table, table_len, out, sizeof out);
    else
        return 0;
    return 1;
}

static void print_answer(uint64_t answer)
{
    printf("%u %u %u %u ", (unsigned)kawsarpa_answer_number(answer), (unsigned)kawsarpa_answer_icmp_type(answer),
           (unsigned)kawsarpa_answer_icmp_code(answer), (unsigned)kawsarpa_answer_icmp_pointer(answer));
    for (size_t i = 0; i < kawsarpa_answer_length(answer); i++)
        printf("%02x", out[i]);
    puts(kawsarpa_answer_length(answer) == 0 ? "-" : "");
}

/* 0 where the reader is not one of the two. */
static int read_sequence(const char *reader, size_t packet_len, uint64_t *sequence)
{
    if (strcmp(reader, "sequence-ipv6") == 0)
        *sequence = kawsarpa_call_sequence_ipv6(packet, packet_len);
    else if (strcmp(reader, "sequence-ipv4") == 0)
        *sequence = kawsarpa_call_sequence_ipv4(packet, packet_len);
    else
        return 0;
    return 1;
}

int main(void)
{
    while (fgets(line, sizeof line, stdin) != NULL) {
        const char *call = strtok(line, " \n"), *packet_hex = strtok(NULL, " \n"), *table_hex = strtok(NULL, " \n");
        const long packet_len = packet_hex ? hex_octets(packet_hex, packet, sizeof packet) : -1;
        const long table_len = table_hex ? hex_octets(table_hex, table, sizeof table) : -1;
        uint64_t answer;
        if (packet_len >= 0 && table_hex == NULL && read_sequence(call, (size_t)packet_len, &answer)) {
            printf("%llx\n", (unsigned long long)answer);
        } else if (packet_len >= 0 && table_len >= 0 && make_call(call, (size_t)packet_len, (size_t)table_len, &answer)) {
            print_answer(answer);
        } else {
            fprintf(stderr, "call: not a line of a call, a packet and a table, nor of a reader and a packet\n");
            return 1;
        }
        fflush(stdout);
    }
    return 0;
}
