/*
 * Whether an address lies under a prefix (order 4), at every length of a prefix: an address with its bits, the same with each one bit
 * changed, and with each two octets exchanged. Of one entry or rule the call answers "no match" exactly where a bit of the prefix differs,
 * which is told here bit by bit. Prints a line for each length.
 */
#include "checks.h"
#include "kawsarpa.h"
#include "packets.h"
#include "table.h"

#include <stdio.h>
#include <string.h>

struct one_entry {
    struct kawsarpa_table_header header;
    struct kawsarpa_entry entry;
};

struct one_rule {
    struct kawsarpa_table_header header;
    struct kawsarpa_rule rule;
};

/* An address of `width` octets of which no two are the same; `flip` makes of every bit the other. */
static void set_address(uint8_t *address, size_t width, uint8_t flip)
{
    size_t i;
    for (i = 0; i < width; i++)
        address[i] = (uint8_t)((0x35 + 29 * i) ^ flip);
}

static void change_bit(uint8_t *address, size_t bit)
{
    address[bit / 8] = (uint8_t)(address[bit / 8] ^ 0x80 >> bit % 8);
}

static int bit_of(const uint8_t *address, size_t bit)
{
    return address[bit / 8] >> (7 - bit % 8) & 1;
}

/* The prefix of an address: past its bits there are zeros. */
static void set_prefix(uint8_t *prefix, const uint8_t *address, size_t width, size_t bits)
{
    size_t i;
    memcpy(prefix, address, width);
    for (i = bits; i < 8 * width; i++)
        if (bit_of(prefix, i))
            change_bit(prefix, i);
}

static int lies_under(const uint8_t *address, const uint8_t *prefix, size_t bits)
{
    size_t i;
    for (i = 0; i < bits; i++)
        if (bit_of(address, i) != bit_of(prefix, i))
            return 0;
    return 1;
}

static int matches_ipv6(const uint8_t *table, size_t table_len, const uint8_t *address)
{
    uint8_t packet[sizeof nothing_for_d], out[64];
    memcpy(packet, nothing_for_d, sizeof packet);
    memcpy(packet + 24, address, 16);
    return kawsarpa_answer_number(kawsarpa_call_ipv6(packet, sizeof packet, table, table_len, out, sizeof out)) != KAWSARPA_ANSWER_NO_MATCH;
}

static int matches_ipv4(const uint8_t *table, size_t table_len, const uint8_t *address)
{
    uint8_t packet[sizeof to_d4], out[256];
    uint32_t sum = 0;
    size_t i;
    memcpy(packet, to_d4, sizeof packet);
    memcpy(packet + 16, address, 4);
    for (i = 0; i < 20; i += 2)
        if (i != 10)
            sum += (uint32_t)packet[i] << 8 | packet[i + 1];
    sum = (sum & 0xFFFF) + (sum >> 16);
    sum = 0xFFFF - ((sum & 0xFFFF) + (sum >> 16));
    packet[10] = (uint8_t)(sum >> 8);
    packet[11] = (uint8_t)(sum & 0xFF);
    return kawsarpa_answer_number(kawsarpa_call_ipv4(packet, sizeof packet, table, table_len, out, sizeof out)) != KAWSARPA_ANSWER_NO_MATCH;
}

typedef int matches(const uint8_t *table, size_t table_len, const uint8_t *address);

/* What is said of a sound table whose one record has the prefix of this address. */
static int told_rightly(matches *matched, const uint8_t *table, size_t table_len, const uint8_t *address, size_t width, size_t bits)
{
    uint8_t other[16];
    size_t i, j;
    int right = kawsarpa_call_table_fault(table, table_len) == 0 && matched(table, table_len, address);
    for (i = 0; i < 8 * width; i++) {
        memcpy(other, address, width);
        change_bit(other, i);
        right &= matched(table, table_len, other) == lies_under(other, address, bits);
    }
    for (i = 0; i < width; i++)
        for (j = 0; j < i; j++) {
            memcpy(other, address, width);
            other[i] = address[j];
            other[j] = address[i];
            right &= matched(table, table_len, other) == lies_under(other, address, bits);
        }
    return right;
}

static void check_ipv6(size_t bits, uint8_t flip)
{
    struct one_entry table;
    uint8_t address[16];
    char subject[32];
    memset(&table, 0, sizeof table);
    kawsarpa_table_header_set(&table.header, 1, 0, 0);
    table.entry = build().entries[WAYPOINT];
    table.entry.prefix_length = (uint8_t)bits;
    set_address(address, 16, flip);
    set_prefix(table.entry.prefix, address, 16, bits);
    sprintf(subject, "IPv6, /%u", (unsigned int)bits);
    check(told_rightly(matches_ipv6, (const uint8_t *)&table, sizeof table, address, 16, bits), subject, "what lies under it");
}

static void check_ipv4(size_t bits, uint8_t flip)
{
    struct one_rule table;
    uint8_t address[4];
    char subject[32];
    memset(&table, 0, sizeof table);
    kawsarpa_table_header_set(&table.header, 0, 1, 0);
    table.rule = build().rules[0];
    table.rule.prefix_length = (uint8_t)bits;
    set_address(address, 4, flip);
    set_prefix(table.rule.prefix, address, 4, bits);
    sprintf(subject, "IPv4, /%u", (unsigned int)bits);
    check(told_rightly(matches_ipv4, (const uint8_t *)&table, sizeof table, address, 4, bits), subject, "what lies under it");
}

int main(void)
{
    size_t bits;
    for (bits = 0; bits <= 128; bits++) {
        check_ipv6(bits, 0x00);
        check_ipv6(bits, 0xFF);
    }
    for (bits = 0; bits <= 32; bits++) {
        check_ipv4(bits, 0x00);
        check_ipv4(bits, 0xFF);
    }
    if (failures != 0) {
        printf("prefixes: %u of %u checks do not hold\n", failures, checks);
        return 1;
    }
    printf("prefixes: all %u checks hold\n", checks);
    return 0;
}
