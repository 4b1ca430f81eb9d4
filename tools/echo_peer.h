/* A UDP socket to whoever is to answer Echo Requests. It is connected, so that nothing arrives but what the peer sent from that address and
   port, and ICMP errors about what was sent there. */
#ifndef ECHO_PEER_H
#define ECHO_PEER_H

#include <stdbool.h>
#include <stddef.h>
#include <stdint.h>

/* Room for an address of either version with its zone. */
enum { ECHO_ADDRESS_ROOM = 64 };

struct echo_way {
    int family;       /* AF_INET, AF_INET6, or AF_UNSPEC for either */
    const char *name; /* of the peer, or its address */
    unsigned int port;
    const char *source;       /* an address of this machine; NULL: any */
    unsigned int source_port; /* 0: any that is free */
};

struct echo_end {
    char address[ECHO_ADDRESS_ROOM];
    unsigned int port;
};

struct echo_peer {
    int descriptor;
    struct echo_end to;
    struct echo_end from;
};

/* 0, or the exit code after the fault was reported. */
int echo_open(struct echo_peer *peer, const struct echo_way *way);

void echo_close(struct echo_peer *peer);

/* What ICMP, or the system, says of a request. */
struct echo_error {
    int reason; /* as errno says it */
    bool has_number;
    uint16_t sequence_number; /* of the request */
    const char *icmp;         /* "ICMP" or "ICMPv6"; NULL: it is the system's own */
    unsigned int type;
    unsigned int code;
    char from[ECHO_ADDRESS_ROOM]; /* whoever sent the ICMP message */
};

/* False: none is waiting. */
bool echo_take_error(const struct echo_peer *peer, struct echo_error *error);

/* Sends the octets of a datagram. False: errno says why; it may be an error that waits. */
bool echo_send(const struct echo_peer *peer, const uint8_t *octets, size_t length);

/* The next datagram of the peer. False: none is waiting, or an error is. */
bool echo_receive(const struct echo_peer *peer, uint8_t *octets, size_t room, size_t *length);

#endif
