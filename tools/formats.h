/* Sizes in octets and numbers of the headers that the tool reads and writes: IPv4, IPv6 (RFC 8200), UDP, GTP-U (TS 29.281), ICMPv6 (RFC
   4443). */
#ifndef FORMATS_H
#define FORMATS_H

/* Without IPv4 options; of GTP-U the part that is always there, and what follows it where a flag is set. */
enum { IPV4_HEADER = 20, IPV6_HEADER = 40, UDP_HEADER = 8, GTPU_HEADER = 8, GTPU_OPTIONAL = 4 };

/* Where an address begins. */
enum { IPV4_DESTINATION = 16, IPV6_SOURCE = 8, IPV6_DESTINATION = 24 };

enum { NEXT_UDP = 17, NEXT_ICMPV6 = 58, GTPU_PORT = 2152 };

/* ICMPv6: where code and pointer stand, and types beside the two of the library; those of errors are below that of the Echo Request. */
enum { ICMPV6_CODE = 1, ICMPV6_POINTER = 4 };

enum { ICMPV6_UNREACHABLE = 1, ICMPV6_TOO_BIG = 2, ICMPV6_ECHO_REQUEST = 128, ICMPV6_ECHO_REPLY = 129, ICMPV6_REDIRECT = 137 };

/* Where the checksum stands. */
enum { IPV4_CHECKSUM = 10, UDP_CHECKSUM = 6 };

/* Flags of the first GTP-U octet: extensions follow, and the sequence number counts. */
enum { GTPU_E = 4, GTPU_S = 2 };

/* GTP-U message types, and the extension that holds the PDU Session container. */
enum { ECHO_REQUEST = 1, ECHO_RESPONSE = 2, ERROR_INDICATION = 26, END_MARKER = 254, G_PDU = 255 };

enum { EXTENSION_CONTAINER = 0x85 };

#endif
