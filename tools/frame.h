/* The IP packet in a captured frame. */
#ifndef FRAME_H
#define FRAME_H

#include <stdbool.h>
#include <stddef.h>
#include <stdint.h>

/* What may hold IP and is not looked into; FRAME_PLAIN is none of these. */
enum frame_wrapping {
    FRAME_PLAIN,
    FRAME_LLC_SNAP,
    FRAME_MPLS,
    FRAME_MPLS_MULTICAST,
    FRAME_PPPOE,
    FRAME_MACSEC,
    FRAME_BACKBONE,
    FRAME_VN_TAG,
    FRAME_NSH,
    FRAME_WRAPPINGS
};

struct frame {
    unsigned int version;  /* 4 or 6, as the link says, else by the first nibble; 0: no IP packet is in the frame */
    const uint8_t *packet; /* a part of the octets that were given */
    size_t length;
    size_t padding; /* octets behind the packet's own length, which are not part of it */
    enum frame_wrapping wrapping;
};

/* Whether frames of this link type (libpcap's DLT) can be read. */
bool frame_link_known(int link);

/* Its EtherType, or 0 where it has none, and its name: 0x8847, "MPLS". */
unsigned int frame_wrapping_ethertype(enum frame_wrapping wrapping);
const char *frame_wrapping_name(enum frame_wrapping wrapping);

struct frame frame_read(int link, const uint8_t *octets, size_t length);

#endif
