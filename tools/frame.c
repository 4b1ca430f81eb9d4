#include "frame.h"

#include <pcap/pcap.h>
#include <string.h>

#include "formats.h"
#include "octets.h"

enum {
    ETHERTYPE_IPV4 = 0x0800,
    ETHERTYPE_IPV6 = 0x86DD,
    ETHERTYPE_VLAN = 0x8100,        /* 802.1Q */
    ETHERTYPE_PROVIDER = 0x88A8,    /* 802.1ad: the outer tag of QinQ */
    ETHERTYPE_OLD_PROVIDER = 0x9100 /* the same before 802.1ad */
};

/* A number below this is no EtherType but the length of an 802.3 frame, or in Linux cooked the kernel's number for one. */
enum { ETHERTYPE_LEAST = 0x0600 };

/* The EtherTypes of what may hold IP (IEEE 802 Numbers, IANA). LLC/SNAP has none of its own. */
static const struct {
    unsigned int ethertype;
    const char *name;
} wrappings[FRAME_WRAPPINGS] = {
    [FRAME_PLAIN] = {0, ""},
    [FRAME_LLC_SNAP] = {0, "LLC/SNAP"},
    [FRAME_MPLS] = {0x8847, "MPLS"},
    [FRAME_MPLS_MULTICAST] = {0x8848, "MPLS multicast"},
    [FRAME_PPPOE] = {0x8864, "PPPoE session"},
    [FRAME_MACSEC] = {0x88E5, "MACsec"},
    [FRAME_BACKBONE] = {0x88E7, "provider backbone bridge"},
    [FRAME_VN_TAG] = {0x8926, "VN-Tag"},
    [FRAME_NSH] = {0x894F, "NSH"},
};

/* DLT_RAW has another number on OpenBSD, and its captures bear it. */
enum { DLT_RAW_OPENBSD = 14 };

enum { TAG = 4 };

/* Where a link type holds the type of what it carries, and where that begins. */
struct link {
    int type;
    size_t ethertype_at;
    size_t header;
};

static const struct link links[] = {
    {DLT_EN10MB, 12, 14},
    {DLT_LINUX_SLL, 14, 16},
    {DLT_LINUX_SLL2, 0, 20},
};

static const struct link *find_link(int type)
{
    for (size_t i = 0; i < sizeof links / sizeof links[0]; i++)
        if (links[i].type == type)
            return &links[i];
    return NULL;
}

static bool is_raw(int type)
{
    return type == DLT_RAW || type == DLT_RAW_OPENBSD || type == DLT_IPV4 || type == DLT_IPV6;
}

bool frame_link_known(int link)
{
    return find_link(link) != NULL || is_raw(link);
}

static bool is_tag(unsigned int ethertype)
{
    return ethertype == ETHERTYPE_VLAN || ethertype == ETHERTYPE_PROVIDER || ethertype == ETHERTYPE_OLD_PROVIDER;
}

/*
 * The length that the IP header says, or the whole length where the header is cut or says no length: IPv4's is less than the header, IPv6's
 * payload length is 0, as offload leaves them. Such a packet is for the library to refuse, with what stands behind the header.
 */
static size_t own_length(const struct frame *frame)
{
    const size_t header = frame->version == 4 ? IPV4_HEADER : IPV6_HEADER;
    if (frame->length < header)
        return frame->length;
    const size_t own = frame->version == 4 ? get16(frame->packet + 2) : IPV6_HEADER + (size_t)get16(frame->packet + 4);
    const bool none = frame->version == 4 ? own < header : own == header;
    return none || own > frame->length ? frame->length : own;
}

/* A link may pad short frames, and some captures hold the frame check sequence. */
static void cut_padding(struct frame *frame)
{
    const size_t own = own_length(frame);
    frame->padding = frame->length - own;
    frame->length = own;
}

static bool is_ip(unsigned int ethertype)
{
    return ethertype == ETHERTYPE_IPV4 || ethertype == ETHERTYPE_IPV6;
}

/* DSAP and SSAP 0xAA, control 3, OUI 0, and behind them an EtherType (RFC 1042). */
static bool is_snap_ip(const uint8_t *octets, size_t length)
{
    static const uint8_t snap[] = {0xAA, 0xAA, 3, 0, 0, 0};
    return length >= sizeof snap + 2 && memcmp(octets, snap, sizeof snap) == 0 && is_ip(get16(octets + sizeof snap));
}

static enum frame_wrapping find_wrapping(unsigned int ethertype, const uint8_t *octets, size_t length)
{
    if (ethertype < ETHERTYPE_LEAST)
        return is_snap_ip(octets, length) ? FRAME_LLC_SNAP : FRAME_PLAIN;
    for (unsigned int i = 0; i < FRAME_WRAPPINGS; i++)
        if (wrappings[i].ethertype == ethertype)
            return i;
    return FRAME_PLAIN;
}

unsigned int frame_wrapping_ethertype(enum frame_wrapping wrapping)
{
    return wrappings[wrapping].ethertype;
}

const char *frame_wrapping_name(enum frame_wrapping wrapping)
{
    return wrappings[wrapping].name;
}

static struct frame read_link(const struct link *link, const uint8_t *octets, size_t length)
{
    struct frame frame = {.packet = octets};
    if (length < link->header)
        return frame;
    unsigned int ethertype = get16(octets + link->ethertype_at);
    size_t at = link->header;
    while (is_tag(ethertype) && length - at >= TAG) {
        ethertype = get16(octets + at + 2);
        at += TAG;
    }
    if (!is_ip(ethertype)) {
        frame.wrapping = find_wrapping(ethertype, octets + at, length - at);
        return frame;
    }
    frame.version = ethertype == ETHERTYPE_IPV4 ? 4 : 6;
    frame.packet = octets + at;
    frame.length = length - at;
    cut_padding(&frame);
    return frame;
}

/* There is no link here that could pad: octets behind the packet's own length are the packet's fault, and the library's to judge. */
static struct frame read_raw(int type, const uint8_t *octets, size_t length)
{
    struct frame frame = {.packet = octets, .length = length};
    if (type == DLT_IPV4)
        frame.version = 4;
    else if (type == DLT_IPV6)
        frame.version = 6;
    else if (length > 0 && (octets[0] >> 4 == 4 || octets[0] >> 4 == 6))
        frame.version = octets[0] >> 4;
    return frame;
}

struct frame frame_read(int link, const uint8_t *octets, size_t length)
{
    const struct link *found = find_link(link);
    return found != NULL ? read_link(found, octets, length) : read_raw(link, octets, length);
}
