#include "words.h"

#include <stdbool.h>
#include <string.h>

#include "formats.h"
#include "kawsarpa.h"

const struct word behaviours[] = {
    {KAWSARPA_BEHAVIOUR_END, "End"},
    {KAWSARPA_BEHAVIOUR_END_M_GTP6_D, "End.M.GTP6.D"},
    {KAWSARPA_BEHAVIOUR_END_M_GTP6_D_DI, "End.M.GTP6.D.Di"},
    {KAWSARPA_BEHAVIOUR_END_M_GTP6_E, "End.M.GTP6.E"},
    {KAWSARPA_BEHAVIOUR_END_M_GTP4_E, "End.M.GTP4.E"},
    {0, NULL},
};

const struct word directions[] = {
    {KAWSARPA_DIRECTION_DOWNLINK, "downlink"},
    {KAWSARPA_DIRECTION_UPLINK, "uplink"},
    {0, NULL},
};

const struct word session_types[] = {
    {KAWSARPA_SESSION_IPV4, "IPv4"},
    {KAWSARPA_SESSION_IPV6, "IPv6"},
    {KAWSARPA_SESSION_IPV4V6, "IPv4v6"},
    {KAWSARPA_SESSION_ETHERNET, "Ethernet"},
    {0, NULL},
};

const struct word zero_checksums[] = {
    {KAWSARPA_ZERO_CHECKSUM_REFUSE, "refuse"},
    {KAWSARPA_ZERO_CHECKSUM_ALLOW, "allow"},
    {0, NULL},
};

const struct word messages[] = {
    {G_PDU, "G-PDU"},
    {END_MARKER, "End Marker"},
    {ERROR_INDICATION, "Error Indication"},
    {ECHO_REQUEST, "Echo Request"},
    {ECHO_RESPONSE, "Echo Response"},
    {0, NULL},
};

const struct word icmp_types[] = {
    {ICMPV6_UNREACHABLE, "Destination Unreachable"},
    {ICMPV6_TOO_BIG, "Packet Too Big"},
    {KAWSARPA_ICMP_TIME_EXCEEDED, "Time Exceeded"},
    {KAWSARPA_ICMP_PARAMETER_PROBLEM, "Parameter Problem"},
    {ICMPV6_ECHO_REQUEST, "Echo Request"},
    {ICMPV6_ECHO_REPLY, "Echo Reply"},
    {ICMPV6_REDIRECT, "Redirect"},
    {0, NULL},
};

const struct word *word_numbered(const struct word *words, unsigned int number)
{
    for (; words->name != NULL; words++)
        if (words->number == number)
            return words;
    return NULL;
}

const struct word *word_named(const struct word *words, const char *name)
{
    for (; words->name != NULL; words++)
        if (strcmp(words->name, name) == 0)
            return words;
    return NULL;
}

const char *word_name(const struct word *words, unsigned int number)
{
    const struct word *word = word_numbered(words, number);
    return word == NULL ? NULL : word->name;
}

const char echo_answered_words[] = "Echo Request answered";

/* By answer number. The first words are those of the table of answers; D4 is H.M.GTP4.D, what an IPv4 rule does. */
/* clang-format off */
static const struct answer_words answers[] = {
    {"No other number applies: the packet was translated, or passed on at a waypoint; or it is an Echo Request, and was answered.",
     NULL,
     "Nothing is wrong here.",
     "If the packet is missing further on, look at the next stop: `kawsarpa trip' follows a packet over several tables."},
    {"The table is not sound.",
     NULL,
     "The table was cut short on its way to the box, made by a program other than `kawsarpa compile', or is of another format. "
     "Every packet is refused so, until the table is replaced.",
     "Run `kawsarpa check TABLE' on the very file that the box has loaded; it names the record and the condition."},
    {"The packet is shorter than an IPv6 header (40 octets; IPv4: 20), has the wrong IP version for the call, or its length field "
     "disagrees with the octets that were handed over.",
     NULL,
     "The forwarder hands over link-layer padding or a trailer behind a short packet, cuts a packet short, leaves the Ethernet header "
     "in front, or makes the IPv4 call for an IPv6 packet.",
     "Capture at the box's port and compare the length field with the octets in the frame; padding must go before the call."},
    {"IPv4: the header length is not 5 (options), the header checksum is wrong, or the packet is a fragment.",
     NULL,
     "Fragments: the path between base station and gateway has too small an MTU for GTP-U, or the base station does not set DF. "
     "Wrong checksum in a capture taken on the sending host: checksum offload, harmless there.",
     "Look for fragments (MF set or an offset) in the capture. `kawsarpa check TABLE' prints the MTU that the path needs."},
    {"No entry (IPv6) or rule (IPv4) of the table matches the destination address.",
     NULL,
     "The table lacks a prefix, or the prefix is longer than meant; the packet was routed to the wrong box; or an old table is loaded.",
     "Compare the packet's destination with the prefixes that `kawsarpa show TABLE' prints."},
    {"The header chain: next header 0, 44 or 60 in it, a second routing header, a routing type other than 4, an SRH cut short, or no SRH "
     "at an End.M.GTP6.E entry.",
     NULL,
     "IPv6 fragments (44), hop-by-hop or destination options (0, 60) set by a host or by a router on the way; at End.M.GTP6.E a "
     "sender that leaves the SRH out, which End.M.GTP6.D.Di of this library never does.",
     "Read the next headers in a capture. For 44, raise the MTU of the path; without SRH, look at the table of the sending gateway."},
    {"At a waypoint with segments left, the hop limit arrived as 0 or 1.",
     "Time Exceeded (3) code 0",
     "A routing loop, or the hop limit of the near entry or rule is too small for the path.",
     "Trace the route to the next segment; compare the hop limit in `kawsarpa show TABLE' of the near gateway with the hops on the way."},
    {"Segments Left: not 0 at End.M.GTP6.D, End.M.GTP6.D.Di or End.M.GTP4.E, not 1 at End.M.GTP6.E; or, at End.M.GTP6.E and at a waypoint "
     "with segments left, Last Entry is beyond the segments held; or, at that waypoint, Segments Left is above Last Entry + 1.",
     "Parameter Problem (4) code 0, pointer 43",
     "The packet skipped a waypoint or came too early to its gateway: a prefix is too wide and catches another segment's address. "
     "At End.M.GTP6.E with 0: the sender used End.M.GTP6.D where End.M.GTP6.D.Di is needed.",
     "Read Segments Left and the segment list in a capture; look for an entry of `kawsarpa show TABLE' whose prefix covers two segments."},
    {"The upper layer: at End.M.GTP6.D and End.M.GTP6.D.Di not UDP to port 2152; at End.M.GTP6.E and End.M.GTP4.E a next header that is "
     "not the session type's; at a waypoint Segments Left 0 or no SRH; at an IPv4 rule not UDP to port 2152.",
     "Parameter Problem (4) code 4, pointer at the upper-layer header; none for IPv4",
     "At a gateway: ICMP, pings or routing protocols sent to the SID; near and far tables with different session types. At a waypoint: "
     "the waypoint was made the last segment of a path.",
     "Read the next header in a capture: 17 is UDP, 4, 41 and 143 are IPv4, IPv6 and Ethernet sessions. Compare the session types of the "
     "near and the far table."},
    {"The UDP header has fewer than 8 octets, or the UDP length disagrees with the packet.",
     NULL,
     "The packet was cut short, or something stands behind the UDP datagram.",
     "Compare the UDP length with the length of the IP payload in a capture."},
    {"The GTP-U header is cut short, is not version 1 or not PT 1, or its length disagrees with the datagram.",
     NULL,
     "Something that is not GTP-U is sent to port 2152, GTP' (PT 0) is used, or the packet was cut short.",
     "Read the first GTP-U octet in a capture: it is 3x. Compare the length field with the octets behind the first 8."},
    {"The GTP-U message is neither a G-PDU (type 255) nor an Echo Request (1), which is answered.",
     NULL,
     "Error Indications (26), End Markers (254), or Echo Responses (2) to a request of someone else. They carry no user packet and are not "
     "translated.",
     "A few are normal, more at handovers. Many Error Indications: a peer does not know the TEID, as after a restart."},
    {"A GTP-U extension header of a type other than 0x85, a second PDU Session container, or a unit count that is 0 or passes the end.",
     NULL,
     "The base station or UPF adds extension headers, such as PDCP PDU Number or RAN Container, that the gateway does not carry.",
     "Read the extension types in a capture, and switch the feature that adds them off."},
    {"The packet has no PDU Session container, or its direction is not that of the entry or rule.",
     NULL,
     "A 4G (LTE) peer, which sends no container; or the direction in the table is the wrong way round.",
     "Read the container's PDU type in a capture: 0 is downlink, 1 is uplink. Compare with the direction in `kawsarpa show TABLE'."},
    {"The session type is IPv4v6 and the inner packet is empty, or is neither IPv4 nor IPv6.",
     NULL,
     "The session is an Ethernet session, or unstructured, and the table says IPv4v6.",
     "Read the first octet behind the GTP-U headers: 4x is IPv4, 6x is IPv6. Compare the session type with that of the session."},
    {"A length field of the packet to send would pass 65,535.",
     NULL,
     "An inner packet near the largest possible. No link carries such a packet; it comes from a test, or from segmentation offload.",
     "Switch receive offload (GRO, LRO) off where the packets enter the box."},
    {"The output buffer is shorter than the packet to send.",
     NULL,
     "The program that calls the library lends too small a buffer: what is sent has up to 132 octets more than what arrived.",
     "Report it to whoever writes that program. `kawsarpa check TABLE' prints how much each entry adds."},
    {"An Echo Request (type 1) without S or with a TEID other than 0; in the place of 11 for that type.",
     NULL,
     "A base station, UPF or test program whose Echo Requests are not those of TS 29.281, which has S set and TEID 0. It gets no Echo "
     "Response, and takes the path for dead.",
     "Read the first GTP-U octet (32, S set) and the TEID in a capture. `kawsarpa echo ADDRESS' sends right ones; compare."},
    {"At End.M.GTP6.D and End.M.GTP6.D.Di the UDP checksum is wrong, or it is 0 and the entry does not allow that; in the place between 9 "
     "and 10. Over IPv4 it is not examined.",
     NULL,
     "In a capture that was taken on the sending host: checksum offload, harmless there. 0: a peer that computes no checksum, which IPv6 "
     "allows only to tunnels that are set up for it (RFC 6935). Else the packet was damaged on the way, or changed by a box that did not "
     "mend the checksum, such as an address translator.",
     "`kawsarpa translate' counts these apart, and its trace has both checksums. Capture on the wire or at the receiver, or after "
     "`ethtool -K DEVICE tx off' on the sender. For 0, have the peer write checksums, or set `zero-checksum: allow' in the entry."},
    [KAWSARPA_ANSWER_BAD_BURST] =
    {"A burst, so a call for several packets: more than 32 lengths, lengths that do not add up to the octets that were handed over, or "
     "fewer places for answers than lengths.",
     NULL,
     "A fault of the program that calls the library, and not of a packet or of the table. No packet of the burst was looked at, none was "
     "sent, and none has an answer of its own.",
     "Report it to whoever writes that program: it has to hand over at most 32 packets, one after the other, with the length of each."},
    [KAWSARPA_ANSWER_NO_ROW] =
    {"An offer of a sequence number: the TEID has no row, and no row is free. There are 256 at most.",
     NULL,
     "More sessions than rows, or rows of sessions that ended long ago. The packet itself is translated all the same.",
     "With `kawsarpa loss', filter the capture by address. A program that calls the library zeroes the rows that it has read."},
    [KAWSARPA_ANSWER_ROW_FULL] =
    {"An offer of a sequence number: the row of its TEID has seen 4,294,967,295 packets.",
     NULL,
     "The row was not reset in time: at a million packets a second it is full after 71 minutes. The packet itself is translated all the "
     "same.",
     "Report it to whoever writes the program that calls the library: it has to read and zero the row within that time."},
};
/* clang-format on */

const struct answer_words *answer_words(unsigned long number)
{
    const bool known = number < sizeof answers / sizeof answers[0] && answers[number].given_when != NULL;
    return known ? &answers[number] : NULL;
}

/* By record and condition; conditions count from 1. */
static const struct fault_words header_faults[] = {
    {"the format is not 1", "The file is no table, or one for another version of the library: compile the description again.", NULL},
    {"more than 64 entries", "Divide the entries over several boxes.", NULL},
    {"more than 16 rules", "Join rules with neighbouring prefixes, or divide them over several boxes.", NULL},
    {"more than 16 policies", "Let entries share policies: one policy serves any number of entries.", NULL},
    {"the length is not that of the records that are counted",
     "The file was cut short, or something stands behind the table: copy it again.", NULL},
};

static const struct fault_words entry_faults[] = {
    {"the behaviour is unknown", "Use End, End.M.GTP6.D, End.M.GTP6.D.Di, End.M.GTP6.E or End.M.GTP4.E.", NULL},
    {"the prefix length is over 128", "An IPv6 prefix has 0 to 128 bits.", NULL},
    {"bits past the prefix length are not 0", "Clear the bits past the length, or make the prefix longer.", "prefix"},
    {"the hop limit is not 1 to 255", "A packet with hop limit 0 goes nowhere; 64 is usual.", NULL},
    {"the direction is unknown", "Use downlink or uplink.", NULL},
    {"the session type is unknown", "Use IPv4, IPv6, IPv4v6 or Ethernet; unstructured sessions are not carried.", NULL},
    {"the policy does not exist", "Name a policy of the same table.", NULL},
    {"Args do not start at an octet from 0 to 11", "Args take 5 octets of 16: they start at octet 11 at the latest.", NULL},
    {"the prefix reaches into Args", "Shorten the prefix to 8 bits for each octet before Args, or let Args start later.", "prefix"},
    {"p is over 7", "p octets, an IPv4 address and Args make an address: p is 7 at the most.", NULL},
    {"q is over 12", "q octets and an IPv4 address make an address: q is 12 at the most.", NULL},
    {"the prefix has more than 8p bits", "The IPv4 destination stands behind p octets: shorten the prefix, or raise p at both ends.",
     "prefix"},
    {"the reserved octet is not 0",
     "The table was made for another version of the library, or was damaged: compile it again. Only End.M.GTP6.D and End.M.GTP6.D.Di use "
     "this octet: in them it says whether UDP checksum 0 is allowed.",
     NULL},
    {"an earlier entry has the same prefix and length", "Remove one of the two: the longest match has to be one entry.", "prefix"},
    {"the mark for UDP checksum 0 is neither 0 nor 1",
     "0 refuses such packets, 1 allows them. The table was made by another program, for another version of the library, or was damaged: "
     "compile it again.",
     NULL},
};

static const struct fault_words rule_faults[] = {
    {"the prefix length is over 32", "An IPv4 prefix has 0 to 32 bits.", NULL},
    {"bits past the prefix length are not 0", "Clear the bits past the length, or make the prefix longer.", "prefix"},
    {"the hop limit is not 1 to 255", "A packet with hop limit 0 goes nowhere; 64 is usual.", NULL},
    {"the direction is unknown", "Use downlink or uplink.", NULL},
    {"the session type is unknown", "Use IPv4, IPv6, IPv4v6 or Ethernet; unstructured sessions are not carried.", NULL},
    {"p is over 7", "p octets, an IPv4 address and Args make a SID: p is 7 at the most.", NULL},
    {"q is over 12", "q octets and an IPv4 address make a source address: q is 12 at the most.", NULL},
    {"bits past 8p of the SID prefix are not 0", "Clear the bits past the first p octets, or raise p at both ends.", "sid-prefix"},
    {"bits past 8q of the source prefix are not 0", "Clear the bits past the first q octets, or raise q at both ends.", "source-prefix"},
    {"more than 7 waypoints", "Leave waypoints out: a rule passes 7 at the most.", NULL},
    {"the reserved octet is not 0", "The table was made for another version of the library, or was damaged: compile it again.", NULL},
    {"an earlier rule has the same prefix and length", "Remove one of the two: the longest match has to be one rule.", "prefix"},
};

static const struct fault_words policy_faults[] = {
    {"not 1 to 8 SIDs", "A policy has a last SID and up to 7 waypoints before it.", NULL},
    {"Args do not start at an octet from 0 to 11", "Args take 5 octets of 16: they start at octet 11 at the latest.", NULL},
    {"the reserved octet is not 0", "The table was made for another version of the library, or was damaged: compile it again.", NULL},
};

/* By condition. */
/* clang-format off */
static const struct mismatch_words mismatches[] = {
    [KAWSARPA_MISMATCH_NEAR_UNSOUND] =
    {"The near table breaks a condition of its own, so that the near gateway refuses every packet with 1.",
     "Run `kawsarpa check TABLE' on it; it names the record and the condition."},
    [KAWSARPA_MISMATCH_FAR_UNSOUND] =
    {"The far table breaks a condition of its own, so that the far gateway refuses every packet with 1.",
     "Run `kawsarpa check TABLE' on it; it names the record and the condition."},
    [KAWSARPA_MISMATCH_NO_RECORD] =
    {"The near table has no entry, or over IPv4 no rule, of the index that was asked for. Indices count from 0.",
     "Only a program that calls the library can see this: it asks past the counts in the table's header."},
    [KAWSARPA_MISMATCH_NOT_DI] =
    {"The near entry that was asked for is not End.M.GTP6.D.Di, and no other behaviour has its far end in an End.M.GTP6.E entry.",
     "Only a program that calls the library can see this. If the entry was meant to be End.M.GTP6.D.Di, mend `behaviour' in the near "
     "table."},
    [KAWSARPA_MISMATCH_NO_ENTRY] =
    {"No prefix of the far table covers the SIDs that the near record sends, whatever a packet brings: the far gateway refuses its packets "
     "with 4.",
     "Compare `last-sid' of the near policy, or `sid-prefix' of the near rule, with the prefixes of the far table. Or that is the table of "
     "another box."},
    [KAWSARPA_MISMATCH_KIND] =
    {"The longest prefix of the far table that some of the near record's SIDs come under is not End.M.GTP6.E's, after a rule not "
     "End.M.GTP4.E's: such packets are refused, or sent on as something else. It may be so for some TEIDs alone.",
     "Look at that far entry. If its prefix is short, the right entry is missing; if it is longer than the right entry's, it lies among "
     "the SIDs of that one, and has to go elsewhere."},
    [KAWSARPA_MISMATCH_DIRECTION] =
    {"The near gateway takes packets of one direction, and the far gateway sends them on as packets of the other.",
     "Set `direction' at both ends to that of the packets: downlink from UPF to radio, uplink from radio to UPF."},
    [KAWSARPA_MISMATCH_SESSION] =
    {"The far gateway expects another kind of inner packet than the near one sends, and refuses with 8 what does not suit it.",
     "Set `session-type' at both ends to that of the sessions."},
    [KAWSARPA_MISMATCH_START] =
    {"The far gateway reads Args where the near one did not write them. Nothing is refused; packets leave with another TEID, QFI and R.",
     "Set `args-octet' of the near policy and of the far entry to the same octet."},
    [KAWSARPA_MISMATCH_P] =
    {"The far gateway reads the IPv4 destination and Args where the near one did not write them. Nothing is refused; packets leave for "
     "another address, with another TEID.",
     "Set `p' of the near rule and of the far entry to the same number."},
    [KAWSARPA_MISMATCH_Q] =
    {"The far gateway reads the IPv4 source where the near one did not write it. Nothing is refused; packets leave with another source.",
     "Set `q' of the near rule and of the far entry to the same number."},
    [KAWSARPA_MISMATCH_HOP_LIMIT] =
    {"Every waypoint takes 1 from the hop limit, and passes no packet on that arrives with 0 or 1: one of them refuses everything with 6.",
     "Raise `hop-limit' of the near entry or rule above the number of its waypoints, and by the routers between them; 64 is usual."},
    [KAWSARPA_MISMATCH_WAYPOINT_UNSOUND] =
    {"The waypoint's table breaks a condition of its own, so that it refuses every packet with 1.",
     "Run `kawsarpa check TABLE' on it; it names the record and the condition."},
    [KAWSARPA_MISMATCH_WAYPOINT_SID] =
    {"The SID that was asked for has not 16 octets.",
     "Only a program that calls the library can see this: it lends a SID of another length."},
    [KAWSARPA_MISMATCH_WAYPOINT_NO_ENTRY] =
    {"No prefix of the waypoint's table covers the SID that leads there: the waypoint refuses the packets with 4.",
     "Compare the waypoint's address in the near table with the prefixes of the waypoint's table. Or a --via table was left out, or is "
     "that of another box."},
    [KAWSARPA_MISMATCH_WAYPOINT_KIND] =
    {"The longest prefix of the waypoint's table that covers the SID is not an End entry's: a gateway's entry takes the packets for its "
     "own, and refuses most with 7.",
     "Give the waypoint's address an End entry with a longer prefix, or shorten the other one; or mend the address in the near table."},
};
/* clang-format on */

const struct mismatch_words *mismatch_words(unsigned int condition)
{
    const bool known = condition < sizeof mismatches / sizeof mismatches[0] && mismatches[condition].means != NULL;
    return known ? &mismatches[condition] : NULL;
}

static const struct {
    const char *name;
    const struct fault_words *faults;
    size_t count;
} records[] = {
    [KAWSARPA_RECORD_HEADER] = {"header", header_faults, sizeof header_faults / sizeof header_faults[0]},
    [KAWSARPA_RECORD_ENTRY] = {"entry", entry_faults, sizeof entry_faults / sizeof entry_faults[0]},
    [KAWSARPA_RECORD_RULE] = {"rule", rule_faults, sizeof rule_faults / sizeof rule_faults[0]},
    [KAWSARPA_RECORD_POLICY] = {"policy", policy_faults, sizeof policy_faults / sizeof policy_faults[0]},
};

const struct fault_words *fault_words(unsigned int record, unsigned int condition)
{
    if (record >= sizeof records / sizeof records[0] || condition == 0 || condition > records[record].count)
        return NULL;
    return &records[record].faults[condition - 1];
}

const char *record_name(unsigned int record)
{
    return record < sizeof records / sizeof records[0] && records[record].name != NULL ? records[record].name : "record";
}
