//! Worked ICMPv6 messages, of order 6: what stands before the packet that is quoted is written by hand
//! from RFC 4443, 2.3, 3.3 and 3.4; the checksums were computed apart from this program.

use super::{
    e6_table, entry, ipv6, refused, table_of, waypoint_table, with_srh, FAR_WITH_ARGS, NEAR, ROOM,
    SESSION, WAYPOINT,
};
use crate::answer::Answer;
use crate::icmp::cases::{IcmpCase, Origin};
use crate::table::{Behaviour, Ipv4Places, Table};

/// A packet with its message or its refusal, and words for it.
pub struct WorkedMessage {
    pub words: &'static str,
    pub case: IcmpCase,
}

/// From 2001:db8:ff::1 with hop limit 64, which the worked tables' entries have, to the packet's source.
fn front(payload_length: u16, icmp: [u8; 8]) -> Vec<u8> {
    let [high, low] = payload_length.to_be_bytes();
    let header = [
        0x60, 0, 0, 0, high, low, 58, 64, 0x20, 0x01, 0x0d, 0xb8, 0x00, 0xff, 0, 0, 0, 0, 0, 0, 0,
        0, 0, 0x01,
    ];
    [&header[..], &[0x11; 16], &icmp].concat()
}

/// A waypoint for any address, and E4 for a longer prefix, with other sources and hop limits.
fn nested_table() -> Vec<u8> {
    let mut any = entry(0, 0, Behaviour::End);
    (any.hop_limit, any.source) = (7, 5);
    let e4 = Behaviour::E4 {
        session: SESSION,
        places: Ipv4Places { p: 6, q: 8 },
        source_port: 2152,
    };
    let mut longer = entry(0x2001_0db8_000c << 80, 48, e4);
    (longer.hop_limit, longer.source) = (44, 0x2001_0db8_0004 << 80 | 4);
    Table {
        entries: vec![any, longer],
        ..Table::default()
    }
    .encode()
}

/// With another source address.
fn from(mut packet: Vec<u8>, source: [u8; 16]) -> Vec<u8> {
    packet[8..24].copy_from_slice(&source);
    packet
}

/// The packet's first octets behind those before them.
fn built(words: &'static str, packet: Vec<u8>, table: Vec<u8>, front: Vec<u8>) -> WorkedMessage {
    let sent = [&front, &packet[..packet.len().min(1_232)]].concat();
    let case = IcmpCase {
        room: sent.len(),
        answer: Answer::sent(sent.len()),
        packet,
        table,
        sent,
        kind: None,
        origin: Origin::Packet,
    };
    WorkedMessage { words, case }
}

fn none(
    words: &'static str,
    packet: Vec<u8>,
    table: Vec<u8>,
    room: usize,
    number: u8,
) -> WorkedMessage {
    let case = IcmpCase {
        packet,
        table,
        room,
        answer: refused(number, 0, 0, 0),
        sent: Vec::new(),
        kind: None,
        origin: Origin::Packet,
    };
    WorkedMessage { words, case }
}

pub fn messages() -> Vec<WorkedMessage> {
    let with_d = || table_of(Behaviour::D, 1);
    let at_waypoint = |hop_limit| with_srh(WAYPOINT, hop_limit, 1);
    let to_d = |next_header, payload: &[u8]| ipv6(next_header, 64, NEAR, payload);
    let multicast = 0xff02u128 << 112 | 1;
    let mut steered = at_waypoint(1);
    steered[2..4].copy_from_slice(&[0xed, 0x3a]);
    let eight = [&[59, 16, 4, 0, 7, 0, 0, 0][..], &[0x22; 128]].concat();
    let behind = [&[58, 2, 4, 1, 0, 0, 0, 0][..], &NEAR.to_be_bytes(), &[129]].concat();
    let mut longer_front = front(48, [4, 4, 0xf3, 0x90, 0, 0, 0, 40]);
    longer_front[7] = 44;
    longer_front[12..24].copy_from_slice(&[0, 4, 0, 0, 0, 0, 0, 0, 0, 0, 0, 4]);
    let of_bare = front(48, [4, 4, 0xf2, 0x9a, 0, 0, 0, 40]);
    let message = [&of_bare[..], &to_d(59, &[])].concat();
    vec![
        built(
            "ICMPv6 of a waypoint, SL 1, hop limit 1: Time Exceeded",
            at_waypoint(1),
            waypoint_table(),
            front(90, [3, 0, 0xed, 0x3a, 0, 0, 0, 0]),
        ),
        built(
            "ICMPv6 of the same, flow label 0ED3A: checksum 0 stays",
            steered,
            waypoint_table(),
            front(90, [3, 0, 0, 0, 0, 0, 0, 0]),
        ),
        built(
            "ICMPv6 of a waypoint, Echo Reply behind the SRH: Time Exceeded",
            ipv6(43, 1, WAYPOINT, &behind),
            waypoint_table(),
            front(73, [3, 0, 0x16, 0x28, 0, 0, 0, 0]),
        ),
        built(
            "ICMPv6 of E6, SL 2: Parameter Problem 0, pointer 43",
            with_srh(FAR_WITH_ARGS, 64, 2),
            e6_table(),
            front(90, [4, 0, 0xc0, 0xae, 0, 0, 0, 43]),
        ),
        built(
            "ICMPv6 of D, 40 octets, next header 59: Parameter Problem 4, pointer 40",
            to_d(59, &[]),
            with_d(),
            of_bare,
        ),
        built(
            "ICMPv6 of D, next header 59 behind eight segments: pointer 176",
            to_d(43, &eight),
            with_d(),
            front(184, [4, 4, 0x32, 0x6a, 0, 0, 0, 176]),
        ),
        built(
            "ICMPv6 of D, 41 octets: the last is the high half of a word",
            to_d(59, &[0xab]),
            with_d(),
            front(49, [4, 4, 0x47, 0x98, 0, 0, 0, 40]),
        ),
        built(
            "ICMPv6 of D, 1,233 octets: 1,232 quoted",
            to_d(59, &[0x60; 1_193]),
            with_d(),
            front(1_240, [4, 4, 0x88, 0xe9, 0, 0, 0, 40]),
        ),
        built(
            "ICMPv6 of D, an ICMPv6 Echo Request: built",
            to_d(58, &[128, 0, 0, 0]),
            with_d(),
            front(52, [4, 4, 0x73, 0x92, 0, 0, 0, 40]),
        ),
        built(
            "ICMPv6 of D, ICMPv6 that ends before its type: built",
            to_d(58, &[]),
            with_d(),
            front(48, [4, 4, 0xf3, 0x9a, 0, 0, 0, 40]),
        ),
        built(
            "ICMPv6 of E4 within a waypoint's prefix: E4's source and hop limit",
            ipv6(59, 64, 0x2001_0db8_000c << 80 | 1, &[]),
            nested_table(),
            longer_front,
        ),
        none(
            "ICMPv6 of a waypoint, room 129: 16",
            at_waypoint(1),
            waypoint_table(),
            129,
            16,
        ),
        none(
            "ICMPv6 of a waypoint, source ff02::1: 23",
            from(at_waypoint(1), multicast.to_be_bytes()),
            waypoint_table(),
            ROOM,
            23,
        ),
        none(
            "ICMPv6 of a waypoint, source ::, no room: 23",
            from(at_waypoint(1), [0; 16]),
            waypoint_table(),
            0,
            23,
        ),
        none(
            "ICMPv6 to ff02::1 by an entry for any address: 23",
            ipv6(59, 64, multicast, &[]),
            nested_table(),
            ROOM,
            23,
        ),
        none(
            "ICMPv6 of D, ICMPv6 Destination Unreachable: 23",
            to_d(58, &[1, 0, 0, 0]),
            with_d(),
            ROOM,
            23,
        ),
        none(
            "ICMPv6 of D, Redirect behind an SRH: 23",
            to_d(43, &[58, 0, 4, 0, 0, 0, 0, 0, 137]),
            with_d(),
            ROOM,
            23,
        ),
        none(
            "ICMPv6 of D, a message that was built: 23",
            [&message[..24], &NEAR.to_be_bytes(), &message[40..]].concat(),
            with_d(),
            ROOM,
            23,
        ),
        none(
            "ICMPv6 of a waypoint, hop limit 2, which is sent: 23",
            at_waypoint(2),
            waypoint_table(),
            ROOM,
            23,
        ),
        none(
            "ICMPv6, table not sound: 23",
            at_waypoint(1),
            waypoint_table()[1..].to_vec(),
            ROOM,
            23,
        ),
    ]
}
