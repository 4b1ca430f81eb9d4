//! The worked packets (docs/RULES.md, Worked packets): each that can be said as a function's result;
//! those of order 1, Echo; of order 2, UDP checksums; of order 3, bursts; of order 6, ICMPv6 messages; and
//! of order 13, for the readers.
//!
//! Order 2 restates the packets for D and Di, which had UDP checksum 0 and have the right one now,
//! and what E6 and a reply over IPv6 write: rows "Inner 100", "Result 164", "D with 8 SIDs", "E6
//! with SL 1", the SID that D sends to, and the Echo Requests over IPv6. Their answers and
//! lengths stay. The checksums were computed apart from this program. Over IPv4 nothing changes.

pub mod burst;
mod checksum;
pub mod icmp;

use crate::answer::Answer;
use crate::args::ArgsMobSession;
use crate::generate::Call;
use crate::gtpu;
use crate::sequence::worked::readings;
use crate::table::{
    Behaviour, Direction, Entry, Inbound, Ipv4Places, Ipv4Prefix, Ipv6Prefix, Policy, Rule,
    Session, SessionType, Table,
};

/// A worked packet's words and whether it holds here.
pub struct Line {
    pub words: String,
    pub result: Result<(), String>,
}

/// A worked packet that is a call, with the answer that the document gives.
pub struct WorkedCall {
    pub words: &'static str,
    pub call: Call,
    pub packet: Vec<u8>,
    pub table: Vec<u8>,
    pub room: usize,
    pub answer: Answer,
}

const ARGS: ArgsMobSession = ArgsMobSession {
    qfi: 9,
    reflective: true,
    teid: 0x0102_0304,
};
const GTPU: [u8; 18] = [
    0x34, 0xff, 0x00, 0x0a, 0x01, 0x02, 0x03, 0x04, 0x00, 0x00, 0x00, 0x85, 0x01, 0x00, 0x49, 0x00,
    0x60, 0x00,
];
const SESSION: Session = Session {
    direction: Direction::Downlink,
    session_type: SessionType::Ipv6,
};
const NEAR: u128 = 0x2001_0db8_000a_0000_0000_0000_0000_0001;
const FAR_LOCATOR: u128 = 0x2001_0db8_000b_0001_0000_0000_0000_0000;
const FAR_WITH_ARGS: u128 = 0x2001_0db8_000b_0001_2601_0203_0400_0000;
const WAYPOINT: u128 = 0x2001_0db8_00ee_0000_0000_0000_0000_0001;

fn entry(address: u128, length: u8, behaviour: Behaviour) -> Entry {
    let source = 0x2001_0db8_00ff_0000_0000_0000_0000_0001;
    Entry {
        prefix: Ipv6Prefix::of(address, length),
        hop_limit: 64,
        source,
        behaviour,
    }
}

fn table_of(behaviour: fn(Inbound) -> Behaviour, sids: usize) -> Vec<u8> {
    table_allowing(false, behaviour, sids)
}

fn table_allowing(
    zero_checksum: bool,
    behaviour: fn(Inbound) -> Behaviour,
    sids: usize,
) -> Vec<u8> {
    let inbound = Inbound {
        session: SESSION,
        policy: 0,
        zero_checksum,
    };
    let mut policy = vec![WAYPOINT; sids - 1];
    policy.push(FAR_LOCATOR);
    let table = Table {
        entries: vec![entry(NEAR, 128, behaviour(inbound))],
        policies: vec![Policy {
            args_start: 8,
            sids: policy,
        }],
        ..Table::default()
    };
    table.encode()
}

fn e6_table() -> Vec<u8> {
    let behaviour = Behaviour::E6 {
        session: SESSION,
        args_start: 8,
        source_port: 2152,
    };
    Table {
        entries: vec![entry(FAR_LOCATOR, 64, behaviour)],
        ..Table::default()
    }
    .encode()
}

fn waypoint_table() -> Vec<u8> {
    Table {
        entries: vec![entry(WAYPOINT, 128, Behaviour::End)],
        ..Table::default()
    }
    .encode()
}

fn rule_table() -> Vec<u8> {
    let rule = Rule {
        prefix: Ipv4Prefix::of(0xc000_0200, 24),
        hop_limit: 64,
        session: SESSION,
        places: Ipv4Places { p: 6, q: 8 },
        sid_prefix: 0x2001_0db8_000c << 80,
        source_prefix: 0x2001_0db8_000d << 80,
        waypoints: Vec::new(),
    };
    Table {
        rules: vec![rule],
        ..Table::default()
    }
    .encode()
}

fn ipv6(next_header: u8, hop_limit: u8, destination: u128, payload: &[u8]) -> Vec<u8> {
    let mut packet = vec![0x60, 0, 0, 0];
    packet.extend((payload.len() as u16).to_be_bytes());
    packet.extend([next_header, hop_limit]);
    packet.extend([0x11; 16]);
    packet.extend(destination.to_be_bytes());
    packet.extend(payload);
    packet
}

/// UDP with checksum 0 and GTP-U as in the worked octets, around this many inner octets.
fn tunnelled(inner: usize) -> Vec<u8> {
    let mut payload = vec![0x08, 0x68, 0x08, 0x68];
    payload.extend(((24 + inner) as u16).to_be_bytes());
    payload.extend([0, 0]);
    payload.extend(&GTPU[..16]);
    payload[10..12].copy_from_slice(&((8 + inner) as u16).to_be_bytes());
    payload.extend(vec![0x60; inner]);
    payload
}

fn with_checksum(checksum: u16, mut datagram: Vec<u8>) -> Vec<u8> {
    datagram[6..8].copy_from_slice(&checksum.to_be_bytes());
    datagram
}

fn over_ipv6(inner: usize, checksum: u16) -> Vec<u8> {
    ipv6(17, 64, NEAR, &with_checksum(checksum, tunnelled(inner)))
}

/// 198.51.100.7 to 192.0.2.1.
fn ipv4(tos: u8, ttl: u8, payload: &[u8]) -> Vec<u8> {
    let mut packet = vec![0x45, tos];
    packet.extend(((20 + payload.len()) as u16).to_be_bytes());
    packet.extend([0, 0, 0x40, 0, ttl, 17, 0, 0, 198, 51, 100, 7, 192, 0, 2, 1]);
    let checksum = crate::ipv4::checksum(&packet);
    packet[10..12].copy_from_slice(&checksum.to_be_bytes());
    packet.extend(payload);
    packet
}

fn over_ipv4(inner: usize) -> Vec<u8> {
    ipv4(0, 64, &tunnelled(inner))
}

/// TEID 0, sequence number 1234.
const ECHO: [u8; 12] = [0x32, 1, 0, 4, 0, 0, 0, 0, 0x12, 0x34, 0, 0];

/// The right UDP checksum of that request from port 12345 over IPv6.
const ECHO_CHECKSUM: u16 = 0xcc9f;

/// UDP and GTP-U of the reply, to port 12345, with checksum 0.
const ECHO_REPLY: [u8; 22] = [
    0x08, 0x68, 0x30, 0x39, 0x00, 0x16, 0x00, 0x00, 0x32, 0x02, 0x00, 0x06, 0x00, 0x00, 0x00, 0x00,
    0x12, 0x34, 0x00, 0x00, 0x0e, 0x00,
];

/// From port 12345, checksum 0.
fn to_gtpu(message: &[u8]) -> Vec<u8> {
    let length = 8 + message.len() as u8;
    [&[0x30, 0x39, 0x08, 0x68, 0, length, 0, 0], message].concat()
}

/// Traffic class B8, flow label 12345, hop limit 9.
fn echo_over_ipv6(message: &[u8], checksum: u16) -> Vec<u8> {
    let mut packet = ipv6(17, 9, NEAR, &with_checksum(checksum, to_gtpu(message)));
    packet[..4].copy_from_slice(&[0x6b, 0x81, 0x23, 0x45]);
    packet
}

/// TOS B8, TTL 9.
fn echo_over_ipv4(message: &[u8]) -> Vec<u8> {
    ipv4(0xb8, 9, &to_gtpu(message))
}

/// Behind an SRH of two segments with SL 0.
fn echo_behind_srh() -> Vec<u8> {
    let srh = [17, 4, 4, 0, 1, 0, 0, 0];
    let datagram = with_checksum(ECHO_CHECKSUM, to_gtpu(&ECHO));
    ipv6(43, 9, NEAR, &[&srh[..], &[0x22; 32], &datagram].concat())
}

/// SRH with two segments around two inner octets.
fn with_srh(destination: u128, hop_limit: u8, segments_left: u8) -> Vec<u8> {
    srh_around(&[0x60, 0], destination, hop_limit, segments_left)
}

fn srh_around(inner: &[u8], destination: u128, hop_limit: u8, segments_left: u8) -> Vec<u8> {
    let mut payload = vec![41, 4, 4, segments_left, 1, 0, 0, 0];
    payload.extend(NEAR.to_be_bytes());
    payload.extend(FAR_WITH_ARGS.to_be_bytes());
    payload.extend(inner);
    ipv6(43, hop_limit, destination, &payload)
}

fn call(call: Call, packet: &[u8], table: &[u8], room: usize) -> (Answer, Vec<u8>) {
    let mut out = vec![0; room];
    let answer = call.run(packet, table, &mut out);
    out.truncate(answer.length as usize);
    (answer, out)
}

fn call6(packet: &[u8], table: &[u8]) -> (Answer, Vec<u8>) {
    call(Call::Ipv6, packet, table, ROOM)
}

fn equal<T: PartialEq + std::fmt::Debug>(got: T, wanted: T) -> Result<(), String> {
    if got == wanted {
        Ok(())
    } else {
        Err(format!("got {got:x?}, not {wanted:x?}"))
    }
}

fn refused(number: u8, icmp_type: u8, icmp_code: u8, icmp_pointer: u16) -> Answer {
    Answer {
        number,
        icmp_type,
        icmp_code,
        icmp_pointer,
        length: 0,
    }
}

/// Room for every result.
const ROOM: usize = 70_000;

/// The worked packets that are calls, in the order of the document.
pub fn calls() -> Vec<WorkedCall> {
    let mut calls = Vec::new();
    let mut ipv6 = |words, packet: &[u8], table: &[u8], room, answer| {
        calls.push(WorkedCall {
            words,
            call: Call::Ipv6,
            packet: packet.to_vec(),
            table: table.to_vec(),
            room,
            answer,
        })
    };
    let packet = over_ipv6(100, 0xe110);
    let (d, di) = (Behaviour::D, Behaviour::Di);
    let with = |behaviour, sids| table_of(behaviour, sids);
    ipv6(
        "D with one SID sends 164",
        &packet,
        &with(d, 1),
        ROOM,
        Answer::sent(164),
    );
    ipv6(
        "D with three SIDs sends 196",
        &packet,
        &with(d, 3),
        ROOM,
        Answer::sent(196),
    );
    ipv6(
        "Di with one SID sends 180",
        &packet,
        &with(di, 1),
        ROOM,
        Answer::sent(180),
    );
    let sent_by_di = call6(&packet, &with(di, 1)).1;
    ipv6(
        "E6 makes 164 of it",
        &sent_by_di,
        &e6_table(),
        ROOM,
        Answer::sent(164),
    );
    ipv6(
        "result 164, room 163: 16",
        &packet,
        &with(d, 1),
        163,
        refused(16, 0, 0, 0),
    );
    ipv6(
        "result 164, room 164: sent",
        &packet,
        &with(d, 1),
        164,
        Answer::sent(164),
    );

    let at_e6 = |segments_left| with_srh(FAR_WITH_ARGS, 64, segments_left);
    ipv6(
        "E6 with SL 0: 7",
        &at_e6(0),
        &e6_table(),
        ROOM,
        refused(7, 4, 0, 43),
    );
    ipv6(
        "E6 with SL 2: 7",
        &at_e6(2),
        &e6_table(),
        ROOM,
        refused(7, 4, 0, 43),
    );
    ipv6(
        "E6 with SL 1 goes on",
        &at_e6(1),
        &e6_table(),
        ROOM,
        Answer::sent(66),
    );

    let at_waypoint = |hop_limit| with_srh(WAYPOINT, hop_limit, 1);
    ipv6(
        "waypoint, SL 1, hop limit 1: 6",
        &at_waypoint(1),
        &waypoint_table(),
        ROOM,
        refused(6, 3, 0, 0),
    );
    ipv6(
        "waypoint, SL 1, hop limit 2: sent",
        &at_waypoint(2),
        &waypoint_table(),
        ROOM,
        Answer::sent(82),
    );

    ipv6(
        "D with 8 SIDs: inner 65,399 is sent",
        &over_ipv6(65_399, 0x2071),
        &with(d, 8),
        ROOM,
        Answer::sent(65_575),
    );
    ipv6(
        "D with 8 SIDs: inner 65,400 is 15",
        &over_ipv6(65_400, 0x200e),
        &with(d, 8),
        ROOM,
        refused(15, 0, 0, 0),
    );

    ipv6("empty: 2", &[], &with(d, 1), ROOM, refused(2, 0, 0, 0));
    ipv6(
        "39 octets: 2",
        &over_ipv6(0, 0xb50f)[..39],
        &with(d, 1),
        ROOM,
        refused(2, 0, 0, 0),
    );
    let bare = self::ipv6(59, 64, NEAR, &[]);
    ipv6(
        "40 octets, next header 59, to a D entry: 8, pointer 40",
        &bare,
        &with(d, 1),
        ROOM,
        refused(8, 4, 4, 40),
    );

    let empty_table = Table::default().encode();
    ipv6(
        "no input, empty table: 2 and length 0",
        &[],
        &empty_table,
        ROOM,
        refused(2, 0, 0, 0),
    );
    ipv6(
        "a packet, empty table: 4 and length 0",
        &packet,
        &empty_table,
        ROOM,
        refused(4, 0, 0, 0),
    );

    calls.push(WorkedCall {
        words: "D4 with p = 6 and q = 8 sends 42",
        call: Call::Ipv4,
        packet: over_ipv4(2),
        table: rule_table(),
        room: ROOM,
        answer: Answer::sent(42),
    });
    calls.extend(echo_calls());
    calls.extend(checksum::calls());
    calls
}

/// Those of order 1.
fn echo_calls() -> Vec<WorkedCall> {
    let (with_d, with_di) = (table_of(Behaviour::D, 1), table_of(Behaviour::Di, 3));
    let with_teid = [&ECHO[..7], &[1], &ECHO[8..]].concat();
    let without_s = [0x30, 1, 0, 0, 0, 0, 0, 0];
    let with_e = [&[0x36][..], &ECHO[1..3], &[6], &ECHO[4..11], &[0x85, 0, 0]].concat();
    let cut = [&ECHO[..3], &[3], &ECHO[4..11]].concat();
    let response = [&[0x32, 2], &ECHO[2..]].concat();
    let no_room = refused(16, 0, 0, 0);
    let bad_echo = refused(17, 0, 0, 0);
    let over_ipv6 = [
        (
            "Echo Request at D: a reply of 62",
            echo_over_ipv6(&ECHO, ECHO_CHECKSUM),
            &with_d,
            ROOM,
            Answer::sent(62),
        ),
        (
            "Echo Request at Di: a reply of 62",
            echo_over_ipv6(&ECHO, ECHO_CHECKSUM),
            &with_di,
            62,
            Answer::sent(62),
        ),
        (
            "Echo Request behind an SRH, SL 0: a reply of 62",
            echo_behind_srh(),
            &with_di,
            ROOM,
            Answer::sent(62),
        ),
        (
            "Echo Request with E, an extension of 0 units: a reply of 62",
            echo_over_ipv6(&with_e, 0xc814),
            &with_d,
            ROOM,
            Answer::sent(62),
        ),
        (
            "Echo Request, room 61: 16",
            echo_over_ipv6(&ECHO, ECHO_CHECKSUM),
            &with_d,
            61,
            no_room,
        ),
        (
            "Echo Request without S: 17",
            echo_over_ipv6(&without_s, 0xe0df),
            &with_d,
            ROOM,
            bad_echo,
        ),
        (
            "Echo Request with TEID 1: 17",
            echo_over_ipv6(&with_teid, 0xcc9e),
            &with_di,
            ROOM,
            bad_echo,
        ),
        (
            "Echo Request with TEID 1, no room: 17",
            echo_over_ipv6(&with_teid, 0xcc9e),
            &with_d,
            0,
            bad_echo,
        ),
        (
            "Echo Request with S, eleven octets: 10",
            echo_over_ipv6(&cut, 0xcca2),
            &with_d,
            ROOM,
            refused(10, 0, 0, 0),
        ),
        (
            "Echo Response at D: 11",
            echo_over_ipv6(&response, 0xcc9e),
            &with_d,
            ROOM,
            refused(11, 0, 0, 0),
        ),
    ];
    let with_rule = rule_table();
    let over_ipv4 = [
        (
            "Echo Request at D4: a reply of 42",
            echo_over_ipv4(&ECHO),
            &with_rule,
            42,
            Answer::sent(42),
        ),
        (
            "Echo Request at D4, room 41: 16",
            echo_over_ipv4(&ECHO),
            &with_rule,
            41,
            no_room,
        ),
        (
            "Echo Request at D4 without S: 17",
            echo_over_ipv4(&without_s),
            &with_rule,
            ROOM,
            bad_echo,
        ),
        (
            "Echo Request at D4 with TEID 1: 17",
            echo_over_ipv4(&with_teid),
            &with_rule,
            ROOM,
            bad_echo,
        ),
    ];
    let of = |call| {
        move |(words, packet, table, room, answer): (_, _, &Vec<u8>, _, _)| WorkedCall {
            words,
            call,
            packet,
            table: table.clone(),
            room,
            answer,
        }
    };
    let over_ipv6 = over_ipv6.into_iter().map(of(Call::Ipv6));
    over_ipv6
        .chain(over_ipv4.into_iter().map(of(Call::Ipv4)))
        .collect()
}

/// All worked packets.
pub fn lines() -> Vec<Line> {
    let mut lines = Vec::new();
    let mut line = |words: &str, result| {
        lines.push(Line {
            words: words.to_string(),
            result,
        })
    };

    line(
        "QFI 9, R 1, TEID 0x01020304: 26 01 02 03 04",
        equal(ARGS.to_bits(), 0x26_0102_0304),
    );
    let without_r = ArgsMobSession {
        qfi: 5,
        reflective: false,
        ..ARGS
    };
    line(
        "QFI 5, R 0, same TEID: 14 01 02 03 04",
        equal(without_r.to_bits(), 0x14_0102_0304),
    );
    let top = ArgsMobSession {
        qfi: 63,
        reflective: true,
        ..ARGS
    };
    line(
        "QFI 63, R 1: first octet FE",
        equal(top.to_bits(), 0xfe_0102_0304),
    );
    line(
        "FF reads the same",
        equal(ArgsMobSession::from_bits(0xff_0102_0304), top),
    );

    let pdu = gtpu::parse(&GTPU, Direction::Downlink);
    line(
        "the GTP-U octets, downlink: the first Args, inner 60 00",
        equal(
            pdu,
            Ok(gtpu::Message::GPdu(gtpu::GPdu {
                args: ARGS,
                inner: &[0x60, 0],
            })),
        ),
    );

    line(
        "that Args at a = 8 behind 2001:db8:b:1::/64",
        equal(ARGS.place(FAR_LOCATOR, 8), FAR_WITH_ARGS),
    );
    let (_, sent) = call6(&over_ipv6(2, 0x54a9), &table_of(Behaviour::D, 1));
    line(
        "the same as the destination that D sends",
        equal(sent.get(24..40), Some(&FAR_WITH_ARGS.to_be_bytes()[..])),
    );

    let (_, sent) = call(Call::Ipv4, &over_ipv4(2), &rule_table(), 1000);
    let sid = 0x2001_0db8_000c_c000_0201_2601_0203_0400u128.to_be_bytes();
    line(
        "p = 6, 2001:db8:c::, 192.0.2.1, that Args, as D4 sends it",
        equal(sent.get(24..40), Some(&sid[..])),
    );
    let source = 0x2001_0db8_000d_0000_c633_6407_0000_0000u128.to_be_bytes();
    line(
        "q = 8, 2001:db8:d::, 198.51.100.7, as D4 sends it",
        equal(sent.get(8..24), Some(&source[..])),
    );

    for worked in calls() {
        let (answer, _) = call(worked.call, &worked.packet, &worked.table, worked.room);
        line(worked.words, equal(answer, worked.answer));
    }

    let packet = over_ipv6(100, 0xe110);
    line(
        "inner 100: 164 octets in over IPv6",
        equal(packet.len(), 164),
    );
    let (_, sent) = call6(&packet, &table_of(Behaviour::Di, 1));
    let (_, last) = call6(&sent, &e6_table());
    line(
        "E6 sends the octets that went in behind the UDP header",
        equal(last.get(48..), packet.get(48..)),
    );
    line(
        "and before them the ports and the length, with its own checksum",
        equal(
            last.get(40..48),
            Some(&[0x08, 0x68, 0x08, 0x68, 0, 124, 0x3a, 0xe0][..]),
        ),
    );
    let (_, sent) = call6(&with_srh(WAYPOINT, 2, 1), &waypoint_table());
    line(
        "waypoint, SL 1, hop limit 2 leaves as 1",
        equal(sent.get(7), Some(&1)),
    );

    let request = echo_over_ipv6(&ECHO, ECHO_CHECKSUM);
    let (_, sent) = call6(&request, &table_of(Behaviour::D, 1));
    let reply = with_checksum(0xbe98, ECHO_REPLY.to_vec());
    let front = [0x6b, 0x80, 0, 0, 0, 22, 17, 64];
    let addresses = [NEAR.to_be_bytes(), [0x11; 16]].concat();
    line(
        "the reply over IPv6: addresses exchanged, class B8, hop limit 64, to port 12345",
        equal(sent, [&front, &addresses[..], &reply].concat()),
    );
    let (_, sent) = call(Call::Ipv4, &echo_over_ipv4(&ECHO), &rule_table(), 1000);
    let header = [
        0x45, 0xb8, 0, 42, 0, 0, 0x40, 0, 64, 17, 0x4d, 0xcf, 192, 0, 2, 1, 198, 51, 100, 7,
    ];
    line(
        "the reply over IPv4: addresses exchanged, TOS B8, TTL 64, to port 12345",
        equal(sent, [&header[..], &ECHO_REPLY].concat()),
    );

    for (words, result) in checksum::lines() {
        line(words, result);
    }
    for worked in burst::bursts() {
        line(worked.words, worked.burst.check());
    }
    for worked in icmp::messages() {
        line(worked.words, worked.case.check());
    }
    for worked in readings() {
        line(worked.words, worked.reading.check());
    }
    lines
}

#[cfg(test)]
mod tests {
    #[test]
    fn all_hold() {
        for line in super::lines() {
            assert_eq!(line.result, Ok(()), "{}", line.words);
        }
    }
}
