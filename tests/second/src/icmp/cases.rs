//! Packets for ICMPv6 messages from a seed: mostly such as the IPv6 call answers with 6, 7 or 8, with
//! addresses, upper layers and lengths at their edges, then a room around the message's length;
//! packets of the calls' cases; and messages that were built, as packets.
//!
//! [`case`] makes one from a seed and an index and nothing else.

use super::{icmp, icmp_ipv6, LONGEST};
use crate::answer::Answer;
use crate::generate::packets::{self, Assembled, Draft, Repair, SrhDraft, UpperDraft};
use crate::generate::tables::{self, Destination, Scene};
use crate::generate::{self, damage, Call, Kind};
use crate::ipv6::next_header;
use crate::rng::Rng;
use crate::table::{Behaviour, Ipv6Prefix, SessionType, MAX_ENTRIES};
use crate::vectors::{hex, unhex, LARGEST_ROOM};

/// A packet and a table, with what comes out of the call.
#[derive(Clone, Debug, PartialEq, Eq)]
pub struct IcmpCase {
    pub packet: Vec<u8>,
    pub table: Vec<u8>,
    /// Length of the output.
    pub room: usize,
    pub answer: Answer,
    /// The octets of the message; none for a refusal.
    pub sent: Vec<u8>,
    /// For which kind it was made.
    pub kind: Option<Kind>,
    pub origin: Origin,
}

/// What the packet is.
#[derive(Clone, Copy, Debug, PartialEq, Eq)]
pub enum Origin {
    Packet,
    /// A message that was built, with another table or with that with which it was.
    Message {
        own_table: bool,
    },
}

impl IcmpCase {
    fn new(drawn: Drawn, room: usize) -> Self {
        let Drawn {
            kind,
            origin,
            packet,
            table,
        } = drawn;
        let (answer, sent) = icmp(&packet, &table, room);
        IcmpCase {
            packet,
            table,
            room,
            answer,
            sent,
            kind: Some(kind),
            origin,
        }
    }

    /// Runs the call over an output of other contents and checks that answer and octets are the
    /// same and that no other octet changed.
    pub fn check(&self) -> Result<(), String> {
        self.check_by(icmp_ipv6)
    }

    /// The same with another implementation, which gives the packed answer.
    pub fn check_by(&self, run: impl FnOnce(&[u8], &[u8], &mut [u8]) -> u64) -> Result<(), String> {
        generate::judge(self.room, self.answer, &self.sent, |out| {
            run(&self.packet, &self.table, out)
        })
    }
}

/// All but the room.
struct Drawn {
    kind: Kind,
    origin: Origin,
    packet: Vec<u8>,
    table: Vec<u8>,
}

const KINDS: [Kind; 5] = [Kind::Waypoint, Kind::D, Kind::Di, Kind::E6, Kind::E4];

/// The case of a seed and an index.
pub fn case(seed: u64, index: u64) -> IcmpCase {
    let rng = &mut Rng::for_case(!seed, index);
    let kind = KINDS[(index % 5) as usize];
    let drawn = match index / 5 % 16 {
        0..=2 => of_call(rng, kind, seed, index),
        3 => of_message(rng, kind),
        _ => refused(rng, kind),
    };
    let room = choose_room(rng, &drawn.packet);
    IcmpCase::new(drawn, room)
}

/// That of a case of the calls, for IPv4 too; now and then one that is too long to be sent.
fn of_call(rng: &mut Rng, kind: Kind, seed: u64, index: u64) -> Drawn {
    let origin = Origin::Packet;
    if rng.chance(10) {
        let scene = tables::scene(rng, kind);
        let mut draft = packets::draft(rng, &scene);
        let length = draft.longest_inner();
        draft.inner().resize(length, 0x45);
        return Drawn {
            kind,
            origin,
            packet: draft.assemble().octets,
            table: scene.table.encode(),
        };
    }
    // Its kind is meant to be that of this place in `Kind::ALL`.
    let place = if rng.chance(8) { 5 } else { index % 5 };
    let case = generate::case(seed, index.wrapping_mul(6).wrapping_add(place));
    Drawn {
        kind: case.kind,
        origin,
        packet: case.packet,
        table: case.table,
    }
}

/// A message that was built, to an entry of this kind, or through the table that it comes from.
fn of_message(rng: &mut Rng, kind: Kind) -> Drawn {
    let (about, message) = loop {
        let drawn = refused(rng, kind);
        let (answer, message) = icmp(&drawn.packet, &drawn.table, LONGEST);
        if answer.number == 0 {
            break (drawn, message);
        }
    };
    let own_table = rng.chance(50);
    let table = match own_table {
        true => about.table,
        false => {
            let to = message[24..40].try_into().map_or(0, u128::from_be_bytes);
            tables::scene_to(rng, kind, |_| to).table.encode()
        }
    };
    Drawn {
        kind,
        origin: Origin::Message { own_table },
        packet: message,
        table,
    }
}

/// A packet that the IPv6 call answers with 6, 7 or 8, unless something else is wrong with it too.
fn refused(rng: &mut Rng, kind: Kind) -> Drawn {
    let mut scene = tables::scene_to(rng, kind, destination);
    if rng.chance(25) {
        widen(rng, &mut scene);
    }
    if rng.chance(2) {
        fill(rng, &mut scene);
    }
    for entry in &mut scene.table.entries {
        if rng.chance(20) {
            entry.source = edge(rng);
        }
    }
    let mut draft = packets::draft(rng, &scene);
    let number = match kind {
        Kind::Waypoint => rng.pick(&[6, 6, 7, 8, 8, 8]),
        _ => rng.pick(&[7, 8, 8]),
    };
    put_headers(rng, kind, number, &mut draft);
    put_upper(rng, kind, number, session_type(&scene), &mut draft);
    put_length(rng, &mut draft);

    let damage = rng.below(40);
    let mut table = scene.table;
    if damage == 0 {
        damage::unmatch(rng, &mut table, &mut draft);
    }
    let mut packet = draft.assemble();
    let mut octets = table.encode();
    if rng.chance(35) {
        tables::fill_unused(rng, &table, &mut octets);
    }
    match damage {
        1 => octets = damage::table(rng, &table, octets).0,
        2 | 3 => spoil(rng, &mut packet),
        _ => {}
    }
    let mut packet = packet.octets;
    if rng.chance(10) {
        steer(&mut packet, &octets);
    }
    Drawn {
        kind,
        origin: Origin::Packet,
        packet,
        table: octets,
    }
}

/// Rows 2 and 5.
fn spoil(rng: &mut Rng, packet: &mut Assembled) {
    match rng.below(4) {
        0 => {
            let length = packet.get16(4).wrapping_add(rng.pick(&[1, 0xffff, 0x100]));
            packet.set16(4, length.into());
        }
        1 => packet.octets[0] ^= 0x20,
        2 => {
            packet.octets.pop();
            packet.repair(Repair::Ip);
        }
        _ => {
            let at = packet.layout.srh.unwrap_or(6);
            packet.octets[at] = rng.pick(&[0, 43, 44, 60]);
        }
    }
}

/// Multicast or not by one bit, unspecified or not by one bit, and other addresses of that kind.
fn edge(rng: &mut Rng) -> u128 {
    const MULTICAST: u128 = 0xff << 120;
    let any = rng.u128() >> 8;
    match rng.below(16) {
        0 | 1 => 0,
        2 => 1,
        3 => 1 << 127,
        4 => 1 << rng.below(128),
        5 => MULTICAST,
        6 => 0xff02 << 112 | 1,
        7 => u128::MAX,
        8 => MULTICAST | any,
        9 => MULTICAST - 1,
        10 => 0xfe80 << 112 | 1,
        11 => 0xfe << 120 | any,
        12 => 0xff << 112 | any >> 8,
        13 => 0x7f << 120 | any,
        14 => 0xff << 112,
        _ => MULTICAST ^ 1 << rng.between(120, 127) | any,
    }
}

fn destination(rng: &mut Rng) -> u128 {
    match rng.chance(45) {
        true => edge(rng),
        false => tables::address(rng),
    }
}

fn source(rng: &mut Rng, destination: u128) -> u128 {
    match rng.below(20) {
        0..=8 => edge(rng),
        // A message to there may meet the same entry.
        9..=12 => destination ^ 1,
        _ => rng.u128(),
    }
}

/// The entry that matches gets a prefix of 0 or 8 bits, and is the only one that does.
fn widen(rng: &mut Rng, scene: &mut Scene) {
    let Destination::Ipv6(destination) = scene.destination else {
        return;
    };
    let Ok(&target) = scene.table.entry_for(destination) else {
        return;
    };
    let most = tables::longest_prefix(&target.behaviour);
    let length = most.min(rng.pick(&[0, 8]));
    let entries = &mut scene.table.entries;
    entries.retain(|entry| !entry.prefix.matches(destination));
    let mut target = target;
    target.prefix = Ipv6Prefix::of(destination, length);
    entries.insert(rng.below(entries.len() + 1), target);
}

/// As many entries as a table can have; those that are new do not match.
fn fill(rng: &mut Rng, scene: &mut Scene) {
    let entries = &mut scene.table.entries;
    while entries.len() < MAX_ENTRIES {
        let prefix = Ipv6Prefix::of(rng.u128(), 128);
        entries.push(tables::entry(rng, prefix, Behaviour::End));
    }
    rng.shuffle(entries);
}

/// That of the entry that matches, where the kind has one.
fn session_type(scene: &Scene) -> Option<SessionType> {
    let Destination::Ipv6(destination) = scene.destination else {
        return None;
    };
    match scene.table.entry_for(destination).ok()?.behaviour {
        Behaviour::E6 { session, .. } | Behaviour::E4 { session, .. } => Some(session.session_type),
        _ => None,
    }
}

fn put_headers(rng: &mut Rng, kind: Kind, number: u8, draft: &mut Draft) {
    let Some(header) = draft.v6() else {
        return;
    };
    let any = rng.u8();
    header.hop_limit = match number {
        6 => rng.pick(&[0, 1]),
        7 if kind == Kind::Waypoint => any.max(2),
        _ => rng.pick(&[0, 1, 2, 64, 255, any]),
    };
    header.source = source(rng, header.destination);
    // At E6 that is 5, with all else as it is.
    let plain = match kind {
        Kind::E6 => rng.chance(8),
        _ => number == 8 && rng.chance(50),
    };
    header.srh = (!plain).then(|| srh(rng, kind, number));
}

/// Of many lengths: the upper layer begins before, at and behind the end of what is quoted.
fn any_srh(rng: &mut Rng) -> SrhDraft {
    let mut srh = packets::srh(rng, 0, 9);
    let (segments, units) = match rng.below(20) {
        0 | 1 => (0, 0),
        2 => (0, 1),
        3 => (73, 1),
        4 => (74, 0),
        5 => (74, 1),
        6 => (127, 1),
        7 | 8 => (8, 0),
        _ => (srh.segments.len(), srh.tlvs.len() / 8),
    };
    srh.segments = (0..segments).map(|_| rng.u128()).collect();
    srh.tlvs = rng.octets(8 * units);
    if let (true, Some(first)) = (rng.chance(30), srh.segments.first_mut()) {
        *first = edge(rng);
    }
    srh
}

fn srh(rng: &mut Rng, kind: Kind, number: u8) -> SrhDraft {
    let mut srh = any_srh(rng);
    if kind == Kind::E6 && number == 8 && srh.segments.is_empty() {
        srh.segments.push(rng.u128());
    }
    let held = srh.segments.len() + srh.tlvs.len() / 16;
    let within = rng.below(held) as u8;
    let beyond = rng.pick(&[held as u8, 255]);
    let any = rng.u8();
    srh.last_entry = rng.pick(&[within, beyond, any]);
    srh.segments_left = rng.pick(&[1, 2, 255, any.max(1)]);
    match (kind, number) {
        (Kind::E6, 8) => {
            srh.segments_left = 1;
            srh.last_entry = within;
        }
        (_, 8) => srh.segments_left = 0,
        (Kind::E6, _) => match rng.below(4) {
            0 => srh.segments_left = 0,
            1 => srh.segments_left = rng.pick(&[2, 255]),
            _ => {
                srh.segments_left = 1;
                srh.last_entry = beyond;
            }
        },
        (Kind::Waypoint, 7) => match rng.below(2) {
            0 => srh.last_entry = beyond,
            _ => {
                srh.last_entry = within;
                srh.segments_left = within.saturating_add(rng.pick(&[2, 2, 3]));
            }
        },
        _ => {}
    }
    srh
}

/// Types of ICMPv6 around those of which none is due.
const TYPES: [u8; 16] = [
    0, 0, 1, 1, 3, 4, 127, 127, 128, 129, 136, 137, 137, 138, 200, 255,
];
const OTHERS: [u8; 10] = [1, 4, 6, 41, 50, 57, 59, 89, 143, 17];

fn put_upper(
    rng: &mut Rng,
    kind: Kind,
    number: u8,
    session_type: Option<SessionType>,
    draft: &mut Draft,
) {
    let choice = rng.below(20);
    let length = rng.between(1, 64);
    let mut octets = rng.octets(length);
    match choice {
        0..=6 => {
            octets[0] = rng.pick(&TYPES);
            draft.protocol = next_header::ICMPV6;
            draft.upper = UpperDraft::Plain(octets);
        }
        7 => {
            draft.protocol = next_header::ICMPV6;
            draft.upper = UpperDraft::Plain(Vec::new());
        }
        8..=13 => {
            octets[0] = rng.pick(&[1, 1, 137, 137, 0, 127]);
            draft.protocol = rng.pick(&OTHERS);
            draft.upper = UpperDraft::Plain(octets);
        }
        _ => {}
    }
    if number != 8 {
        return;
    }
    // What the kind takes is no answer 8.
    match (kind, &mut draft.upper) {
        (Kind::D | Kind::Di, UpperDraft::Gtpu(gtpu)) => {
            gtpu.destination_port = rng.pick(&[2151, 2153, 0x6808, 0]);
            if rng.chance(50) {
                gtpu.source_port = u16::from_be_bytes([rng.pick(&[1, 137]), rng.u8()]);
            }
        }
        (Kind::D | Kind::Di, _) if draft.protocol == next_header::UDP => draft.protocol = 59,
        _ => {
            let taken = |protocol| session_type.is_some_and(|session| session.admits(protocol));
            while taken(draft.protocol) {
                draft.protocol = rng.pick(&OTHERS);
            }
        }
    }
}

/// Around 1,232, which is all that is quoted; the longest packet; nothing behind the headers.
fn put_length(rng: &mut Rng, draft: &mut Draft) {
    let before = draft.overhead();
    let length = match rng.below(80) {
        0..=6 => before,
        7..=12 => 1_231,
        13..=18 => 1_232,
        19..=24 => 1_233,
        25..=28 => 1_234,
        29..=31 => rng.between(1_220, 1_245),
        32 | 33 => 65_575,
        34 => rng.between(65_535, 65_574),
        35..=37 => rng.between(60, 3_000),
        _ => return,
    };
    let Some(wanted) = length.checked_sub(before) else {
        return;
    };
    let inner = draft.inner();
    let more = wanted.saturating_sub(inner.len());
    inner.truncate(wanted);
    inner.extend(match rng.below(8) {
        0..=2 => vec![0xff; more],
        3 => vec![0; more],
        _ => rng.octets(more),
    });
}

/// The flow label's last 16 bits, which are a word of what is quoted, become such that 0 is computed.
fn steer(packet: &mut [u8], table: &[u8]) {
    let (_, message) = icmp(packet, table, LONGEST);
    if let (Some(&[high, low]), Some(word)) = (message.get(42..44), packet.get_mut(2..4)) {
        let before = u32::from_be_bytes([0, 0, word[0], word[1]]);
        let sum = before + u32::from_be_bytes([0, 0, high, low]);
        word.copy_from_slice(&((sum % 65_535) as u16).to_be_bytes());
    }
}

/// Around the length that a message has, whether one is due or not.
fn choose_room(rng: &mut Rng, packet: &[u8]) -> usize {
    let exact = LONGEST.min(48 + packet.len());
    match rng.below(20) {
        0..=5 => exact,
        6..=8 => exact + 1,
        9 | 10 => exact + rng.below(64),
        11 => packet.len() + 200,
        12 => LONGEST,
        13..=15 => exact - 1,
        16..=18 => 0,
        _ => rng.below(exact),
    }
}

/// `icmp answer room packet-hex table-hex out-hex`, the answer packed, in 16 hexadecimal digits.
pub fn line(case: &IcmpCase) -> String {
    format!(
        "icmp {:016x} {} {} {} {}",
        case.answer.pack(),
        case.room,
        hex(&case.packet),
        hex(&case.table),
        hex(&case.sent),
    )
}

/// The case of a line; for which kind it was made, and what the packet is, is lost.
pub fn parse(line: &str) -> Result<IcmpCase, String> {
    let fields: Vec<&str> = line.split(' ').collect();
    let &["icmp", answer, room, packet, table, sent] = &fields[..] else {
        return Err(format!("{} fields, not icmp and 5 more", fields.len()));
    };
    let octets_of = |text: &str| unhex(text).ok_or_else(|| format!("{text} is not hex"));
    let packed = u64::from_str_radix(answer, 16);
    let case = IcmpCase {
        packet: octets_of(packet)?,
        table: octets_of(table)?,
        room: match room.parse() {
            Ok(room) if room <= LARGEST_ROOM => room,
            _ => return Err(format!("{room} is no room")),
        },
        answer: packed
            .map(Answer::unpack)
            .map_err(|_| format!("{answer} is no answer"))?,
        sent: octets_of(sent)?,
        kind: None,
        origin: Origin::Packet,
    };
    let length = case.sent.len();
    if length != case.answer.length as usize || length > case.room {
        return Err(format!("{length} octets sent, room {}", case.room));
    }
    Ok(case)
}

/// The IPv6 call with the same room.
pub fn said(case: &IcmpCase) -> Answer {
    Call::Ipv6.run(&case.packet, &case.table, &mut vec![0; case.room])
}

#[cfg(test)]
mod tests {
    use super::*;

    #[test]
    fn lines_come_back() {
        for index in 0..600 {
            let case = case(3, index);
            let (kind, origin) = (None, Origin::Packet);
            let parsed = parse(&line(&case));
            assert_eq!(
                parsed,
                Ok(IcmpCase {
                    kind,
                    origin,
                    ..case
                })
            );
        }
    }

    #[test]
    fn a_difference_is_shown() {
        let table = "01000000000000000000000000000000";
        let right = parse(&format!("icmp 0000000000000017 9 60 {table} -")).unwrap();
        assert_eq!(right.check(), Ok(()));
        let wrong = parse(&format!("icmp 0000000000000010 9 60 {table} -")).unwrap();
        assert_eq!(
            wrong.check().unwrap_err(),
            "answer 23 (unknown); expected 16 (no room)"
        );
    }

    /// Of a message, and behind it.
    #[test]
    fn each_octet_is_judged() {
        let built = |case: &IcmpCase| case.answer.number == 0 && case.room > case.sent.len();
        let case = (0..).map(|index| case(4, index)).find(built).unwrap();
        for at in 0..case.room {
            let checked = case.check_by(|packet, table, out| {
                let packed = icmp_ipv6(packet, table, out);
                out[at] ^= 1;
                packed
            });
            assert!(checked.unwrap_err().starts_with(&format!("octet {at} ")));
        }
        for bit in 0..64 {
            let turned = |packet: &[u8], table: &[u8], out: &mut [u8]| {
                icmp_ipv6(packet, table, out) ^ 1 << bit
            };
            assert!(case.check_by(turned).unwrap_err().starts_with("answer "));
        }
    }

    #[test]
    fn wrong_lines() {
        let right = "icmp 0000000000000017 5 60 00 -";
        assert!(parse(right).is_ok());
        for (from, to) in [
            ("0000000000000017", "g"),
            ("0000000000000017", "0000010000000000"),
            (" 5 ", " -5 "),
            (" 5 ", " 16777217 "),
            ("60", "6"),
            (" 00 ", " 0 "),
            (" -", " 60"),
            (" -", ""),
            (" -", " - -"),
        ] {
            let line = right.replace(from, to);
            assert_ne!(line, right);
            assert!(parse(&line).is_err(), "{line}");
        }
    }
}
