//! Order 6, "Send the ICMP, not just its name": from a packet that the IPv6 call answers 6, 7 or 8 the
//! ICMPv6 message of RFC 4443. The call itself answers as it did.

pub mod cases;
pub mod coverage;

use crate::answer::{Answer, Refusal};
use crate::ipv6::{self, next_header, HeaderChain, Ipv6Packet};
use crate::table::{Entry, Table};
use crate::translate::translate_ipv6;
use crate::udp::{folded, words};

/// The minimum IPv6 MTU (RFC 8200, 5), which a message does not pass (RFC 4443, 2.4 c).
pub const LONGEST: usize = 1_280;
/// Before the packet that is quoted: type, code, checksum, and the 32 bits behind them.
const FIXED_LENGTH: usize = 8;
/// Where the checksum stands in the message.
const CHECKSUM: usize = 2;
/// RFC 4443, 2.1: types from here on are informational, those below are errors.
const FIRST_INFORMATIONAL: u8 = 128;
/// Redirect (RFC 4861, 4.5).
const REDIRECT: u8 = 137;
/// RFC 4291, 2.5.2.
const UNSPECIFIED: u128 = 0;

/// The answer, which is 0, 23 or 16, and the octets of the message.
pub fn icmp(packet: &[u8], table: &[u8], room: usize) -> (Answer, Vec<u8>) {
    match encoded(packet, table, room) {
        Ok(octets) => (Answer::sent(octets.len()), octets),
        Err(refusal) => (refusal.answer(), Vec::new()),
    }
}

/// The same as a call: packed answer. A refusal changes no octet, a message only its own.
pub fn icmp_ipv6(packet: &[u8], table: &[u8], out: &mut [u8]) -> u64 {
    let (answer, octets) = icmp(packet, table, out.len());
    out[..octets.len()].copy_from_slice(&octets);
    answer.pack()
}

fn encoded(packet: &[u8], table: &[u8], room: usize) -> Result<Vec<u8>, Refusal> {
    let message = message(packet, table).ok_or(Refusal::NoneDue)?;
    if message.length() > room {
        return Err(Refusal::NoRoom);
    }
    Ok(message.encode())
}

/// The message about a packet, or `None` where none is due.
fn message<'a>(octets: &'a [u8], table: &[u8]) -> Option<Message<'a>> {
    // The room plays no part: 6, 7 and 8 come before 16.
    let said = Answer::unpack(translate_ipv6(octets, table, &mut []));
    if !matches!(said.number, 6..=8) {
        return None;
    }
    // All four are there: 1, 2, 4 and 5 do not apply.
    let table = Table::decode(table).ok()?;
    let packet = Ipv6Packet::parse(octets).ok()?;
    let entry = table.entry_for(packet.destination).ok()?;
    let chain = HeaderChain::parse(&packet).ok()?;
    if is_multicast(packet.source) || packet.source == UNSPECIFIED {
        return None;
    }
    if is_multicast(packet.destination) || is_error_or_redirect(&chain) {
        return None;
    }
    Some(Message::new(octets, &packet, entry, said))
}

/// RFC 4291, 2.7.
fn is_multicast(address: u128) -> bool {
    address >> 120 == 0xff
}

/// Where the packet ends before its type octet, it is neither.
fn is_error_or_redirect(chain: &HeaderChain) -> bool {
    let icmp_type = chain.upper.first();
    let is_either = |&octet: &u8| octet < FIRST_INFORMATIONAL || octet == REDIRECT;
    chain.protocol == next_header::ICMPV6 && icmp_type.is_some_and(is_either)
}

/// Time Exceeded (RFC 4443, 3.3) or Parameter Problem (3.4), with the IPv6 header before it.
struct Message<'a> {
    hop_limit: u8,
    source: u128,
    destination: u128,
    icmp_type: u8,
    code: u8,
    /// In Time Exceeded these bits are unused, and 0.
    pointer: u32,
    quoted: &'a [u8],
}

impl<'a> Message<'a> {
    fn new(octets: &'a [u8], packet: &Ipv6Packet, entry: &Entry, said: Answer) -> Self {
        let most = LONGEST - ipv6::HEADER_LENGTH - FIXED_LENGTH;
        Message {
            hop_limit: entry.hop_limit,
            source: entry.source,
            destination: packet.source,
            icmp_type: said.icmp_type,
            code: said.icmp_code,
            pointer: said.icmp_pointer.into(),
            quoted: &octets[..most.min(octets.len())],
        }
    }

    fn length(&self) -> usize {
        ipv6::HEADER_LENGTH + FIXED_LENGTH + self.quoted.len()
    }

    fn encode(&self) -> Vec<u8> {
        let mut body = vec![self.icmp_type, self.code, 0, 0];
        body.extend(self.pointer.to_be_bytes());
        body.extend(self.quoted);
        let checksum = self.checksum(&body).to_be_bytes();
        body[CHECKSUM..CHECKSUM + 2].copy_from_slice(&checksum);

        let (traffic_class, flow_label) = (0, 0);
        let first: u32 = 6 << 28 | traffic_class << 20 | flow_label;
        let mut octets = first.to_be_bytes().to_vec();
        octets.extend((body.len() as u16).to_be_bytes());
        octets.extend([next_header::ICMPV6, self.hop_limit]);
        octets.extend(self.source.to_be_bytes());
        octets.extend(self.destination.to_be_bytes());
        octets.extend(body);
        octets
    }

    /// RFC 4443, 2.3, of a body with 0 in the field, behind the pseudo-header of RFC 8200, 8.1. A computed
    /// 0 stays 0: FFFF in its place is a rule of UDP alone.
    fn checksum(&self, body: &[u8]) -> u16 {
        let length = body.len() as u32;
        let mut total = words(&self.source.to_be_bytes());
        total += words(&self.destination.to_be_bytes());
        total += words(&length.to_be_bytes());
        total += words(&[0, 0, 0, next_header::ICMPV6]);
        total += words(body);
        !folded(total)
    }
}

#[cfg(test)]
mod tests {
    use super::*;
    use crate::table::{
        Behaviour, Direction, Inbound, Ipv4Places, Ipv6Prefix, Policy, Session, SessionType,
    };

    const HOST: u128 = 0x2001_0db8_0000_0000_0000_0000_0000_0007;
    const OWN: u128 = 0x2001_0db8_00ff_0000_0000_0000_0000_0001;
    const WAYPOINT: u128 = 0x2001_0db8_00ee_0000_0000_0000_0000_0001;
    const D: u128 = 0x2001_0db8_000d_0000_0000_0000_0000_0001;
    const E6: u128 = 0x2001_0db8_000b_0000_0000_0000_0000_0001;
    const E4: u128 = 0x2001_0db8_000c_0000_0000_0000_0000_0001;
    const NONE_DUE: (u64, usize) = (23, 0);

    fn entry(address: u128, length: u8, behaviour: Behaviour) -> Entry {
        Entry {
            prefix: Ipv6Prefix::of(address, length),
            hop_limit: 64,
            source: OWN,
            behaviour,
        }
    }

    fn table() -> Table {
        let session = Session {
            direction: Direction::Downlink,
            session_type: SessionType::Ipv6,
        };
        let inbound = Inbound {
            session,
            policy: 0,
            zero_checksum: true,
        };
        let e6 = Behaviour::E6 {
            session,
            args_start: 8,
            source_port: 1,
        };
        let e4 = Behaviour::E4 {
            session,
            places: Ipv4Places { p: 6, q: 8 },
            source_port: 1,
        };
        Table {
            entries: vec![
                entry(WAYPOINT, 48, Behaviour::End),
                entry(D, 48, Behaviour::D(inbound)),
                entry(E6, 48, e6),
                entry(E4, 48, e4),
            ],
            policies: vec![Policy {
                args_start: 8,
                sids: vec![1, 2],
            }],
            ..Table::default()
        }
    }

    /// Hop limit 9, traffic class and flow label 0.
    fn packet(next_header: u8, source: u128, destination: u128, payload: &[u8]) -> Vec<u8> {
        let mut packet = vec![0x60, 0, 0, 0];
        packet.extend((payload.len() as u16).to_be_bytes());
        packet.extend([next_header, 9]);
        packet.extend(source.to_be_bytes());
        packet.extend(destination.to_be_bytes());
        packet.extend(payload);
        packet
    }

    /// To the waypoint, with 59 behind an SRH of one segment, SL 1. Hop limit 1, traffic class AB, flow
    /// label 12345.
    fn spent() -> Vec<u8> {
        let srh = [0x3b, 2, 4, 1, 0, 0, 0, 0];
        let segment = 0x2001_0db8_000b_0001_0000_0000_0000_0009u128.to_be_bytes();
        let mut packet = packet(43, HOST, WAYPOINT, &[&srh[..], &segment].concat());
        packet[..4].copy_from_slice(&[0x6a, 0xb1, 0x23, 0x45]);
        packet[7] = 1;
        packet
    }

    fn built(packet: &[u8]) -> Vec<u8> {
        let (answer, octets) = icmp(packet, &table().encode(), 2_000);
        assert_eq!(answer, Answer::sent(octets.len()));
        octets
    }

    /// Packed answer and length of what is built, with room enough.
    fn of(packet: &[u8], table: &Table) -> (u64, usize) {
        let (answer, octets) = icmp(packet, &table.encode(), 2_000);
        (answer.pack(), octets.len())
    }

    /// A message of these octets before what is quoted; addresses of the waypoint's entry and the host.
    fn wanted(length: u16, icmp: [u8; 8], quoted: &[u8]) -> Vec<u8> {
        let [high, low] = length.to_be_bytes();
        let front = [0x60, 0, 0, 0, high, low, 58, 64];
        let (own, host) = (OWN.to_be_bytes(), HOST.to_be_bytes());
        [&front, &own[..], &host, &icmp, quoted].concat()
    }

    #[test]
    fn time_exceeded_from_a_waypoint() {
        // 2EB9 of the entry's source and 2DC0 of the host, 0048 and 003A, 0300, and 18248 of the packet
        // make 1E243, which is E244 with its carry.
        let message = [
            0x60, 0, 0, 0, 0x00, 0x48, 0x3a, 0x40, 0x20, 0x01, 0x0d, 0xb8, 0x00, 0xff, 0, 0, 0, 0,
            0, 0, 0, 0, 0, 0x01, 0x20, 0x01, 0x0d, 0xb8, 0, 0, 0, 0, 0, 0, 0, 0, 0, 0, 0, 0x07,
            0x03, 0x00, 0x1d, 0xbb, 0, 0, 0, 0, 0x6a, 0xb1, 0x23, 0x45, 0x00, 0x18, 0x2b, 0x01,
            0x20, 0x01, 0x0d, 0xb8, 0, 0, 0, 0, 0, 0, 0, 0, 0, 0, 0, 0x07, 0x20, 0x01, 0x0d, 0xb8,
            0x00, 0xee, 0, 0, 0, 0, 0, 0, 0, 0, 0, 0x01, 0x3b, 0x02, 0x04, 0x01, 0, 0, 0, 0, 0x20,
            0x01, 0x0d, 0xb8, 0x00, 0x0b, 0x00, 0x01, 0, 0, 0, 0, 0, 0, 0, 0x09,
        ];
        assert_eq!(built(&spent()), message);
    }

    #[test]
    fn a_computed_0_stays() {
        // 4100 in the place of 2345 is 1DBB more.
        let mut packet = spent();
        packet[2..4].copy_from_slice(&[0x41, 0x00]);
        let message = wanted(72, [3, 0, 0, 0, 0, 0, 0, 0], &packet);
        assert_eq!(built(&packet), message);
    }

    #[test]
    fn the_pointer_to_segments_left() {
        // 2EB9 and 2DC0, 0038 and 003A, 0400 and 002B, and 12599 make 186AF, and with its carry 86B0.
        let packet = packet(43, HOST, D, &[0x3b, 0, 4, 1, 0, 0, 0, 0]);
        let message = wanted(56, [4, 0, 0x79, 0x4f, 0, 0, 0, 43], &packet);
        assert_eq!(built(&packet), message);
    }

    #[test]
    fn the_pointer_behind_eight_segments() {
        // 2EB9 and 2DC0, 00B8 and 003A, 0404 and 00B0, and 12628 make 18847, and with its carry 8848.
        let srh = [0x3b, 16, 4, 0, 0, 0, 0, 0];
        let packet = packet(43, HOST, D, &[&srh[..], &[0; 128]].concat());
        let message = wanted(184, [4, 4, 0x77, 0xb7, 0, 0, 0, 176], &packet);
        assert_eq!(built(&packet), message);
    }

    #[test]
    fn a_pointer_past_what_is_quoted() {
        let srh = [0x3b, 255, 4, 0, 0, 0, 0, 0];
        let packet = packet(43, HOST, E4, &[&srh[..], &[0; 2_040]].concat());
        let message = built(&packet);
        assert_eq!(message.len(), 1_280);
        assert_eq!(message[44..48], [0, 0, 0x08, 0x28]);
        assert_eq!(message[48..], packet[..1_232]);
    }

    #[test]
    fn the_first_1_232_octets_are_quoted() {
        // 0011 is the last word quoted, 22 is not: 2EB9 and 2DC0, 04D8 and 003A, 0404 and 0028, and FC2B
        // make 161E2, and with its carry 61E3.
        let mut packet = packet(59, HOST, WAYPOINT, &[0; 1_193]);
        (packet[1_231], packet[1_232]) = (0x11, 0x22);
        let icmp = [4, 4, 0x9e, 0x1c, 0, 0, 0, 40];
        assert_eq!(built(&packet), wanted(1_240, icmp, &packet[..1_232]));
        for (length, quoted) in [(40, 40), (1_231, 1_231), (1_232, 1_232), (65_575, 1_232)] {
            let packet = self::packet(59, HOST, WAYPOINT, &vec![7; length - 40]);
            assert_eq!(built(&packet)[48..], packet[..quoted], "{length}");
        }
    }

    #[test]
    fn a_last_octet_without_its_partner() {
        // AB00 is the last word: 2EB9 and 2DC0, 0031 and 003A, 0404 and 0028, and 1A6CB make 20382, which
        // is 0384 with its carries.
        let packet = packet(59, HOST, WAYPOINT, &[0xab]);
        let message = wanted(49, [4, 4, 0xfc, 0x7b, 0, 0, 0, 40], &packet);
        assert_eq!(built(&packet), message);
    }

    #[test]
    fn multicast_and_unspecified() {
        let table = &mut table();
        let any = entry(0, 0, Behaviour::End);
        table.entries.push(any);
        let due = (88 << 40, 88);
        for (address, multicast) in [
            (0xff << 120, true),
            (0xff02 << 112 | 1, true),
            (u128::MAX, true),
            ((0xff << 120) - 1, false),
            (0xfe80 << 112 | 1, false),
            (0xff << 112, false),
            (0x7f << 120, false),
            (1 << 127, false),
            (1, false),
        ] {
            let answer = if multicast { NONE_DUE } else { due };
            let from = packet(59, address, WAYPOINT, &[]);
            assert_eq!(of(&from, table), answer, "from {address:x}");
            let to = packet(59, HOST, address, &[]);
            assert_eq!(of(&to, table), answer, "to {address:x}");
        }
        assert_eq!(of(&packet(59, 0, WAYPOINT, &[]), table), NONE_DUE);
        assert_eq!(of(&packet(59, HOST, 0, &[]), table), due);
        // In an SRH it is no destination yet.
        let srh = [&[59, 2, 4, 0, 0, 0, 0, 0][..], &[0xff; 16]].concat();
        let routed = packet(43, HOST, WAYPOINT, &srh);
        assert_eq!(of(&routed, table), (112 << 40, 112));
    }

    #[test]
    fn errors_and_redirects() {
        let table = &table();
        for octet in 0..=255 {
            let none = octet < 128 || octet == 137;
            let answer = |length: usize| match none {
                true => NONE_DUE,
                false => ((length as u64) << 40, length),
            };
            let srh = |segments_left| [58, 2, 4, segments_left, 0, 0, 0, 0];
            let behind = |sl| [&srh(sl)[..], &[0; 16], &[octet]].concat();
            for destination in [WAYPOINT, D, E4] {
                let plain = packet(58, HOST, destination, &[octet]);
                assert_eq!(of(&plain, table), answer(89), "{octet}");
                let routed = packet(43, HOST, destination, &behind(0));
                assert_eq!(of(&routed, table), answer(113), "{octet}");
            }
            let routed = packet(43, HOST, E6, &behind(1));
            assert_eq!(of(&routed, table), answer(113), "{octet}");
            // Answer 6 comes of the SRH, and what lies behind it counts all the same.
            let mut spent = packet(43, HOST, WAYPOINT, &behind(1));
            spent[7] = 1;
            assert_eq!(of(&spent, table), answer(113), "{octet}");
            // Another upper layer has no such octet.
            let other = packet(59, HOST, WAYPOINT, &[octet]);
            assert_eq!(of(&other, table), (89 << 40, 89), "{octet}");
        }
        // No type octet.
        let bare = packet(58, HOST, WAYPOINT, &[]);
        assert_eq!(of(&bare, table), (88 << 40, 88));
        let routed = packet(43, HOST, D, &[58, 0, 4, 0, 0, 0, 0, 0]);
        assert_eq!(of(&routed, table), (96 << 40, 96));
    }

    #[test]
    fn a_packet_answered_otherwise() {
        let table = table();
        // A waypoint sends it on: 0, and 16 without room.
        let mut passed = spent();
        passed[7] = 2;
        let mut shorter = spent();
        shorter[5] -= 1;
        for packet in [
            passed,
            shorter,
            Vec::new(),
            packet(59, HOST, HOST, &[]),
            packet(44, HOST, WAYPOINT, &[]),
            packet(59, HOST, E6, &[]),
            packet(17, HOST, D, &[]),
        ] {
            assert_eq!(of(&packet, &table), NONE_DUE, "{packet:x?}");
            assert_eq!(icmp(&packet, &table.encode(), 0).0.pack(), 23);
        }
        let mut unsound = table.encode();
        unsound[16 + 2] = 0;
        assert_eq!(icmp(&spent(), &unsound, 2_000).0.pack(), 23);
    }

    #[test]
    fn room() {
        let (table, packet) = (table().encode(), spent());
        for (room, answer) in [
            (0, 16),
            (1, 16),
            (111, 16),
            (112, 112 << 40),
            (113, 112 << 40),
        ] {
            let mut out = vec![0x5a; room];
            assert_eq!(icmp_ipv6(&packet, &table, &mut out), answer);
            let (own, rest) = out.split_at((answer >> 40) as usize);
            assert_eq!(own, icmp(&packet, &table, room).1);
            assert!(rest.iter().all(|&octet| octet == 0x5a));
        }
        // 23 comes first.
        let mut from_nowhere = packet;
        from_nowhere[8..24].fill(0);
        assert_eq!(icmp(&from_nowhere, &table, 0), (Answer::unpack(23), vec![]));
    }

    /// At E4 and at a waypoint too, where nothing that is sent has the entry's source.
    #[test]
    fn the_longest_match() {
        for (own, other) in [(E4, 47), (WAYPOINT, 49), (D, 0)] {
            let mut table = table();
            let mut any = entry(own, other, Behaviour::End);
            (any.hop_limit, any.source) = (7, 5);
            table.entries.insert(0, any);
            let (_, message) = icmp(&packet(59, HOST, own, &[]), &table.encode(), 2_000);
            let (hop_limit, source) = match other > 48 {
                true => (7, 5),
                false => (64, OWN),
            };
            assert_eq!(message[7], hop_limit);
            assert_eq!(message[8..24], source.to_be_bytes());
        }
    }
}
