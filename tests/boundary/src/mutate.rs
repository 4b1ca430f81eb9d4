//! Cases with chance octets changed, cut off or added. What is expected of them
//! comes from the second program.

use second::generate::{self, checksum, Call, Case, Kind};
use second::ipv6::next_header::{ROUTING, UDP};
use second::rng::Rng;

/// The most octets added at a time.
const ADDED: usize = 64;

/// The case of a seed, an index and a mutation; mutation 0 changes nothing.
pub fn case(seed: u64, index: u64, mutation: u64) -> Case {
    let case = generate::case(seed, index);
    match mutation {
        0 => case,
        _ => mutated(&case, seed, index, mutation),
    }
}

fn rng(seed: u64, index: u64, mutation: u64) -> Rng {
    Rng::for_case(Rng::for_case(seed, index).u64(), mutation)
}

pub fn mutated(case: &Case, seed: u64, index: u64, mutation: u64) -> Case {
    let rng = &mut rng(seed, index, mutation);
    let (mut kind, mut packet, mut table) = (case.kind, case.packet.clone(), case.table.clone());
    if rng.chance(3) {
        kind = match kind {
            Kind::D4 => Kind::Waypoint,
            _ => Kind::D4,
        };
    }
    for _ in 0..rng.between(1, 3) {
        // Most tables that are changed at chance are unsound and hide the rest.
        if rng.chance(25) {
            octets(rng, &mut table);
        } else {
            octets(rng, &mut packet);
        }
    }
    repair(rng, kind.call(), &mut packet);
    finish(rng, case, kind, packet, table)
}

/// Another packet for the same call and table.
pub fn other_packet(case: &Case, seed: u64, index: u64, mutation: u64) -> Case {
    let rng = &mut rng(seed, index, mutation);
    let mut packet = case.packet.clone();
    octets(rng, &mut packet);
    repair(rng, case.call, &mut packet);
    finish(rng, case, case.kind, packet, case.table.clone())
}

fn finish(rng: &mut Rng, case: &Case, kind: Kind, packet: Vec<u8>, table: Vec<u8>) -> Case {
    let room = match rng.below(8) {
        0 => case.room,
        1 => rng.below(packet.len() + 1),
        _ => packet.len() + 200,
    };
    Case::new(kind, packet, table, room, vec!["mutated"])
}

fn octets(rng: &mut Rng, octets: &mut Vec<u8>) {
    // Headers stand at the front.
    let front = octets.len().min(120);
    let at = if rng.chance(80) {
        rng.below(front)
    } else {
        rng.below(octets.len())
    };
    match (rng.below(10), octets.get_mut(at)) {
        (0..=3, Some(octet)) => *octet ^= 1 << rng.below(8),
        (4..=6, Some(octet)) => *octet = rng.pick(&[0, 1, 2, 4, 17, 41, 43, 44, 0x7f, 0x80, 0xff]),
        (7, Some(octet)) => *octet = rng.u8(),
        (8, _) => octets.truncate(at),
        _ => {
            let more = rng.between(1, ADDED);
            octets.extend(rng.octets(more));
        }
    }
}

/// Half of the time makes the IP length and checksum right again, and over IPv6 the
/// UDP checksum, so that more than the first checks are reached.
fn repair(rng: &mut Rng, call: Call, packet: &mut [u8]) {
    if rng.chance(50) {
        return;
    }
    let length = packet.len();
    match call {
        Call::Ipv6 if length >= 40 => {
            packet[4..6].copy_from_slice(&((length - 40) as u16).to_be_bytes());
            repair_udp(packet);
        }
        Call::Ipv4 if length >= 20 => {
            packet[2..4].copy_from_slice(&(length as u16).to_be_bytes());
            packet[10..12].fill(0);
            let checksum = second::ipv4::checksum(&packet[..20]);
            packet[10..12].copy_from_slice(&checksum.to_be_bytes());
        }
        _ => {}
    }
}

fn repair_udp(packet: &mut [u8]) {
    let (protocol, upper) = match (packet[6], packet.get(40..42)) {
        (ROUTING, Some(&[protocol, units])) => (protocol, 48 + 8 * usize::from(units)),
        (protocol, _) => (protocol, 40),
    };
    if protocol == UDP && packet.len() >= upper + 8 {
        let (front, datagram) = packet.split_at_mut(upper);
        let right = checksum::right(&front[8..40], datagram);
        datagram[6..8].copy_from_slice(&right.to_be_bytes());
    }
}
