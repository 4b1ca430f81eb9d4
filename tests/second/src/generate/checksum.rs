//! UDP checksums over IPv6 (order 2). The right one is found here by remainders, apart from the rule
//! that is judged; after all damage it is written once more, or one of the wrong ones, or 0, or
//! the packet becomes one for which 0 is computed.

use super::packets::Assembled;
use super::{Call, Kind, LONGEST};
use crate::gtpu::ECHO_RESPONSE;
use crate::ipv6::next_header;
use crate::rng::Rng;

/// What coverage asks for by name.
pub const SOURCE_BIT: &str = "one bit of the source address under the UDP checksum";
pub const DESTINATION_BIT: &str = "one bit of the destination under the UDP checksum";
pub const PORT_BIT: &str = "one bit of the source port under the UDP checksum";
pub const PAYLOAD_BIT: &str = "one bit of the payload under the UDP checksum";

/// The checksum of RFC 8200, 8.1, from both addresses and a datagram with anything in its field: with
/// it the sum of all words is a multiple of 65,535. So it is from 1 to 65,535, and FFFF for 0.
pub fn right(addresses: &[u8], datagram: &[u8]) -> u16 {
    let (header, rest) = (&datagram[..6], &datagram[8..]);
    let sum = remainder(addresses) + remainder(header) + remainder(rest);
    (65_535 - (sum + datagram.len() as u64 + 17) % 65_535) as u16
}

/// 65,536 leaves 1, so what the words sum up to leaves as much as the number that they write.
pub fn remainder(octets: &[u8]) -> u64 {
    let of_chunk = |chunk: &[u8]| {
        let mut number = [0; 8];
        number[..chunk.len()].copy_from_slice(chunk);
        u64::from_be_bytes(number) % 65_535
    };
    octets.chunks(8).map(of_chunk).sum()
}

/// What is done about the checksum when all else is done.
pub fn finish(
    rng: &mut Rng,
    kind: Kind,
    packet: &mut Assembled,
    table: &[u8],
) -> Option<&'static str> {
    match kind {
        Kind::E6 if rng.chance(15) => steer_e6(rng, packet, table),
        Kind::D | Kind::Di => at_d(rng, packet, table),
        _ => {
            if rng.chance(80) {
                packet.repair_udp_checksum();
            }
            None
        }
    }
}

fn answer(packet: &Assembled, table: &[u8]) -> (u8, Vec<u8>) {
    let mut out = vec![0; LONGEST.min(packet.octets.len() + 200)];
    let answer = Call::Ipv6.run(&packet.octets, table, &mut out);
    out.truncate(answer.length as usize);
    (answer.number, out)
}

/// What stands in the field of a packet sent over IPv6.
fn field(sent: &[u8]) -> Option<u16> {
    let field = sent.get(46..48)?.try_into().ok()?;
    Some(u16::from_be_bytes(field))
}

/// A word that is more by a checksum: with the word in its place, 0 is computed.
fn add(packet: &mut Assembled, at: usize, checksum: u16) {
    let sum = u32::from(packet.get16(at)) + u32::from(checksum);
    packet.set16(at, (sum % 65_535) as usize);
}

/// Any of the words in this range, of which the first begins there.
fn word(rng: &mut Rng, from: usize, to: usize) -> Option<usize> {
    let count = to.checked_sub(from)? / 2;
    (count > 0).then(|| from + 2 * rng.below(count))
}

/// In SRH[0], which becomes the destination, or inside.
fn steer_e6(rng: &mut Rng, packet: &mut Assembled, table: &[u8]) -> Option<&'static str> {
    let (0, sent) = answer(packet, table) else {
        return None;
    };
    let segment = packet.layout.srh? + 8;
    let inside = word(rng, packet.layout.inner, packet.octets.len());
    let at = match inside {
        Some(at) if rng.chance(60) => at,
        _ => word(rng, segment, segment + 16)?,
    };
    add(packet, at, field(&sent)?);
    Some("0 is computed for what E6 writes")
}

/// In the sequence number, the source port or the source address of an Echo Request.
fn steer_reply(rng: &mut Rng, packet: &mut Assembled, sent: &[u8]) -> Option<&'static str> {
    let number = packet.layout.gtpu? + 8;
    let address = word(rng, 8, 24)?;
    let at = rng.pick(&[number, packet.layout.upper, address]);
    add(packet, at, field(sent)?);
    packet.repair_udp_checksum();
    Some("0 is computed for the Echo Response")
}

/// In the source port, the source address or inside: 0 is then computed.
fn steer(rng: &mut Rng, packet: &mut Assembled, right: u16) {
    let address = word(rng, 8, 24);
    // The first word inside may say the inner version.
    let inside = word(rng, packet.layout.inner + 2, packet.octets.len());
    let port = Some(packet.layout.upper);
    let at = rng.pick(&[port, address, inside, inside]).or(address);
    if let Some(at) = at {
        add(packet, at, right);
    }
}

fn turn(rng: &mut Rng, packet: &mut Assembled, from: usize, to: usize) {
    if let Some(octet) = packet.octets.get_mut(rng.between(from, to - 1)) {
        *octet ^= 1 << rng.below(8);
    }
}

/// At D and Di: mostly right.
fn at_d(rng: &mut Rng, packet: &mut Assembled, table: &[u8]) -> Option<&'static str> {
    if rng.chance(3) {
        return Some("UDP checksum as the damage left it");
    }
    packet.repair_udp_checksum();
    let (at, right) = packet.udp_checksum()?;
    let (number, sent) = answer(packet, table);
    if number == 0 && sent[6] == next_header::UDP && sent.get(49) == Some(&ECHO_RESPONSE) {
        match rng.below(10) {
            0 => return steer_reply(rng, packet, &sent),
            1 => {
                packet.set16(at, 0);
                return Some("UDP checksum 0");
            }
            _ => {}
        }
    }
    // Rows that few packets meet are to be met behind this one too.
    let percent = match number {
        15 => 60,
        11 | 13 | 14 | 17 => 40,
        _ => 30,
    };
    if !rng.chance(percent) {
        return None;
    }
    let upper = packet.layout.upper;
    Some(match rng.below(20) {
        0..=3 => {
            packet.set16(at, 0);
            "UDP checksum 0"
        }
        4..=8 => {
            packet.set16(at, (right ^ 1 << rng.below(16)).into());
            "one bit of the UDP checksum"
        }
        9 => {
            turn(rng, packet, 8, 24);
            SOURCE_BIT
        }
        10 => {
            turn(rng, packet, 24, 40);
            DESTINATION_BIT
        }
        11 => {
            turn(rng, packet, upper, upper + 2);
            PORT_BIT
        }
        12 if packet.octets.len() > upper + 8 => {
            turn(rng, packet, upper + 8, packet.octets.len());
            PAYLOAD_BIT
        }
        13 => {
            packet.set16(at, 0xffff);
            "UDP checksum FFFF"
        }
        14 => {
            steer(rng, packet, right);
            packet.set16(at, 0xffff);
            "UDP checksum FFFF where 0 is computed"
        }
        15 => {
            steer(rng, packet, right);
            let any = rng.u16();
            packet.set16(at, rng.pick(&[1, 0xfffe, any]).into());
            "UDP checksum wrong where 0 is computed"
        }
        16 | 17 => {
            steer(rng, packet, right);
            packet.set16(at, 0);
            "UDP checksum 0 where 0 is computed"
        }
        _ => {
            let any = rng.u16();
            let (over, under) = (right.wrapping_add(1), right.wrapping_sub(1));
            // As without the addresses, the length or the next header of the pseudo-header, and with
            // a last octet in the low half.
            let datagram = &packet.octets[upper..];
            let bare = self::right(&[], datagram);
            let last = match datagram {
                [.., last] if datagram.len() % 2 == 1 => usize::from(*last),
                _ => 1,
            };
            let without = |left_out: usize| (usize::from(right) + left_out) % 65_535;
            let slips = [
                bare.into(),
                without(datagram.len()),
                without(17),
                without(255 * last),
            ];
            let values = [!right, right.swap_bytes(), over, under, any].map(usize::from);
            let value = match rng.below(2) {
                0 => rng.pick(&slips),
                _ => rng.pick(&values),
            };
            packet.set16(at, value);
            "UDP checksum wrong"
        }
    })
}

#[cfg(test)]
mod tests {
    use super::*;
    use crate::udp::{self, Addresses};

    /// The rule and the remainders, on octets of every length, all ones and zeros among them.
    #[test]
    fn two_ways() {
        let mut rng = Rng::new(21);
        for round in 0..4_000 {
            let length = 8 + match round % 40 {
                0 => rng.between(60_000, 65_527),
                _ => rng.below(80),
            };
            let mut octets = rng.octets(32 + length);
            match round % 5 {
                0 => octets.fill(0),
                1 => octets.fill(0xff),
                _ => {}
            }
            let (addresses, datagram) = octets.split_at_mut(32);
            let mut once = right(addresses, datagram);
            if round % 3 == 0 {
                // 0 is computed.
                let word = u32::from_be_bytes([0, 0, datagram[0], datagram[1]]);
                let word = (word + u32::from(once)) % 65_535;
                datagram[..2].copy_from_slice(&(word as u16).to_be_bytes());
                once = 0xffff;
                assert_eq!(right(addresses, datagram), once);
            }
            let of = |octets: &[u8]| u128::from_be_bytes(octets.try_into().unwrap());
            let both = Addresses {
                source: of(&addresses[..16]),
                destination: of(&addresses[16..]),
            };
            assert_eq!(udp::checksum(both, datagram), once, "round {round}");
        }
    }
}
