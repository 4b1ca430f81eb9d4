//! Order 3, "Thirty-two packets a call": the packets of a burst lie one after the other, and so do
//! their results. A burst is all IPv6 or all IPv4.

pub mod cases;
pub mod coverage;
pub mod trips;

use crate::answer::{Answer, Refusal};
use crate::generate::{translate, Call};

/// Lengths that a burst has at the most.
pub const MOST_PACKETS: usize = 32;

/// A call for each packet, with the room then left and an answer place of its own. Packed answer of
/// the burst: the lengths sent, added up.
pub fn burst(
    call: Call,
    packets: &[u8],
    lengths: &[u32],
    table: &[u8],
    out: &mut [u8],
    answers: &mut [u64],
) -> u64 {
    if !is_burst(packets, lengths, answers) {
        return Refusal::Burst.answer().pack();
    }
    let (mut arriving, mut room) = (packets, out);
    let mut sum = 0;
    // Places past the last length stay.
    for (&length, place) in lengths.iter().zip(answers) {
        let (packet, behind) = cut(arriving, length);
        *place = translate(call, packet, table, room);
        // A refused packet has length 0, so it takes no room.
        let sent = Answer::unpack(*place).length as usize;
        room = room.get_mut(sent..).unwrap_or_default();
        arriving = behind;
        sum += sent;
    }
    Answer::sent(sum).pack()
}

/// Whether 19 does not apply.
fn is_burst(packets: &[u8], lengths: &[u32], answers: &[u64]) -> bool {
    lengths.len() <= MOST_PACKETS
        && added_up(lengths) == packets.len() as u64
        && answers.len() >= lengths.len()
}

/// Decided: the sum does not wrap.
fn added_up(lengths: &[u32]) -> u64 {
    lengths.iter().map(|&length| u64::from(length)).sum()
}

/// The next packet, and what lies behind it. Lengths that add up to the octets never ask for more.
fn cut(octets: &[u8], length: u32) -> (&[u8], &[u8]) {
    octets
        .split_at_checked(length as usize)
        .unwrap_or((octets, &[]))
}

#[cfg(test)]
mod tests {
    use super::*;
    use crate::generate::case;

    /// What stands in places before the call.
    const BEFORE: u64 = 0xa5a5_a5a5_a5a5_a5a5;
    const REFUSED: u64 = 19;
    const MALFORMED: u64 = 2;

    /// Over an empty table, which is sound: answer 2 for what is no packet.
    fn of(packets: &[u8], lengths: &[u32], places: usize) -> (u64, Vec<u64>) {
        let table = crate::Table::default().encode();
        let (mut out, mut answers) = ([7; 9], vec![BEFORE; places]);
        let answer = burst(Call::Ipv6, packets, lengths, &table, &mut out, &mut answers);
        assert_eq!(out, [7; 9]);
        (answer, answers)
    }

    #[test]
    fn no_packets() {
        assert_eq!(of(&[], &[], 0), (0, vec![]));
        assert_eq!(of(&[], &[], 2), (0, vec![BEFORE; 2]));
        assert_eq!(of(&[1], &[], 2), (REFUSED, vec![BEFORE; 2]));
    }

    #[test]
    fn a_length_of_0_is_a_packet() {
        assert_eq!(of(&[], &[0], 1), (0, vec![MALFORMED]));
        assert_eq!(of(&[1], &[0, 1, 0], 4).1, [2, 2, 2, BEFORE]);
        assert_eq!(of(&[1], &[0], 1), (REFUSED, vec![BEFORE]));
    }

    #[test]
    fn lengths_add_up() {
        for (octets, lengths, answer) in [
            (3, &[1, 2][..], 0),
            (3, &[3], 0),
            (3, &[0, 3], 0),
            (3, &[1, 1], REFUSED),
            (3, &[2, 2], REFUSED),
            (3, &[4], REFUSED),
            (3, &[u32::MAX, 4], REFUSED),
            (0, &[0x8000_0000, 0x8000_0000], REFUSED),
            (0, &[u32::MAX, 1], REFUSED),
            (65_535, &[u32::MAX, 65_536], REFUSED),
            (65_535, &[65_535], 0),
            (3, &[65_539], REFUSED),
        ] {
            assert_eq!(of(&vec![0; octets], lengths, 4).0, answer, "{lengths:?}");
        }
    }

    #[test]
    fn at_most_32_lengths() {
        assert_eq!(of(&[], &[0; 32], 33).0, 0);
        assert_eq!(of(&[], &[0; 33], 40), (REFUSED, vec![BEFORE; 40]));
        assert_eq!(of(&[], &[0; 300], 400).0, REFUSED);
    }

    #[test]
    fn a_place_for_each_packet() {
        assert_eq!(of(&[], &[0; 3], 3), (0, vec![MALFORMED; 3]));
        assert_eq!(of(&[], &[0; 3], 2), (REFUSED, vec![BEFORE; 2]));
        assert_eq!(of(&[], &[0; 3], 0), (REFUSED, vec![]));
        assert_eq!(of(&[], &[0; 32], 31), (REFUSED, vec![BEFORE; 31]));
    }

    #[test]
    fn before_all_others() {
        let mut answers = [BEFORE];
        let mut run = |packets: &[u8], lengths: &[u32]| {
            let answer = burst(Call::Ipv4, packets, lengths, &[], &mut [], &mut answers);
            (answer, answers[0])
        };
        assert_eq!(run(&[1], &[2]), (REFUSED, BEFORE));
        assert_eq!(run(&[1], &[1]), (0, 1));
    }

    #[test]
    fn one_packet_is_the_call() {
        for index in 0..600 {
            let case = case(21, index);
            let mut answers = [BEFORE; 2];
            let checked = case.check_by(|call, packet, table, out| {
                let length = packet.len() as u32;
                let packed = burst(call, packet, &[length], table, out, &mut answers);
                assert_eq!(packed >> 40, answers[0] >> 40);
                assert_eq!(packed << 24, 0);
                assert_eq!(answers[1], BEFORE);
                answers[0]
            });
            assert_eq!(checked, Ok(()), "index {index}");
        }
    }
}
