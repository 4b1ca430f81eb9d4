//! Any packet, any table octets, any output length: an answer, no panic, and
//! no octet changed that is not the packet's. Built with overflow checks.

use second::burst::{burst, MOST_PACKETS};
use second::generate::{case, translate, Call};
use second::icmp::icmp_ipv6;
use second::loss::{self, Row};
use second::matching::pairs::{mismatch, Ask};
use second::rng::Rng;
use second::{sequence, Answer};

fn run_both(packet: &[u8], table: &[u8], room: usize, filler: u8) {
    for call in [Call::Ipv6, Call::Ipv4] {
        let mut out = vec![filler; room];
        let answer = Answer::unpack(translate(call, packet, table, &mut out));
        let length = answer.length as usize;
        assert!(answer.number <= 18);
        assert!(length <= room);
        assert!(answer.number == 0 || length == 0);
        assert!(out[length..].iter().all(|&octet| octet == filler));
        assert!(matches!(sequence::read(call, packet) >> 48, 0 | 1));
    }
    let mut out = vec![filler; room];
    let answer = Answer::unpack(icmp_ipv6(packet, table, &mut out));
    let length = answer.length as usize;
    assert!(matches!(answer.number, 0 | 16 | 23));
    assert!(length <= room.min(1_280));
    assert_eq!(answer.number == 0, length >= 88);
    assert!(out[length..].iter().all(|&octet| octet == filler));
    for ask in Ask::ALL {
        for (other, index) in [(packet, 0), (table, 0), (table, u64::MAX)] {
            let mismatch = mismatch(ask, table, index, other);
            let (condition, record) = (mismatch as u8, mismatch >> 8 & 0xff);
            assert!(ask.numbers().contains(&condition));
            assert_eq!(record == 2, matches!(condition, 6..=12 | 16));
            assert!(record == 2 || mismatch >> 8 == 0);
            assert!(mismatch >> 16 < 64);
        }
    }
}

fn any_length(rng: &mut Rng) -> usize {
    match rng.below(20) {
        0 => rng.between(0, 70_000),
        1 => rng.pick(&[65_535, 65_536, 65_574, 65_575, 65_576, 70_000]),
        _ => rng.below(300),
    }
}

#[test]
fn random_octets() {
    let mut rng = Rng::new(11);
    for _ in 0..3_000 {
        let (packet, table, room) = (
            any_length(&mut rng),
            any_length(&mut rng),
            any_length(&mut rng),
        );
        let (mut packet, mut table) = (rng.octets(packet), rng.octets(table));
        // Sometimes a header that goes a little further.
        if let (true, Some(first)) = (rng.chance(50), packet.first_mut()) {
            *first = rng.pick(&[0x60, 0x45]);
        }
        if let (true, Some(first)) = (rng.chance(80), table.first_mut()) {
            *first = 1;
        }
        run_both(&packet, &table, room, rng.u8());
    }
}

#[test]
fn every_header_octet_of_valid_cases() {
    for index in 0..60 {
        let case = case(12, index);
        for at in 0..case.packet.len().min(120) {
            for value in [0, 1, 0x7f, 0x80, 0xff] {
                let mut packet = case.packet.clone();
                packet[at] = value;
                run_both(&packet, &case.table, case.room, 0x5a);
            }
        }
        for at in 0..case.table.len().min(500) {
            let mut table = case.table.clone();
            table[at] ^= 0xff;
            run_both(&case.packet, &table, case.room, 0x5a);
        }
    }
}

#[test]
fn every_length() {
    for index in 0..24 {
        let case = case(13, index);
        for length in 0..=case.packet.len().min(400) {
            run_both(&case.packet[..length], &case.table, 500, 1);
        }
        for length in 0..=case.table.len().min(1_500) {
            run_both(&case.packet, &case.table[..length], 500, 1);
        }
        for room in 0..=400 {
            run_both(&case.packet, &case.table, room, 1);
        }
    }
}

#[test]
fn generated_cases_hold_over_any_output() {
    for index in 0..6_000 {
        case(14, index)
            .check()
            .unwrap_or_else(|why| panic!("seed 14 index {index}: {why}"));
    }
}

#[test]
fn any_rows() {
    let mut rng = Rng::new(15);
    for _ in 0..2_000 {
        let count = rng.pick(&[0, 1, 3, 256, 300]);
        let row = |rng: &mut Rng| Row::of_octets(rng.octets(32).try_into().unwrap());
        let before: Vec<Row> = (0..count).map(|_| row(&mut rng)).collect();
        let teid = match before.len() {
            0 => rng.u32(),
            count => before[rng.below(count)].teid,
        };
        let mut after = before.clone();
        let answer = loss::offer(&mut after, teid, rng.u16());
        let changed = before.iter().zip(&after).filter(|(was, is)| was != is);
        assert_eq!(changed.count(), usize::from(answer == 0));
        assert!(matches!(answer, 0 | 25 | 26));
    }
}

/// Lengths of any kind, mostly those of octets cut somewhere.
fn any_lengths(rng: &mut Rng, octets: usize) -> Vec<u32> {
    let count = rng.pick(&[0, 1, 2, 5, 31, 32, 33, 100]);
    let mut cuts: Vec<usize> = (1..count).map(|_| rng.below(octets + 1)).collect();
    cuts.extend([0, octets]);
    cuts.sort_unstable();
    let mut lengths: Vec<u32> = cuts
        .windows(2)
        .map(|cut| (cut[1] - cut[0]) as u32)
        .collect();
    lengths.truncate(count);
    if let (true, Some(length)) = (rng.chance(20), lengths.last_mut()) {
        *length = rng.pick(&[0, 1, 0x7fff_ffff, 0x8000_0000, u32::MAX]);
    }
    lengths
}

#[test]
fn any_burst() {
    let mut rng = Rng::new(16);
    let (mut refused, mut sent) = (0, 0);
    for index in 0..4_000 {
        let case = case(16, index);
        let count = rng.between(1, 4);
        let octets = match rng.chance(20) {
            true => {
                let length = any_length(&mut rng);
                rng.octets(length)
            }
            false => case.packet.repeat(count),
        };
        let lengths = match rng.chance(40) {
            true => any_lengths(&mut rng, octets.len()),
            false => vec![case.packet.len() as u32; count],
        };
        let room = rng.pick(&[0, 1, 500, 300_000]);
        let (filler, before) = (rng.u8(), rng.u64());
        let mut out = vec![filler; room];
        let mut answers = vec![before; rng.pick(&[0, 2, 4, 32, 33, 101])];
        let call = rng.pick(&[case.call, case.call, Call::Ipv6, Call::Ipv4]);
        let packed = burst(call, &octets, &lengths, &case.table, &mut out, &mut answers);
        let answer = Answer::unpack(packed);
        let added_up: u128 = lengths.iter().map(|&length| u128::from(length)).sum();
        let whole = lengths.len() <= MOST_PACKETS
            && added_up == octets.len() as u128
            && answers.len() >= lengths.len();
        let written = if whole { lengths.len() } else { 0 };
        assert_eq!(answer.number, if whole { 0 } else { 19 });
        assert_eq!(packed >> 8 & 0xffff_ffff, 0);
        let each = answers[..written].iter().map(|&packed| {
            let answer = Answer::unpack(packed);
            assert!(answer.number <= 18);
            assert!(answer.number == 0 || answer.length == 0);
            answer.length as usize
        });
        let sum: usize = each.sum();
        assert_eq!(answer.length as usize, sum);
        assert!(sum <= room);
        assert!(out[sum..].iter().all(|&octet| octet == filler));
        assert!(answers[written..].iter().all(|&place| place == before));
        refused += usize::from(!whole);
        sent += usize::from(sum > 0);
    }
    assert!(
        refused > 1_000 && sent > 200,
        "{refused} refused, {sent} sent"
    );
}
