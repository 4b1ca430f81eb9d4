//! Bursts once more: by single calls into outputs of their own, and by what has to hold of two
//! bursts that differ in one thing.

use second::burst::burst;
use second::burst::cases::{bursts, Burst};
use second::generate::translate;
use second::rng::Rng;
use second::Answer;

/// What a burst leaves, over zeros.
#[derive(Debug, PartialEq, Eq)]
struct Left {
    packed: u64,
    out: Vec<u8>,
    answers: Vec<u64>,
}

fn run(one: &Burst, packets: &[u8], lengths: &[u32], room: usize, places: usize) -> Left {
    let (mut out, mut answers) = (vec![0; room], vec![0; places]);
    let packed = burst(
        one.call,
        packets,
        lengths,
        &one.table,
        &mut out,
        &mut answers,
    );
    Left {
        packed,
        out,
        answers,
    }
}

fn as_it_is(one: &Burst) -> Left {
    run(one, &one.packets, &one.lengths, one.room, one.places)
}

/// Those that are not refused, and have a packet.
fn answered(seed: u64) -> impl Iterator<Item = Burst> {
    let all = bursts(seed, 0).map(|(_, burst)| burst);
    all.filter(|burst| burst.answer.number == 0 && !burst.lengths.is_empty())
        .take(1_500)
}

#[test]
fn each_packet_by_a_call_of_its_own() {
    for burst in answered(31) {
        let (mut at, mut sent) = (0, Vec::<u8>::new());
        for (&length, wanted) in burst.lengths.iter().zip(&burst.answers) {
            let packet = &burst.packets[at..at + length as usize];
            at += length as usize;
            let mut out = vec![0; burst.room - sent.len()];
            let packed = translate(burst.call, packet, &burst.table, &mut out);
            assert_eq!(packed, wanted.pack());
            sent.extend(&out[..wanted.length as usize]);
        }
        assert_eq!(at, burst.packets.len());
        assert_eq!(sent, burst.sent);
        assert_eq!(burst.answer, Answer::sent(sent.len()));
    }
}

#[test]
fn two_bursts_for_one() {
    let rng = &mut Rng::new(32);
    for burst in answered(32) {
        let whole = as_it_is(&burst);
        let (first, second) = burst.lengths.split_at(rng.below(burst.lengths.len() + 1));
        let at = first.iter().sum::<u32>() as usize;
        let (packets, behind) = burst.packets.split_at(at);
        let one = run(&burst, packets, first, burst.room, first.len());
        let sent = (one.packed >> 40) as usize;
        let rest = burst.room - sent;
        let two = run(&burst, behind, second, rest, burst.places - first.len());
        let joined = Left {
            packed: one.packed + two.packed,
            out: [&one.out[..sent], &two.out].concat(),
            answers: [one.answers, two.answers].concat(),
        };
        assert_eq!(joined, whole);
    }
}

#[test]
fn an_empty_packet_more_changes_nothing_else() {
    let rng = &mut Rng::new(33);
    for burst in answered(33).filter(|burst| burst.lengths.len() < 32) {
        let mut whole = as_it_is(&burst);
        let at = rng.below(burst.lengths.len() + 1);
        let mut lengths = burst.lengths.clone();
        lengths.insert(at, 0);
        let sound = second::Table::decode(&burst.table).is_ok();
        whole.answers.insert(at, if sound { 2 } else { 1 });
        let more = run(
            &burst,
            &burst.packets,
            &lengths,
            burst.room,
            burst.places + 1,
        );
        assert_eq!(more, whole);
    }
}

#[test]
fn more_places_and_more_room_behind_what_is_used() {
    for burst in answered(34) {
        let mut whole = as_it_is(&burst);
        whole.answers.extend([0; 40]);
        let mut room = burst.room;
        if !burst.answers.iter().any(|answer| answer.number == 16) {
            room += 40;
            whole.out.extend([0; 40]);
        }
        let places = burst.places + 40;
        let more = run(&burst, &burst.packets, &burst.lengths, room, places);
        assert_eq!(more, whole);
    }
}

/// Room 0, then one octet more each time: what is sent grows, but never by what does not fit.
#[test]
fn every_room() {
    for burst in answered(35)
        .filter(|burst| burst.packets.len() < 700)
        .take(60)
    {
        let mut each = Vec::new();
        let mut at = 0;
        for &length in &burst.lengths {
            let packet = &burst.packets[at..at + length as usize];
            at += length as usize;
            let mut out = [0; 1_000];
            let packed = translate(burst.call, packet, &burst.table, &mut out);
            let length = Answer::unpack(packed).length as usize;
            each.push((packed, out[..length].to_vec()));
        }
        let all: usize = each.iter().map(|(_, result)| result.len()).sum();
        for room in 0..=all + 1 {
            let left = run(&burst, &burst.packets, &burst.lengths, room, burst.places);
            let mut wanted = Vec::new();
            for ((packed, result), &found) in each.iter().zip(&left.answers) {
                if wanted.len() + result.len() <= room {
                    assert_eq!(found, *packed);
                    wanted.extend(result);
                } else {
                    assert_eq!(found, 16);
                }
            }
            assert_eq!(left.packed, (wanted.len() as u64) << 40);
            wanted.resize(room, 0);
            assert_eq!(left.out, wanted);
        }
    }
}

/// Every number of places, and each length one more or less, for a burst that is answered.
#[test]
fn number_19() {
    for burst in answered(36)
        .filter(|burst| burst.packets.len() < 20_000)
        .take(200)
    {
        let refused = |lengths: &[u32], places: usize| {
            let left = run(&burst, &burst.packets, lengths, burst.room, places);
            assert_eq!(left.packed, 19);
            assert!(left.out.iter().all(|&octet| octet == 0));
            assert!(left.answers.iter().all(|&place| place == 0));
        };
        let count = burst.lengths.len();
        for places in 0..count {
            refused(&burst.lengths, places);
        }
        for at in 0..count {
            let mut lengths = burst.lengths.clone();
            lengths[at] += 1;
            refused(&lengths, count);
            lengths[at] += 65_535;
            refused(&lengths, count);
            lengths[at] += 0x7fff_0000;
            refused(&lengths, count);
            // Twice 2,147,483,648 more: right in 32 bits.
            if at > 0 {
                lengths[at - 1] += 0x8000_0000;
                refused(&lengths, count);
            }
            if let Some(fewer) = burst.lengths[at].checked_sub(1) {
                let mut lengths = burst.lengths.clone();
                lengths[at] = fewer;
                refused(&lengths, count);
            }
        }
        let mut lengths = burst.lengths.clone();
        lengths.resize(33, 0);
        refused(&lengths, 40);
    }
}
