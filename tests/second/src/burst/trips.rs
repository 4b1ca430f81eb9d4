//! Whole trips of bursts: several packets through the same stops, with a burst at each over what the
//! burst before it sent. They are held against the trips of the packets one at a time.
//!
//! A packet's room at a stop is what the packets before it leave there, so that all packets may go one
//! after the other, each the whole way, before the first burst is made.

use super::MOST_PACKETS;
use crate::answer::Answer;
use crate::generate::{checksum, tables, translate, Call};
use crate::ipv4::{self, Ipv4Packet};
use crate::ipv6::{next_header, Ipv6Packet};
use crate::rng::Rng;
use crate::table::{Entry, Ipv4Prefix, Ipv6Prefix, Rule, Table};
use crate::tally::{Shape, Tally};
use crate::trips::{self, Family, Stop};
use std::ops::Range;

/// Packets and where they were refused, by the number of waypoints.
pub static SHAPE: Shape = Shape {
    corner: "waypoints",
    lines: &[
        "Di to E6, arrived",
        "Di to E6, refused near",
        "Di to E6, refused between",
        "Di to E6, refused far",
        "D4 to E4, arrived",
        "D4 to E4, refused near",
        "D4 to E4, refused between",
        "D4 to E4, refused far",
    ],
    columns: &["0", "1", "2", "3", "4", "5", "6", "7"],
    can_occur: |line, column| column != "0" || !line.ends_with("between"),
};

/// Several packets for the near gateway, and the stops of all.
pub struct BurstTrip {
    pub family: Family,
    pub packets: Vec<Vec<u8>>,
    /// Each with the room for all results there.
    stops: Vec<Stop>,
    buffer_seed: u64,
}

/// What was answered to a packet at each stop that it came to.
type Answers = Vec<u64>;

impl BurstTrip {
    pub fn waypoints(&self) -> usize {
        self.stops.len() - 2
    }

    /// What stands in the buffers before.
    fn buffers(&self) -> Vec<Vec<u8>> {
        let rng = &mut Rng::new(self.buffer_seed);
        let rooms = self.stops.iter().map(|stop| stop.room);
        rooms.map(|room| rng.octets(room)).collect()
    }

    pub fn check(&self) -> Result<Vec<Answers>, String> {
        self.check_by(translate, super::burst)
    }

    /// With another implementation of a call for one packet, and of one for several: what was
    /// answered to each packet.
    pub fn check_by(
        &self,
        single: impl FnMut(Call, &[u8], &[u8], &mut [u8]) -> u64,
        mut burst: impl FnMut(Call, &[u8], &[u32], &[u8], &mut [u8], &mut [u64]) -> u64,
    ) -> Result<Vec<Answers>, String> {
        let (answers, wanted) = self.one_at_a_time(single);
        // The packets that are left, by their numbers, one after the other.
        let mut left: Vec<usize> = (0..self.packets.len()).collect();
        let mut packets = self.packets.concat();
        let mut lengths: Vec<u32> = self.packets.iter().map(|p| p.len() as u32).collect();
        for (number, (stop, mut out)) in self.stops.iter().zip(self.buffers()).enumerate() {
            let mut places = vec![u64::MAX; left.len() + 1];
            let packed = burst(
                stop.call,
                &packets,
                &lengths,
                &stop.table,
                &mut out,
                &mut places,
            );
            for (&packet, &found) in left.iter().zip(&places) {
                let wanted = answers[packet][number];
                if found != wanted {
                    let [found, wanted] = [found, wanted].map(Answer::unpack);
                    return Err(format!(
                        "stop {number}, packet {packet}: answer {found}; alone {wanted}"
                    ));
                }
            }
            if places[left.len()] != u64::MAX {
                return Err(format!(
                    "stop {number}: the place past the burst was changed"
                ));
            }
            lengths = places[..left.len()]
                .iter()
                .map(|&place| Answer::unpack(place).length)
                .collect();
            let sum: u32 = lengths.iter().sum();
            if packed != Answer::sent(sum as usize).pack() {
                let answer = Answer::unpack(packed);
                return Err(format!("stop {number}: answer {answer}, but {sum} sent"));
            }
            if out != wanted[number] {
                let mut octets = out.iter().zip(&wanted[number]);
                let at = octets.position(|(found, wanted)| found != wanted);
                let at = at.unwrap_or(0);
                return Err(format!(
                    "stop {number}: octet {at} is not that of the trips alone"
                ));
            }
            packets = out[..sum as usize].to_vec();
            left.retain(|&packet| Answer::unpack(answers[packet][number]).number == 0);
            lengths.retain(|&length| length > 0);
        }
        Ok(answers)
    }

    /// Each packet the whole way, or as far as it comes, before the next; and all buffers in the end.
    fn one_at_a_time(
        &self,
        mut single: impl FnMut(Call, &[u8], &[u8], &mut [u8]) -> u64,
    ) -> (Vec<Answers>, Vec<Vec<u8>>) {
        let mut buffers = self.buffers();
        let mut used = vec![0; self.stops.len()];
        let mut travel = |packet: &Vec<u8>| {
            let (mut current, mut answers) = (packet.clone(), Vec::new());
            for ((stop, buffer), used) in self.stops.iter().zip(&mut buffers).zip(&mut used) {
                let rest = &mut buffer[*used..];
                let packed = single(stop.call, &current, &stop.table, rest);
                answers.push(packed);
                let Answer { number, length, .. } = Answer::unpack(packed);
                if number != 0 {
                    break;
                }
                current = rest[..length as usize].to_vec();
                *used += length as usize;
            }
            answers
        };
        let answers = self.packets.iter().map(&mut travel).collect();
        (answers, buffers)
    }
}

/// The trip of a seed and an index, with other packets for the same stops; even indices go over IPv6,
/// odd ones over IPv4.
pub fn trip(seed: u64, index: u64) -> BurstTrip {
    let first = trips::trip(seed, index);
    let rng = &mut Rng::for_case(!seed, index);
    let mut stops = first.stops;
    let other = spent_on_the_way(rng, first.family, &first.packet, &mut stops);
    let count = match rng.below(8) {
        0 => 1,
        1 => MOST_PACKETS,
        _ => rng.between(2, MOST_PACKETS),
    };
    let others = (1..count).map(|_| varied(rng, first.family, &first.packet, &other));
    let mut packets: Vec<Vec<u8>> = others.collect();
    packets.insert(rng.below(count), first.packet);
    let mut trip = BurstTrip {
        family: first.family,
        packets,
        stops,
        buffer_seed: rng.u64(),
    };
    choose_rooms(rng, &mut trip);
    trip
}

/// A second entry or rule of the near gateway, like that of the packet but for one destination, which
/// is given, and mostly with a hop limit that is spent at a waypoint.
fn spent_on_the_way(rng: &mut Rng, family: Family, packet: &[u8], stops: &mut [Stop]) -> Vec<u8> {
    let hop_limit = rng.between(1, stops.len()) as u8;
    let octets = &mut stops[0].table;
    let mut table = Table::decode(octets).expect("a sound table");
    let other = match family {
        Family::Ipv6 => {
            let own = Ipv6Packet::parse(packet).expect("an IPv6 packet");
            let near = table.entry_for(own.destination);
            let (near, other) = (*near.expect("an entry for it"), rng.u128());
            table.entries.push(Entry {
                prefix: Ipv6Prefix::of(other, 128),
                hop_limit,
                ..near
            });
            other.to_be_bytes().to_vec()
        }
        Family::Ipv4 => {
            let own = Ipv4Packet::parse(packet).expect("an IPv4 packet");
            let near = table.rule_for(own.destination);
            let (near, other) = (near.expect("a rule for it").clone(), rng.u32());
            table.rules.push(Rule {
                prefix: Ipv4Prefix::of(other, 32),
                hop_limit,
                ..near
            });
            other.to_be_bytes().to_vec()
        }
    };
    *octets = table.encode();
    if rng.chance(30) {
        tables::fill_unused(rng, &table, octets);
    }
    other
}

/// Another packet: other values and inner octets, now and then the other destination, an Echo
/// Request, or damage.
fn varied(rng: &mut Rng, family: Family, packet: &[u8], other: &[u8]) -> Vec<u8> {
    let mut packet = packet.to_vec();
    let upper = match (family, packet[6]) {
        (Family::Ipv4, _) => 20,
        (Family::Ipv6, next_header::ROUTING) => 48 + 8 * usize::from(packet[41]),
        (Family::Ipv6, _) => 40,
    };
    let gtpu = upper + 8;
    let inner = gtpu + 12 + 4 * usize::from(packet[gtpu + 12]);
    if rng.chance(25) {
        let at = match family {
            Family::Ipv6 => 24..40,
            Family::Ipv4 => 16..20,
        };
        packet[at].copy_from_slice(other);
    }
    if rng.chance(8) {
        // S, TEID 0, a sequence number.
        packet.truncate(gtpu);
        packet.extend([0x32, 1, 0, 4, 0, 0, 0, 0, rng.u8(), rng.u8(), 0, 0]);
    } else {
        let teid = rng.octets(4);
        packet[gtpu + 4..gtpu + 8].copy_from_slice(&teid);
        packet[gtpu + 14] = rng.u8();
        // The first inner octet tells the version.
        let kept = packet.len().min(inner + 1);
        packet.truncate(rng.between(kept, packet.len().min(kept + 200)));
        let more = rng.below(80);
        packet.extend(rng.octets(more));
    }
    packet[1] ^= match family {
        Family::Ipv6 => rng.u8() & 0xf0,
        Family::Ipv4 => rng.u8(),
    };
    repair(family, upper, &mut packet);
    if rng.chance(15) {
        let at = rng.below(packet.len());
        match rng.below(4) {
            0 => packet.truncate(at),
            _ => packet[at] ^= 1 << rng.below(8),
        }
    }
    packet
}

/// Makes lengths and checksums right again.
fn repair(family: Family, upper: usize, packet: &mut [u8]) {
    let length = packet.len();
    let mut set = |at: usize, value: usize| {
        packet[at..at + 2].copy_from_slice(&(value as u16).to_be_bytes());
    };
    set(upper + 8 + 2, length - upper - 16);
    set(upper + 4, length - upper);
    match family {
        Family::Ipv6 => {
            set(4, length - 40);
            let (front, datagram) = packet.split_at_mut(upper);
            let right = checksum::right(&front[8..40], datagram);
            datagram[6..8].copy_from_slice(&right.to_be_bytes());
        }
        Family::Ipv4 => {
            set(2, length);
            set(10, 0);
            let right = ipv4::checksum(&packet[..20]);
            packet[10..12].copy_from_slice(&right.to_be_bytes());
        }
    }
}

/// Room for all at each stop; for a few trips less at one of them.
fn choose_rooms(rng: &mut Rng, trip: &mut BurstTrip) {
    let mut sums = vec![0; trip.stops.len()];
    for packet in &trip.packets {
        let mut current = packet.clone();
        for (stop, sum) in trip.stops.iter().zip(&mut sums) {
            let mut out = vec![0; current.len() + 200];
            let packed = translate(stop.call, &current, &stop.table, &mut out);
            let Answer { number, length, .. } = Answer::unpack(packed);
            if number != 0 {
                break;
            }
            *sum += length as usize;
            out.truncate(length as usize);
            current = out;
        }
    }
    let short = rng.below(4 * trip.stops.len());
    for (number, (stop, sum)) in trip.stops.iter_mut().zip(sums).enumerate() {
        stop.room = match number == short {
            true => rng.below(sum + 1),
            false => sum + rng.pick(&[0, 0, 1, 40]),
        };
    }
}

/// Counts the packets of a trip by what was answered.
fn add(tally: &mut Tally, trip: &BurstTrip, answers: &[Answers]) {
    let last = trip.stops.len() - 1;
    let numbers = |stop: usize| {
        answers
            .iter()
            .filter_map(move |of_packet| of_packet.get(stop))
    };
    let is = |packed: &u64, number: u8| *packed as u8 == number;
    // A 16 at a stop, and a packet behind it that is sent there.
    let passed_by = |stop: usize| {
        let mut numbers = numbers(stop);
        numbers.any(|packed| is(packed, 16)) && numbers.any(|packed| is(packed, 0))
    };
    let between = || 1..last;
    let spent = |stop: usize| numbers(stop).any(|packed| is(packed, 6));
    let edges = [
        ("1 packet", answers.len() == 1),
        ("32 packets", answers.len() == MOST_PACKETS),
        (
            "all arrived",
            numbers(last).filter(|p| is(p, 0)).count() == answers.len(),
        ),
        (
            "none left before the far gateway",
            numbers(last).count() == 0,
        ),
        (
            "6 by two waypoints",
            between().filter(|&stop| spent(stop)).count() > 1,
        ),
        (
            "6 by a waypoint, another sent there",
            between().any(|stop| spent(stop) && numbers(stop).any(|packed| is(packed, 0))),
        ),
        ("16 near, one behind it sent there", passed_by(0)),
        (
            "16 between, one behind it sent there",
            between().any(passed_by),
        ),
        ("16 far, one behind it sent there", passed_by(last)),
    ];
    let family = trip.family.name();
    let column = trip.waypoints().to_string();
    for (number, of_packet) in answers.iter().enumerate() {
        let arrived = of_packet.len() > last && is(&of_packet[last], 0);
        let end = match of_packet.len() - 1 {
            _ if arrived => "arrived",
            0 => "refused near",
            stop if stop == last => "refused far",
            _ => "refused between",
        };
        // Edges are those of the trip, and are counted once.
        let edges = edges.map(|(name, met)| (name, met && number == 0));
        tally.add(&format!("{family}, {end}"), &column, &edges);
    }
}

/// Runs the first `cases` trips of a seed.
pub fn run(seed: u64, cases: u64) -> Result<Tally, String> {
    run_by(seed, 0..cases, |_, trip| trip.check())
}

/// Runs trips of a seed with a check of one's own, to the first that fails.
pub fn run_by(
    seed: u64,
    indices: Range<u64>,
    mut check: impl FnMut(u64, &BurstTrip) -> Result<Vec<Answers>, String>,
) -> Result<Tally, String> {
    let mut tally = Tally::new(&SHAPE);
    for index in indices {
        let trip = trip(seed, index);
        let (family, waypoints) = (trip.family.name(), trip.waypoints());
        let answers = check(index, &trip).map_err(|why| {
            let packets = trip.packets.len();
            format!(
                "seed {seed} burst trip {index} ({family}, {waypoints} waypoints, {packets} \
                 packets): {why}"
            )
        })?;
        add(&mut tally, &trip, &answers);
    }
    Ok(tally)
}

#[cfg(test)]
mod tests {
    use super::*;

    #[test]
    fn no_gap() {
        let tally = run(7, 2_000).unwrap();
        assert_eq!(tally.judge(), Ok(()), "{tally}");
    }

    #[test]
    fn a_wrong_octet_place_or_sum_is_found() {
        for (index, wanted) in [
            (0, "octet"),
            (1, "octet"),
            (2, "the place past the burst was changed"),
            (3, "the place past the burst was changed"),
            (4, "sent"),
            (5, "alone"),
        ] {
            let mut calls = 0;
            let trip = trip(3, index);
            let checked =
                trip.check_by(translate, |call, packets, lengths, table, out, answers| {
                    let packed = crate::burst::burst(call, packets, lengths, table, out, answers);
                    calls += 1;
                    match (calls, index) {
                        (2, 0 | 1) => *out.last_mut().unwrap() ^= 1,
                        (2, 2 | 3) => *answers.last_mut().unwrap() = 0,
                        (2, 4) => return packed + (1 << 40),
                        (1, 5) => answers[0] ^= 1 << 24,
                        _ => {}
                    }
                    packed
                });
            let why = checked.unwrap_err();
            assert!(why.contains(wanted), "{why}");
        }
    }
}
