//! Threads that share a table and packets, each with an output of its own.

use crate::bench::exports;
use crate::library::{self, Export};
use crate::mutate;
use crate::place::Place;
use crate::progress::Progress;
use crate::raw::{self, Input, Pages, Side, MOST};
use second::burst::cases::Burst;
use second::icmp::{icmp, LONGEST};
use second::matching::pairs::{self, Ask};
use second::{generate, sequence, Answer, Case};
use std::ops::Range;
use std::sync::atomic::{AtomicU64, Ordering};
use std::sync::Barrier;
use std::thread;

/// Packets that meet one table: the case's own and mutated ones.
const PACKETS: usize = 4;
/// How often each thread calls with each packet at the least.
const ROUNDS: usize = 200;

/// Calls made, and those during which another thread was in one, as seen at
/// their beginning and end.
#[derive(Default)]
pub struct Tally {
    pub calls: u64,
    pub overlapping: u64,
}

pub fn run(seed: u64, indices: Range<u64>, threads: u64) -> Result<Tally, String> {
    let mut table = Input::new();
    let mut packets: Vec<Input> = (0..PACKETS).map(|_| Input::new()).collect();
    let (mut burst_packets, mut burst_lengths) = (Input::new(), Input::new());
    let mut outputs: Vec<Pages> = (0..threads).map(|_| Pages::new(MOST)).collect();
    let mut progress = Progress::new();
    let mut tally = Tally::default();
    for index in indices {
        progress.say(|| format!("boundary threads: seed {seed}, {index} shared cases"));
        let case = generate::case(seed, index);
        let mut cases: Vec<Case> = (1..PACKETS as u64)
            .map(|mutation| mutate::other_packet(&case, seed, index, mutation))
            .collect();
        cases.push(case);
        table.set(&cases[0].table, Side::End);
        for (packet, case) in packets.iter_mut().zip(&cases) {
            packet.set(&case.packet, Side::End);
        }
        let burst = burst_of(&cases);
        burst_packets.set(&burst.packets, Side::End);
        burst_lengths.set(&octets_of(&burst.lengths), Side::End);
        let place = Place::Shared { seed, index };
        let numbers = cases
            .iter()
            .map(|case| sequence::read(case.call, &case.packet));
        let mismatches = cases
            .iter()
            .map(|case| mismatches(&case.table, &case.packet, pairs::mismatch));
        let messages = cases
            .iter()
            .map(|case| icmp(&case.packet, &case.table, LONGEST));
        let shared = Shared {
            place,
            cases: &cases,
            numbers: numbers.collect(),
            mismatches: mismatches.collect(),
            messages: messages.collect(),
            packets: &packets,
            burst: &burst,
            burst_packets: &burst_packets,
            burst_lengths: &burst_lengths,
            table: &table,
            start: Barrier::new(outputs.len()),
            working: AtomicU64::new(threads),
            inside: AtomicU64::new(0),
        };
        let results: Vec<_> = thread::scope(|scope| {
            let running: Vec<_> = (0..)
                .zip(&mut outputs)
                .map(|(offset, output)| {
                    let shared = &shared;
                    scope.spawn(move || shared.work(offset, output))
                })
                .collect();
            running.into_iter().map(|thread| thread.join()).collect()
        });
        for result in results {
            match result {
                Ok(of_thread) => {
                    let of_thread = of_thread?;
                    tally.calls += of_thread.calls;
                    tally.overlapping += of_thread.overlapping;
                }
                Err(panic) => std::panic::resume_unwind(panic),
            }
        }
    }
    Ok(tally)
}

/// Whether a table fits itself, and what would be the IPv6 destination of a packet as a waypoint.
fn mismatches(table: &[u8], packet: &[u8], ask_for: fn(Ask, &[u8], u64, &[u8]) -> u64) -> [u64; 3] {
    let sid = packet.get(24..40).unwrap_or(packet);
    Ask::ALL.map(|ask| match ask {
        Ask::Ipv6 | Ask::Ipv4 => ask_for(ask, table, 0, table),
        Ask::Waypoint => ask_for(ask, table, 0, sid),
    })
}

/// All packets in one burst, with room for what they are together.
fn burst_of(cases: &[Case]) -> Burst {
    let packets: Vec<&[u8]> = cases.iter().map(|case| &case.packet[..]).collect();
    let room = packets.iter().map(|packet| packet.len()).sum();
    Burst::of_packets(cases[0].call, &packets, &cases[0].table, room)
}

fn octets_of(lengths: &[u32]) -> Vec<u8> {
    lengths.iter().flat_map(|n| n.to_ne_bytes()).collect()
}

struct Shared<'a> {
    place: Place,
    cases: &'a [Case],
    /// What the readers of sequence numbers give for the packets.
    numbers: Vec<u64>,
    mismatches: Vec<[u64; 3]>,
    messages: Vec<(Answer, Vec<u8>)>,
    packets: &'a [Input],
    burst: &'a Burst,
    burst_packets: &'a Input,
    burst_lengths: &'a Input,
    table: &'a Input,
    start: Barrier,
    /// Threads that have rounds to do.
    working: AtomicU64,
    /// Threads that are in a call.
    inside: AtomicU64,
}

impl Shared<'_> {
    /// Goes on until every thread has done its rounds, so that none is alone.
    fn work(&self, offset: usize, output: &mut Pages) -> Result<Tally, String> {
        raw::runs(self.place);
        self.start.wait();
        let mut tally = Tally::default();
        for round in 1.. {
            let done = self.round(offset + round, output, &mut tally);
            if round == ROUNDS || done.is_err() {
                self.working.fetch_sub(1, Ordering::Relaxed);
            }
            done?;
            if round >= ROUNDS {
                if self.working.load(Ordering::Relaxed) == 0 {
                    break;
                }
                thread::yield_now();
            }
        }
        Ok(tally)
    }

    /// The ICMPv6 message about a packet, with room for any.
    fn message(&self, number: usize, output: &mut Pages, tally: &mut Tally) -> Result<(), String> {
        let (answer, octets) = &self.messages[number];
        let mut others = 0;
        let checked = generate::judge(LONGEST, *answer, octets, |out| {
            let own = &mut output.octets()[MOST - out.len()..];
            own.copy_from_slice(out);
            let (packet, table) = (self.packets[number].octets(), self.table.octets());
            others += self.inside.fetch_add(1, Ordering::Relaxed);
            let packed = Export::Icmp.call(packet, table, own);
            others += self.inside.fetch_sub(1, Ordering::Relaxed) - 1;
            out.copy_from_slice(own);
            packed
        });
        checked.map_err(|why| {
            let (place, name) = (self.place, Export::Icmp.name());
            let (packets, again) = (self.cases.len(), place.command());
            format!("{place}, packet {number} of {packets}, {name}: {why}\n  run again: {again}")
        })?;
        tally.calls += 1;
        tally.overlapping += u64::from(others > 0);
        Ok(())
    }

    /// All packets in one call.
    fn burst(&self, output: &mut Pages, tally: &mut Tally) -> Result<(), String> {
        let mut others = 0;
        let checked = self.burst.check_by(|call, _, _, _, out, answers| {
            let own = &mut output.octets()[MOST - out.len()..];
            own.copy_from_slice(out);
            let (packets, table) = (self.burst_packets.octets(), self.table.octets());
            let lengths = raw::numbers(self.burst_lengths.octets());
            others += self.inside.fetch_add(1, Ordering::Relaxed);
            let packed = library::burst(call, packets, lengths, table, own, answers);
            others += self.inside.fetch_sub(1, Ordering::Relaxed) - 1;
            out.copy_from_slice(own);
            packed
        });
        checked.map_err(|why| {
            let (place, name) = (self.place, library::burst_name(self.burst.call));
            let again = place.command();
            format!("{place}, {name}: {why}\n  run again: {again}")
        })?;
        tally.calls += 1;
        tally.overlapping += u64::from(others > 0);
        Ok(())
    }

    /// A call with each packet, and one with all. Each thread begins at another, so that
    /// they meet on the same packet and on different ones.
    fn round(&self, from: usize, output: &mut Pages, tally: &mut Tally) -> Result<(), String> {
        for step in from..from + self.cases.len() {
            let number = step % self.cases.len();
            let case = &self.cases[number];
            let of_call = exports(case.call);
            let export = of_call[(step / self.cases.len()) % of_call.len()];
            let (mut others, mut read, mut told) = (0, 0, [0; 3]);
            let checked = case.check_by(|_, _, _, out| {
                let own = &mut output.octets()[MOST - out.len()..];
                own.copy_from_slice(out);
                let (packet, table) = (self.packets[number].octets(), self.table.octets());
                others += self.inside.fetch_add(1, Ordering::Relaxed);
                let packed = export.call(packet, table, own);
                read = library::sequence(case.call, packet);
                told = mismatches(table, packet, library::mismatch);
                others += self.inside.fetch_sub(1, Ordering::Relaxed) - 1;
                out.copy_from_slice(own);
                packed
            });
            let numbered = match self.numbers[number] {
                wanted if wanted == read => Ok(()),
                wanted => Err(format!("number read {read:016x}; expected {wanted:016x}")),
            };
            let matched = match self.mismatches[number] {
                wanted if wanted == told => Ok(()),
                wanted => Err(format!("mismatches {told:x?}; expected {wanted:x?}")),
            };
            checked.and(numbered).and(matched).map_err(|why| {
                let place = self.place;
                format!(
                    "{place}, packet {number} of {}, {}: {why}\n  run again: {}",
                    self.cases.len(),
                    export.name(),
                    place.command()
                )
            })?;
            tally.calls += 1;
            tally.overlapping += u64::from(others > 0);
            self.message(number, output, tally)?;
        }
        self.burst(output, tally)
    }
}
