//! Bursts through `kawsarpa_burst_ipv6` and `kawsarpa_burst_ipv4`, judged by the second program and
//! by the calls for single packets.

use crate::bench::exports;
use crate::library;
use crate::place::Place;
use crate::progress::Progress;
use crate::raw::{self, Input, Pages, Side};
use second::burst::cases::{self, Burst};
pub use second::burst::coverage::Met;
use second::burst::trips;
use second::tally::Tally;
use second::{generate, Answer, Call};
use std::ops::Range;

const PAGE: usize = 4096;
/// More octets than the packets or the output of any burst have.
const MOST: usize = 640 * PAGE;

/// What is lent for one call: each at inaccessible pages, what is written with known octets around it.
pub struct Bench {
    packets: Input,
    lengths: Input,
    table: Input,
    /// Of several sizes: all octets are compared, and most outputs are short.
    outputs: [Written; 3],
    answers: Written,
    fault: Result<(), String>,
}

impl Bench {
    pub fn new() -> Self {
        Bench {
            packets: Input::of_size(MOST),
            lengths: Input::of_size(PAGE),
            table: Input::new(),
            outputs: [4 * PAGE, 32 * PAGE, MOST].map(Written::new),
            answers: Written::new(PAGE),
            fault: Ok(()),
        }
    }

    /// Makes the call with all five ending at inaccessible pages, and again with all beginning
    /// behind some. Answers and octets are those of the first; [`Bench::fault`] has what differed.
    pub fn call(
        &mut self,
        call: Call,
        packets: &[u8],
        lengths: &[u32],
        table: &[u8],
        out: &mut [u8],
        answers: &mut [u64],
    ) -> u64 {
        let (mut other_out, mut other_answers) = (out.to_vec(), answers.to_vec());
        let mut at = |side, out: &mut [u8], answers: &mut [u64]| {
            self.call_at(side, call, packets, lengths, table, out, answers)
        };
        let packed = at(Side::End, out, answers);
        let other = at(Side::Start, &mut other_out, &mut other_answers);
        if (packed, &*out, &*answers) != (other, &other_out, &other_answers) {
            self.blame(format!(
                "another result behind inaccessible pages: answer {}, but {} before them",
                Answer::unpack(other),
                Answer::unpack(packed)
            ));
        }
        packed
    }

    #[allow(clippy::too_many_arguments)]
    fn call_at(
        &mut self,
        side: Side,
        call: Call,
        packets: &[u8],
        lengths: &[u32],
        table: &[u8],
        out: &mut [u8],
        answers: &mut [u64],
    ) -> u64 {
        let lengths: Vec<u8> = lengths.iter().flat_map(|n| n.to_ne_bytes()).collect();
        self.packets.set(packets, side);
        self.lengths.set(&lengths, side);
        self.table.set(table, side);
        let fits = |output: &&mut Written| output.pages.size() > out.len();
        let output = self.outputs.iter_mut().find(fits).expect("room that fits");
        let [before, own, behind] = output.at(side, out.len());
        let [places_before, places, places_behind] = self.answers.at(side, 8 * answers.len());
        own.copy_from_slice(out);
        raw::places(places).copy_from_slice(answers);

        let around = [&*before, &*behind, &*places_before, &*places_behind];
        raw::lend_both(around, [own, places]);
        let lengths = raw::numbers(self.lengths.octets());
        let packed = library::burst(
            call,
            self.packets.octets(),
            lengths,
            self.table.octets(),
            own,
            raw::places(places),
        );
        let Answer { number, length, .. } = Answer::unpack(packed);
        let answered = if number == 0 { lengths.len() } else { 0 };
        raw::take_back_both(around, [(own, length as usize), (places, 8 * answered)]);
        out.copy_from_slice(own);
        answers.copy_from_slice(raw::places(places));

        let name = library::burst_name(call);
        for (what, kept) in [
            ("the output", output.restore(side, out.len())),
            (
                "the answer places",
                self.answers.restore(side, 8 * answers.len()),
            ),
        ] {
            if !kept {
                self.blame(format!("{name} changed octets around {what}"));
            }
        }
        packed
    }

    fn blame(&mut self, why: String) {
        if self.fault.is_ok() {
            self.fault = Err(why);
        }
    }

    /// What was wrong since it was last asked.
    pub fn fault(&mut self) -> Result<(), String> {
        std::mem::replace(&mut self.fault, Ok(()))
    }

    /// The burst, and its packets one at a time.
    pub fn judge(&mut self, place: Place, burst: &Burst) -> Result<(), String> {
        raw::runs(place);
        let checked = burst.check_by(|call, packets, lengths, table, out, answers| {
            self.call(call, packets, lengths, table, out, answers)
        });
        let name = library::burst_name(burst.call);
        let judged = checked
            .and(self.fault())
            .map_err(|why| format!("{name}: {why}"))
            .and_then(|()| one_at_a_time(burst));
        judged.map_err(|why| format!("{place}, {why}\n  run again: {}", place.command()))
    }
}

/// Octets that are written, beside inaccessible pages, with known octets in the rest.
struct Written {
    pages: Pages,
    filler: Vec<u8>,
}

impl Written {
    fn new(size: usize) -> Self {
        let filler: Vec<u8> = (0..size).map(|i| (i * 7 + i / 251 + 3) as u8).collect();
        let mut pages = Pages::new(size);
        pages.octets().copy_from_slice(&filler);
        Written { pages, filler }
    }

    /// What lies before, the octets themselves, and what lies behind.
    fn at(&mut self, side: Side, length: usize) -> [&mut [u8]; 3] {
        let free = self.pages.size() - length;
        let at = if side == Side::End { free } else { 0 };
        let (before, rest) = self.pages.octets().split_at_mut(at);
        let (own, behind) = rest.split_at_mut(length);
        [before, own, behind]
    }

    /// Whether the octets around were as before; all are then.
    fn restore(&mut self, side: Side, length: usize) -> bool {
        let at = if side == Side::End {
            self.filler.len() - length
        } else {
            0
        };
        let own = at..at + length;
        self.pages.octets()[own.clone()].copy_from_slice(&self.filler[own]);
        let kept = self.pages.octets() == self.filler;
        if !kept {
            self.pages.octets().copy_from_slice(&self.filler);
        }
        kept
    }
}

/// The library with itself: each packet by a call of its own, with the room then left.
fn one_at_a_time(burst: &Burst) -> Result<(), String> {
    if burst.answer.number != 0 {
        return Ok(());
    }
    let export = exports(burst.call)[0];
    let checked = burst.check_by(|_, _, _, table, out, answers| {
        let mut sent = 0;
        for (packet, answer) in burst.each().zip(answers) {
            *answer = export.call(packet, table, &mut out[sent..]);
            sent += Answer::unpack(*answer).length as usize;
        }
        Answer::sent(sent).pack()
    });
    checked.map_err(|why| format!("by {} one at a time: {why}", export.name()))
}

/// What the bursts met, so many that so many packets were answered. An error is the first difference.
pub fn run(seed: u64, first: u64, packets: u64) -> Result<Met, String> {
    let mut bench = Bench::new();
    let mut progress = Progress::new();
    let mut met = Met::new();
    for (index, burst) in cases::bursts(seed, first) {
        progress.say(|| format!("boundary burst: seed {seed}, {} packets", met.packets()));
        bench.judge(Place::Burst { seed, index }, &burst)?;
        met.add(&burst);
        if met.packets() >= packets {
            break;
        }
    }
    Ok(met)
}

/// What the packets of trips of bursts met. They are held against the trips of the packets one at a
/// time, by the second program and by the library. An error is the first difference.
pub fn run_trips(seed: u64, indices: Range<u64>) -> Result<Tally, String> {
    let mut bench = Bench::new();
    let mut progress = Progress::new();
    trips::run_by(seed, indices, |index, trip| {
        let place = Place::BurstTrip { seed, index };
        raw::runs(place);
        progress.say(|| format!("boundary burst-trips: seed {seed}, {index} trips"));
        let mut by_library = |call, packet: &[u8], table: &[u8], out: &mut [u8]| {
            exports(call)[0].call(packet, table, out)
        };
        let by_second = trip.check_by(
            generate::translate,
            |call, packets, lengths, table, out, answers| {
                bench.call(call, packets, lengths, table, out, answers)
            },
        );
        let found = by_second.and_then(|found| bench.fault().map(|()| found));
        let both = found.and_then(|found| {
            let again = trip.check_by(&mut by_library, library::burst);
            again.map_err(|why| format!("alone by the library: {why}"))?;
            Ok(found)
        });
        both.map_err(|why| format!("{why}\n  run again: {}", place.command()))
    })
}
