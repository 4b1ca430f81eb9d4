//! Whether tables fit, by the library: judged by the second program, and by packets.

use crate::library::{self, Export};
use crate::place::Place;
use crate::progress::Progress;
use crate::raw::{self, Input, Side};
use second::matching::coverage::Coverage;
use second::matching::pairs::{self, Ask, Pair};
use second::matching::trips::{self, Gateway};
use second::tally::Tally;
use second::Call;
use std::ops::Range;

/// Where the octets of a pair lie.
pub struct Inputs {
    table: Input,
    other: Input,
}

impl Inputs {
    pub fn new() -> Self {
        Inputs {
            table: Input::new(),
            other: Input::new(),
        }
    }

    /// The mismatch, with both ending at inaccessible pages and again with both beginning
    /// behind some.
    pub fn judge(&mut self, place: Place, pair: &Pair) -> Result<(), String> {
        raw::runs(place);
        for side in [Side::End, Side::Start] {
            self.table.set(&pair.table, side);
            self.other.set(&pair.other, side);
            let (table, other) = (self.table.octets(), self.other.octets());
            let checked =
                pair.check_by(|ask, _, index, _| library::mismatch(ask, table, index, other));
            checked.map_err(|why| {
                let (name, again) = (library::match_name(pair.ask), place.command());
                format!("{place}, {name}: {why}\n  run again: {again}")
            })?;
        }
        Ok(())
    }
}

/// What the pairs met. An error is the first difference.
pub fn run(seed: u64, indices: Range<u64>) -> Result<Coverage, String> {
    let mut inputs = Inputs::new();
    let mut progress = Progress::new();
    let mut coverage = Coverage::new();
    for index in indices {
        progress.say(|| format!("boundary match: seed {seed}, {index} pairs"));
        let pair = pairs::pair(seed, index);
        inputs.judge(Place::Pair { seed, index }, &pair)?;
        coverage.add(&pair);
    }
    Ok(coverage)
}

/// The library in plain memory: where its buffers lie is judged elsewhere.
struct Library;

impl Gateway for Library {
    fn translate(&mut self, call: Call, packet: &[u8], table: &[u8], out: &mut [u8]) -> u64 {
        let export = match call {
            Call::Ipv6 => Export::Ipv6,
            Call::Ipv4 => Export::Ipv4,
        };
        export.call(packet, table, out)
    }

    fn mismatch(&mut self, ask: Ask, table: &[u8], index: u64, other: &[u8]) -> u64 {
        library::mismatch(ask, table, index, other)
    }
}

/// What the packets along routes did, and how many they were. An error is the first route that
/// is not as the library told it.
pub fn run_trips(seed: u64, indices: Range<u64>) -> Result<(Tally, u64), String> {
    let mut progress = Progress::new();
    let mut place = Place::Route { seed, index: 0 };
    let begins = |index| {
        place = Place::Route { seed, index };
        raw::runs(place);
        progress.say(|| format!("boundary match-trips: seed {seed}, {index} routes"));
    };
    let ran = trips::run_by(&mut Library, seed, indices, begins);
    ran.map_err(|why| format!("{why}\n  run again: {}", place.command()))
}
