//! Packets through the readers of sequence numbers, judged by the second program.

use crate::library;
use crate::place::Place;
use crate::progress::Progress;
use crate::raw::{self, Input, Side};
use second::sequence::{cases, coverage};
use second::tally::Tally;
use std::ops::Range;

/// What the packets met. An error is the first difference.
pub fn run(seed: u64, indices: Range<u64>) -> Result<Tally, String> {
    let mut input = Input::new();
    let mut progress = Progress::new();
    let mut tally = Tally::new(&coverage::SHAPE);
    for index in indices {
        let place = Place::Reading { seed, index };
        raw::runs(place);
        progress.say(|| format!("boundary sequence: seed {seed}, {index} packets"));
        let reading = cases::reading(seed, index);
        for side in [Side::End, Side::Start] {
            input.set(&reading.packet, side);
            let checked = reading.check_by(|call, _| library::sequence(call, input.octets()));
            checked.map_err(|why| format!("{place}: {why}\n  run again: {}", place.command()))?;
        }
        coverage::add(&mut tally, &reading);
    }
    Ok(tally)
}
