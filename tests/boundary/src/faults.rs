//! Tables through `kawsarpa_table_fault`, judged by the second program.

use crate::library;
use crate::place::Place;
use crate::raw::{self, Input, Side};
use second::fault::{self, Faults};
use std::ops::Range;

/// How often the library told each condition. An error is the first difference.
pub fn run(seed: u64, indices: Range<u64>) -> Result<Faults, String> {
    let mut input = Input::new();
    let mut faults = Faults::default();
    for index in indices {
        let place = Place::Table { seed, index };
        raw::runs(place);
        let table = fault::table(seed, index);
        let expected = fault::fault(&table);
        for side in [Side::End, Side::Start] {
            input.set(&table, side);
            let found = library::table_fault(input.octets());
            if found != expected {
                let again = place.command();
                return Err(format!(
                    "{place}: fault {expected:#x} expected, {found:#x} found; run again: {again}"
                ));
            }
        }
        faults.add(expected);
    }
    Ok(faults)
}
