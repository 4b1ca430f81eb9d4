//! ICMPv6 messages through `kawsarpa_icmp_ipv6`, judged by the second program.

use crate::bench::Bench;
use crate::library::Export;
use crate::place::Place;
use crate::progress::Progress;
use crate::raw;
use second::icmp::cases::{self, IcmpCase};
pub use second::icmp::coverage::Met;
use std::ops::Range;

/// What the cases met. An error is the first difference.
pub fn run(seed: u64, indices: Range<u64>) -> Result<Met, String> {
    let mut bench = Bench::new();
    let mut progress = Progress::new();
    let mut met = Met::new();
    for index in indices {
        progress.say(|| format!("boundary icmp: seed {seed}, {index} packets"));
        let case = cases::case(seed, index);
        judge(&mut bench, Place::Icmp { seed, index }, &case)?;
        met.add(&case);
    }
    Ok(met)
}

pub fn judge(bench: &mut Bench, place: Place, case: &IcmpCase) -> Result<(), String> {
    raw::runs(place);
    let checked = case.check_by(|packet, table, out| bench.icmp(packet, table, out));
    checked.and(bench.fault()).map_err(|why| {
        let (name, again) = (Export::Icmp.name(), place.command());
        format!("{place}, {name}: {why}\n  run again: {again}")
    })
}
