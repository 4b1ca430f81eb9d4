//! Whole trips through the library.

use crate::bench::Bench;
use crate::place::Place;
use crate::progress::Progress;
use crate::raw;
use second::table::MAX_WAYPOINTS;
use second::trips::{self, fixed, Family, Tally, Trip};
use std::ops::Range;

/// The trip and its second trips; what came out of the first.
fn travel(bench: &mut Bench, trip: &Trip) -> Result<Vec<u8>, String> {
    let mut calls = 0;
    let mut came_out = Vec::new();
    let checked = trip.check_by(|call, packet, table, out| {
        let packed = bench.call(call, packet, table, out);
        calls += 1;
        if calls == trip.stops.len() {
            came_out = out[..trip.stops[calls - 1].length.min(out.len())].to_vec();
        }
        packed
    });
    checked.and(bench.fault()).map(|()| came_out)
}

pub fn run(seed: u64, indices: Range<u64>) -> Result<Tally, String> {
    let mut bench = Bench::new();
    let mut progress = Progress::new();
    trips::run_by(seed, indices, |index, trip| {
        let place = Place::Trip { seed, index };
        raw::runs(place);
        progress.say(|| format!("boundary trips: seed {seed}, {index} trips"));
        travel(&mut bench, trip)
            .map(|_| ())
            .map_err(|why| format!("{why}\n  run again: {}", place.command()))
    })
}

/// "Flow 5 with the reflective bit", over 0 to 7 waypoints and both IP versions:
/// what comes out is read here, octet by octet. The number of trips.
pub fn flow_5() -> Result<usize, String> {
    raw::runs(Place::Flow5);
    let mut bench = Bench::new();
    let mut arrived = 0;
    for family in Family::ALL {
        for waypoints in 0..=MAX_WAYPOINTS {
            let trip = fixed::flow_5(family, waypoints);
            let name = || format!("{}, {waypoints} waypoints", family.name());
            let came_out = travel(&mut bench, &trip).map_err(|why| format!("{}: {why}", name()))?;
            let header = match family {
                Family::Ipv6 => 40,
                Family::Ipv4 => 20,
            };
            for packet in [&trip.packet, &came_out] {
                // Behind IP and UDP: 12 octets of GTP-U that end in the type of
                // the container, then one unit: PDU type 0, R 1 and QFI 5.
                let container = packet.get(header + 8 + 11..header + 8 + 16);
                if container != Some(&[0x85, 0x01, 0x00, 0x45, 0x00]) {
                    return Err(format!("{}: container {container:02x?}", name()));
                }
            }
            arrived += 1;
        }
    }
    Ok(arrived)
}
