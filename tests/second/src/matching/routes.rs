//! Whole routes: ends, and a table for each waypoint between them.

use super::ends::{edged, ends, octets, policies, push, shuffle, Ends};
use super::near::{bit6, Near};
use super::pairs::damage;
use crate::generate::{tables, Call};
use crate::rng::Rng;
use crate::table::{Behaviour, Entry, Ipv6Prefix, Table, MAX_ENTRIES};

/// Ends with a table for each waypoint between them.
#[derive(Clone, Debug)]
pub struct Route {
    pub ends: Ends,
    pub waypoints: Vec<Vec<u8>>,
}

/// The route of a seed and an index; even indices go over IPv6, odd ones over IPv4.
pub fn route(seed: u64, index: u64) -> Route {
    let rng = &mut Rng::for_case(!seed, index);
    let call = match index.is_multiple_of(2) {
        true => Call::Ipv6,
        false => Call::Ipv4,
    };
    let ends = ends(rng, call);
    let near = Near::of(call, &ends.near_table(), ends.index);
    let sids = near.map_or(Vec::new(), |near| near.waypoints);
    // At most one of them is drawn with something that may not fit.
    let odd = rng.below(4 * sids.len());
    let waypoints = sids.iter().enumerate().map(|(at, &sid)| {
        if at != odd {
            return right_waypoint(rng, sid);
        }
        let mut table = waypoint(rng, sid);
        if rng.chance(20) {
            damage(rng, &mut table);
        }
        table
    });
    Route {
        waypoints: waypoints.collect(),
        ends,
    }
}

fn end_entry(rng: &mut Rng, sid: u128) -> Entry {
    let length = edged(rng, 128) as u8;
    tables::entry(rng, Ipv6Prefix::of(sid, length), Behaviour::End)
}

/// A table in which the longest match of a SID is this entry.
fn table_with(rng: &mut Rng, sid: u128, entry: Entry) -> Table {
    let policies = policies(rng);
    let others = match rng.below(25) {
        0 => 8 * MAX_ENTRIES,
        _ => rng.below(6),
    };
    Table {
        entries: tables::nested_entries(rng, Some((sid, entry)), others, policies.len()),
        rules: Vec::new(),
        policies,
    }
}

/// The table of a waypoint that fits.
pub fn right_waypoint(rng: &mut Rng, sid: u128) -> Vec<u8> {
    let entry = end_entry(rng, sid);
    let table = table_with(rng, sid, entry);
    octets(rng, &table)
}

/// One that may not.
pub fn waypoint(rng: &mut Rng, sid: u128) -> Vec<u8> {
    let mut entry = end_entry(rng, sid);
    let length = entry.prefix.length;
    let other = tables::other_behaviour(rng, length, 0);
    let choice = rng.below(10);
    if matches!(choice, 0..=2) {
        entry.behaviour = other;
    }
    let mut table = table_with(rng, sid, entry);
    let longer = |rng: &mut Rng| rng.between(usize::from(length) + 1, 128) as u8;
    match choice {
        // A longer waypoint before that entry.
        0 if length < 128 => {
            let prefix = Ipv6Prefix::of(sid, longer(rng));
            push(rng, &mut table, prefix, Behaviour::End);
        }
        3 => table.entries.retain(|e| !e.prefix.matches(sid)),
        // A longer entry before the waypoint's, or one that differs in its last bit.
        4..=6 if length < 128 => {
            let length = longer(rng);
            let missed = if choice == 4 {
                bit6(length as usize - 1)
            } else {
                0
            };
            let behaviour = tables::other_behaviour(rng, length, table.policies.len());
            push(
                rng,
                &mut table,
                Ipv6Prefix::of(sid ^ missed, length),
                behaviour,
            );
        }
        _ => {}
    }
    shuffle(rng, &mut table.entries, entry.prefix);
    octets(rng, &table)
}

/// The table of a waypoint for any SID.
pub fn any_waypoint() -> Vec<u8> {
    let entry = Entry {
        prefix: Ipv6Prefix::of(0, 0),
        hop_limit: 1,
        source: 0,
        behaviour: Behaviour::End,
    };
    Table {
        entries: vec![entry],
        ..Table::default()
    }
    .encode()
}
