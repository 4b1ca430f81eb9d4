//! Random sound tables with nested prefixes.

use super::Kind;
use crate::rng::Rng;
use crate::table::{
    self, Behaviour, Direction, Entry, Inbound, Ipv4Places, Ipv4Prefix, Ipv6Prefix, Policy, Rule,
    Session, SessionType, Table, ENTRY_LENGTH, MAX_ARGS_START, MAX_ENTRIES, MAX_P, MAX_POLICIES,
    MAX_Q, MAX_RULES, MAX_SIDS, MAX_WAYPOINTS, POLICY_LENGTH, RULE_LENGTH,
};

/// A sound table and a destination whose longest match is of the kind meant.
#[derive(Clone, Debug)]
pub struct Scene {
    pub kind: Kind,
    pub table: Table,
    pub destination: Destination,
}

#[derive(Clone, Copy, Debug)]
pub enum Destination {
    Ipv6(u128),
    Ipv4(u32),
}

pub fn scene(rng: &mut Rng, kind: Kind) -> Scene {
    scene_to(rng, kind, address)
}

/// The same with the IPv6 destination drawn in another way.
pub fn scene_to(rng: &mut Rng, kind: Kind, address: impl FnOnce(&mut Rng) -> u128) -> Scene {
    let full = rng.chance(1);
    let policies = if full {
        MAX_POLICIES
    } else if matches!(kind, Kind::D | Kind::Di) {
        rng.between(1, 3)
    } else {
        rng.below(3)
    };
    let mut table = Table {
        policies: (0..policies).map(|_| policy(rng)).collect(),
        ..Table::default()
    };
    let (others, rules) = if full {
        (MAX_ENTRIES, MAX_RULES)
    } else {
        (rng.below(6), rng.below(3))
    };
    let destination = if kind == Kind::D4 {
        let destination = rng.u32();
        let count = if full { rules } else { rng.between(1, 4) };
        table.rules = nested_rules(rng, destination, count);
        table.entries = nested_entries(rng, None, others, policies);
        Destination::Ipv4(destination)
    } else {
        let destination = address(rng);
        let behaviour = behaviour(rng, kind, policies);
        let length = prefix_length(rng, longest_prefix(&behaviour));
        let target = entry(rng, Ipv6Prefix::of(destination, length), behaviour);
        table.entries = nested_entries(rng, Some((destination, target)), others, policies);
        let address = rng.u32();
        table.rules = nested_rules(rng, address, rules);
        Destination::Ipv6(destination)
    };
    Scene {
        kind,
        table,
        destination,
    }
}

/// Random, sometimes with runs of zeros so that prefixes share their bits.
pub fn address(rng: &mut Rng) -> u128 {
    let address = rng.u128();
    if rng.chance(20) {
        address & table::mask6(rng.between(1, 128) as u32)
    } else {
        address
    }
}

pub fn session(rng: &mut Rng) -> Session {
    let types = [
        SessionType::Ipv4,
        SessionType::Ipv6,
        SessionType::Ipv4v6,
        SessionType::Ipv4v6,
        SessionType::Ethernet,
    ];
    Session {
        direction: rng.pick(&[Direction::Downlink, Direction::Uplink]),
        session_type: rng.pick(&types),
    }
}

pub fn hop_limit(rng: &mut Rng) -> u8 {
    match rng.below(6) {
        0 => 1,
        1 => 255,
        2 => 2,
        _ => rng.between(1, 255) as u8,
    }
}

/// From 0 to `most`, the ends more often.
fn edged(rng: &mut Rng, most: u8) -> u8 {
    match rng.below(8) {
        0 => 0,
        1 => most,
        _ => rng.between(0, most.into()) as u8,
    }
}

pub fn places(rng: &mut Rng) -> Ipv4Places {
    Ipv4Places {
        p: edged(rng, MAX_P),
        q: edged(rng, MAX_Q),
    }
}

pub fn args_start(rng: &mut Rng) -> u8 {
    edged(rng, MAX_ARGS_START)
}

pub fn policy(rng: &mut Rng) -> Policy {
    let count = rng.between(1, MAX_SIDS);
    Policy {
        args_start: args_start(rng),
        sids: (0..count).map(|_| rng.u128()).collect(),
    }
}

pub fn rule(rng: &mut Rng, prefix: Ipv4Prefix) -> Rule {
    let places = places(rng);
    let count = rng.between(0, MAX_WAYPOINTS);
    Rule {
        prefix,
        hop_limit: hop_limit(rng),
        session: session(rng),
        places,
        sid_prefix: rng.u128() & table::mask6(8 * u32::from(places.p)),
        source_prefix: rng.u128() & table::mask6(8 * u32::from(places.q)),
        waypoints: (0..count).map(|_| rng.u128()).collect(),
    }
}

pub fn entry(rng: &mut Rng, prefix: Ipv6Prefix, behaviour: Behaviour) -> Entry {
    Entry {
        prefix,
        hop_limit: hop_limit(rng),
        source: rng.u128(),
        behaviour,
    }
}

fn inbound(rng: &mut Rng, session: Session, policies: usize) -> Inbound {
    Inbound {
        session,
        policy: rng.below(policies),
        zero_checksum: rng.chance(40),
    }
}

fn behaviour(rng: &mut Rng, kind: Kind, policies: usize) -> Behaviour {
    let session = session(rng);
    let source_port = rng.u16();
    match kind {
        Kind::D => Behaviour::D(inbound(rng, session, policies)),
        Kind::Di => Behaviour::Di(inbound(rng, session, policies)),
        Kind::E6 => Behaviour::E6 {
            session,
            args_start: args_start(rng),
            source_port,
        },
        Kind::E4 => Behaviour::E4 {
            session,
            places: places(rng),
            source_port,
        },
        Kind::Waypoint | Kind::D4 => Behaviour::End,
    }
}

pub fn longest_prefix(behaviour: &Behaviour) -> u8 {
    match behaviour {
        Behaviour::E6 { args_start, .. } => 8 * args_start,
        Behaviour::E4 { places, .. } => 8 * places.p,
        _ => 128,
    }
}

fn prefix_length(rng: &mut Rng, most: u8) -> u8 {
    if most == 0 {
        return 0;
    }
    match rng.below(10) {
        0..=2 => most,
        3 => most - 1,
        4..=5 => 8 * rng.between(1, usize::from(most / 8).max(1)) as u8,
        _ => rng.between(1, most.into()) as u8,
    }
    .min(most)
}

/// Any behaviour that a prefix of this length allows.
pub fn other_behaviour(rng: &mut Rng, length: u8, policies: usize) -> Behaviour {
    loop {
        let kind = rng.pick(&[Kind::Waypoint, Kind::D, Kind::Di, Kind::E6, Kind::E4]);
        if policies == 0 && matches!(kind, Kind::D | Kind::Di) {
            continue;
        }
        let behaviour = behaviour(rng, kind, policies);
        if length <= longest_prefix(&behaviour) {
            return behaviour;
        }
    }
}

/// The target among `others` entries: shorter prefixes of the same destination,
/// longer ones that just miss it, siblings, the same bits with another length.
pub fn nested_entries(
    rng: &mut Rng,
    target: Option<(u128, Entry)>,
    others: usize,
    policies: usize,
) -> Vec<Entry> {
    let mut entries: Vec<Entry> = target.iter().map(|(_, entry)| *entry).collect();
    let destination = target.map_or_else(|| rng.u128(), |(destination, _)| destination);
    for _ in 0..others {
        let length = target.map_or(64, |(_, entry)| entry.prefix.length);
        let flip = |at: usize| destination ^ 1u128.checked_shl(127 - at as u32).unwrap_or(0);
        let prefix = match rng.below(6) {
            0 | 1 if length > 0 => Ipv6Prefix::of(destination, rng.below(length.into()) as u8),
            2 if length < 128 => {
                let longer = rng.between(usize::from(length) + 1, 128);
                Ipv6Prefix::of(flip(rng.between(length.into(), longer - 1)), longer as u8)
            }
            3 if length > 0 => Ipv6Prefix::of(flip(usize::from(length) - 1), length),
            4 => Ipv6Prefix {
                bits: destination & table::mask6(length.into()),
                length: rng.between(length.into(), 128) as u8,
            },
            _ => {
                let address = address(rng);
                Ipv6Prefix::of(address, rng.between(0, 128) as u8)
            }
        };
        let hides = target.is_some_and(|(_, entry)| {
            prefix.matches(destination) && prefix.length >= entry.prefix.length
        });
        if hides || entries.len() == MAX_ENTRIES || entries.iter().any(|e| e.prefix == prefix) {
            continue;
        }
        let behaviour = other_behaviour(rng, prefix.length, policies);
        entries.push(entry(rng, prefix, behaviour));
    }
    rng.shuffle(&mut entries);
    entries
}

/// Rules of which at least one matches the destination, if `count` is not 0.
pub fn nested_rules(rng: &mut Rng, destination: u32, count: usize) -> Vec<Rule> {
    let mut rules: Vec<Rule> = Vec::new();
    for index in 0..count {
        let least = usize::from(!rng.chance(5));
        let length = rng.between(least, 32);
        let flip = destination ^ 1u32.checked_shl(32 - length as u32).unwrap_or(0);
        let prefix = match rng.below(4) {
            0 if index > 0 => Ipv4Prefix::of(flip, length as u8),
            1 if index > 0 => Ipv4Prefix::of(rng.u32(), length as u8),
            _ => Ipv4Prefix::of(destination, length as u8),
        };
        if !rules.iter().any(|r| r.prefix == prefix) {
            rules.push(rule(rng, prefix));
        }
    }
    rng.shuffle(&mut rules);
    rules
}

/// Offsets in the table octets.
pub fn entry_at(index: usize) -> usize {
    table::HEADER_LENGTH + ENTRY_LENGTH * index
}

pub fn rule_at(table: &Table, index: usize) -> usize {
    entry_at(table.entries.len()) + RULE_LENGTH * index
}

pub fn policy_at(table: &Table, index: usize) -> usize {
    rule_at(table, table.rules.len()) + POLICY_LENGTH * index
}

/// Fills what is never examined: spare octets, slots past a count, fields that
/// the kind does not use. The octets must be those of the table.
pub fn fill_unused(rng: &mut Rng, table: &Table, octets: &mut [u8]) {
    let mut fill = |octets: &mut [u8]| octets.fill_with(|| rng.u8());
    fill(&mut octets[1..2]);
    fill(&mut octets[8..16]);
    for (index, entry) in table.entries.iter().enumerate() {
        let record = &mut octets[entry_at(index)..][..ENTRY_LENGTH];
        fill(&mut record[12..16]);
        fill(&mut record[48..64]);
        match entry.behaviour {
            Behaviour::End => {
                fill(&mut record[3..9]);
                fill(&mut record[10..12]);
            }
            Behaviour::D(_) | Behaviour::Di(_) => {
                fill(&mut record[6..9]);
                fill(&mut record[10..12]);
            }
            Behaviour::E6 { .. } => {
                fill(&mut record[5..6]);
                fill(&mut record[7..9]);
            }
            Behaviour::E4 { .. } => fill(&mut record[5..7]),
        }
    }
    for (index, rule) in table.rules.iter().enumerate() {
        let record = &mut octets[rule_at(table, index)..][..RULE_LENGTH];
        fill(&mut record[12..16]);
        fill(&mut record[48 + 16 * rule.waypoints.len()..]);
    }
    for (index, policy) in table.policies.iter().enumerate() {
        let record = &mut octets[policy_at(table, index)..][..POLICY_LENGTH];
        fill(&mut record[3..16]);
        fill(&mut record[16 + 16 * policy.sids.len()..]);
    }
}
