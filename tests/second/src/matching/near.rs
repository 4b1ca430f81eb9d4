//! A Di entry or a rule of a near table, and what the SIDs are that it writes.

use super::Pattern;
use crate::generate::Call;
use crate::rng::Rng;
use crate::table::{Behaviour, Direction, Inbound, Ipv4Prefix, Ipv6Prefix, Session, Table};

/// A Di entry or a rule of the near table.
#[derive(Clone, Debug)]
pub struct Near {
    pub session: Session,
    pub hop_limit: u8,
    /// In order of travel.
    pub waypoints: Vec<u128>,
    /// The SIDs that it writes.
    pub pattern: Pattern,
    /// The octet of these at which Args begin.
    pub args_start: u8,
    /// Over IPv4, p.
    pub p: Option<u8>,
    /// The destinations that it matches. An IPv4 prefix stands in the first 32 bits.
    pub prefix: Ipv6Prefix,
    /// Longer prefixes of the near table, which take destinations away.
    pub longer: Vec<Ipv6Prefix>,
}

/// What a bit of a SID is.
#[derive(Clone, Copy, Debug, PartialEq, Eq)]
pub enum Part {
    BeforeArgs,
    /// Of the IPv4 destination, the rule's prefix or past it.
    Destination,
    Qfi,
    R,
    U,
    Teid,
    BehindArgs,
}

fn in_ipv6(prefix: Ipv4Prefix) -> Ipv6Prefix {
    Ipv6Prefix::of(u128::from(prefix.bits) << 96, prefix.length)
}

impl Near {
    /// Nothing where there is no such record, or it is not Di.
    pub fn of(call: Call, table: &Table, index: u64) -> Option<Near> {
        let index = usize::try_from(index).ok()?;
        match call {
            Call::Ipv6 => Self::of_entry(table, index),
            Call::Ipv4 => Self::of_rule(table, index),
        }
    }

    fn of_entry(table: &Table, index: usize) -> Option<Near> {
        let entry = table.entries.get(index)?;
        let Behaviour::Di(Inbound {
            session, policy, ..
        }) = entry.behaviour
        else {
            return None;
        };
        let policy = &table.policies[policy];
        Some(Near {
            session,
            hop_limit: entry.hop_limit,
            waypoints: policy.sids[..policy.sids.len() - 1].to_vec(),
            pattern: Pattern::of_policy(policy, session.direction),
            args_start: policy.args_start,
            p: None,
            prefix: entry.prefix,
            longer: longer(entry.prefix, table.entries.iter().map(|e| e.prefix)),
        })
    }

    fn of_rule(table: &Table, index: usize) -> Option<Near> {
        let rule = table.rules.get(index)?;
        let prefix = in_ipv6(rule.prefix);
        Some(Near {
            session: rule.session,
            hop_limit: rule.hop_limit,
            waypoints: rule.waypoints.clone(),
            pattern: Pattern::of_rule(rule),
            args_start: rule.places.p + 4,
            p: Some(rule.places.p),
            prefix,
            longer: longer(prefix, table.rules.iter().map(|r| in_ipv6(r.prefix))),
        })
    }

    /// The bit at which Args begin.
    pub fn args(&self) -> usize {
        8 * usize::from(self.args_start)
    }

    pub fn part(&self, bit: usize) -> Part {
        let first = self.args();
        match self.p {
            Some(p) if (8 * usize::from(p)..first).contains(&bit) => return Part::Destination,
            _ if bit < first => return Part::BeforeArgs,
            _ => {}
        }
        match bit - first {
            0..=5 => Part::Qfi,
            6 => Part::R,
            7 => Part::U,
            8..=39 => Part::Teid,
            _ => Part::BehindArgs,
        }
    }

    /// One of the SIDs.
    pub fn sid(&self, rng: &mut Rng) -> u128 {
        self.pattern.fixed | rng.u128() & self.pattern.free
    }

    /// A bit that is the same in all SIDs, the edges of Args more often.
    pub fn fixed_bit(&self, rng: &mut Rng) -> Option<usize> {
        let (first, uplink) = (
            self.args(),
            self.session.direction == Direction::Uplink && rng.chance(50),
        );
        let bit = match rng.below(6) {
            0 => first + 7,
            1 if uplink => first + 6,
            1 => first + 40,
            2 => first.wrapping_sub(1),
            3 => first + rng.between(40, 127),
            4 => first.wrapping_sub(rng.between(1, 32)),
            _ => rng.below(128),
        };
        (bit < 128 && self.pattern.free & bit6(bit) == 0).then_some(bit)
    }
}

/// Of these prefixes the longer ones that lie under one.
fn longer(prefix: Ipv6Prefix, all: impl Iterator<Item = Ipv6Prefix>) -> Vec<Ipv6Prefix> {
    all.filter(|other| other.length > prefix.length && prefix.matches(other.bits))
        .collect()
}

/// Bit 0 is the first.
pub fn bit6(bit: usize) -> u128 {
    1 << (127 - bit)
}
