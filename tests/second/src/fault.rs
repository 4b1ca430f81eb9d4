//! Which condition of soundness a table breaks first, as `kawsarpa_table_fault` tells it: the
//! condition, 256 times the kind of record, 65,536 times the record's index; 0 for a sound table.

use crate::generate;
use crate::rng::Rng;
use crate::table::{mask4, mask6};
use std::fmt;

/// How many conditions each kind of record has: header, entry, rule, policy.
const CONDITIONS: [usize; 4] = [5, 15, 12, 3];
const NAMES: [&str; 4] = ["header", "entry", "rule", "policy"];

/// The first that is not met, counted from `from`.
fn first(from: u64, conditions: &[bool]) -> Option<u64> {
    let place = conditions.iter().position(|&met| !met)?;
    Some(from + place as u64)
}

fn number(octets: &[u8]) -> u128 {
    octets
        .iter()
        .fold(0, |n, &octet| n << 8 | u128::from(octet))
}

fn clear6(bits: u128, length: u8) -> bool {
    bits & !mask6(u32::from(length).min(128)) == 0
}

fn header(table: &[u8]) -> Option<u64> {
    let [entries, rules, policies] = counts(table);
    let size = 16 + 64 * entries + 160 * rules + 288 * policies;
    let format = table.first() == Some(&1);
    first(
        1,
        &[
            format,
            entries <= 64,
            rules <= 16,
            policies <= 16,
            table.len() == size,
        ],
    )
}

/// Octets that are missing count as 0.
fn counts(table: &[u8]) -> [usize; 3] {
    let octet = |at: usize| usize::from(*table.get(at).unwrap_or(&0));
    [2, 4, 6].map(|at| 256 * octet(at) + octet(at + 1))
}

fn entry(e: &[u8], policies: usize) -> Option<u64> {
    let prefix = number(&e[16..32]);
    let (d, e6, e4) = (e[0] == 69 || e[0] == 70, e[0] == 71, e[0] == 72);
    let session = e[0] != 1;
    first(
        1,
        &[
            matches!(e[0], 1 | 69..=72),
            e[1] <= 128,
            clear6(prefix, e[1]),
            e[2] != 0,
            !session || e[3] < 2,
            !session || [1, 2, 3, 5].contains(&e[4]),
            !d || usize::from(e[5]) < policies,
            !e6 || (0..=11).any(|a| e[6] == 8 * a),
            !e6 || e[1] <= e[6],
            !e4 || e[7] <= 7,
            !e4 || e[8] <= 12,
            !e4 || u32::from(e[1]) <= 8 * u32::from(e[7]),
            d || e[9] == 0,
        ],
    )
    // 14 is for all entries together.
    .or((d && e[9] > 1).then_some(15))
}

fn rule(r: &[u8]) -> Option<u64> {
    let prefix = number(&r[8..12]) as u32;
    let octets = |n: u8| n.saturating_mul(8);
    first(
        1,
        &[
            r[0] <= 32,
            prefix & !mask4(u32::from(r[0]).min(32)) == 0,
            r[1] != 0,
            r[2] < 2,
            [1, 2, 3, 5].contains(&r[3]),
            r[4] <= 7,
            r[5] <= 12,
            clear6(number(&r[16..32]), octets(r[4])),
            clear6(number(&r[32..48]), octets(r[5])),
            r[6] <= 7,
            r[7] == 0,
        ],
    )
}

fn policy(y: &[u8]) -> Option<u64> {
    first(
        1,
        &[
            (1..=8).contains(&y[0]),
            (0..=11).any(|a| y[1] == 8 * a),
            y[2] == 0,
        ],
    )
}

/// The first record of which something is wrong, with the condition.
fn of_records<'a>(
    kind: u64,
    records: impl Iterator<Item = &'a [u8]>,
    wrong: impl Fn(usize, &[u8]) -> Option<u64>,
) -> Option<u64> {
    let told = |(index, record)| Some((index, wrong(index, record)?));
    let (index, condition) = records.enumerate().find_map(told)?;
    Some(condition | kind << 8 | (index as u64) << 16)
}

pub fn fault(table: &[u8]) -> u64 {
    if let Some(condition) = header(table) {
        return condition | 1 << 8;
    }
    let [entries, rules, policies] = counts(table);
    let (front, last) = table[16..].split_at(64 * entries + 160 * rules);
    let (front, middle) = front.split_at(64 * entries);
    // Octet 1 and the prefix of an entry, octet 0 and the prefix of a rule.
    let entry_prefix = |i: usize| (front[64 * i + 1], &front[64 * i + 16..64 * i + 32]);
    let rule_prefix = |k: usize| (middle[160 * k], &middle[160 * k + 8..160 * k + 12]);
    of_records(2, front.chunks(64), |_, e| entry(e, policies))
        .or_else(|| {
            of_records(2, front.chunks(64), |j, _| {
                let repeated = (0..j).any(|i| entry_prefix(i) == entry_prefix(j));
                repeated.then_some(14)
            })
        })
        .or_else(|| of_records(3, middle.chunks(160), |_, r| rule(r)))
        .or_else(|| {
            of_records(3, middle.chunks(160), |j, _| {
                let repeated = (0..j).any(|i| rule_prefix(i) == rule_prefix(j));
                repeated.then_some(12)
            })
        })
        .or_else(|| of_records(4, last.chunks(288), |_, y| policy(y)))
        .unwrap_or(0)
}

/// A table of a case, changed in up to three places.
pub fn table(seed: u64, index: u64) -> Vec<u8> {
    let mut octets = generate::case(seed, index).table;
    let mut rng = Rng::for_case(!seed, index);
    for _ in 0..rng.below(4) {
        change(&mut rng, &mut octets);
    }
    octets
}

pub fn change(rng: &mut Rng, octets: &mut Vec<u8>) {
    let [entries, rules, policies] = counts(octets);
    let (rules_at, policies_at) = (16 + 64 * entries, 16 + 64 * entries + 160 * rules);
    let (e, k, j) = (rng.below(entries), rng.below(rules), rng.below(policies));
    let value = match rng.below(3) {
        0 => rng.u8(),
        1 => rng.pick(&[0, 1, 2, 8, 9, 13, 16, 17, 33, 64, 65, 96, 129, 255]),
        _ => rng.below(16) as u8,
    };
    let set = |octets: &mut Vec<u8>, at: usize| {
        if let Some(octet) = octets.get_mut(at) {
            *octet = value;
        }
    };
    // From one record's prefix and length to a later one's.
    let copy = |octets: &mut Vec<u8>, from: usize, to: usize, parts: &[(usize, usize)]| {
        for &(at, count) in parts {
            if octets.len() >= from.max(to) + at + count {
                octets.copy_within(from + at..from + at + count, to + at);
            }
        }
    };
    match rng.below(16) {
        0 => set(octets, rng.below(8)),
        1 => {
            let length = rng.below(octets.len() + 1);
            octets.truncate(length);
        }
        2 => octets.push(value),
        3..=7 => set(octets, 16 + 64 * e + rng.below(10)),
        8 => set(octets, 16 + 64 * e + rng.between(16, 31)),
        9 => {
            let other = rng.below(entries);
            copy(octets, 16 + 64 * other, 16 + 64 * e, &[(1, 1), (16, 16)]);
        }
        10..=11 => set(octets, rules_at + 160 * k + rng.below(12)),
        12 => set(octets, rules_at + 160 * k + rng.between(16, 47)),
        13 => {
            let other = rng.below(rules);
            let (from, to) = (rules_at + 160 * other, rules_at + 160 * k);
            copy(octets, from, to, &[(0, 1), (8, 4)]);
        }
        _ => set(octets, policies_at + 288 * j + rng.below(3)),
    }
}

/// How often each condition was told; of each kind number 0 is for what is no condition of it.
#[derive(Clone, Debug, Default, PartialEq, Eq)]
pub struct Faults {
    sound: u64,
    told: [[u64; 16]; 4],
}

impl Faults {
    pub fn add(&mut self, fault: u64) {
        if fault == 0 {
            self.sound += 1;
            return;
        }
        let (condition, kind) = ((fault & 0xff) as usize, (fault >> 8 & 0xff) as usize);
        let known = (1..=4).contains(&kind) && condition <= CONDITIONS[kind - 1];
        let (kind, condition) = if known { (kind - 1, condition) } else { (0, 0) };
        self.told[kind][condition] += 1;
    }

    /// An error that names every condition that was never told.
    pub fn judge(&self) -> Result<(), String> {
        let mut gaps = Vec::new();
        if self.sound == 0 {
            gaps.push("no sound table".to_string());
        }
        for (kind, name) in NAMES.iter().enumerate() {
            for condition in 1..=CONDITIONS[kind] {
                if self.told[kind][condition] == 0 {
                    gaps.push(format!("{name} {condition} was not told"));
                }
            }
            if self.told[kind][0] != 0 {
                gaps.push(format!("{name} with a condition that it has not"));
            }
        }
        match gaps.is_empty() {
            true => Ok(()),
            false => Err(gaps.join("; ")),
        }
    }
}

impl fmt::Display for Faults {
    fn fmt(&self, f: &mut fmt::Formatter<'_>) -> fmt::Result {
        write!(f, "sound {}", self.sound)?;
        for (kind, name) in NAMES.iter().enumerate() {
            write!(f, "\n{name}:")?;
            for condition in 1..=CONDITIONS[kind] {
                write!(f, " {condition}: {}", self.told[kind][condition])?;
            }
        }
        Ok(())
    }
}

#[cfg(test)]
mod tests {
    use super::*;
    use crate::Table;

    /// The decoder finds something wrong exactly where there is a fault, and every fault occurs.
    #[test]
    fn as_the_decoder() {
        let mut faults = Faults::default();
        for index in 0..60_000 {
            let table = table(7, index);
            let fault = fault(&table);
            assert_eq!(fault == 0, Table::decode(&table).is_ok(), "index {index}");
            faults.add(fault);
        }
        assert_eq!(faults.judge(), Ok(()), "{faults}");
    }

    #[test]
    fn told() {
        let empty = Table::default().encode();
        assert_eq!(fault(&empty), 0);
        assert_eq!(fault(&[]), 0x101);
        assert_eq!(fault(&empty[..15]), 0x105);
        assert_eq!(fault(&[1, 0, 255]), 0x102);
        let mut gaps = Faults::default();
        gaps.add(0x210);
        assert!(gaps.judge().is_err());
    }
}
