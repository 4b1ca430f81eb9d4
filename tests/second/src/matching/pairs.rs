//! Pairs from a seed: a near table and a far table, or a waypoint's table and a SID, with the
//! mismatch of the two.
//!
//! [`pair`] makes one from a seed and an index and nothing else.

use super::{ends, match_ipv4, match_ipv6, match_waypoint, routes};
use crate::fault;
use crate::generate::{tables, Call};
use crate::rng::Rng;
use crate::vectors::{hex, unhex};

/// Which of the calls is asked.
#[derive(Clone, Copy, Debug, PartialEq, Eq)]
pub enum Ask {
    Ipv6,
    Ipv4,
    Waypoint,
}

impl Ask {
    pub const ALL: [Ask; 3] = [Ask::Ipv6, Ask::Ipv4, Ask::Waypoint];

    pub fn name(self) -> &'static str {
        match self {
            Ask::Ipv6 => "ipv6",
            Ask::Ipv4 => "ipv4",
            Ask::Waypoint => "waypoint",
        }
    }

    pub fn from_name(name: &str) -> Option<Ask> {
        Ask::ALL.into_iter().find(|ask| ask.name() == name)
    }

    /// For the ends of a trip that begins with this call.
    pub fn of_ends(call: Call) -> Ask {
        match call {
            Call::Ipv6 => Ask::Ipv6,
            Call::Ipv4 => Ask::Ipv4,
        }
    }

    /// The conditions that can fail, by their numbers, and 0.
    pub fn numbers(self) -> &'static [u8] {
        match self {
            Ask::Ipv6 => &[0, 1, 2, 3, 4, 5, 6, 7, 8, 9, 12],
            Ask::Ipv4 => &[0, 1, 2, 3, 5, 6, 7, 8, 10, 11, 12],
            Ask::Waypoint => &[0, 13, 14, 15, 16],
        }
    }
}

/// The mismatch, packed; 0 where they fit. The octets are those of a [`Pair`].
pub fn mismatch(ask: Ask, table: &[u8], index: u64, other: &[u8]) -> u64 {
    let matched = match ask {
        Ask::Ipv6 => match_ipv6(table, index, other),
        Ask::Ipv4 => match_ipv4(table, index, other),
        Ask::Waypoint => match_waypoint(table, other),
    };
    matched.map_or_else(|mismatch| mismatch.pack(), |()| 0)
}

#[derive(Clone, Debug, PartialEq, Eq)]
pub struct Pair {
    pub ask: Ask,
    /// The near table, or the waypoint's.
    pub table: Vec<u8>,
    /// Of the near entry or rule; 0 for a waypoint.
    pub index: u64,
    /// The far table, or the SID.
    pub other: Vec<u8>,
    /// Packed.
    pub mismatch: u64,
}

impl Pair {
    pub fn new(ask: Ask, table: Vec<u8>, index: u64, other: Vec<u8>) -> Self {
        let mismatch = mismatch(ask, &table, index, &other);
        Pair {
            ask,
            table,
            index,
            other,
            mismatch,
        }
    }

    /// The number of the condition that fails; 0 where they fit.
    pub fn condition(&self) -> u8 {
        (self.mismatch & 0xff) as u8
    }

    pub fn check(&self) -> Result<(), String> {
        self.check_by(mismatch)
    }

    /// The same with another implementation.
    pub fn check_by(&self, run: impl FnOnce(Ask, &[u8], u64, &[u8]) -> u64) -> Result<(), String> {
        match run(self.ask, &self.table, self.index, &self.other) {
            found if found == self.mismatch => Ok(()),
            found => Err(format!(
                "mismatch {found:016x}; expected {:016x}",
                self.mismatch
            )),
        }
    }
}

/// The pair of a seed and an index. Of five, two are for IPv6, two for IPv4, one for a waypoint.
pub fn pair(seed: u64, index: u64) -> Pair {
    let rng = &mut Rng::for_case(seed, index);
    let call = match index % 5 {
        0 | 1 => Call::Ipv6,
        2 | 3 => Call::Ipv4,
        _ => return waypoint(rng),
    };
    let ends = ends::ends(rng, call);
    Pair::new(Ask::of_ends(call), ends.near, ends.index, ends.far)
}

fn waypoint(rng: &mut Rng) -> Pair {
    let sid = tables::address(rng);
    let mut table = routes::waypoint(rng, sid);
    let mut octets = sid.to_be_bytes().to_vec();
    if rng.chance(8) {
        octets.resize(rng.pick(&[0, 1, 15, 17, 32]), rng.u8());
    }
    if rng.chance(8) {
        damage(rng, &mut table);
    }
    Pair::new(Ask::Waypoint, table, 0, octets)
}

/// Octets of a table changed at chance; the table is mostly not sound then.
pub fn damage(rng: &mut Rng, table: &mut Vec<u8>) {
    match rng.below(12) {
        0 => table.clear(),
        1 => *table = rng.octets(table.len()),
        2 if table.len() > 16 => {
            let at = rng.between(16, table.len() - 1);
            table[at] = rng.u8();
        }
        _ => {
            for _ in 0..rng.between(1, 2) {
                fault::change(rng, table);
            }
        }
    }
}

/// `match ipv6 mismatch index near-hex far-hex`, the same with `ipv4`, or `match waypoint mismatch
/// table-hex sid-hex`; the mismatch in 16 hexadecimal digits.
pub fn line(pair: &Pair) -> String {
    let index = match pair.ask {
        Ask::Waypoint => String::new(),
        Ask::Ipv6 | Ask::Ipv4 => format!("{} ", pair.index),
    };
    format!(
        "match {} {:016x} {index}{} {}",
        pair.ask.name(),
        pair.mismatch,
        hex(&pair.table),
        hex(&pair.other)
    )
}

pub fn parse(line: &str) -> Result<Pair, String> {
    let fields: Vec<&str> = line.split(' ').collect();
    let (ask, mismatch, index, table, other) = match fields[..] {
        ["match", "waypoint", mismatch, table, sid] => ("waypoint", mismatch, "0", table, sid),
        ["match", ask, mismatch, index, near, far] if ask != "waypoint" => {
            (ask, mismatch, index, near, far)
        }
        _ => return Err(format!("{} fields, not those of match", fields.len())),
    };
    let octets_of = |text: &str| unhex(text).ok_or_else(|| format!("{text} is not hex"));
    Ok(Pair {
        ask: Ask::from_name(ask).ok_or_else(|| format!("{ask} is no call"))?,
        table: octets_of(table)?,
        index: index
            .parse()
            .map_err(|_| format!("{index} is not an index"))?,
        other: octets_of(other)?,
        mismatch: u64::from_str_radix(mismatch, 16)
            .map_err(|_| format!("{mismatch} is not a mismatch in hex"))?,
    })
}

#[cfg(test)]
mod tests {
    use super::*;

    #[test]
    fn lines_come_back() {
        for index in 0..300 {
            let pair = pair(3, index);
            assert_eq!(parse(&line(&pair)), Ok(pair));
        }
    }

    #[test]
    fn a_difference_is_shown() {
        let right = parse("match ipv6 0000000000000001 0 - -").unwrap();
        assert_eq!(right.check(), Ok(()));
        let wrong = parse("match waypoint 0000000000050210 - -").unwrap();
        assert_eq!(
            wrong.check().unwrap_err(),
            "mismatch 000000000000000d; expected 0000000000050210"
        );
    }

    #[test]
    fn wrong_lines() {
        for line in [
            "match ipv6 0 - -",
            "match ipv5 0 0 - -",
            "match ipv6 g 0 - -",
            "match ipv6 0 -1 - -",
            "match ipv4 0 0 6 -",
            "match waypoint 0 0 - -",
            "match waypoint 0 - 6",
        ] {
            assert!(parse(line).is_err(), "{line}");
        }
        assert!(parse("match ipv4 0 18446744073709551615 - 60").is_ok());
    }
}
