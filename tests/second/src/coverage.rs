//! Which answer numbers came out at which kind, what Echo Requests met, and UDP checksums.

pub mod checksum;
pub mod echo;

use crate::answer::Answer;
use crate::generate::{self, Case, Kind};
use crate::tally::Tally;
use std::fmt;
use std::ops::AddAssign;

pub const NUMBERS: usize = 19;

#[derive(Clone, Debug, Default, PartialEq, Eq)]
pub struct Coverage {
    counts: [[u64; NUMBERS]; 6],
}

/// A place of the table that is not as it should be.
#[derive(Clone, Copy, Debug, PartialEq, Eq)]
pub enum Finding {
    /// The number can occur there and did not.
    Gap(Kind, u8),
    /// The number cannot occur there and did.
    Stray(Kind, u8),
}

fn column(kind: Kind) -> usize {
    Kind::ALL.iter().position(|&k| k == kind).unwrap_or(0)
}

impl Coverage {
    pub fn add(&mut self, kind: Kind, number: u8) {
        self.counts[column(kind)][usize::from(number).min(NUMBERS - 1)] += 1;
    }

    pub fn count(&self, kind: Kind, number: u8) -> u64 {
        self.counts[column(kind)][usize::from(number)]
    }

    pub fn findings(&self) -> Vec<Finding> {
        let mut findings = Vec::new();
        for kind in Kind::ALL {
            for number in 0..NUMBERS as u8 {
                match (kind.numbers().contains(&number), self.count(kind, number)) {
                    (true, 0) => findings.push(Finding::Gap(kind, number)),
                    (false, 1..) => findings.push(Finding::Stray(kind, number)),
                    _ => {}
                }
            }
        }
        findings
    }

    /// An error that names every finding.
    pub fn judge(&self) -> Result<(), String> {
        let findings = self.findings();
        if findings.is_empty() {
            return Ok(());
        }
        let mut why = format!(
            "{} places of the table are not as they should be",
            findings.len()
        );
        for finding in findings {
            why.push_str(&format!("\n  {finding}"));
        }
        Err(why)
    }
}

impl AddAssign<&Coverage> for Coverage {
    fn add_assign(&mut self, other: &Coverage) {
        let others = other.counts.iter().flatten();
        for (count, more) in self.counts.iter_mut().flatten().zip(others) {
            *count += more;
        }
    }
}

impl fmt::Display for Coverage {
    fn fmt(&self, f: &mut fmt::Formatter<'_>) -> fmt::Result {
        write!(f, "number")?;
        for kind in Kind::ALL {
            write!(f, " {:>9}", kind.name())?;
        }
        for number in 0..NUMBERS as u8 {
            write!(f, "\n{number:>6}")?;
            for kind in Kind::ALL {
                match (self.count(kind, number), kind.numbers().contains(&number)) {
                    (0, false) => write!(f, " {:>9}", "-")?,
                    (0, true) => write!(f, " {:>9}", "GAP")?,
                    (count, true) => write!(f, " {count:>9}")?,
                    (count, false) => write!(f, " {:>9}", format!("{count}!"))?,
                }
            }
        }
        Ok(())
    }
}

impl fmt::Display for Finding {
    fn fmt(&self, f: &mut fmt::Formatter<'_>) -> fmt::Result {
        match self {
            Finding::Gap(kind, number) => {
                write!(f, "{}: number {number} did not occur", kind.name())
            }
            Finding::Stray(kind, number) => write!(
                f,
                "{}: number {number} cannot occur there and did",
                kind.name()
            ),
        }
    }
}

/// All that cases met.
pub struct Met {
    pub numbers: Coverage,
    echo: Tally,
    checksum: Tally,
}

impl Met {
    pub const TABLES: u64 = 3;

    pub fn new() -> Self {
        Met {
            numbers: Coverage::default(),
            echo: Tally::new(&echo::SHAPE),
            checksum: Tally::new(&checksum::SHAPE),
        }
    }

    /// Counts a case by what was answered.
    pub fn add(&mut self, case: &Case, answer: Answer) {
        self.numbers.add(case.kind, answer.number);
        echo::add(&mut self.echo, case, answer);
        checksum::add(&mut self.checksum, case, answer);
    }

    /// An error that names every finding of a table.
    pub fn judge(&self) -> Result<(), String> {
        self.judge_first(Met::TABLES)
    }

    /// The same of the first tables alone: the numbers, Echo Requests, UDP checksums. Few cases do
    /// not meet all of the last.
    pub fn judge_first(&self, tables: u64) -> Result<(), String> {
        let judged = [
            self.numbers.judge(),
            self.echo.judge(),
            self.checksum.judge(),
        ];
        judged.into_iter().take(tables as usize).collect()
    }
}

impl Default for Met {
    fn default() -> Self {
        Self::new()
    }
}

impl AddAssign<&Met> for Met {
    fn add_assign(&mut self, other: &Met) {
        self.numbers += &other.numbers;
        self.echo += &other.echo;
        self.checksum += &other.checksum;
    }
}

impl fmt::Display for Met {
    fn fmt(&self, f: &mut fmt::Formatter<'_>) -> fmt::Result {
        write!(f, "{}\n{}\n{}", self.echo, self.checksum, self.numbers)
    }
}

/// Generates and checks the first `cases` cases of a seed.
pub fn collect(seed: u64, cases: u64) -> Result<Met, String> {
    let mut met = Met::new();
    for index in 0..cases {
        let case = generate::case(seed, index);
        case.check()
            .map_err(|why| format!("seed {seed} index {index}: {why}"))?;
        met.add(&case, case.answer);
    }
    Ok(met)
}

#[cfg(test)]
mod tests {
    use super::*;

    #[test]
    fn gaps_and_strays_are_found() {
        let mut coverage = Coverage::default();
        for kind in Kind::ALL {
            for &number in kind.numbers() {
                coverage.add(kind, number);
            }
        }
        assert_eq!(coverage.findings(), []);
        assert_eq!(coverage.judge(), Ok(()));
        coverage.add(Kind::E6, 15);
        assert_eq!(coverage.findings(), [Finding::Stray(Kind::E6, 15)]);
        assert_eq!(
            Coverage::default().findings().len(),
            9 + 17 + 17 + 8 + 9 + 15
        );
        assert!(Coverage::default().judge().is_err());
    }

    #[test]
    fn no_gap() {
        let met = collect(7, 60_000).unwrap();
        assert_eq!(met.judge(), Ok(()), "{met}");
    }
}
