//! Where a difference was found, and the command that goes there again.

use std::fmt;

#[derive(Clone, Copy, Debug, PartialEq, Eq)]
pub enum Place {
    /// Mutation 0 is the case as it was generated.
    Case {
        seed: u64,
        index: u64,
        mutation: u64,
    },
    Trip {
        seed: u64,
        index: u64,
    },
    /// Packets for one call.
    Burst {
        seed: u64,
        index: u64,
    },
    /// A packet for an ICMPv6 message.
    Icmp {
        seed: u64,
        index: u64,
    },
    /// A trip of bursts.
    BurstTrip {
        seed: u64,
        index: u64,
    },
    /// A table that is asked for its fault.
    Table {
        seed: u64,
        index: u64,
    },
    /// Rows and what is offered to them.
    History {
        seed: u64,
        index: u64,
    },
    /// A packet for a reader of sequence numbers.
    Reading {
        seed: u64,
        index: u64,
    },
    /// Tables that are asked whether they fit.
    Pair {
        seed: u64,
        index: u64,
    },
    /// Tables for whole trips that are asked it.
    Route {
        seed: u64,
        index: u64,
    },
    /// The trip by this name.
    Flow5,
    /// The table and packets that threads share.
    Shared {
        seed: u64,
        index: u64,
    },
}

impl fmt::Display for Place {
    fn fmt(&self, f: &mut fmt::Formatter<'_>) -> fmt::Result {
        match self {
            Place::Case {
                seed,
                index,
                mutation: 0,
            } => write!(f, "seed {seed} index {index}"),
            Place::Case {
                seed,
                index,
                mutation,
            } => write!(f, "seed {seed} index {index} mutation {mutation}"),
            Place::Trip { seed, index } => write!(f, "seed {seed} trip {index}"),
            Place::Burst { seed, index } => write!(f, "seed {seed} burst {index}"),
            Place::Icmp { seed, index } => write!(f, "seed {seed} ICMP case {index}"),
            Place::BurstTrip { seed, index } => write!(f, "seed {seed} burst trip {index}"),
            Place::Table { seed, index } => write!(f, "seed {seed} table {index}"),
            Place::History { seed, index } => write!(f, "seed {seed} history {index}"),
            Place::Reading { seed, index } => write!(f, "seed {seed} packet {index}"),
            Place::Pair { seed, index } => write!(f, "seed {seed} pair {index}"),
            Place::Route { seed, index } => write!(f, "seed {seed} route {index}"),
            Place::Flow5 => write!(f, "flow 5 with the reflective bit"),
            Place::Shared { seed, index } => write!(f, "seed {seed} shared case {index}"),
        }
    }
}

impl Place {
    pub fn command(self) -> Command {
        Command(self)
    }
}

/// Writes itself piece by piece: a fault is reported without allocating.
pub struct Command(Place);

impl fmt::Display for Command {
    fn fmt(&self, f: &mut fmt::Formatter<'_>) -> fmt::Result {
        match self.0 {
            Place::Case {
                seed,
                index,
                mutation,
            } => {
                write!(f, "boundary case --seed {seed} --index {index}")?;
                match mutation {
                    0 => Ok(()),
                    _ => write!(f, " --mutation {mutation}"),
                }
            }
            Place::Trip { seed, index } => {
                write!(f, "boundary trips --seed {seed} --first {index} --cases 1")
            }
            Place::Burst { seed, index } => {
                write!(
                    f,
                    "boundary burst --seed {seed} --first {index} --packets 1"
                )
            }
            Place::Icmp { seed, index } => {
                write!(f, "boundary icmp --seed {seed} --first {index} --cases 1")
            }
            Place::BurstTrip { seed, index } => {
                write!(
                    f,
                    "boundary burst-trips --seed {seed} --first {index} --cases 1"
                )
            }
            Place::Table { seed, index } => {
                write!(f, "boundary faults --seed {seed} --first {index} --cases 1")
            }
            Place::History { seed, index } => {
                write!(f, "boundary loss --seed {seed} --first {index} --offers 1")
            }
            Place::Reading { seed, index } => {
                write!(
                    f,
                    "boundary sequence --seed {seed} --first {index} --cases 1"
                )
            }
            Place::Pair { seed, index } => {
                write!(f, "boundary match --seed {seed} --first {index} --cases 1")
            }
            Place::Route { seed, index } => {
                write!(
                    f,
                    "boundary match-trips --seed {seed} --first {index} --cases 1"
                )
            }
            Place::Flow5 => write!(f, "boundary trips --seed 1 --cases 1"),
            Place::Shared { seed, index } => write!(
                f,
                "boundary threads --seed {seed} --first {index} --cases 1"
            ),
        }
    }
}
