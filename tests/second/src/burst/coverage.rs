//! What bursts met: edges by the call, each count of lengths, and the answer numbers of their packets
//! by the kind.

use super::cases::{self, Burst};
use super::MOST_PACKETS;
use crate::answer::Answer;
use crate::coverage::Coverage;
use crate::edges::{self, edge, Edge};
use crate::generate::{translate, Call, Kind};
use crate::table::Table;
use crate::tally::{Shape, Tally};
use std::fmt;

static COUNTS: Shape = Shape {
    corner: "lengths",
    lines: &[
        "0", "1", "2", "3", "4", "5", "6", "7", "8", "9", "10", "11", "12", "13", "14", "15", "16",
        "17", "18", "19", "20", "21", "22", "23", "24", "25", "26", "27", "28", "29", "30", "31",
        "32", "33", "more",
    ],
    columns: &["ipv6", "ipv6 19", "ipv4", "ipv4 19"],
    can_occur: |line, column| column.ends_with("19") || !["33", "more"].contains(&line),
};

static MET: Shape = Shape {
    corner: "met",
    lines: &edges::names::<_, { EDGES.len() }>(EDGES),
    columns: BOTH,
    can_occur: |line, column| edges::can_occur(EDGES, line, column),
};

const BOTH: &[&str] = &["ipv6", "ipv4"];
const SIX: &[&str] = &["ipv6"];

type Test = fn(&View) -> bool;

const EDGES: &[Edge<Test>] = &[
    edge("no packets", BOTH, |v| v.has(0)),
    edge("no packets, places", BOTH, |v| {
        v.has(0) && v.burst.places > 0
    }),
    edge("no packets, room", BOTH, |v| v.has(0) && v.burst.room > 0),
    edge("no packets, table not sound", BOTH, |v| {
        v.has(0) && !v.is_sound()
    }),
    edge("1 packet, sent", BOTH, |v| v.has(1) && v.all(sent)),
    edge("1 packet, refused", BOTH, |v| v.has(1) && v.all(refused)),
    edge("32 packets, all sent", BOTH, |v| v.has(32) && v.all(sent)),
    edge("32 packets, all refused", BOTH, |v| {
        v.has(32) && v.all(refused)
    }),
    edge("32 packets, some sent", BOTH, |v| {
        v.has(32) && v.any(sent) && v.any(refused)
    }),
    edge("refused, then sent", BOTH, |v| v.in_order(&[bad, sent])),
    edge("sent, refused, sent", BOTH, |v| {
        v.in_order(&[sent, bad, sent])
    }),
    edge("sent, refused twice, sent", BOTH, |v| {
        v.in_order(&[sent, bad, bad, sent])
    }),
    edge("three kinds sent", SIX, |v| v.kinds_sent() >= 3),
    edge("five kinds sent", SIX, |v| v.kinds_sent() == 5),
    edge("the same packet sent twice", BOTH, |v| v.sends_one_twice()),
    edge("a packet of the other IP version", BOTH, |v| {
        v.has_other_version()
    }),
    edge("a length of 0 first", BOTH, |v| v.empty_at(|at, _| at == 0)),
    edge("a length of 0 between", BOTH, |v| {
        v.empty_at(|at, last| at > 0 && at < last)
    }),
    edge("a length of 0 last", BOTH, |v| {
        v.empty_at(|at, last| at == last)
    }),
    edge("lengths of 0 alone", BOTH, |v| {
        !v.burst.answers.is_empty() && v.burst.packets.is_empty()
    }),
    edge("an Echo Request answered", BOTH, |v| {
        v.echoes().contains(&Some(true))
    }),
    edge("an Echo Request answered, then one sent on", BOTH, |v| {
        v.follow(true, false)
    }),
    edge("one sent on, then an Echo Request answered", BOTH, |v| {
        v.follow(false, true)
    }),
    edge("two Echo Requests answered", BOTH, |v| v.follow(true, true)),
    edge("a pointer, behind another packet", SIX, |v| {
        v.any_behind(|answer| answer.icmp_pointer != 0)
    }),
    edge("Time Exceeded, behind another packet", SIX, |v| {
        v.any_behind(|answer| answer.number == 6)
    }),
    edge("room for just the results", BOTH, |v| v.spare() == Some(0)),
    edge("room for one octet more", BOTH, |v| v.spare() == Some(1)),
    edge("more room", BOTH, |v| v.spare() > Some(1)),
    edge("one octet short for the last", BOTH, |v| {
        v.burst.answers.last().is_some_and(no_room) && v.short_at(1, v.whole.len() - 1)
    }),
    edge("no room", BOTH, |v| v.any(no_room) && v.burst.room == 0),
    edge("16 first, a shorter one sent", BOTH, |v| {
        v.in_order(&[no_room, sent]) && v.burst.answers.first().is_some_and(no_room)
    }),
    edge("sent, 16, a shorter one sent", BOTH, |v| {
        v.in_order(&[sent, no_room, sent])
    }),
    edge("16 twice, a shorter one sent", BOTH, |v| {
        v.in_order(&[no_room, no_room, sent])
    }),
    edge("16, a shorter one sent, 16", BOTH, |v| {
        v.in_order(&[no_room, sent, no_room])
    }),
    edge("16, one that just fits", BOTH, |v| {
        v.in_order(&[no_room, sent]) && v.spare() == Some(0)
    }),
    edge("16, one octet short", BOTH, |v| v.short_by(1)),
    edge("16, nothing left behind one sent", BOTH, |v| {
        let mut all = v.burst.answers.iter().zip(&v.left).enumerate();
        all.any(|(at, (answer, &left))| no_room(answer) && left == 0 && at > 0) && v.any(sent)
    }),
    edge("16, then another refusal", BOTH, |v| {
        v.in_order(&[no_room, bad])
    }),
    edge("another refusal, then 16", BOTH, |v| {
        v.in_order(&[bad, no_room])
    }),
    edge("an Echo Request answered behind a 16", BOTH, |v| {
        let first = v.burst.answers.iter().position(no_room);
        first.is_some_and(|at| v.echoes()[at..].contains(&Some(true)))
    }),
    edge("sum over 65,535", BOTH, |v| v.burst.answer.length > 65_535),
    edge("sum 2,098,400", BOTH, |v| {
        v.burst.answer.length == 2_098_400
    }),
    edge("as many places as packets", BOTH, |v| v.places() == Some(0)),
    edge("one place more", BOTH, |v| v.places() == Some(1)),
    edge("over 32 places", BOTH, |v| {
        v.places().is_some() && v.burst.places > 32
    }),
    edge("1 for each packet", BOTH, |v| {
        v.all(|answer| answer.number == 1)
    }),
    edge("1 for each of 32 packets", BOTH, |v| {
        v.has(32) && v.all(|answer| answer.number == 1)
    }),
    edge("19, 33 lengths", BOTH, |v| {
        v.only(Why::Lengths) && v.count() == 33
    }),
    edge("19, more lengths", BOTH, |v| {
        v.only(Why::Lengths) && v.count() > 33
    }),
    edge("19, one octet too many", BOTH, |v| {
        v.only(Why::Sum) && v.sum() == v.octets() + 1
    }),
    edge("19, one octet too few", BOTH, |v| {
        v.only(Why::Sum) && v.sum() + 1 == v.octets()
    }),
    edge("19, right in 32 bits", BOTH, |v| {
        v.only(Why::Sum) && v.sum() as u32 == v.octets() as u32
    }),
    edge("19, right in 16 bits", BOTH, |v| {
        v.only(Why::Sum) && v.sum() as u32 as u16 == v.octets() as u16 && v.sum() >> 32 == 0
    }),
    edge("19, one length past 2,147,483,647", BOTH, |v| {
        v.only(Why::Sum) && v.burst.lengths.iter().any(|&length| length >> 31 == 1)
    }),
    edge("19, no lengths, an input", BOTH, |v| {
        v.only(Why::Sum) && v.count() == 0
    }),
    edge("19, lengths of 0, an input", BOTH, |v| {
        v.only(Why::Sum) && v.count() > 0 && v.sum() == 0
    }),
    edge("19, lengths, no input", BOTH, |v| {
        v.only(Why::Sum) && v.octets() == 0
    }),
    edge("19, one place too few", BOTH, |v| {
        v.only(Why::Places) && v.burst.places + 1 == v.count()
    }),
    edge("19, no place", BOTH, |v| {
        v.only(Why::Places) && v.burst.places == 0
    }),
    edge("19, 31 places for 32 packets", BOTH, |v| {
        v.only(Why::Places) && v.burst.places == 31 && v.count() == 32
    }),
    edge("19, too few places, else all sent", BOTH, |v| {
        v.only(Why::Places) && v.would_send()
    }),
    edge("19, lengths and sum", BOTH, |v| {
        v.whys == [true, true, false]
    }),
    edge("19, lengths and places", BOTH, |v| {
        v.whys == [true, false, true]
    }),
    edge("19, sum and places", BOTH, |v| {
        v.whys == [false, true, true]
    }),
    edge("19, lengths, sum and places", BOTH, |v| v.whys == [true; 3]),
    edge("19, table not sound", BOTH, |v| {
        v.whys.contains(&true) && !v.is_sound()
    }),
    edge("19, no room", BOTH, |v| {
        v.whys.contains(&true) && v.burst.room == 0 && v.octets() > 0
    }),
];

/// The three reasons of 19.
#[derive(Clone, Copy)]
enum Why {
    Lengths,
    Sum,
    Places,
}

fn sent(answer: &Answer) -> bool {
    answer.number == 0
}

fn refused(answer: &Answer) -> bool {
    answer.number != 0
}

fn no_room(answer: &Answer) -> bool {
    answer.number == 16
}

/// Refused, whatever the room is.
fn bad(answer: &Answer) -> bool {
    refused(answer) && !no_room(answer)
}

/// A burst, and what its edges are told by.
struct View<'a> {
    burst: &'a Burst,
    table: Option<&'a Table>,
    kinds: &'a [Kind],
    /// Which reasons of 19 there are, each judged by itself.
    whys: [bool; 3],
    /// The length of each result where there is room; 0 where it is refused all the same.
    whole: Vec<usize>,
    /// The room before each packet.
    left: Vec<usize>,
}

impl<'a> View<'a> {
    fn of(burst: &'a Burst, table: Option<&'a Table>, kinds: &'a [Kind]) -> Self {
        let (lengths, octets) = (burst.lengths.iter(), burst.packets.len() as u128);
        let whys = [
            burst.lengths.len() > MOST_PACKETS,
            lengths.map(|&length| u128::from(length)).sum::<u128>() != octets,
            burst.places < burst.lengths.len(),
        ];
        let mut left = Vec::new();
        let mut room = burst.room;
        for answer in &burst.answers {
            left.push(room);
            room -= answer.length as usize;
        }
        let pairs = burst.answers.iter().zip(burst.each());
        let whole = pairs.map(|(answer, packet)| match answer.number {
            16 => {
                let mut out = vec![0; packet.len() + 200];
                let packed = translate(burst.call, packet, &burst.table, &mut out);
                Answer::unpack(packed).length as usize
            }
            _ => answer.length as usize,
        });
        View {
            burst,
            table,
            kinds,
            whys,
            whole: whole.collect(),
            left,
        }
    }

    fn is_sound(&self) -> bool {
        self.table.is_some()
    }

    fn count(&self) -> usize {
        self.burst.lengths.len()
    }

    fn octets(&self) -> u64 {
        self.burst.packets.len() as u64
    }

    fn sum(&self) -> u64 {
        self.burst.lengths.iter().map(|&l| u64::from(l)).sum()
    }

    fn is_answered(&self) -> bool {
        self.burst.answer.number == 0
    }

    /// Whether it is no 19 and has so many packets.
    fn has(&self, packets: usize) -> bool {
        self.is_answered() && self.count() == packets
    }

    fn all(&self, is: fn(&Answer) -> bool) -> bool {
        !self.burst.answers.is_empty() && self.burst.answers.iter().all(is)
    }

    fn any(&self, is: fn(&Answer) -> bool) -> bool {
        self.burst.answers.iter().any(is)
    }

    fn any_behind(&self, is: fn(&Answer) -> bool) -> bool {
        self.burst.answers.iter().skip(1).any(is)
    }

    /// Whether there are such answers in this order, with any others between.
    fn in_order(&self, wanted: &[fn(&Answer) -> bool]) -> bool {
        let mut answers = self.burst.answers.iter();
        wanted.iter().all(|is| answers.any(is))
    }

    fn kinds_sent(&self) -> usize {
        let pairs = self.burst.answers.iter().zip(self.kinds);
        let sent: Vec<Kind> = pairs.filter(|(a, _)| sent(a)).map(|(_, &k)| k).collect();
        Kind::ALL.iter().filter(|kind| sent.contains(kind)).count()
    }

    fn sends_one_twice(&self) -> bool {
        let all = self.burst.each().zip(&self.burst.answers);
        let mut sent: Vec<&[u8]> = all.filter(|(_, a)| sent(a)).map(|(p, _)| p).collect();
        sent.sort_unstable();
        sent.windows(2).any(|pair| pair[0] == pair[1])
    }

    fn has_other_version(&self) -> bool {
        let (version, least) = match self.burst.call {
            Call::Ipv6 => (4, 20),
            Call::Ipv4 => (6, 40),
        };
        let mut packets = self.burst.each();
        let other = |packet: &[u8]| packet.len() >= least && packet[0] >> 4 == version;
        self.is_answered() && self.count() > 1 && packets.any(other)
    }

    /// Whether a length of 0 stands at such a place among several; the last place is given too.
    fn empty_at(&self, is: fn(usize, usize) -> bool) -> bool {
        let last = self.burst.answers.len().saturating_sub(1);
        let mut lengths = self.burst.lengths.iter().enumerate();
        self.is_answered() && last > 0 && lengths.any(|(at, &length)| length == 0 && is(at, last))
    }

    /// Of each packet sent, whether it is an Echo Response; `None` for the others.
    fn echoes(&self) -> Vec<Option<bool>> {
        let mut results = &self.burst.sent[..];
        let echo = |answer: &Answer| {
            let (result, behind) = results.split_at(answer.length as usize);
            results = behind;
            let message_type = match self.burst.call {
                Call::Ipv6 => result.get(49),
                Call::Ipv4 => result.get(29),
            };
            let is_reply = match (self.burst.call, result.len()) {
                (Call::Ipv6, 62) => result[6] == 17 && message_type == Some(&2),
                (Call::Ipv4, 42) => result[0] >> 4 == 4 && message_type == Some(&2),
                _ => false,
            };
            sent(answer).then_some(is_reply)
        };
        self.burst.answers.iter().map(echo).collect()
    }

    /// Whether one sent is an Echo Response or not, and one behind it.
    fn follow(&self, first: bool, second: bool) -> bool {
        let echoes = self.echoes();
        let mut echoes = echoes.iter().flatten();
        echoes.any(|&echo| echo == first) && echoes.any(|&echo| echo == second)
    }

    /// The room left behind the last packet, where one is sent.
    fn spare(&self) -> Option<usize> {
        let used = self.burst.answer.length as usize;
        self.any(sent).then(|| self.burst.room - used)
    }

    fn short_at(&self, octets: usize, at: usize) -> bool {
        no_room(&self.burst.answers[at]) && self.left[at] + octets == self.whole[at]
    }

    fn short_by(&self, octets: usize) -> bool {
        (0..self.whole.len()).any(|at| self.short_at(octets, at))
    }

    /// The places more than packets.
    fn places(&self) -> Option<usize> {
        let more = self.burst.places.checked_sub(self.count());
        more.filter(|_| self.is_answered() && self.count() > 0)
    }

    /// Whether this is the one reason of 19.
    fn only(&self, why: Why) -> bool {
        self.whys
            .iter()
            .enumerate()
            .all(|(at, &is)| is == (at == why as usize))
    }

    /// Whether each packet would be sent, with room enough.
    fn would_send(&self) -> bool {
        let mut out = vec![0; 70_000];
        let mut packets = self.burst.each();
        packets.all(|packet| {
            let packed = translate(self.burst.call, packet, &self.burst.table, &mut out);
            sent(&Answer::unpack(packed))
        })
    }
}

/// All that bursts met.
pub struct Met {
    edges: Tally,
    counts: Tally,
    numbers: Coverage,
    packets: u64,
}

impl Met {
    pub const TABLES: u64 = 3;

    pub fn new() -> Self {
        Met {
            edges: Tally::new(&MET),
            counts: Tally::new(&COUNTS),
            numbers: Coverage::default(),
            packets: 0,
        }
    }

    pub fn add(&mut self, burst: &Burst) {
        let table = Table::decode(&burst.table).ok();
        let matched = |packet| Kind::matched(burst.call, packet, table.as_ref()?);
        let meant = burst.kinds.iter().zip(burst.each());
        let kinds: Vec<Kind> = meant
            .map(|(&kind, packet)| matched(packet).unwrap_or(kind))
            .collect();
        for (&kind, answer) in kinds.iter().zip(&burst.answers) {
            self.numbers.add(kind, answer.number);
            self.packets += 1;
        }
        let column = match (burst.call, burst.answer.number) {
            (Call::Ipv6, 0) => "ipv6",
            (Call::Ipv6, _) => "ipv6 19",
            (Call::Ipv4, 0) => "ipv4",
            (Call::Ipv4, _) => "ipv4 19",
        };
        let count = COUNTS.lines[burst.lengths.len().min(COUNTS.lines.len() - 1)];
        self.counts.add(count, column, &[]);
        let view = View::of(burst, table.as_ref(), &kinds);
        edges::add(&mut self.edges, EDGES, burst.call.name(), |met| met(&view));
    }

    pub fn bursts(&self) -> u64 {
        self.counts.cases()
    }

    /// Packets that were answered.
    pub fn packets(&self) -> u64 {
        self.packets
    }

    /// An error that names every finding of a table.
    pub fn judge(&self) -> Result<(), String> {
        self.judge_first(Met::TABLES)
    }

    /// The same of the first tables alone: the edges, the counts of lengths, the numbers. Few bursts
    /// do not meet all of the last.
    pub fn judge_first(&self, tables: u64) -> Result<(), String> {
        let judged = [
            self.edges.judge(),
            self.counts.judge(),
            self.numbers.judge(),
        ];
        judged.into_iter().take(tables as usize).collect()
    }
}

impl Default for Met {
    fn default() -> Self {
        Self::new()
    }
}

impl fmt::Display for Met {
    fn fmt(&self, f: &mut fmt::Formatter<'_>) -> fmt::Result {
        write!(f, "{}\n{}\n{}", self.edges, self.counts, self.numbers)
    }
}

/// Generates and checks the first `cases` bursts of a seed.
pub fn collect(seed: u64, cases: u64) -> Result<Met, String> {
    let mut met = Met::new();
    for (index, burst) in cases::bursts(seed, 0) {
        if index >= cases {
            break;
        }
        burst
            .check()
            .map_err(|why| format!("seed {seed} burst {index}: {why}"))?;
        met.add(&burst);
    }
    Ok(met)
}

#[cfg(test)]
mod tests {
    use super::*;

    #[test]
    fn no_gap() {
        let met = collect(7, 12_000).unwrap();
        assert_eq!(met.judge(), Ok(()), "{met}");
    }
}
