//! What pairs met: each condition by the call, and edges.

use super::near::{Near, Part};
use super::pairs::{self, Ask, Pair};
use super::Pattern;
use crate::edges::{self, edge, Edge};
use crate::generate::{tables, Call};
use crate::table::{
    mask6, Behaviour, Direction, Entry, Table, MAX_ENTRIES, MAX_POLICIES, MAX_RULES,
};
use crate::tally::{Shape, Tally};
use std::fmt;

static CONDITIONS: Shape = Shape {
    corner: "condition",
    lines: &[
        "0", "1", "2", "3", "4", "5", "6", "7", "8", "9", "10", "11", "12", "13", "14", "15", "16",
    ],
    columns: &["ipv6", "ipv4", "waypoint"],
    can_occur: |line, column| {
        let (ask, number) = (Ask::from_name(column), line.parse().ok());
        ask.zip(number)
            .is_some_and(|(ask, number)| ask.numbers().contains(&number))
    },
};

static MET: Shape = Shape {
    corner: "met",
    lines: &edges::names::<_, { EDGES.len() }>(EDGES),
    columns: CONDITIONS.columns,
    can_occur: |line, column| edges::can_occur(EDGES, line, column),
};

const SIX: &[&str] = &["ipv6"];
const FOUR: &[&str] = &["ipv4"];
const ENDS: &[&str] = &["ipv6", "ipv4"];
const WAYPOINT: &[&str] = &["waypoint"];
const ALL: &[&str] = &["ipv6", "ipv4", "waypoint"];

type Test = fn(&View) -> bool;

const EDGES: &[Edge<Test>] = &[
    edge("fits, a longer entry differs before Args", ENDS, |v| {
        v.missed_in(Part::BeforeArgs)
    }),
    edge("fits, a longer one in the destination", FOUR, |v| {
        v.missed_in(Part::Destination)
    }),
    edge("fits, a longer one at R, in uplink", ENDS, |v| {
        v.missed_in(Part::R)
    }),
    edge("fits, a longer one at U", ENDS, |v| v.missed_in(Part::U)),
    edge("fits, a longer one behind Args", ENDS, |v| {
        v.missed_in(Part::BehindArgs)
    }),
    edge("fits, a shorter entry with the same values", ENDS, |v| {
        v.fits() && v.twice()
    }),
    edge("fits, the prefix has no bit", ALL, |v| {
        v.fits() && v.length() == Some(0)
    }),
    edge("fits, the prefix has every bit it may", ENDS, |v| {
        v.fits() && v.longest_possible()
    }),
    edge("fits, hop limit one above the waypoints", ENDS, |v| {
        v.fits() && v.spare_hops() == 1
    }),
    edge("fits, 0 waypoints", ENDS, |v| v.fits_over(0)),
    edge("fits, 1 waypoint", ENDS, |v| v.fits_over(1)),
    edge("fits, 2 waypoints", ENDS, |v| v.fits_over(2)),
    edge("fits, 3 waypoints", ENDS, |v| v.fits_over(3)),
    edge("fits, 4 waypoints", ENDS, |v| v.fits_over(4)),
    edge("fits, 5 waypoints", ENDS, |v| v.fits_over(5)),
    edge("fits, 6 waypoints", ENDS, |v| v.fits_over(6)),
    edge("fits, 7 waypoints", ENDS, |v| v.fits_over(7)),
    edge("fits, the policy has 1 at U", SIX, |v| {
        v.fits() && v.policy_bits(7, 7)
    }),
    edge("fits, the policy has bits behind Args", SIX, |v| {
        v.fits() && v.policy_bits(40, 127)
    }),
    edge("fits, a rule for every destination", FOUR, |v| {
        v.fits() && v.rule_length(0)
    }),
    edge("fits, a rule for one destination", FOUR, |v| {
        v.fits() && v.rule_length(32)
    }),
    edge("fits, longer near entries or rules", ENDS, |v| {
        v.fits() && v.near_is_shadowed()
    }),
    edge("fits, the last of a full near table", ENDS, |v| {
        v.fits() && v.is_last_of_full()
    }),
    edge("fits, the last of 16 policies", SIX, |v| {
        v.fits() && v.near_policy() == Some(MAX_POLICIES - 1)
    }),
    edge("the longest ends in QFI", ENDS, |v| v.ends_in(Part::Qfi)),
    edge("the longest ends at R, in downlink", ENDS, |v| {
        v.ends_in(Part::R) && !v.uplink()
    }),
    edge("the longest ends at R, in uplink", ENDS, |v| {
        v.ends_in(Part::R) && v.uplink()
    }),
    edge("the longest ends at U", ENDS, |v| v.ends_in(Part::U)),
    edge("the longest ends in the TEID", ENDS, |v| {
        v.ends_in(Part::Teid)
    }),
    edge("the longest ends behind Args", ENDS, |v| {
        v.ends_in(Part::BehindArgs)
    }),
    edge("the longest ends in the rule's prefix", FOUR, |v| {
        v.ends_in(Part::Destination) && !v.ends_past_rule()
    }),
    edge("the longest ends in what follows that", FOUR, |v| {
        v.ends_in(Part::Destination) && v.ends_past_rule()
    }),
    edge("other destinations lead to no entry", FOUR, |v| {
        v.ends_in(Part::Destination) && v.ends_past_rule() && v.is_alone()
    }),
    edge("other Args lead to no entry", ENDS, |v| {
        v.ends_in(Part::Teid) && v.is_alone()
    }),
    edge("the longest is one address", ENDS, |v| {
        v.length() == Some(128)
    }),
    edge("equally long ones of two kinds", ENDS, |v| v.equally_long()),
    edge("1, neither table is sound", ENDS, |v| {
        v.condition(1) && !v.other_is_sound()
    }),
    edge("2, no such near entry or rule", ENDS, |v| {
        v.condition(2) && v.is_past_end()
    }),
    edge("3, just past the end", ENDS, |v| {
        v.condition(3) && v.pair.index == v.count()
    }),
    edge("3, below the end in 8 bits", ENDS, |v| {
        v.condition(3) && v.below_end_in(8)
    }),
    edge("3, below the end in 32 bits", ENDS, |v| {
        v.condition(3) && v.below_end_in(32)
    }),
    edge("3, the largest index", ENDS, |v| {
        v.condition(3) && v.pair.index == u64::MAX
    }),
    edge("4, a D entry", SIX, |v| {
        v.condition(4) && v.near_behaviour() == Some(69)
    }),
    edge("4, another that is not Di", SIX, |v| {
        v.condition(4) && v.near_behaviour() != Some(69)
    }),
    edge("5, no entries at all", ENDS, |v| {
        v.condition(5) && v.other_has_no_entries()
    }),
    edge("6, a waypoint", ENDS, |v| {
        v.condition(6) && v.named_behaviour() == Some(1)
    }),
    edge("6, a D entry", ENDS, |v| {
        v.condition(6) && v.named_behaviour() == Some(69)
    }),
    edge("6, a Di entry", ENDS, |v| {
        v.condition(6) && v.named_behaviour() == Some(70)
    }),
    edge("6, an E6 entry", FOUR, |v| {
        v.condition(6) && v.named_behaviour() == Some(71)
    }),
    edge("6, an E4 entry", SIX, |v| {
        v.condition(6) && v.named_behaviour() == Some(72)
    }),
    edge("7, all later conditions fail too", ENDS, |v| {
        v.condition(7) && v.all_later_fail(7)
    }),
    edge("8, all later conditions fail too", ENDS, |v| {
        v.condition(8) && v.all_later_fail(8)
    }),
    edge("9 or 10, one octet earlier", ENDS, |v| v.moved_by(-1)),
    edge("9 or 10, one octet later", ENDS, |v| v.moved_by(1)),
    edge("9, one Args alone leads there", SIX, |v| {
        v.condition(9) && v.holds_all_args()
    }),
    edge("11, one octet earlier", FOUR, |v| {
        v.condition(11) && v.source_moved() == Some(-1)
    }),
    edge("11, one octet later", FOUR, |v| {
        v.condition(11) && v.source_moved() == Some(1)
    }),
    edge("12, the number of waypoints", ENDS, |v| {
        v.condition(12) && v.spare_hops() == 0
    }),
    edge("12, less than that", ENDS, |v| {
        v.condition(12) && v.spare_hops() < 0
    }),
    edge("fits, the waypoint is one address", WAYPOINT, |v| {
        v.fits() && v.length() == Some(128)
    }),
    edge("fits, a shorter one of another kind", WAYPOINT, |v| {
        v.fits() && v.others_match()
    }),
    edge("fits, a longer one of another kind misses", WAYPOINT, |v| {
        v.fits() && v.just_missed()
    }),
    edge("13, the SID is wrong too", WAYPOINT, |v| {
        v.condition(13) && v.pair.other.len() != 16
    }),
    edge("14, no octets", WAYPOINT, |v| {
        v.condition(14) && v.pair.other.is_empty()
    }),
    edge("14, 15 octets", WAYPOINT, |v| {
        v.condition(14) && v.pair.other.len() == 15
    }),
    edge("14, 17 octets", WAYPOINT, |v| {
        v.condition(14) && v.pair.other.len() == 17
    }),
    edge("16, a shorter waypoint matches", WAYPOINT, |v| {
        v.condition(16) && v.ends_match()
    }),
    edge("16, D or Di", WAYPOINT, |v| {
        v.condition(16) && v.named_is(69, 70)
    }),
    edge("16, E6 or E4", WAYPOINT, |v| {
        v.condition(16) && v.named_is(71, 72)
    }),
    edge("a table without octets", ALL, |v| v.pair.table.is_empty()),
    edge("the last of 64 entries is named", ALL, |v| {
        v.pair.mismatch >> 16 == MAX_ENTRIES as u64 - 1
    }),
];

/// A pair with what can be read of it.
struct View<'a> {
    pair: &'a Pair,
    /// The near table, or the waypoint's, if it is sound; the far table.
    table: Option<Table>,
    other: Option<Table>,
    /// Where both tables are sound.
    near: Option<Near>,
    /// The entries that SIDs lead to, or the SID, the longest first.
    reached: Vec<Entry>,
}

impl<'a> View<'a> {
    fn of(pair: &'a Pair) -> View<'a> {
        let table = Table::decode(&pair.table).ok();
        let other = Table::decode(&pair.other).ok();
        let call = match pair.ask {
            Ask::Ipv6 => Some(Call::Ipv6),
            Ask::Ipv4 => Some(Call::Ipv4),
            Ask::Waypoint => None,
        };
        let near = match (call, &table, &other) {
            (Some(call), Some(table), Some(_)) => Near::of(call, table, pair.index),
            _ => None,
        };
        let sid = pair.other[..].try_into().map(u128::from_be_bytes);
        let (entries, pattern) = match (&near, &table, &other) {
            (Some(near), _, Some(far)) => (&far.entries[..], Some(near.pattern)),
            (None, Some(table), _) if call.is_none() => {
                let alone = |fixed| Pattern { fixed, free: 0 };
                (&table.entries[..], sid.ok().map(alone))
            }
            _ => (&[][..], None),
        };
        let led_to = |e: &&Entry| pattern.is_some_and(|pattern| pattern.reaches(e.prefix));
        let mut reached: Vec<Entry> = entries.iter().filter(led_to).copied().collect();
        reached.sort_by_key(|entry| 128 - entry.prefix.length);
        View {
            pair,
            table,
            other,
            near,
            reached,
        }
    }

    fn condition(&self, number: u8) -> bool {
        self.pair.condition() == number
    }

    fn fits(&self) -> bool {
        self.condition(0)
    }

    fn longest(&self) -> Option<&Entry> {
        self.reached.first()
    }

    fn length(&self) -> Option<u8> {
        self.longest().map(|entry| entry.prefix.length)
    }

    fn near_is(&self, holds: impl FnOnce(&Near) -> bool) -> bool {
        self.near.as_ref().is_some_and(holds)
    }

    /// Whether an entry that is longer than all those reached differs in a part and nowhere else.
    fn missed_in(&self, part: Part) -> bool {
        let (Some(near), Some(far), Some(longest)) = (&self.near, &self.other, self.length())
        else {
            return false;
        };
        let mut longer = far.entries.iter().filter(|e| e.prefix.length > longest);
        self.fits()
            && longer.any(|e| {
                let compared = mask6(e.prefix.length.into()) & !near.pattern.free;
                let bits = (e.prefix.bits ^ near.pattern.fixed) & compared;
                let (first, last) = (bits.leading_zeros(), 127 - bits.trailing_zeros().min(127));
                bits != 0 && [first, last].map(|bit| near.part(bit as usize)) == [part; 2]
            })
    }

    /// Whether the two longest have the same values.
    fn twice(&self) -> bool {
        matches!(self.reached[..], [first, second, ..] if first.behaviour == second.behaviour)
    }

    fn longest_possible(&self) -> bool {
        let most = |entry: &Entry| tables::longest_prefix(&entry.behaviour);
        self.longest()
            .is_some_and(|entry| entry.prefix.length > 0 && entry.prefix.length == most(entry))
    }

    fn fits_over(&self, waypoints: usize) -> bool {
        self.fits() && self.near_is(|near| near.waypoints.len() == waypoints)
    }

    /// How much the hop limit is above the waypoints.
    fn spare_hops(&self) -> isize {
        self.near.as_ref().map_or(isize::MAX, |near| {
            isize::from(near.hop_limit) - near.waypoints.len() as isize
        })
    }

    /// Whether the last SID of the policy has a 1 in these bits, counted from the first of Args.
    fn policy_bits(&self, first: usize, last: usize) -> bool {
        let Some((near, sid)) = self.near.as_ref().zip(self.policy_sid()) else {
            return false;
        };
        let from = near.args() + first;
        let to = (near.args() + last).min(127);
        from <= to && (sid << from) >> (127 - to + from) != 0
    }

    fn policy_sid(&self) -> Option<u128> {
        let policies = &self.table.as_ref()?.policies;
        policies[self.near_policy()?].sids.last().copied()
    }

    fn near_policy(&self) -> Option<usize> {
        match self.near_entry()?.behaviour {
            Behaviour::Di(inbound) => Some(inbound.policy),
            _ => None,
        }
    }

    fn is_last_of_full(&self) -> bool {
        let most = match self.pair.ask {
            Ask::Ipv4 => MAX_RULES,
            _ => MAX_ENTRIES,
        } as u64;
        self.count() == most && self.pair.index == most - 1
    }

    fn near_entry(&self) -> Option<&Entry> {
        let index = usize::try_from(self.pair.index).ok()?;
        self.table.as_ref()?.entries.get(index)
    }

    fn near_behaviour(&self) -> Option<u8> {
        self.near_entry().map(|entry| entry.behaviour.number())
    }

    fn rule_length(&self, length: u8) -> bool {
        self.near_is(|near| near.prefix.length == length)
    }

    fn near_is_shadowed(&self) -> bool {
        self.near_is(|near| !near.longer.is_empty())
    }

    fn uplink(&self) -> bool {
        self.near_is(|near| near.session.direction == Direction::Uplink)
    }

    /// Whether the longest ends in a part.
    fn ends_in(&self, part: Part) -> bool {
        let last = self.length().and_then(|length| length.checked_sub(1));
        last.is_some_and(|last| self.near_is(|near| near.part(last.into()) == part))
    }

    /// Whether the longest holds bits of the destination that the rule's prefix does not.
    fn ends_past_rule(&self) -> bool {
        let length = self.length().map_or(0, usize::from);
        self.near_is(|near| {
            let first = near.p.map_or(0, |p| 8 * usize::from(p));
            length > first + usize::from(near.prefix.length)
        })
    }

    /// Whether no other entry is led to.
    fn is_alone(&self) -> bool {
        self.reached.len() == 1
    }

    fn equally_long(&self) -> bool {
        let shown = |entry: &Entry| (entry.prefix.length, entry.behaviour.number());
        match self.reached[..] {
            [first, second, ..] => {
                let ((first, kind), (second, other_kind)) = (shown(&first), shown(&second));
                first == second && kind != other_kind
            }
            _ => false,
        }
    }

    fn other_is_sound(&self) -> bool {
        self.other.is_some()
    }

    fn other_has_no_entries(&self) -> bool {
        self.other
            .as_ref()
            .is_some_and(|far| far.entries.is_empty())
    }

    /// How many records there are of those that the index is for.
    fn count(&self) -> u64 {
        let count = self.table.as_ref().map_or(0, |table| match self.pair.ask {
            Ask::Ipv4 => table.rules.len(),
            _ => table.entries.len(),
        });
        count as u64
    }

    fn is_past_end(&self) -> bool {
        self.pair.index >= self.count()
    }

    fn below_end_in(&self, bits: u32) -> bool {
        self.pair.index % (1 << bits) < self.count()
    }

    fn named_behaviour(&self) -> Option<u8> {
        self.longest().map(|entry| entry.behaviour.number())
    }

    fn named_is(&self, first: u8, second: u8) -> bool {
        let number = self.named_behaviour();
        number == Some(first) || number == Some(second)
    }

    /// How many octets later the far entry reads Args, where it is of the right kind.
    fn moved(&self) -> Option<i16> {
        let near = self.near.as_ref()?;
        let place = match (self.longest()?.behaviour, near.p) {
            (Behaviour::E6 { args_start, .. }, None) => args_start,
            (Behaviour::E4 { places, .. }, Some(_)) => places.p + 4,
            _ => return None,
        };
        Some(i16::from(place) - i16::from(near.args_start))
    }

    fn moved_by(&self, octets: i16) -> bool {
        (self.condition(9) || self.condition(10)) && self.moved() == Some(octets)
    }

    /// How many octets later an E4 entry reads the source.
    fn source_moved(&self) -> Option<i16> {
        let rules = &self.table.as_ref()?.rules;
        let rule = rules.get(usize::try_from(self.pair.index).ok()?)?;
        match self.longest()?.behaviour {
            Behaviour::E4 { places, .. } => Some(i16::from(places.q) - i16::from(rule.places.q)),
            _ => None,
        }
    }

    fn all_later_fail(&self, condition: u8) -> bool {
        let (Some(near), Some(longest)) = (&self.near, self.longest()) else {
            return false;
        };
        let (Behaviour::E6 { session, .. } | Behaviour::E4 { session, .. }) = longest.behaviour
        else {
            return false;
        };
        let session_type = session.session_type != near.session.session_type;
        let source = near.p.is_none() || self.source_moved() != Some(0);
        (condition >= 8 || session_type)
            && self.moved() != Some(0)
            && source
            && self.spare_hops() <= 0
    }

    fn holds_all_args(&self) -> bool {
        let length = self.length().map_or(0, usize::from);
        self.near_is(|near| length >= near.args() + 40)
    }

    fn others_match(&self) -> bool {
        let mut reached = self.reached.iter();
        reached.any(|entry| entry.behaviour != Behaviour::End)
    }

    fn ends_match(&self) -> bool {
        let mut reached = self.reached.iter();
        reached.any(|entry| entry.behaviour == Behaviour::End)
    }

    /// Whether a longer entry of another kind differs from the SID in its last bit alone.
    fn just_missed(&self) -> bool {
        let Some((table, longest)) = self.table.as_ref().zip(self.length()) else {
            return false;
        };
        let sid = self.pair.other[..].try_into().map(u128::from_be_bytes).ok();
        let mut longer = table.entries.iter().filter(|e| e.prefix.length > longest);
        longer.any(|e| {
            let last = 1u128 << (128 - u32::from(e.prefix.length));
            let bits = sid.map(|sid| (e.prefix.bits ^ sid) & mask6(e.prefix.length.into()));
            e.behaviour != Behaviour::End && bits == Some(last)
        })
    }
}

pub struct Coverage {
    conditions: Tally,
    met: Tally,
}

impl Coverage {
    pub fn new() -> Self {
        Coverage {
            conditions: Tally::new(&CONDITIONS),
            met: Tally::new(&MET),
        }
    }

    pub fn add(&mut self, pair: &Pair) {
        let column = pair.ask.name();
        self.conditions
            .add(&pair.condition().to_string(), column, &[]);
        let view = View::of(pair);
        edges::add(&mut self.met, EDGES, column, |met| met(&view));
    }

    /// An error that names every gap.
    pub fn judge(&self) -> Result<(), String> {
        self.conditions.judge().and(self.met.judge())
    }
}

impl Default for Coverage {
    fn default() -> Self {
        Self::new()
    }
}

impl fmt::Display for Coverage {
    fn fmt(&self, f: &mut fmt::Formatter<'_>) -> fmt::Result {
        write!(f, "{}\n{}", self.met, self.conditions)
    }
}

/// Generates and checks the first `cases` pairs of a seed.
pub fn collect(seed: u64, cases: u64) -> Result<Coverage, String> {
    let mut coverage = Coverage::new();
    for index in 0..cases {
        let pair = pairs::pair(seed, index);
        pair.check()
            .map_err(|why| format!("seed {seed} pair {index}: {why}"))?;
        coverage.add(&pair);
    }
    Ok(coverage)
}

#[cfg(test)]
mod tests {
    use super::*;

    #[test]
    fn no_gap() {
        let coverage = collect(7, 20_000).unwrap();
        assert_eq!(coverage.judge(), Ok(()), "{coverage}");
    }
}
