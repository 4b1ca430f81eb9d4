//! Near and far tables: some that fit, most with one thing that does not, or with a few.

use super::near::{bit6, Near};
use super::pairs::damage;
use crate::args::{self, ArgsMobSession};
use crate::generate::{tables, Call};
use crate::rng::Rng;
use crate::table::{
    mask6, Behaviour, Direction, Entry, Inbound, Ipv4Places, Ipv4Prefix, Ipv6Prefix, Policy,
    Session, SessionType, Table, MAX_ARGS_START, MAX_ENTRIES, MAX_P, MAX_POLICIES, MAX_Q,
    MAX_RULES, MAX_SIDS, MAX_WAYPOINTS,
};

/// Both ends of a trip.
#[derive(Clone, Debug)]
pub struct Ends {
    pub call: Call,
    pub near: Vec<u8>,
    /// Of the near entry or rule.
    pub index: u64,
    pub far: Vec<u8>,
    /// The near table before its octets were damaged, if they were.
    drawn_near: Table,
}

impl Ends {
    /// The near table; where it is not sound, the one that was damaged.
    pub fn near_table(&self) -> Table {
        Table::decode(&self.near).unwrap_or_else(|_| self.drawn_near.clone())
    }
}

/// Tables as they are drawn and changed. The target is the far entry that fits, by its prefix.
struct Draft {
    call: Call,
    near: Table,
    index: u64,
    far: Table,
    target: Ipv6Prefix,
}

pub fn ends(rng: &mut Rng, call: Call) -> Ends {
    let mut draft = match call {
        Call::Ipv6 => draw6(rng),
        Call::Ipv4 => draw4(rng),
    };
    for _ in 0..rng.pick(&[0, 0, 0, 1, 1, 1, 1, 1, 2, 2, 2, 3]) {
        draft.change(rng);
    }
    let target = draft.target;
    shuffle(rng, &mut draft.far.entries, target);
    let (mut near, mut far) = (octets(rng, &draft.near), octets(rng, &draft.far));
    match rng.below(50) {
        0..=2 => damage(rng, &mut near),
        3..=5 => damage(rng, &mut far),
        6 => {
            damage(rng, &mut near);
            damage(rng, &mut far);
        }
        _ => {}
    }
    Ends {
        call,
        near,
        index: draft.index,
        far,
        drawn_near: draft.near,
    }
}

/// Now and then this entry is the last.
pub fn shuffle(rng: &mut Rng, entries: &mut [Entry], prefix: Ipv6Prefix) {
    rng.shuffle(entries);
    let place = entries.iter().position(|e| e.prefix == prefix);
    if let (Some(place), true) = (place, rng.chance(40)) {
        entries.swap(place, entries.len() - 1);
    }
}

/// What no field holds is 0, or anything.
pub fn octets(rng: &mut Rng, table: &Table) -> Vec<u8> {
    let mut octets = table.encode();
    if rng.chance(50) {
        tables::fill_unused(rng, table, &mut octets);
    }
    octets
}

/// More than the waypoints: just one more, or any.
fn hop_limit(rng: &mut Rng, waypoints: usize) -> u8 {
    match rng.below(3) {
        0 => waypoints as u8 + 1,
        _ => rng.between(waypoints + 1, 255) as u8,
    }
}

pub fn policies(rng: &mut Rng) -> Vec<Policy> {
    (0..rng.below(3)).map(|_| tables::policy(rng)).collect()
}

/// The ends of 0 to `most`, and any between.
pub fn edged(rng: &mut Rng, most: usize) -> usize {
    match rng.below(6) {
        0 => 0,
        1 | 2 => most,
        _ => rng.between(0, most),
    }
}

fn draw6(rng: &mut Rng) -> Draft {
    let session = tables::session(rng);
    let count = rng.between(1, MAX_SIDS);
    let policy = Policy {
        args_start: tables::args_start(rng),
        sids: (0..count).map(|_| tables::address(rng)).collect(),
    };
    let (last, args_start) = (policy.sids[count - 1], policy.args_start);
    let full = rng.chance(3);
    let mut policies = match full {
        true => (1..MAX_POLICIES).map(|_| tables::policy(rng)).collect(),
        false => policies(rng),
    };
    let place = rng.below(policies.len() + 1);
    policies.insert(place, policy);
    let destination = tables::address(rng);
    let entry = Entry {
        prefix: Ipv6Prefix::of(destination, edged(rng, 128) as u8),
        hop_limit: hop_limit(rng, count - 1),
        source: rng.u128(),
        behaviour: Behaviour::Di(Inbound {
            session,
            policy: place,
            zero_checksum: rng.chance(50),
        }),
    };
    let others = if full { 8 * MAX_ENTRIES } else { rng.below(5) };
    let target = Some((destination, entry));
    let mut entries = tables::nested_entries(rng, target, others, policies.len());
    shuffle(rng, &mut entries, entry.prefix);
    let index = entries.iter().position(|e| e.prefix == entry.prefix);
    let (address, count) = (rng.u32(), rng.below(2));
    let near = Table {
        rules: tables::nested_rules(rng, address, count),
        entries,
        policies,
    };
    let behaviour = Behaviour::E6 {
        session,
        args_start,
        source_port: rng.u16(),
    };
    Draft::new(rng, Call::Ipv6, near, index, last, behaviour)
}

fn draw4(rng: &mut Rng) -> Draft {
    let destination = rng.u32();
    let prefix = Ipv4Prefix::of(destination, edged(rng, 32) as u8);
    let mut rule = tables::rule(rng, prefix);
    let count = rng.between(0, MAX_WAYPOINTS);
    rule.waypoints = (0..count).map(|_| tables::address(rng)).collect();
    rule.hop_limit = hop_limit(rng, count);
    let (session, places, sid) = (rule.session, rule.places, rule.sid_prefix);
    let others = if rng.chance(3) { 4 * MAX_RULES } else { 3 };
    let mut rules = tables::nested_rules(rng, destination, others);
    rules.retain(|r| r.prefix.length < prefix.length || !r.prefix.matches(destination));
    rules.truncate(MAX_RULES - 1);
    rules.push(rule);
    if rng.chance(60) {
        rng.shuffle(&mut rules);
    }
    let index = rules.iter().position(|r| r.prefix == prefix);
    let others = rng.below(3);
    let near = Table {
        entries: tables::nested_entries(rng, None, others, 0),
        rules,
        policies: Vec::new(),
    };
    let behaviour = Behaviour::E4 {
        session,
        places,
        source_port: rng.u16(),
    };
    Draft::new(rng, Call::Ipv4, near, index, sid, behaviour)
}

/// Unless the prefix is there, or the table is full.
pub fn push(rng: &mut Rng, table: &mut Table, prefix: Ipv6Prefix, behaviour: Behaviour) {
    let known = table.entries.iter().any(|e| e.prefix == prefix);
    if !known && table.entries.len() < MAX_ENTRIES {
        table.entries.push(tables::entry(rng, prefix, behaviour));
    }
}

impl Draft {
    /// A far table in which an entry of this behaviour is the longest that is reached.
    fn new(
        rng: &mut Rng,
        call: Call,
        near: Table,
        index: Option<usize>,
        sid: u128,
        behaviour: Behaviour,
    ) -> Draft {
        let most = tables::longest_prefix(&behaviour);
        let target = Ipv6Prefix::of(sid, edged(rng, most.into()) as u8);
        let mut far = Table {
            entries: vec![tables::entry(rng, target, behaviour)],
            rules: Vec::new(),
            policies: policies(rng),
        };
        let (address, rules) = (rng.u32(), rng.below(2));
        far.rules = tables::nested_rules(rng, address, rules);
        let mut draft = Draft {
            call,
            near,
            index: index.expect("the record that was put there") as u64,
            far,
            target,
        };
        let near = draft.near();
        // A table that is full has room for one more, or for none.
        let (wanted, tries) = match rng.below(50) {
            0 => (MAX_ENTRIES - rng.below(2), 8 * MAX_ENTRIES),
            _ => (MAX_ENTRIES, rng.below(6)),
        };
        for _ in 0..tries {
            if draft.far.entries.len() < wanted {
                match rng.below(3) {
                    0 => draft.add_shorter(rng, &near),
                    _ => draft.add_beside(rng, &near),
                }
            }
        }
        draft
    }

    fn near(&self) -> Near {
        Near::of(self.call, &self.near, self.index).expect("a near record")
    }

    fn add_any(&mut self, rng: &mut Rng, prefix: Ipv6Prefix) {
        let policies = self.far.policies.len();
        let behaviour = tables::other_behaviour(rng, prefix.length, policies);
        push(rng, &mut self.far, prefix, behaviour);
    }

    /// An entry under which the target lies.
    fn add_shorter(&mut self, rng: &mut Rng, near: &Near) {
        if self.target.length > 0 {
            let length = rng.below(self.target.length.into());
            self.add_any(rng, Ipv6Prefix::of(near.pattern.fixed, length as u8));
        }
    }

    /// An entry, mostly longer, that differs in a fixed bit, so that no SID leads there.
    fn add_beside(&mut self, rng: &mut Rng, near: &Near) {
        if let Some(bit) = near.fixed_bit(rng) {
            let least = (bit + 1).max(usize::from(self.target.length)).min(128);
            let length = match rng.below(3) {
                0 => least,
                1 => 128,
                _ => rng.between(least, 128),
            };
            let sid = near.sid(rng) ^ bit6(bit);
            self.add_any(rng, Ipv6Prefix::of(sid, length as u8));
        }
    }

    /// One thing that does not fit, or may not.
    fn change(&mut self, rng: &mut Rng) {
        let Some(near) = Near::of(self.call, &self.near, self.index) else {
            return;
        };
        match rng.below(22) {
            0..=2 => self.move_fields(rng),
            3 => self.alter(|entry| turn(&mut entry.behaviour)),
            4 => {
                let other = tables::session(rng).session_type;
                self.alter(|entry| set_session_type(&mut entry.behaviour, other));
            }
            5 | 6 => self.lower_hop_limit(rng, near.waypoints.len()),
            7 => {
                let behaviour =
                    tables::other_behaviour(rng, self.target.length, self.far.policies.len());
                self.alter(|entry| entry.behaviour = behaviour);
            }
            8 => self.remove(rng, &near),
            9 => self.index = self.other_index(rng),
            10 => self.no_longer_di(rng),
            11..=14 => self.add_catcher(rng, &near),
            15 => {
                self.remove(rng, &near);
                self.add_catcher(rng, &near);
            }
            16 => self.add_two_catchers(rng, &near),
            17 => self.add_longer_target(rng, &near),
            18..=20 => self.shadow(rng, &near),
            _ => self.repeat_args(rng),
        }
    }

    fn alter(&mut self, change: impl FnOnce(&mut Entry)) {
        let entries = &mut self.far.entries;
        let Some(at) = entries.iter().position(|e| e.prefix == self.target) else {
            return;
        };
        let mut entry = entries[at];
        change(&mut entry);
        let most = tables::longest_prefix(&entry.behaviour);
        let length = entry.prefix.length.min(most);
        entry.prefix = Ipv6Prefix::of(entry.prefix.bits, length);
        let known = |(place, e): (usize, &Entry)| place != at && e.prefix == entry.prefix;
        if !entries.iter().enumerate().any(known) {
            self.target = entry.prefix;
            entries[at] = entry;
        }
    }

    /// Args, the destination or the source elsewhere at the far end, with a prefix that may reach
    /// into them.
    fn move_fields(&mut self, rng: &mut Rng) {
        let near = self.near();
        let sid = near.sid(rng);
        let longer = rng.chance(50);
        self.alter(|entry| {
            match &mut entry.behaviour {
                Behaviour::E6 { args_start, .. } => {
                    *args_start = beside(rng, *args_start, MAX_ARGS_START);
                }
                Behaviour::E4 { places, .. } if rng.chance(50) => {
                    places.p = beside(rng, places.p, MAX_P);
                }
                Behaviour::E4 { places, .. } => places.q = beside(rng, places.q, MAX_Q),
                _ => {}
            }
            let (least, most) = (
                entry.prefix.length,
                tables::longest_prefix(&entry.behaviour),
            );
            if longer && least < most && most < 128 {
                let length = rng.between(least.into(), most.into()) as u8;
                entry.prefix = Ipv6Prefix::of(sid, length);
            }
        });
    }

    fn lower_hop_limit(&mut self, rng: &mut Rng, waypoints: usize) {
        let limit = rng.pick(&[waypoints, waypoints, waypoints.saturating_sub(1), 1]);
        let limit = limit.max(1) as u8;
        let at = self.index as usize;
        match self.call {
            Call::Ipv6 => self.near.entries[at].hop_limit = limit,
            Call::Ipv4 => self.near.rules[at].hop_limit = limit,
        }
    }

    /// The target is not there; mostly the entries are not there either that it stood before.
    fn remove(&mut self, rng: &mut Rng, near: &Near) {
        let all = rng.chance(70);
        let target = self.target;
        let gone = |e: &Entry| e.prefix == target || all && near.pattern.reaches(e.prefix);
        self.far.entries.retain(|e| !gone(e));
    }

    fn other_index(&self, rng: &mut Rng) -> u64 {
        let count = match self.call {
            Call::Ipv6 => self.near.entries.len(),
            Call::Ipv4 => self.near.rules.len(),
        } as u64;
        let index = self.index;
        match rng.below(11) {
            0..=2 => rng.below(count as usize) as u64,
            3 => count,
            4 => count + 1,
            5 => 1 << 8 | index,
            6 => 1 << 16 | index,
            7 => 1 << 32 | index,
            8 => 1 << 63 | index,
            9 if rng.chance(50) => rng.u64(),
            _ => u64::MAX,
        }
    }

    /// Another kind of near entry; over IPv4 there is none.
    fn no_longer_di(&mut self, rng: &mut Rng) {
        if self.call == Call::Ipv6 {
            let entry = &mut self.near.entries[self.index as usize];
            let policies = self.near.policies.len();
            entry.behaviour = match entry.behaviour {
                Behaviour::Di(inbound) if rng.chance(40) => Behaviour::D(inbound),
                _ => tables::other_behaviour(rng, entry.prefix.length, policies),
            };
        }
    }

    /// An entry, mostly longer than the target, that some SIDs lead to and others do not.
    fn add_catcher(&mut self, rng: &mut Rng, near: &Near) {
        let length = catcher_length(rng, near);
        let sid = match rng.below(6) {
            0 => near.sid(rng) ^ bit6(near.args() + 7),
            1 => near.sid(rng) ^ bit6(near.args() + 6),
            _ => near.sid(rng),
        };
        let behaviour = self.catcher(rng, near, length);
        push(rng, &mut self.far, Ipv6Prefix::of(sid, length), behaviour);
    }

    /// The kind that is meant with fields elsewhere, as far as the length allows it, or another.
    fn catcher(&self, rng: &mut Rng, near: &Near, length: u8) -> Behaviour {
        let octets = length.div_ceil(8);
        let source_port = rng.u16();
        let session = match rng.below(3) {
            0 => tables::session(rng),
            _ => near.session,
        };
        match (self.call, rng.below(5)) {
            (Call::Ipv6, 0..=2) if octets <= MAX_ARGS_START => Behaviour::E6 {
                session,
                args_start: rng.between(octets.into(), MAX_ARGS_START.into()) as u8,
                source_port,
            },
            (Call::Ipv4, 0..=2) if octets <= MAX_P => Behaviour::E4 {
                session,
                places: Ipv4Places {
                    p: rng.between(octets.into(), MAX_P.into()) as u8,
                    ..tables::places(rng)
                },
                source_port,
            },
            (_, 3) => Behaviour::End,
            _ => tables::other_behaviour(rng, length, self.far.policies.len()),
        }
    }

    /// Two of the same length.
    fn add_two_catchers(&mut self, rng: &mut Rng, near: &Near) {
        let length = catcher_length(rng, near);
        let both = near.pattern.free & mask6(length.into());
        let sid = near.sid(rng);
        let other = sid ^ (rng.u128() & both);
        for sid in [sid, other] {
            let behaviour = self.catcher(rng, near, length);
            push(rng, &mut self.far, Ipv6Prefix::of(sid, length), behaviour);
        }
    }

    /// A longer entry with the values of the target.
    fn add_longer_target(&mut self, rng: &mut Rng, near: &Near) {
        let target = self.far.entries.iter().find(|e| e.prefix == self.target);
        let Some(behaviour) = target.map(|entry| entry.behaviour) else {
            return;
        };
        let (least, most) = (self.target.length, tables::longest_prefix(&behaviour));
        if least < most {
            let length = rng.between(usize::from(least) + 1, most.into()) as u8;
            let prefix = Ipv6Prefix::of(near.sid(rng), length);
            push(rng, &mut self.far, prefix, behaviour);
        }
    }

    /// Longer entries or rules of the near table, which take destinations away: all, half of
    /// them, or over IPv4 those of a far entry.
    fn shadow(&mut self, rng: &mut Rng, near: &Near) {
        let least = usize::from(near.prefix.length);
        let most = if self.call == Call::Ipv4 { 32 } else { 128 };
        if least == most {
            return;
        }
        let half = Ipv6Prefix::of(near.prefix.bits, least as u8 + 1);
        let other = Ipv6Prefix::of(half.bits ^ bit6(least), half.length);
        let mut prefixes = vec![half, other];
        match rng.below(5) {
            0 | 1 => {}
            2 => prefixes.truncate(1),
            _ => {
                let any = self.far.entries[rng.below(self.far.entries.len())..].first();
                let (bits, length) = match (near.p, any) {
                    (Some(p), Some(far)) => (
                        far.prefix.bits << (8 * u32::from(p)),
                        usize::from(far.prefix.length.saturating_sub(8 * p)),
                    ),
                    _ => (rng.u128(), rng.between(least, most)),
                };
                let rest = bits & !mask6(least as u32);
                let length = length.clamp(least + 1, most);
                prefixes = vec![Ipv6Prefix::of(near.prefix.bits | rest, length as u8)];
            }
        }
        for prefix in prefixes {
            match self.call {
                Call::Ipv6 => {
                    let policies = self.near.policies.len();
                    let behaviour = tables::other_behaviour(rng, prefix.length, policies);
                    push(rng, &mut self.near, prefix, behaviour);
                }
                Call::Ipv4 => {
                    let prefix = Ipv4Prefix::of((prefix.bits >> 96) as u32, prefix.length);
                    let rules = &mut self.near.rules;
                    if rules.len() < MAX_RULES && rules.iter().all(|r| r.prefix != prefix) {
                        rules.push(tables::rule(rng, prefix));
                    }
                }
            }
        }
    }

    /// A far entry for one Args only, whose own Args stand behind those and are the same.
    fn repeat_args(&mut self, rng: &mut Rng) {
        let near = self.near();
        let start = near.args_start;
        let octets = (args::BITS / 8) as u8;
        if self.call == Call::Ipv4 || start + octets > MAX_ARGS_START {
            return;
        }
        let again = rng.between((start + octets).into(), MAX_ARGS_START.into()) as u8;
        let written = ArgsMobSession::read(near.sid(rng), start);
        let entry = &self.near.entries[self.index as usize];
        let Behaviour::Di(inbound) = entry.behaviour else {
            return;
        };
        let last = self.near.policies[inbound.policy].sids.last_mut();
        let last = last.expect("a SID");
        *last = written.place(*last, again);
        let sid = written.place(*last, start);
        let length = rng.between(near.args() + 40, 8 * usize::from(again)) as u8;
        let behaviour = Behaviour::E6 {
            session: near.session,
            args_start: again,
            source_port: rng.u16(),
        };
        push(rng, &mut self.far, Ipv6Prefix::of(sid, length), behaviour);
    }
}

/// A prefix that ends in each part of the SIDs, mostly in Args.
fn catcher_length(rng: &mut Rng, near: &Near) -> u8 {
    let first = near.args();
    let last = (first + 41).min(128);
    let length = match rng.below(9) {
        0 => first + rng.between(1, 6),
        1 => first + 7,
        2 => first + 8,
        3 => first + rng.between(9, 40),
        4 => first + 40,
        5 => rng.between(last, 128),
        6 => 128,
        _ if near.p.is_some() => rng.between(first - 31, first),
        _ => rng.between(0, first),
    };
    length as u8
}

/// Another number from 0 to `most`, mostly the next.
fn beside(rng: &mut Rng, number: u8, most: u8) -> u8 {
    match rng.below(3) {
        0 if number > 0 => number - 1,
        1 if number < most => number + 1,
        _ => rng.between(0, most.into()) as u8,
    }
}

fn session_of(behaviour: &mut Behaviour) -> Option<&mut Session> {
    match behaviour {
        Behaviour::End => None,
        Behaviour::D(inbound) | Behaviour::Di(inbound) => Some(&mut inbound.session),
        Behaviour::E6 { session, .. } | Behaviour::E4 { session, .. } => Some(session),
    }
}

fn turn(behaviour: &mut Behaviour) {
    if let Some(session) = session_of(behaviour) {
        session.direction = match session.direction {
            Direction::Downlink => Direction::Uplink,
            Direction::Uplink => Direction::Downlink,
        };
    }
}

fn set_session_type(behaviour: &mut Behaviour, session_type: SessionType) {
    if let Some(session) = session_of(behaviour) {
        session.session_type = session_type;
    }
}
