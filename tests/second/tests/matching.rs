//! Whether tables fit, once more by search: SIDs are written as the gateway writes them and
//! looked up in the far table one by one.

use second::args::ArgsMobSession;
use second::matching::pairs::{pair, Ask, Pair};
use second::rng::Rng;
use second::table::{
    mask4, mask6, Behaviour, Direction, Entry, Inbound, Ipv4Places, Ipv4Prefix, Ipv6Prefix, Policy,
    Rule, Session, SessionType, Table,
};

const ENTRY: u64 = 2 << 8;

/// What a far entry has to be.
struct Wanted {
    kind: u8,
    session: Session,
    hop_limit: u8,
    waypoints: usize,
    /// Start of Args, or p and q.
    places: [u8; 2],
}

/// The places of the fields, for the right kind.
fn places(behaviour: &Behaviour) -> Option<(Session, [u8; 2])> {
    match *behaviour {
        Behaviour::E6 {
            session,
            args_start,
            ..
        } => Some((session, [args_start, 0])),
        Behaviour::E4 {
            session, places, ..
        } => Some((session, [places.p, places.q])),
        _ => None,
    }
}

/// Every entry that one of these SIDs leads to; of them all the longest, the first of several.
fn search(far: &Table, sids: impl Iterator<Item = u128>) -> (Option<usize>, bool) {
    let mut led_to = vec![false; far.entries.len()];
    let mut lost = false;
    for sid in sids {
        match far.entry_for(sid) {
            Ok(entry) => {
                let at = far.entries.iter().position(|e| e.prefix == entry.prefix);
                led_to[at.unwrap()] = true;
            }
            Err(_) => lost = true,
        }
    }
    let length = |at: usize| far.entries[at].prefix.length;
    let reached = (0..led_to.len()).filter(|&at| led_to[at]);
    let most = reached.clone().map(length).max();
    let longest = reached.clone().find(|&at| Some(length(at)) == most);
    (longest, !lost && reached.count() == 1)
}

/// The conditions one after the other. Where none fails, all SIDs led to that one entry.
fn judge(far: &Table, (longest, alone): (Option<usize>, bool), wanted: &Wanted) -> u64 {
    let Some(at) = longest else { return 5 };
    let entry = &far.entries[at];
    let named = |condition: u64| condition | ENTRY | (at as u64) << 16;
    let Some((session, places)) =
        places(&entry.behaviour).filter(|_| entry.behaviour.number() == wanted.kind)
    else {
        return named(6);
    };
    let (start, p, q) = match wanted.kind {
        71 => (places[0] == wanted.places[0], true, true),
        _ => (
            true,
            places[0] == wanted.places[0],
            places[1] == wanted.places[1],
        ),
    };
    let holds = [
        session.direction == wanted.session.direction,
        session.session_type == wanted.session.session_type,
        start,
        p,
        q,
        // A waypoint refuses hop limits 0 and 1, and takes one away.
        (0..wanted.waypoints).all(|passed| usize::from(wanted.hop_limit) > passed + 1),
    ];
    if let Some(first) = holds.iter().position(|holds| !holds) {
        return named(7 + first as u64);
    }
    assert!(alone, "the entry fits, but others are led to");
    0
}

/// All values of the first octet of Args that are sent, each with these TEIDs.
fn args(direction: Direction, teids: &[u32]) -> Vec<ArgsMobSession> {
    let mut all = Vec::new();
    for qfi in 0..64 {
        for reflective in [false, true] {
            if reflective && direction == Direction::Uplink {
                continue;
            }
            all.extend(teids.iter().map(|&teid| ArgsMobSession {
                qfi,
                reflective,
                teid,
            }));
        }
    }
    all
}

/// Those that stand in far prefixes, and a few others.
fn teids(far: &Table, start: u8) -> Vec<u32> {
    let entries = far.entries.iter();
    let mut teids: Vec<u32> = entries
        .flat_map(|e| {
            let teid = ArgsMobSession::read(e.prefix.bits, start).teid;
            [teid, !teid]
        })
        .chain([0, u32::MAX, 0x1234_5678])
        .collect();
    teids.sort();
    teids.dedup();
    teids
}

fn ipv6(near: &Table, index: usize, far: &Table) -> u64 {
    let entry = &near.entries[index];
    let Behaviour::Di(Inbound {
        session, policy, ..
    }) = entry.behaviour
    else {
        return 4;
    };
    let Policy { args_start, sids } = &near.policies[policy];
    let args = args(session.direction, &teids(far, *args_start));
    let last = sids[sids.len() - 1];
    let written = args.into_iter().map(|args| args.place(last, *args_start));
    let wanted = Wanted {
        kind: 71,
        session,
        hop_limit: entry.hop_limit,
        waypoints: sids.len() - 1,
        places: [*args_start, 0],
    };
    judge(far, search(far, written), &wanted)
}

/// Destinations under a rule: those that stand in far prefixes, and at most 256 more.
fn destinations(rule: &Rule, far: &Table) -> Vec<u32> {
    let Ipv4Prefix { bits, length } = rule.prefix;
    let past = !mask4(length.into());
    let shift = 96 - 8 * u32::from(rule.places.p);
    let entries = far.entries.iter();
    let standing = entries.map(|e| (e.prefix.bits >> shift) as u32);
    let few = 0..1 << (32 - length).min(4);
    let spread = few.flat_map(|n: u32| [n, n << 28 >> length.min(28)]);
    let mut all: Vec<u32> = standing
        .chain(spread)
        .map(|address| bits | address & past)
        .collect();
    all.sort();
    all.dedup();
    all
}

fn ipv4(near: &Table, index: usize, far: &Table) -> u64 {
    let rule = &near.rules[index];
    let Ipv4Places { p, q } = rule.places;
    let direction = rule.session.direction;
    let args = args(direction, &teids(far, p + 4));
    let destinations = destinations(rule, far);
    let written = destinations.iter().flat_map(|&destination| {
        let mut octets = rule.sid_prefix.to_be_bytes();
        octets[p.into()..][..4].copy_from_slice(&destination.to_be_bytes());
        let sid = u128::from_be_bytes(octets);
        args.iter().map(move |args| args.place(sid, p + 4))
    });
    let wanted = Wanted {
        kind: 72,
        session: rule.session,
        hop_limit: rule.hop_limit,
        waypoints: rule.waypoints.len(),
        places: [p, q],
    };
    judge(far, search(far, written), &wanted)
}

fn waypoint(table: &[u8], sid: &[u8]) -> u64 {
    let Ok(table) = Table::decode(table) else {
        return 13;
    };
    let Ok(sid) = sid.try_into().map(u128::from_be_bytes) else {
        return 14;
    };
    let Ok(entry) = table.entry_for(sid) else {
        return 15;
    };
    let at = table.entries.iter().position(|e| e.prefix == entry.prefix);
    match entry.behaviour {
        Behaviour::End => 0,
        _ => 16 | ENTRY | (at.unwrap() as u64) << 16,
    }
}

fn searched(pair: &Pair) -> u64 {
    if pair.ask == Ask::Waypoint {
        return waypoint(&pair.table, &pair.other);
    }
    let tables = (Table::decode(&pair.table), Table::decode(&pair.other));
    let (near, far) = match (pair.ask, tables) {
        (_, (Err(_), _)) => return 1,
        (_, (_, Err(_))) => return 2,
        (_, (Ok(near), Ok(far))) => (near, far),
    };
    let count = match pair.ask {
        Ask::Ipv6 => near.entries.len(),
        _ => near.rules.len(),
    };
    if pair.index >= count as u64 {
        return 3;
    }
    match pair.ask {
        Ask::Ipv6 => ipv6(&near, pair.index as usize, &far),
        _ => ipv4(&near, pair.index as usize, &far),
    }
}

#[test]
fn pairs_of_a_seed() {
    let mut told = [0; 17];
    for index in 0..4_000 {
        let pair = pair(5, index);
        assert_eq!(pair.mismatch, searched(&pair), "pair {index}");
        told[usize::from(pair.condition())] += 1;
    }
    assert!(told.iter().all(|&count| count > 0), "{told:?}");
}

/// Far tables in which all that matters is the first octet of Args, all values of which are
/// tried, and over IPv4 the last four bits of a destination.
#[test]
fn all_of_a_few_bits() {
    let rng = &mut Rng::new(9);
    let mut told = [0; 17];
    for round in 0..4_000 {
        let session = Session {
            direction: rng.pick(&[Direction::Downlink, Direction::Uplink]),
            session_type: SessionType::Ipv6,
        };
        let p = rng.below(4) as u8;
        let start = p + 4;
        let sid = rng.u128();
        let mut entries: Vec<Entry> = Vec::new();
        let ask = rng.pick(&[Ask::Ipv6, Ask::Ipv4]);
        let sid_prefix = sid & mask6(8 * u32::from(p));
        let base = match ask {
            Ask::Ipv6 => sid,
            _ => sid_prefix | u128::from(0x0a0b_0c00u32) << (96 - 8 * u32::from(p)),
        };
        for _ in 0..rng.below(5) {
            let least = if ask == Ask::Ipv6 {
                8 * start
            } else {
                8 * start - 4
            };
            let length = rng.between(least.into(), 8 * usize::from(start) + 8) as u8;
            let shift = 128 - 8 * u32::from(start) - 8;
            let chance = (rng.u128() & 0xfff) << shift;
            let bits = match ask {
                Ask::Ipv6 => base & !(0xff << shift) | chance & 0xff << shift,
                _ => base | chance,
            };
            let prefix = Ipv6Prefix::of(bits, length);
            let args_start = rng.between(length.div_ceil(8).into(), 11) as u8;
            let behaviour = match rng.below(3) {
                0 => Behaviour::End,
                _ if ask == Ask::Ipv4 && length <= 56 => Behaviour::E4 {
                    session,
                    places: Ipv4Places { p: 7, q: 0 },
                    source_port: 0,
                },
                _ => Behaviour::E6 {
                    session,
                    args_start,
                    source_port: 0,
                },
            };
            if entries.iter().all(|e| e.prefix != prefix) {
                entries.push(Entry {
                    prefix,
                    hop_limit: 1,
                    source: 0,
                    behaviour,
                });
            }
        }
        let behaviour = match ask {
            Ask::Ipv6 => Behaviour::E6 {
                session,
                args_start: start,
                source_port: 0,
            },
            _ => Behaviour::E4 {
                session,
                places: Ipv4Places { p, q: 0 },
                source_port: 0,
            },
        };
        let length = 8 * if ask == Ask::Ipv6 { start } else { p };
        let prefix = Ipv6Prefix::of(base, length);
        if rng.chance(80) && entries.iter().all(|e| e.prefix != prefix) {
            entries.push(Entry {
                prefix,
                hop_limit: 1,
                source: 0,
                behaviour,
            });
        }
        let far = Table {
            entries,
            ..Table::default()
        };
        let inbound = Inbound {
            session,
            policy: 0,
            zero_checksum: false,
        };
        let near = Table {
            entries: vec![Entry {
                prefix: Ipv6Prefix::of(0, 0),
                hop_limit: 1,
                source: 0,
                behaviour: Behaviour::Di(inbound),
            }],
            rules: vec![Rule {
                prefix: Ipv4Prefix::of(0x0a0b_0c00, 28),
                hop_limit: 1,
                session,
                places: Ipv4Places { p, q: 0 },
                sid_prefix,
                source_prefix: 0,
                waypoints: Vec::new(),
            }],
            policies: vec![Policy {
                args_start: start,
                sids: vec![sid],
            }],
        };
        let pair = Pair::new(ask, near.encode(), 0, far.encode());
        assert_eq!(pair.mismatch, searched(&pair), "round {round}");
        told[usize::from(pair.condition())] += 1;
    }
    for condition in [0, 5, 6, 9, 10] {
        assert!(told[condition] > 0, "{told:?}");
    }
}
