//! Whether tables fit, told without a packet: docs/RULES.md, Trip and Tables that
//! fit, with the numbers of the C interface.
//!
//! A near entry or rule can write many SIDs: with any QFI and TEID, with any R in downlink, and
//! over IPv4 with any destination under the rule's prefix. A [`Pattern`] holds all of them. The
//! far entry judged is the longest that one of them leads to. With the right kind and the same
//! start of Args (over IPv4: the same p) its prefix ends before all that can vary, because it is
//! sound; so all of them lead to it.

pub mod coverage;
mod ends;
mod near;
pub mod pairs;
mod routes;
pub mod trips;

use crate::table::{
    mask4, mask6, Behaviour, Direction, Entry, Ipv6Prefix, Policy, Rule, Session, Table,
};

/// Args, and the parts of it that can vary. U, between R and TEID, is sent 0.
const ARGS: u128 = 0xff_ffff_ffff;
const QFI: u128 = 0x3f << 34;
const R: u128 = 1 << 33;
const TEID: u128 = 0xffff_ffff;

/// What has to hold, by the numbers of the C interface.
#[derive(Clone, Copy, Debug, PartialEq, Eq)]
pub enum Condition {
    NearSound = 1,
    FarSound = 2,
    Record = 3,
    Di = 4,
    Entry = 5,
    Kind = 6,
    Direction = 7,
    SessionType = 8,
    Start = 9,
    P = 10,
    Q = 11,
    HopLimit = 12,
    WaypointSound = 13,
    WaypointSid = 14,
    WaypointEntry = 15,
    WaypointKind = 16,
}

/// The first condition that fails, and the entry of the far, or waypoint's, table that is named.
#[derive(Clone, Copy, Debug, PartialEq, Eq)]
pub struct Mismatch {
    pub condition: Condition,
    pub entry: Option<usize>,
}

/// Bits 8 to 15 where an entry is named.
const RECORD_ENTRY: u64 = 2;

impl Mismatch {
    pub fn pack(self) -> u64 {
        let named = |index| RECORD_ENTRY << 8 | (index as u64) << 16;
        self.condition as u64 | self.entry.map_or(0, named)
    }
}

impl Condition {
    fn fails(self) -> Mismatch {
        Mismatch {
            condition: self,
            entry: None,
        }
    }

    fn fails_at(self, entry: usize) -> Mismatch {
        Mismatch {
            condition: self,
            entry: Some(entry),
        }
    }

    /// An error that names the entry, unless it holds.
    fn demand(self, holds: bool, entry: usize) -> Result<(), Mismatch> {
        match holds {
            true => Ok(()),
            false => Err(self.fails_at(entry)),
        }
    }
}

/// SIDs: the fixed bits are those of all, the free ones are any.
#[derive(Clone, Copy, Debug, PartialEq, Eq)]
pub struct Pattern {
    pub fixed: u128,
    pub free: u128,
}

impl Pattern {
    /// Args at octet `start` of a SID. In uplink R is 0.
    fn with_args(sid: u128, start: u8, direction: Direction) -> Self {
        let shift = 128 - 40 - 8 * u32::from(start);
        let reflective = match direction {
            Direction::Downlink => R,
            Direction::Uplink => 0,
        };
        Pattern {
            fixed: sid & !(ARGS << shift),
            free: (QFI | reflective | TEID) << shift,
        }
    }

    /// The last SID of a policy; its bits outside Args stay.
    pub fn of_policy(policy: &Policy, direction: Direction) -> Self {
        let last = policy.sids[policy.sids.len() - 1];
        Self::with_args(last, policy.args_start, direction)
    }

    /// Prefix of p octets, a destination under the rule's prefix, Args, zeros.
    pub fn of_rule(rule: &Rule) -> Self {
        let p = rule.places.p;
        let shift = 128 - 32 - 8 * u32::from(p);
        let sid = rule.sid_prefix | u128::from(rule.prefix.bits) << shift;
        let past_prefix = !mask4(rule.prefix.length.into());
        let mut pattern = Self::with_args(sid, p + 4, rule.session.direction);
        pattern.free |= u128::from(past_prefix) << shift;
        pattern
    }

    /// Whether one of the SIDs lies under a prefix.
    pub fn reaches(&self, prefix: Ipv6Prefix) -> bool {
        let compared = mask6(prefix.length.into()) & !self.free;
        (prefix.bits ^ self.fixed) & compared == 0
    }

    /// The longest entry of a table that one of the SIDs leads to, of equally long ones the first.
    pub fn longest<'a>(&self, table: &'a Table) -> Option<(usize, &'a Entry)> {
        let entries = table.entries.iter().enumerate();
        let reached = entries.filter(|(_, entry)| self.reaches(entry.prefix));
        // Of equal keys the first is kept.
        reached.min_by_key(|(_, entry)| 128 - entry.prefix.length)
    }
}

/// A Di entry of the near table against the far table.
pub fn match_ipv6(near: &[u8], index: u64, far: &[u8]) -> Result<(), Mismatch> {
    let (near, far) = sound(near, far)?;
    let entry = record(&near.entries, index)?;
    let Behaviour::Di(inbound) = entry.behaviour else {
        return Err(Condition::Di.fails());
    };
    let (session, policy) = (inbound.session, &near.policies[inbound.policy]);
    let pattern = Pattern::of_policy(policy, session.direction);
    let (at, longest) = pattern.longest(&far).ok_or(Condition::Entry.fails())?;
    let Behaviour::E6 {
        session: far_session,
        args_start,
        ..
    } = longest.behaviour
    else {
        return Err(Condition::Kind.fails_at(at));
    };
    same_session(session, far_session, at)?;
    Condition::Start.demand(args_start == policy.args_start, at)?;
    above_waypoints(entry.hop_limit, policy.sids.len() - 1, at)
}

/// A rule of the near table against the far table.
pub fn match_ipv4(near: &[u8], index: u64, far: &[u8]) -> Result<(), Mismatch> {
    let (near, far) = sound(near, far)?;
    let rule = record(&near.rules, index)?;
    let pattern = Pattern::of_rule(rule);
    let (at, longest) = pattern.longest(&far).ok_or(Condition::Entry.fails())?;
    let Behaviour::E4 {
        session: far_session,
        places,
        ..
    } = longest.behaviour
    else {
        return Err(Condition::Kind.fails_at(at));
    };
    same_session(rule.session, far_session, at)?;
    Condition::P.demand(places.p == rule.places.p, at)?;
    Condition::Q.demand(places.q == rule.places.q, at)?;
    above_waypoints(rule.hop_limit, rule.waypoints.len(), at)
}

/// A waypoint's table and the SID that leads there.
pub fn match_waypoint(table: &[u8], sid: &[u8]) -> Result<(), Mismatch> {
    let table = Table::decode(table).map_err(|_| Condition::WaypointSound.fails())?;
    let sid: [u8; 16] = sid.try_into().map_err(|_| Condition::WaypointSid.fails())?;
    let alone = Pattern {
        fixed: u128::from_be_bytes(sid),
        free: 0,
    };
    let longest = alone.longest(&table);
    let (at, entry) = longest.ok_or(Condition::WaypointEntry.fails())?;
    Condition::WaypointKind.demand(entry.behaviour == Behaviour::End, at)
}

fn sound(near: &[u8], far: &[u8]) -> Result<(Table, Table), Mismatch> {
    let near = Table::decode(near).map_err(|_| Condition::NearSound.fails())?;
    let far = Table::decode(far).map_err(|_| Condition::FarSound.fails())?;
    Ok((near, far))
}

fn record<T>(records: &[T], index: u64) -> Result<&T, Mismatch> {
    let at = usize::try_from(index).unwrap_or(usize::MAX);
    records.get(at).ok_or(Condition::Record.fails())
}

fn same_session(near: Session, far: Session, at: usize) -> Result<(), Mismatch> {
    Condition::Direction.demand(far.direction == near.direction, at)?;
    Condition::SessionType.demand(far.session_type == near.session_type, at)
}

/// A waypoint refuses hop limits 0 and 1, so the last of n is passed with n + 1 and more.
fn above_waypoints(hop_limit: u8, waypoints: usize, at: usize) -> Result<(), Mismatch> {
    Condition::HopLimit.demand(usize::from(hop_limit) > waypoints, at)
}

#[cfg(test)]
mod tests {
    use super::*;
    use crate::table::{Inbound, Ipv4Places, Ipv4Prefix, SessionType};

    const SESSION: Session = Session {
        direction: Direction::Downlink,
        session_type: SessionType::Ipv6,
    };
    const UPLINK: Session = Session {
        direction: Direction::Uplink,
        ..SESSION
    };
    /// 2001:db8:b:1:ffff:ffff:ffff:ffff, so that the policy has every bit in Args and behind them.
    const LAST: u128 = 0x2001_0db8_000b_0001_ffff_ffff_ffff_ffff;
    const PLACES: Ipv4Places = Ipv4Places { p: 6, q: 8 };
    /// 2001:db8:c::
    const SID4: u128 = 0x2001_0db8_000c << 80;

    fn entry(bits: u128, length: u8, behaviour: Behaviour) -> Entry {
        Entry {
            prefix: Ipv6Prefix::of(bits, length),
            hop_limit: 3,
            source: 0,
            behaviour,
        }
    }

    fn e6(session: Session, args_start: u8) -> Behaviour {
        Behaviour::E6 {
            session,
            args_start,
            source_port: 0,
        }
    }

    fn e4(session: Session, p: u8, q: u8) -> Behaviour {
        Behaviour::E4 {
            session,
            places: Ipv4Places { p, q },
            source_port: 0,
        }
    }

    fn table(entries: &[Entry]) -> Vec<u8> {
        Table {
            entries: entries.to_vec(),
            ..Table::default()
        }
        .encode()
    }

    /// A waypoint entry, then a Di entry with Args at octet 8, hop limit 3 and so many SIDs.
    fn near6(session: Session, sids: usize) -> Vec<u8> {
        let mut sids = vec![0; sids - 1];
        sids.push(LAST);
        let inbound = Inbound {
            session,
            policy: 0,
            zero_checksum: false,
        };
        Table {
            entries: vec![
                entry(0, 0, Behaviour::End),
                entry(1, 128, Behaviour::Di(inbound)),
            ],
            policies: vec![Policy {
                args_start: 8,
                sids,
            }],
            ..Table::default()
        }
        .encode()
    }

    /// A rule for 10.0.0.0/8 with hop limit 3 and so many waypoints.
    fn near4(session: Session, waypoints: usize) -> Vec<u8> {
        Table {
            rules: vec![Rule {
                prefix: Ipv4Prefix::of(0x0a00_0000, 8),
                hop_limit: 3,
                session,
                places: PLACES,
                sid_prefix: SID4,
                source_prefix: 0,
                waypoints: vec![0; waypoints],
            }],
            ..Table::default()
        }
        .encode()
    }

    fn told(matched: Result<(), Mismatch>) -> u64 {
        matched.map_or_else(Mismatch::pack, |()| 0)
    }

    fn six(session: Session, far: &[Entry]) -> u64 {
        told(match_ipv6(&near6(session, 3), 1, &table(far)))
    }

    fn four(session: Session, far: &[Entry]) -> u64 {
        told(match_ipv4(&near4(session, 2), 0, &table(far)))
    }

    #[test]
    fn each_condition_over_ipv6() {
        let good = entry(LAST, 64, e6(SESSION, 8));
        let far = |behaviour| six(SESSION, &[entry(LAST, 64, behaviour)]);
        assert_eq!(six(SESSION, &[good]), 0);
        let ask = |near: &[u8], index, far: &[u8]| told(match_ipv6(near, index, far));
        let near = near6(SESSION, 3);
        assert_eq!(ask(&near[1..], 9, &[]), 1);
        assert_eq!(ask(&near, 9, &[]), 2);
        for index in [2, 257, 1 << 32 | 1, u64::MAX] {
            assert_eq!(ask(&near, index, &table(&[good])), 3, "index {index}");
        }
        assert_eq!(ask(&near, 0, &table(&[good])), 4);
        assert_eq!(six(SESSION, &[]), 5);
        assert_eq!(six(SESSION, &[entry(!LAST, 1, e6(SESSION, 8))]), 5);
        assert_eq!(far(Behaviour::End), 0x206);
        assert_eq!(six(SESSION, &[entry(LAST, 48, e4(SESSION, 6, 8))]), 0x206);
        assert_eq!(far(e6(UPLINK, 8)), 0x207);
        let other = Session {
            session_type: SessionType::Ipv4v6,
            ..SESSION
        };
        assert_eq!(far(e6(other, 8)), 0x208);
        assert_eq!(far(e6(SESSION, 9)), 0x209);
        assert_eq!(far(e6(SESSION, 11)), 0x209);
        // Hop limit 3 is for two waypoints at the most, which are three SIDs.
        assert_eq!(ask(&near6(SESSION, 4), 1, &table(&[good])), 0x20c);
        assert_eq!(ask(&near6(SESSION, 8), 1, &table(&[good])), 0x20c);
        assert_eq!(ask(&near6(SESSION, 1), 1, &table(&[good])), 0);
    }

    #[test]
    fn each_condition_over_ipv4() {
        let good = entry(SID4, 48, e4(SESSION, 6, 8));
        let far = |behaviour| four(SESSION, &[entry(SID4, 48, behaviour)]);
        assert_eq!(four(SESSION, &[good]), 0);
        let ask = |near: &[u8], index, far: &[u8]| told(match_ipv4(near, index, far));
        let near = near4(SESSION, 2);
        assert_eq!(ask(&[], 1, &[]), 1);
        assert_eq!(ask(&near, 1, &[1]), 2);
        assert_eq!(ask(&near, 1, &table(&[good])), 3);
        assert_eq!(four(SESSION, &[]), 5);
        assert_eq!(far(Behaviour::End), 0x206);
        assert_eq!(far(e6(SESSION, 6)), 0x206);
        assert_eq!(far(e4(UPLINK, 6, 8)), 0x207);
        assert_eq!(far(e4(SESSION, 7, 7)), 0x20a);
        assert_eq!(far(e4(SESSION, 6, 7)), 0x20b);
        assert_eq!(far(e4(SESSION, 6, 9)), 0x20b);
        assert_eq!(ask(&near4(SESSION, 3), 0, &table(&[good])), 0x20c);
        assert_eq!(ask(&near4(SESSION, 0), 0, &table(&[good])), 0);
    }

    /// Octet 8 of the SID holds QFI, R and U; the policy has 1 in each of their bits.
    #[test]
    fn longer_entries_that_some_args_lead_to() {
        let good = entry(LAST, 64, e6(SESSION, 8));
        let mine = LAST >> 64 << 64;
        let with = |session: Session, args: u128, length| {
            let own = entry(LAST, 64, e6(session, 8));
            let prefix = mine | args << 24;
            six(session, &[own, entry(prefix, length, Behaviour::End)])
        };
        for session in [SESSION, UPLINK] {
            // QFI 9, QFI 63, U 0, TEIDs.
            assert_eq!(with(session, 0x24_0000_0000, 70), 0x1_0206);
            assert_eq!(with(session, 0x80_0000_0000, 65), 0x1_0206);
            assert_eq!(with(session, 0xfc_0000_0000, 70), 0x1_0206);
            assert_eq!(with(session, 0, 72), 0x1_0206);
            assert_eq!(with(session, 0x24_0102_0304, 104), 0x1_0206);
            // U 1; bits behind Args that are not the policy's.
            assert_eq!(with(session, 0x01_0000_0000, 72), 0);
            assert_eq!(with(session, 0x24_0102_0304, 105), 0);
            assert_eq!(with(session, 0x24_0102_0304, 128), 0);
        }
        // R.
        assert_eq!(with(SESSION, 0x02_0000_0000, 71), 0x1_0206);
        assert_eq!(with(UPLINK, 0x02_0000_0000, 71), 0);
        assert_eq!(with(UPLINK, 0, 71), 0x1_0206);
        // The policy's own bits behind Args.
        let behind = mine | 0x24_0102_0304 << 24 | LAST & 0xff_ffff;
        assert_eq!(
            six(SESSION, &[good, entry(behind, 128, Behaviour::End)]),
            0x1_0206
        );
        assert_eq!(
            six(SESSION, &[good, entry(behind ^ 1, 128, Behaviour::End)]),
            0
        );
        // A bit before Args.
        assert_eq!(
            six(
                SESSION,
                &[good, entry(behind ^ 1 << 64, 128, Behaviour::End)]
            ),
            0
        );
        // Of equally long ones the first; then a longer one.
        let first = entry(mine, 66, Behaviour::End);
        let second = entry(mine | 1 << 63, 66, e6(SESSION, 9));
        assert_eq!(six(SESSION, &[good, first, second]), 0x1_0206);
        assert_eq!(six(SESSION, &[good, second, first]), 0x1_0209);
        let third = entry(mine, 67, e6(UPLINK, 10));
        assert_eq!(six(SESSION, &[good, second, first, third]), 0x3_0207);
        // Longer, and with the same values.
        let shorter = entry(LAST, 40, e6(SESSION, 8));
        assert_eq!(six(SESSION, &[shorter, good]), 0);
        let other = entry(LAST, 63, e6(UPLINK, 8));
        assert_eq!(six(SESSION, &[other, good]), 0);
        assert_eq!(six(SESSION, &[shorter, other]), 0x1_0207);
    }

    /// A rule for 10.0.0.0/8: 2001:db8:c:a00:: and on.
    #[test]
    fn destinations_under_the_rule() {
        let good = entry(SID4, 48, e4(SESSION, 6, 8));
        let at = |address: u128, length, behaviour| entry(SID4 | address << 48, length, behaviour);
        let ten_one = at(0x0a01_0000, 64, Behaviour::End);
        let eleven_one = at(0x0b01_0000, 64, Behaviour::End);
        assert_eq!(four(SESSION, &[good, eleven_one]), 0);
        assert_eq!(four(SESSION, &[good, eleven_one, ten_one]), 0x2_0206);
        // p of 7 allows a prefix that has one octet of the destination.
        let ten = at(0x0a00_0000, 56, e4(SESSION, 7, 8));
        let eleven = at(0x0b00_0000, 56, e4(SESSION, 7, 8));
        assert_eq!(four(SESSION, &[eleven]), 5);
        assert_eq!(four(SESSION, &[eleven, ten]), 0x1_020a);
        assert_eq!(four(SESSION, &[eleven, good]), 0);
        // Args follow, then zeros.
        let args = |octets: u128, length| {
            let sid = SID4 | 0x0a0b_0c0d << 48 | octets << 8;
            four(SESSION, &[good, entry(sid, length, Behaviour::End)])
        };
        assert_eq!(args(0x26_0102_0304, 128), 0x1_0206);
        assert_eq!(args(0x27_0102_0304, 128), 0);
        let padding = SID4 | 0x0a0b_0c0d << 48 | 1;
        assert_eq!(
            four(SESSION, &[good, entry(padding, 128, Behaviour::End)]),
            0
        );
        let uplink = entry(SID4, 48, e4(UPLINK, 6, 8));
        let reflective = SID4 | 0x0a0b_0c0d << 48 | 0x26_0000_0000 << 8;
        assert_eq!(
            four(UPLINK, &[uplink, entry(reflective, 87, Behaviour::End)]),
            0
        );
    }

    #[test]
    fn waypoints() {
        let sid = 0x2001_0db8_00ee_0000_0000_0000_0000_0001_u128;
        let ask = |entries: &[Entry], octets: &[u8]| told(match_waypoint(&table(entries), octets));
        let end = entry(sid, 48, Behaviour::End);
        let octets = sid.to_be_bytes();
        assert_eq!(ask(&[end], &octets), 0);
        assert_eq!(told(match_waypoint(&[2], &[])), 13);
        for short in [0, 1, 15] {
            assert_eq!(ask(&[end], &octets[..short]), 14);
        }
        assert_eq!(ask(&[end], &[&octets[..], &[0]].concat()), 14);
        assert_eq!(ask(&[], &octets), 15);
        assert_eq!(ask(&[entry(sid ^ 1, 128, Behaviour::End)], &octets), 15);
        let longer = entry(sid, 64, e6(SESSION, 8));
        assert_eq!(ask(&[end, longer], &octets), 0x1_0210);
        assert_eq!(ask(&[longer, end], &octets), 0x210);
        let missed = entry(sid ^ 1 << 64, 64, e6(SESSION, 8));
        assert_eq!(ask(&[end, missed], &octets), 0);
        assert_eq!(ask(&[longer, entry(sid, 128, Behaviour::End)], &octets), 0);
    }
}
