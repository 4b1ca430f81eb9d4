//! The table octets and what makes a table sound (docs/RULES.md, Table and Sound tables).
//!
//! A decoded [`Table`] is sound: whatever breaks a condition does not decode.

use crate::answer::Refusal;
use crate::ipv6::next_header;
use crate::wire::Reader;

pub const HEADER_LENGTH: usize = 16;
pub const ENTRY_LENGTH: usize = 64;
pub const RULE_LENGTH: usize = 160;
pub const POLICY_LENGTH: usize = 288;
pub const MAX_ENTRIES: usize = 64;
pub const MAX_RULES: usize = 16;
pub const MAX_POLICIES: usize = 16;
pub const MAX_SIDS: usize = 8;
pub const MAX_WAYPOINTS: usize = 7;
pub const MAX_ARGS_START: u8 = 11;
pub const MAX_P: u8 = 7;
pub const MAX_Q: u8 = 12;
const FORMAT: u8 = 1;

/// The first condition found broken. All of them answer 1.
#[derive(Clone, Copy, Debug, PartialEq, Eq)]
pub enum Unsound {
    Length,
    Format,
    Counts,
    Behaviour,
    PrefixLength,
    PrefixBits,
    PrefixTwice,
    HopLimit,
    Direction,
    SessionType,
    Policy,
    ArgsStart,
    P,
    Q,
    Reserved,
    ZeroChecksum,
    Waypoints,
    Sids,
}

#[derive(Clone, Copy, Debug, PartialEq, Eq)]
pub enum Direction {
    Downlink,
    Uplink,
}

impl Direction {
    fn from_octet(octet: u8) -> Result<Self, Unsound> {
        match octet {
            0 => Ok(Direction::Downlink),
            1 => Ok(Direction::Uplink),
            _ => Err(Unsound::Direction),
        }
    }

    /// The high nibble of the container's first content octet.
    pub fn pdu_type(self) -> u8 {
        match self {
            Direction::Downlink => 0,
            Direction::Uplink => 1,
        }
    }
}

/// PDU session types by their numbers in TS 24.501.
#[derive(Clone, Copy, Debug, PartialEq, Eq)]
pub enum SessionType {
    Ipv4,
    Ipv6,
    Ipv4v6,
    Ethernet,
}

impl SessionType {
    fn from_octet(octet: u8) -> Result<Self, Unsound> {
        match octet {
            1 => Ok(SessionType::Ipv4),
            2 => Ok(SessionType::Ipv6),
            3 => Ok(SessionType::Ipv4v6),
            5 => Ok(SessionType::Ethernet),
            _ => Err(Unsound::SessionType),
        }
    }

    pub fn octet(self) -> u8 {
        match self {
            SessionType::Ipv4 => 1,
            SessionType::Ipv6 => 2,
            SessionType::Ipv4v6 => 3,
            SessionType::Ethernet => 5,
        }
    }

    /// The next header of an inner packet going out; row 14.
    pub fn next_header_of(self, inner: &[u8]) -> Result<u8, Refusal> {
        match self {
            SessionType::Ipv4 => Ok(next_header::IPV4),
            SessionType::Ipv6 => Ok(next_header::IPV6),
            SessionType::Ethernet => Ok(next_header::ETHERNET),
            SessionType::Ipv4v6 => match inner.first().map(|octet| octet >> 4) {
                Some(4) => Ok(next_header::IPV4),
                Some(6) => Ok(next_header::IPV6),
                _ => Err(Refusal::InnerVersion),
            },
        }
    }

    /// Row 8 at E6 and E4: whether a next header is the session's.
    pub fn admits(self, protocol: u8) -> bool {
        match self {
            SessionType::Ipv4 => protocol == next_header::IPV4,
            SessionType::Ipv6 => protocol == next_header::IPV6,
            SessionType::Ethernet => protocol == next_header::ETHERNET,
            SessionType::Ipv4v6 => protocol == next_header::IPV4 || protocol == next_header::IPV6,
        }
    }
}

#[derive(Clone, Copy, Debug, PartialEq, Eq)]
pub struct Session {
    pub direction: Direction,
    pub session_type: SessionType,
}

impl Session {
    fn decode(direction: u8, session_type: u8) -> Result<Self, Unsound> {
        Ok(Session {
            direction: Direction::from_octet(direction)?,
            session_type: SessionType::from_octet(session_type)?,
        })
    }
}

/// The leading `length` bits of 128.
pub fn mask6(length: u32) -> u128 {
    u128::MAX.checked_shl(128 - length).unwrap_or(0)
}

/// The leading `length` bits of 32.
pub fn mask4(length: u32) -> u32 {
    u32::MAX.checked_shl(32 - length).unwrap_or(0)
}

#[derive(Clone, Copy, Debug, PartialEq, Eq)]
pub struct Ipv6Prefix {
    pub bits: u128,
    pub length: u8,
}

impl Ipv6Prefix {
    fn decode(bits: u128, length: u8) -> Result<Self, Unsound> {
        if length > 128 {
            return Err(Unsound::PrefixLength);
        }
        if bits & !mask6(length.into()) != 0 {
            return Err(Unsound::PrefixBits);
        }
        Ok(Ipv6Prefix { bits, length })
    }

    pub fn of(address: u128, length: u8) -> Self {
        Ipv6Prefix {
            bits: address & mask6(length.into()),
            length,
        }
    }

    pub fn matches(&self, address: u128) -> bool {
        (address ^ self.bits) & mask6(self.length.into()) == 0
    }
}

#[derive(Clone, Copy, Debug, PartialEq, Eq)]
pub struct Ipv4Prefix {
    pub bits: u32,
    pub length: u8,
}

impl Ipv4Prefix {
    fn decode(bits: u32, length: u8) -> Result<Self, Unsound> {
        if length > 32 {
            return Err(Unsound::PrefixLength);
        }
        if bits & !mask4(length.into()) != 0 {
            return Err(Unsound::PrefixBits);
        }
        Ok(Ipv4Prefix { bits, length })
    }

    pub fn of(address: u32, length: u8) -> Self {
        Ipv4Prefix {
            bits: address & mask4(length.into()),
            length,
        }
    }

    pub fn matches(&self, address: u32) -> bool {
        (address ^ self.bits) & mask4(self.length.into()) == 0
    }
}

/// The octets p and q of E4 entries and D4 rules.
#[derive(Clone, Copy, Debug, PartialEq, Eq)]
pub struct Ipv4Places {
    pub p: u8,
    pub q: u8,
}

impl Ipv4Places {
    fn decode(p: u8, q: u8) -> Result<Self, Unsound> {
        if p > MAX_P {
            return Err(Unsound::P);
        }
        if q > MAX_Q {
            return Err(Unsound::Q);
        }
        Ok(Ipv4Places { p, q })
    }
}

/// What D and Di use.
#[derive(Clone, Copy, Debug, PartialEq, Eq)]
pub struct Inbound {
    pub session: Session,
    pub policy: usize,
    /// Whether a UDP checksum of 0 passes (order 2).
    pub zero_checksum: bool,
}

/// What an entry does, with the fields that its kind uses.
#[derive(Clone, Copy, Debug, PartialEq, Eq)]
pub enum Behaviour {
    /// End (RFC 8986, 4.1), the waypoint.
    End,
    /// End.M.GTP6.D.
    D(Inbound),
    /// End.M.GTP6.D.Di.
    Di(Inbound),
    /// End.M.GTP6.E.
    E6 {
        session: Session,
        args_start: u8,
        source_port: u16,
    },
    /// End.M.GTP4.E.
    E4 {
        session: Session,
        places: Ipv4Places,
        source_port: u16,
    },
}

impl Behaviour {
    /// The IANA number.
    pub fn number(&self) -> u8 {
        match self {
            Behaviour::End => 1,
            Behaviour::D(_) => 69,
            Behaviour::Di(_) => 70,
            Behaviour::E6 { .. } => 71,
            Behaviour::E4 { .. } => 72,
        }
    }
}

#[derive(Clone, Copy, Debug, PartialEq, Eq)]
pub struct Entry {
    pub prefix: Ipv6Prefix,
    pub hop_limit: u8,
    pub source: u128,
    pub behaviour: Behaviour,
}

/// A rule of H.M.GTP4.D.
#[derive(Clone, Debug, PartialEq, Eq)]
pub struct Rule {
    pub prefix: Ipv4Prefix,
    pub hop_limit: u8,
    pub session: Session,
    pub places: Ipv4Places,
    pub sid_prefix: u128,
    pub source_prefix: u128,
    pub waypoints: Vec<u128>,
}

#[derive(Clone, Debug, PartialEq, Eq)]
pub struct Policy {
    pub args_start: u8,
    /// In order of travel.
    pub sids: Vec<u128>,
}

#[derive(Clone, Debug, PartialEq, Eq, Default)]
pub struct Table {
    pub entries: Vec<Entry>,
    pub rules: Vec<Rule>,
    pub policies: Vec<Policy>,
}

/// Hop limits and TTLs are 1 to 255.
fn hop_limit(octet: u8) -> Result<u8, Unsound> {
    if octet == 0 {
        return Err(Unsound::HopLimit);
    }
    Ok(octet)
}

/// Held in bits, sound as 8a with a from 0 to 11.
fn args_start(bits: u8) -> Result<u8, Unsound> {
    if !bits.is_multiple_of(8) || bits / 8 > MAX_ARGS_START {
        return Err(Unsound::ArgsStart);
    }
    Ok(bits / 8)
}

fn reserved(octet: u8) -> Result<(), Unsound> {
    if octet != 0 {
        return Err(Unsound::Reserved);
    }
    Ok(())
}

/// A mark: 0 or 1.
fn zero_checksum(octet: u8) -> Result<bool, Unsound> {
    match octet {
        0 => Ok(false),
        1 => Ok(true),
        _ => Err(Unsound::ZeroChecksum),
    }
}

fn addresses(octets: &[u8]) -> Vec<u128> {
    let mut reader = Reader::new(octets);
    std::iter::from_fn(|| reader.u128()).collect()
}

impl Entry {
    fn decode(record: &[u8], policies: usize) -> Result<Self, Unsound> {
        let (prefix_bits, source) = {
            let addresses = addresses(&record[16..48]);
            (addresses[0], addresses[1])
        };
        let prefix = Ipv6Prefix::decode(prefix_bits, record[1])?;
        let hop_limit = hop_limit(record[2])?;
        let session = || Session::decode(record[3], record[4]);
        let policy = || {
            let index = usize::from(record[5]);
            if index < policies {
                Ok(index)
            } else {
                Err(Unsound::Policy)
            }
        };
        let within = |octets: u8| {
            if prefix.length <= 8 * octets {
                Ok(())
            } else {
                Err(Unsound::PrefixLength)
            }
        };
        let inbound = || {
            Ok(Inbound {
                session: session()?,
                policy: policy()?,
                zero_checksum: zero_checksum(record[9])?,
            })
        };
        let source_port = u16::from_be_bytes([record[10], record[11]]);
        let behaviour = match record[0] {
            1 => Behaviour::End,
            69 => Behaviour::D(inbound()?),
            70 => Behaviour::Di(inbound()?),
            71 => {
                let args_start = args_start(record[6])?;
                within(args_start)?;
                Behaviour::E6 {
                    session: session()?,
                    args_start,
                    source_port,
                }
            }
            72 => {
                let places = Ipv4Places::decode(record[7], record[8])?;
                within(places.p)?;
                Behaviour::E4 {
                    session: session()?,
                    places,
                    source_port,
                }
            }
            _ => return Err(Unsound::Behaviour),
        };
        if !matches!(behaviour, Behaviour::D(_) | Behaviour::Di(_)) {
            reserved(record[9])?;
        }
        Ok(Entry {
            prefix,
            hop_limit,
            source,
            behaviour,
        })
    }

    fn encode(&self) -> [u8; ENTRY_LENGTH] {
        let mut record = [0; ENTRY_LENGTH];
        record[0] = self.behaviour.number();
        record[1] = self.prefix.length;
        record[2] = self.hop_limit;
        let session = match self.behaviour {
            Behaviour::End => None,
            Behaviour::D(inbound) | Behaviour::Di(inbound) => {
                record[5] = inbound.policy as u8;
                record[9] = inbound.zero_checksum.into();
                Some(inbound.session)
            }
            Behaviour::E6 {
                session,
                args_start,
                source_port,
            } => {
                record[6] = 8 * args_start;
                record[10..12].copy_from_slice(&source_port.to_be_bytes());
                Some(session)
            }
            Behaviour::E4 {
                session,
                places,
                source_port,
            } => {
                record[7] = places.p;
                record[8] = places.q;
                record[10..12].copy_from_slice(&source_port.to_be_bytes());
                Some(session)
            }
        };
        if let Some(session) = session {
            record[3] = session.direction.pdu_type();
            record[4] = session.session_type.octet();
        }
        record[16..32].copy_from_slice(&self.prefix.bits.to_be_bytes());
        record[32..48].copy_from_slice(&self.source.to_be_bytes());
        record
    }
}

impl Rule {
    fn decode(record: &[u8]) -> Result<Self, Unsound> {
        let bits = u32::from_be_bytes([record[8], record[9], record[10], record[11]]);
        let prefix = Ipv4Prefix::decode(bits, record[0])?;
        let hop_limit = hop_limit(record[1])?;
        let session = Session::decode(record[2], record[3])?;
        let places = Ipv4Places::decode(record[4], record[5])?;
        let count = usize::from(record[6]);
        if count > MAX_WAYPOINTS {
            return Err(Unsound::Waypoints);
        }
        reserved(record[7])?;
        let mut addresses = addresses(&record[16..]).into_iter();
        let sid_prefix = addresses.next().unwrap_or(0);
        let source_prefix = addresses.next().unwrap_or(0);
        let past_p = sid_prefix & !mask6(8 * u32::from(places.p));
        let past_q = source_prefix & !mask6(8 * u32::from(places.q));
        if past_p != 0 || past_q != 0 {
            return Err(Unsound::PrefixBits);
        }
        let waypoints = addresses.take(count).collect();
        Ok(Rule {
            prefix,
            hop_limit,
            session,
            places,
            sid_prefix,
            source_prefix,
            waypoints,
        })
    }

    fn encode(&self) -> [u8; RULE_LENGTH] {
        let mut record = [0; RULE_LENGTH];
        record[0] = self.prefix.length;
        record[1] = self.hop_limit;
        record[2] = self.session.direction.pdu_type();
        record[3] = self.session.session_type.octet();
        record[4] = self.places.p;
        record[5] = self.places.q;
        record[6] = self.waypoints.len() as u8;
        record[8..12].copy_from_slice(&self.prefix.bits.to_be_bytes());
        let addresses = [self.sid_prefix, self.source_prefix];
        let addresses = addresses.iter().chain(&self.waypoints);
        for (slot, address) in record[16..].chunks_exact_mut(16).zip(addresses) {
            slot.copy_from_slice(&address.to_be_bytes());
        }
        record
    }
}

impl Policy {
    fn decode(record: &[u8]) -> Result<Self, Unsound> {
        let count = usize::from(record[0]);
        if count == 0 || count > MAX_SIDS {
            return Err(Unsound::Sids);
        }
        let args_start = args_start(record[1])?;
        reserved(record[2])?;
        let sids = addresses(&record[16..144])
            .into_iter()
            .take(count)
            .collect();
        Ok(Policy { args_start, sids })
    }

    fn encode(&self) -> [u8; POLICY_LENGTH] {
        let mut record = [0; POLICY_LENGTH];
        record[0] = self.sids.len() as u8;
        record[1] = 8 * self.args_start;
        for (slot, sid) in record[16..144].chunks_exact_mut(16).zip(&self.sids) {
            slot.copy_from_slice(&sid.to_be_bytes());
        }
        record
    }
}

fn has_twice<T: PartialEq>(mut items: impl Iterator<Item = T> + Clone) -> bool {
    while let Some(item) = items.next() {
        if items.clone().any(|other| other == item) {
            return true;
        }
    }
    false
}

impl Table {
    pub fn decode(octets: &[u8]) -> Result<Self, Unsound> {
        let mut reader = Reader::new(octets);
        let header = reader.take(HEADER_LENGTH).ok_or(Unsound::Length)?;
        if header[0] != FORMAT {
            return Err(Unsound::Format);
        }
        let count = |at: usize| usize::from(u16::from_be_bytes([header[at], header[at + 1]]));
        let (entries, rules, policies) = (count(2), count(4), count(6));
        if entries > MAX_ENTRIES || rules > MAX_RULES || policies > MAX_POLICIES {
            return Err(Unsound::Counts);
        }
        let mut records = |count: usize, length: usize| {
            let octets = reader.take(count * length).ok_or(Unsound::Length)?;
            Ok(octets.chunks_exact(length))
        };
        let entry_records = records(entries, ENTRY_LENGTH)?;
        let rule_records = records(rules, RULE_LENGTH)?;
        let policy_records = records(policies, POLICY_LENGTH)?;
        if !reader.rest().is_empty() {
            return Err(Unsound::Length);
        }
        let table = Table {
            entries: entry_records
                .map(|r| Entry::decode(r, policies))
                .collect::<Result<_, _>>()?,
            rules: rule_records.map(Rule::decode).collect::<Result<_, _>>()?,
            policies: policy_records
                .map(Policy::decode)
                .collect::<Result<_, _>>()?,
        };
        if has_twice(table.entries.iter().map(|e| e.prefix))
            || has_twice(table.rules.iter().map(|r| r.prefix))
        {
            return Err(Unsound::PrefixTwice);
        }
        Ok(table)
    }

    /// The octets, spare ones 0. Counts above 65,535 are not for this.
    pub fn encode(&self) -> Vec<u8> {
        let mut octets = vec![0; HEADER_LENGTH];
        octets[0] = FORMAT;
        octets[2..4].copy_from_slice(&(self.entries.len() as u16).to_be_bytes());
        octets[4..6].copy_from_slice(&(self.rules.len() as u16).to_be_bytes());
        octets[6..8].copy_from_slice(&(self.policies.len() as u16).to_be_bytes());
        octets.extend(self.entries.iter().flat_map(Entry::encode));
        octets.extend(self.rules.iter().flat_map(Rule::encode));
        octets.extend(self.policies.iter().flat_map(Policy::encode));
        octets
    }

    /// Longest match wins; row 4.
    pub fn entry_for(&self, destination: u128) -> Result<&Entry, Refusal> {
        let matching = self
            .entries
            .iter()
            .filter(|e| e.prefix.matches(destination));
        matching
            .max_by_key(|e| e.prefix.length)
            .ok_or(Refusal::NoMatch)
    }

    /// Longest match wins; row 4.
    pub fn rule_for(&self, destination: u32) -> Result<&Rule, Refusal> {
        let matching = self.rules.iter().filter(|r| r.prefix.matches(destination));
        matching
            .max_by_key(|r| r.prefix.length)
            .ok_or(Refusal::NoMatch)
    }
}

#[cfg(test)]
mod tests {
    use super::*;

    const SESSION: Session = Session {
        direction: Direction::Downlink,
        session_type: SessionType::Ipv6,
    };

    fn sample() -> Table {
        let entry = |address: u128, length: u8, behaviour| Entry {
            prefix: Ipv6Prefix::of(address, length),
            hop_limit: 64,
            source: 7,
            behaviour,
        };
        let base = 0x2001_0db8_000b_0001u128 << 64;
        let places = Ipv4Places { p: 6, q: 8 };
        Table {
            entries: vec![
                entry(
                    base,
                    64,
                    Behaviour::E6 {
                        session: SESSION,
                        args_start: 8,
                        source_port: 1,
                    },
                ),
                entry(
                    base,
                    48,
                    Behaviour::E4 {
                        session: SESSION,
                        places,
                        source_port: 1,
                    },
                ),
                entry(
                    base,
                    128,
                    Behaviour::D(Inbound {
                        session: SESSION,
                        policy: 0,
                        zero_checksum: true,
                    }),
                ),
                entry(0, 0, Behaviour::End),
            ],
            rules: vec![Rule {
                prefix: Ipv4Prefix::of(0xc000_0200, 24),
                hop_limit: 1,
                session: SESSION,
                places,
                sid_prefix: 0x2001_0db8_000c << 80,
                source_prefix: 0x2001_0db8_000d << 80,
                waypoints: vec![1, 2],
            }],
            policies: vec![Policy {
                args_start: 11,
                sids: vec![9],
            }],
        }
    }

    #[test]
    fn encodes_and_decodes() {
        let table = sample();
        assert_eq!(Table::decode(&table.encode()), Ok(table));
        assert_eq!(
            Table::decode(&Table::default().encode()),
            Ok(Table::default())
        );
        assert_eq!(Table::decode(&[]), Err(Unsound::Length));
    }

    #[test]
    fn longest_match_wins() {
        let table = sample();
        let base = 0x2001_0db8_000b_0001u128 << 64;
        let length = |address| table.entry_for(address).unwrap().prefix.length;
        assert_eq!(length(base), 128);
        assert_eq!(length(base + 1), 64);
        assert_eq!(length(base + (1 << 64)), 48);
        assert_eq!(length(1), 0);
        assert!(table.rule_for(0xc000_02ff).is_ok());
        assert_eq!(table.rule_for(0xc000_0300), Err(Refusal::NoMatch));
    }

    #[test]
    fn prefix_edges() {
        assert_eq!(mask6(0), 0);
        assert_eq!(mask6(1), 1 << 127);
        assert_eq!(mask6(128), u128::MAX);
        assert_eq!(mask4(0), 0);
        assert_eq!(mask4(32), u32::MAX);
        assert!(Ipv6Prefix::of(5, 0).matches(u128::MAX));
        assert!(!Ipv6Prefix::of(5, 128).matches(4));
        assert!(Ipv6Prefix::of(5, 127).matches(4));
    }

    /// Each condition broken alone, by octet and value.
    #[test]
    fn each_condition() {
        let good = sample().encode();
        let (entry, rule, policy) = (16, 16 + 4 * 64, 16 + 4 * 64 + 160);
        let (e6, e4, d, end) = (entry, entry + 64, entry + 128, entry + 192);
        let broken = [
            (0, 2, Unsound::Format),
            (3, 65, Unsound::Counts),
            (2, 1, Unsound::Counts),
            (5, 17, Unsound::Counts),
            (7, 17, Unsound::Counts),
            (3, 3, Unsound::Length),
            (e6, 2, Unsound::Behaviour),
            (e6 + 1, 129, Unsound::PrefixLength),
            (e6 + 1, 63, Unsound::PrefixBits),
            (e6 + 1, 65, Unsound::PrefixLength),
            (e4 + 1, 49, Unsound::PrefixLength),
            (e6 + 2, 0, Unsound::HopLimit),
            (end + 2, 0, Unsound::HopLimit),
            (e6 + 3, 2, Unsound::Direction),
            (e6 + 4, 4, Unsound::SessionType),
            (e6 + 4, 0, Unsound::SessionType),
            (d + 5, 1, Unsound::Policy),
            (e6 + 6, 96, Unsound::ArgsStart),
            (e6 + 6, 65, Unsound::ArgsStart),
            (e6 + 6, 56, Unsound::PrefixLength),
            (e4 + 7, 8, Unsound::P),
            (e4 + 8, 13, Unsound::Q),
            (e6 + 9, 1, Unsound::Reserved),
            (end + 9, 1, Unsound::Reserved),
            (e4 + 9, 1, Unsound::Reserved),
            (d + 9, 2, Unsound::ZeroChecksum),
            (d + 9, 3, Unsound::ZeroChecksum),
            (d + 9, 128, Unsound::ZeroChecksum),
            (d + 9, 255, Unsound::ZeroChecksum),
            (e6 + 31, 1, Unsound::PrefixBits),
            (rule, 33, Unsound::PrefixLength),
            (rule + 1, 0, Unsound::HopLimit),
            (rule + 2, 2, Unsound::Direction),
            (rule + 3, 6, Unsound::SessionType),
            (rule + 4, 8, Unsound::P),
            (rule + 4, 5, Unsound::PrefixBits),
            (rule + 5, 13, Unsound::Q),
            (rule + 5, 5, Unsound::PrefixBits),
            (rule + 6, 8, Unsound::Waypoints),
            (rule + 7, 1, Unsound::Reserved),
            (rule + 11, 1, Unsound::PrefixBits),
            (policy, 0, Unsound::Sids),
            (policy, 9, Unsound::Sids),
            (policy + 1, 96, Unsound::ArgsStart),
            (policy + 1, 7, Unsound::ArgsStart),
            (policy + 2, 1, Unsound::Reserved),
        ];
        for (at, value, why) in broken {
            let mut octets = good.clone();
            octets[at] = value;
            assert_eq!(Table::decode(&octets), Err(why), "octet {at} as {value}");
        }
        // Not used by the kind, or spare.
        let of_entries = [
            e6 + 5,
            e6 + 7,
            e6 + 8,
            e6 + 12,
            e6 + 48,
            e4 + 5,
            e4 + 6,
            d + 6,
            d + 7,
            d + 8,
            d + 10,
        ];
        let of_end = [
            end + 3,
            end + 4,
            end + 5,
            end + 6,
            end + 7,
            end + 8,
            end + 10,
        ];
        let others = [
            1,
            8,
            15,
            rule + 12,
            rule + 80,
            policy + 3,
            policy + 32,
            policy + 144,
        ];
        for at in of_entries.into_iter().chain(of_end).chain(others) {
            let mut octets = good.clone();
            octets[at] = 255;
            assert_eq!(Table::decode(&octets), Ok(sample()), "octet {at}");
        }
    }

    #[test]
    fn a_prefix_twice() {
        let mut table = sample();
        table.entries[3].prefix = table.entries[0].prefix;
        assert_eq!(Table::decode(&table.encode()), Err(Unsound::PrefixTwice));
        let mut table = sample();
        table.rules.push(table.rules[0].clone());
        assert_eq!(Table::decode(&table.encode()), Err(Unsound::PrefixTwice));
        table.rules[1].prefix.length = 25;
        assert!(Table::decode(&table.encode()).is_ok());
    }

    #[test]
    fn counts_at_their_limits() {
        let full = |entries: u32, rules: u32, policies: u32| {
            let sample = sample();
            let mut table = Table::default();
            for i in 0..entries {
                let prefix = Ipv6Prefix::of(u128::from(i), 128);
                table.entries.push(Entry {
                    prefix,
                    behaviour: Behaviour::End,
                    ..sample.entries[0]
                });
            }
            for i in 0..rules {
                table.rules.push(Rule {
                    prefix: Ipv4Prefix::of(i, 32),
                    ..sample.rules[0].clone()
                });
            }
            for _ in 0..policies {
                table.policies.push(sample.policies[0].clone());
            }
            Table::decode(&table.encode()).map(|_| ())
        };
        assert_eq!(full(64, 16, 16), Ok(()));
        assert_eq!(full(65, 16, 16), Err(Unsound::Counts));
        assert_eq!(full(64, 17, 16), Err(Unsound::Counts));
        assert_eq!(full(64, 16, 17), Err(Unsound::Counts));
    }
}
