//! The trip (docs/RULES.md, Trip): near gateway (Di or D4), waypoints, far gateway (E6
//! or E4), each stop with a table and a buffer of its own.
//!
//! What should come out is put together here from the values that went in, not
//! by the code under test.

pub mod fixed;

use crate::answer::Answer;
use crate::generate::packets::{self, Draft, IpDraft, Ipv4Draft, Ipv6Draft, SrhDraft, UpperDraft};
use crate::generate::{checksum, tables, translate, Call};
use crate::rng::Rng;
use crate::table::{
    mask6, Behaviour, Direction, Entry, Inbound, Ipv6Prefix, Policy, Session, SessionType, Table,
    MAX_SIDS, MAX_WAYPOINTS,
};
use std::fmt;
use std::ops::Range;

#[derive(Clone, Copy, Debug, PartialEq, Eq)]
pub enum Family {
    /// Di to E6.
    Ipv6,
    /// D4 to E4.
    Ipv4,
}

impl Family {
    pub const ALL: [Family; 2] = [Family::Ipv6, Family::Ipv4];

    pub fn name(self) -> &'static str {
        match self {
            Family::Ipv6 => "Di to E6",
            Family::Ipv4 => "D4 to E4",
        }
    }
}

/// One call of the trip.
#[derive(Clone, Debug)]
pub struct Stop {
    pub call: Call,
    pub table: Vec<u8>,
    /// How long the packet sent here is.
    pub length: usize,
    /// How long the buffer is.
    pub room: usize,
}

/// How the trip ends.
#[derive(Clone, Debug, PartialEq, Eq)]
pub enum End {
    Arrives(Vec<u8>),
    /// The trip ends at this stop with this answer number.
    Refused {
        stop: usize,
        number: u8,
    },
}

#[derive(Clone, Debug)]
pub struct Trip {
    pub family: Family,
    pub packet: Vec<u8>,
    pub stops: Vec<Stop>,
    pub end: End,
    buffer_seed: u64,
}

impl Trip {
    pub fn waypoints(&self) -> usize {
        self.stops.len() - 2
    }

    /// The first trip, then two second trips over the used buffers: the same
    /// packet again, and what came out once more.
    pub fn check(&self) -> Result<(), String> {
        self.check_by(translate)
    }

    /// The same with another implementation, which gives the packed answer.
    pub fn check_by(
        &self,
        mut run: impl FnMut(Call, &[u8], &[u8], &mut [u8]) -> u64,
    ) -> Result<(), String> {
        let mut rng = Rng::new(self.buffer_seed);
        let mut buffers: Vec<Vec<u8>> = self
            .stops
            .iter()
            .map(|stop| rng.octets(stop.room))
            .collect();
        let mut travel = |packet: &[u8], name: &str| {
            self.travel(packet, &mut buffers, &mut run)
                .map_err(|why| format!("{name}: {why}"))
        };
        let came_out = travel(&self.packet, "first trip")?;
        travel(&self.packet, "second trip of the same packet")?;
        if let Some(packet) = came_out {
            travel(&packet, "second trip of what came out")?;
        }
        Ok(())
    }

    fn travel(
        &self,
        packet: &[u8],
        buffers: &mut [Vec<u8>],
        run: &mut impl FnMut(Call, &[u8], &[u8], &mut [u8]) -> u64,
    ) -> Result<Option<Vec<u8>>, String> {
        let mut current = packet.to_vec();
        for (index, (stop, buffer)) in self.stops.iter().zip(buffers).enumerate() {
            let before = buffer.clone();
            let answer = Answer::unpack(run(stop.call, &current, &stop.table, buffer));
            if answer.number != 0 {
                if *buffer != before {
                    return Err(format!("stop {index}: refused and yet wrote"));
                }
                let wanted = End::Refused {
                    stop: index,
                    number: answer.number,
                };
                return if self.end == wanted {
                    Ok(None)
                } else {
                    Err(format!("stop {index}: answer {answer}"))
                };
            }
            let length = answer.length as usize;
            if length != stop.length || length > buffer.len() {
                return Err(format!(
                    "stop {index}: length {length}, not {}",
                    stop.length
                ));
            }
            if buffer[length..] != before[length..] {
                return Err(format!("stop {index}: wrote past the packet sent"));
            }
            current = buffer[..length].to_vec();
        }
        match &self.end {
            End::Arrives(wanted) if *wanted == current => Ok(Some(current)),
            End::Arrives(wanted) => {
                let same = wanted.iter().zip(&current).take_while(|(a, b)| a == b);
                let place = same.count();
                Err(format!("what came out differs, first at octet {place}"))
            }
            End::Refused { stop, number } => {
                Err(format!("arrived, but stop {stop} should answer {number}"))
            }
        }
    }
}

/// The trip of a seed and an index; even indices go over IPv6, odd ones over IPv4.
pub fn trip(seed: u64, index: u64) -> Trip {
    let mut rng = Rng::for_case(seed, index);
    let rng = &mut rng;
    let mut trip = if index.is_multiple_of(2) {
        trip6(rng)
    } else {
        trip4(rng)
    };
    // A few trips end early: a buffer too short at one stop.
    if rng.chance(4) && matches!(trip.end, End::Arrives(_)) {
        let stop = rng.below(trip.stops.len());
        trip.stops[stop].room = rng.below(trip.stops[stop].length);
        trip.end = End::Refused { stop, number: 16 };
    }
    trip
}

/// The near hop limit, and the waypoint where it is spent, if it is. A waypoint
/// refuses hop limits 0 and 1, so n waypoints need n + 1 at the least.
fn near_hop_limit(rng: &mut Rng, waypoints: usize) -> (u8, Option<usize>) {
    match rng.below(10) {
        0 if waypoints > 0 => {
            let hop_limit = rng.between(1, waypoints);
            (hop_limit as u8, Some(hop_limit - 1))
        }
        1..=3 => (waypoints as u8 + 1, None),
        _ => (rng.between(waypoints + 1, 255) as u8, None),
    }
}

/// A table in which the longest match of `address` is this entry.
fn table_with(rng: &mut Rng, address: u128, entry: Entry, policies: Vec<Policy>) -> Vec<u8> {
    let others = rng.below(6);
    let entries = tables::nested_entries(rng, Some((address, entry)), others, policies.len());
    let rule_address = rng.u32();
    let rule_count = rng.below(3);
    let rules = tables::nested_rules(rng, rule_address, rule_count);
    let table = Table {
        entries,
        rules,
        policies,
    };
    let mut octets = table.encode();
    if rng.chance(50) {
        tables::fill_unused(rng, &table, &mut octets);
    }
    octets
}

fn waypoint_stop(rng: &mut Rng, sid: u128, length: usize) -> Stop {
    let prefix = Ipv6Prefix::of(sid, rng.between(0, 128) as u8);
    let entry = tables::entry(rng, prefix, Behaviour::End);
    let policies = (0..rng.below(3)).map(|_| tables::policy(rng)).collect();
    let table = table_with(rng, sid, entry, policies);
    Stop {
        call: Call::Ipv6,
        table,
        length,
        room: room(rng, length),
    }
}

fn far_stop(rng: &mut Rng, sid: u128, far: Entry, length: usize) -> Stop {
    let policies = (0..rng.below(3)).map(|_| tables::policy(rng)).collect();
    Stop {
        call: Call::Ipv6,
        table: table_with(rng, sid, far, policies),
        length,
        room: room(rng, length),
    }
}

fn room(rng: &mut Rng, length: usize) -> usize {
    length + rng.pick(&[0, 0, 1, 40])
}

/// One trip in a hundred carries the longest inner packet that passes.
fn inner(rng: &mut Rng, session: Session, most: usize) -> Vec<u8> {
    let mut inner = if rng.chance(1) {
        rng.octets(most)
    } else {
        packets::small_inner(rng)
    };
    if session.session_type == SessionType::Ipv4v6 {
        packets::set_nibble(rng, &mut inner);
    }
    inner
}

/// The values that the layouts read from what went in.
pub struct Values {
    traffic_class: u8,
    teid: u32,
    qfi: u8,
    reflective: bool,
    inner: Vec<u8>,
}

impl Values {
    pub fn of(traffic_class: u8, gtpu: &packets::GtpuDraft, direction: Direction) -> Self {
        let octet = gtpu.extensions[0].contents[1];
        Values {
            traffic_class,
            teid: gtpu.teid,
            qfi: octet % 64,
            reflective: direction == Direction::Downlink && octet & 0x40 != 0,
            inner: gtpu.inner.clone(),
        }
    }

    /// Args, octet by octet.
    fn args(&self) -> [u8; 5] {
        let [a, b, c, d] = self.teid.to_be_bytes();
        [
            self.qfi * 4 + if self.reflective { 2 } else { 0 },
            a,
            b,
            c,
            d,
        ]
    }

    /// UDP and GTP-U from these values, checksum 0.
    fn tunnelled(&self, source_port: u16, direction: Direction) -> Vec<u8> {
        let inner_length = self.inner.len();
        let mut octets = source_port.to_be_bytes().to_vec();
        octets.extend([0x08, 0x68]);
        octets.extend(((24 + inner_length) as u16).to_be_bytes());
        octets.extend([0, 0, 0x34, 0xff]);
        octets.extend(((8 + inner_length) as u16).to_be_bytes());
        octets.extend(self.teid.to_be_bytes());
        octets.extend([0, 0, 0, 0x85, 0x01]);
        octets.push(if direction == Direction::Uplink {
            0x10
        } else {
            0x00
        });
        octets.push(self.qfi + if self.reflective { 0x40 } else { 0 });
        octets.push(0);
        octets.extend(&self.inner);
        octets
    }

    /// What E6 writes from these values and its entry.
    pub fn from_e6(&self, destination: u128, far: &Entry) -> Vec<u8> {
        let mut octets = vec![
            0x60 | self.traffic_class >> 4,
            self.traffic_class << 4,
            0,
            0,
        ];
        octets.extend(((24 + self.inner.len()) as u16).to_be_bytes());
        octets.extend([17, far.hop_limit]);
        octets.extend(far.source.to_be_bytes());
        octets.extend(destination.to_be_bytes());
        let mut datagram = self.tunnelled_by(far);
        let checksum = checksum::right(&octets[8..], &datagram);
        datagram[6..8].copy_from_slice(&checksum.to_be_bytes());
        octets.extend(datagram);
        octets
    }

    /// What E4 writes from these values and its entry.
    pub fn from_e4(&self, source: u32, destination: u32, far: &Entry) -> Vec<u8> {
        let mut octets = vec![0x45, self.traffic_class];
        octets.extend(((44 + self.inner.len()) as u16).to_be_bytes());
        octets.extend([0, 0, 0x40, 0, far.hop_limit, 17, 0, 0]);
        octets.extend(source.to_be_bytes());
        octets.extend(destination.to_be_bytes());
        let sum: u32 = octets
            .chunks(2)
            .map(|pair| u32::from(pair[0]) * 256 + u32::from(pair[1]))
            .sum();
        let folded = sum % 65_535;
        // No sum of such a header is 0, so 0 stands for FFFF.
        let checksum = if folded == 0 { 0 } else { 65_535 - folded };
        octets[10..12].copy_from_slice(&(checksum as u16).to_be_bytes());
        octets.extend(self.tunnelled_by(far));
        octets
    }

    fn tunnelled_by(&self, far: &Entry) -> Vec<u8> {
        match far.behaviour {
            Behaviour::E6 {
                session,
                source_port,
                ..
            }
            | Behaviour::E4 {
                session,
                source_port,
                ..
            } => self.tunnelled(source_port, session.direction),
            _ => unreachable!("an E6 or E4 entry"),
        }
    }
}

fn put(address: u128, at: u8, octets: &[u8]) -> u128 {
    let mut bytes = address.to_be_bytes();
    bytes[usize::from(at)..][..octets.len()].copy_from_slice(octets);
    u128::from_be_bytes(bytes)
}

fn trip6(rng: &mut Rng) -> Trip {
    let session = tables::session(rng);
    let sids: Vec<u128> = (0..rng.between(1, MAX_SIDS))
        .map(|_| tables::address(rng))
        .collect();
    let waypoints = sids.len() - 1;
    let policy = Policy {
        args_start: tables::args_start(rng),
        sids,
    };
    let destination = tables::address(rng);
    let (hop_limit, spent_at) = near_hop_limit(rng, waypoints);

    let srh: Option<SrhDraft> = rng.chance(20).then(|| packets::srh(rng, 0, 3));
    let mut gtpu = packets::gtpu(rng, session);
    let header = Ipv6Draft {
        traffic_class: rng.u8(),
        flow_label: rng.u32(),
        hop_limit: rng.u8(),
        source: rng.u128(),
        destination,
        srh,
    };
    let srh_length = 8 + 16 * (policy.sids.len() + 1);
    gtpu.inner.clear();
    let mut draft = Draft {
        ip: IpDraft::V6(header),
        protocol: 17,
        upper: UpperDraft::Gtpu(gtpu),
    };
    let most = (65_535 - srh_length).min(65_575 - draft.overhead());
    *draft.inner() = inner(rng, session, most);
    let mut assembled = draft.assemble();
    // What comes out has a checksum, also where none went in.
    let zero_checksum = rng.chance(40);
    if zero_checksum && rng.chance(50) {
        assembled.set16(assembled.layout.upper + 6, 0);
    }
    let packet = assembled.octets;
    let (IpDraft::V6(header), UpperDraft::Gtpu(gtpu)) = (&draft.ip, &draft.upper) else {
        unreachable!("an IPv6 draft around GTP-U");
    };
    let values = Values::of(header.traffic_class, gtpu, session.direction);

    // Near gateway.
    let mut policies: Vec<Policy> = (0..rng.below(3)).map(|_| tables::policy(rng)).collect();
    let place = rng.below(policies.len() + 1);
    policies.insert(place, policy.clone());
    let near = Entry {
        prefix: Ipv6Prefix::of(destination, rng.between(0, 128) as u8),
        hop_limit,
        source: rng.u128(),
        behaviour: Behaviour::Di(Inbound {
            session,
            policy: place,
            zero_checksum,
        }),
    };
    let sr_length = 40 + srh_length + values.inner.len();
    let near_table = table_with(rng, destination, near, policies);
    let mut stops = vec![Stop {
        call: Call::Ipv6,
        table: near_table,
        length: sr_length,
        room: room(rng, sr_length),
    }];

    // Waypoints: the policy's SIDs but the last.
    let last = policy.sids[waypoints];
    for &sid in &policy.sids[..waypoints] {
        stops.push(waypoint_stop(rng, sid, sr_length));
    }

    // Far gateway.
    let arriving = put(last, policy.args_start, &values.args());
    let source_port = rng.u16();
    let prefix_length = rng.between(0, 8 * usize::from(policy.args_start)) as u8;
    let behaviour = Behaviour::E6 {
        session,
        args_start: policy.args_start,
        source_port,
    };
    let far = tables::entry(rng, Ipv6Prefix::of(last, prefix_length), behaviour);
    stops.push(far_stop(rng, arriving, far, 64 + values.inner.len()));

    let wanted = values.from_e6(destination, &far);
    finish(rng, Family::Ipv6, packet, stops, wanted, spent_at)
}

fn trip4(rng: &mut Rng) -> Trip {
    let destination = rng.u32();
    let source = rng.u32();
    let prefix_length = rng.between(0, 32) as u8;
    let mut rule = tables::rule(
        rng,
        crate::table::Ipv4Prefix::of(destination, prefix_length),
    );
    let waypoints = rng.between(0, MAX_WAYPOINTS);
    rule.waypoints = (0..waypoints).map(|_| tables::address(rng)).collect();
    let (hop_limit, spent_at) = near_hop_limit(rng, waypoints);
    rule.hop_limit = hop_limit;
    let session = rule.session;

    let mut gtpu = packets::gtpu(rng, session);
    gtpu.inner.clear();
    let header = Ipv4Draft {
        tos: rng.u8(),
        identification: rng.u16(),
        fragmentation: rng.pick(&[0, 0x4000]),
        ttl: rng.u8(),
        source,
        destination,
        options: Vec::new(),
    };
    let tos = header.tos;
    let srh_length = if waypoints == 0 {
        0
    } else {
        8 + 16 * (waypoints + 1)
    };
    let mut draft = Draft {
        ip: IpDraft::V4(header),
        protocol: 17,
        upper: UpperDraft::Gtpu(gtpu),
    };
    let most = (65_535 - srh_length).min(65_535 - draft.overhead());
    *draft.inner() = inner(rng, session, most);
    let packet = draft.assemble().octets;
    let UpperDraft::Gtpu(gtpu) = &draft.upper else {
        unreachable!("a draft around GTP-U")
    };
    let values = Values::of(tos, gtpu, session.direction);

    // Near gateway: the rule among shorter ones and ones that miss.
    let (p, q) = (rule.places.p, rule.places.q);
    let mut rules = tables::nested_rules(rng, destination, 3);
    rules.retain(|r| r.prefix.length < rule.prefix.length || !r.prefix.matches(destination));
    let sid = put(
        put(rule.sid_prefix, p, &destination.to_be_bytes()),
        p + 4,
        &values.args(),
    );
    let sids = rule.waypoints.clone();
    rules.push(rule);
    rng.shuffle(&mut rules);
    let entries = tables::nested_entries(rng, None, 3, 0);
    let near = Table {
        entries,
        rules,
        policies: Vec::new(),
    };
    let sr_length = 40 + srh_length + values.inner.len();
    let mut stops = vec![Stop {
        call: Call::Ipv4,
        table: near.encode(),
        length: sr_length,
        room: room(rng, sr_length),
    }];
    for sid in sids {
        stops.push(waypoint_stop(rng, sid, sr_length));
    }

    // Far gateway.
    let source_port = rng.u16();
    let places = crate::table::Ipv4Places { p, q };
    let prefix_length = rng.between(0, 8 * usize::from(p)) as u8;
    let behaviour = Behaviour::E4 {
        session,
        places,
        source_port,
    };
    let far = tables::entry(
        rng,
        Ipv6Prefix {
            bits: sid & mask6(prefix_length.into()),
            length: prefix_length,
        },
        behaviour,
    );
    stops.push(far_stop(rng, sid, far, 44 + values.inner.len()));

    let wanted = values.from_e4(source, destination, &far);
    finish(rng, Family::Ipv4, packet, stops, wanted, spent_at)
}

fn finish(
    rng: &mut Rng,
    family: Family,
    packet: Vec<u8>,
    stops: Vec<Stop>,
    wanted: Vec<u8>,
    spent_at: Option<usize>,
) -> Trip {
    let end = match spent_at {
        // Stop 0 is the near gateway.
        Some(waypoint) => End::Refused {
            stop: waypoint + 1,
            number: 6,
        },
        None => End::Arrives(wanted),
    };
    Trip {
        family,
        packet,
        stops,
        end,
        buffer_seed: rng.u64(),
    }
}

/// Trips run, by family and number of waypoints.
#[derive(Clone, Debug, Default, PartialEq, Eq)]
pub struct Tally {
    pub arrived: [[u64; MAX_WAYPOINTS + 1]; 2],
    pub ended_early: [[u64; MAX_WAYPOINTS + 1]; 2],
}

impl fmt::Display for Tally {
    fn fmt(&self, f: &mut fmt::Formatter<'_>) -> fmt::Result {
        write!(f, "waypoints          ")?;
        for waypoints in 0..=MAX_WAYPOINTS {
            write!(f, " {waypoints:>6}")?;
        }
        for family in Family::ALL {
            for (what, counts) in [
                ("arrived", self.arrived[family as usize]),
                ("refused", self.ended_early[family as usize]),
            ] {
                write!(f, "\n{}, {what}: ", family.name())?;
                for count in counts {
                    write!(f, " {count:>6}")?;
                }
            }
        }
        Ok(())
    }
}

/// Runs the first `cases` trips of a seed.
pub fn run(seed: u64, cases: u64) -> Result<Tally, String> {
    run_by(seed, 0..cases, |_, trip| trip.check())
}

/// Runs trips of a seed with a check of one's own, to the first that fails.
pub fn run_by(
    seed: u64,
    indices: Range<u64>,
    mut check: impl FnMut(u64, &Trip) -> Result<(), String>,
) -> Result<Tally, String> {
    let mut tally = Tally::default();
    for index in indices {
        let trip = trip(seed, index);
        let (family, waypoints) = (trip.family, trip.waypoints());
        check(index, &trip).map_err(|why| {
            let name = family.name();
            format!("seed {seed} trip {index} ({name}, {waypoints} waypoints): {why}")
        })?;
        match trip.end {
            End::Arrives(_) => tally.arrived[family as usize][waypoints] += 1,
            End::Refused { .. } => tally.ended_early[family as usize][waypoints] += 1,
        }
    }
    Ok(tally)
}

#[cfg(test)]
mod tests {
    use super::*;

    #[test]
    fn trips_arrive() {
        let tally = run(7, 400).unwrap();
        assert!(
            tally.arrived.iter().flatten().all(|&count| count > 0),
            "{tally:?}"
        );
    }

    #[test]
    fn a_wrong_octet_is_found() {
        let mut found = 0;
        for index in 0..20 {
            let mut trip = trip(3, index);
            if let End::Arrives(wanted) = &mut trip.end {
                *wanted.last_mut().unwrap() ^= 1;
                assert!(trip.check().is_err());
                found += 1;
            }
        }
        assert!(found > 0);
    }
}
