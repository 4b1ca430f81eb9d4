//! What the answers of the three calls mean for packets: drawn routes, and packets sent along them.
//!
//! Where ends and waypoints fit, every packet that the near entry or rule sends on is delivered
//! as it went in. Where they do not, a packet is looked for that shows it: it is refused on the
//! way, or leaves with other values.

use super::near::{bit6, Near};
use super::pairs::{mismatch, Ask};
use super::routes::{any_waypoint, route, Route};
use crate::answer::Answer;
use crate::args::{self, ArgsMobSession};
use crate::generate::packets::{self, Draft, IpDraft, Ipv4Draft, Ipv6Draft, UpperDraft};
use crate::generate::{translate, Call};
use crate::rng::Rng;
use crate::table::{
    mask6, Behaviour, Direction, Entry, Ipv4Places, Ipv6Prefix, SessionType, Table,
};
use crate::tally::{Shape, Tally};
use crate::trips::Values;
use std::ops::Range;

/// Packets along a route that fits.
const PACKETS: usize = 6;
/// Packets at chance before the bits of Args are turned one by one.
const AT_CHANCE: usize = 4;

/// An implementation: both calls, and the three that tell whether tables fit.
pub trait Gateway {
    fn translate(&mut self, call: Call, packet: &[u8], table: &[u8], out: &mut [u8]) -> u64;
    fn mismatch(&mut self, ask: Ask, table: &[u8], index: u64, other: &[u8]) -> u64;
}

/// This one.
pub struct Here;

impl Gateway for Here {
    fn translate(&mut self, call: Call, packet: &[u8], table: &[u8], out: &mut [u8]) -> u64 {
        translate(call, packet, table, out)
    }

    fn mismatch(&mut self, ask: Ask, table: &[u8], index: u64, other: &[u8]) -> u64 {
        mismatch(ask, table, index, other)
    }
}

/// Each condition by what its packets did: all were delivered, one showed it; longer entries or
/// rules of the near table take every destination; all that were tried were delivered all the
/// same; or there is no near entry or rule that would send one.
pub static SHAPE: Shape = Shape {
    corner: "condition",
    lines: &[
        "ipv6 0",
        "ipv6 1",
        "ipv6 2",
        "ipv6 3",
        "ipv6 4",
        "ipv6 5",
        "ipv6 6",
        "ipv6 7",
        "ipv6 8",
        "ipv6 9",
        "ipv6 12",
        "ipv4 0",
        "ipv4 1",
        "ipv4 2",
        "ipv4 3",
        "ipv4 5",
        "ipv4 6",
        "ipv4 7",
        "ipv4 8",
        "ipv4 10",
        "ipv4 11",
        "ipv4 12",
        "waypoint 13",
        "waypoint 15",
        "waypoint 16",
    ],
    columns: &["delivered", "shown", "shadowed", "unseen", "no packet"],
    can_occur: |line, column| {
        let condition = line.rsplit(' ').next().unwrap_or(line);
        match column {
            "delivered" => condition == "0",
            "shown" => !["0", "3", "4"].contains(&condition),
            "shadowed" => !["1", "3", "4"].contains(&condition),
            "unseen" => ["8", "9"].contains(&condition),
            _ => ["1", "2", "3", "4"].contains(&condition),
        }
    },
};

/// The stop where a packet was refused, the near gateway being 0, and the number.
type Refused = (usize, u8);

/// A packet for the near gateway and what is in it. IPv4 addresses stand in the first 32 bits.
struct Sent {
    packet: Vec<u8>,
    values: Values,
    source: u128,
    destination: u128,
}

/// What packets did, as a column of the table.
type Found = Result<&'static str, String>;

struct Trips<'a, G> {
    gateway: &'a mut G,
    rng: Rng,
    route: &'a Route,
    near: Near,
    packets: u64,
}

/// A line of the table, or an error.
fn known(line: String) -> Result<String, String> {
    match SHAPE.lines.contains(&&line[..]) {
        true => Ok(line),
        false => Err(format!("there is no condition {line}")),
    }
}

/// Asks about a route and sends packets along it; how many they were.
fn judge(
    gateway: &mut impl Gateway,
    seed: u64,
    index: u64,
    tally: &mut Tally,
) -> Result<u64, String> {
    let route = &route(seed, index);
    let ends = &route.ends;
    let ask = Ask::of_ends(ends.call);
    let answer = gateway.mismatch(ask, &ends.near, ends.index, &ends.far);
    let condition = answer & 0xff;
    let line = known(format!("{} {condition}", ask.name()))?;
    let told = |why: String| format!("{line}, mismatch {answer:#x}: {why}");
    let near = match Near::of(ends.call, &ends.near_table(), ends.index) {
        Some(_) if condition == 3 || condition == 4 => {
            return Err(told("there is such an entry or rule".to_string()));
        }
        Some(near) => near,
        None => {
            tally.add(&line, "no packet", &[]);
            return Ok(0);
        }
    };
    let mut trips = Trips {
        gateway,
        rng: Rng::for_case(seed, index),
        route,
        near,
        packets: 0,
    };
    let found = match condition {
        0 => trips.deliver(),
        _ => trips.show_ends(answer),
    };
    tally.add(&line, found.map_err(told)?, &[]);
    if condition == 1 {
        return Ok(trips.packets);
    }
    let sids = trips.near.waypoints.clone();
    for (at, (sid, table)) in sids.iter().zip(&route.waypoints).enumerate() {
        let sid = sid.to_be_bytes();
        let answer = trips.gateway.mismatch(Ask::Waypoint, table, 0, &sid);
        if answer != 0 {
            let line = known(format!("waypoint {}", answer & 0xff))?;
            let found = trips.show_waypoint(at, answer);
            let told = |why| format!("waypoint {at}, mismatch {answer:#x}: {why}");
            tally.add(&line, found.map_err(told)?, &[]);
        }
    }
    Ok(trips.packets)
}

/// The first `cases` routes of a seed, and how many packets were sent.
pub fn run(seed: u64, cases: u64) -> Result<(Tally, u64), String> {
    run_by(&mut Here, seed, 0..cases, |_| ())
}

/// Routes with another implementation, to the first that is not as it was told; each is said
/// before it is begun.
pub fn run_by(
    gateway: &mut impl Gateway,
    seed: u64,
    indices: Range<u64>,
    mut begins: impl FnMut(u64),
) -> Result<(Tally, u64), String> {
    let mut tally = Tally::new(&SHAPE);
    let mut packets = 0;
    for index in indices {
        begins(index);
        packets += judge(gateway, seed, index, &mut tally)
            .map_err(|why| format!("seed {seed} route {index}: {why}"))?;
    }
    Ok((tally, packets))
}

impl<G: Gateway> Trips<'_, G> {
    /// Through all stops; what comes out of the last.
    fn travel(&mut self, packet: &[u8], waypoints: &[&[u8]]) -> Result<Vec<u8>, Refused> {
        self.packets += 1;
        let ends = &self.route.ends;
        let near = (ends.call, &ends.near[..]);
        let later = waypoints.iter().copied().chain([&ends.far[..]]);
        let stops = [near]
            .into_iter()
            .chain(later.map(|table| (Call::Ipv6, table)));
        let mut current = packet.to_vec();
        for (stop, (call, table)) in stops.enumerate() {
            let mut out = vec![0; current.len() + 200];
            let answer = self.gateway.translate(call, &current, table, &mut out);
            let Answer { number, length, .. } = Answer::unpack(answer);
            if number != 0 {
                return Err((stop, number));
            }
            out.truncate(length as usize);
            current = out;
        }
        Ok(current)
    }

    /// A destination under a prefix that no longer prefix of the near table takes. There is one
    /// exactly if the first under the prefix is one, or the first behind a longer prefix.
    fn destination(&mut self, within: Ipv6Prefix) -> Option<u128> {
        let past = !mask6(within.length.into());
        let at_chance: Vec<u128> = (0..AT_CHANCE)
            .map(|_| within.bits | self.rng.u128() & past)
            .collect();
        let longer = &self.near.longer;
        let behind = longer
            .iter()
            .map(|prefix| (prefix.bits | !mask6(prefix.length.into())).wrapping_add(1));
        let taken = |address: u128| longer.iter().any(|prefix| prefix.matches(address));
        let mut candidates = at_chance.into_iter().chain([within.bits]).chain(behind);
        candidates.find(|&address| within.matches(address) && !taken(address))
    }

    /// A SID that the near record writes, with the bits of a prefix where they may be any, and
    /// the destination that makes it do so. Nothing where no destination is left for that.
    fn sid(&mut self, prefix: Ipv6Prefix) -> Option<(u128, u128)> {
        let Near { pattern, .. } = self.near;
        let held = pattern.free & mask6(prefix.length.into());
        let chance = self.rng.u128() & pattern.free & !held;
        let sid = pattern.fixed | prefix.bits & held | chance;
        let Some(p) = self.near.p else {
            return Some((sid, self.destination(self.near.prefix)?));
        };
        let before = 8 * p;
        let length = prefix.length.saturating_sub(before).min(32);
        let length = length.max(self.near.prefix.length);
        let destination = self.destination(Ipv6Prefix::of(sid << before, length))?;
        let first = mask6(32);
        let sid = sid & !(first >> before) | (destination & first) >> before;
        Some((sid, destination))
    }

    /// A packet with the Args of a SID. In uplink the container's bit of R may be set all the same.
    fn packet(&mut self, sid: u128, destination: u128, inner_version: u8) -> Sent {
        let (rng, session) = (&mut self.rng, self.near.session);
        let args = ArgsMobSession::read(sid, self.near.args_start);
        let mut gtpu = packets::gtpu(rng, session);
        gtpu.teid = args.teid;
        let reflective = match session.direction {
            Direction::Downlink => args.reflective,
            Direction::Uplink => rng.chance(50),
        };
        let spare = rng.u8() & 0x80;
        gtpu.extensions[0].contents[1] = spare | u8::from(reflective) << 6 | args.qfi;
        if session.session_type == SessionType::Ipv4v6 {
            gtpu.inner[0] = inner_version << 4 | gtpu.inner[0] & 0x0f;
        }
        let traffic_class = rng.u8();
        let values = Values::of(traffic_class, &gtpu, session.direction);
        let source = rng.u128();
        let ip = match self.near.p {
            None => IpDraft::V6(Ipv6Draft {
                traffic_class,
                flow_label: rng.u32(),
                hop_limit: rng.u8(),
                source,
                destination,
                srh: rng.chance(20).then(|| packets::srh(rng, 0, 3)),
            }),
            Some(_) => IpDraft::V4(Ipv4Draft {
                tos: traffic_class,
                identification: rng.u16(),
                fragmentation: rng.pick(&[0, 0x4000]),
                ttl: rng.u8(),
                source: (source >> 96) as u32,
                destination: (destination >> 96) as u32,
                options: Vec::new(),
            }),
        };
        let draft = Draft {
            ip,
            protocol: 17,
            upper: UpperDraft::Gtpu(gtpu),
        };
        Sent {
            packet: draft.assemble().octets,
            values,
            source,
            destination,
        }
    }

    /// What a far entry makes of it.
    fn wanted(&self, sent: &Sent, far: &Entry) -> Vec<u8> {
        let Sent {
            values,
            source,
            destination,
            ..
        } = sent;
        match self.near.p {
            None => values.from_e6(*destination, far),
            Some(_) => values.from_e4((source >> 96) as u32, (destination >> 96) as u32, far),
        }
    }

    /// Packets at chance, and with what stands in the prefixes of far entries. All have to come
    /// out as they went in, octet for octet.
    fn deliver(&mut self) -> Found {
        let far = Table::decode(&self.route.ends.far).map_err(|_| "far table not sound")?;
        let sids = self.near.waypoints.iter().map(|sid| sid.to_be_bytes());
        let tables = &self.route.waypoints;
        let mut asked = sids.zip(tables);
        let fits = |(sid, table): ([u8; 16], &Vec<u8>)| {
            self.gateway.mismatch(Ask::Waypoint, table, 0, &sid) == 0
        };
        // A waypoint that does not fit is judged by itself.
        let any = any_waypoint();
        let waypoints: Vec<&[u8]> = match asked.all(fits) {
            true => tables.iter().map(|table| &table[..]).collect(),
            false => tables.iter().map(|_| &any[..]).collect(),
        };
        let all = Ipv6Prefix::of(0, 0);
        for number in 0..PACKETS {
            let entry = far.entries.get(self.rng.below(far.entries.len()));
            let prefix = match entry {
                Some(entry) if number % 2 == 1 => entry.prefix,
                _ => all,
            };
            let sid = self.sid(prefix).or_else(|| self.sid(all));
            let Some((sid, destination)) = sid else {
                return Ok("shadowed");
            };
            let version = self.rng.pick(&[4, 6]);
            let sent = self.packet(sid, destination, version);
            let entry = far.entry_for(sid).map_err(|_| "no far entry for the SID")?;
            let session = match (self.near.p, entry.behaviour) {
                (None, Behaviour::E6 { session, .. }) => session,
                (Some(_), Behaviour::E4 { session, .. }) => session,
                _ => return Err("the far entry is of another kind".to_string()),
            };
            if session.direction != self.near.session.direction {
                return Err("the far entry is for the other direction".to_string());
            }
            let wanted = self.wanted(&sent, entry);
            match self.travel(&sent.packet, &waypoints) {
                Ok(out) if out == wanted => {}
                Ok(_) => return Err(format!("packet {number} left with other values")),
                Err((stop, by)) => {
                    return Err(format!(
                        "packet {number} was refused at stop {stop} with {by}"
                    ))
                }
            }
        }
        Ok("delivered")
    }

    /// An entry that fits, of which only the values matter.
    fn fitting(&self) -> Entry {
        let (session, source_port) = (self.near.session, 0);
        let behaviour = match self.near.p {
            None => Behaviour::E6 {
                session,
                args_start: 0,
                source_port,
            },
            Some(_) => Behaviour::E4 {
                session,
                places: Ipv4Places { p: 0, q: 0 },
                source_port,
            },
        };
        Entry {
            prefix: Ipv6Prefix::of(0, 0),
            hop_limit: 0,
            source: 0,
            behaviour,
        }
    }

    /// A packet that is not delivered as it went in, if there is one with the Args and destinations
    /// that lie under a prefix: where it was refused, or nothing if it left with other values.
    /// Where one packet is delivered and it reads Args elsewhere, any with one bit of Args
    /// turned is not.
    fn show(
        &mut self,
        prefix: Ipv6Prefix,
        waypoints: &[&[u8]],
    ) -> Result<Option<Refused>, &'static str> {
        let fitting = self.fitting();
        let Some((first, destination)) = self.sid(prefix) else {
            return Err("shadowed");
        };
        let args = mask6(args::BITS) >> self.near.args();
        let free = self.near.pattern.free & args & !mask6(prefix.length.into());
        let turned = (0..128).map(bit6).filter(|bit| free & bit != 0);
        let turns = [0; AT_CHANCE].into_iter().chain(turned);
        for (number, turn) in turns.enumerate() {
            let (sid, destination) = match number {
                1..AT_CHANCE => self.sid(prefix).unwrap_or((first, destination)),
                _ => (first ^ turn, destination),
            };
            let version = if number % 2 == 0 { 4 } else { 6 };
            let sent = self.packet(sid, destination, version);
            let wanted = self.wanted(&sent, &fitting);
            let wanted = without_far_fields(self.near.p, wanted);
            match self.travel(&sent.packet, waypoints) {
                Ok(out) if without_far_fields(self.near.p, out.clone()) == wanted => {}
                Ok(_) => return Ok(None),
                Err(refused) => return Ok(Some(refused)),
            }
        }
        Err("unseen")
    }

    /// With waypoints that fit, so that the ends alone are judged.
    fn show_ends(&mut self, answer: u64) -> Found {
        let condition = answer & 0xff;
        let far = Table::decode(&self.route.ends.far);
        let named = (answer >> 16 & 0xffff) as usize;
        let prefix = match (condition, &far) {
            (6..=12, Ok(far)) => far.entries.get(named).ok_or("no such far entry")?.prefix,
            _ => Ipv6Prefix::of(0, 0),
        };
        if condition == 1 {
            // Whatever the destination is.
            self.near.longer.clear();
        }
        let any = any_waypoint();
        let waypoints = vec![&any[..]; self.near.waypoints.len()];
        let last = waypoints.len() + 1;
        let hops = usize::from(self.near.hop_limit);
        let lost = match self.show(prefix, &waypoints) {
            Ok(lost) => lost,
            Err("unseen") if !self.may_be_unseen(condition, named, far.ok()) => {
                return Err("no packet shows it".to_string());
            }
            Err(found) => return Ok(found),
        };
        let as_expected = match (condition, lost) {
            (1, lost) => lost == Some((0, 1)),
            (_, lost) if hops <= waypoints.len() => lost == Some((hops, 6)),
            (2, lost) => lost == Some((last, 1)),
            (5, lost) => lost == Some((last, 4)),
            // An entry of another kind refuses it; or it is a waypoint, which may send it on.
            (6, Some((stop, number))) => stop == last && (5..=8).contains(&number),
            (7 | 8, Some(refused)) => refused == (last, 8),
            (6..=8, None) => true,
            (9..=11, lost) => lost.is_none(),
            _ => false,
        };
        match as_expected {
            true => Ok("shown"),
            false => Err(format!("a packet was lost as {lost:?}")),
        }
    }

    /// Whether a mismatch may be without a packet that shows it: next header 4 or 41 arrives
    /// where both are taken; or one Args alone leads to the far entry, which reads the same
    /// elsewhere.
    fn may_be_unseen(&self, condition: u64, named: usize, far: Option<Table>) -> bool {
        let Some(entry) = far.and_then(|far| far.entries.get(named).copied()) else {
            return false;
        };
        match (condition, entry.behaviour) {
            (8, Behaviour::E6 { session, .. } | Behaviour::E4 { session, .. }) => {
                let near = self.near.session.session_type;
                session.session_type == SessionType::Ipv4v6
                    && matches!(near, SessionType::Ipv4 | SessionType::Ipv6)
            }
            (9, _) => usize::from(entry.prefix.length) >= self.near.args() + 40,
            _ => false,
        }
    }

    /// The other waypoints fit; the far end may not.
    fn show_waypoint(&mut self, at: usize, answer: u64) -> Found {
        let any = any_waypoint();
        let mut waypoints = vec![&any[..]; self.near.waypoints.len()];
        let route = self.route;
        waypoints[at] = &route.waypoints[at];
        let hops = usize::from(self.near.hop_limit);
        let lost = match self.show(Ipv6Prefix::of(0, 0), &waypoints) {
            Ok(lost) => lost,
            Err("unseen") => return Err("no packet shows it".to_string()),
            Err(found) => return Ok(found),
        };
        let as_expected = match (answer & 0xff, lost) {
            (_, lost) if hops <= at => lost == Some((hops, 6)),
            (13, lost) => lost == Some((at + 1, 1)),
            (15, lost) => lost == Some((at + 1, 4)),
            // There, or behind an E6 entry, which sends it on where Segments Left is 1.
            (16, lost) => lost.is_none_or(|(stop, _)| stop > at),
            _ => false,
        };
        match as_expected {
            true => Ok("shown"),
            false => Err(format!("a packet was lost as {lost:?}")),
        }
    }
}

/// A packet as it is delivered, but 0 where the far entry decides: hop limit, IPv6 source, UDP source
/// port and checksum; over IPv4 TTL, header checksum and UDP source port.
fn without_far_fields(p: Option<u8>, mut packet: Vec<u8>) -> Vec<u8> {
    let fields = match p {
        None => &[7..24, 40..42, 46..48][..],
        Some(_) => &[8..9, 10..12, 20..22],
    };
    for field in fields.iter().cloned() {
        if let Some(octets) = packet.get_mut(field) {
            octets.fill(0);
        }
    }
    packet
}

#[cfg(test)]
mod tests {
    use super::*;

    #[test]
    fn routes_do_as_they_are_told() {
        let (tally, _) = run(7, 20_000).unwrap();
        assert_eq!(tally.judge(), Ok(()), "{tally}");
    }

    /// Gives another mismatch where the right one is of this condition.
    struct Wrong {
        ask: Ask,
        condition: u64,
        instead: fn(u64) -> u64,
    }

    impl Gateway for Wrong {
        fn translate(&mut self, call: Call, packet: &[u8], table: &[u8], out: &mut [u8]) -> u64 {
            translate(call, packet, table, out)
        }

        fn mismatch(&mut self, ask: Ask, table: &[u8], index: u64, other: &[u8]) -> u64 {
            match mismatch(ask, table, index, other) {
                right if ask == self.ask && right & 0xff == self.condition => (self.instead)(right),
                right => right,
            }
        }
    }

    fn is_found(ask: Ask, condition: u64, instead: fn(u64) -> u64) {
        let wrong = &mut Wrong {
            ask,
            condition,
            instead,
        };
        let ran = run_by(wrong, 7, 0..2_000, |_| ());
        assert!(ran.is_err(), "{} {condition}", ask.name());
    }

    /// Tables that do not fit and are said to.
    #[test]
    fn a_mismatch_that_is_not_told_is_found() {
        for ask in Ask::ALL {
            let conditions = ask.numbers().iter().map(|&number| u64::from(number));
            // Without a near entry or rule nothing can be sent, and no SID of a route has 15 octets.
            for condition in conditions.filter(|number| ![0, 3, 4, 14].contains(number)) {
                is_found(ask, condition, |_| 0);
            }
        }
    }

    /// Tables that fit and are said not to.
    #[test]
    fn a_mismatch_that_is_none_is_found() {
        for ask in [Ask::Ipv6, Ask::Ipv4] {
            for instead in [|_| 5, |_| 0x206, |_| 0x207, |_| 0x208, |_| 0x209, |_| 0x20c] {
                is_found(ask, 0, instead);
            }
        }
        is_found(Ask::Ipv4, 0, |_| 0x20a);
        is_found(Ask::Ipv4, 0, |_| 0x20b);
        is_found(Ask::Waypoint, 0, |_| 15);
        is_found(Ask::Waypoint, 0, |_| 0x210);
    }
}
