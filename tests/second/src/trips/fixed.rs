//! "Flow 5 with the reflective bit": a downlink trip without chance, written out
//! octet by octet so that what comes out can be read beside what went in.

use super::{End, Family, Stop, Trip};
use crate::generate::Call;
use crate::table::{
    Behaviour, Direction, Entry, Inbound, Ipv4Places, Ipv4Prefix, Ipv6Prefix, Policy, Rule,
    Session, SessionType, Table,
};

const SESSION: Session = Session {
    direction: Direction::Downlink,
    session_type: SessionType::Ipv6,
};
/// UDP from 2152 to 2152 with checksum 0, then a G-PDU: TEID 01020304, a container of
/// PDU type 0 with R 1 and QFI 5, four inner octets.
const TUNNELLED: [u8; 28] = [
    0x08, 0x68, 0x08, 0x68, 0x00, 0x1c, 0x00, 0x00, 0x34, 0xff, 0x00, 0x0c, 0x01, 0x02, 0x03, 0x04,
    0x00, 0x00, 0x00, 0x85, 0x01, 0x00, 0x45, 0x00, 0x60, 0x00, 0x00, 0x00,
];
const FAR: u128 = 0x2001_0db8_000b_0001 << 64;
const NEAR: u128 = 0x2001_0db8_000a_0000_0000_0000_0000_0001;
/// Over IPv6 from this address to the near gateway the UDP checksum is B3D1, from the next B2D2.
const SENDER: u128 = 0x2001_0db8 << 96 | 1;
const FAR_SOURCE: u128 = 0x2001_0db8_00ff_0000_0000_0000_0000_0001;
const HOP_LIMIT: u8 = 64;
const FAR4: u128 = 0x2001_0db8_000c << 80;
const DESTINATION4: u32 = 0xc000_0201;
const PLACES: Ipv4Places = Ipv4Places { p: 6, q: 8 };
/// From 198.51.100.7 to 192.0.2.1, TTL 64, without its checksum.
const HEADER4: [u8; 20] = [
    0x45, 0x00, 0x00, 0x30, 0x00, 0x00, 0x40, 0x00, 0x40, 0x11, 0x00, 0x00, 0xc6, 0x33, 0x64, 0x07,
    0xc0, 0x00, 0x02, 0x01,
];

fn waypoint(number: usize) -> u128 {
    0x2001_0db8_00ee << 80 | number as u128
}

fn entry(prefix: Ipv6Prefix, behaviour: Behaviour) -> Entry {
    Entry {
        prefix,
        hop_limit: HOP_LIMIT,
        source: FAR_SOURCE,
        behaviour,
    }
}

fn stop(call: Call, table: Table, length: usize) -> Stop {
    Stop {
        call,
        table: table.encode(),
        length,
        room: length + 1,
    }
}

fn one_entry(prefix: Ipv6Prefix, behaviour: Behaviour, length: usize) -> Stop {
    let table = Table {
        entries: vec![entry(prefix, behaviour)],
        ..Table::default()
    };
    stop(Call::Ipv6, table, length)
}

fn over_ipv6(source: u128, checksum: u16) -> Vec<u8> {
    let mut packet = vec![0x60, 0, 0, 0, 0, TUNNELLED.len() as u8, 17, HOP_LIMIT];
    packet.extend(source.to_be_bytes());
    packet.extend(NEAR.to_be_bytes());
    packet.extend(TUNNELLED);
    packet[46..48].copy_from_slice(&checksum.to_be_bytes());
    packet
}

fn over_ipv4() -> Vec<u8> {
    let mut packet = HEADER4.to_vec();
    let checksum = crate::ipv4::checksum(&packet);
    packet[10..12].copy_from_slice(&checksum.to_be_bytes());
    packet.extend(TUNNELLED);
    packet
}

fn near6(waypoints: Vec<u128>, length: usize) -> Stop {
    let mut sids = waypoints;
    sids.push(FAR);
    let session = SESSION;
    let table = Table {
        entries: vec![entry(
            Ipv6Prefix::of(NEAR, 128),
            Behaviour::Di(Inbound {
                session,
                policy: 0,
                zero_checksum: false,
            }),
        )],
        policies: vec![Policy {
            args_start: 8,
            sids,
        }],
        ..Table::default()
    };
    stop(Call::Ipv6, table, length)
}

fn near4(waypoints: Vec<u128>, length: usize) -> Stop {
    let table = Table {
        rules: vec![Rule {
            prefix: Ipv4Prefix::of(DESTINATION4, 32),
            hop_limit: HOP_LIMIT,
            session: SESSION,
            places: PLACES,
            sid_prefix: FAR4,
            source_prefix: 0x2001_0db8_000d << 80,
            waypoints,
        }],
        ..Table::default()
    };
    stop(Call::Ipv4, table, length)
}

/// The trip over this many waypoints, from 0 to 7.
pub fn flow_5(family: Family, waypoints: usize) -> Trip {
    let sids: Vec<u128> = (1..=waypoints).map(waypoint).collect();
    let inner = TUNNELLED.len() - 24;
    let session = SESSION;
    let source_port = 2152;
    let (packet, near, sr_length, far, arrives) = match family {
        Family::Ipv6 => {
            let sr_length = 40 + 8 + 16 * (waypoints + 2) + inner;
            let behaviour = Behaviour::E6 {
                session,
                args_start: 8,
                source_port,
            };
            let arrives = over_ipv6(FAR_SOURCE, 0xb2d2);
            let far = one_entry(Ipv6Prefix::of(FAR, 64), behaviour, arrives.len());
            let packet = over_ipv6(SENDER, 0xb3d1);
            (
                packet,
                near6(sids.clone(), sr_length),
                sr_length,
                far,
                arrives,
            )
        }
        Family::Ipv4 => {
            let srh_length = if waypoints == 0 {
                0
            } else {
                8 + 16 * (waypoints + 1)
            };
            let sr_length = 40 + srh_length + inner;
            let behaviour = Behaviour::E4 {
                session,
                places: PLACES,
                source_port,
            };
            let arrives = over_ipv4();
            let far = one_entry(Ipv6Prefix::of(FAR4, 48), behaviour, arrives.len());
            (
                over_ipv4(),
                near4(sids.clone(), sr_length),
                sr_length,
                far,
                arrives,
            )
        }
    };
    let on_the_way = sids
        .into_iter()
        .map(|sid| one_entry(Ipv6Prefix::of(sid, 128), Behaviour::End, sr_length));
    Trip {
        family,
        packet,
        stops: [near].into_iter().chain(on_the_way).chain([far]).collect(),
        end: End::Arrives(arrives),
        buffer_seed: 0,
    }
}

#[cfg(test)]
mod tests {
    use super::*;

    #[test]
    fn flow_5_arrives_here() {
        for family in Family::ALL {
            for waypoints in 0..=7 {
                let trip = flow_5(family, waypoints);
                assert_eq!(trip.waypoints(), waypoints);
                assert_eq!(trip.check(), Ok(()), "{family:?}, {waypoints} waypoints");
            }
        }
    }
}
