//! Packets for the readers, with what each gives: octets and numbers written by hand from order 13,
//! the C interface and TS 29.281, 5.1 and 7.2.1.

use super::cases::Reading;
use crate::generate::Call;

/// A reading, with words for it.
pub struct WorkedReading {
    pub words: &'static str,
    pub reading: Reading,
}

/// A G-PDU with S alone: TEID 01020304, number 65,535, two octets inside.
const NUMBERED: [u8; 14] = [
    0x32, 0xff, 0x00, 0x06, 0x01, 0x02, 0x03, 0x04, 0xff, 0xff, 0x00, 0x00, 0x60, 0x00,
];
const READ: u64 = 0x0001_0102_0304_ffff;

/// The same with E too, and an uplink container for QFI 9.
const WITH_CONTAINER: [u8; 18] = [
    0x36, 0xff, 0x00, 0x0a, 0x01, 0x02, 0x03, 0x04, 0xff, 0xff, 0x00, 0x85, 0x01, 0x10, 0x09, 0x00,
    0x60, 0x00,
];

/// Without S eight octets are enough; two octets inside.
const WITHOUT_S: [u8; 10] = [0x30, 0xff, 0x00, 0x02, 0x01, 0x02, 0x03, 0x04, 0x60, 0x00];

/// Number 65,535 and TEID 0.
const ECHO_REQUEST: [u8; 12] = [
    0x32, 0x01, 0x00, 0x04, 0x00, 0x00, 0x00, 0x00, 0xff, 0xff, 0x00, 0x00,
];

/// DF.
const WHOLE: u8 = 0x40;
/// MF.
const FRAGMENT: u8 = 0x20;

fn udp(port: u16, message: &[u8]) -> Vec<u8> {
    let [high, low] = port.to_be_bytes();
    let length = 8 + message.len() as u8;
    [&[0x08, 0x68, high, low, 0, length, 0, 0], message].concat()
}

fn to_gtpu(message: &[u8]) -> Vec<u8> {
    udp(2152, message)
}

fn over_ipv6(next_header: u8, payload: &[u8]) -> Vec<u8> {
    let front = [0x60, 0, 0, 0, 0, payload.len() as u8, next_header, 64];
    [&front[..], &[0x20; 32], payload].concat()
}

/// Behind an SRH of one segment.
fn over_srh(segments_left: u8, datagram: &[u8]) -> Vec<u8> {
    let srh = [17, 2, 4, segments_left, 0, 0, 0, 0];
    over_ipv6(43, &[&srh[..], &[0x20; 16], datagram].concat())
}

/// From 198.51.100.7 to 192.0.2.1.
fn over_ipv4(flags: u8, checksum: u16, datagram: &[u8]) -> Vec<u8> {
    let [high, low] = checksum.to_be_bytes();
    let length = 20 + datagram.len() as u8;
    let front = [0x45, 0, 0, length, 0, 0, flags, 0, 64, 17, high, low];
    [&front[..], &[198, 51, 100, 7, 192, 0, 2, 1], datagram].concat()
}

/// A message with other octets from a place on.
fn changed(message: &[u8], at: usize, octets: &[u8]) -> Vec<u8> {
    let mut changed = message.to_vec();
    changed[at..at + octets.len()].copy_from_slice(octets);
    changed
}

pub fn readings() -> Vec<WorkedReading> {
    let datagram = to_gtpu(&NUMBERED);
    let whole = over_ipv6(17, &datagram);
    let in_ipv6 = |message: &[u8]| over_ipv6(17, &to_gtpu(message));
    let in_ipv4 = |checksum, message: &[u8]| over_ipv4(WHOLE, checksum, &to_gtpu(message));
    let fragment = [&[17, 0, 0, 1, 0, 0, 0, 7], &datagram[..]].concat();
    let ipv6 = [
        ("S over IPv6: number 65,535", whole.clone(), READ),
        (
            "S behind an SRH, SL 0: number 65,535",
            over_srh(0, &datagram),
            READ,
        ),
        (
            "S and E, a container: number 65,535",
            in_ipv6(&WITH_CONTAINER),
            READ,
        ),
        (
            "S, nothing inside: number 65,535",
            in_ipv6(&changed(&NUMBERED[..12], 3, &[4])),
            READ,
        ),
        (
            "S, TEID 0, number 0: both found",
            in_ipv6(&changed(&NUMBERED, 4, &[0; 6])),
            0x0001_0000_0000_0000,
        ),
        ("no S over IPv6: none", in_ipv6(&WITHOUT_S), 0),
        (
            "E and no S, octets there: none",
            in_ipv6(&changed(&WITH_CONTAINER, 0, &[0x34])),
            0,
        ),
        (
            "PN and no S, octets there: none",
            in_ipv6(&changed(&NUMBERED, 0, &[0x31])),
            0,
        ),
        ("Echo Request over IPv6: none", in_ipv6(&ECHO_REQUEST), 0),
        (
            "S, cut before the number: none",
            in_ipv6(&changed(&NUMBERED[..8], 3, &[0])),
            0,
        ),
        (
            "one octet cut off: none",
            whole[..whole.len() - 1].to_vec(),
            0,
        ),
        ("port 2153: none", over_ipv6(17, &udp(2153, &NUMBERED)), 0),
        ("SL 1: none", over_srh(1, &datagram), 0),
        ("fragment over IPv6: none", over_ipv6(44, &fragment), 0),
        ("empty, over IPv6: none", Vec::new(), 0),
    ];
    let ipv4 = [
        (
            "S over IPv4: number 65,535",
            in_ipv4(0x4e87, &NUMBERED),
            READ,
        ),
        ("no S over IPv4: none", in_ipv4(0x4e8b, &WITHOUT_S), 0),
        (
            "Echo Request over IPv4: none",
            in_ipv4(0x4e89, &ECHO_REQUEST),
            0,
        ),
        ("wrong IPv4 checksum: none", in_ipv4(0x4e88, &NUMBERED), 0),
        (
            "fragment over IPv4: none",
            over_ipv4(FRAGMENT, 0x6e87, &datagram),
            0,
        ),
        ("empty, over IPv4: none", Vec::new(), 0),
    ];
    let of = |call| {
        move |(words, packet, sequence)| WorkedReading {
            words,
            reading: Reading {
                call,
                packet,
                sequence,
            },
        }
    };
    let ipv6 = ipv6.into_iter().map(of(Call::Ipv6));
    ipv6.chain(ipv4.into_iter().map(of(Call::Ipv4))).collect()
}
