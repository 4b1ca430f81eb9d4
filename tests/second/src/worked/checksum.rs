//! Worked packets of order 2: octets and checksums written by hand from RFC 8200, 8.1.

use super::{
    call6, e6_table, echo_over_ipv6, equal, ipv4, ipv6, over_ipv6, refused, rule_table, srh_around,
    table_allowing, table_of, tunnelled, with_checksum, with_srh, WorkedCall, ECHO, ECHO_CHECKSUM,
    FAR_WITH_ARGS, NEAR, ROOM,
};
use crate::answer::Answer;
use crate::generate::Call;
use crate::table::Behaviour;

/// UDP and GTP-U around two inner octets, with this checksum and other octets from a place on.
fn changed(checksum: u16, at: usize, octets: &[u8]) -> Vec<u8> {
    let mut datagram = with_checksum(checksum, tunnelled(2));
    datagram[at..at + octets.len()].copy_from_slice(octets);
    datagram
}

/// To the near gateway.
fn plain(datagram: &[u8]) -> Vec<u8> {
    ipv6(17, 64, NEAR, datagram)
}

/// Behind an SRH of two segments with SL 0; they have no part in the checksum.
fn routed(datagram: &[u8]) -> Vec<u8> {
    let srh = [17, 4, 4, 0, 1, 0, 0, 0];
    ipv6(43, 64, NEAR, &[&srh[..], &[0x22; 32], datagram].concat())
}

/// A table with another value in octet 9 of its one entry.
fn marked(mut table: Vec<u8>, mark: u8) -> Vec<u8> {
    table[16 + 9] = mark;
    table
}

/// Right for two inner octets.
const RIGHT: u16 = 0x54a9;
/// The source port with which 0 is computed for them.
const STEERED: [u8; 2] = [0x5d, 0x11];
/// An Echo Request with a number for which 0 is computed in the reply, and its checksum.
const STEERED_ECHO: [u8; 12] = [0x32, 1, 0, 4, 0, 0, 0, 0, 0xd0, 0xcc, 0, 0];
const STEERED_ECHO_CHECKSUM: u16 = 0x0e07;
/// Inner octets for which 0 is computed at E6.
const STEERED_INNER: [u8; 2] = [0x0e, 0xd9];

pub fn calls() -> Vec<WorkedCall> {
    let (d, di) = (Behaviour::D, Behaviour::Di);
    let (strict, strict_di) = (table_of(d, 1), table_of(di, 1));
    let (lenient, lenient_di) = (table_allowing(true, d, 1), table_allowing(true, di, 1));
    let bad = refused(18, 0, 0, 0);
    let (right, zero) = (changed(RIGHT, 0, &[]), changed(0, 0, &[]));
    let wrong = changed(RIGHT ^ 1, 0, &[]);
    let over_ipv6 = [
        (
            "right checksum, even length, at D: sent",
            plain(&right),
            &strict,
            Answer::sent(66),
        ),
        (
            "right checksum, odd length, at D: sent",
            over_ipv6(3, 0xf4a5),
            &strict,
            Answer::sent(67),
        ),
        (
            "right checksum at Di, where 0 is allowed: sent",
            plain(&right),
            &lenient_di,
            Answer::sent(82),
        ),
        (
            "right checksum behind an SRH, SL 0: sent",
            routed(&right),
            &strict_di,
            Answer::sent(82),
        ),
        ("checksum wrong by one bit: 18", plain(&wrong), &strict, bad),
        (
            "checksum wrong by one bit, behind an SRH: 18",
            routed(&wrong),
            &strict_di,
            bad,
        ),
        (
            "checksum wrong by one bit, where 0 is allowed: 18",
            plain(&wrong),
            &lenient,
            bad,
        ),
        (
            "one inner bit turned under the checksum: 18",
            plain(&changed(RIGHT, 25, &[1])),
            &strict,
            bad,
        ),
        ("checksum 0: 18", plain(&zero), &strict, bad),
        (
            "checksum 0 behind an SRH: 18",
            routed(&zero),
            &strict_di,
            bad,
        ),
        (
            "checksum 0 where it is allowed: sent",
            plain(&zero),
            &lenient,
            Answer::sent(66),
        ),
        (
            "checksum 0 where it is allowed, behind an SRH: sent",
            routed(&zero),
            &lenient_di,
            Answer::sent(82),
        ),
        (
            "FFFF where 0 is computed: sent",
            plain(&changed(0xffff, 0, &STEERED)),
            &strict,
            Answer::sent(66),
        ),
        (
            "0 where 0 is computed: 18",
            plain(&changed(0, 0, &STEERED)),
            &strict,
            bad,
        ),
        (
            "FFFF where another is computed: 18",
            plain(&changed(0xffff, 0, &[])),
            &lenient,
            bad,
        ),
        (
            "another port and checksum 0: 8, not 18",
            plain(&changed(0, 3, &[0x69])),
            &strict,
            refused(8, 4, 4, 40),
        ),
        (
            "another UDP length and checksum 0: 9, not 18",
            plain(&changed(0, 5, &[25])),
            &strict,
            refused(9, 0, 0, 0),
        ),
        (
            "GTP-U version 2 and a wrong checksum: 18, not 10",
            plain(&changed(RIGHT, 8, &[0x54])),
            &strict,
            bad,
        ),
        (
            "GTP-U version 2 and a right checksum: 10",
            plain(&changed(0x34a9, 8, &[0x54])),
            &strict,
            refused(10, 0, 0, 0),
        ),
        (
            "Echo Request, checksum wrong by one bit: 18",
            echo_over_ipv6(&ECHO, ECHO_CHECKSUM ^ 0x8000),
            &strict,
            bad,
        ),
        (
            "Echo Request without S, checksum 0: 18, not 17",
            echo_over_ipv6(&[0x30, 1, 0, 0, 0, 0, 0, 0], 0),
            &strict_di,
            bad,
        ),
        (
            "Echo Request, checksum 0 where it is allowed: a reply of 62",
            echo_over_ipv6(&ECHO, 0),
            &lenient_di,
            Answer::sent(62),
        ),
        (
            "Echo Request, 0 is computed for the reply: a reply of 62",
            echo_over_ipv6(&STEERED_ECHO, STEERED_ECHO_CHECKSUM),
            &strict,
            Answer::sent(62),
        ),
        (
            "E6, 0 is computed: sent",
            srh_around(&STEERED_INNER, FAR_WITH_ARGS, 64, 1),
            &e6_table(),
            Answer::sent(66),
        ),
        (
            "octet 9 of a D entry is 2: 1",
            plain(&right),
            &marked(strict.clone(), 2),
            refused(1, 0, 0, 0),
        ),
        (
            "octet 9 of an E6 entry is 1: 1",
            with_srh(FAR_WITH_ARGS, 64, 1),
            &marked(e6_table(), 1),
            refused(1, 0, 0, 0),
        ),
    ];
    let of_ipv6 = |(words, packet, table, answer): (_, _, &Vec<u8>, _)| WorkedCall {
        words,
        call: Call::Ipv6,
        packet,
        table: table.clone(),
        room: ROOM,
        answer,
    };
    let mut calls: Vec<WorkedCall> = over_ipv6.into_iter().map(of_ipv6).collect();
    calls.push(WorkedCall {
        words: "D4, any checksum: sent",
        call: Call::Ipv4,
        packet: ipv4(0, 64, &changed(0xdead, 0, &[])),
        table: rule_table(),
        room: ROOM,
        answer: Answer::sent(42),
    });
    calls
}

/// What is written, with the field in its place.
pub fn lines() -> Vec<(&'static str, Result<(), String>)> {
    let field = |packet: &[u8], table: &[u8]| {
        let (_, sent) = call6(packet, table);
        sent.get(46..48).map(<[u8]>::to_vec)
    };
    let at_e6 = |inner: &[u8]| field(&srh_around(inner, FAR_WITH_ARGS, 64, 1), &e6_table());
    let echo = |message: &[u8], checksum| {
        let packet = echo_over_ipv6(message, checksum);
        field(&packet, &table_allowing(true, Behaviour::D, 1))
    };
    let (near, far) = (table_of(Behaviour::Di, 1), e6_table());
    let once = call6(&call6(&plain(&changed(RIGHT, 0, &[])), &near).1, &far).1;
    let twice = call6(&call6(&once, &near).1, &far).1;
    vec![
        (
            "E6 writes AED8 for two inner octets",
            equal(at_e6(&[0x60, 0]), Some(vec![0xae, 0xd8])),
        ),
        (
            "E6 writes ADD5 for three, the last in the high half",
            equal(at_e6(&[0x60, 0, 1]), Some(vec![0xad, 0xd5])),
        ),
        (
            "E6 writes FFFF where 0 is computed",
            equal(at_e6(&STEERED_INNER), Some(vec![0xff; 2])),
        ),
        (
            "a reply writes FFFF where 0 is computed",
            equal(
                echo(&STEERED_ECHO, STEERED_ECHO_CHECKSUM),
                Some(vec![0xff; 2]),
            ),
        ),
        (
            "a reply writes its checksum where the request had 0",
            equal(echo(&ECHO, 0), Some(vec![0xbe, 0x98])),
        ),
        (
            "what E6 wrote is taken at Di, and comes out once more",
            equal((once.len(), &once), (66, &twice)),
        ),
    ]
}
