//! Each answer number by a packet made by hand.

use second::table::{
    Behaviour, Direction, Entry, Inbound, Ipv4Places, Ipv4Prefix, Ipv6Prefix, Policy, Rule,
    Session, SessionType, Table,
};
use second::{translate_ipv4, translate_ipv6, Answer, Call};

const WAYPOINT: u128 = 0xfc00_0001 << 96 | 1;
const D: u128 = 0xfc00_0002 << 96 | 1;
const DI: u128 = 0xfc00_0003 << 96 | 1;
/// Args at octet 8: QFI 9, R 1, TEID 01020304.
const E6: u128 = 0xfc00_0004 << 96 | 0x2601_0203_0400_0000;
/// p = 6, 192.0.2.1, the same Args.
const E4: u128 = 0xfc00_0005_0000_c000_0201_2601_0203_0400;
const NOWHERE: u128 = 0xfc00_0006 << 96;
const SOURCE: u128 = 0xfd00 << 112 | 0xc633_6407_0000_0000;
const FIRST_SID: u128 = 0xfc00_0010 << 96 | 0xffff_ffff_ffff_ffff;
const LAST_SID: u128 = 0xfc00_0011 << 96 | 0xffff_ffff_ffff_ffff;

fn session(session_type: SessionType) -> Session {
    Session {
        direction: Direction::Downlink,
        session_type,
    }
}

fn table_with(session_type: SessionType, waypoints: usize) -> Table {
    let session = session(session_type);
    let inbound = Inbound {
        session,
        policy: 0,
        zero_checksum: false,
    };
    let places = Ipv4Places { p: 6, q: 8 };
    let entry = |address: u128, behaviour| Entry {
        prefix: Ipv6Prefix::of(address, 32),
        hop_limit: 33,
        source: 0xfd11 << 112 | 1,
        behaviour,
    };
    Table {
        entries: vec![
            entry(WAYPOINT, Behaviour::End),
            entry(D, Behaviour::D(inbound)),
            entry(DI, Behaviour::Di(inbound)),
            entry(
                E6,
                Behaviour::E6 {
                    session,
                    args_start: 8,
                    source_port: 0x1234,
                },
            ),
            entry(
                E4,
                Behaviour::E4 {
                    session,
                    places,
                    source_port: 0x1234,
                },
            ),
        ],
        rules: vec![Rule {
            prefix: Ipv4Prefix::of(0xc000_0200, 24),
            hop_limit: 44,
            session,
            places,
            sid_prefix: 0xfc00_0005 << 96,
            source_prefix: 0xfd22 << 112,
            waypoints: (0..waypoints as u128).map(|i| FIRST_SID + i).collect(),
        }],
        policies: vec![Policy {
            args_start: 8,
            sids: vec![FIRST_SID, LAST_SID],
        }],
    }
}

fn table() -> Vec<u8> {
    table_with(SessionType::Ipv6, 2).encode()
}

/// With D and Di that allow UDP checksum 0.
fn lenient() -> Vec<u8> {
    let mut octets = table();
    for entry in [1, 2] {
        octets[16 + 64 * entry + 9] = 1;
    }
    octets
}

/// The UDP checksum is right, where there is UDP.
fn ipv6(next_header: u8, destination: u128, payload: &[u8]) -> Vec<u8> {
    let mut packet = vec![0x6a, 0xb1, 0x23, 0x45];
    packet.extend((payload.len() as u16).to_be_bytes());
    packet.extend([next_header, 9]);
    packet.extend(SOURCE.to_be_bytes());
    packet.extend(destination.to_be_bytes());
    packet.extend(payload);
    fix_udp_checksum(&mut packet);
    packet
}

/// Where UDP begins in an IPv6 packet, also behind an SRH.
fn udp_at(packet: &[u8]) -> Option<usize> {
    let at = match packet[6] {
        17 => 40,
        43 if packet.get(40) == Some(&17) => 48 + 8 * usize::from(packet[41]),
        _ => return None,
    };
    (packet.len() >= at + 8).then_some(at)
}

fn fix_udp_checksum(packet: &mut [u8]) {
    if let Some(at) = udp_at(packet) {
        set16(packet, at + 6, 0);
        let length = (packet.len() - at) as u32;
        let words = packet[8..40].chunks(2).chain(packet[at..].chunks(2));
        let mut sum = length + 17;
        for word in words {
            sum += u32::from(word[0]) << 8 | u32::from(*word.get(1).unwrap_or(&0));
        }
        while sum > 0xffff {
            sum = (sum >> 16) + (sum & 0xffff);
        }
        let checksum = if sum == 0xffff { sum } else { 0xffff - sum };
        set16(packet, at + 6, checksum as u16);
    }
}

fn set16(packet: &mut [u8], at: usize, value: u16) {
    packet[at..at + 2].copy_from_slice(&value.to_be_bytes());
}

fn get16(packet: &[u8], at: usize) -> u16 {
    u16::from_be_bytes([packet[at], packet[at + 1]])
}

fn srh(
    next_header: u8,
    segments_left: u8,
    last_entry: u8,
    segments: &[u128],
    rest: &[u8],
) -> Vec<u8> {
    let mut octets = vec![
        next_header,
        2 * segments.len() as u8,
        4,
        segments_left,
        last_entry,
        0,
        0,
        0,
    ];
    octets.extend(segments.iter().flat_map(|s| s.to_be_bytes()));
    octets.extend(rest);
    octets
}

fn gtpu(inner: &[u8]) -> Vec<u8> {
    let mut octets = vec![
        0x34, 0xff, 0, 0, 1, 2, 3, 4, 0, 0, 0, 0x85, 1, 0x00, 0x49, 0,
    ];
    octets.extend(inner);
    let length = (octets.len() - 8) as u16;
    octets[2..4].copy_from_slice(&length.to_be_bytes());
    octets
}

fn udp(payload: &[u8]) -> Vec<u8> {
    let mut octets = vec![0x30, 0x39, 0x08, 0x68];
    octets.extend(((8 + payload.len()) as u16).to_be_bytes());
    octets.extend([0xde, 0xad]);
    octets.extend(payload);
    octets
}

/// The header without options, its checksum right.
fn ipv4(protocol: u8, destination: [u8; 4], payload: &[u8]) -> Vec<u8> {
    let mut packet = vec![0x45, 0xab];
    packet.extend(((20 + payload.len()) as u16).to_be_bytes());
    packet.extend([0x77, 0x77, 0x40, 0x00, 9, protocol, 0, 0, 198, 51, 100, 7]);
    packet.extend(destination);
    fix_checksum(&mut packet);
    packet.extend(payload);
    packet
}

fn fix_checksum(packet: &mut [u8]) {
    packet[10..12].fill(0);
    let mut sum: u32 = packet[..20]
        .chunks(2)
        .map(|p| u32::from(p[0]) << 8 | u32::from(p[1]))
        .sum();
    while sum > 0xffff {
        sum = (sum >> 16) + (sum & 0xffff);
    }
    packet[10..12].copy_from_slice(&(!(sum as u16)).to_be_bytes());
}

fn run(call: Call, packet: &[u8], table: &[u8], room: usize) -> (Answer, Vec<u8>) {
    let mut out = vec![0xee; room];
    let packed = match call {
        Call::Ipv6 => translate_ipv6(packet, table, &mut out),
        Call::Ipv4 => translate_ipv4(packet, table, &mut out),
    };
    let answer = Answer::unpack(packed);
    let length = answer.length as usize;
    assert!(out[length..].iter().all(|&octet| octet == 0xee));
    out.truncate(length);
    (answer, out)
}

fn number6(packet: &[u8], table: &[u8]) -> u8 {
    run(Call::Ipv6, packet, table, 70_000).0.number
}

fn number4(packet: &[u8], table: &[u8]) -> u8 {
    run(Call::Ipv4, packet, table, 70_000).0.number
}

fn assert_icmp(packet: &[u8], wanted: (u8, u8, u8, u16)) {
    let answer = run(Call::Ipv6, packet, &table(), 70_000).0;
    assert_eq!(
        (
            answer.number,
            answer.icmp_type,
            answer.icmp_code,
            answer.icmp_pointer
        ),
        wanted
    );
    assert_eq!(answer.length, 0);
}

const INNER: [u8; 3] = [0x60, 0xaa, 0xbb];

fn valid6(destination: u128) -> Vec<u8> {
    ipv6(17, destination, &udp(&gtpu(&INNER)))
}

fn valid4() -> Vec<u8> {
    ipv4(17, [192, 0, 2, 1], &udp(&gtpu(&INNER)))
}

fn octets(parts: &[&[u8]]) -> Vec<u8> {
    parts.concat()
}

#[test]
fn number_0_d_and_di() {
    let with_args = 0xfc00_0011u128 << 96 | 0x2601_0203_04ff_ffff;
    let header = |length: u8| {
        octets(&[
            &[0x6a, 0xb0, 0, 0, 0, length, 43, 33],
            &(0xfd11u128 << 112 | 1).to_be_bytes(),
            &FIRST_SID.to_be_bytes(),
        ])
    };
    let wanted = octets(&[
        &header(43),
        &[41, 4, 4, 1, 1, 0, 0, 0],
        &with_args.to_be_bytes(),
        &FIRST_SID.to_be_bytes(),
        &INNER,
    ]);
    assert_eq!(
        run(Call::Ipv6, &valid6(D), &table(), 100),
        (Answer::sent(83), wanted)
    );
    let wanted = octets(&[
        &header(59),
        &[41, 6, 4, 2, 2, 0, 0, 0],
        &DI.to_be_bytes(),
        &with_args.to_be_bytes(),
        &FIRST_SID.to_be_bytes(),
        &INNER,
    ]);
    assert_eq!(
        run(Call::Ipv6, &valid6(DI), &table(), 100),
        (Answer::sent(99), wanted)
    );
}

#[test]
fn number_0_e6() {
    let packet = ipv6(43, E6, &srh(41, 1, 1, &[NOWHERE, E6], &INNER));
    let wanted = octets(&[
        &[0x6a, 0xb0, 0, 0, 0, 27, 17, 33],
        &(0xfd11u128 << 112 | 1).to_be_bytes(),
        &NOWHERE.to_be_bytes(),
        &[0x12, 0x34, 0x08, 0x68, 0, 27, 0x4c, 0xc2],
        &[
            0x34, 0xff, 0, 11, 1, 2, 3, 4, 0, 0, 0, 0x85, 1, 0x00, 0x49, 0,
        ],
        &INNER,
    ]);
    assert_eq!(
        run(Call::Ipv6, &packet, &table(), 67),
        (Answer::sent(67), wanted)
    );
}

#[test]
fn number_0_e4() {
    let mut wanted = octets(&[
        &[
            0x45, 0xab, 0, 47, 0, 0, 0x40, 0, 33, 17, 0, 0, 198, 51, 100, 7, 192, 0, 2, 1,
        ],
        &[0x12, 0x34, 0x08, 0x68, 0, 27, 0, 0],
        &[
            0x34, 0xff, 0, 11, 1, 2, 3, 4, 0, 0, 0, 0x85, 1, 0x00, 0x49, 0,
        ],
        &INNER,
    ]);
    fix_checksum(&mut wanted);
    let plain = ipv6(41, E4, &INNER);
    assert_eq!(
        run(Call::Ipv6, &plain, &table(), 47),
        (Answer::sent(47), wanted.clone())
    );
    let routed = ipv6(43, E4, &srh(41, 0, 200, &[E4], &INNER));
    assert_eq!(
        run(Call::Ipv6, &routed, &table(), 47),
        (Answer::sent(47), wanted)
    );
}

#[test]
fn number_0_waypoint() {
    let mut packet = ipv6(43, WAYPOINT, &srh(17, 2, 1, &[NOWHERE, D], &INNER));
    let (answer, sent) = run(Call::Ipv6, &packet, &table(), 200);
    packet[7] = 8;
    packet[43] = 1;
    packet[24..40].copy_from_slice(&D.to_be_bytes());
    assert_eq!((answer, sent), (Answer::sent(packet.len()), packet));
}

#[test]
fn number_0_d4() {
    let sid = 0xfc00_0005_0000_c000_0201_2601_0203_0400u128;
    let source = 0xfd22_0000_0000_0000_c633_6407_0000_0000u128;
    let direct = table_with(SessionType::Ipv6, 0).encode();
    let wanted = octets(&[
        &[0x6a, 0xb0, 0, 0, 0, 3, 41, 44],
        &source.to_be_bytes(),
        &sid.to_be_bytes(),
        &INNER,
    ]);
    assert_eq!(
        run(Call::Ipv4, &valid4(), &direct, 100),
        (Answer::sent(43), wanted)
    );
    let routed = table_with(SessionType::Ipv6, 1).encode();
    let wanted = octets(&[
        &[0x6a, 0xb0, 0, 0, 0, 43, 43, 44],
        &source.to_be_bytes(),
        &FIRST_SID.to_be_bytes(),
        &[41, 4, 4, 1, 1, 0, 0, 0],
        &sid.to_be_bytes(),
        &FIRST_SID.to_be_bytes(),
        &INNER,
    ]);
    assert_eq!(
        run(Call::Ipv4, &valid4(), &routed, 100),
        (Answer::sent(83), wanted)
    );
}

#[test]
fn number_1() {
    assert_eq!(number6(&valid6(D), &[]), 1);
    assert_eq!(number4(&valid4(), &[]), 1);
    // Before everything else.
    assert_eq!(number6(&[], &[0; 16]), 1);
}

#[test]
fn number_2() {
    let packet = valid6(D);
    assert_eq!(number6(&packet[..39], &table()), 2);
    assert_eq!(number6(&packet[..packet.len() - 1], &table()), 2);
    assert_eq!(number6(&valid4(), &table()), 2);
    assert_eq!(number4(&valid4()[..19], &table()), 2);
    assert_eq!(number4(&packet, &table()), 2);
}

#[test]
fn number_3() {
    let mut packet = valid4();
    packet[1] ^= 1;
    assert_eq!(number4(&packet, &table()), 3);
    for (octet, value, number) in [
        (6, 0x20, 3),
        (6, 0x00, 0),
        (6, 0x80, 0),
        (7, 0x01, 3),
        (6, 0x10, 3),
        (0, 0x46, 3),
        (0, 0x44, 3),
    ] {
        let mut packet = valid4();
        packet[octet] = value;
        fix_checksum(&mut packet);
        assert_eq!(
            number4(&packet, &table()),
            number,
            "octet {octet} as {value:02x}"
        );
    }
}

#[test]
fn number_4() {
    assert_eq!(number6(&valid6(NOWHERE), &table()), 4);
    assert_eq!(
        number4(&ipv4(17, [192, 0, 3, 1], &udp(&gtpu(&INNER))), &table()),
        4
    );
}

#[test]
fn number_5() {
    for destination in [WAYPOINT, D, DI, E6, E4] {
        for next_header in [0, 44, 60] {
            assert_eq!(
                number6(&ipv6(next_header, destination, &[0; 64]), &table()),
                5
            );
        }
        for next_header in [0, 43, 44, 60] {
            assert_eq!(
                number6(
                    &ipv6(43, destination, &srh(next_header, 1, 0, &[D], &[0; 64])),
                    &table()
                ),
                5
            );
        }
        let mut packet = ipv6(43, destination, &srh(41, 1, 0, &[D], &INNER));
        packet[42] = 3;
        assert_eq!(number6(&packet, &table()), 5);
        for length in 0..24 {
            let short = &srh(41, 1, 0, &[D], &[])[..length];
            assert_eq!(number6(&ipv6(43, destination, short), &table()), 5);
        }
    }
    assert_eq!(number6(&ipv6(41, E6, &INNER), &table()), 5);
}

#[test]
fn number_6() {
    for hop_limit in [0, 1] {
        let mut packet = ipv6(43, WAYPOINT, &srh(41, 1, 200, &[D], &INNER));
        packet[7] = hop_limit;
        assert_icmp(&packet, (6, 3, 0, 0));
        packet[43] = 0;
        assert_icmp(&packet, (8, 4, 4, 64));
    }
}

#[test]
fn number_7() {
    let problem = (7, 4, 0, 43);
    for destination in [D, DI, E4] {
        assert_icmp(
            &ipv6(43, destination, &srh(17, 1, 0, &[D], &udp(&gtpu(&INNER)))),
            problem,
        );
    }
    assert_icmp(&ipv6(43, E6, &srh(41, 0, 0, &[D], &INNER)), problem);
    assert_icmp(&ipv6(43, E6, &srh(41, 1, 1, &[D], &INNER)), problem);
    assert_icmp(&ipv6(43, E6, &srh(41, 1, 0, &[], &INNER)), problem);
    assert_icmp(&ipv6(43, WAYPOINT, &srh(41, 1, 1, &[D], &INNER)), problem);
    assert_icmp(
        &ipv6(43, WAYPOINT, &srh(41, 3, 1, &[D, D], &INNER)),
        problem,
    );
    assert_eq!(
        number6(
            &ipv6(43, WAYPOINT, &srh(41, 2, 1, &[D, D], &INNER)),
            &table()
        ),
        0
    );
    // LE not tested at D with SL 0.
    assert_eq!(
        number6(
            &ipv6(43, D, &srh(17, 0, 9, &[], &udp(&gtpu(&INNER)))),
            &table()
        ),
        0
    );
}

#[test]
fn number_8() {
    for destination in [D, DI] {
        assert_icmp(&ipv6(59, destination, &[]), (8, 4, 4, 40));
        let mut packet = valid6(destination);
        packet[43] = 0x69;
        assert_icmp(&packet, (8, 4, 4, 40));
        assert_icmp(
            &ipv6(43, destination, &srh(6, 0, 0, &[D], &[])),
            (8, 4, 4, 64),
        );
    }
    assert_icmp(&ipv6(43, E6, &srh(4, 1, 0, &[D], &INNER)), (8, 4, 4, 64));
    assert_icmp(&ipv6(4, E4, &INNER), (8, 4, 4, 40));
    assert_icmp(&ipv6(41, WAYPOINT, &INNER), (8, 4, 4, 40));
    assert_icmp(
        &ipv6(43, WAYPOINT, &srh(41, 0, 0, &[D], &INNER)),
        (8, 4, 4, 64),
    );
    let mut packet = valid4();
    packet[23] = 0x69;
    assert_eq!(run(Call::Ipv4, &packet, &table(), 0).0.pack(), 8);
    assert_eq!(
        run(Call::Ipv4, &ipv4(6, [192, 0, 2, 1], &INNER), &table(), 0)
            .0
            .pack(),
        8
    );
}

/// Runs the same UDP octets at D, Di and D4.
fn everywhere(datagram: &[u8]) -> [u8; 3] {
    [
        number6(&ipv6(17, D, datagram), &table()),
        number6(&ipv6(17, DI, datagram), &table()),
        number4(&ipv4(17, [192, 0, 2, 1], datagram), &table()),
    ]
}

#[test]
fn number_9() {
    let datagram = udp(&gtpu(&INNER));
    for length in 0..8 {
        assert_eq!(everywhere(&datagram[..length]), [9; 3]);
    }
    assert_eq!(everywhere(&datagram[..8]), [9; 3]);
    assert_eq!(everywhere(&octets(&[&datagram, &[0]])), [9; 3]);
}

#[test]
fn number_10() {
    for length in 0..12 {
        let mut short = gtpu(&INNER)[..length].to_vec();
        if length >= 8 {
            short[2..4].copy_from_slice(&[0, length as u8 - 8]);
        }
        assert_eq!(everywhere(&udp(&short)), [10; 3]);
    }
    for (octet, value) in [(0, 0x54), (0, 0x24), (3, 12), (3, 10)] {
        let mut packet = gtpu(&INNER);
        packet[octet] = value;
        assert_eq!(everywhere(&udp(&packet)), [10; 3]);
    }
}

#[test]
fn number_11() {
    for message_type in [254, 0, 2, 26, 31] {
        let mut packet = gtpu(&INNER);
        packet[1] = message_type;
        assert_eq!(everywhere(&udp(&packet)), [11; 3]);
    }
    // An Echo Response, whatever its flags and TEID.
    for (octet, value) in [(0, 0x32), (0, 0x31), (7, 1)] {
        let mut message = echo(octet, value);
        message[1] = 2;
        assert_eq!(everywhere(&udp(&message)), [11; 3]);
    }
}

/// TEID 0, number 1234.
const ECHO: [u8; 12] = [0x32, 1, 0, 4, 0, 0, 0, 0, 0x12, 0x34, 0, 0];

/// What is sent back to port 3039 in answer to it.
const ECHO_REPLY: [u8; 22] = [
    0x08, 0x68, 0x30, 0x39, 0, 22, 0, 0, 0x32, 2, 0, 6, 0, 0, 0, 0, 0x12, 0x34, 0, 0, 0x0e, 0,
];

/// The request with one octet changed.
fn echo(octet: usize, value: u8) -> Vec<u8> {
    let mut message = ECHO.to_vec();
    message[octet] = value;
    message
}

/// The request with octets behind it, its length right.
fn echo_with(flags: u8, next_type: u8, behind: &[u8]) -> Vec<u8> {
    let mut message = octets(&[&ECHO, behind]);
    let length = (message.len() - 8) as u16;
    message[0] = flags;
    message[2..4].copy_from_slice(&length.to_be_bytes());
    message[11] = next_type;
    message
}

fn reply6(asked: u128) -> Vec<u8> {
    let mut reply = octets(&[
        &[0x6a, 0xb0, 0, 0, 0, 22, 17, 33],
        &asked.to_be_bytes(),
        &SOURCE.to_be_bytes(),
        &ECHO_REPLY,
    ]);
    fix_udp_checksum(&mut reply);
    reply
}

fn reply4() -> Vec<u8> {
    octets(&[
        &[
            0x45, 0xab, 0, 42, 0, 0, 0x40, 0, 44, 17, 0x61, 0xdc, 192, 0, 2, 1, 198, 51, 100, 7,
        ],
        &ECHO_REPLY,
    ])
}

/// Runs the same message at D, Di, behind an SRH at both, and at D4; each has to be answered.
fn assert_echo(message: &[u8]) {
    let datagram = udp(message);
    for asked in [D, DI] {
        let routed = srh(17, 0, 9, &[NOWHERE, E6], &datagram);
        for packet in [ipv6(17, asked, &datagram), ipv6(43, asked, &routed)] {
            assert_eq!(
                run(Call::Ipv6, &packet, &table(), 62),
                (Answer::sent(62), reply6(asked))
            );
        }
    }
    assert_eq!(
        run(
            Call::Ipv4,
            &ipv4(17, [192, 0, 2, 1], &datagram),
            &table(),
            42
        ),
        (Answer::sent(42), reply4())
    );
}

#[test]
fn number_0_echo() {
    assert_echo(&ECHO);
    for message in [
        // PN, the spare bit; N-PDU number and next type without their flags.
        echo(0, 0x33),
        echo(0, 0x3a),
        echo(10, 0xff),
        echo(11, 0x85),
        // E: no extension, one that is not there, one of 0 units, of another type, a container.
        echo(0, 0x36),
        echo_with(0x36, 0x85, &[]),
        echo_with(0x36, 0x85, &[0, 0, 0, 0]),
        echo_with(0x37, 0x40, &[1, 0, 0, 0]),
        echo_with(0x36, 0x85, &[1, 0x10, 9, 0x85, 255]),
        // Elements: Recovery, a Private Extension.
        echo_with(0x32, 0, &[0x0e, 7]),
        echo_with(0x32, 0, &[255, 0, 3, 0, 1, 9]),
        echo_with(0x32, 0, &[0x45; 300]),
    ] {
        assert_echo(&message);
    }
}

#[test]
fn echo_to_any_port_with_any_number() {
    for port in [0u16, 2152, 0x3039, 65_535] {
        for number in [0u16, 0x00ff, 0xff00, 65_535] {
            let mut message = ECHO;
            message[8..10].copy_from_slice(&number.to_be_bytes());
            let mut datagram = udp(&message);
            datagram[..2].copy_from_slice(&port.to_be_bytes());
            let (answer, sent) = run(Call::Ipv6, &ipv6(17, D, &datagram), &table(), 100);
            let mut wanted = reply6(D);
            wanted[42..44].copy_from_slice(&port.to_be_bytes());
            wanted[56..58].copy_from_slice(&number.to_be_bytes());
            fix_udp_checksum(&mut wanted);
            assert_eq!((answer, sent), (Answer::sent(62), wanted));
            let packet = ipv4(17, [192, 0, 2, 1], &datagram);
            let (answer, sent) = run(Call::Ipv4, &packet, &table(), 100);
            let mut wanted = reply4();
            wanted[22..24].copy_from_slice(&port.to_be_bytes());
            wanted[36..38].copy_from_slice(&number.to_be_bytes());
            assert_eq!((answer, sent), (Answer::sent(42), wanted));
        }
    }
}

#[test]
fn number_17() {
    let without_s = [0x30, 1, 0, 0, 0, 0, 0, 0];
    let mut requests = vec![without_s.to_vec(), echo(0, 0x31), echo(0, 0x34)];
    requests.extend([4, 5, 6, 7].map(|octet| echo(octet, 1)));
    requests.extend([4, 5, 6, 7].map(|octet| echo(octet, 0x80)));
    // Both; and with what row 12 would refuse.
    requests.push([&[0x30, 1, 0, 0, 0, 0, 0, 9], &[][..]].concat());
    requests.push(echo_with(0x34, 0x40, &[0; 4]));
    for message in requests {
        let datagram = udp(&message);
        assert_eq!(everywhere(&datagram), [17; 3]);
        // Before 16, and with no ICMP and no length.
        for asked in [D, DI] {
            let packet = ipv6(17, asked, &datagram);
            assert_eq!(run(Call::Ipv6, &packet, &table(), 0).0.pack(), 17);
        }
        let packet = ipv4(17, [192, 0, 2, 1], &datagram);
        assert_eq!(run(Call::Ipv4, &packet, &table(), 0).0.pack(), 17);
    }
}

#[test]
fn echo_is_never_15() {
    let request = |flags, length| udp(&echo_with(flags, 0, &vec![0x60; length - 12]));
    // The shortest messages that are 15 as G-PDUs.
    for (asked, length) in [(D, 16 + 65_496), (DI, 16 + 65_480)] {
        let user = udp(&gtpu(&vec![0x60; length - 16]));
        assert_eq!(number6(&ipv6(17, asked, &user), &table()), 15);
        let packet = ipv6(17, asked, &request(0x32, length));
        let replied = (Answer::sent(62), reply6(asked));
        assert_eq!(run(Call::Ipv6, &packet, &table(), 62), replied);
        let packet = ipv6(17, asked, &request(0x31, length));
        assert_eq!(number6(&packet, &table()), 17);
    }
    let length = 16 + 65_480;
    let to_rule = |datagram: &[u8]| ipv4(17, [192, 0, 2, 1], datagram);
    let user = udp(&gtpu(&vec![0x60; length - 16]));
    assert_eq!(number4(&to_rule(&user), &table()), 15);
    let packet = to_rule(&request(0x32, length));
    let replied = (Answer::sent(42), reply4());
    assert_eq!(run(Call::Ipv4, &packet, &table(), 42), replied);
    assert_eq!(number4(&to_rule(&request(0x31, length)), &table()), 17);
}

#[test]
fn echo_before_17() {
    // 8 and 9, also of one that would be 17.
    for message in [&ECHO[..], &[0x30, 1, 0, 0, 0, 0, 0, 0]] {
        let mut datagram = udp(message);
        datagram[3] = 0x69;
        assert_eq!(everywhere(&datagram), [8; 3]);
        let mut datagram = udp(message);
        datagram[5] += 1;
        assert_eq!(everywhere(&datagram), [9; 3]);
    }
    // 10: four octets more that are not there, version, PT, length.
    for flags in [0x31, 0x32, 0x34, 0x37] {
        for length in 8..12 {
            let mut short = echo(0, flags);
            short.truncate(length);
            short[3] = length as u8 - 8;
            assert_eq!(everywhere(&udp(&short)), [10; 3]);
        }
    }
    for message in [echo(0, 0x52), echo(0, 0x22), echo(3, 3), echo(3, 5)] {
        assert_eq!(everywhere(&udp(&message)), [10; 3]);
    }
    // 7, with the pointer of an SRH.
    assert_icmp(
        &ipv6(43, D, &srh(17, 1, 0, &[D], &udp(&ECHO))),
        (7, 4, 0, 43),
    );
}

#[test]
fn echo_and_16() {
    for (room, number) in [(0, 16), (61, 16), (62, 0), (63, 0)] {
        for asked in [D, DI] {
            let packet = ipv6(17, asked, &udp(&ECHO));
            assert_eq!(run(Call::Ipv6, &packet, &table(), room).0.number, number);
        }
    }
    for (room, number) in [(0, 16), (41, 16), (42, 0), (43, 0)] {
        let packet = ipv4(17, [192, 0, 2, 1], &udp(&ECHO));
        assert_eq!(run(Call::Ipv4, &packet, &table(), room).0.number, number);
    }
}

#[test]
fn echo_at_the_other_kinds() {
    for message in [ECHO, [0x32, 1, 0, 4, 0, 0, 0, 1, 0x12, 0x34, 0, 0]] {
        let datagram = udp(&message);
        assert_icmp(&ipv6(17, WAYPOINT, &datagram), (8, 4, 4, 40));
        assert_icmp(&ipv6(17, E4, &datagram), (8, 4, 4, 40));
        assert_eq!(number6(&ipv6(17, E6, &datagram), &table()), 5);
        let routed = |segments_left| srh(17, segments_left, 0, &[NOWHERE], &datagram);
        assert_icmp(&ipv6(43, WAYPOINT, &routed(0)), (8, 4, 4, 64));
        assert_icmp(&ipv6(43, E4, &routed(0)), (8, 4, 4, 64));
        assert_icmp(&ipv6(43, E6, &routed(1)), (8, 4, 4, 64));
        let mut packet = ipv6(43, WAYPOINT, &routed(1));
        let (answer, sent) = run(Call::Ipv6, &packet, &table(), 200);
        packet[7] = 8;
        packet[43] = 0;
        packet[24..40].copy_from_slice(&NOWHERE.to_be_bytes());
        assert_eq!((answer, sent), (Answer::sent(packet.len()), packet));
    }
}

#[test]
fn number_12() {
    for (octet, value) in [(11, 0x40), (12, 0), (12, 2), (15, 0x40), (15, 0x85)] {
        let mut packet = gtpu(&INNER);
        packet[octet] = value;
        assert_eq!(everywhere(&udp(&packet)), [12; 3]);
    }
}

#[test]
fn number_13() {
    for (octet, value) in [
        (11, 0),
        (0, 0x32),
        (0, 0x31),
        (0, 0x30),
        (13, 0x10),
        (13, 0x20),
        (13, 0xf0),
    ] {
        let mut packet = gtpu(&INNER);
        packet[octet] = value;
        assert_eq!(everywhere(&udp(&packet)), [13; 3]);
    }
    assert_eq!(everywhere(&udp(&gtpu(&INNER))), [0; 3]);
}

#[test]
fn number_14() {
    let table = table_with(SessionType::Ipv4v6, 1).encode();
    for (inner, number) in [
        (&[][..], 14),
        (&[0x50], 14),
        (&[0x40], 0),
        (&[0x60], 0),
        (&[0x06], 14),
    ] {
        let datagram = udp(&gtpu(inner));
        assert_eq!(number6(&ipv6(17, D, &datagram), &table), number);
        assert_eq!(number6(&ipv6(17, DI, &datagram), &table), number);
        assert_eq!(
            number4(&ipv4(17, [192, 0, 2, 1], &datagram), &table),
            number
        );
    }
    let (_, sent) = run(Call::Ipv6, &ipv6(17, D, &udp(&gtpu(&[0x4f]))), &table, 200);
    assert_eq!(sent[40], 4);
    // Not examined at E4.
    assert_eq!(number6(&ipv6(4, E4, &[]), &table), 0);
    assert_eq!(number6(&ipv6(41, E4, &[0x50]), &table), 0);
    assert_eq!(number6(&ipv6(143, E4, &[0x50]), &table), 8);
}

#[test]
fn number_15() {
    let inner = |length: usize| vec![0x60; length];
    let d = |length| number6(&ipv6(17, D, &udp(&gtpu(&inner(length)))), &table());
    assert_eq!((d(65_495), d(65_496)), (0, 15));
    let di = |length| number6(&ipv6(17, DI, &udp(&gtpu(&inner(length)))), &table());
    assert_eq!((di(65_479), di(65_480)), (0, 15));
    let d4 = |length| {
        number4(
            &ipv4(17, [192, 0, 2, 1], &udp(&gtpu(&inner(length)))),
            &table(),
        )
    };
    assert_eq!((d4(65_479), d4(65_480)), (0, 15));
    let e4 = |length| number6(&ipv6(41, E4, &inner(length)), &table());
    assert_eq!((e4(65_491), e4(65_492), e4(65_535)), (0, 15, 15));
    // Before 16.
    let longest = ipv6(17, D, &udp(&gtpu(&inner(65_496))));
    assert_eq!(run(Call::Ipv6, &longest, &table(), 0).0.number, 15);
}

#[test]
fn number_16() {
    let waypoint = ipv6(43, WAYPOINT, &srh(41, 1, 0, &[D], &INNER));
    let e6 = ipv6(43, E6, &srh(41, 1, 0, &[D], &INNER));
    for (packet, exact) in [
        (valid6(D), 83),
        (valid6(DI), 99),
        (waypoint, 67),
        (e6, 67),
        (ipv6(41, E4, &INNER), 47),
    ] {
        for (room, number) in [(0, 16), (exact - 1, 16), (exact, 0), (exact + 1, 0)] {
            assert_eq!(run(Call::Ipv6, &packet, &table(), room).0.number, number);
        }
    }
    for (room, number) in [(0, 16), (98, 16), (99, 0), (100, 0)] {
        assert_eq!(run(Call::Ipv4, &valid4(), &table(), room).0.number, number);
    }
}

/// A G-PDU of even and one of odd length, and an Echo Request, at D and Di, each also behind an SRH.
fn arriving() -> Vec<Vec<u8>> {
    let messages = [gtpu(&INNER), gtpu(&INNER[..2]), ECHO.to_vec()];
    let mut packets = Vec::new();
    for asked in [D, DI] {
        for message in &messages {
            let datagram = udp(message);
            packets.push(ipv6(17, asked, &datagram));
            let routed = srh(17, 0, 9, &[NOWHERE, E6], &datagram);
            packets.push(ipv6(43, asked, &routed));
        }
    }
    packets
}

fn with_checksum(packet: &[u8], checksum: u16) -> Vec<u8> {
    let mut packet = packet.to_vec();
    let at = udp_at(&packet).unwrap();
    set16(&mut packet, at + 6, checksum);
    packet
}

/// Both tables, the second allows 0.
fn strict_and_lenient(packet: &[u8]) -> [u8; 2] {
    let room = packet.len() + 100;
    [table(), lenient()].map(|table| run(Call::Ipv6, packet, &table, room).0.number)
}

#[test]
fn number_18() {
    for packet in arriving() {
        assert_eq!(strict_and_lenient(&packet), [0, 0]);
        assert_eq!(strict_and_lenient(&with_checksum(&packet, 0)), [18, 0]);
        assert_eq!(
            strict_and_lenient(&with_checksum(&packet, 0xffff)),
            [18, 18]
        );
        // No ICMP, no length; also without room.
        let wrong = with_checksum(&packet, 0);
        assert_eq!(run(Call::Ipv6, &wrong, &table(), 0).0.pack(), 18);
    }
}

/// Each bit of the source, of the destination behind its prefix, of the source port and of all that
/// follows the length.
#[test]
fn number_18_each_bit() {
    for packet in arriving() {
        let at = udp_at(&packet).unwrap();
        let covered = (8..24).chain(28..40).chain([at, at + 1]);
        for octet in covered.chain(at + 6..packet.len()) {
            for bit in 0..8 {
                let mut wrong = packet.clone();
                wrong[octet] ^= 1 << bit;
                assert_eq!(strict_and_lenient(&wrong), [18, 18], "octet {octet}");
            }
        }
        // Not covered: traffic class, flow label, hop limit, what an SRH holds.
        let free = [1, 2, 3, 7].into_iter().chain(45..at);
        for octet in free {
            let mut other = packet.clone();
            other[octet] ^= 0x0f;
            assert_eq!(strict_and_lenient(&other), [0, 0], "octet {octet}");
        }
    }
}

/// One field of all is right, and 0 where it is allowed.
#[test]
fn number_18_each_field() {
    for packet in arriving().into_iter().take(2) {
        let right = get16(&packet, udp_at(&packet).unwrap() + 6);
        for field in 0..=u16::MAX {
            let wanted = match field {
                0 => [18, 0],
                _ if field == right => [0, 0],
                _ => [18, 18],
            };
            let packet = with_checksum(&packet, field);
            assert_eq!(strict_and_lenient(&packet), wanted, "field {field:04x}");
        }
    }
}

/// The source port that makes 0 the computed one.
#[test]
fn number_18_and_ffff() {
    for mut packet in arriving() {
        let at = udp_at(&packet).unwrap();
        let sum = u32::from(get16(&packet, at)) + u32::from(get16(&packet, at + 6));
        set16(&mut packet, at, (sum % 65_535) as u16);
        fix_udp_checksum(&mut packet);
        assert_eq!(get16(&packet, at + 6), 0xffff);
        assert_eq!(strict_and_lenient(&packet), [0, 0]);
        assert_eq!(strict_and_lenient(&with_checksum(&packet, 0)), [18, 0]);
        for field in [1, 0xfffe, 0x7fff, 0xff00] {
            assert_eq!(strict_and_lenient(&with_checksum(&packet, field)), [18, 18]);
        }
    }
}

/// Behind 9 and before 10: with each later row, and with 8 and 9.
#[test]
fn the_place_of_18() {
    let of_ipv4v6 = table_with(SessionType::Ipv4v6, 2).encode();
    let changed = |octet: usize, value: u8| {
        let mut message = gtpu(&INNER);
        message[octet] = value;
        message
    };
    let later = [
        (changed(0, 0x54), 10),
        (changed(1, 254), 11),
        (changed(11, 0x40), 12),
        (changed(13, 0x10), 13),
        (gtpu(&[0x50]), 14),
        (gtpu(&vec![0x60; 65_496]), 15),
        (echo(7, 1), 17),
    ];
    for asked in [D, DI] {
        for (message, number) in &later {
            let right = ipv6(17, asked, &udp(message));
            let wrong = with_checksum(&right, 0xffff);
            let (zero, table) = (with_checksum(&right, 0), &of_ipv4v6);
            assert_eq!(number6(&right, table), *number);
            assert_eq!(number6(&wrong, table), 18);
            assert_eq!(number6(&zero, table), 18);
        }
        let right = valid6(asked);
        assert_eq!(run(Call::Ipv6, &right, &table(), 0).0.number, 16);
        let wrong = with_checksum(&right, 1);
        assert_eq!(run(Call::Ipv6, &wrong, &table(), 0).0.number, 18);
        for (octet, value, number) in [(43, 0x69, 8), (45, 28, 9), (45, 26, 9)] {
            let mut wrong = with_checksum(&right, 0);
            wrong[octet] = value;
            assert_eq!(number6(&wrong, &table()), number);
        }
        for length in 0..8 {
            assert_eq!(number6(&ipv6(17, asked, &[0; 8][..length]), &table()), 9);
        }
        // 7, of an SRH before it.
        let routed = srh(17, 1, 0, &[D], &udp(&gtpu(&INNER)));
        let wrong = with_checksum(&ipv6(43, asked, &routed), 1);
        assert_icmp(&wrong, (7, 4, 0, 43));
    }
}

/// Every checksum passes at D4, and E4 and a reply over IPv4 write 0.
#[test]
fn no_18_over_ipv4() {
    for field in [0, 1, 0xdead, 0xffff] {
        for (message, length) in [(gtpu(&INNER), 99), (ECHO.to_vec(), 42)] {
            let mut datagram = udp(&message);
            set16(&mut datagram, 6, field);
            let packet = ipv4(17, [192, 0, 2, 1], &datagram);
            let (answer, sent) = run(Call::Ipv4, &packet, &table(), 100);
            assert_eq!(answer, Answer::sent(length));
            assert!(length != 42 || sent[26..28] == [0; 2]);
        }
    }
}

/// What E6 writes: right for every length, for ones and zeros, and FFFF for 0; taken at D and Di.
#[test]
fn what_e6_writes_is_right() {
    let at_e6 = |inner: &[u8], destination: u128, number: u8| {
        let packet = ipv6(43, E6, &srh(41, 1, 1, &[destination, E6], inner));
        let (answer, sent) = run(Call::Ipv6, &packet, &table(), 70_000);
        assert_eq!(answer, Answer::sent(64 + inner.len()));
        let mut fixed = sent.clone();
        fix_udp_checksum(&mut fixed);
        assert_eq!(sent, fixed);
        assert_eq!(number6(&sent, &table()), number);
        get16(&sent, 46)
    };
    for length in [0, 1, 2, 3, 64, 65, 65_478, 65_479, 65_480, 65_487] {
        let too_long = if length > 65_479 { 15 } else { 0 };
        for octet in [0, 1, 0x60, 0xff] {
            let inner = vec![octet; length];
            assert_ne!(at_e6(&inner, DI, too_long), 0);
            assert_ne!(at_e6(&inner, D, 0), 0);
        }
    }
    for destination in [D, DI] {
        let checksum = at_e6(&INNER[..2], destination, 0);
        let word = (0x60aa + u32::from(checksum)) % 65_535;
        let inner = (word as u16).to_be_bytes();
        assert_eq!(at_e6(&inner, destination, 0), 0xffff);
    }
}

#[test]
fn the_mark_of_octet_9() {
    let good = table();
    for (entry, kind) in [1, 69, 70, 71, 72].into_iter().enumerate() {
        for mark in 0..=255 {
            let mut octets = good.clone();
            octets[16 + 64 * entry + 9] = mark;
            let marked = matches!(kind, 69 | 70);
            let sound = mark == 0 || marked && mark == 1;
            let number = if sound { 0 } else { 1 };
            assert_eq!(number6(&valid6(D), &octets), number, "{kind}: {mark}");
            let condition = match (sound, marked) {
                (true, _) => 0,
                (false, true) => 0x20f | (entry as u64) << 16,
                (false, false) => 0x20d | (entry as u64) << 16,
            };
            assert_eq!(second::fault::fault(&octets), condition, "{kind}: {mark}");
        }
    }
    // Behind the entry's other conditions, before a prefix that occurs twice.
    let mut octets = good.clone();
    octets[16 + 64 + 9] = 2;
    octets.copy_within(16 + 64 + 16..16 + 64 + 32, 16 + 128 + 16);
    assert_eq!(second::fault::fault(&octets), 0x1_020f);
    octets[16 + 64 + 5] = 1;
    assert_eq!(second::fault::fault(&octets), 0x1_0207);
    octets[16 + 64 + 5] = 0;
    octets[16 + 64 + 9] = 1;
    assert_eq!(second::fault::fault(&octets), 0x2_020e);
}
