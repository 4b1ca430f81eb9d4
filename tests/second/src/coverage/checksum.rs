//! What UDP checksums met (order 2): those that arrive, by the kind and without and with an SRH before
//! them, and those that are written. What is right is found as the generator finds it.

use crate::answer::Answer;
use crate::edges::{self, edge, Edge};
use crate::generate::checksum::{self, DESTINATION_BIT, PAYLOAD_BIT, PORT_BIT, SOURCE_BIT};
use crate::generate::{Call, Case, Kind};
use crate::gtpu::{ECHO_REQUEST, ECHO_RESPONSE};
use crate::ipv4::Ipv4Packet;
use crate::ipv6::{next_header, HeaderChain, Ipv6Packet};
use crate::table::{Behaviour, Table};
use crate::tally::{Shape, Tally};
use crate::udp::GTPU_PORT;

pub static SHAPE: Shape = Shape {
    corner: "UDP checksum",
    lines: &edges::names::<_, { EDGES.len() }>(EDGES),
    columns: &["waypoint", "D", "D SRH", "Di", "Di SRH", "E6", "E4", "D4"],
    can_occur: |line, column| edges::can_occur(EDGES, line, column),
};

/// Those that verify, and the others one by one.
const IN: &[&str] = &["D", "D SRH", "Di", "Di SRH"];
const E6: &[&str] = &["E6"];
const E4: &[&str] = &["E4"];
const D4: &[&str] = &["D4"];
const WAYPOINT: &[&str] = &["waypoint"];

/// Longer than any datagram that is not meant to be long.
const LONG: usize = 60_000;

type Test = fn(&View) -> bool;

const EDGES: &[Edge<Test>] = &[
    edge("right", IN, |v| v.passed() && v.is_right()),
    edge("right, 0 allowed", IN, |v| {
        v.passed() && v.is_right() && v.allowed
    }),
    edge("right, odd length", IN, |v| {
        v.passed() && v.is_right() && v.is_odd()
    }),
    edge("right, even length", IN, |v| {
        v.passed() && v.is_right() && v.is_even()
    }),
    edge("right, eight octets", IN, |v| {
        v.passed() && v.is_right() && v.datagram.len() == 8
    }),
    edge("right, long and all ones inside", IN, |v| {
        v.passed() && v.is_right() && is_all_ones(v.datagram)
    }),
    edge("right, FFFF for 0", IN, |v| {
        v.passed() && v.is_right() && v.field == 0xffff && !v.allowed
    }),
    edge("right, FFFF for 0, 0 allowed", IN, |v| {
        v.passed() && v.is_right() && v.field == 0xffff && v.allowed
    }),
    edge("0 allowed", IN, |v| v.passed() && v.field == 0),
    edge("0 allowed, 0 computed", IN, |v| {
        v.passed() && v.field == 0 && v.right == 0xffff
    }),
    edge("18, 0 not allowed", IN, |v| v.is(18) && v.field == 0),
    edge("18, 0 not allowed, 0 computed", IN, |v| {
        v.is(18) && v.field == 0 && v.right == 0xffff
    }),
    edge("18, wrong", IN, |v| v.is_wrong() && !v.allowed),
    edge("18, wrong, 0 allowed", IN, |v| v.is_wrong() && v.allowed),
    edge("18, wrong, odd length", IN, |v| v.is_wrong() && v.is_odd()),
    edge("18, wrong, even length", IN, |v| {
        v.is_wrong() && v.is_even()
    }),
    edge("18, FFFF, not 0 computed", IN, |v| {
        v.is_wrong() && v.field == 0xffff && !v.allowed
    }),
    edge("18, FFFF, not 0 computed, 0 allowed", IN, |v| {
        v.is_wrong() && v.field == 0xffff && v.allowed
    }),
    edge("18, not FFFF, 0 computed", IN, |v| {
        v.is_wrong() && v.right == 0xffff
    }),
    edge("18, one too much", IN, |v| v.is_off_by(1)),
    edge("18, one too little", IN, |v| v.is_off_by(0xffff)),
    edge("18, bit 0 of the field", IN, |v| v.is_turned(0)),
    edge("18, bit 1 of the field", IN, |v| v.is_turned(1)),
    edge("18, bit 2 of the field", IN, |v| v.is_turned(2)),
    edge("18, bit 3 of the field", IN, |v| v.is_turned(3)),
    edge("18, bit 4 of the field", IN, |v| v.is_turned(4)),
    edge("18, bit 5 of the field", IN, |v| v.is_turned(5)),
    edge("18, bit 6 of the field", IN, |v| v.is_turned(6)),
    edge("18, bit 7 of the field", IN, |v| v.is_turned(7)),
    edge("18, bit 8 of the field", IN, |v| v.is_turned(8)),
    edge("18, bit 9 of the field", IN, |v| v.is_turned(9)),
    edge("18, bit 10 of the field", IN, |v| v.is_turned(10)),
    edge("18, bit 11 of the field", IN, |v| v.is_turned(11)),
    edge("18, bit 12 of the field", IN, |v| v.is_turned(12)),
    edge("18, bit 13 of the field", IN, |v| v.is_turned(13)),
    edge("18, bit 14 of the field", IN, |v| v.is_turned(14)),
    edge("18, bit 15 of the field", IN, |v| v.is_turned(15)),
    edge("18, a bit of the source", IN, |v| v.is_after(SOURCE_BIT)),
    edge("18, a bit of the destination", IN, |v| {
        v.is_after(DESTINATION_BIT)
    }),
    edge("18, a bit of the source port", IN, |v| v.is_after(PORT_BIT)),
    edge("18, a bit of the payload", IN, |v| v.is_after(PAYLOAD_BIT)),
    edge("18, else sent", IN, |v| v.is_before(0)),
    edge("18, else 10", IN, |v| v.is_before(10)),
    edge("18, else 11", IN, |v| v.is_before(11)),
    edge("18, else 12", IN, |v| v.is_before(12)),
    edge("18, else 13", IN, |v| v.is_before(13)),
    edge("18, else 14", IN, |v| v.is_before(14)),
    edge("18, else 15", IN, |v| v.is_before(15)),
    edge("18, else 16", IN, |v| v.is_before(16)),
    edge("18, else 17", IN, |v| v.is_before(17)),
    edge("8, another port, checksum wrong", IN, |v| {
        v.is(8) && v.port != GTPU_PORT && v.differs()
    }),
    edge("8, another port, 0 not allowed", IN, |v| {
        v.is(8) && v.port != GTPU_PORT && v.field == 0 && !v.allowed
    }),
    edge("9, another length, checksum wrong", IN, |v| {
        v.is(9) && v.differs()
    }),
    edge("9, another length, 0 not allowed", IN, |v| {
        v.is(9) && v.field == 0 && !v.allowed
    }),
    edge("Echo Request, right", IN, |v| {
        v.is_answered() && v.is_right()
    }),
    edge("Echo Request, 0 allowed", IN, |v| {
        v.is_answered() && v.field == 0
    }),
    edge("Echo Request, 18, wrong", IN, |v| {
        v.is_wrong() && v.is_echo()
    }),
    edge("Echo Request, 18, 0 not allowed", IN, |v| {
        v.is(18) && v.field == 0 && v.is_echo()
    }),
    edge("Echo Response, FFFF for 0", IN, |v| {
        v.is_answered() && v.writes_ffff()
    }),
    edge("written, odd length", E6, |v| {
        v.writes(true) && v.case.sent.last() != Some(&0)
    }),
    edge("written, even length", E6, |v| v.writes(false)),
    edge("written, nothing inside", E6, |v| {
        v.is(0) && v.case.sent.len() == 64
    }),
    edge("written, long and all ones inside", E6, |v| {
        v.is(0) && is_all_ones(v.sent(40, v.case.sent.len()))
    }),
    edge("written, FFFF for 0", E6, |v| v.writes_ffff()),
    edge("written as 0", E4, |v| v.is(0) && v.sent(26, 28) == [0; 2]),
    edge("0 is not examined", D4, |v| v.is(0) && v.field == 0),
    edge("another is not examined", D4, |v| v.is(0) && v.field != 0),
    edge("Echo Response, 0", D4, |v| {
        v.is(0) && v.is_echo() && v.sent(26, 28) == [0; 2]
    }),
    edge("sent on, wrong or 0", WAYPOINT, |v| {
        v.is(0) && v.datagram.len() >= 10 && !v.is_right()
    }),
];

/// A case with the UDP that it holds, or none.
struct View<'a> {
    case: &'a Case,
    answer: Answer,
    /// Whether the entry allows 0.
    allowed: bool,
    /// UDP and all that follows, eight octets at the least, or nothing.
    datagram: &'a [u8],
    port: u16,
    field: u16,
    /// What is right over IPv6.
    right: u16,
    /// Where 18 was answered: the answer with a right one.
    otherwise: u8,
}

fn is_all_ones(datagram: &[u8]) -> bool {
    datagram.len() > LONG
        && datagram[datagram.len() - LONG + 100..]
            .iter()
            .all(|&o| o == 0xff)
}

/// With another checksum.
fn answer_with(case: &Case, checksum: u16, start: usize) -> u8 {
    let mut packet = case.packet.clone();
    packet[start + 6..start + 8].copy_from_slice(&checksum.to_be_bytes());
    let mut out = vec![0; case.room];
    case.call.run(&packet, &case.table, &mut out).number
}

impl<'a> View<'a> {
    /// With its column.
    fn of(case: &'a Case, answer: Answer) -> Option<(Self, &'static str)> {
        let (datagram, routed) = match case.call {
            Call::Ipv6 => {
                let packet = Ipv6Packet::parse(&case.packet).ok()?;
                let chain = HeaderChain::parse(&packet).ok()?;
                let is_udp = chain.protocol == next_header::UDP;
                let datagram = if is_udp { chain.upper } else { &[] };
                (datagram, chain.srh.is_some())
            }
            Call::Ipv4 => (Ipv4Packet::parse(&case.packet).ok()?.payload, false),
        };
        let datagram = if datagram.len() < 8 { &[] } else { datagram };
        let read16 = |at: usize| match datagram.get(at..at + 2) {
            Some(&[high, low]) => u16::from_be_bytes([high, low]),
            _ => 0,
        };
        let over_ipv6 = case.call == Call::Ipv6 && !datagram.is_empty();
        let right = match over_ipv6 {
            true => checksum::right(&case.packet[8..40], datagram),
            false => 0,
        };
        let start = case.packet.len() - datagram.len();
        let otherwise = match answer.number {
            18 if over_ipv6 => answer_with(case, right, start),
            number => number,
        };
        let column = match (case.kind, routed) {
            (Kind::D, true) => "D SRH",
            (Kind::Di, true) => "Di SRH",
            (kind, _) => kind.name(),
        };
        let view = View {
            case,
            answer,
            allowed: allowed(case),
            datagram,
            port: read16(2),
            field: read16(6),
            right,
            otherwise,
        };
        Some((view, column))
    }

    /// Octets that should be sent; none where they are not there.
    fn sent(&self, from: usize, to: usize) -> &'a [u8] {
        self.case.sent.get(from..to).unwrap_or(&[])
    }

    fn is(&self, number: u8) -> bool {
        self.answer.number == number
    }

    /// Whether row 18 was passed.
    fn passed(&self) -> bool {
        matches!(self.answer.number, 0 | 10..=17)
    }

    fn is_right(&self) -> bool {
        self.field == self.right
    }

    /// Whether it would be wrong, were it asked.
    fn differs(&self) -> bool {
        !self.datagram.is_empty() && self.field != 0 && !self.is_right()
    }

    fn is_wrong(&self) -> bool {
        self.is(18) && self.differs()
    }

    /// Whether the last octet has no partner, and is not 0, which would be the same in either half.
    fn is_odd(&self) -> bool {
        self.datagram.len() % 2 == 1 && self.datagram.last() != Some(&0)
    }

    fn is_even(&self) -> bool {
        self.datagram.len().is_multiple_of(2)
    }

    fn is_off_by(&self, difference: u16) -> bool {
        self.is_wrong() && self.field == self.right.wrapping_add(difference)
    }

    /// Whether this bit alone is wrong, 0 being the highest.
    fn is_turned(&self, bit: u32) -> bool {
        self.is_wrong() && self.field ^ self.right == 0x8000 >> bit
    }

    fn is_after(&self, note: &str) -> bool {
        self.is_wrong() && self.case.notes.contains(&note)
    }

    /// Whether this would be answered with a right checksum.
    fn is_before(&self, number: u8) -> bool {
        self.is_wrong() && self.otherwise == number
    }

    fn is_echo(&self) -> bool {
        self.datagram.get(9) == Some(&ECHO_REQUEST)
    }

    fn is_answered(&self) -> bool {
        let sent = &self.case.sent;
        self.is(0) && self.is_echo() && sent.get(49) == Some(&ECHO_RESPONSE)
    }

    /// Whether E6 wrote a datagram of such a length.
    fn writes(&self, odd: bool) -> bool {
        self.is(0) && (self.case.sent.len() % 2 == 1) == odd
    }

    fn writes_ffff(&self) -> bool {
        self.is(0) && self.sent(46, 48) == [0xff; 2]
    }
}

/// Whether 0 is allowed where the packet goes.
fn allowed(case: &Case) -> bool {
    let table = Table::decode(&case.table).ok();
    let packet = Ipv6Packet::parse(&case.packet).ok();
    let behaviour = table.zip(packet).and_then(|(table, packet)| {
        let entry = table.entry_for(packet.destination).ok()?;
        Some(entry.behaviour)
    });
    match behaviour {
        Some(Behaviour::D(inbound) | Behaviour::Di(inbound)) => inbound.zero_checksum,
        _ => false,
    }
}

/// Counts a case by what was answered.
pub fn add(tally: &mut Tally, case: &Case, answer: Answer) {
    if let Some((view, column)) = View::of(case, answer) {
        edges::add(tally, EDGES, column, |met| met(&view));
    }
}
