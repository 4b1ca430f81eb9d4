//! What packets for ICMPv6 messages met: edges by the kind, without and with an SRH, of those that the
//! IPv6 call answers with 6, 7 or 8; and how often it gave each number at each kind. A message that was
//! built is read back here, apart from the rule that is judged.

use super::cases::{self, said, IcmpCase, Origin};
use crate::answer::Answer;
use crate::edges::{self, edge, Edge};
use crate::generate::checksum::remainder;
use crate::generate::{Call, Kind};
use crate::table::{Entry, Table};
use crate::tally::{Shape, Tally};
use std::fmt;

static MET: Shape = Shape {
    corner: "ICMPv6 message",
    lines: &edges::names::<_, { EDGES.len() }>(EDGES),
    columns: ALL,
    can_occur: |line, column| edges::can_occur(EDGES, line, column),
};

/// What the IPv6 call answers with the same room; of packets for which none is due for that alone, where it
/// is none of 6, 7 and 8.
static NUMBERS: Shape = Shape {
    corner: "IPv6 call",
    lines: &[
        "0", "1", "2", "3", "4", "5", "6", "7", "8", "9", "10", "11", "12", "13", "14", "15", "16",
        "17", "18",
    ],
    columns: &["waypoint", "D", "Di", "E6", "E4", "IPv4"],
    can_occur: |line, column| {
        let numbers = Kind::from_name(column).map_or(OF_IPV4, Kind::numbers);
        line.parse().is_ok_and(|number| numbers.contains(&number))
    },
};

/// The numbers of packets that are none for the IPv6 call.
const OF_IPV4: &[u8] = &[1, 2];

/// At E6 nothing goes on without an SRH.
const ALL: &[&str] = &[
    "waypoint",
    "waypoint SRH",
    "D",
    "D SRH",
    "Di",
    "Di SRH",
    "E6 SRH",
    "E4",
    "E4 SRH",
];
const PLAIN: &[&str] = &["waypoint", "D", "Di", "E4"];
const ROUTED: &[&str] = &["waypoint SRH", "D SRH", "Di SRH", "E6 SRH", "E4 SRH"];
const WAYPOINT: &[&str] = &["waypoint SRH"];
/// Where SL is right before the upper layer is looked at.
const ENDS: &[&str] = &["D SRH", "Di SRH", "E6 SRH", "E4 SRH"];
/// Where an SRH that holds no segment may be right.
const EMPTY: &[&str] = &["waypoint SRH", "D SRH", "Di SRH", "E4 SRH"];

type Test = fn(&View) -> bool;

const EDGES: &[Edge<Test>] = &[
    edge("6, built", WAYPOINT, |v| v.is(6) && v.built()),
    edge("6, built, hop limit 0", WAYPOINT, |v| {
        v.is(6) && v.built() && v.packet()[7] == 0
    }),
    edge("6, built, else 7", WAYPOINT, |v| {
        v.is(6) && v.built() && v.with(7, 2) == 7
    }),
    edge("6, built, else sent", WAYPOINT, |v| {
        v.is(6) && v.built() && matches!(v.with(7, 2), 0 | 16)
    }),
    edge("7, built", ROUTED, |v| v.is(7) && v.built()),
    edge("7, built, else 8", ENDS, |v| {
        v.is(7) && v.built() && v.with(43, v.right_segments_left()) == 8
    }),
    edge("8, built", ALL, |v| v.is(8) && v.built()),
    edge("built, room just enough", ALL, |v| {
        v.built() && v.case.room == v.case.sent.len()
    }),
    edge("built, room for one octet more", ALL, |v| {
        v.built() && v.case.room == v.case.sent.len() + 1
    }),
    edge("built, room for 1,280", ALL, |v| {
        v.built() && v.case.room >= 1_280 && v.case.sent.len() < 1_280
    }),
    edge("16, one octet short", ALL, |v| {
        v.no_room() && v.case.room + 1 == v.length()
    }),
    edge("16, one octet short of 1,280", ALL, |v| {
        v.no_room() && v.case.room == 1_279 && v.length() == 1_280
    }),
    edge("16, no room", ALL, |v| v.no_room() && v.case.room == 0),
    edge("23, no room", ALL, |v| v.none_due() && v.case.room == 0),
    edge("23, one octet short", ALL, |v| {
        v.none_due() && v.case.room + 1 == v.length()
    }),
    edge("6, 23, multicast source", WAYPOINT, |v| {
        v.is(6) && v.only(Why::MulticastSource)
    }),
    edge("6, 23, unspecified source", WAYPOINT, |v| {
        v.is(6) && v.only(Why::UnspecifiedSource)
    }),
    edge("6, 23, multicast destination", WAYPOINT, |v| {
        v.is(6) && v.only(Why::MulticastDestination)
    }),
    edge("6, 23, ICMPv6 error", WAYPOINT, |v| {
        v.is(6) && v.only(Why::Error)
    }),
    edge("6, 23, Redirect", WAYPOINT, |v| {
        v.is(6) && v.only(Why::Redirect)
    }),
    edge("7, 23, multicast source", ROUTED, |v| {
        v.is(7) && v.only(Why::MulticastSource)
    }),
    edge("7, 23, unspecified source", ROUTED, |v| {
        v.is(7) && v.only(Why::UnspecifiedSource)
    }),
    edge("7, 23, multicast destination", ROUTED, |v| {
        v.is(7) && v.only(Why::MulticastDestination)
    }),
    edge("7, 23, ICMPv6 error", ROUTED, |v| {
        v.is(7) && v.only(Why::Error)
    }),
    edge("7, 23, Redirect", ROUTED, |v| {
        v.is(7) && v.only(Why::Redirect)
    }),
    edge("8, 23, multicast source", ALL, |v| {
        v.is(8) && v.only(Why::MulticastSource)
    }),
    edge("8, 23, unspecified source", ALL, |v| {
        v.is(8) && v.only(Why::UnspecifiedSource)
    }),
    edge("8, 23, multicast destination", ALL, |v| {
        v.is(8) && v.only(Why::MulticastDestination)
    }),
    edge("8, 23, ICMPv6 error", ALL, |v| {
        v.is(8) && v.only(Why::Error)
    }),
    edge("8, 23, Redirect", ALL, |v| v.is(8) && v.only(Why::Redirect)),
    edge("23, two reasons", ALL, |v| {
        v.none_due() && v.whys().iter().filter(|&&why| why).count() == 2
    }),
    edge("from ff00::, 23", ALL, |v| {
        v.only(Why::MulticastSource) && v.source() == FF00
    }),
    edge("from ff02::1, 23", ALL, |v| {
        v.only(Why::MulticastSource) && v.source() == FF02_1
    }),
    edge("from ff and all ones, 23", ALL, |v| {
        v.only(Why::MulticastSource) && v.source() == u128::MAX
    }),
    edge("from feff and all ones, built", ALL, |v| {
        v.built() && v.source() == FF00 - 1
    }),
    edge("from fe80::1, built", ALL, |v| {
        v.built() && v.source() == FE80_1
    }),
    edge("from ff in the second octet, built", ALL, |v| {
        v.built() && v.packet()[8] == 0 && v.packet()[9] == 0xff
    }),
    edge("from ff but for one bit, built", ALL, |v| {
        v.built() && (v.packet()[8] ^ 0xff).is_power_of_two()
    }),
    edge("from ::1, built", ALL, |v| v.built() && v.source() == 1),
    edge("from 8000::, built", ALL, |v| {
        v.built() && v.source() == 1 << 127
    }),
    edge("from another address of one bit, built", ALL, |v| {
        v.built() && v.source().is_power_of_two() && v.source() != 1 && v.source() >> 127 == 0
    }),
    edge("to ff00::, 23", ALL, |v| {
        v.only(Why::MulticastDestination) && v.destination() == FF00
    }),
    edge("to ff02::1, 23", ALL, |v| {
        v.only(Why::MulticastDestination) && v.destination() == FF02_1
    }),
    edge("to ff and all ones, 23", ALL, |v| {
        v.only(Why::MulticastDestination) && v.destination() == u128::MAX
    }),
    edge("to multicast by ::/0, 23", ALL, |v| {
        v.only(Why::MulticastDestination) && v.entry.prefix.length == 0
    }),
    edge("to multicast by ff00::/8, 23", ALL, |v| {
        v.only(Why::MulticastDestination) && v.entry.prefix.length == 8
    }),
    edge("to multicast by a longer prefix, 23", ALL, |v| {
        v.only(Why::MulticastDestination) && v.entry.prefix.length > 8
    }),
    edge("to feff and all ones, built", ALL, |v| {
        v.built() && v.destination() == FF00 - 1
    }),
    edge("to ff in the second octet, built", ALL, |v| {
        v.built() && v.packet()[24] == 0 && v.packet()[25] == 0xff
    }),
    edge("to ff but for one bit, built", ALL, |v| {
        v.built() && (v.packet()[24] ^ 0xff).is_power_of_two()
    }),
    edge("to ::, built", ALL, |v| v.built() && v.destination() == 0),
    edge("to ::1, built", ALL, |v| v.built() && v.destination() == 1),
    edge("to 8000::, built", ALL, |v| {
        v.built() && v.destination() == 1 << 127
    }),
    edge("SRH[0] multicast, built", ROUTED, |v| {
        v.built() && v.upper() >= 64 && v.packet()[48] == 0xff
    }),
    edge("ICMPv6 type 0, 23", ALL, |v| v.errs(0)),
    edge("ICMPv6 type 1, 23", ALL, |v| v.errs(1)),
    edge("ICMPv6 type 127, 23", ALL, |v| v.errs(127)),
    edge("ICMPv6 type 128, built", ALL, |v| v.informs(128)),
    edge("ICMPv6 type 129, built", ALL, |v| v.informs(129)),
    edge("ICMPv6 type 136, built", ALL, |v| v.informs(136)),
    edge("ICMPv6 type 138, built", ALL, |v| v.informs(138)),
    edge("ICMPv6 type 255, built", ALL, |v| v.informs(255)),
    edge("6, ICMPv6 type 128, built", WAYPOINT, |v| {
        v.is(6) && v.informs(128)
    }),
    edge("ICMPv6 without a type, built", ALL, |v| {
        v.built() && v.protocol() == 58 && v.first().is_none()
    }),
    edge("58 and no type, 40 octets, built", PLAIN, |v| {
        v.built() && v.protocol() == 58 && v.packet().len() == 40
    }),
    edge("another layer begins with 1, built", ALL, |v| {
        v.built() && v.protocol() != 58 && v.first() == Some(1)
    }),
    edge("another layer begins with 137, built", ALL, |v| {
        v.built() && v.protocol() != 58 && v.first() == Some(137)
    }),
    edge("57 or 59 with a type, built", ALL, |v| {
        v.built() && matches!(v.protocol(), 57 | 59) && matches!(v.first(), Some(0..128 | 137))
    }),
    edge("error behind what is quoted, 23", ROUTED, |v| {
        v.only(Why::Error) && v.upper() >= 1_232
    }),
    edge("Redirect behind what is quoted, 23", ROUTED, |v| {
        v.only(Why::Redirect) && v.upper() >= 1_232
    }),
    edge("type 128 behind what is quoted, built", ROUTED, |v| {
        v.informs(128) && v.upper() >= 1_232
    }),
    edge("40 octets, built", PLAIN, |v| v.quotes(40)),
    edge("48 octets, built", ROUTED, |v| v.quotes(48)),
    edge("1,231 octets, built", ALL, |v| v.quotes(1_231)),
    edge("1,232 octets, built", ALL, |v| v.quotes(1_232)),
    edge("1,233 octets, built", ALL, |v| v.quotes(1_233)),
    edge("1,234 octets, built", ALL, |v| v.quotes(1_234)),
    edge("65,575 octets, built", ALL, |v| v.quotes(65_575)),
    edge("odd length, last octet not 0, built", ALL, |v| {
        v.built() && v.case.sent.len() % 2 == 1 && v.case.sent.last() != Some(&0)
    }),
    edge("1,000 octets of ones quoted", ALL, |v| {
        v.built() && v.case.sent.iter().filter(|&&octet| octet == 0xff).count() > 1_000
    }),
    edge("checksum 0, built", ALL, |v| {
        v.built() && v.case.sent[42..44] == [0; 2]
    }),
    edge("checksum 0, odd length, built", ALL, |v| {
        v.built() && v.case.sent[42..44] == [0; 2] && v.case.sent.len() % 2 == 1
    }),
    edge("pointer 40, built", PLAIN, |v| v.points_at(40)),
    edge("pointer 48, built", EMPTY, |v| v.points_at(48)),
    edge("pointer 176, built", ROUTED, |v| v.points_at(176)),
    edge("pointer over 255, built", ROUTED, |v| {
        v.points_at(v.upper()) && v.upper() > 255 && v.upper() < 1_232
    }),
    edge("pointer 1,224, built", ROUTED, |v| v.points_at(1_224)),
    edge("pointer 1,232, built", ROUTED, |v| v.points_at(1_232)),
    edge("pointer 2,088, built", ROUTED, |v| v.points_at(2_088)),
    edge("class and flow label not 0, built", ALL, |v| {
        v.built() && v.packet()[..2] != [0x60, 0] && v.packet()[2..4] != [0; 2]
    }),
    edge("the entry's source multicast, built", ALL, |v| {
        v.built() && v.entry.source >> 120 == 0xff
    }),
    edge("the entry's source ::, built", ALL, |v| {
        v.built() && v.entry.source == 0
    }),
    edge("the entry's hop limit 1, built", ALL, |v| {
        v.built() && v.entry.hop_limit == 1 && v.packet()[7] != 1
    }),
    edge("the entry's hop limit 255, built", ALL, |v| {
        v.built() && v.entry.hop_limit == 255 && v.packet()[7] != 255
    }),
    edge("the entry is the last of several", ALL, |v| {
        v.built() && v.table.entries.len() > 2 && v.table.entries.last() == Some(&v.entry)
    }),
    edge("of 64 entries, built", ALL, |v| {
        v.built() && v.table.entries.len() == 64
    }),
    edge("a shorter match before it, built", ALL, |v| {
        v.built() && v.shorter().next().is_some_and(|(at, _)| at < v.place())
    }),
    edge("a shorter match behind it, built", ALL, |v| {
        v.built() && v.shorter().any(|(at, _)| at > v.place())
    }),
    edge("a shorter match, else all another", ALL, |v| {
        v.built() && v.shorter().any(|(_, other)| v.is_another(other))
    }),
    edge("a message, 23", PLAIN, |v| {
        v.is_message(false) && v.none_due()
    }),
    edge("a message, its own table, 23", PLAIN, |v| {
        v.is_message(true) && v.none_due()
    }),
    edge("a message of 1,280 octets, 23", PLAIN, |v| {
        v.case.origin != Origin::Packet && v.packet().len() == 1_280 && v.none_due()
    }),
];

const FF00: u128 = 0xff << 120;
const FF02_1: u128 = 0xff02 << 112 | 1;
const FE80_1: u128 = 0xfe80 << 112 | 1;

/// The reasons why none is due for a packet answered 6, 7 or 8.
#[derive(Clone, Copy)]
enum Why {
    MulticastSource,
    UnspecifiedSource,
    MulticastDestination,
    Error,
    Redirect,
}

/// A case that the IPv6 call answers with 6, 7 or 8, and what its edges are told by.
struct View<'a> {
    case: &'a IcmpCase,
    said: Answer,
    table: &'a Table,
    entry: Entry,
}

impl View<'_> {
    fn packet(&self) -> &[u8] {
        &self.case.packet
    }

    fn address(&self, at: usize) -> u128 {
        let octets = self.packet()[at..at + 16].iter();
        octets.fold(0, |address, &octet| address << 8 | u128::from(octet))
    }

    fn source(&self) -> u128 {
        self.address(8)
    }

    fn destination(&self) -> u128 {
        self.address(24)
    }

    fn is_routed(&self) -> bool {
        self.packet()[6] == 43
    }

    /// Where the upper layer begins.
    fn upper(&self) -> usize {
        match self.is_routed() {
            true => 48 + 8 * usize::from(self.packet()[41]),
            false => 40,
        }
    }

    fn protocol(&self) -> u8 {
        self.packet()[if self.is_routed() { 40 } else { 6 }]
    }

    /// The upper layer's first octet.
    fn first(&self) -> Option<u8> {
        self.packet().get(self.upper()).copied()
    }

    fn is(&self, number: u8) -> bool {
        self.said.number == number
    }

    fn built(&self) -> bool {
        self.case.answer.number == 0
    }

    fn no_room(&self) -> bool {
        self.case.answer.number == 16
    }

    fn none_due(&self) -> bool {
        self.case.answer.number == 23
    }

    /// How long a message about the packet is.
    fn length(&self) -> usize {
        1_280.min(48 + self.packet().len())
    }

    fn whys(&self) -> [bool; 5] {
        let octet = self.first().filter(|_| self.protocol() == 58);
        [
            self.packet()[8] == 0xff,
            self.packet()[8..24] == [0; 16],
            self.packet()[24] == 0xff,
            octet.is_some_and(|octet| octet < 128),
            octet == Some(137),
        ]
    }

    /// Whether none is due, for this one reason.
    fn only(&self, why: Why) -> bool {
        let whys = self.whys();
        let others = whys.iter().filter(|&&why| why).count();
        self.none_due() && whys[why as usize] && others == 1
    }

    fn errs(&self, octet: u8) -> bool {
        self.only(Why::Error) && self.first() == Some(octet)
    }

    fn informs(&self, octet: u8) -> bool {
        self.built() && self.protocol() == 58 && self.first() == Some(octet)
    }

    /// Whether a message about a packet of so many octets was built.
    fn quotes(&self, octets: usize) -> bool {
        self.built() && self.packet().len() == octets
    }

    /// Whether a message with this pointer to the upper layer was built.
    fn points_at(&self, offset: usize) -> bool {
        self.built() && self.is(8) && usize::from(self.said.icmp_pointer) == offset
    }

    /// What the IPv6 call answers with another octet.
    fn with(&self, at: usize, octet: u8) -> u8 {
        let mut packet = self.packet().to_vec();
        packet[at] = octet;
        Call::Ipv6.run(&packet, &self.case.table, &mut []).number
    }

    fn right_segments_left(&self) -> u8 {
        match Kind::matched(Call::Ipv6, self.packet(), self.table) {
            Some(Kind::E6) => 1,
            _ => 0,
        }
    }

    fn place(&self) -> usize {
        let mut entries = self.table.entries.iter();
        entries.position(|entry| *entry == self.entry).unwrap_or(0)
    }

    /// The other entries that match, all shorter, each with its place.
    fn shorter(&self) -> impl Iterator<Item = (usize, &Entry)> {
        let (all, own) = (self.table.entries.iter().enumerate(), self.place());
        all.filter(move |&(at, entry)| at != own && entry.prefix.matches(self.destination()))
    }

    /// Source, hop limit and behaviour.
    fn is_another(&self, other: &Entry) -> bool {
        other.source != self.entry.source
            && other.hop_limit != self.entry.hop_limit
            && other.behaviour.number() != self.entry.behaviour.number()
    }

    fn is_message(&self, own_table: bool) -> bool {
        self.case.origin == Origin::Message { own_table }
    }
}

/// Whether neither an address nor the upper layer is a reason for 23.
fn is_due_else(packet: &[u8]) -> bool {
    let protocol = match packet.get(6) {
        Some(43) => packet.get(40),
        protocol => protocol,
    };
    let none = packet.get(8..24) == Some(&[0; 16]);
    !none && packet.get(8) != Some(&0xff) && packet.get(24) != Some(&0xff) && protocol != Some(&58)
}

fn column(kind: Kind, routed: bool) -> &'static str {
    match (kind, routed) {
        (Kind::Waypoint, true) => "waypoint SRH",
        (Kind::D, true) => "D SRH",
        (Kind::Di, true) => "Di SRH",
        (Kind::E6, true) => "E6 SRH",
        (Kind::E4, true) => "E4 SRH",
        (kind, _) => kind.name(),
    }
}

/// All that cases met.
pub struct Met {
    edges: Tally,
    numbers: Tally,
    cases: u64,
    built: u64,
}

impl Met {
    pub const TABLES: u64 = 2;

    pub fn new() -> Self {
        Met {
            edges: Tally::new(&MET),
            numbers: Tally::new(&NUMBERS),
            cases: 0,
            built: 0,
        }
    }

    pub fn add(&mut self, case: &IcmpCase) {
        self.cases += 1;
        self.built += u64::from(case.answer.number == 0);
        let said = said(case);
        let table = Table::decode(&case.table).ok();
        let matched = table
            .as_ref()
            .and_then(|table| Kind::matched(Call::Ipv6, &case.packet, table));
        let Some(kind) = matched.or(case.kind) else {
            return;
        };
        if kind == Kind::D4 {
            if case.packet.first().is_some_and(|first| first >> 4 == 4) {
                self.numbers.add(&said.number.to_string(), "IPv4", &[]);
            }
            return;
        }
        if matches!(said.number, 6..=8) || is_due_else(&case.packet) {
            self.numbers.add(&said.number.to_string(), kind.name(), &[]);
        }
        let (Some(table), 6..=8) = (&table, said.number) else {
            return;
        };
        let destination = case.packet[24..40]
            .try_into()
            .map_or(0, u128::from_be_bytes);
        let Ok(&entry) = table.entry_for(destination) else {
            return;
        };
        let view = View {
            case,
            said,
            table,
            entry,
        };
        let column = column(kind, view.is_routed());
        edges::add(&mut self.edges, EDGES, column, |met| met(&view));
    }

    pub fn cases(&self) -> u64 {
        self.cases
    }

    /// Messages that were built.
    pub fn built(&self) -> u64 {
        self.built
    }

    /// An error that names every finding of a table.
    pub fn judge(&self) -> Result<(), String> {
        self.judge_first(Met::TABLES)
    }

    /// The same of the first tables alone: the numbers, the edges. Few cases do not meet all of the last.
    pub fn judge_first(&self, tables: u64) -> Result<(), String> {
        let judged = [self.numbers.judge(), self.edges.judge()];
        judged.into_iter().take(tables as usize).collect()
    }
}

impl Default for Met {
    fn default() -> Self {
        Self::new()
    }
}

impl fmt::Display for Met {
    fn fmt(&self, f: &mut fmt::Formatter<'_>) -> fmt::Result {
        write!(f, "{}\n{}", self.edges, self.numbers)
    }
}

/// Order 6 and RFC 4443 read from the octets alone, where a message was built; a message is never about
/// a message, nor about a packet answered otherwise.
fn read_back(case: &IcmpCase) -> Result<(), String> {
    let (packet, sent, said) = (&case.packet, &case.sent, said(case));
    match (case.answer.number, said.number) {
        (0, _) => {}
        (23, _) | (16, 6..=8) => return Ok(()),
        _ => return Err(format!("{} for {said}", case.answer)),
    }
    let table = Table::decode(&case.table).map_err(|why| format!("{why:?}"))?;
    let destination = packet[24..40].try_into().map_or(0, u128::from_be_bytes);
    let mut entries = table.entries.clone();
    entries.retain(|entry| entry.prefix.matches(destination));
    entries.sort_by_key(|entry| entry.prefix.length);
    let entry = entries.last().ok_or("no entry matches")?;
    let quoted = packet.len().min(1_232);
    let payload = quoted as u16 + 8;
    let [high, low] = payload.to_be_bytes();
    let [pointer_high, pointer_low] = said.icmp_pointer.to_be_bytes();
    // With its checksum the sum is a multiple of 65,535.
    let sum = remainder(&sent[8..]) + u64::from(payload) + 58;
    let facts = [
        ("an answer 6, 7 or 8", matches!(said.number, 6..=8)),
        ("no message", case.origin == Origin::Packet),
        ("the length", sent.len() == 48 + quoted),
        (
            "the IPv6 header",
            sent[..8] == [0x60, 0, 0, 0, high, low, 58, entry.hop_limit],
        ),
        ("the source", sent[8..24] == entry.source.to_be_bytes()),
        ("the destination", sent[24..40] == packet[8..24]),
        (
            "type and code",
            sent[40..42] == [said.icmp_type, said.icmp_code],
        ),
        (
            "the checksum",
            sum.is_multiple_of(65_535) && sent[42..44] != [0xff; 2],
        ),
        (
            "the pointer",
            sent[44..48] == [0, 0, pointer_high, pointer_low],
        ),
        ("what is quoted", sent[48..] == packet[..quoted]),
    ];
    match facts.iter().find(|(_, holds)| !holds) {
        Some((what, _)) => Err(format!("read back: not {what}")),
        None => Ok(()),
    }
}

/// Generates and checks the first `count` cases of a seed.
pub fn collect(seed: u64, count: u64) -> Result<Met, String> {
    let mut met = Met::new();
    for index in 0..count {
        let case = cases::case(seed, index);
        case.check()
            .and_then(|()| read_back(&case))
            .map_err(|why| format!("seed {seed} ICMP case {index}: {why}"))?;
        met.add(&case);
    }
    Ok(met)
}

#[cfg(test)]
mod tests {
    use super::*;

    #[test]
    fn no_gap() {
        let met = collect(7, 100_000).unwrap();
        assert_eq!(met.judge(), Ok(()), "{met}");
    }
}
