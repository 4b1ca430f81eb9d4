//! What cases with an Echo Request met, by the kind.

use crate::answer::Answer;
use crate::edges::{self, edge, Edge};
use crate::generate::{checksum, Call, Case};
use crate::gtpu::{flag, Header, ECHO_REQUEST, ECHO_RESPONSE, G_PDU, PDU_SESSION_CONTAINER};
use crate::ipv4::Ipv4Packet;
use crate::ipv6::{next_header, HeaderChain, Ipv6Packet};
use crate::tally::{Shape, Tally};
use crate::udp::GTPU_PORT;

pub static SHAPE: Shape = Shape {
    corner: "Echo Request",
    lines: &edges::names::<_, { EDGES.len() }>(EDGES),
    columns: &["waypoint", "D", "Di", "E6", "E4", "D4"],
    can_occur: |line, column| edges::can_occur(EDGES, line, column),
};

/// Those that answer, those of them over IPv6, and the others.
const ANSWER: &[&str] = &["D", "Di", "D4"];
const SIX: &[&str] = &["D", "Di"];
const OTHERS: &[&str] = &["waypoint", "E6", "E4"];
const WAYPOINT: &[&str] = &["waypoint"];

type Test = fn(&View) -> bool;

const EDGES: &[Edge<Test>] = &[
    edge("answered", ANSWER, |v| v.is(0)),
    edge("answered, E set", ANSWER, |v| v.is(0) && v.has(flag::E)),
    edge("answered, PN set", ANSWER, |v| v.is(0) && v.has(flag::PN)),
    edge("answered, the spare bit set", ANSWER, |v| {
        v.is(0) && v.has(0x08)
    }),
    edge("answered, a container", ANSWER, |v| {
        v.is(0) && v.extensions() == Some(true)
    }),
    edge("answered, extensions of row 12", ANSWER, |v| {
        v.is(0) && v.extensions() == Some(false)
    }),
    edge("answered, twelve octets", ANSWER, |v| {
        v.is(0) && v.message().len() == 12
    }),
    edge("answered, octets behind the twelve", ANSWER, |v| {
        v.is(0) && v.message().len() > 12
    }),
    edge("answered, over 255 behind the twelve", ANSWER, |v| {
        v.is(0) && v.message().len() > 12 + 255
    }),
    edge("answered, 15 for a G-PDU as long", ANSWER, |v| {
        v.is(0) && v.is_too_long_for_g_pdu()
    }),
    edge("answered, to port 0", ANSWER, |v| v.is(0) && v.from(0)),
    edge("answered, to port 2152", ANSWER, |v| {
        v.is(0) && v.from(GTPU_PORT)
    }),
    edge("answered, to port 65,535", ANSWER, |v| {
        v.is(0) && v.from(u16::MAX)
    }),
    edge("answered, behind an SRH", SIX, |v| v.is(0) && v.routed),
    edge("answered, hop limit or TTL 0 arrived", ANSWER, |v| {
        v.is(0) && v.hop_limit == 0
    }),
    edge("answered, room for just the reply", ANSWER, |v| {
        v.is(0) && v.case.room == v.answer.length as usize
    }),
    edge("answered, more room", ANSWER, |v| {
        v.is(0) && v.case.room > v.answer.length as usize
    }),
    edge("16, one octet short", ANSWER, |v| {
        v.is(16) && v.case.room + 1 == v.reply_length()
    }),
    edge("16, no room", ANSWER, |v| v.is(16) && v.case.room == 0),
    edge("17, S clear, TEID 0", ANSWER, |v| {
        v.is(17) && !v.has(flag::S) && v.teid() == [0; 4]
    }),
    edge("17, S set, a TEID", ANSWER, |v| v.is(17) && v.has(flag::S)),
    edge("17, S clear, a TEID", ANSWER, |v| {
        v.is(17) && !v.has(flag::S) && v.teid() != [0; 4]
    }),
    edge("17, S set, the TEID's first octet", ANSWER, |v| {
        v.is(17) && v.has(flag::S) && v.teid_octet(0)
    }),
    edge("17, S set, the TEID's second octet", ANSWER, |v| {
        v.is(17) && v.has(flag::S) && v.teid_octet(1)
    }),
    edge("17, S set, the TEID's third octet", ANSWER, |v| {
        v.is(17) && v.has(flag::S) && v.teid_octet(2)
    }),
    edge("17, S set, the TEID's fourth octet", ANSWER, |v| {
        v.is(17) && v.has(flag::S) && v.teid_octet(3)
    }),
    edge("17, eight octets", ANSWER, |v| {
        v.is(17) && v.message().len() == 8
    }),
    edge("17, E or PN and not S", ANSWER, |v| {
        v.is(17) && !v.has(flag::S) && v.has(flag::E | flag::PN)
    }),
    edge("17, extensions of row 12", ANSWER, |v| {
        v.is(17) && v.extensions() == Some(false)
    }),
    edge("17, no room", ANSWER, |v| v.is(17) && v.case.room == 0),
    edge("8, another port", ANSWER, |v| v.is(8) && !v.to(GTPU_PORT)),
    edge("9, another UDP length", ANSWER, |v| v.is(9)),
    edge("10, another version or PT", ANSWER, |v| {
        v.is(10) && v.is_whole() && v.length_agrees()
    }),
    edge("10, another length", ANSWER, |v| {
        v.is(10) && v.is_whole() && v.is_version_1()
    }),
    edge("10, S, fewer than twelve octets", ANSWER, |v| {
        v.is(10) && v.is_short() && v.has(flag::S)
    }),
    edge("10, not S, fewer than twelve octets", ANSWER, |v| {
        v.is(10) && v.is_short() && !v.has(flag::S)
    }),
    edge("11, an Echo Response", ANSWER, |v| v.is_response()),
    edge("sent on", WAYPOINT, |v| v.is(0)),
    edge("8, to port 2152", OTHERS, |v| v.is(8) && v.to(GTPU_PORT)),
];

/// A case whose packet holds UDP with a message type.
struct View<'a> {
    case: &'a Case,
    answer: Answer,
    hop_limit: u8,
    routed: bool,
    /// UDP and all that follows, ten octets at the least.
    datagram: &'a [u8],
}

impl<'a> View<'a> {
    fn of(case: &'a Case, answer: Answer) -> Option<Self> {
        let (hop_limit, routed, protocol, datagram) = match case.call {
            Call::Ipv6 => {
                let packet = Ipv6Packet::parse(&case.packet).ok()?;
                let chain = HeaderChain::parse(&packet).ok()?;
                let routed = chain.srh.is_some();
                (packet.hop_limit, routed, chain.protocol, chain.upper)
            }
            Call::Ipv4 => {
                let packet = Ipv4Packet::parse(&case.packet).ok()?;
                (case.packet[8], false, packet.protocol, packet.payload)
            }
        };
        (protocol == next_header::UDP && datagram.len() >= 10).then_some(View {
            case,
            answer,
            hop_limit,
            routed,
            datagram,
        })
    }

    fn message(&self) -> &'a [u8] {
        &self.datagram[8..]
    }

    /// Whether it is an Echo Request that was answered so.
    fn is(&self, number: u8) -> bool {
        self.answer.number == number && self.message()[1] == ECHO_REQUEST
    }

    /// Whether it is an Echo Response that differs from a request in its type alone.
    fn is_response(&self) -> bool {
        let header = Header::parse(self.message());
        self.answer.number == 11
            && self.message()[1] == ECHO_RESPONSE
            && header.is_ok_and(|header| header.teid == 0 && header.sequence_number.is_some())
    }

    fn has(&self, flags: u8) -> bool {
        self.message()[0] & flags != 0
    }

    fn teid(&self) -> &'a [u8] {
        self.message().get(4..8).unwrap_or(&[])
    }

    /// Whether this octet alone is not 0.
    fn teid_octet(&self, octet: usize) -> bool {
        let mut octets = self.teid().iter().enumerate();
        octets.all(|(at, &value)| (value != 0) == (at == octet))
    }

    fn from(&self, port: u16) -> bool {
        self.datagram[..2] == port.to_be_bytes()
    }

    fn to(&self, port: u16) -> bool {
        self.datagram[2..4] == port.to_be_bytes()
    }

    fn reply_length(&self) -> usize {
        match self.case.call {
            Call::Ipv6 => 62,
            Call::Ipv4 => 42,
        }
    }

    /// Whether extensions are those of a G-PDU, with a container; `None` without any.
    fn extensions(&self) -> Option<bool> {
        match Header::parse(self.message()).ok()?.extensions() {
            Ok((Some(_), _)) => Some(true),
            Ok((None, _)) => None,
            Err(_) => Some(false),
        }
    }

    fn is_version_1(&self) -> bool {
        self.message()[0] & (flag::VERSION | flag::PT) == flag::VERSION_1 | flag::PT
    }

    /// Whether all octets that the flags bring are there.
    fn is_whole(&self) -> bool {
        let optional = self.has(flag::E | flag::S | flag::PN);
        self.message().len() >= if optional { 12 } else { 8 }
    }

    fn length_agrees(&self) -> bool {
        let message = self.message();
        let counted = message.len().wrapping_sub(8);
        message.get(2..4) == Some(&(counted as u16).to_be_bytes())
    }

    /// Whether the four octets more are cut, and nothing else is wrong.
    fn is_short(&self) -> bool {
        self.message().len() >= 8 && !self.is_whole() && self.is_version_1() && self.length_agrees()
    }

    /// Whether row 15 is for a G-PDU in its place, with a container of one unit.
    fn is_too_long_for_g_pdu(&self) -> bool {
        let start = self.case.packet.len() - self.message().len();
        [0x00, 0x10].into_iter().any(|pdu_type| {
            let mut packet = self.case.packet.clone();
            let Some(message) = packet[start..].get_mut(..17) else {
                return false;
            };
            message[0] = flag::VERSION_1 | flag::PT | flag::E;
            message[1] = G_PDU;
            message[11..].copy_from_slice(&[PDU_SESSION_CONTAINER, 1, pdu_type, 0, 0, 0x40]);
            if self.case.call == Call::Ipv6 {
                let (before, datagram) = packet.split_at_mut(start - 8);
                let right = checksum::right(&before[8..40], datagram);
                datagram[6..8].copy_from_slice(&right.to_be_bytes());
            }
            let mut out = [];
            let answer = self.case.call.run(&packet, &self.case.table, &mut out);
            answer.number == 15
        })
    }
}

/// Counts a case by what was answered.
pub fn add(tally: &mut Tally, case: &Case, answer: Answer) {
    let Some(view) = View::of(case, answer) else {
        return;
    };
    edges::add(tally, EDGES, case.kind.name(), |met| met(&view));
}
