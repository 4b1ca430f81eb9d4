//! What is written (docs/RULES.md, Written).

use crate::answer::Refusal;
use crate::args::ArgsMobSession;
use crate::gtpu::{self, Container};
use crate::ipv4;
use crate::ipv6::{self, next_header};
use crate::table::Direction;
use crate::udp::{self, Addresses};

const DONT_FRAGMENT: u16 = 0x4000;
const LENGTH_FIELD_MAX: usize = 65_535;
/// Header with the four octets more, and a container of one unit.
const GTPU_LENGTH: usize = gtpu::MANDATORY_LENGTH + 4 + 4;
/// What the length field of an Echo Response counts: the four octets more, and Recovery.
const ECHO_COUNTED: usize = 4 + 2;
const ECHO_LENGTH: usize = udp::HEADER_LENGTH + gtpu::MANDATORY_LENGTH + ECHO_COUNTED;

/// A packet ready to be written.
#[derive(Clone, Debug)]
pub enum Outgoing<'a> {
    Advanced(Advanced<'a>),
    Sr(SrPacket<'a>),
    Gtp6(Gtp6Packet<'a>),
    Gtp4(Gtp4Packet<'a>),
}

/// What a waypoint changes: SL, destination and hop limit.
#[derive(Clone, Copy, Debug, PartialEq, Eq)]
pub struct RoutingState {
    pub segments_left: u8,
    pub destination: u128,
    pub hop_limit: u8,
}

/// The arriving packet with a new routing state.
#[derive(Clone, Debug)]
pub struct Advanced<'a> {
    pub packet: &'a [u8],
    pub state: RoutingState,
}

/// D, Di, D4: IPv6, perhaps an SRH, the inner packet.
#[derive(Clone, Debug)]
pub struct SrPacket<'a> {
    pub traffic_class: u8,
    pub hop_limit: u8,
    pub source: u128,
    pub destination: u128,
    /// In order of travel; with none there is no SRH.
    pub segments: Vec<u128>,
    pub next_header: u8,
    pub inner: &'a [u8],
}

/// The part that E6 and E4 share.
#[derive(Clone, Debug)]
pub struct Tunnel<'a> {
    pub source_port: u16,
    pub direction: Direction,
    pub args: ArgsMobSession,
    pub inner: &'a [u8],
}

/// The reply to an Echo Request (TS 29.281, 7.2.2), with what it takes from the request.
#[derive(Clone, Copy, Debug)]
pub struct EchoResponse {
    /// The request's source port.
    pub destination_port: u16,
    pub sequence_number: u16,
}

/// UDP around GTP-U.
#[derive(Clone, Debug)]
pub enum Datagram<'a> {
    Tunnel(Tunnel<'a>),
    EchoResponse(EchoResponse),
}

/// From E6, or in reply at D and Di.
#[derive(Clone, Debug)]
pub struct Gtp6Packet<'a> {
    pub traffic_class: u8,
    pub hop_limit: u8,
    pub source: u128,
    pub destination: u128,
    pub datagram: Datagram<'a>,
}

/// From E4, or in reply at D4.
#[derive(Clone, Debug)]
pub struct Gtp4Packet<'a> {
    pub tos: u8,
    pub ttl: u8,
    pub source: u32,
    pub destination: u32,
    pub datagram: Datagram<'a>,
}

impl Outgoing<'_> {
    /// The octets, refused by row 15 or by row 16.
    pub fn encode(&self, room: usize) -> Result<Vec<u8>, Refusal> {
        if self.length_field() > LENGTH_FIELD_MAX {
            return Err(Refusal::TooLong);
        }
        if self.length() > room {
            return Err(Refusal::NoRoom);
        }
        let mut octets = Vec::with_capacity(self.length());
        match self {
            Outgoing::Advanced(packet) => packet.write(&mut octets),
            Outgoing::Sr(packet) => packet.write(&mut octets),
            Outgoing::Gtp6(packet) => packet.write(&mut octets),
            Outgoing::Gtp4(packet) => packet.write(&mut octets),
        }
        Ok(octets)
    }

    /// The length of the whole packet.
    pub fn length(&self) -> usize {
        match self {
            Outgoing::Gtp4(_) => self.length_field(),
            _ => ipv6::HEADER_LENGTH + self.length_field(),
        }
    }

    /// What the outermost length field would hold; the inner ones hold less.
    pub fn length_field(&self) -> usize {
        match self {
            Outgoing::Advanced(packet) => packet.packet.len() - ipv6::HEADER_LENGTH,
            Outgoing::Sr(packet) => packet.srh_length() + packet.inner.len(),
            Outgoing::Gtp6(packet) => packet.datagram.length(),
            Outgoing::Gtp4(packet) => ipv4::HEADER_LENGTH + packet.datagram.length(),
        }
    }
}

fn write_ipv6(
    octets: &mut Vec<u8>,
    traffic_class: u8,
    payload_length: usize,
    next_header: u8,
    hop_limit: u8,
    addresses: (u128, u128),
) {
    octets.extend((6 << 28 | u32::from(traffic_class) << 20).to_be_bytes());
    octets.extend((payload_length as u16).to_be_bytes());
    octets.extend([next_header, hop_limit]);
    octets.extend(addresses.0.to_be_bytes());
    octets.extend(addresses.1.to_be_bytes());
}

/// Checksum 0: what over IPv4 is sent, and over IPv6 is written over.
fn write_udp(octets: &mut Vec<u8>, ports: (u16, u16), length: usize) {
    octets.extend(ports.0.to_be_bytes());
    octets.extend(ports.1.to_be_bytes());
    octets.extend((length as u16).to_be_bytes());
    octets.extend([0, 0]);
}

impl Advanced<'_> {
    fn write(&self, octets: &mut Vec<u8>) {
        octets.extend(self.packet);
        octets[7] = self.state.hop_limit;
        octets[24..40].copy_from_slice(&self.state.destination.to_be_bytes());
        octets[43] = self.state.segments_left;
    }
}

impl SrPacket<'_> {
    fn srh_length(&self) -> usize {
        match self.segments.len() {
            0 => 0,
            count => 8 + 16 * count,
        }
    }

    fn write(&self, octets: &mut Vec<u8>) {
        let payload_length = self.srh_length() + self.inner.len();
        let first_next_header = if self.segments.is_empty() {
            self.next_header
        } else {
            next_header::ROUTING
        };
        let addresses = (self.source, self.destination);
        write_ipv6(
            octets,
            self.traffic_class,
            payload_length,
            first_next_header,
            self.hop_limit,
            addresses,
        );
        if let Some(last) = self.segments.len().checked_sub(1) {
            // At most 9 segments. SL = LE; flags 0, tag 0.
            let (units, last) = (2 * self.segments.len() as u8, last as u8);
            octets.extend([self.next_header, units, 4, last, last, 0, 0, 0]);
            octets.extend(
                self.segments
                    .iter()
                    .rev()
                    .flat_map(|segment| segment.to_be_bytes()),
            );
        }
        octets.extend(self.inner);
    }
}

impl Datagram<'_> {
    fn length(&self) -> usize {
        match self {
            Datagram::Tunnel(tunnel) => tunnel.length(),
            Datagram::EchoResponse(_) => ECHO_LENGTH,
        }
    }

    fn write(&self, octets: &mut Vec<u8>) {
        match self {
            Datagram::Tunnel(tunnel) => tunnel.write(octets),
            Datagram::EchoResponse(response) => response.write(octets),
        }
    }
}

impl EchoResponse {
    fn write(&self, octets: &mut Vec<u8>) {
        let ports = (udp::GTPU_PORT, self.destination_port);
        write_udp(octets, ports, ECHO_LENGTH);
        let flags = gtpu::flag::VERSION_1 | gtpu::flag::PT | gtpu::flag::S;
        octets.extend([flags, gtpu::ECHO_RESPONSE]);
        octets.extend((ECHO_COUNTED as u16).to_be_bytes());
        let teid: u32 = 0;
        octets.extend(teid.to_be_bytes());
        octets.extend(self.sequence_number.to_be_bytes());
        let (n_pdu_number, next_type) = (0, 0);
        octets.extend([n_pdu_number, next_type]);
        octets.extend([gtpu::RECOVERY, 0]);
    }
}

impl Tunnel<'_> {
    /// UDP, GTP-U, inner packet.
    fn length(&self) -> usize {
        udp::HEADER_LENGTH + GTPU_LENGTH + self.inner.len()
    }

    fn write(&self, octets: &mut Vec<u8>) {
        write_udp(octets, (self.source_port, udp::GTPU_PORT), self.length());
        let gtpu_length = (GTPU_LENGTH - gtpu::MANDATORY_LENGTH + self.inner.len()) as u16;
        octets.extend([
            gtpu::flag::VERSION_1 | gtpu::flag::PT | gtpu::flag::E,
            gtpu::G_PDU,
        ]);
        octets.extend(gtpu_length.to_be_bytes());
        octets.extend(self.args.teid.to_be_bytes());
        octets.extend([0, 0, 0, gtpu::PDU_SESSION_CONTAINER]);
        let [first, second] = Container::contents(self.direction, self.args);
        octets.extend([1, first, second, 0]);
        octets.extend(self.inner);
    }
}

impl Gtp6Packet<'_> {
    fn write(&self, octets: &mut Vec<u8>) {
        let (source, destination) = (self.source, self.destination);
        write_ipv6(
            octets,
            self.traffic_class,
            self.datagram.length(),
            next_header::UDP,
            self.hop_limit,
            (source, destination),
        );
        let start = octets.len();
        self.datagram.write(octets);
        let addresses = Addresses {
            source,
            destination,
        };
        let datagram = &mut octets[start..];
        let checksum = udp::checksum(addresses, datagram).to_be_bytes();
        datagram[udp::CHECKSUM..udp::HEADER_LENGTH].copy_from_slice(&checksum);
    }
}

impl Gtp4Packet<'_> {
    fn write(&self, octets: &mut Vec<u8>) {
        let total_length = (ipv4::HEADER_LENGTH + self.datagram.length()) as u16;
        octets.extend([0x45, self.tos]);
        octets.extend(total_length.to_be_bytes());
        octets.extend([0, 0]);
        octets.extend(DONT_FRAGMENT.to_be_bytes());
        octets.extend([self.ttl, next_header::UDP, 0, 0]);
        octets.extend(self.source.to_be_bytes());
        octets.extend(self.destination.to_be_bytes());
        let checksum = ipv4::checksum(octets);
        octets[10..12].copy_from_slice(&checksum.to_be_bytes());
        self.datagram.write(octets);
    }
}
