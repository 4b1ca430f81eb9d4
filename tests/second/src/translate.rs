//! The two calls. The stages stand in the order in which the rows are tested: by
//! the size of the number, but 18 behind 9, and 17 in the place of 11. The first
//! refusal met is the answer.

use crate::answer::{Answer, Refusal};
use crate::args::ArgsMobSession;
use crate::gtpu;
use crate::ipv4::Ipv4Packet;
use crate::ipv6::{HeaderChain, Ipv6Packet, Srh};
use crate::outgoing::{
    Advanced, Datagram, EchoResponse, Gtp4Packet, Gtp6Packet, Outgoing, RoutingState, SrPacket,
    Tunnel,
};
use crate::table::{Behaviour, Entry, Inbound, Ipv4Places, Policy, Rule, Session, Table};
use crate::udp::{self, Addresses, GtpuDatagram};

/// The IPv6 call: waypoint, D, Di, E6, E4. Packed answer.
pub fn translate_ipv6(packet: &[u8], table: &[u8], out: &mut [u8]) -> u64 {
    deliver(ipv6(packet, table, out.len()), out)
}

/// The IPv4 call: D4. Packed answer.
pub fn translate_ipv4(packet: &[u8], table: &[u8], out: &mut [u8]) -> u64 {
    deliver(ipv4(packet, table, out.len()), out)
}

/// A refusal changes no octet, a sent packet only its own.
fn deliver(result: Result<Vec<u8>, Refusal>, out: &mut [u8]) -> u64 {
    let answer = match result {
        Ok(octets) => match out.get_mut(..octets.len()) {
            Some(place) => {
                place.copy_from_slice(&octets);
                Answer::sent(octets.len())
            }
            None => Refusal::NoRoom.answer(),
        },
        Err(refusal) => refusal.answer(),
    };
    answer.pack()
}

fn ipv6(octets: &[u8], table: &[u8], room: usize) -> Result<Vec<u8>, Refusal> {
    let table = Table::decode(table).map_err(|_| Refusal::UnsoundTable)?;
    let packet = Ipv6Packet::parse(octets)?;
    let entry = table.entry_for(packet.destination)?;
    let chain = HeaderChain::parse(&packet)?;
    let arriving = Arriving {
        octets,
        packet,
        chain,
        entry,
    };
    let outgoing = match entry.behaviour {
        Behaviour::End => Outgoing::Advanced(arriving.end()?),
        Behaviour::D(tunnel) => arriving.d(tunnel, &table.policies[tunnel.policy])?,
        Behaviour::Di(tunnel) => arriving.di(tunnel, &table.policies[tunnel.policy])?,
        Behaviour::E6 {
            session,
            args_start,
            source_port,
        } => Outgoing::Gtp6(arriving.e6(session, args_start, source_port)?),
        Behaviour::E4 {
            session,
            places,
            source_port,
        } => Outgoing::Gtp4(arriving.e4(session, places, source_port)?),
    };
    outgoing.encode(room)
}

fn ipv4(octets: &[u8], table: &[u8], room: usize) -> Result<Vec<u8>, Refusal> {
    let table = Table::decode(table).map_err(|_| Refusal::UnsoundTable)?;
    let packet = Ipv4Packet::parse(octets)?;
    packet.check_header()?;
    let rule = table.rule_for(packet.destination)?;
    d4(&packet, rule)?.encode(room)
}

/// A user packet out of its tunnel.
struct UserPacket<'a> {
    args: ArgsMobSession,
    next_header: u8,
    inner: &'a [u8],
}

/// What came to the GTP-U port: a user packet, or a request with its reply.
enum Decapsulated<'a> {
    User(UserPacket<'a>),
    Echo(EchoResponse),
}

/// Rows 10 to 14 and 17.
fn decapsulate(datagram: GtpuDatagram<'_>, session: Session) -> Result<Decapsulated<'_>, Refusal> {
    Ok(match gtpu::parse(datagram.payload, session.direction)? {
        gtpu::Message::GPdu(gtpu::GPdu { args, inner }) => Decapsulated::User(UserPacket {
            args,
            next_header: session.session_type.next_header_of(inner)?,
            inner,
        }),
        gtpu::Message::EchoRequest(request) => Decapsulated::Echo(EchoResponse {
            destination_port: datagram.source_port,
            sequence_number: request.sequence_number,
        }),
    })
}

/// A packet in the IPv6 call with its entry.
struct Arriving<'a, 't> {
    octets: &'a [u8],
    packet: Ipv6Packet<'a>,
    chain: HeaderChain<'a>,
    entry: &'t Entry,
}

impl<'a> Arriving<'a, '_> {
    /// Waypoint (RFC 8986, 4.1).
    fn end(&self) -> Result<Advanced<'a>, Refusal> {
        let upper_layer_error = self.chain.upper_layer_error();
        let srh = self.chain.srh.ok_or(upper_layer_error)?;
        let arriving = RoutingState {
            segments_left: srh.segments_left,
            destination: self.packet.destination,
            hop_limit: self.packet.hop_limit,
        };
        let state = advance(arriving, &srh)?.ok_or(upper_layer_error)?;
        Ok(Advanced {
            packet: self.octets,
            state,
        })
    }

    /// End.M.GTP6.D (RFC 9433, 6.3).
    fn d(&self, tunnel: Inbound, policy: &Policy) -> Result<Outgoing<'a>, Refusal> {
        Ok(match self.decapsulate(tunnel)? {
            Decapsulated::User(user) => self.sr_packet(policy_segments(policy, user.args), user),
            Decapsulated::Echo(response) => self.reply(response),
        })
    }

    /// End.M.GTP6.D.Di (RFC 9433, 5.4 and 6.4): the arriving destination is SRH[0].
    fn di(&self, tunnel: Inbound, policy: &Policy) -> Result<Outgoing<'a>, Refusal> {
        Ok(match self.decapsulate(tunnel)? {
            Decapsulated::User(user) => {
                let mut segments = policy_segments(policy, user.args);
                segments.push(self.packet.destination);
                self.sr_packet(segments, user)
            }
            Decapsulated::Echo(response) => self.reply(response),
        })
    }

    /// End.M.GTP6.E (RFC 9433, 6.5).
    fn e6(
        &self,
        session: Session,
        args_start: u8,
        source_port: u16,
    ) -> Result<Gtp6Packet<'a>, Refusal> {
        let srh = self.chain.srh.ok_or(Refusal::HeaderChain)?;
        if srh.segments_left != 1 || !srh.last_entry_is_held() {
            return Err(Refusal::SegmentsLeft);
        }
        // Held, because Last Entry is.
        let destination = srh.segment(0).ok_or(Refusal::SegmentsLeft)?;
        let args = ArgsMobSession::read(self.packet.destination, args_start);
        Ok(Gtp6Packet {
            traffic_class: self.packet.traffic_class,
            hop_limit: self.entry.hop_limit,
            source: self.entry.source,
            destination,
            datagram: self.tunnel(session, source_port, args)?,
        })
    }

    /// End.M.GTP4.E (RFC 9433, 6.6).
    fn e4(
        &self,
        session: Session,
        places: Ipv4Places,
        source_port: u16,
    ) -> Result<Gtp4Packet<'a>, Refusal> {
        self.chain.require_segments_left_0()?;
        let args = ArgsMobSession::read(self.packet.destination, places.p + 4);
        Ok(Gtp4Packet {
            tos: self.packet.traffic_class,
            ttl: self.entry.hop_limit,
            source: ipv4_in(self.packet.source, places.q),
            destination: ipv4_in(self.packet.destination, places.p),
            datagram: self.tunnel(session, source_port, args)?,
        })
    }

    /// Rows 7 to 14, 17 and 18. With SL 0 the destination of the IPv6 header is the final one.
    fn decapsulate(&self, tunnel: Inbound) -> Result<Decapsulated<'a>, Refusal> {
        self.chain.require_segments_left_0()?;
        let stray = self.chain.upper_layer_error();
        let datagram = udp::to_gtpu(self.chain.protocol, self.chain.upper, stray)?;
        let (source, destination) = (self.packet.source, self.packet.destination);
        let addresses = Addresses {
            source,
            destination,
        };
        datagram.verify(addresses, tunnel.zero_checksum)?;
        decapsulate(datagram, tunnel.session)
    }

    fn sr_packet(&self, segments: Vec<u128>, user: UserPacket<'a>) -> Outgoing<'a> {
        Outgoing::Sr(SrPacket {
            traffic_class: self.packet.traffic_class,
            hop_limit: self.entry.hop_limit,
            source: self.entry.source,
            destination: segments[0],
            segments,
            next_header: user.next_header,
            inner: user.inner,
        })
    }

    /// Addresses exchanged; an SRH that arrived is not sent.
    fn reply(&self, response: EchoResponse) -> Outgoing<'a> {
        let (requester, asked) = (self.packet.source, self.packet.destination);
        let (traffic_class, hop_limit) = (self.packet.traffic_class, self.entry.hop_limit);
        Outgoing::Gtp6(Gtp6Packet {
            traffic_class,
            hop_limit,
            source: asked,
            destination: requester,
            datagram: Datagram::EchoResponse(response),
        })
    }

    /// Row 8 at E6 and E4; the inner packet is not examined.
    fn tunnel(
        &self,
        session: Session,
        source_port: u16,
        args: ArgsMobSession,
    ) -> Result<Datagram<'a>, Refusal> {
        if !session.session_type.admits(self.chain.protocol) {
            return Err(self.chain.upper_layer_error());
        }
        Ok(Datagram::Tunnel(Tunnel {
            source_port,
            direction: session.direction,
            args,
            inner: self.chain.upper,
        }))
    }
}

/// One waypoint's step; `None` with SL 0 (row 8). Rows 6 and 7 for SL > 0.
fn advance(state: RoutingState, srh: &Srh) -> Result<Option<RoutingState>, Refusal> {
    let Some(segments_left) = state.segments_left.checked_sub(1) else {
        return Ok(None);
    };
    if state.hop_limit <= 1 {
        return Err(Refusal::HopLimit);
    }
    // SL > LE + 1 is segments_left > LE here.
    if !srh.last_entry_is_held() || segments_left > srh.last_entry {
        return Err(Refusal::SegmentsLeft);
    }
    let destination = srh.segment(segments_left).ok_or(Refusal::SegmentsLeft)?;
    Ok(Some(RoutingState {
        segments_left,
        destination,
        hop_limit: state.hop_limit - 1,
    }))
}

/// The policy's SIDs in order of travel, Args in the last.
fn policy_segments(policy: &Policy, args: ArgsMobSession) -> Vec<u128> {
    let mut segments = policy.sids.clone();
    if let Some(last) = segments.last_mut() {
        *last = args.place(*last, policy.args_start);
    }
    segments
}

/// H.M.GTP4.D (RFC 9433, 6.7).
fn d4<'a>(packet: &Ipv4Packet<'a>, rule: &Rule) -> Result<Outgoing<'a>, Refusal> {
    let datagram = udp::to_gtpu(packet.protocol, packet.payload, Refusal::NotGtpu)?;
    Ok(match decapsulate(datagram, rule.session)? {
        Decapsulated::User(user) => Outgoing::Sr(d4_sr_packet(packet, rule, user)),
        Decapsulated::Echo(response) => Outgoing::Gtp4(d4_reply(packet, rule, response)),
    })
}

/// Addresses exchanged, the rule's TTL.
fn d4_reply<'a>(packet: &Ipv4Packet<'a>, rule: &Rule, response: EchoResponse) -> Gtp4Packet<'a> {
    let (requester, asked) = (packet.source, packet.destination);
    Gtp4Packet {
        tos: packet.tos,
        ttl: rule.hop_limit,
        source: asked,
        destination: requester,
        datagram: Datagram::EchoResponse(response),
    }
}

fn d4_sr_packet<'a>(packet: &Ipv4Packet<'a>, rule: &Rule, user: UserPacket<'a>) -> SrPacket<'a> {
    let Ipv4Places { p, q } = rule.places;
    let sid = user
        .args
        .place(with_ipv4(rule.sid_prefix, packet.destination, p), p + 4);
    let source = with_ipv4(rule.source_prefix, packet.source, q);
    let (destination, segments) = match rule.waypoints.first() {
        None => (sid, Vec::new()),
        Some(&first) => {
            let mut segments = rule.waypoints.clone();
            segments.push(sid);
            (first, segments)
        }
    };
    SrPacket {
        traffic_class: packet.tos,
        hop_limit: rule.hop_limit,
        source,
        destination,
        segments,
        next_header: user.next_header,
        inner: user.inner,
    }
}

/// An address with an IPv4 address behind a prefix of `octets` octets, 0 to 12.
fn with_ipv4(prefix: u128, address: u32, octets: u8) -> u128 {
    prefix | u128::from(address) << (96 - 8 * u32::from(octets))
}

/// The IPv4 address behind a prefix of `octets` octets, 0 to 12.
fn ipv4_in(address: u128, octets: u8) -> u32 {
    (address >> (96 - 8 * u32::from(octets))) as u32
}

#[cfg(test)]
mod tests {
    use super::*;

    #[test]
    fn ipv4_behind_a_prefix() {
        assert_eq!(
            with_ipv4(0x2001_0db8_000d << 80, 0xc633_6407, 8),
            0x2001_0db8_000d_0000_c633_6407_0000_0000
        );
        for octets in 0..=12 {
            assert_eq!(
                ipv4_in(with_ipv4(0, 0xc000_0201, octets), octets),
                0xc000_0201
            );
        }
        assert_eq!(with_ipv4(0, 0xc000_0201, 12), 0xc000_0201);
    }
}
