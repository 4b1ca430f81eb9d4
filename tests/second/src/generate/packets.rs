//! Valid packets for a scene, as drafts that can be changed before they are put together.

use super::tables::{Destination, Scene};
use super::{checksum, Kind};
use crate::gtpu::{flag, G_PDU, PDU_SESSION_CONTAINER};
use crate::ipv4;
use crate::ipv6::next_header;
use crate::rng::Rng;
use crate::table::{Behaviour, Session, SessionType};
use crate::udp::GTPU_PORT;

/// A packet layer by layer; length fields and checksums come with [`Draft::assemble`].
#[derive(Clone, Debug)]
pub struct Draft {
    pub ip: IpDraft,
    /// Next header or protocol of the upper layer.
    pub protocol: u8,
    pub upper: UpperDraft,
}

#[derive(Clone, Debug)]
pub enum IpDraft {
    V6(Ipv6Draft),
    V4(Ipv4Draft),
}

#[derive(Clone, Debug)]
pub struct Ipv6Draft {
    pub traffic_class: u8,
    pub flow_label: u32,
    pub hop_limit: u8,
    pub source: u128,
    pub destination: u128,
    pub srh: Option<SrhDraft>,
}

#[derive(Clone, Debug)]
pub struct SrhDraft {
    pub routing_type: u8,
    pub segments_left: u8,
    pub last_entry: u8,
    pub flags: u8,
    pub tag: u16,
    /// `SRH[0]` first.
    pub segments: Vec<u128>,
    /// Octets after the segments, a multiple of 8.
    pub tlvs: Vec<u8>,
}

#[derive(Clone, Debug)]
pub struct Ipv4Draft {
    pub tos: u8,
    pub identification: u16,
    /// Reserved bit, DF, MF, offset.
    pub fragmentation: u16,
    pub ttl: u8,
    pub source: u32,
    pub destination: u32,
    /// A multiple of 4.
    pub options: Vec<u8>,
}

#[derive(Clone, Debug)]
pub enum UpperDraft {
    Gtpu(GtpuDraft),
    Plain(Vec<u8>),
}

#[derive(Clone, Debug)]
pub struct GtpuDraft {
    pub source_port: u16,
    pub destination_port: u16,
    /// Over IPv4; over IPv6 the right one takes its place.
    pub udp_checksum: u16,
    pub flags: u8,
    pub message_type: u8,
    pub teid: u32,
    pub sequence_number: u16,
    pub n_pdu_number: u8,
    /// The next type where no extension follows.
    pub last_type: u8,
    pub extensions: Vec<Extension>,
    pub inner: Vec<u8>,
}

/// Type and contents, 4n - 2 octets.
#[derive(Clone, Debug)]
pub struct Extension {
    pub kind: u8,
    pub contents: Vec<u8>,
}

impl Draft {
    pub fn v6(&mut self) -> Option<&mut Ipv6Draft> {
        match &mut self.ip {
            IpDraft::V6(header) => Some(header),
            IpDraft::V4(_) => None,
        }
    }

    pub fn v4(&mut self) -> Option<&mut Ipv4Draft> {
        match &mut self.ip {
            IpDraft::V4(header) => Some(header),
            IpDraft::V6(_) => None,
        }
    }

    pub fn srh(&mut self) -> Option<&mut SrhDraft> {
        self.v6()?.srh.as_mut()
    }

    pub fn gtpu(&mut self) -> Option<&mut GtpuDraft> {
        match &mut self.upper {
            UpperDraft::Gtpu(gtpu) => Some(gtpu),
            UpperDraft::Plain(_) => None,
        }
    }

    pub fn inner(&mut self) -> &mut Vec<u8> {
        match &mut self.upper {
            UpperDraft::Gtpu(gtpu) => &mut gtpu.inner,
            UpperDraft::Plain(octets) => octets,
        }
    }

    /// Octets before the inner packet.
    pub fn overhead(&self) -> usize {
        let ip = match &self.ip {
            IpDraft::V6(header) => {
                40 + header
                    .srh
                    .as_ref()
                    .map_or(0, |srh| 8 + 16 * srh.segments.len() + srh.tlvs.len())
            }
            IpDraft::V4(header) => 20 + header.options.len(),
        };
        let upper = match &self.upper {
            UpperDraft::Gtpu(gtpu) => 8 + gtpu.header_length(),
            UpperDraft::Plain(_) => 0,
        };
        ip + upper
    }

    /// As long as the outermost length field allows.
    pub fn longest_inner(&self) -> usize {
        let counted_from = match &self.ip {
            IpDraft::V6(_) => 40,
            IpDraft::V4(_) => 0,
        };
        65_535 + counted_from - self.overhead()
    }

    pub fn assemble(&self) -> Assembled {
        let mut octets = Vec::new();
        let mut layout = Layout::default();
        match &self.ip {
            IpDraft::V6(header) => {
                let first =
                    6 << 28 | u32::from(header.traffic_class) << 20 | header.flow_label & 0xf_ffff;
                octets.extend(first.to_be_bytes());
                octets.extend([0, 0]);
                octets.push(if header.srh.is_some() {
                    next_header::ROUTING
                } else {
                    self.protocol
                });
                octets.push(header.hop_limit);
                octets.extend(header.source.to_be_bytes());
                octets.extend(header.destination.to_be_bytes());
                if let Some(srh) = &header.srh {
                    layout.srh = Some(octets.len());
                    let units = (16 * srh.segments.len() + srh.tlvs.len()) / 8;
                    octets.extend([
                        self.protocol,
                        units as u8,
                        srh.routing_type,
                        srh.segments_left,
                        srh.last_entry,
                        srh.flags,
                    ]);
                    octets.extend(srh.tag.to_be_bytes());
                    octets.extend(
                        srh.segments
                            .iter()
                            .flat_map(|segment| segment.to_be_bytes()),
                    );
                    octets.extend(&srh.tlvs);
                }
            }
            IpDraft::V4(header) => {
                layout.ipv4 = true;
                octets.extend([
                    0x40 | (5 + header.options.len() / 4) as u8,
                    header.tos,
                    0,
                    0,
                ]);
                octets.extend(header.identification.to_be_bytes());
                octets.extend(header.fragmentation.to_be_bytes());
                octets.extend([header.ttl, self.protocol, 0, 0]);
                octets.extend(header.source.to_be_bytes());
                octets.extend(header.destination.to_be_bytes());
                octets.extend(&header.options);
            }
        }
        layout.upper = octets.len();
        match &self.upper {
            UpperDraft::Gtpu(gtpu) => {
                layout.gtpu = Some(layout.upper + 8);
                layout.extensions =
                    Some(layout.upper + 8 + if gtpu.flags & 7 != 0 { 12 } else { 8 });
                gtpu.write(&mut octets);
                layout.inner = octets.len() - gtpu.inner.len();
            }
            UpperDraft::Plain(inner) => {
                layout.inner = layout.upper;
                octets.extend(inner);
            }
        }
        let mut assembled = Assembled { octets, layout };
        assembled.repair(Repair::All);
        assembled.repair_udp_checksum();
        assembled
    }
}

impl GtpuDraft {
    fn header_length(&self) -> usize {
        let optional = if self.flags & 7 != 0 { 4 } else { 0 };
        8 + optional
            + self
                .extensions
                .iter()
                .map(|e| e.contents.len() + 2)
                .sum::<usize>()
    }

    /// Length fields 0; [`Assembled::repair`] sets them.
    fn write(&self, octets: &mut Vec<u8>) {
        octets.extend(self.source_port.to_be_bytes());
        octets.extend(self.destination_port.to_be_bytes());
        octets.extend([0, 0]);
        octets.extend(self.udp_checksum.to_be_bytes());
        octets.extend([self.flags, self.message_type, 0, 0]);
        octets.extend(self.teid.to_be_bytes());
        let mut types = self
            .extensions
            .iter()
            .map(|e| e.kind)
            .chain([self.last_type]);
        if self.flags & 7 != 0 {
            octets.extend(self.sequence_number.to_be_bytes());
            octets.push(self.n_pdu_number);
            octets.extend(types.next());
        }
        for extension in &self.extensions {
            octets.push(((extension.contents.len() + 2) / 4) as u8);
            octets.extend(&extension.contents);
            octets.push(types.next().unwrap_or(0));
        }
        octets.extend(&self.inner);
    }
}

/// Where the layers begin.
#[derive(Clone, Copy, Debug, Default)]
pub struct Layout {
    pub ipv4: bool,
    pub srh: Option<usize>,
    pub upper: usize,
    pub gtpu: Option<usize>,
    pub extensions: Option<usize>,
    pub inner: usize,
}

#[derive(Clone, Debug)]
pub struct Assembled {
    pub octets: Vec<u8>,
    pub layout: Layout,
}

/// Which length fields are made right.
#[derive(Clone, Copy, Debug, PartialEq, Eq, PartialOrd, Ord)]
pub enum Repair {
    Nothing,
    Ip,
    Udp,
    All,
}

impl Assembled {
    pub fn set16(&mut self, at: usize, value: usize) {
        if let Some(place) = self.octets.get_mut(at..at + 2) {
            place.copy_from_slice(&(value as u16).to_be_bytes());
        }
    }

    pub fn get16(&self, at: usize) -> u16 {
        match self.octets.get(at..at + 2) {
            Some(&[high, low]) => u16::from_be_bytes([high, low]),
            _ => 0,
        }
    }

    /// Sets the length fields that are there; over IPv4 also the checksum.
    pub fn repair(&mut self, repair: Repair) {
        let length = self.octets.len();
        if let Some(gtpu) = self.layout.gtpu {
            if repair >= Repair::All && length >= gtpu + 8 {
                self.set16(gtpu + 2, length - gtpu - 8);
            }
            if repair >= Repair::Udp && length >= self.layout.upper + 8 {
                self.set16(self.layout.upper + 4, length - self.layout.upper);
            }
        }
        if repair >= Repair::Ip {
            if self.layout.ipv4 {
                self.set16(2, length);
            } else if length >= 40 {
                self.set16(4, length - 40);
            }
        }
        self.repair_checksum();
    }

    /// Over as many octets as the header length field says.
    pub fn repair_checksum(&mut self) {
        if let Some(first) = self.octets.first() {
            self.repair_checksum_over(4 * usize::from(first & 0x0f));
        }
    }

    /// Where the checksum over IPv6 stands, and what is right there, if all of UDP's header is.
    pub fn udp_checksum(&self) -> Option<(usize, u16)> {
        let upper = self.layout.upper;
        self.layout.gtpu.filter(|_| !self.layout.ipv4)?;
        let datagram = self.octets.get(upper..).filter(|d| d.len() >= 8)?;
        Some((upper + 6, checksum::right(&self.octets[8..40], datagram)))
    }

    /// Over IPv4 it stays.
    pub fn repair_udp_checksum(&mut self) {
        if let Some((at, right)) = self.udp_checksum() {
            self.set16(at, right.into());
        }
    }

    pub fn repair_checksum_over(&mut self, length: usize) {
        if self.layout.ipv4 && self.octets.len() >= 20 {
            self.set16(10, 0);
            let length = length.clamp(20, self.octets.len());
            let checksum = ipv4::checksum(&self.octets[..length]);
            self.set16(10, checksum.into());
        }
    }
}

pub fn draft(rng: &mut Rng, scene: &Scene) -> Draft {
    match scene.destination {
        Destination::Ipv4(destination) => d4_draft(rng, scene, destination),
        Destination::Ipv6(destination) => v6_draft(rng, scene, destination),
    }
}

fn v6_draft(rng: &mut Rng, scene: &Scene, destination: u128) -> Draft {
    let entry = scene
        .table
        .entry_for(destination)
        .expect("a scene's destination matches");
    let mut header = Ipv6Draft {
        traffic_class: rng.u8(),
        flow_label: rng.u32(),
        hop_limit: rng.u8(),
        source: rng.u128(),
        destination,
        srh: None,
    };
    match entry.behaviour {
        Behaviour::End => {
            header.hop_limit = if rng.chance(30) {
                2
            } else {
                rng.between(2, 255) as u8
            };
            let mut srh = srh(rng, 1, 9);
            let any = rng.below(srh.segments.len());
            srh.last_entry = rng.pick(&[srh.segments.len() - 1, any]) as u8;
            let most = usize::from(srh.last_entry) + 1;
            srh.segments_left = if rng.chance(30) {
                most as u8
            } else {
                rng.between(1, most) as u8
            };
            header.srh = Some(srh);
            let protocol = rng.pick(&[4, 17, 41, 43 + 16, 58, 143, 6, 50, 51, 135]);
            let inner = small_inner(rng);
            let mut draft = Draft {
                ip: IpDraft::V6(header),
                protocol,
                upper: UpperDraft::Plain(inner),
            };
            grow(rng, &mut draft, usize::MAX);
            draft
        }
        Behaviour::D(inbound) | Behaviour::Di(inbound) => {
            header.srh = srh_with_sl_0(rng, 35);
            let gtpu = gtpu(rng, inbound.session);
            let mut draft = Draft {
                ip: IpDraft::V6(header),
                protocol: next_header::UDP,
                upper: UpperDraft::Gtpu(gtpu),
            };
            let segments = scene.table.policies[inbound.policy].sids.len()
                + usize::from(scene.kind == Kind::Di);
            grow(rng, &mut draft, 65_535 - 8 - 16 * segments);
            draft
        }
        Behaviour::E6 { session, .. } => {
            let mut srh = srh(rng, 1, 9);
            srh.segments_left = 1;
            srh.last_entry = rng.below(srh.segments.len()) as u8;
            header.srh = Some(srh);
            sr_draft(rng, header, session, 65_535 - 24)
        }
        Behaviour::E4 { session, .. } => {
            header.srh = srh_with_sl_0(rng, 50);
            sr_draft(rng, header, session, 65_535 - 44)
        }
    }
}

fn sr_draft(rng: &mut Rng, header: Ipv6Draft, session: Session, limit: usize) -> Draft {
    let protocol = match session.session_type {
        SessionType::Ipv4 => next_header::IPV4,
        SessionType::Ipv6 => next_header::IPV6,
        SessionType::Ipv4v6 => rng.pick(&[next_header::IPV4, next_header::IPV6]),
        SessionType::Ethernet => next_header::ETHERNET,
    };
    let inner = small_inner(rng);
    let mut draft = Draft {
        ip: IpDraft::V6(header),
        protocol,
        upper: UpperDraft::Plain(inner),
    };
    grow(rng, &mut draft, limit);
    draft
}

fn d4_draft(rng: &mut Rng, scene: &Scene, destination: u32) -> Draft {
    let rule = scene
        .table
        .rule_for(destination)
        .expect("a scene's destination matches");
    let header = Ipv4Draft {
        tos: rng.u8(),
        identification: rng.u16(),
        // DF and the reserved bit make no fragment.
        fragmentation: rng.pick(&[0, 0x4000, 0x4000, 0x8000, 0xc000]),
        ttl: rng.u8(),
        source: rng.u32(),
        destination,
        options: Vec::new(),
    };
    let gtpu = gtpu(rng, rule.session);
    let mut draft = Draft {
        ip: IpDraft::V4(header),
        protocol: next_header::UDP,
        upper: UpperDraft::Gtpu(gtpu),
    };
    let srh = if rule.waypoints.is_empty() {
        0
    } else {
        8 + 16 * (rule.waypoints.len() + 1)
    };
    grow(rng, &mut draft, 65_535 - srh);
    draft
}

/// An SRH with so many segments, now and then more; perhaps TLVs; SL and LE still 0.
pub fn srh(rng: &mut Rng, least: usize, most: usize) -> SrhDraft {
    let usual = if rng.chance(70) { 3 } else { 9 };
    let count = match rng.below(25) {
        // The upper layer then begins past offset 255.
        0 => rng.between(13, 20),
        // Segments Left and Last Entry may then be past 63.
        1 => rng.between(60, 120),
        _ => rng.between(least, most.min(usual).max(least)),
    };
    let tlvs = if rng.chance(30) {
        8 * rng.between(1, 4)
    } else {
        0
    };
    SrhDraft {
        routing_type: 4,
        segments_left: 0,
        last_entry: 0,
        flags: if rng.chance(50) { 0 } else { rng.u8() },
        tag: if rng.chance(50) { 0 } else { rng.u16() },
        segments: (0..count).map(|_| rng.u128()).collect(),
        tlvs: rng.octets(tlvs),
    }
}

/// For D, Di and E4: SL 0, and LE any, because it is not tested there.
fn srh_with_sl_0(rng: &mut Rng, percent: usize) -> Option<SrhDraft> {
    rng.chance(percent).then(|| {
        let mut srh = srh(rng, 0, 4);
        srh.last_entry = rng.pick(&[
            0,
            srh.segments.len().saturating_sub(1) as u8,
            srh.segments.len() as u8,
            255,
        ]);
        srh
    })
}

/// A valid G-PDU of the session: E set, S and PN any, one container.
pub fn gtpu(rng: &mut Rng, session: Session) -> GtpuDraft {
    let optional = rng.pick(&[0, 0, 0, flag::S, flag::PN, flag::S | flag::PN]);
    let spare = if rng.chance(15) { 0x08 } else { 0 };
    let mut inner = small_inner(rng);
    if session.session_type == SessionType::Ipv4v6 {
        set_nibble(rng, &mut inner);
    }
    GtpuDraft {
        source_port: rng.u16(),
        destination_port: GTPU_PORT,
        udp_checksum: if rng.chance(50) { 0 } else { rng.u16() },
        flags: flag::VERSION_1 | flag::PT | flag::E | optional | spare,
        message_type: G_PDU,
        teid: rng.u32(),
        sequence_number: rng.u16(),
        n_pdu_number: rng.u8(),
        last_type: 0,
        extensions: vec![container(rng, session.direction.pdu_type())],
        inner,
    }
}

/// A container mostly of one unit.
pub fn container(rng: &mut Rng, pdu_type: u8) -> Extension {
    let units = match rng.below(40) {
        0..=27 => 1,
        28..=33 => 2,
        34..=38 => rng.between(3, 8),
        _ => rng.pick(&[63, 64, 128, 255]),
    };
    let mut contents = rng.octets(4 * units - 2);
    contents[0] = pdu_type << 4 | contents[0] & 0x0f;
    Extension {
        kind: PDU_SESSION_CONTAINER,
        contents,
    }
}

pub fn small_inner(rng: &mut Rng) -> Vec<u8> {
    let length = match rng.below(8) {
        0 => 0,
        1 => 1,
        _ => rng.below(65),
    };
    rng.octets(length)
}

/// Makes the inner packet begin with 4 or 6.
pub fn set_nibble(rng: &mut Rng, inner: &mut Vec<u8>) {
    if inner.is_empty() {
        inner.push(rng.u8());
    }
    inner[0] = rng.pick(&[0x40, 0x60]) | inner[0] & 0x0f;
}

/// Three packets in a hundred get an inner packet around `limit`, the longest
/// that can be sent, or as long as the length field allows. Some are all ones, for
/// the most carries.
fn grow(rng: &mut Rng, draft: &mut Draft, limit: usize) {
    if !rng.chance(3) {
        return;
    }
    let most = draft.longest_inner();
    let length = match rng.below(6) {
        0 => most,
        1 => limit.saturating_sub(1),
        2 | 3 => limit,
        _ => limit.saturating_add(rng.between(1, 3)),
    };
    let inner = draft.inner();
    let wanted = length.min(most);
    if wanted > inner.len() {
        let more = rng.octets(wanted - inner.len());
        inner.extend(more);
    }
    if rng.chance(30) {
        inner.fill(0xff);
    }
    if let UpperDraft::Gtpu(gtpu) = &mut draft.upper {
        if gtpu.inner.len() > 1 {
            // Right for an IPv4v6 session and any for the others.
            set_nibble(rng, &mut gtpu.inner);
        }
    }
}
