//! Echo Requests (TS 29.281, 7.2.1) in the place of what a packet carries: such as D, Di and D4
//! answer, such as they refuse, and both at the other kinds.

use super::damage;
use super::packets::{self, Assembled, Draft, GtpuDraft, IpDraft, UpperDraft};
use super::Kind;
use crate::gtpu::{flag, ECHO_REQUEST, ECHO_RESPONSE, PDU_SESSION_CONTAINER, RECOVERY};
use crate::ipv6::next_header;
use crate::rng::Rng;
use crate::udp::GTPU_PORT;

/// The Private Extension element (TS 29.281, 8.6).
const PRIVATE_EXTENSION: u8 = 255;

/// How many packets in a hundred.
fn percent(kind: Kind) -> usize {
    match kind {
        Kind::D | Kind::Di | Kind::D4 => 10,
        Kind::Waypoint | Kind::E6 | Kind::E4 => 3,
    }
}

/// Now and then a request takes the place of what the packet carries.
pub fn instead(rng: &mut Rng, kind: Kind, draft: &mut Draft) -> Option<&'static str> {
    rng.chance(percent(kind)).then(|| put(rng, kind, draft))
}

pub fn put(rng: &mut Rng, kind: Kind, draft: &mut Draft) -> &'static str {
    draft.protocol = next_header::UDP;
    draft.upper = UpperDraft::Gtpu(request(rng));
    match kind {
        Kind::Waypoint => end_at_waypoint(rng, draft),
        _ => any_hop_limit(rng, draft),
    }
    if rng.chance(10) {
        // Too long for a G-PDU, if the policy or rule has some segments.
        let length = draft.longest_inner() - rng.below(8);
        draft.inner().resize(length, rng.u8());
    }
    "an Echo Request"
}

/// Some are cut within the first twelve octets, some have a wrong length.
pub fn damage(rng: &mut Rng, packet: &mut Assembled) -> Option<&'static str> {
    match rng.below(100) {
        0..=7 => damage::short_message(rng, packet),
        8..=10 => damage::udp_length(rng, packet),
        11..=13 => damage::gtpu_length(rng, packet),
        _ => None,
    }
}

/// Some are for the waypoint itself.
fn end_at_waypoint(rng: &mut Rng, draft: &mut Draft) {
    let Some(header) = draft.v6() else {
        return;
    };
    match (rng.below(8), &mut header.srh) {
        (0, srh) => *srh = None,
        (1, Some(srh)) => srh.segments_left = 0,
        _ => {}
    }
}

fn any_hop_limit(rng: &mut Rng, draft: &mut Draft) {
    if rng.chance(25) {
        let hop_limit = rng.pick(&[0, 0, 1, 255]);
        match &mut draft.ip {
            IpDraft::V6(header) => header.hop_limit = hop_limit,
            IpDraft::V4(header) => header.ttl = hop_limit,
        }
    }
}

/// S set and TEID 0 mostly, because only these are answered.
fn request(rng: &mut Rng) -> GtpuDraft {
    let version = match rng.below(30) {
        0 => rng.pick(&[0x10, 0x50, 0x70, 0xb0, 0x20]),
        _ => flag::VERSION_1 | flag::PT,
    };
    let spare = if rng.chance(15) { 0x08 } else { 0 };
    let numbered = if rng.chance(85) { flag::S } else { 0 };
    let (e, pn) = (flag::E, flag::PN);
    let others = rng.pick(&[0, 0, 0, 0, e, e, pn, e | pn]);
    let any = rng.u16();
    let mut request = GtpuDraft {
        source_port: rng.pick(&[0, GTPU_PORT, u16::MAX, any, any, any]),
        destination_port: match rng.below(30) {
            0 => rng.pick(&[2123, 2151, 2153, 0, any]),
            _ => GTPU_PORT,
        },
        udp_checksum: if rng.chance(50) { 0 } else { rng.u16() },
        flags: version | spare | numbered | others,
        message_type: match rng.below(16) {
            0 => ECHO_RESPONSE,
            _ => ECHO_REQUEST,
        },
        teid: teid(rng),
        sequence_number: rng.u16(),
        n_pdu_number: if rng.chance(50) { 0 } else { rng.u8() },
        last_type: if rng.chance(50) { 0 } else { rng.u8() },
        extensions: Vec::new(),
        inner: elements(rng),
    };
    if others & flag::E != 0 {
        extend(rng, &mut request);
    }
    request
}

/// 0; or not, mostly in one octet alone.
fn teid(rng: &mut Rng) -> u32 {
    match rng.below(20) {
        0..=14 => 0,
        15..=18 => (rng.between(1, 255) as u32) << rng.pick(&[0, 8, 16, 24]),
        _ => rng.u32(),
    }
}

/// Extensions that a G-PDU may have, that it may not have, and none where the next type says one.
fn extend(rng: &mut Rng, request: &mut GtpuDraft) {
    request.last_type = 0;
    let container = |rng: &mut Rng| {
        let pdu_type = rng.below(3) as u8;
        packets::container(rng, pdu_type)
    };
    match rng.below(6) {
        0 => {}
        1 | 2 => request.extensions = vec![container(rng)],
        3 => request.extensions = vec![container(rng), container(rng)],
        4 => request.extensions = vec![damage::other_extension(rng)],
        _ => {
            request.last_type = rng.pick(&[PDU_SESSION_CONTAINER, PDU_SESSION_CONTAINER, 0x40]);
            // A unit count of 0, or past the end.
            if let Some(units) = request.inner.first_mut() {
                *units = rng.pick(&[0, 255]);
            }
        }
    }
}

/// What stands behind the twelve octets and the extensions: elements, or any octets.
fn elements(rng: &mut Rng) -> Vec<u8> {
    match rng.below(12) {
        0..=4 => Vec::new(),
        5 => vec![RECOVERY, rng.u8()],
        6 | 7 => {
            let value = rng.below(40);
            let mut element = vec![PRIVATE_EXTENSION, 0, 2 + value as u8];
            element.extend(rng.octets(2 + value));
            element
        }
        8 | 9 => {
            let length = rng.between(1, 64);
            rng.octets(length)
        }
        _ => {
            let length = rng.between(200, 340);
            rng.octets(length)
        }
    }
}
