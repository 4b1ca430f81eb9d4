//! The IPv6 header and its chain (RFC 8200, RFC 8754; docs/RULES.md, Answers 2 and 5).

use crate::answer::Refusal;
use crate::wire::Reader;

pub const HEADER_LENGTH: usize = 40;

pub mod next_header {
    pub const HOP_BY_HOP: u8 = 0;
    pub const IPV4: u8 = 4;
    pub const UDP: u8 = 17;
    pub const IPV6: u8 = 41;
    pub const ROUTING: u8 = 43;
    pub const FRAGMENT: u8 = 44;
    pub const ICMPV6: u8 = 58;
    pub const DESTINATION_OPTIONS: u8 = 60;
    pub const ETHERNET: u8 = 143;
}

const SEGMENT_ROUTING_TYPE: u8 = 4;

/// An IPv6 packet whose length field agrees with the octets lent.
#[derive(Clone, Copy, Debug)]
pub struct Ipv6Packet<'a> {
    pub traffic_class: u8,
    pub next_header: u8,
    pub hop_limit: u8,
    pub source: u128,
    pub destination: u128,
    pub payload: &'a [u8],
}

impl<'a> Ipv6Packet<'a> {
    /// Row 2: shorter than 40 octets, wrong version, or the length field disagrees.
    pub fn parse(packet: &'a [u8]) -> Result<Self, Refusal> {
        Self::read(packet).ok_or(Refusal::IpHeader)
    }

    fn read(packet: &'a [u8]) -> Option<Self> {
        let mut reader = Reader::new(packet);
        let first = reader.u32()?;
        let payload_length = reader.u16()?;
        let next_header = reader.u8()?;
        let hop_limit = reader.u8()?;
        let source = reader.u128()?;
        let destination = reader.u128()?;
        let payload = reader.rest();
        let sound = first >> 28 == 6 && usize::from(payload_length) == payload.len();
        sound.then_some(Ipv6Packet {
            traffic_class: (first >> 20) as u8,
            next_header,
            hop_limit,
            source,
            destination,
            payload,
        })
    }
}

/// A Segment Routing Header that is wholly there.
#[derive(Clone, Copy, Debug)]
pub struct Srh<'a> {
    next_header: u8,
    pub segments_left: u8,
    pub last_entry: u8,
    /// What follows the first 8 octets: segments, perhaps TLVs.
    body: &'a [u8],
}

impl<'a> Srh<'a> {
    /// Row 5: routing type not 4, or cut short. Returns also what follows.
    fn parse(octets: &'a [u8]) -> Result<(Self, &'a [u8]), Refusal> {
        Self::read(octets).ok_or(Refusal::HeaderChain)
    }

    fn read(octets: &'a [u8]) -> Option<(Self, &'a [u8])> {
        let mut reader = Reader::new(octets);
        let next_header = reader.u8()?;
        let units = reader.u8()?;
        let routing_type = reader.u8()?;
        let segments_left = reader.u8()?;
        let last_entry = reader.u8()?;
        let _flags_and_tag = reader.take(3)?;
        let body = reader.take(8 * usize::from(units))?;
        let srh = Srh {
            next_header,
            segments_left,
            last_entry,
            body,
        };
        (routing_type == SEGMENT_ROUTING_TYPE).then_some((srh, reader.rest()))
    }

    /// How many segments the length field gives place to: indices 0 to this minus 1.
    pub fn segments_held(&self) -> usize {
        self.body.len() / 16
    }

    /// `SRH[index]`, if held.
    pub fn segment(&self, index: u8) -> Option<u128> {
        let octets = self.body.chunks_exact(16).nth(usize::from(index))?;
        Reader::new(octets).u128()
    }

    /// Row 7: Last Entry beyond the segments held.
    pub fn last_entry_is_held(&self) -> bool {
        usize::from(self.last_entry) < self.segments_held()
    }
}

/// The headers between the IPv6 header and the upper layer.
#[derive(Clone, Copy, Debug)]
pub struct HeaderChain<'a> {
    pub srh: Option<Srh<'a>>,
    pub protocol: u8,
    /// The upper-layer header and all that follows it.
    pub upper: &'a [u8],
    /// Where `upper` begins in the packet.
    pub upper_offset: u16,
}

impl<'a> HeaderChain<'a> {
    /// Row 5: next header 0, 44 or 60 in the chain, a second 43, routing type
    /// not 4, SRH cut short. Any other next header is the upper layer.
    pub fn parse(packet: &Ipv6Packet<'a>) -> Result<Self, Refusal> {
        let (srh, protocol, upper) = if packet.next_header == next_header::ROUTING {
            let (srh, rest) = Srh::parse(packet.payload)?;
            (Some(srh), srh.next_header, rest)
        } else {
            (None, packet.next_header, packet.payload)
        };
        match protocol {
            next_header::HOP_BY_HOP
            | next_header::ROUTING
            | next_header::FRAGMENT
            | next_header::DESTINATION_OPTIONS => Err(Refusal::HeaderChain),
            _ => {
                let srh_length = packet.payload.len() - upper.len();
                // At most 40 + 8 + 255 * 8 = 2,088.
                let upper_offset = (HEADER_LENGTH + srh_length) as u16;
                Ok(HeaderChain {
                    srh,
                    protocol,
                    upper,
                    upper_offset,
                })
            }
        }
    }

    /// Row 7 at D, Di and E4.
    pub fn require_segments_left_0(&self) -> Result<(), Refusal> {
        match self.srh {
            Some(srh) if srh.segments_left != 0 => Err(Refusal::SegmentsLeft),
            _ => Ok(()),
        }
    }

    /// Row 8 with its pointer.
    pub fn upper_layer_error(&self) -> Refusal {
        Refusal::UpperLayer {
            offset: self.upper_offset,
        }
    }
}

#[cfg(test)]
mod tests {
    use super::*;

    fn srh_octets(units: u8, last_entry: u8) -> Vec<u8> {
        let mut octets = vec![59, units, 4, 1, last_entry, 0, 0, 0];
        octets.extend((0..8 * u16::from(units)).map(|i| (i / 16) as u8));
        octets
    }

    #[test]
    fn segments_held_by_the_length_field() {
        for (units, held) in [(0u8, 0usize), (1, 0), (2, 1), (3, 1), (4, 2), (255, 127)] {
            let octets = srh_octets(units, 0);
            let (srh, rest) = Srh::parse(&octets).unwrap();
            assert_eq!(srh.segments_held(), held);
            assert!(rest.is_empty());
            assert_eq!(srh.last_entry_is_held(), held > 0);
            assert_eq!(srh.segment(held as u8), None);
        }
    }

    #[test]
    fn an_srh_cut_short_is_row_5() {
        let octets = srh_octets(2, 0);
        for length in 0..octets.len() {
            assert_eq!(
                Srh::parse(&octets[..length]).err(),
                Some(Refusal::HeaderChain)
            );
        }
    }
}
