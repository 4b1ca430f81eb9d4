//! The IPv4 header (RFC 791; docs/RULES.md, Answers 2 and 3).

use crate::answer::Refusal;
use crate::wire::Reader;

pub const HEADER_LENGTH: usize = 20;
const MORE_FRAGMENTS: u16 = 0x2000;
const FRAGMENT_OFFSET: u16 = 0x1fff;

/// An IPv4 packet whose length field agrees with the octets lent; row 3 not yet judged.
#[derive(Clone, Copy, Debug)]
pub struct Ipv4Packet<'a> {
    pub tos: u8,
    pub protocol: u8,
    pub source: u32,
    pub destination: u32,
    pub payload: &'a [u8],
    header: &'a [u8],
    header_words: u8,
    fragmentation: u16,
}

impl<'a> Ipv4Packet<'a> {
    /// Row 2: shorter than 20 octets, wrong version, or the length field disagrees.
    pub fn parse(packet: &'a [u8]) -> Result<Self, Refusal> {
        Self::read(packet).ok_or(Refusal::IpHeader)
    }

    fn read(packet: &'a [u8]) -> Option<Self> {
        let (header, payload) = packet.split_at_checked(HEADER_LENGTH)?;
        let mut reader = Reader::new(header);
        let version_and_length = reader.u8()?;
        let tos = reader.u8()?;
        let total_length = reader.u16()?;
        let _identification = reader.u16()?;
        let fragmentation = reader.u16()?;
        let _ttl = reader.u8()?;
        let protocol = reader.u8()?;
        let _checksum = reader.u16()?;
        let source = reader.u32()?;
        let destination = reader.u32()?;
        let sound = version_and_length >> 4 == 4 && usize::from(total_length) == packet.len();
        sound.then_some(Ipv4Packet {
            tos,
            protocol,
            source,
            destination,
            payload,
            header,
            header_words: version_and_length & 0x0f,
            fragmentation,
        })
    }

    /// Row 3: header length not 5, wrong checksum, a fragment. A fragment has
    /// More Fragments set or an offset; the reserved bit and DF are not examined.
    pub fn check_header(&self) -> Result<(), Refusal> {
        let fragment = self.fragmentation & (MORE_FRAGMENTS | FRAGMENT_OFFSET) != 0;
        if self.header_words == 5 && checksum_verifies(self.header) && !fragment {
            Ok(())
        } else {
            Err(Refusal::Ipv4Header)
        }
    }
}

/// One's complement sum of 16-bit words (RFC 1071).
fn ones_complement_sum(octets: &[u8]) -> u16 {
    let mut sum: u16 = 0;
    for pair in octets.chunks(2) {
        let word = u16::from_be_bytes([pair[0], pair.get(1).copied().unwrap_or(0)]);
        let (wrapped, carry) = sum.overflowing_add(word);
        // After a carry the sum is at most FFFE, so the end-around carry fits.
        sum = wrapped + u16::from(carry);
    }
    sum
}

/// The checksum of a header whose checksum field holds 0.
pub fn checksum(header: &[u8]) -> u16 {
    !ones_complement_sum(header)
}

/// Whether a header's checksum is right. Decided by RFC 1071: the sum with the
/// checksum field is FFFF, so that FFFF passes where 0000 would be computed.
pub fn checksum_verifies(header: &[u8]) -> bool {
    ones_complement_sum(header) == 0xffff
}

#[cfg(test)]
mod tests {
    use super::*;

    #[test]
    fn known_checksum() {
        // The example of many textbooks: checksum B861.
        let mut header = [
            0x45, 0x00, 0x00, 0x73, 0x00, 0x00, 0x40, 0x00, 0x40, 0x11, 0x00, 0x00, 0xc0, 0xa8,
            0x00, 0x01, 0xc0, 0xa8, 0x00, 0xc7,
        ];
        assert_eq!(checksum(&header), 0xb861);
        header[10..12].copy_from_slice(&[0xb8, 0x61]);
        assert!(checksum_verifies(&header));
        for octet in 0..header.len() {
            for bit in 0..8 {
                let mut wrong = header;
                wrong[octet] ^= 1 << bit;
                assert!(!checksum_verifies(&wrong));
            }
        }
    }

    #[test]
    fn ffff_passes_where_0000_is_computed() {
        let mut header = [0u8; 20];
        header[..4].copy_from_slice(&[0x45, 0, 0, 20]);
        let rest = checksum(&header);
        header[4..6].copy_from_slice(&rest.to_be_bytes());
        assert_eq!(checksum(&header), 0);
        assert!(checksum_verifies(&header));
        header[10..12].copy_from_slice(&[0xff, 0xff]);
        assert!(checksum_verifies(&header));
    }
}
