//! UDP around GTP-U (docs/RULES.md, Answers 8, 9 and 18), and its checksum over IPv6 (order 2; RFC 8200, 8.1).
//! Over IPv4 checksums are not examined.

use crate::answer::Refusal;
use crate::ipv6::next_header;
use crate::wire::Reader;

pub const GTPU_PORT: u16 = 2152;
pub const HEADER_LENGTH: usize = 8;
/// Where the checksum stands in the header.
pub const CHECKSUM: usize = 6;

/// A datagram to the GTP-U port.
#[derive(Clone, Copy, Debug)]
pub struct GtpuDatagram<'a> {
    pub source_port: u16,
    checksum: u16,
    pub payload: &'a [u8],
    /// The header and the payload.
    octets: &'a [u8],
}

/// A UDP datagram to the GTP-U port. Anything else is `stray` (row 8); the port
/// is read only if 8 octets are there, fewer are row 9.
pub fn to_gtpu(protocol: u8, octets: &[u8], stray: Refusal) -> Result<GtpuDatagram<'_>, Refusal> {
    if protocol != next_header::UDP {
        return Err(stray);
    }
    let (port, length, datagram) = read(octets).ok_or(Refusal::Udp)?;
    if port != GTPU_PORT {
        return Err(stray);
    }
    if usize::from(length) != octets.len() {
        return Err(Refusal::Udp);
    }
    Ok(datagram)
}

/// Destination port, length, the rest.
fn read(octets: &[u8]) -> Option<(u16, u16, GtpuDatagram<'_>)> {
    let mut reader = Reader::new(octets);
    let source_port = reader.u16()?;
    let port = reader.u16()?;
    let length = reader.u16()?;
    let checksum = reader.u16()?;
    let payload = reader.rest();
    let datagram = GtpuDatagram {
        source_port,
        checksum,
        payload,
        octets,
    };
    Some((port, length, datagram))
}

impl GtpuDatagram<'_> {
    /// Row 18. A field of 0 is no checksum; any other is verified, whether 0 is allowed or not.
    pub fn verify(&self, addresses: Addresses, zero_allowed: bool) -> Result<(), Refusal> {
        let right = match self.checksum {
            0 => zero_allowed,
            field => field == checksum(addresses, self.octets),
        };
        right.then_some(()).ok_or(Refusal::UdpChecksum)
    }
}

/// Those of the IPv6 header.
#[derive(Clone, Copy, Debug)]
pub struct Addresses {
    pub source: u128,
    pub destination: u128,
}

/// The checksum of a datagram over IPv6, whatever stands in its field: over the pseudo-header,
/// the header with 0 in the field, and the payload. Never 0: a computed 0 is sent as FFFF.
pub fn checksum(addresses: Addresses, datagram: &[u8]) -> u16 {
    let length = datagram.len() as u32;
    let mut total = words(&addresses.source.to_be_bytes());
    total += words(&addresses.destination.to_be_bytes());
    total += words(&length.to_be_bytes());
    total += words(&[0, 0, 0, next_header::UDP]);
    total += words(&datagram[..CHECKSUM]);
    total += words(&datagram[CHECKSUM + 2..]);
    match !folded(total) {
        0 => 0xffff,
        computed => computed,
    }
}

/// The sum of 16-bit words, carries and all: the octets in even places are the high halves. A last
/// one without its partner is such an octet.
pub fn words(octets: &[u8]) -> u64 {
    let value = |(place, &octet): (usize, &u8)| match place % 2 {
        0 => 256 * u64::from(octet),
        _ => u64::from(octet),
    };
    octets.iter().enumerate().map(value).sum()
}

/// The ones' complement sum: what is above 16 bits is added below, until nothing is.
pub fn folded(mut total: u64) -> u16 {
    while total > 0xffff {
        total = (total & 0xffff) + (total >> 16);
    }
    total as u16
}

#[cfg(test)]
mod tests {
    use super::*;

    const ADDRESSES: Addresses = Addresses {
        source: 0x2001_0db8_0000_0000_0000_0000_0000_0001,
        destination: 0x2001_0db8_0000_0000_0000_0000_0000_0002,
    };

    /// From 2152 to 2152. By hand: 5B75 of the addresses, 000D, 0011, 0868 twice, 000D, 6162, 6364
    /// and 6500 make 19636, which is 9637 with its carry.
    const ODD: [u8; 13] = [
        0x08, 0x68, 0x08, 0x68, 0, 13, 0x69, 0xc8, 0x61, 0x62, 0x63, 0x64, 0x65,
    ];

    fn verified(octets: &[u8], addresses: Addresses, zero_allowed: bool) -> bool {
        let datagram = to_gtpu(17, octets, Refusal::NotGtpu).unwrap();
        datagram.verify(addresses, zero_allowed).is_ok()
    }

    #[test]
    fn by_hand() {
        assert_eq!(checksum(ADDRESSES, &ODD), 0x69c8);
        // The field has no part in it.
        let mut other = ODD;
        other[6..8].fill(0);
        assert_eq!(checksum(ADDRESSES, &other), 0x69c8);
        // The last octet is the high half of a word, so a 0 behind it changes the length alone: twice.
        let mut even = [&ODD[..], &[0]].concat();
        even[5] = 14;
        assert_eq!(checksum(ADDRESSES, &even), 0x69c6);
        // Addresses exchanged are the same sum.
        let Addresses {
            source,
            destination,
        } = ADDRESSES;
        let exchanged = Addresses {
            source: destination,
            destination: source,
        };
        assert_eq!(checksum(exchanged, &ODD), 0x69c8);
    }

    /// Each bit of the datagram but those of port and length, and of the addresses.
    #[test]
    fn each_bit() {
        assert!(verified(&ODD, ADDRESSES, false));
        assert!(verified(&ODD, ADDRESSES, true));
        for bit in (0..16).chain(48..8 * ODD.len()) {
            let mut wrong = ODD;
            wrong[bit / 8] ^= 0x80 >> (bit % 8);
            assert!(!verified(&wrong, ADDRESSES, false), "bit {bit}");
            assert!(!verified(&wrong, ADDRESSES, true), "bit {bit}");
        }
        for bit in 0..128 {
            let source = Addresses {
                source: ADDRESSES.source ^ 1 << bit,
                ..ADDRESSES
            };
            let destination = Addresses {
                destination: ADDRESSES.destination ^ 1 << bit,
                ..ADDRESSES
            };
            for addresses in [source, destination] {
                assert!(!verified(&ODD, addresses, false), "address bit {bit}");
                assert!(!verified(&ODD, addresses, true), "address bit {bit}");
            }
        }
    }

    /// One field alone is right, but for 0 where that is allowed.
    #[test]
    fn each_field() {
        // The port that makes the sum FFFF: 0868 and the checksum 69C8.
        let mut steered = ODD;
        steered[..2].copy_from_slice(&[0x72, 0x30]);
        for (datagram, right) in [(ODD, 0x69c8), (steered, 0xffff)] {
            assert_eq!(checksum(ADDRESSES, &datagram), right);
            for field in 0..=u16::MAX {
                let mut with = datagram;
                with[6..8].copy_from_slice(&field.to_be_bytes());
                assert_eq!(verified(&with, ADDRESSES, false), field == right);
                let passes = field == right || field == 0;
                assert_eq!(verified(&with, ADDRESSES, true), passes);
            }
        }
    }

    #[test]
    fn carries() {
        assert_eq!(folded(0), 0);
        assert_eq!(folded(0xffff), 0xffff);
        assert_eq!(folded(0x1_0000), 1);
        assert_eq!(folded(0x1_ffff), 1);
        assert_eq!(folded(0xffff_ffff), 0xffff);
        let ones = Addresses {
            source: u128::MAX,
            destination: u128::MAX,
        };
        let mut longest = vec![0xff; 65_535];
        longest[4..6].copy_from_slice(&65_535u16.to_be_bytes());
        // All words are FFFF but 17 and the last, FF00.
        assert_eq!(checksum(ones, &longest), !(0xff00 + 17));
    }
}
