//! Order 13: TEID and sequence number of a packet as it arrives.
//!
//! "Well-formed" is said by the rows of docs/RULES.md, Answers, as at D, Di and D4. No table is asked, so
//! rows 1 and 4 are not examined, nor the UDP checksum, row 18, which an entry may allow to be 0; nor are
//! the extensions and what follows them, rows 12 to 16. An Echo Request is no G-PDU, so row 11 is for it
//! too here.

pub mod cases;
pub mod coverage;
pub mod worked;

use crate::answer::Refusal;
use crate::generate::Call;
use crate::gtpu::Header;
use crate::ipv4::Ipv4Packet;
use crate::ipv6::{HeaderChain, Ipv6Packet};
use crate::udp;

/// Set where there is a number, so that TEID 0 with number 0 is not taken for none.
const FOUND: u64 = 1 << 48;

/// For a well-formed G-PDU with S bit 48, the TEID in bits 16 to 47 and the sequence number in
/// bits 0 to 15; 0 for everything else.
pub fn read(call: Call, packet: &[u8]) -> u64 {
    match header(call, packet) {
        Ok(Header {
            teid,
            sequence_number: Some(number),
            ..
        }) => FOUND | u64::from(teid) << 16 | u64::from(number),
        _ => 0,
    }
}

/// The GTP-U header of a well-formed G-PDU.
pub fn header(call: Call, packet: &[u8]) -> Result<Header<'_>, Refusal> {
    match call {
        Call::Ipv6 => ipv6(packet),
        Call::Ipv4 => ipv4(packet),
    }
}

/// Rows 2, 5 and 7 to 11.
fn ipv6(octets: &[u8]) -> Result<Header<'_>, Refusal> {
    let packet = Ipv6Packet::parse(octets)?;
    let chain = HeaderChain::parse(&packet)?;
    chain.require_segments_left_0()?;
    let stray = chain.upper_layer_error();
    let datagram = udp::to_gtpu(chain.protocol, chain.upper, stray)?;
    Header::of_g_pdu(datagram.payload)
}

/// Rows 2, 3 and 8 to 11.
fn ipv4(octets: &[u8]) -> Result<Header<'_>, Refusal> {
    let packet = Ipv4Packet::parse(octets)?;
    packet.check_header()?;
    let stray = Refusal::NotGtpu;
    let datagram = udp::to_gtpu(packet.protocol, packet.payload, stray)?;
    Header::of_g_pdu(datagram.payload)
}

#[cfg(test)]
mod tests {
    use super::*;

    /// S alone, TEID 01020304, number 0506, N-PDU number 7, next type 8, two octets inside.
    const GTPU: [u8; 14] = [
        0x32, 0xff, 0x00, 0x06, 0x01, 0x02, 0x03, 0x04, 0x05, 0x06, 0x07, 0x08, 0x60, 0x00,
    ];
    const READ: u64 = 0x0001_0102_0304_0506;

    fn udp(gtpu: &[u8]) -> Vec<u8> {
        let length = 8 + gtpu.len() as u8;
        [&[0x12, 0x34, 0x08, 0x68, 0, length, 0xab, 0xcd], gtpu].concat()
    }

    fn over_ipv6(next_header: u8, payload: &[u8]) -> Vec<u8> {
        let mut packet = vec![0x60, 0, 0, 0, 0, payload.len() as u8, next_header, 64];
        packet.extend([0x20; 32]);
        packet.extend(payload);
        packet
    }

    /// Behind an SRH of one segment.
    fn over_srh(segments_left: u8, upper: &[u8]) -> Vec<u8> {
        let srh = [17, 2, 4, segments_left, 0, 0, 0, 0];
        over_ipv6(43, &[&srh[..], &[0x20; 16], upper].concat())
    }

    /// From 192.0.2.1 to 192.0.2.2; DF; the checksum of 42 octets by hand.
    fn over_ipv4() -> Vec<u8> {
        let header = [
            0x45, 0x00, 0x00, 0x2a, 0x00, 0x00, 0x40, 0x00, 0x40, 0x11, 0xb6, 0xbf, 192, 0, 2, 1,
            192, 0, 2, 2,
        ];
        [&header[..], &udp(&GTPU)].concat()
    }

    /// The number of the row that keeps a packet from being read.
    fn row(call: Call, packet: &[u8]) -> u8 {
        assert_eq!(read(call, packet), 0);
        header(call, packet).map_or_else(|refusal| refusal.answer().number, |_| 0)
    }

    #[test]
    fn a_number_with_s() {
        assert_eq!(read(Call::Ipv6, &over_ipv6(17, &udp(&GTPU))), READ);
        assert_eq!(read(Call::Ipv6, &over_srh(0, &udp(&GTPU))), READ);
        assert_eq!(read(Call::Ipv4, &over_ipv4()), READ);
    }

    #[test]
    fn no_number_without_s() {
        for (flags, read_as) in [
            (0x30, 0),
            (0x31, 0),
            (0x34, 0),
            (0x35, 0),
            (0x32, READ),
            (0x33, READ),
            // Type 8 is no extension that row 12 lets pass, but it is not examined here.
            (0x36, READ),
            (0x37, READ),
            (0x3a, READ),
        ] {
            let mut gtpu = GTPU;
            gtpu[0] = flags;
            let packet = over_ipv6(17, &udp(&gtpu));
            assert_eq!(read(Call::Ipv6, &packet), read_as, "flags {flags:02x}");
            assert!(header(Call::Ipv6, &packet).is_ok());
        }
    }

    #[test]
    fn a_teid_and_a_number_of_0_are_found() {
        let mut gtpu = GTPU;
        gtpu[4..10].fill(0);
        let packet = over_ipv6(17, &udp(&gtpu));
        assert_eq!(read(Call::Ipv6, &packet), 0x0001_0000_0000_0000);
        gtpu[4..10].fill(0xff);
        let packet = over_ipv6(17, &udp(&gtpu));
        assert_eq!(read(Call::Ipv6, &packet), 0x0001_ffff_ffff_ffff);
    }

    #[test]
    fn the_rows_over_ipv6() {
        let packet = over_ipv6(17, &udp(&GTPU));
        assert_eq!(row(Call::Ipv6, &[]), 2);
        assert_eq!(row(Call::Ipv6, &packet[..61]), 2);
        assert_eq!(row(Call::Ipv6, &over_ipv4()), 2);
        assert_eq!(row(Call::Ipv6, &over_ipv6(44, &udp(&GTPU))), 5);
        assert_eq!(row(Call::Ipv6, &over_ipv6(43, &[17, 0, 4])), 5);
        assert_eq!(row(Call::Ipv6, &over_srh(1, &udp(&GTPU))), 7);
        assert_eq!(row(Call::Ipv6, &over_ipv6(6, &udp(&GTPU))), 8);
        for (octet, value, number) in [
            (43, 0x69, 8),
            (45, 21, 9),
            (48, 0x52, 10),
            (48, 0x22, 10),
            (51, 5, 10),
            (49, 254, 11),
            // An Echo Request has a sequence number, but is no G-PDU.
            (49, 1, 11),
        ] {
            let mut packet = packet.clone();
            packet[octet] = value;
            assert_eq!(row(Call::Ipv6, &packet), number, "octet {octet}");
        }
    }

    #[test]
    fn the_rows_over_ipv4() {
        let packet = over_ipv4();
        assert_eq!(row(Call::Ipv4, &packet[..19]), 2);
        assert_eq!(row(Call::Ipv4, &over_ipv6(17, &udp(&GTPU))), 2);
        for (octet, value, number) in [
            (11, 0xbe, 3),
            (6, 0x60, 3),
            (23, 0x69, 8),
            (25, 21, 9),
            (28, 0x52, 10),
            (29, 1, 11),
        ] {
            let mut packet = packet.clone();
            packet[octet] = value;
            assert_eq!(row(Call::Ipv4, &packet), number, "octet {octet}");
        }
        // The header is right again but names another protocol.
        let mut packet = packet;
        (packet[9], packet[11]) = (6, 0xca);
        assert_eq!(row(Call::Ipv4, &packet), 8);
    }

    #[test]
    fn the_four_octets_have_to_be_there() {
        for length in 0..12 {
            let mut short = GTPU[..length].to_vec();
            if length >= 8 {
                short[3] = length as u8 - 8;
            }
            assert_eq!(row(Call::Ipv6, &over_ipv6(17, &udp(&short))), 10);
        }
        let mut whole = GTPU[..12].to_vec();
        whole[3] = 4;
        assert_eq!(read(Call::Ipv6, &over_ipv6(17, &udp(&whole))), READ);
    }
}
