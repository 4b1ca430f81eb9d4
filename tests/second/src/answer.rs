//! The answers (docs/RULES.md, Answers), and the packed answer of the C interface.

use std::fmt;

/// ICMPv6 Time Exceeded (RFC 4443, 3.3).
const TIME_EXCEEDED: u8 = 3;
/// ICMPv6 Parameter Problem (RFC 4443, 3.4).
const PARAMETER_PROBLEM: u8 = 4;
/// Parameter Problem code 4, SR Upper-layer Header Error (RFC 8986, 10.3).
const SR_UPPER_LAYER_HEADER_ERROR: u8 = 4;
/// Where Segments Left stands if the SRH follows the IPv6 header.
const SEGMENTS_LEFT_OFFSET: u16 = 43;

/// The answer numbers in words, those of `kawsarpa.h`.
const NAMES: [&str; 20] = [
    "sent",
    "table not sound",
    "malformed packet",
    "bad IPv4 header",
    "no match",
    "bad header chain",
    "hop limit exceeded",
    "bad segments left",
    "bad upper layer",
    "bad UDP",
    "bad GTP-U",
    "not a G-PDU",
    "bad extensions",
    "bad container",
    "bad inner packet",
    "too long",
    "no room",
    "bad Echo Request",
    "bad UDP checksum",
    "bad burst",
];

/// One answer: number, ICMP type, code and pointer, length.
#[derive(Clone, Copy, Debug, PartialEq, Eq, Default)]
pub struct Answer {
    pub number: u8,
    pub icmp_type: u8,
    pub icmp_code: u8,
    pub icmp_pointer: u16,
    pub length: u32,
}

impl Answer {
    pub fn sent(length: usize) -> Self {
        Answer {
            length: length as u32,
            ..Answer::default()
        }
    }

    /// Number in bits 0-7, ICMP type 8-15, code 16-23, pointer 24-39, length 40-63.
    pub fn pack(self) -> u64 {
        u64::from(self.number)
            | u64::from(self.icmp_type) << 8
            | u64::from(self.icmp_code) << 16
            | u64::from(self.icmp_pointer) << 24
            | u64::from(self.length) << 40
    }

    pub fn unpack(packed: u64) -> Self {
        Answer {
            number: packed as u8,
            icmp_type: (packed >> 8) as u8,
            icmp_code: (packed >> 16) as u8,
            icmp_pointer: (packed >> 24) as u16,
            length: (packed >> 40) as u32,
        }
    }
}

/// `0 (sent), length 164`; `8 (bad upper layer), ICMP 4 4 40` with type, code and pointer.
impl fmt::Display for Answer {
    fn fmt(&self, f: &mut fmt::Formatter) -> fmt::Result {
        let name = NAMES.get(usize::from(self.number)).unwrap_or(&"unknown");
        write!(f, "{} ({name})", self.number)?;
        let icmp = (self.icmp_type, self.icmp_code, self.icmp_pointer);
        if icmp != (0, 0, 0) {
            write!(f, ", ICMP {} {} {}", icmp.0, icmp.1, icmp.2)?;
        }
        if self.number == 0 || self.length != 0 {
            write!(f, ", length {}", self.length)?;
        }
        Ok(())
    }
}

/// Why a packet is refused, a burst, or an ICMPv6 message; the order is that in which the rows are tested.
#[derive(Clone, Copy, Debug, PartialEq, Eq)]
pub enum Refusal {
    /// 19: a burst as a whole: too many lengths, another sum, too few places for answers.
    Burst,
    /// 23: an ICMPv6 message: none is due.
    NoneDue,
    /// 1: table not sound.
    UnsoundTable,
    /// 2: too short, wrong version, or the length field disagrees.
    IpHeader,
    /// 3: IPv4 header length, checksum, fragment.
    Ipv4Header,
    /// 4: no entry or rule matches.
    NoMatch,
    /// 5: the chain of IPv6 headers.
    HeaderChain,
    /// 6: hop limit spent at a waypoint.
    HopLimit,
    /// 7: Segments Left or Last Entry.
    SegmentsLeft,
    /// 8 in the IPv6 call: the upper-layer header at this offset.
    UpperLayer { offset: u16 },
    /// 8 in the IPv4 call: dropped, no ICMP (RFC 9433, 6.7).
    NotGtpu,
    /// 9: UDP length.
    Udp,
    /// 18: UDP checksum over IPv6 wrong, or 0 where not allowed; directly after 9.
    UdpChecksum,
    /// 10: GTP-U header.
    GtpuHeader,
    /// 17: Echo Request without S, or with a TEID other than 0; in the place of 11 for that type.
    EchoRequest,
    /// 11: GTP-U message type.
    GtpuType,
    /// 12: GTP-U extension headers.
    GtpuExtension,
    /// 13: no container, or the other direction.
    Container,
    /// 14: inner packet of an IPv4v6 session.
    InnerVersion,
    /// 15: length field would pass 65,535.
    TooLong,
    /// 16: output shorter than the result.
    NoRoom,
}

impl Refusal {
    pub fn answer(self) -> Answer {
        let number = match self {
            Refusal::UnsoundTable => 1,
            Refusal::IpHeader => 2,
            Refusal::Ipv4Header => 3,
            Refusal::NoMatch => 4,
            Refusal::HeaderChain => 5,
            Refusal::HopLimit => 6,
            Refusal::SegmentsLeft => 7,
            Refusal::UpperLayer { .. } | Refusal::NotGtpu => 8,
            Refusal::Udp => 9,
            Refusal::GtpuHeader => 10,
            Refusal::GtpuType => 11,
            Refusal::GtpuExtension => 12,
            Refusal::Container => 13,
            Refusal::InnerVersion => 14,
            Refusal::TooLong => 15,
            Refusal::NoRoom => 16,
            Refusal::EchoRequest => 17,
            Refusal::UdpChecksum => 18,
            Refusal::Burst => 19,
            Refusal::NoneDue => 23,
        };
        let (icmp_type, icmp_code, icmp_pointer) = match self {
            Refusal::HopLimit => (TIME_EXCEEDED, 0, 0),
            Refusal::SegmentsLeft => (PARAMETER_PROBLEM, 0, SEGMENTS_LEFT_OFFSET),
            Refusal::UpperLayer { offset } => {
                (PARAMETER_PROBLEM, SR_UPPER_LAYER_HEADER_ERROR, offset)
            }
            _ => (0, 0, 0),
        };
        Answer {
            number,
            icmp_type,
            icmp_code,
            icmp_pointer,
            length: 0,
        }
    }
}

#[cfg(test)]
mod tests {
    use super::*;

    #[test]
    fn packs_each_part_in_its_bits() {
        let answer = Answer {
            number: 8,
            icmp_type: 4,
            icmp_code: 4,
            icmp_pointer: 0x0828,
            length: 0,
        };
        assert_eq!(answer.pack(), 0x08_2804_0408);
        assert_eq!(Answer::unpack(answer.pack()), answer);
        // The most that a packet has, and that a burst sends.
        for length in [65_575, 32 * 65_575] {
            let sent = Answer::sent(length);
            assert_eq!(sent.pack(), (length as u64) << 40);
            assert_eq!(Answer::unpack(sent.pack()), sent);
        }
    }

    #[test]
    fn shows_what_is_not_0() {
        assert_eq!(Answer::sent(0).to_string(), "0 (sent), length 0");
        assert_eq!(Refusal::NotGtpu.answer().to_string(), "8 (bad upper layer)");
        assert_eq!(
            Refusal::EchoRequest.answer().to_string(),
            "17 (bad Echo Request)"
        );
        assert_eq!(
            Refusal::UdpChecksum.answer().to_string(),
            "18 (bad UDP checksum)"
        );
        assert_eq!(Refusal::Burst.answer().to_string(), "19 (bad burst)");
        assert_eq!(Answer::unpack(22).to_string(), "22 (unknown)");
        assert_eq!(Refusal::NoneDue.answer().to_string(), "23 (unknown)");
        assert_eq!(Answer::unpack(24).to_string(), "24 (unknown)");
        assert_eq!(
            Refusal::HopLimit.answer().to_string(),
            "6 (hop limit exceeded), ICMP 3 0 0"
        );
        let upper = Refusal::UpperLayer { offset: 40 };
        assert_eq!(
            upper.answer().to_string(),
            "8 (bad upper layer), ICMP 4 4 40"
        );
    }

    #[test]
    fn only_rows_6_7_and_8_name_icmp() {
        assert_eq!(Refusal::HopLimit.answer().pack(), 0x0306);
        assert_eq!(Refusal::SegmentsLeft.answer().pack(), 0x2b00_0407);
        assert_eq!(
            Refusal::UpperLayer { offset: 40 }.answer().pack(),
            0x2804_0408
        );
        assert_eq!(Refusal::NotGtpu.answer().pack(), 8);
        assert_eq!(Refusal::NoRoom.answer().pack(), 16);
        assert_eq!(Refusal::EchoRequest.answer().pack(), 17);
        assert_eq!(Refusal::UdpChecksum.answer().pack(), 18);
        assert_eq!(Refusal::Burst.answer().pack(), 19);
        assert_eq!(Refusal::NoneDue.answer().pack(), 23);
    }
}
