//! GTP-U and the PDU Session container (TS 29.281, TS 38.415; docs/RULES.md, Answers 10 to 13 and 17).

use crate::answer::Refusal;
use crate::args::ArgsMobSession;
use crate::table::Direction;
use crate::wire::Reader;

pub mod flag {
    pub const VERSION: u8 = 0xe0;
    pub const VERSION_1: u8 = 0x20;
    pub const PT: u8 = 0x10;
    pub const E: u8 = 0x04;
    pub const S: u8 = 0x02;
    pub const PN: u8 = 0x01;
}
/// Message types (TS 29.281, 6.1).
pub const ECHO_REQUEST: u8 = 1;
pub const ECHO_RESPONSE: u8 = 2;
pub const G_PDU: u8 = 255;
/// The Recovery element (TS 29.281, 8.2), one octet of value.
pub const RECOVERY: u8 = 14;
pub const PDU_SESSION_CONTAINER: u8 = 0x85;
/// What the length field does not count.
pub const MANDATORY_LENGTH: usize = 8;
const QFI: u8 = 0x3f;
const REFLECTIVE: u8 = 0x40;

/// The first two content octets of a PDU Session container.
#[derive(Clone, Copy, Debug, PartialEq, Eq)]
pub struct Container {
    first: u8,
    second: u8,
}

impl Container {
    fn is_of(self, direction: Direction) -> bool {
        self.first >> 4 == direction.pdu_type()
    }

    /// In uplink R is 0.
    fn args(self, direction: Direction, teid: u32) -> ArgsMobSession {
        ArgsMobSession {
            qfi: self.second & QFI,
            reflective: direction == Direction::Downlink && self.second & REFLECTIVE != 0,
            teid,
        }
    }

    /// What we write: other bits 0, R in downlink only.
    pub fn contents(direction: Direction, args: ArgsMobSession) -> [u8; 2] {
        let reflective = direction == Direction::Downlink && args.reflective;
        [
            direction.pdu_type() << 4,
            args.qfi & QFI | if reflective { REFLECTIVE } else { 0 },
        ]
    }
}

/// A user packet as the layouts read it.
#[derive(Clone, Copy, Debug, PartialEq, Eq)]
pub struct GPdu<'a> {
    pub args: ArgsMobSession,
    pub inner: &'a [u8],
}

/// What a reply takes from an Echo Request (TS 29.281, 7.2.1).
#[derive(Clone, Copy, Debug, PartialEq, Eq)]
pub struct EchoRequest {
    pub sequence_number: u16,
}

/// A message that D, Di and D4 take.
#[derive(Clone, Copy, Debug, PartialEq, Eq)]
pub enum Message<'a> {
    GPdu(GPdu<'a>),
    EchoRequest(EchoRequest),
}

/// Row 10; then 17 for an Echo Request, 11 to 13 for every other message.
pub fn parse(octets: &[u8], direction: Direction) -> Result<Message<'_>, Refusal> {
    let header = Header::parse(octets)?;
    match header.message_type {
        ECHO_REQUEST => header.echo_request().map(Message::EchoRequest),
        _ => header.g_pdu(direction).map(Message::GPdu),
    }
}

#[derive(Clone, Copy, Debug)]
pub struct Header<'a> {
    pub flags: u8,
    pub message_type: u8,
    pub teid: u32,
    pub sequence_number: Option<u16>,
    /// 0 if there is none.
    first_extension: u8,
    rest: &'a [u8],
}

impl<'a> Header<'a> {
    /// Row 10: cut short, not version 1 or PT 1, or the length disagrees.
    pub fn parse(octets: &'a [u8]) -> Result<Self, Refusal> {
        Self::read(octets).ok_or(Refusal::GtpuHeader)
    }

    /// Rows 10 and 11.
    pub fn of_g_pdu(octets: &'a [u8]) -> Result<Self, Refusal> {
        let header = Self::parse(octets)?;
        header.require_g_pdu()?;
        Ok(header)
    }

    /// Row 11.
    fn require_g_pdu(&self) -> Result<(), Refusal> {
        match self.message_type {
            G_PDU => Ok(()),
            _ => Err(Refusal::GtpuType),
        }
    }

    /// Rows 11 to 13.
    fn g_pdu(&self, direction: Direction) -> Result<GPdu<'a>, Refusal> {
        self.require_g_pdu()?;
        let (container, inner) = self.extensions()?;
        match container {
            Some(c) if c.is_of(direction) => Ok(GPdu {
                args: c.args(direction, self.teid),
                inner,
            }),
            _ => Err(Refusal::Container),
        }
    }

    /// Row 17: without S, or with a TEID other than 0. Nothing else is examined.
    fn echo_request(&self) -> Result<EchoRequest, Refusal> {
        match (self.sequence_number, self.teid) {
            (Some(sequence_number), 0) => Ok(EchoRequest { sequence_number }),
            _ => Err(Refusal::EchoRequest),
        }
    }

    /// The container, if there is one, and what follows the extensions; row 12.
    pub fn extensions(&self) -> Result<(Option<Container>, &'a [u8]), Refusal> {
        walk_extensions(self.first_extension, self.rest)
    }

    fn read(octets: &'a [u8]) -> Option<Self> {
        let mut reader = Reader::new(octets);
        let flags = reader.u8()?;
        let message_type = reader.u8()?;
        let length = reader.u16()?;
        let teid = reader.u32()?;
        let counted = reader.rest().len();
        let (mut sequence_number, mut first_extension) = (None, 0);
        if flags & (flag::E | flag::S | flag::PN) != 0 {
            let number = reader.u16()?;
            let _n_pdu_number = reader.u8()?;
            let next_type = reader.u8()?;
            // Any of the three brings all four octets; each field counts with its own flag only.
            if flags & flag::S != 0 {
                sequence_number = Some(number);
            }
            if flags & flag::E != 0 {
                first_extension = next_type;
            }
        }
        let sound = flags & flag::VERSION == flag::VERSION_1
            && flags & flag::PT != 0
            && usize::from(length) == counted;
        sound.then_some(Header {
            flags,
            message_type,
            teid,
            sequence_number,
            first_extension,
            rest: reader.rest(),
        })
    }
}

/// Row 12: a type but 0x85, a second container, unit count 0 or past the end.
fn walk_extensions(first: u8, octets: &[u8]) -> Result<(Option<Container>, &[u8]), Refusal> {
    let mut container = None;
    let mut next_type = first;
    let mut rest = octets;
    while next_type != 0 {
        if next_type != PDU_SESSION_CONTAINER || container.is_some() {
            return Err(Refusal::GtpuExtension);
        }
        let (found, following_type, following) =
            read_container(rest).ok_or(Refusal::GtpuExtension)?;
        container = Some(found);
        next_type = following_type;
        rest = following;
    }
    Ok((container, rest))
}

/// A container, the next type, what follows. Unit count 0 leaves no room for
/// its own length octet, so every read fails.
fn read_container(octets: &[u8]) -> Option<(Container, u8, &[u8])> {
    let units = *octets.first()?;
    let (extension, rest) = octets.split_at_checked(4 * usize::from(units))?;
    let (next_type, body) = extension.split_last()?;
    let mut reader = Reader::new(body);
    let _units = reader.u8()?;
    let container = Container {
        first: reader.u8()?,
        second: reader.u8()?,
    };
    Some((container, *next_type, rest))
}

#[cfg(test)]
mod tests {
    use super::*;

    const WORKED: [u8; 18] = [
        0x34, 0xff, 0x00, 0x0a, 0x01, 0x02, 0x03, 0x04, 0x00, 0x00, 0x00, 0x85, 0x01, 0x00, 0x49,
        0x00, 0x60, 0x00,
    ];

    /// TEID 0, number 0506.
    const ECHO: [u8; 12] = [0x32, 1, 0, 4, 0, 0, 0, 0, 5, 6, 0, 0];

    fn g_pdu(octets: &[u8], direction: Direction) -> GPdu<'_> {
        match parse(octets, direction) {
            Ok(Message::GPdu(pdu)) => pdu,
            other => panic!("{other:?}"),
        }
    }

    #[test]
    fn the_worked_packet() {
        let pdu = g_pdu(&WORKED, Direction::Downlink);
        assert_eq!(pdu.args.to_bits(), 0x26_0102_0304);
        assert_eq!(pdu.inner, [0x60, 0x00]);
        assert_eq!(parse(&WORKED, Direction::Uplink), Err(Refusal::Container));
    }

    #[test]
    fn echo_requests() {
        let sequence_number = 0x0506;
        let taken = Ok(Message::EchoRequest(EchoRequest { sequence_number }));
        for (octet, value, wanted) in [
            (0, 0x32, taken),
            (0, 0x33, taken),
            // Next type 0 and 85; nothing is there for the second.
            (0, 0x36, taken),
            (11, 0x85, taken),
            (0, 0x3f, taken),
            (0, 0x31, Err(Refusal::EchoRequest)),
            (0, 0x34, Err(Refusal::EchoRequest)),
            (4, 1, Err(Refusal::EchoRequest)),
            (7, 0x80, Err(Refusal::EchoRequest)),
            (0, 0x52, Err(Refusal::GtpuHeader)),
            (3, 5, Err(Refusal::GtpuHeader)),
            (1, ECHO_RESPONSE, Err(Refusal::GtpuType)),
        ] {
            let mut message = ECHO;
            message[octet] = value;
            for direction in [Direction::Downlink, Direction::Uplink] {
                assert_eq!(parse(&message, direction), wanted, "octet {octet}");
            }
        }
        let mut short = [0x30, 1, 0, 0, 0, 0, 0, 0];
        assert_eq!(parse(&short, Direction::Uplink), Err(Refusal::EchoRequest));
        short[0] = 0x32;
        assert_eq!(parse(&short, Direction::Uplink), Err(Refusal::GtpuHeader));
    }

    #[test]
    fn reflective_is_not_read_in_uplink() {
        let mut packet = WORKED;
        packet[13] = 0x10;
        let pdu = g_pdu(&packet, Direction::Uplink);
        assert_eq!(pdu.args.to_bits(), 0x24_0102_0304);
        assert_eq!(
            Container::contents(
                Direction::Uplink,
                ArgsMobSession {
                    reflective: true,
                    ..pdu.args
                }
            ),
            [0x10, 9]
        );
    }

    #[test]
    fn the_next_type_counts_only_with_e() {
        let mut packet = WORKED;
        packet[0] = 0x32;
        assert_eq!(parse(&packet, Direction::Downlink), Err(Refusal::Container));
        packet[11] = 0x40;
        assert_eq!(parse(&packet, Direction::Downlink), Err(Refusal::Container));
        packet[0] = 0x34;
        assert_eq!(
            parse(&packet, Direction::Downlink),
            Err(Refusal::GtpuExtension)
        );
    }

    #[test]
    fn unit_counts() {
        let mut packet = WORKED;
        packet[12] = 0;
        assert_eq!(
            parse(&packet, Direction::Downlink),
            Err(Refusal::GtpuExtension)
        );
        packet[12] = 2;
        assert_eq!(
            parse(&packet, Direction::Downlink),
            Err(Refusal::GtpuExtension)
        );
        // No octet left for the unit count.
        let mut short = WORKED[..12].to_vec();
        short[3] = 4;
        assert_eq!(
            parse(&short, Direction::Downlink),
            Err(Refusal::GtpuExtension)
        );
        // No inner octets.
        let mut empty = WORKED[..16].to_vec();
        empty[3] = 8;
        assert_eq!(g_pdu(&empty, Direction::Downlink).inner, []);
    }
}
