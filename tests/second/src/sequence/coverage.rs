//! What the packets of readings met: of well-formed G-PDUs the flags, of others the row, over
//! IPv6 without and with an SRH and over IPv4.

use super::cases::{self, Reading};
use super::header;
use crate::generate::Call;
use crate::gtpu::{flag, ECHO_REQUEST};
use crate::ipv6::next_header;
use crate::tally::{Shape, Tally};

/// By the bits of E, S and PN, which are the three lowest.
const FLAGS: [&str; 8] = ["no flag", "PN", "S", "S PN", "E", "E PN", "E S", "E S PN"];

pub static SHAPE: Shape = Shape {
    corner: "met",
    lines: &[
        "no flag", "PN", "S", "S PN", "E", "E PN", "E S", "E S PN", "row 2", "row 3", "row 5",
        "row 7", "row 8", "row 9", "row 10", "row 11",
    ],
    columns: &["IPv6", "IPv6 SRH", "IPv4"],
    can_occur: |line, column| match line {
        "row 3" => column == "IPv4",
        "row 5" => column != "IPv4",
        "row 7" => column == "IPv6 SRH",
        _ => true,
    },
};

pub fn add(tally: &mut Tally, reading: &Reading) {
    let (call, packet) = (reading.call, &reading.packet);
    let routed = packet.get(6) == Some(&next_header::ROUTING);
    let (column, gtpu) = match call {
        Call::Ipv4 => ("IPv4", 28),
        Call::Ipv6 if routed => (
            "IPv6 SRH",
            56 + 8 * usize::from(*packet.get(41).unwrap_or(&0)),
        ),
        Call::Ipv6 => ("IPv6", 48),
    };
    let header = header(call, packet);
    let line = match &header {
        Ok(header) => FLAGS[usize::from(header.flags & 7)].to_string(),
        Err(refusal) => format!("row {}", refusal.answer().number),
    };
    let numbered = header
        .ok()
        .filter(|header| header.sequence_number.is_some());
    let number = numbered.and_then(|header| header.sequence_number);
    let extensions = numbered.map(|header| header.extensions());
    // Where row 11 applies the header is whole, and stands there.
    let echo_request =
        line == "row 11" && packet[gtpu] & flag::S != 0 && packet[gtpu + 1] == ECHO_REQUEST;
    tally.add(
        &line,
        column,
        &[
            (
                "a number of TEID 0",
                numbered.is_some_and(|header| header.teid == 0),
            ),
            ("number 0", number == Some(0)),
            ("number 65,535", number == Some(65_535)),
            (
                "a number where row 12 applies",
                matches!(extensions, Some(Err(_))),
            ),
            (
                "a number without a container",
                matches!(extensions, Some(Ok((None, _)))),
            ),
            ("an Echo Request with S", echo_request),
        ],
    );
}

/// Generates the first `cases` readings of a seed.
pub fn collect(seed: u64, cases: u64) -> Tally {
    let mut tally = Tally::new(&SHAPE);
    for index in 0..cases {
        add(&mut tally, &cases::reading(seed, index));
    }
    tally
}

#[cfg(test)]
mod tests {
    use super::*;

    #[test]
    fn no_gap() {
        let tally = collect(7, 20_000);
        assert_eq!(tally.judge(), Ok(()), "{tally}");
    }
}
