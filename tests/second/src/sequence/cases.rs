//! Packets for the readers from a seed: those of the calls, and G-PDUs with any of E, S and PN
//! and Echo Requests, with the same damage.

use super::read;
use crate::generate::packets::{self, GtpuDraft};
use crate::generate::{self, damage, tables, Call, Kind};
use crate::gtpu::{flag, ECHO_REQUEST};
use crate::rng::Rng;
use crate::vectors::{hex, unhex};

/// A packet and what its reader gives.
#[derive(Clone, Debug, PartialEq, Eq)]
pub struct Reading {
    pub call: Call,
    pub packet: Vec<u8>,
    pub sequence: u64,
}

impl Reading {
    fn new(call: Call, packet: Vec<u8>) -> Self {
        let sequence = read(call, &packet);
        Reading {
            call,
            packet,
            sequence,
        }
    }

    pub fn check(&self) -> Result<(), String> {
        self.check_by(read)
    }

    /// The same with another implementation.
    pub fn check_by(&self, run: impl FnOnce(Call, &[u8]) -> u64) -> Result<(), String> {
        match (run(self.call, &self.packet), self.sequence) {
            (found, wanted) if found == wanted => Ok(()),
            (found, wanted) => Err(format!("read {found:016x}; expected {wanted:016x}")),
        }
    }
}

/// The reading of a seed and an index. Every fourth packet is that of a call.
pub fn reading(seed: u64, index: u64) -> Reading {
    if index.is_multiple_of(4) {
        let case = generate::case(seed, index / 4);
        return Reading::new(case.call, case.packet);
    }
    let rng = &mut Rng::for_case(!seed, index);
    let kind = rng.pick(&[Kind::D, Kind::Di, Kind::D4]);
    let scene = tables::scene(rng, kind);
    let mut draft = packets::draft(rng, &scene);
    if let Some(gtpu) = draft.gtpu() {
        renumber(rng, gtpu);
    }
    let damages = rng.pick(&[0, 0, 0, 1, 1, 1, 1, 2, 3]);
    let on_octets = rng.below(damages + 1);
    for _ in on_octets..damages {
        damage::draft(rng, &mut draft);
    }
    let mut assembled = draft.assemble();
    for _ in 0..on_octets {
        damage::octets(rng, &mut assembled);
    }
    let call = match (rng.chance(2), kind.call()) {
        (true, Call::Ipv6) => Call::Ipv4,
        (true, Call::Ipv4) => Call::Ipv6,
        (false, call) => call,
    };
    Reading::new(call, assembled.octets)
}

/// Any of E, S and PN; TEID and number now and then at their ends; some Echo Requests.
fn renumber(rng: &mut Rng, gtpu: &mut GtpuDraft) {
    gtpu.flags = gtpu.flags & !7 | rng.below(8) as u8;
    if rng.chance(20) {
        gtpu.teid = rng.pick(&[0, u32::MAX]);
    }
    if rng.chance(20) {
        gtpu.sequence_number = rng.pick(&[0, u16::MAX]);
    }
    if rng.chance(5) {
        // TS 29.281, 7.2.1: S, TEID 0, and nothing that has to follow.
        gtpu.message_type = ECHO_REQUEST;
        gtpu.flags = gtpu.flags & !7 | flag::S;
        gtpu.teid = 0;
        gtpu.extensions.clear();
        gtpu.inner.clear();
    }
}

/// `sequence call value packet-hex`, the value in 16 hexadecimal digits.
pub fn line(reading: &Reading) -> String {
    format!(
        "sequence {} {:016x} {}",
        reading.call.name(),
        reading.sequence,
        hex(&reading.packet)
    )
}

pub fn parse(line: &str) -> Result<Reading, String> {
    let fields: Vec<&str> = line.split(' ').collect();
    let &["sequence", call, sequence, packet] = &fields[..] else {
        return Err(format!("{} fields, not sequence and 3 more", fields.len()));
    };
    Ok(Reading {
        call: Call::from_name(call).ok_or_else(|| format!("{call} is no call"))?,
        packet: unhex(packet).ok_or_else(|| format!("{packet} is not hex"))?,
        sequence: u64::from_str_radix(sequence, 16)
            .map_err(|_| format!("{sequence} is not a value in hex"))?,
    })
}

#[cfg(test)]
mod tests {
    use super::*;

    #[test]
    fn lines_come_back() {
        for index in 0..200 {
            let reading = reading(3, index);
            assert_eq!(parse(&line(&reading)), Ok(reading));
        }
    }

    #[test]
    fn a_difference_is_shown() {
        let right = parse("sequence ipv6 0000000000000000 60").unwrap();
        assert_eq!(right.check(), Ok(()));
        let wrong = parse("sequence ipv6 0001000000050009 60").unwrap();
        assert_eq!(
            wrong.check().unwrap_err(),
            "read 0000000000000000; expected 0001000000050009"
        );
    }

    #[test]
    fn wrong_lines() {
        for line in [
            "sequence ipv6 0",
            "sequence ipv5 0 60",
            "sequence ipv6 g 60",
            "sequence ipv6 0 6",
            "sequence ipv6 0 60 60",
        ] {
            assert!(parse(line).is_err(), "{line}");
        }
        assert!(parse("sequence ipv4 0 -").is_ok());
    }
}
