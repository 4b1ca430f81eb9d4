//! Cases as lines of text:
//! `kind call number icmp_type icmp_code icmp_pointer length room packet-hex table-hex out-hex`.

use crate::answer::Answer;
use crate::coverage::NUMBERS;
use crate::generate::{self, Call, Case, Kind};

/// The smallest packet that can answer 15 at a kind: with 8 SIDs, 7 waypoints,
/// a container of one unit and no SRH of its own.
fn smallest_too_long(kind: Kind) -> usize {
    match kind {
        Kind::D => 64 + 65_400,
        Kind::Di => 64 + 65_384,
        Kind::D4 => 44 + 65_400,
        Kind::E4 => 40 + 65_492,
        Kind::Waypoint | Kind::E6 => usize::MAX,
    }
}

/// Whether 15 can occur at a kind, but not with packets so short.
pub fn leaves_out_15(kind: Kind, max_packet: usize) -> bool {
    kind.numbers().contains(&15) && max_packet < smallest_too_long(kind)
}

/// More room than any case has.
pub const LARGEST_ROOM: usize = 1 << 24;

/// Hexadecimal digits; `-` for no octets.
pub fn hex(octets: &[u8]) -> String {
    if octets.is_empty() {
        return "-".to_string();
    }
    const DIGITS: [u8; 16] = *b"0123456789abcdef";
    let mut text = String::with_capacity(2 * octets.len());
    for octet in octets {
        text.push(DIGITS[usize::from(octet >> 4)].into());
        text.push(DIGITS[usize::from(octet & 15)].into());
    }
    text
}

/// One line without its newline.
pub fn line(case: &Case) -> String {
    let a = &case.answer;
    format!(
        "{} {} {} {} {} {} {} {} {} {} {}",
        case.kind.name(),
        case.call.name(),
        a.number,
        a.icmp_type,
        a.icmp_code,
        a.icmp_pointer,
        a.length,
        case.room,
        hex(&case.packet),
        hex(&case.table),
        hex(&case.sent),
    )
}

/// The octets of such digits.
pub fn unhex(text: &str) -> Option<Vec<u8>> {
    if text == "-" {
        return Some(Vec::new());
    }
    let digits: Vec<u8> = text
        .chars()
        .map(|c| c.to_digit(16).map(|d| d as u8))
        .collect::<Option<_>>()?;
    let pairs = digits.chunks_exact(2);
    pairs
        .remainder()
        .is_empty()
        .then(|| pairs.map(|pair| pair[0] << 4 | pair[1]).collect())
}

/// The case of a line; its notes are lost.
pub fn parse(line: &str) -> Result<Case, String> {
    let fields: Vec<&str> = line.split(' ').collect();
    let &[kind, call, number, icmp_type, icmp_code, icmp_pointer, length, room, packet, table, sent] =
        &fields[..]
    else {
        return Err(format!("{} fields, not 11", fields.len()));
    };
    fn number_of<T: std::str::FromStr>(text: &str) -> Result<T, String> {
        text.parse()
            .map_err(|_| format!("{text} is not a number of its field"))
    }
    let room: usize = number_of(room)?;
    if room > LARGEST_ROOM {
        return Err(format!("room {room} is more than {LARGEST_ROOM}"));
    }
    let octets_of = |text: &str| unhex(text).ok_or_else(|| format!("{text} is not hex"));
    let (length, sent): (u32, Vec<u8>) = (number_of(length)?, octets_of(sent)?);
    if sent.len() != length as usize || sent.len() > room {
        return Err(format!(
            "{} octets sent, length {length}, room {room}",
            sent.len()
        ));
    }
    Ok(Case {
        kind: Kind::from_name(kind).ok_or_else(|| format!("{kind} is no kind"))?,
        call: Call::from_name(call).ok_or_else(|| format!("{call} is no call"))?,
        packet: octets_of(packet)?,
        table: octets_of(table)?,
        room,
        answer: Answer {
            number: number_of(number)?,
            icmp_type: number_of(icmp_type)?,
            icmp_code: number_of(icmp_code)?,
            icmp_pointer: number_of(icmp_pointer)?,
            length,
        },
        sent,
        notes: Vec::new(),
    })
}

/// How many cases of each number are still wanted at one kind.
struct Quota {
    kind: Kind,
    wanted: [u64; NUMBERS],
}

impl Quota {
    /// About a third sent, the rest spread evenly over the other numbers.
    fn new(kind: Kind, per_kind: u64, max_packet: usize) -> Self {
        let mut wanted = [0; NUMBERS];
        let possible =
            |number: u8| number != 0 && (number != 15 || !leaves_out_15(kind, max_packet));
        let refusals: Vec<u8> = kind
            .numbers()
            .iter()
            .copied()
            .filter(|&n| possible(n))
            .collect();
        let sent = per_kind.div_ceil(3);
        wanted[0] = sent;
        let (share, extra) = (
            (per_kind - sent) / refusals.len() as u64,
            (per_kind - sent) % refusals.len() as u64,
        );
        for (place, number) in refusals.iter().enumerate() {
            wanted[usize::from(*number)] = share + u64::from((place as u64) < extra);
        }
        Quota { kind, wanted }
    }

    fn take(&mut self, number: u8) -> bool {
        let wanted = &mut self.wanted[usize::from(number)];
        let taken = *wanted > 0;
        *wanted = wanted.saturating_sub(1);
        taken
    }

    fn left(&self) -> u64 {
        self.wanted.iter().sum()
    }
}

/// `per_kind` cases of each kind with their indices, from the cases of a seed
/// in their order. An error if they do not come up within `tries` cases.
pub fn select(
    seed: u64,
    per_kind: u64,
    max_packet: usize,
    tries: u64,
) -> Result<Vec<(u64, Case)>, String> {
    let cases = (0..tries).map(|index| (index, generate::case(seed, index)));
    let mut selected = select_from(cases, per_kind, max_packet)?;
    selected.sort_by_key(|(index, case)| {
        (
            Kind::ALL.iter().position(|&k| k == case.kind),
            case.answer.number,
            *index,
        )
    });
    Ok(selected)
}

/// The first of these named cases that make up `per_kind` of each kind, with
/// packets of at most `max_packet` octets. An error if they run out.
pub fn select_from<Name>(
    cases: impl Iterator<Item = (Name, Case)>,
    per_kind: u64,
    max_packet: usize,
) -> Result<Vec<(Name, Case)>, String> {
    let mut quotas: Vec<Quota> = Kind::ALL
        .iter()
        .map(|&kind| Quota::new(kind, per_kind, max_packet))
        .collect();
    let mut selected = Vec::new();
    let mut tries = 0;
    for (name, case) in cases {
        if quotas.iter().all(|q| q.left() == 0) {
            break;
        }
        tries += 1;
        if case.packet.len() > max_packet {
            continue;
        }
        let quota = quotas.iter_mut().find(|q| q.kind == case.kind);
        if quota.is_some_and(|q| q.take(case.answer.number)) {
            selected.push((name, case));
        }
    }
    let missing: Vec<String> = quotas
        .iter()
        .flat_map(|q| {
            q.wanted
                .iter()
                .enumerate()
                .map(|(number, &left)| (q.kind.name(), number, left))
        })
        .filter(|&(_, _, left)| left > 0)
        .map(|(kind, number, left)| format!("{kind} number {number}: {left} missing"))
        .collect();
    if !missing.is_empty() {
        return Err(format!(
            "not found in {tries} cases: {}",
            missing.join(", ")
        ));
    }
    Ok(selected)
}

#[cfg(test)]
mod tests {
    use super::*;

    #[test]
    fn quotas_add_up() {
        for kind in Kind::ALL {
            for per_kind in [0, 1, 2, 7, 100] {
                for max_packet in [400, 70_000] {
                    assert_eq!(Quota::new(kind, per_kind, max_packet).left(), per_kind);
                }
            }
        }
    }

    #[test]
    fn wrong_lines() {
        for line in [
            "",
            "D",
            "X ipv6 0 0 0 0 0 0 - - -",
            "D ipv6 0 0 0 0 0 0 0 - -",
            "D ipv6 256 0 0 0 0 0 - - -",
        ] {
            assert!(parse(line).is_err(), "{line}");
        }
        assert!(parse("D ipv6 1 0 0 0 0 0 - - -").is_ok());
    }

    #[test]
    fn a_line_has_eleven_fields() {
        for (index, case) in select(1, 20, 400, 100_000).unwrap() {
            let line = line(&case);
            assert_eq!(line.split(' ').count(), 11, "index {index}");
            assert!(!line.contains("  "));
            assert!(case.packet.len() <= 400);
            assert_eq!(
                parse(&line),
                Ok(Case {
                    notes: Vec::new(),
                    ..case
                })
            );
        }
    }
}
