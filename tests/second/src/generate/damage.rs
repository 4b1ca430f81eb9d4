//! Damage: each function changes one thing and names it. Some changes are
//! allowed by the rules; the implementation says what comes out.

use super::packets::{self, Assembled, Draft, Extension, IpDraft, Repair, UpperDraft};
use super::tables::{self, entry_at, policy_at, rule_at};
use crate::gtpu::{flag, PDU_SESSION_CONTAINER};
use crate::ipv4;
use crate::rng::Rng;
use crate::table::{
    Behaviour, Ipv4Prefix, Ipv6Prefix, Table, MAX_ENTRIES, MAX_POLICIES, MAX_RULES,
};

const NEXT_HEADERS: [u8; 18] = [
    0, 43, 44, 60, 0, 43, 44, 60, 59, 6, 17, 58, 4, 41, 143, 50, 51, 135,
];

/// Takes away what matches, or moves the destination out of the prefix.
pub fn unmatch(rng: &mut Rng, table: &mut Table, draft: &mut Draft) -> &'static str {
    match &mut draft.ip {
        IpDraft::V6(header) => {
            if let (true, Ok(entry)) = (rng.chance(30), table.entry_for(header.destination)) {
                if let Some(last) = entry.prefix.length.checked_sub(1) {
                    header.destination ^= 1 << (127 - last);
                    return "destination just outside the prefix";
                }
            }
            table
                .entries
                .retain(|e| !e.prefix.matches(header.destination));
        }
        IpDraft::V4(header) => {
            if let (true, Ok(rule)) = (rng.chance(30), table.rule_for(header.destination)) {
                if let Some(last) = rule.prefix.length.checked_sub(1) {
                    header.destination ^= 1 << (31 - last);
                    return "destination just outside the prefix";
                }
            }
            table
                .rules
                .retain(|r| !r.prefix.matches(header.destination));
        }
    }
    "matching entries or rules removed"
}

/// Changes one part of a draft; all length fields stay right.
pub fn draft(rng: &mut Rng, draft: &mut Draft) -> &'static str {
    loop {
        let note = match rng.below(10) {
            0..=1 => ip_part(rng, draft),
            2..=3 => srh_part(rng, draft),
            4 => upper_part(rng, draft),
            _ => gtpu_part(rng, draft),
        };
        if let Some(note) = note {
            return note;
        }
    }
}

fn ip_part(rng: &mut Rng, draft: &mut Draft) -> Option<&'static str> {
    match &mut draft.ip {
        IpDraft::V6(header) => {
            header.hop_limit = rng.pick(&[0, 1, 2, 255]);
            Some("hop limit")
        }
        IpDraft::V4(header) => Some(match rng.below(5) {
            0 => {
                header.fragmentation |= 0x2000;
                "more fragments"
            }
            1 => {
                header.fragmentation |= 1 << rng.pick(&[0, 12, 12, 11, 8, 7, 3]);
                "fragment offset"
            }
            2 => {
                header.fragmentation = rng.u16();
                "fragmentation field"
            }
            3 => {
                let words = rng.between(1, 10);
                // Zeros leave the checksum as it is without them.
                header.options = match rng.below(3) {
                    0 => vec![0; 4 * words],
                    1 => vec![1; 4 * words],
                    _ => rng.octets(4 * words),
                };
                "options"
            }
            _ => {
                header.ttl = rng.pick(&[0, 1]);
                "time to live"
            }
        }),
    }
}

fn srh_part(rng: &mut Rng, draft: &mut Draft) -> Option<&'static str> {
    let choice = rng.below(12);
    let header = draft.v6()?;
    if choice == 0 || header.srh.is_none() && choice < 6 {
        if header.srh.take().is_some() {
            return Some("SRH removed");
        }
        let mut srh = packets::srh(rng, 0, 4);
        srh.segments_left = rng.pick(&[0, 1, srh.segments.len() as u8]);
        srh.last_entry = srh.segments.len().saturating_sub(1) as u8;
        header.srh = Some(srh);
        return Some("SRH added");
    }
    let srh = header.srh.as_mut()?;
    let note = match choice {
        1 | 2 => {
            srh.segments_left = rng.pick(&[0, 1, 2, 3, 255]);
            "segments left"
        }
        3 | 4 => {
            let entry = srh.last_entry;
            srh.segments_left = rng.pick(&[
                entry.wrapping_add(1),
                entry.wrapping_add(2),
                entry,
                entry.wrapping_add(3),
            ]);
            "segments left around last entry"
        }
        5 | 6 => {
            let held = srh.segments.len() + srh.tlvs.len() / 16;
            srh.last_entry = rng.pick(&[
                held as u8,
                (held + 1) as u8,
                held.saturating_sub(1) as u8,
                0,
                255,
            ]);
            "last entry"
        }
        7 => {
            srh.segments.clear();
            let octets = rng.pick(&[0, 8]);
            srh.tlvs = rng.octets(octets);
            srh.last_entry = rng.pick(&[0, 255]);
            "no segments held"
        }
        8 => {
            let octets = 8 * rng.between(1, 5);
            srh.tlvs = rng.octets(octets);
            "TLVs"
        }
        9 => {
            srh.segments = (0..127).map(|_| rng.u128()).collect();
            srh.tlvs = if rng.chance(50) {
                rng.octets(8)
            } else {
                Vec::new()
            };
            srh.last_entry = rng.pick(&[126, 127, 3]);
            if rng.chance(30) {
                srh.segments_left = rng.pick(&[0, 1, 127, 128]);
            }
            "longest SRH"
        }
        10 => {
            srh.routing_type = rng.pick(&[0, 2, 3, 5, 255]);
            "routing type"
        }
        _ => {
            srh.flags = rng.u8();
            srh.tag = rng.u16();
            "SRH flags and tag"
        }
    };
    if choice == 9 && rng.chance(40) {
        draft.protocol = rng.pick(&NEXT_HEADERS);
    }
    Some(note)
}

fn upper_part(rng: &mut Rng, draft: &mut Draft) -> Option<&'static str> {
    Some(match rng.below(4) {
        0 => {
            draft.protocol = rng.u8();
            "any next header"
        }
        1 => {
            let length = rng.below(12);
            draft.upper = UpperDraft::Plain(rng.octets(length));
            "upper layer replaced by a few octets"
        }
        _ => {
            draft.protocol = rng.pick(&NEXT_HEADERS);
            "next header"
        }
    })
}

fn gtpu_part(rng: &mut Rng, draft: &mut Draft) -> Option<&'static str> {
    let gtpu = draft.gtpu()?;
    Some(match rng.below(24) {
        23 => {
            let first = gtpu.extensions.first_mut()?;
            first.contents[0] ^= rng.pick(&[0x10, 0x20, 0xf0]);
            let other = other_extension(rng);
            gtpu.extensions.push(other);
            "another PDU type and another extension"
        }
        0 => {
            gtpu.flags = rng.u8();
            "GTP-U flags"
        }
        1 => {
            gtpu.flags = gtpu.flags & !7 | rng.below(8) as u8;
            "E, S, PN with the extensions kept"
        }
        2 => {
            gtpu.flags = gtpu.flags & !7 | rng.pick(&[0, flag::S, flag::PN, flag::S | flag::PN]);
            gtpu.extensions.clear();
            gtpu.last_type = rng.pick(&[0, PDU_SESSION_CONTAINER, 0x40, 255]);
            "E not set, no extensions"
        }
        3 => {
            gtpu.extensions.clear();
            gtpu.last_type = rng.pick(&[0, 0, PDU_SESSION_CONTAINER, 0x40]);
            "E set, no extensions"
        }
        4 => {
            gtpu.flags ^= rng.pick(&[0x20, 0x40, 0x80, 0x60, 0xa0]);
            "GTP-U version"
        }
        5 => {
            gtpu.flags ^= flag::PT;
            "PT"
        }
        6 => {
            gtpu.flags ^= 0x08;
            "GTP-U spare bit"
        }
        7 | 8 => {
            let any = rng.u8();
            gtpu.message_type = rng.pick(&[254, 1, 2, 26, 31, 0, any]);
            "message type"
        }
        9 => {
            let pdu_type = rng.below(2) as u8;
            let second = packets::container(rng, pdu_type);
            gtpu.extensions.push(second);
            "second container"
        }
        10 => {
            let other = other_extension(rng);
            gtpu.extensions.push(other);
            "other extension after the container"
        }
        11 => {
            let other = other_extension(rng);
            gtpu.extensions.insert(0, other);
            "other extension before the container"
        }
        12 => {
            let other = other_extension(rng);
            gtpu.extensions = vec![other];
            "other extension alone"
        }
        13 => {
            gtpu.last_type = rng.pick(&[PDU_SESSION_CONTAINER, 0x40, 1, 255]);
            "next type after the container"
        }
        14 => {
            let first = gtpu.extensions.first_mut()?;
            first.contents[0] = (rng.below(16) as u8) << 4 | first.contents[0] & 0x0f;
            "PDU type"
        }
        15 => {
            let first = gtpu.extensions.first_mut()?;
            first.contents[0] ^= 0x10;
            "the other direction"
        }
        16 => {
            let first = gtpu.extensions.first_mut()?;
            first.contents[1] = rng.pick(&[0, 0x3f, 0x40, 0x7f, 0x80, 0xff]);
            "QFI and R at their ends"
        }
        17 => {
            gtpu.destination_port = rng.pick(&[2151, 2153, 2123, 0x6808, 0, 0xffff, 2152 ^ 0x100]);
            "destination port"
        }
        18 | 19 => {
            gtpu.inner.clear();
            "inner empty"
        }
        _ => {
            let nibble = rng.below(16) as u8;
            match gtpu.inner.first_mut() {
                Some(octet) => *octet = nibble << 4 | *octet & 0x0f,
                None => gtpu.inner.push(nibble << 4),
            }
            "inner first nibble"
        }
    })
}

pub fn other_extension(rng: &mut Rng) -> Extension {
    let kind = rng.pick(&[0x01, 0x03, 0x20, 0x40, 0x81, 0x84, 0x86, 0x05, 0xc0, 0xff]);
    let length = rng.pick(&[2, 2, 6]);
    Extension {
        kind,
        contents: rng.octets(length),
    }
}

/// Changes octets of a packet that is put together.
pub fn octets(rng: &mut Rng, packet: &mut Assembled) -> &'static str {
    loop {
        let note = match rng.below(14) {
            0..=1 => ip_field(rng, packet),
            2 => srh_field(rng, packet),
            3..=5 => upper_field(rng, packet),
            6..=8 => cut(rng, packet),
            9 => append(rng, packet),
            10..=12 => checksum(rng, packet),
            _ => any_octet(rng, packet),
        };
        if let Some(note) = note {
            return note;
        }
    }
}

fn near(rng: &mut Rng, value: u16) -> usize {
    let steps = [1u16, 1, 2, 4, 8, 0xffff, 0xffff, 0xfffe, 0xfffc, 0xfff8];
    match rng.below(10) {
        0 => 0,
        1 => 0xffff,
        2 => rng.u16().into(),
        _ => value.wrapping_add(rng.pick(&steps)).into(),
    }
}

fn ip_field(rng: &mut Rng, packet: &mut Assembled) -> Option<&'static str> {
    if packet.octets.len() < 20 {
        return None;
    }
    let length_at = if packet.layout.ipv4 { 2 } else { 4 };
    let note = match rng.below(4) {
        0 | 1 => {
            let value = near(rng, packet.get16(length_at));
            packet.set16(length_at, value);
            "IP length field"
        }
        2 => {
            packet.octets[0] = packet.octets[0] & 0x0f | (rng.below(16) as u8) << 4;
            "IP version"
        }
        _ if packet.layout.ipv4 => {
            packet.octets[0] = packet.octets[0] & 0xf0 | rng.pick(&[0, 4, 6, 6, 7, 15]);
            if rng.chance(50) {
                packet.repair_checksum_over(20);
                return Some("IPv4 header length, checksum over 20 octets");
            }
            "IPv4 header length"
        }
        _ => {
            packet.octets[6] = rng.pick(&NEXT_HEADERS);
            "first next header"
        }
    };
    packet.repair_checksum();
    Some(note)
}

fn srh_field(rng: &mut Rng, packet: &mut Assembled) -> Option<&'static str> {
    let srh = packet.layout.srh?;
    if packet.octets.len() < srh + 8 {
        return None;
    }
    let left = (packet.octets.len() - srh - 8) / 8;
    let units = &mut packet.octets[srh + 1];
    *units = match rng.below(7) {
        0 => 0,
        1 => 1,
        2 => units.wrapping_add(1),
        3 => units.wrapping_sub(1),
        4 => left as u8,
        5 => (left + 1) as u8,
        _ => 255,
    };
    Some("SRH length field")
}

fn upper_field(rng: &mut Rng, packet: &mut Assembled) -> Option<&'static str> {
    packet.layout.gtpu?;
    match rng.below(7) {
        0 | 1 => udp_length(rng, packet),
        2 | 3 => gtpu_length(rng, packet),
        6 => short_message(rng, packet),
        _ => unit_count(rng, packet),
    }
}

pub fn udp_length(rng: &mut Rng, packet: &mut Assembled) -> Option<&'static str> {
    let at = packet.layout.upper + 4;
    let value = if rng.chance(20) {
        rng.below(10)
    } else {
        near(rng, packet.get16(at))
    };
    packet.set16(at, value);
    Some("UDP length")
}

pub fn gtpu_length(rng: &mut Rng, packet: &mut Assembled) -> Option<&'static str> {
    let at = packet.layout.gtpu? + 2;
    let value = near(rng, packet.get16(at));
    packet.set16(at, value);
    Some("GTP-U length")
}

fn unit_count(rng: &mut Rng, packet: &mut Assembled) -> Option<&'static str> {
    let at = packet.layout.extensions?;
    let left = packet.octets.len().checked_sub(at)? / 4;
    let units = packet.octets.get_mut(at)?;
    *units = match rng.below(7) {
        0 | 1 => 0,
        2 => units.wrapping_add(1),
        3 => left as u8,
        4 => (left + 1) as u8,
        5 => 255,
        _ => 1,
    };
    Some("unit count")
}

pub fn short_message(rng: &mut Rng, packet: &mut Assembled) -> Option<&'static str> {
    let gtpu = packet.layout.gtpu?;
    let length = gtpu + 8 + rng.below(5);
    if packet.octets.len() < length {
        return None;
    }
    let optional = rng.pick(&[0, 1, 1, 1, 2, 2, 2, 3, 4, 7]);
    packet.octets[gtpu] = flag::VERSION_1 | flag::PT | optional;
    packet.octets.truncate(length);
    packet.repair(Repair::All);
    Some("any of E, S, PN and 8 to 12 octets of GTP-U")
}

fn repair_of(rng: &mut Rng) -> Repair {
    rng.pick(&[
        Repair::Nothing,
        Repair::Ip,
        Repair::Udp,
        Repair::All,
        Repair::All,
        Repair::All,
    ])
}

/// Cuts around the limits, with some of the length fields made right again.
fn cut(rng: &mut Rng, packet: &mut Assembled) -> Option<&'static str> {
    let layout = packet.layout;
    let length = packet.octets.len();
    let header = if layout.ipv4 { 20 } else { 40 };
    let at = match rng.below(10) {
        0 => rng.below(header + 1),
        1 => rng.pick(&[0, 1, header - 1, header, header + 1]),
        2 => layout.srh.unwrap_or(header) + rng.below(25),
        3 | 4 => layout.upper + rng.below(11).min(8),
        5 | 6 => layout.gtpu.unwrap_or(layout.upper) + rng.below(13),
        7 => layout.extensions.unwrap_or(layout.upper) + rng.below(9),
        8 => (layout.inner + rng.below(3)).saturating_sub(1),
        _ => rng.below(length + 1),
    };
    if at >= length {
        return None;
    }
    packet.octets.truncate(at);
    let repair = repair_of(rng);
    packet.repair(repair);
    Some(match repair {
        Repair::Nothing => "cut",
        Repair::Ip => "cut, IP length right",
        Repair::Udp => "cut, IP and UDP lengths right",
        Repair::All => "cut, all lengths right",
    })
}

fn append(rng: &mut Rng, packet: &mut Assembled) -> Option<&'static str> {
    let count = rng.pick(&[1, 2, 4, 8, 65_535, 70_000]);
    let count = if count > 8 && !rng.chance(3) {
        rng.between(1, 16)
    } else {
        count
    };
    let more = rng.octets(count);
    packet.octets.extend(more);
    let repair = rng.pick(&[Repair::Nothing, Repair::Ip, Repair::Udp]);
    packet.repair(repair);
    Some(match repair {
        Repair::Nothing => "octets appended",
        Repair::Ip => "octets appended, IP length right",
        _ => "octets appended, IP and UDP lengths right",
    })
}

fn checksum(rng: &mut Rng, packet: &mut Assembled) -> Option<&'static str> {
    if !packet.layout.ipv4 || packet.octets.len() < 20 {
        return None;
    }
    let right = packet.get16(10);
    Some(match rng.below(7) {
        0 => {
            packet.set16(10, (right ^ 1 << rng.below(16)).into());
            "checksum with one bit wrong"
        }
        1 => {
            let wrong = rng.pick(&[!right, right.swap_bytes(), 0, 0xffff]);
            packet.set16(10, wrong.into());
            "checksum wrong"
        }
        6 => {
            let wrong = right.wrapping_add(rng.pick(&[1, 0xffff]));
            packet.set16(10, wrong.into());
            "checksum one off"
        }
        2 => {
            let at = rng.below(20);
            packet.octets[at] ^= 1 << rng.below(8);
            "header bit changed under the checksum"
        }
        choice => {
            // The identification that makes 0000 the right checksum.
            packet.set16(4, 0);
            packet.set16(10, 0);
            let rest = ipv4::checksum(&packet.octets[..20]);
            packet.set16(4, rest.into());
            if choice == 3 {
                return Some("checksum 0000");
            }
            packet.set16(10, 0xffff);
            "checksum FFFF where 0000 is right"
        }
    })
}

fn any_octet(rng: &mut Rng, packet: &mut Assembled) -> Option<&'static str> {
    let most = packet.octets.len().min(packet.layout.inner + 4);
    if most == 0 {
        return None;
    }
    let at = rng.below(most);
    packet.octets[at] = if rng.chance(50) {
        rng.u8()
    } else {
        packet.octets[at] ^ 1 << rng.below(8)
    };
    if rng.chance(80) {
        packet.repair_checksum();
    }
    Some("any octet")
}

/// Half the time the first: the value just outside the bounds.
fn first_or_other(rng: &mut Rng, values: &[u8]) -> u8 {
    if rng.chance(50) {
        values[0]
    } else {
        rng.pick(values)
    }
}

/// Breaks one soundness condition. `octets` are those of `table`.
pub fn table(rng: &mut Rng, table: &Table, octets: Vec<u8>) -> (Vec<u8>, &'static str) {
    loop {
        let mut broken = octets.clone();
        let note = match rng.below(12) {
            0 => header(rng, table, &mut broken),
            1 => length(rng, &mut broken),
            2 => too_many(rng, table, &mut broken),
            3 => twice(rng, table, &mut broken),
            4..=7 => entry(rng, table, &mut broken),
            8..=9 => rule(rng, table, &mut broken),
            _ => policy(rng, table, &mut broken),
        };
        if let Some(note) = note {
            return (broken, note);
        }
    }
}

fn header(rng: &mut Rng, table: &Table, octets: &mut [u8]) -> Option<&'static str> {
    Some(match rng.below(4) {
        0 => {
            octets[0] = rng.pick(&[0, 2, 255]);
            "format"
        }
        1 => {
            // Counts that would overflow what they are multiplied by.
            octets[2 + 2 * rng.below(3)] = rng.pick(&[1, 0x80, 0xff]);
            "huge count"
        }
        choice => {
            let at = rng.below(3);
            let count = [table.entries.len(), table.rules.len(), table.policies.len()][at] as u8;
            octets[3 + 2 * at] = if choice == 2 {
                count + 1
            } else {
                count.checked_sub(1)?
            };
            "count without its record"
        }
    })
}

fn length(rng: &mut Rng, octets: &mut Vec<u8>) -> Option<&'static str> {
    Some(match rng.below(4) {
        0 => {
            let count = rng.pick(&[1, 16, 64]);
            let more = rng.octets(count);
            octets.extend(more);
            "table octets appended"
        }
        1 => {
            octets.pop();
            "last table octet missing"
        }
        2 => {
            octets.truncate(rng.pick(&[0, 1, 15, 16]));
            "table cut near its header"
        }
        _ => {
            octets.truncate(rng.below(octets.len()));
            "table cut"
        }
    })
}

/// One record more than allowed, all of them sound.
fn too_many(rng: &mut Rng, table: &Table, octets: &mut Vec<u8>) -> Option<&'static str> {
    let mut table = table.clone();
    let note = match rng.below(3) {
        0 => {
            while table.entries.len() <= MAX_ENTRIES {
                let prefix = Ipv6Prefix::of(rng.u128(), 128);
                table
                    .entries
                    .push(tables::entry(rng, prefix, Behaviour::End));
            }
            "65 entries"
        }
        1 => {
            while table.rules.len() <= MAX_RULES {
                let prefix = Ipv4Prefix::of(rng.u32(), 32);
                if !table.rules.iter().any(|r| r.prefix == prefix) {
                    table.rules.push(tables::rule(rng, prefix));
                }
            }
            "17 rules"
        }
        _ => {
            while table.policies.len() <= MAX_POLICIES {
                table.policies.push(tables::policy(rng));
            }
            "17 policies"
        }
    };
    *octets = table.encode();
    Some(note)
}

/// A prefix with its length twice, in entries perhaps of two kinds.
fn twice(rng: &mut Rng, table: &Table, octets: &mut Vec<u8>) -> Option<&'static str> {
    let mut table = table.clone();
    let note = if rng.chance(60) && !table.entries.is_empty() && table.entries.len() < MAX_ENTRIES {
        let prefix = rng.pick(&table.entries).prefix;
        let copy = tables::entry(rng, prefix, Behaviour::End);
        table
            .entries
            .insert(rng.below(table.entries.len() + 1), copy);
        "entry prefix twice"
    } else if !table.rules.is_empty() && table.rules.len() < MAX_RULES {
        let prefix = table.rules[rng.below(table.rules.len())].prefix;
        let copy = tables::rule(rng, prefix);
        table.rules.insert(rng.below(table.rules.len() + 1), copy);
        "rule prefix twice"
    } else {
        return None;
    };
    *octets = table.encode();
    Some(note)
}

fn entry(rng: &mut Rng, table: &Table, octets: &mut [u8]) -> Option<&'static str> {
    if table.entries.is_empty() {
        return None;
    }
    let index = rng.below(table.entries.len());
    let entry = &table.entries[index];
    let record = &mut octets[entry_at(index)..];
    let behaviour = &entry.behaviour;
    let is_d = matches!(behaviour, Behaviour::D(_) | Behaviour::Di(_));
    Some(match rng.below(13) {
        0 => {
            record[0] = rng.pick(&[0, 2, 40, 41, 68, 73, 255]);
            "behaviour"
        }
        1 => {
            record[1] = first_or_other(rng, &[129, 130, 255]);
            "prefix length above 128"
        }
        2 => {
            let past = 128usize
                .checked_sub(entry.prefix.length.into())
                .filter(|&bits| bits > 0)?;
            let any = rng.below(past);
            let bit = rng.pick(&[0, past - 1, any]);
            record[31 - bit / 8] |= 1 << (bit % 8);
            "bit past the prefix"
        }
        3 => {
            record[2] = 0;
            "hop limit 0"
        }
        4 if *behaviour != Behaviour::End => {
            record[3] = first_or_other(rng, &[2, 3, 16, 255]);
            "direction"
        }
        5 if *behaviour != Behaviour::End => {
            record[4] = rng.pick(&[0, 4, 6, 255]);
            "session type"
        }
        6 if is_d => {
            record[5] = first_or_other(
                rng,
                &[
                    table.policies.len() as u8,
                    table.policies.len() as u8 + 1,
                    255,
                ],
            );
            "policy that does not exist"
        }
        7 | 8 => match *behaviour {
            Behaviour::E6 { args_start, .. } => {
                if rng.chance(40) && args_start < 16 {
                    // One bit past 8a; bits past the old length are 0.
                    record[1] = 8 * args_start + 1;
                    "E6 prefix longer than 8a"
                } else {
                    record[6] = first_or_other(
                        rng,
                        &[
                            96,
                            104,
                            128,
                            255,
                            89,
                            95,
                            1,
                            4,
                            7,
                            8 * args_start + 1,
                            8 * args_start + 4,
                        ],
                    );
                    "start of Args"
                }
            }
            _ => return None,
        },
        9 | 10 => match *behaviour {
            Behaviour::E4 { places, .. } => match rng.below(3) {
                0 => {
                    record[1] = 8 * places.p + 1;
                    "E4 prefix longer than 8p"
                }
                1 => {
                    record[7] = first_or_other(rng, &[8, 9, 12, 255]);
                    "p"
                }
                _ => {
                    record[8] = first_or_other(rng, &[13, 14, 16, 255]);
                    "q"
                }
            },
            _ => return None,
        },
        11 | 12 if is_d => {
            record[9] = first_or_other(rng, &[2, 3, 128, 254, 255]);
            "zero checksum mark"
        }
        11 => {
            record[9] = first_or_other(rng, &[1, 2, 128, 255]);
            "entry reserved octet"
        }
        _ => return None,
    })
}

fn rule(rng: &mut Rng, table: &Table, octets: &mut [u8]) -> Option<&'static str> {
    if table.rules.is_empty() {
        return None;
    }
    let index = rng.below(table.rules.len());
    let rule = &table.rules[index];
    let record = &mut octets[rule_at(table, index)..];
    Some(match rng.below(11) {
        0 => {
            record[0] = first_or_other(rng, &[33, 64, 128, 255]);
            "rule prefix length above 32"
        }
        1 => {
            record[1] = 0;
            "rule hop limit 0"
        }
        2 => {
            record[2] = first_or_other(rng, &[2, 255]);
            "rule direction"
        }
        3 => {
            record[3] = rng.pick(&[0, 4, 6, 255]);
            "rule session type"
        }
        4 => {
            record[4] = first_or_other(rng, &[8, 9, 255]);
            "rule p"
        }
        5 => {
            record[5] = first_or_other(rng, &[13, 16, 255]);
            "rule q"
        }
        6 => {
            record[6] = first_or_other(rng, &[8, 9, 255]);
            "rule waypoints"
        }
        7 => {
            record[7] = rng.pick(&[1, 255]);
            "rule reserved octet"
        }
        8 => {
            let past = 32usize
                .checked_sub(rule.prefix.length.into())
                .filter(|&bits| bits > 0)?;
            let any = rng.below(past);
            let bit = rng.pick(&[0, past - 1, any]);
            record[11 - bit / 8] |= 1 << (bit % 8);
            "bit past the rule's prefix"
        }
        9 => {
            let past = 128 - 8 * usize::from(rule.places.p);
            let any = rng.below(past);
            let bit = rng.pick(&[0, past - 1, any]);
            record[31 - bit / 8] |= 1 << (bit % 8);
            "bit past 8p of the SID prefix"
        }
        _ => {
            let past = 128 - 8 * usize::from(rule.places.q);
            let any = rng.below(past);
            let bit = rng.pick(&[0, past - 1, any]);
            record[47 - bit / 8] |= 1 << (bit % 8);
            "bit past 8q of the source prefix"
        }
    })
}

fn policy(rng: &mut Rng, table: &Table, octets: &mut [u8]) -> Option<&'static str> {
    if table.policies.is_empty() {
        return None;
    }
    let index = rng.below(table.policies.len());
    let record = &mut octets[policy_at(table, index)..];
    Some(match rng.below(3) {
        0 => {
            record[0] = rng.pick(&[0, 0, 9, 9, 10, 255]);
            "policy SIDs"
        }
        1 => {
            record[1] = first_or_other(rng, &[96, 104, 255, 89, 87, 1, 4, 7]);
            "policy start of Args"
        }
        _ => {
            record[2] = rng.pick(&[1, 255]);
            "policy reserved octet"
        }
    })
}
