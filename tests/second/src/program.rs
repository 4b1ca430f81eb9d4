//! What the program `worked` of the library reads, and the lines that it should
//! print: the calls of the worked packets, their readings, worked bursts, then cases
//! and bursts of a seed; or, in a run of their own, worked ICMPv6 messages and those of
//! a seed.

use crate::answer::Answer;
use crate::burst::cases::Burst;
use crate::generate::{self, Call, Case};
use crate::icmp::cases::IcmpCase;
use crate::sequence::cases::Reading;
use crate::{burst, icmp, sequence, vectors, worked};

/// Standard input and output of the program.
pub struct Run {
    pub input: Vec<u8>,
    pub output: String,
    last_table: Vec<u8>,
}

/// What keeps the input small.
const MAX_PACKET: usize = 400;
const MAX_TABLE: usize = 500;
const PACKETS_PER_TABLE: u64 = 64;
const MAX_BURST: usize = 800;

/// Bursts of a seed for each 100 cases of a kind.
const BURSTS_PER_100: u64 = 10;

/// Tables tried before the cases wanted are given up.
const MAX_INDEX: u64 = 100_000;

/// A table length that says: the table of the call before.
const SAME_TABLE: u16 = 0xffff;

/// Added to the IP version, it says: the reader.
const READER: u8 = 0x80;

/// Added to the IP version, it says: a burst.
const BURST: u8 = 0x40;

/// Added to the IP version, it says: the ICMPv6 message.
const ICMP: u8 = 0x20;

/// What stands in the places for answers before a burst.
const BEFORE: u64 = u64::MAX;

fn version(call: Call) -> u8 {
    match call {
        Call::Ipv6 => 6,
        Call::Ipv4 => 4,
    }
}

impl Run {
    fn new() -> Self {
        Run {
            input: Vec::new(),
            output: String::new(),
            last_table: Vec::new(),
        }
    }

    /// The lengths and the name before a call's octets in the input: name length (1
    /// octet), function (1), table length (2), packet length (4), room (4), name.
    /// The function is the IP version, and [`READER`] more for the reader, [`BURST`] for a burst,
    /// [`ICMP`] for the ICMPv6 message.
    fn begin(&mut self, name: &str, function: u8, table: u16, packet: usize, room: usize) {
        self.input.extend([name.len() as u8, function]);
        self.input.extend(table.to_be_bytes());
        self.input.extend((packet as u32).to_be_bytes());
        self.input.extend((room as u32).to_be_bytes());
        self.input.extend(name.as_bytes());
    }

    /// The beginning, then the table; table length FFFF is the table of the call before.
    fn begin_with(&mut self, name: &str, function: u8, packet: usize, table: &[u8], room: usize) {
        let table_length = if self.last_table == table {
            SAME_TABLE
        } else {
            table.len() as u16
        };
        self.begin(name, function, table_length, packet, room);
        if table_length != SAME_TABLE {
            self.input.extend(table);
            self.last_table = table.to_vec();
        }
    }

    /// A call in the input: its beginning, then table and packet. In the output: the
    /// name, the answer's fields, the octets sent.
    fn add(&mut self, name: &str, call: Call, packet: &[u8], table: &[u8], room: usize) {
        self.begin_with(name, version(call), packet.len(), table, room);
        self.input.extend(packet);

        let mut out = vec![0; room];
        let answer = call.run(packet, table, &mut out);
        self.print(name, answer, &out[..answer.length as usize]);
    }

    /// An ICMPv6 message: as a call in the input and in the output.
    fn add_message(&mut self, name: &str, case: &IcmpCase) {
        let function = ICMP | version(Call::Ipv6);
        self.begin_with(name, function, case.packet.len(), &case.table, case.room);
        self.input.extend(&case.packet);
        self.print(name, case.answer, &case.sent);
    }

    fn print(&mut self, name: &str, answer: Answer, sent: &[u8]) {
        let Answer {
            number,
            icmp_type,
            icmp_code,
            icmp_pointer,
            length,
        } = answer;
        self.output.push_str(&format!(
            "{name}: {number} {icmp_type} {icmp_code} {icmp_pointer} {length} "
        ));
        self.output.push_str(&vectors::hex(sent));
        self.output.push('\n');
    }

    /// A burst in the input: in the place of a packet the number of lengths (1 octet)
    /// and of places for answers (1), the lengths (4 each), the packets. In the
    /// output: the name, the burst's answer, every place, the octets sent.
    fn add_burst(&mut self, name: &str, burst: &Burst) {
        let mut octets = vec![burst.lengths.len() as u8, burst.places as u8];
        octets.extend(burst.lengths.iter().flat_map(|length| length.to_be_bytes()));
        octets.extend(&burst.packets);
        let function = BURST | version(burst.call);
        self.begin_with(name, function, octets.len(), &burst.table, burst.room);
        self.input.extend(octets);

        self.output
            .push_str(&format!("{name}: {:016x} ", burst.answer.pack()));
        for place in 0..burst.places {
            let answer = burst
                .answers
                .get(place)
                .map_or(BEFORE, |answer| answer.pack());
            self.output.push_str(&format!("{answer:016x} "));
        }
        for octet in &burst.sent {
            self.output.push_str(&format!("{octet:02x}"));
        }
        self.output.push('\n');
    }

    /// A reading in the input: its beginning, with room 0 and the table of the call
    /// before, then the packet. In the output: the name, TEID and sequence number,
    /// or `-` for none.
    fn add_reading(&mut self, name: &str, reading: &Reading) {
        let function = READER | version(reading.call);
        self.begin(name, function, SAME_TABLE, reading.packet.len(), 0);
        self.input.extend(&reading.packet);

        let found = match reading.sequence {
            0 => "-".to_string(),
            sequence => format!("{:08x} {}", (sequence >> 16) as u32, sequence as u16),
        };
        self.output.push_str(&format!("{name}: {found}\n"));
    }
}

/// The worked packets that are calls, but longer ones than `max_worked`, the
/// worked packets for the readers, the worked bursts, then `per_kind` cases of each
/// kind and some bursts.
pub fn run(seed: u64, per_kind: u64, max_worked: usize) -> Result<Run, String> {
    let mut run = Run::new();
    for worked in worked::calls() {
        if worked.packet.len() > max_worked {
            continue;
        }
        run.add(
            worked.words,
            worked.call,
            &worked.packet,
            &worked.table,
            worked.room,
        );
    }
    for worked in sequence::worked::readings() {
        run.add_reading(worked.words, &worked.reading);
    }
    for worked in worked::burst::bursts() {
        if worked.burst.packets.len() <= max_worked {
            run.add_burst(worked.words, &worked.burst);
        }
    }
    for ((index, packet), case) in vectors::select_from(cases(seed), per_kind, MAX_PACKET)? {
        let name = format!("{} {seed}:{index}:{packet}", case.kind.name());
        run.add(&name, case.call, &case.packet, &case.table, case.room);
    }
    let wanted = per_kind * BURSTS_PER_100 / 100;
    for (index, burst) in short_bursts(seed).take(wanted as usize) {
        run.add_burst(&format!("burst {seed}:{index}"), &burst);
    }
    Ok(run)
}

/// The worked ICMPv6 messages, but those about longer packets than `max_worked`, and
/// then so many packets for ICMPv6 messages.
pub fn messages(seed: u64, cases: u64, max_worked: usize) -> Run {
    let mut run = Run::new();
    for worked in worked::icmp::messages() {
        if worked.case.packet.len() <= max_worked {
            run.add_message(worked.words, &worked.case);
        }
    }
    for (index, case) in short_messages(seed).take(cases as usize) {
        run.add_message(&format!("icmp {seed}:{index}"), &case);
    }
    run
}

/// Several packets for each table that is short enough, with index and packet number.
fn cases(seed: u64) -> impl Iterator<Item = ((u64, u64), Case)> {
    (0..MAX_INDEX)
        .flat_map(move |index| {
            (0..PACKETS_PER_TABLE)
                .map(move |packet| ((index, packet), generate::another(seed, index, packet)))
        })
        .filter(|(_, case)| case.table.len() <= MAX_TABLE)
}

/// Bursts that are short enough, with a table that is.
fn short_bursts(seed: u64) -> impl Iterator<Item = (u64, Burst)> {
    burst::cases::bursts(seed, 0).filter(|(_, burst)| {
        burst.packets.len() <= MAX_BURST
            && burst.table.len() <= MAX_TABLE
            && burst.room <= MAX_BURST
            && burst.places <= u8::MAX as usize
    })
}

/// Packets for ICMPv6 messages that are short enough, with a table that is. Of those for which none is
/// due every eighth is left: most are answered otherwise.
fn short_messages(seed: u64) -> impl Iterator<Item = (u64, IcmpCase)> {
    (0..)
        .map(move |index| (index, icmp::cases::case(seed, index)))
        .filter(|(index, case)| {
            case.packet.len() <= MAX_PACKET
                && case.table.len() <= MAX_TABLE
                && (case.answer.number != 23 || index.is_multiple_of(8))
        })
}
