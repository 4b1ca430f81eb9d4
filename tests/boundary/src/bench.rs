//! Calls in buffers that lie at inaccessible pages.

use crate::library::{self, Export};
use crate::raw::{self, Input, Pages, Side, MOST};
use second::icmp::icmp_ipv6;
use second::{sequence, Answer, Call};

/// The exports that answer a call.
pub fn exports(call: Call) -> &'static [Export] {
    match call {
        Call::Ipv6 => &[Export::Ipv6, Export::Waypoint],
        Call::Ipv4 => &[Export::Ipv4],
    }
}

/// An output that ends at inaccessible pages, with known octets before it as
/// far as the inaccessible pages at their front.
pub struct Output {
    /// Of several sizes: all octets are compared, and most outputs are short.
    pages: Vec<Pages>,
    filler: Vec<u8>,
}

impl Output {
    pub fn new() -> Self {
        let filler: Vec<u8> = (0..MOST).map(|i| (i * 7 + i / 251 + 3) as u8).collect();
        let pages = [MOST / 64, MOST / 8, MOST]
            .map(|size| {
                let mut pages = Pages::new(size);
                pages.octets().copy_from_slice(&filler[..size]);
                pages
            })
            .into();
        Output { pages, filler }
    }

    /// Calls over the contents of `out` and leaves there what came of them. An
    /// error if an octet before the output was changed.
    pub fn call(
        &mut self,
        export: Export,
        packet: &[u8],
        table: &[u8],
        out: &mut [u8],
    ) -> (u64, Result<(), String>) {
        let fits = |pages: &&mut Pages| pages.size() > out.len();
        let pages = self.pages.iter_mut().find(fits).expect("room that fits");
        let size = pages.size();
        let (before, own) = pages.octets().split_at_mut(size - out.len());
        own.copy_from_slice(out);
        raw::lend(before, own);
        let packed = export.call(packet, table, own);
        raw::take_back(before, own, Answer::unpack(packed).length as usize);
        out.copy_from_slice(own);

        let (filler_before, filler_own) = self.filler[..size].split_at(before.len());
        own.copy_from_slice(filler_own);
        let mut kept = Ok(());
        if before != filler_before {
            let changed = before.iter().zip(filler_before).rposition(|(a, b)| a != b);
            let distance = before.len() - changed.unwrap_or(0);
            before.copy_from_slice(filler_before);
            let name = export.name();
            kept = Err(format!(
                "{name} changed the octet {distance} before the output"
            ));
        }
        (packed, kept)
    }
}

pub struct Bench {
    packet: Input,
    table: Input,
    output: Output,
    fault: Result<(), String>,
}

impl Bench {
    pub fn new() -> Self {
        Bench {
            packet: Input::new(),
            table: Input::new(),
            output: Output::new(),
            fault: Ok(()),
        }
    }

    /// Makes the call by each of its exports, with inputs that end at
    /// inaccessible pages and with inputs that begin behind some, has the
    /// sequence number of the packet read, and over IPv6 asks for an ICMPv6 message
    /// too. The answer and the octets are those of the first; [`Bench::fault`] has
    /// what differed.
    pub fn call(&mut self, call: Call, packet: &[u8], table: &[u8], out: &mut [u8]) -> u64 {
        let before = out.to_vec();
        let number = sequence::read(call, packet);
        let message = (call == Call::Ipv6).then(|| {
            let mut octets = before.clone();
            (icmp_ipv6(packet, table, &mut octets), octets)
        });
        let mut first = None;
        for side in [Side::End, Side::Start] {
            self.lend(packet, table, side);
            let read = library::sequence(call, self.packet.octets());
            if read != number {
                let name = library::reader_name(call);
                self.blame(Err(format!("{name} gives {read:016x}, not {number:016x}")));
            }
            for &export in exports(call) {
                let (packed, octets) = self.by(export, &before);
                let Some((by, wanted)) = first else {
                    first = Some((export, packed));
                    out.copy_from_slice(&octets);
                    continue;
                };
                self.blame(same(by.name(), wanted, out, export, side, packed, &octets));
            }
            if let Some((wanted, wanted_octets)) = &message {
                let (by, export) = ("the second program", Export::Icmp);
                let (packed, octets) = self.by(export, &before);
                self.blame(same(
                    by,
                    *wanted,
                    wanted_octets,
                    export,
                    side,
                    packed,
                    &octets,
                ));
            }
        }
        first.map_or(0, |(_, packed)| packed)
    }

    /// Asks for the ICMPv6 message, likewise with inputs at both sides.
    pub fn icmp(&mut self, packet: &[u8], table: &[u8], out: &mut [u8]) -> u64 {
        let (before, export) = (out.to_vec(), Export::Icmp);
        self.lend(packet, table, Side::End);
        let (packed, octets) = self.by(export, &before);
        out.copy_from_slice(&octets);
        self.lend(packet, table, Side::Start);
        let (other, octets) = self.by(export, &before);
        let side = Side::Start;
        self.blame(same(
            export.name(),
            packed,
            out,
            export,
            side,
            other,
            &octets,
        ));
        packed
    }

    fn lend(&mut self, packet: &[u8], table: &[u8], side: Side) {
        self.packet.set(packet, side);
        self.table.set(table, side);
    }

    /// What an export does with what is lent, over these contents of the output.
    fn by(&mut self, export: Export, before: &[u8]) -> (u64, Vec<u8>) {
        let mut octets = before.to_vec();
        let (packet, table) = (self.packet.octets(), self.table.octets());
        let (packed, kept) = self.output.call(export, packet, table, &mut octets);
        self.blame(kept);
        (packed, octets)
    }

    fn blame(&mut self, result: Result<(), String>) {
        if self.fault.is_ok() {
            self.fault = result;
        }
    }

    /// What was wrong since it was last asked.
    pub fn fault(&mut self) -> Result<(), String> {
        std::mem::replace(&mut self.fault, Ok(()))
    }
}

/// Whether a later call gave what the first did, or one by another.
fn same(
    by: &str,
    wanted: u64,
    out: &[u8],
    export: Export,
    side: Side,
    packed: u64,
    octets: &[u8],
) -> Result<(), String> {
    let name = export.name();
    let where_ = match side {
        Side::End => "inputs before inaccessible pages",
        Side::Start => "inputs behind inaccessible pages",
    };
    if packed != wanted {
        return Err(format!(
            "{name}, {where_}: answer {}, but {} by {by}",
            Answer::unpack(packed),
            Answer::unpack(wanted)
        ));
    }
    match octets.iter().zip(out).position(|(a, b)| a != b) {
        Some(at) => Err(format!(
            "{name}, {where_}: octet {at} of the output is {:02x}, but {:02x} by {by}",
            octets[at], out[at]
        )),
        None => Ok(()),
    }
}
