//! Cases from a seed: a sound table and a packet for it, or an Echo Request, then
//! damage to one field or a few, then the UDP checksum, then a room around the
//! result's length.
//!
//! [`case`] makes one case from a seed and an index and nothing else.

pub mod checksum;
pub mod damage;
pub mod echo;
pub mod packets;
pub mod tables;

use crate::answer::Answer;
use crate::ipv4::Ipv4Packet;
use crate::ipv6::Ipv6Packet;
use crate::rng::Rng;
use crate::table::{Behaviour, Table};
use crate::translate::{translate_ipv4, translate_ipv6};

#[derive(Clone, Copy, Debug, PartialEq, Eq)]
pub enum Call {
    Ipv6,
    Ipv4,
}

impl Call {
    pub fn name(self) -> &'static str {
        match self {
            Call::Ipv6 => "ipv6",
            Call::Ipv4 => "ipv4",
        }
    }

    pub fn from_name(name: &str) -> Option<Call> {
        [Call::Ipv6, Call::Ipv4]
            .into_iter()
            .find(|call| call.name() == name)
    }

    pub fn run(self, packet: &[u8], table: &[u8], out: &mut [u8]) -> Answer {
        Answer::unpack(translate(self, packet, table, out))
    }
}

/// Either call of this implementation; packed answer.
pub fn translate(call: Call, packet: &[u8], table: &[u8], out: &mut [u8]) -> u64 {
    match call {
        Call::Ipv6 => translate_ipv6(packet, table, out),
        Call::Ipv4 => translate_ipv4(packet, table, out),
    }
}

#[derive(Clone, Copy, Debug, PartialEq, Eq)]
pub enum Kind {
    Waypoint,
    D,
    Di,
    E6,
    E4,
    D4,
}

impl Kind {
    pub const ALL: [Kind; 6] = [
        Kind::Waypoint,
        Kind::D,
        Kind::Di,
        Kind::E6,
        Kind::E4,
        Kind::D4,
    ];

    pub fn name(self) -> &'static str {
        match self {
            Kind::Waypoint => "waypoint",
            Kind::D => "D",
            Kind::Di => "Di",
            Kind::E6 => "E6",
            Kind::E4 => "E4",
            Kind::D4 => "D4",
        }
    }

    pub fn from_name(name: &str) -> Option<Kind> {
        Kind::ALL.into_iter().find(|kind| kind.name() == name)
    }

    pub fn call(self) -> Call {
        match self {
            Kind::D4 => Call::Ipv4,
            _ => Call::Ipv6,
        }
    }

    /// The answer numbers that can occur at this kind.
    pub fn numbers(self) -> &'static [u8] {
        match self {
            Kind::Waypoint => &[0, 1, 2, 4, 5, 6, 7, 8, 16],
            Kind::D | Kind::Di => &[0, 1, 2, 4, 5, 7, 8, 9, 10, 11, 12, 13, 14, 15, 16, 17, 18],
            Kind::E6 => &[0, 1, 2, 4, 5, 7, 8, 16],
            Kind::E4 => &[0, 1, 2, 4, 5, 7, 8, 15, 16],
            Kind::D4 => &[0, 1, 2, 3, 4, 8, 9, 10, 11, 12, 13, 14, 15, 16, 17],
        }
    }

    /// The kind that a packet meets in a sound table, if it meets one.
    pub fn matched(call: Call, packet: &[u8], table: &Table) -> Option<Kind> {
        match call {
            Call::Ipv6 => {
                let packet = Ipv6Packet::parse(packet).ok()?;
                let entry = table.entry_for(packet.destination).ok()?;
                Some(Kind::of(&entry.behaviour))
            }
            Call::Ipv4 => {
                let packet = Ipv4Packet::parse(packet).ok()?;
                table.rule_for(packet.destination).ok().map(|_| Kind::D4)
            }
        }
    }

    fn of(behaviour: &Behaviour) -> Kind {
        match behaviour {
            Behaviour::End => Kind::Waypoint,
            Behaviour::D(_) => Kind::D,
            Behaviour::Di(_) => Kind::Di,
            Behaviour::E6 { .. } => Kind::E6,
            Behaviour::E4 { .. } => Kind::E4,
        }
    }
}

/// One call with what comes out of it.
#[derive(Clone, Debug, PartialEq, Eq)]
pub struct Case {
    pub kind: Kind,
    pub call: Call,
    pub packet: Vec<u8>,
    pub table: Vec<u8>,
    /// Length of the output.
    pub room: usize,
    pub answer: Answer,
    /// The octets sent; none for a refusal.
    pub sent: Vec<u8>,
    /// What was done to a valid packet and table.
    pub notes: Vec<&'static str>,
}

impl Case {
    /// A case of given octets. The kind is the one that the packet meets, and
    /// the given one if it meets none.
    pub fn new(
        kind: Kind,
        packet: Vec<u8>,
        table: Vec<u8>,
        room: usize,
        notes: Vec<&'static str>,
    ) -> Case {
        let call = kind.call();
        let kind = matched_kind(call, &packet, &table).unwrap_or(kind);
        let mut out = vec![0; room];
        let answer = call.run(&packet, &table, &mut out);
        out.truncate(answer.length as usize);
        Case {
            kind,
            call,
            packet,
            table,
            room,
            answer,
            sent: out,
            notes,
        }
    }

    /// Runs the case over an output of other contents and checks that the answer
    /// and the octets sent are the same and that no other octet changed.
    pub fn check(&self) -> Result<(), String> {
        self.check_by(translate)
    }

    /// The same with another implementation, which gives the packed answer.
    pub fn check_by(
        &self,
        run: impl FnOnce(Call, &[u8], &[u8], &mut [u8]) -> u64,
    ) -> Result<(), String> {
        judge(self.room, self.answer, &self.sent, |out| {
            run(self.call, &self.packet, &self.table, out)
        })
    }
}

/// Runs a call over an output of known contents: whether its packed answer and the octets sent are
/// these, and no other octet changed.
pub fn judge(
    room: usize,
    wanted: Answer,
    wanted_octets: &[u8],
    run: impl FnOnce(&mut [u8]) -> u64,
) -> Result<(), String> {
    let before: Vec<u8> = (0..room)
        .map(|i| (i as u8).wrapping_mul(31) ^ 0xa5)
        .collect();
    let mut out = before.clone();
    let answer = Answer::unpack(run(&mut out));
    if answer != wanted {
        return Err(format!("answer {answer}; expected {wanted}"));
    }
    let (sent, rest) = out.split_at(wanted_octets.len());
    if let Some(at) = sent
        .iter()
        .zip(wanted_octets)
        .position(|(got, wanted)| got != wanted)
    {
        return Err(format!(
            "octet {at} sent is {:02x}; expected {:02x}",
            sent[at], wanted_octets[at]
        ));
    }
    if let Some(past) = rest
        .iter()
        .zip(&before[sent.len()..])
        .position(|(got, was)| got != was)
    {
        return Err(format!(
            "octet {} of the output, past the packet sent, was changed",
            sent.len() + past
        ));
    }
    Ok(())
}

/// The kind that a packet meets, if it meets one: relabels a case whose damage
/// led it to another entry.
fn matched_kind(call: Call, packet: &[u8], table: &[u8]) -> Option<Kind> {
    Kind::matched(call, packet, &Table::decode(table).ok()?)
}

/// No result is longer.
const LONGEST: usize = 40 + 65_535;

/// The case of a seed and an index. The kind meant is `Kind::ALL[index % 6]`.
pub fn case(seed: u64, index: u64) -> Case {
    let (mut rng, scene) = scene(seed, index);
    case_of(&mut rng, &scene, 35)
}

/// Another packet for the table of case `index`, which has zeros where no field stands.
pub fn another(seed: u64, index: u64, packet: u64) -> Case {
    let (mut rng, scene) = scene(seed, index);
    let mut rng = Rng::for_case(rng.u64(), packet);
    case_of(&mut rng, &scene, 0)
}

/// A packet for a scene, as cases have them; the table stays as it is.
pub fn packet(rng: &mut Rng, scene: &tables::Scene) -> Vec<u8> {
    case_of(rng, scene, 0).packet
}

fn scene(seed: u64, index: u64) -> (Rng, tables::Scene) {
    let kind = Kind::ALL[(index % 6) as usize];
    let mut rng = Rng::for_case(seed, index);
    let scene = tables::scene(&mut rng, kind);
    (rng, scene)
}

fn case_of(rng: &mut Rng, scene: &tables::Scene, percent_filled: usize) -> Case {
    let kind = scene.kind;
    let mut notes = Vec::new();
    // Chance of its own: what is not an Echo Request does not depend on it.
    let of_echo = &mut Rng::new(!rng.clone().u64());
    let mut draft = packets::draft(rng, scene);
    let echo = echo::instead(of_echo, kind, &mut draft);
    notes.extend(echo);
    let mut table = scene.table.clone();

    // How many fields are damaged: mostly none or one, sometimes more, because
    // the smallest number has to win.
    let damages = rng.pick(&[0, 0, 0, 0, 0, 0, 1, 1, 1, 1, 1, 1, 1, 1, 1, 2, 2, 2, 3, 3]);
    // Half of the Echo Requests have no faults but those drawn with them.
    let spared = echo.is_some() && of_echo.chance(50);
    let damages = if spared { 0 } else { damages };
    let mut on_table = 0;
    let mut on_octets = 0;
    for _ in 0..damages {
        match rng.below(100) {
            0..=8 => on_table += 1,
            9..=13 => notes.push(damage::unmatch(rng, &mut table, &mut draft)),
            14..=61 => notes.push(damage::draft(rng, &mut draft)),
            _ => on_octets += 1,
        }
    }
    let mut assembled = draft.assemble();
    if echo.is_some() {
        notes.extend(echo::damage(of_echo, &mut assembled));
    }
    for _ in 0..on_octets {
        notes.push(damage::octets(rng, &mut assembled));
    }
    let mut table_octets = table.encode();
    if rng.chance(percent_filled) {
        tables::fill_unused(rng, &table, &mut table_octets);
        notes.push("unused table octets filled");
    }
    if on_table > 0 {
        let (octets, note) = damage::table(rng, &table, table_octets);
        table_octets = octets;
        notes.push(note);
    }

    let finished = checksum::finish(rng, kind, &mut assembled, &table_octets);
    notes.extend(finished);

    let packet = assembled.octets;
    let mut whole = vec![0; LONGEST.min(packet.len() + 200)];
    let answer = kind.call().run(&packet, &table_octets, &mut whole);
    let room = choose_room(rng, &answer, packet.len());
    Case::new(kind, packet, table_octets, room, notes)
}

/// All cases of a seed in the order of their indices.
pub fn cases(seed: u64) -> impl Iterator<Item = Case> {
    (0..).map(move |index| case(seed, index))
}

/// Mostly room enough, and every room around the exact result length.
fn choose_room(rng: &mut Rng, answer: &Answer, packet_length: usize) -> usize {
    let exact = answer.length as usize;
    if answer.number != 0 {
        return match rng.below(4) {
            0 => 0,
            1 => rng.below(64),
            _ => packet_length + 200,
        };
    }
    match rng.below(20) {
        0..=7 => exact,
        8..=11 => exact + 1,
        12..=15 => exact + rng.below(64),
        16..=17 => exact - 1,
        18 => rng.below(exact),
        _ => 0,
    }
}
