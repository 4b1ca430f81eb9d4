//! Bursts from a seed: packets of cases for one table, one after the other, then a room that ends
//! anywhere among their results, then answer places; lengths or places that are not right now and
//! then.
//!
//! [`burst`] makes one from a seed and an index and nothing else.

use super::MOST_PACKETS;
use crate::answer::Answer;
use crate::generate::packets::{self, UpperDraft};
use crate::generate::tables::{self, Destination, Scene};
use crate::generate::{self, damage, echo, translate, Call, Kind};
use crate::rng::Rng;
use crate::table::{
    Behaviour, Inbound, Table, MAX_ENTRIES, MAX_POLICIES, MAX_RULES, MAX_WAYPOINTS,
};
use crate::vectors::{hex, unhex, LARGEST_ROOM};

/// A burst with what comes out of it.
#[derive(Clone, Debug, PartialEq, Eq)]
pub struct Burst {
    pub call: Call,
    /// One after the other.
    pub packets: Vec<u8>,
    pub lengths: Vec<u32>,
    pub table: Vec<u8>,
    /// Length of the output.
    pub room: usize,
    /// Answer places.
    pub places: usize,
    pub answer: Answer,
    /// Of each packet; none where the burst is refused.
    pub answers: Vec<Answer>,
    /// The octets sent, one result after the other.
    pub sent: Vec<u8>,
    /// For which kind each packet was made.
    pub kinds: Vec<Kind>,
}

/// What is lent, but for what is written.
struct Lent<'a> {
    call: Call,
    packets: Vec<u8>,
    lengths: Vec<u32>,
    table: &'a [u8],
    room: usize,
    places: usize,
}

/// What stands in an answer place before the call.
fn before(place: usize) -> u64 {
    0x5a5a_5a5a_5a5a_5a5a ^ (place as u64).wrapping_mul(0x0101_0101_0101_0101)
}

impl Burst {
    fn new(lent: Lent, kinds: Vec<Kind>) -> Self {
        let Lent {
            call,
            packets,
            lengths,
            table,
            room,
            places,
        } = lent;
        let (mut out, mut answers) = (vec![0; room], vec![0; places]);
        let packed = super::burst(call, &packets, &lengths, table, &mut out, &mut answers);
        let answer = Answer::unpack(packed);
        out.truncate(answer.length as usize);
        answers.truncate(if answer.number == 0 { lengths.len() } else { 0 });
        Burst {
            call,
            packets,
            lengths,
            table: table.to_vec(),
            room,
            places,
            answer,
            answers: answers.into_iter().map(Answer::unpack).collect(),
            sent: out,
            kinds,
        }
    }

    /// These packets, for one table, with a place more than they need.
    pub fn of_packets(call: Call, packets: &[&[u8]], table: &[u8], room: usize) -> Self {
        let lent = Lent {
            call,
            packets: packets.concat(),
            lengths: packets.iter().map(|packet| packet.len() as u32).collect(),
            table,
            room,
            places: packets.len() + 1,
        };
        Burst::new(lent, Vec::new())
    }

    /// The packets of a burst that is not refused.
    pub fn each(&self) -> impl Iterator<Item = &[u8]> {
        let mut arriving = &self.packets[..];
        self.lengths.iter().map(move |&length| {
            let (packet, behind) = super::cut(arriving, length);
            arriving = behind;
            packet
        })
    }

    /// Runs the burst over an output and places of other contents and checks that all answers and
    /// the octets sent are the same and that nothing else changed.
    pub fn check(&self) -> Result<(), String> {
        self.check_by(super::burst)
    }

    /// The same with another implementation, which gives the packed answer.
    pub fn check_by(
        &self,
        run: impl FnOnce(Call, &[u8], &[u32], &[u8], &mut [u8], &mut [u64]) -> u64,
    ) -> Result<(), String> {
        let filler: Vec<u8> = (0..self.room)
            .map(|i| (i as u8).wrapping_mul(31) ^ 0xa5)
            .collect();
        let mut out = filler.clone();
        let mut answers: Vec<u64> = (0..self.places).map(before).collect();
        let packed = run(
            self.call,
            &self.packets,
            &self.lengths,
            &self.table,
            &mut out,
            &mut answers,
        );
        self.same_answers(Answer::unpack(packed), &answers)?;
        let (sent, rest) = out.split_at(self.sent.len());
        if sent != self.sent {
            let mut octets = sent.iter().zip(&self.sent);
            let at = octets.position(|(got, wanted)| got != wanted).unwrap_or(0);
            return Err(format!(
                "octet {at} sent is {:02x}; expected {:02x}",
                sent[at], self.sent[at]
            ));
        }
        let filler = &filler[sent.len()..];
        if rest != filler {
            let past = rest.iter().zip(filler).position(|(got, was)| got != was);
            let at = sent.len() + past.unwrap_or(0);
            return Err(format!(
                "octet {at} of the output, past the packets sent, was changed"
            ));
        }
        Ok(())
    }

    /// The answer of the burst, that of each packet, and the places that are left.
    fn same_answers(&self, answer: Answer, answers: &[u64]) -> Result<(), String> {
        if answer != self.answer {
            return Err(format!("answer {answer}; expected {}", self.answer));
        }
        let packets = self.answers.len();
        for (at, &packed) in answers.iter().enumerate() {
            match self.answers.get(at) {
                Some(wanted) if packed != wanted.pack() => {
                    let (number, answer) = (at + 1, Answer::unpack(packed));
                    return Err(format!(
                        "packet {number} of {packets}: answer {answer}; expected {wanted}"
                    ));
                }
                None if packed != before(at) => {
                    return Err(format!(
                        "answer place {at} of {} was changed, with {packets} packets answered",
                        self.places
                    ));
                }
                _ => {}
            }
        }
        Ok(())
    }
}

/// A table and packets for it, of which several bursts are made.
struct Pool {
    seed: u64,
    number: u64,
    call: Call,
    table: Vec<u8>,
    /// The same with a condition broken.
    unsound: Vec<u8>,
    packets: Vec<(Kind, Vec<u8>)>,
    long: Option<(Kind, Vec<u8>)>,
}

/// Bursts of a pool.
const BURSTS: u64 = 8;
/// Packets with more octets are long: they come up seldom, because they take long too.
const LONG: usize = 5_000;
/// Of so many pools for a call, one has a burst that sends as much as one can.
const ONE_OF: u64 = 512;

/// The burst of a seed and an index.
pub fn burst(seed: u64, index: u64) -> Burst {
    Pool::new(seed, index / BURSTS).burst(index % BURSTS)
}

/// The bursts of a seed from an index on, each with its index. Each pool is made once.
pub fn bursts(seed: u64, first: u64) -> impl Iterator<Item = (u64, Burst)> {
    let mut pool = Pool::new(seed, first / BURSTS);
    (first..).map(move |index| {
        if index / BURSTS != pool.number {
            pool = Pool::new(seed, index / BURSTS);
        }
        (index, pool.burst(index % BURSTS))
    })
}

impl Pool {
    /// Even numbers are for IPv6, odd ones for IPv4.
    fn new(seed: u64, number: u64) -> Self {
        let rng = &mut Rng::for_case(seed, number);
        let call = match number.is_multiple_of(2) {
            true => Call::Ipv6,
            false => Call::Ipv4,
        };
        let mut scenes = scenes(rng, call, number / 2);
        let mut long = None;
        if has_longest(number) {
            let (scene, packet) = longest(rng, call);
            long = Some((scene.kind, packet));
            scenes.insert(0, scene);
        }
        let table = one_table(&scenes);
        // Packets for entries or rules that this table lacks: mostly row 4.
        if rng.chance(30) {
            let kind = scenes[0].kind;
            scenes.push(tables::scene(rng, kind));
        }
        let undamaged = rng.chance(40);
        let mut packets = Vec::new();
        for turn in 0..rng.between(3, 9) {
            let scene = &scenes[turn % scenes.len()];
            let octets = match undamaged {
                true => undamaged_packet(rng, scene),
                false => generate::packet(rng, scene),
            };
            let packet = (scene.kind, octets);
            match packet.1.len() {
                0..=LONG => packets.push(packet),
                _ => long = long.or(Some(packet)),
            }
        }
        let kind = scenes[0].kind;
        if long.is_none() && rng.chance(10) {
            long = long_packet(rng, &scenes[0]).map(|packet| (kind, packet));
        }
        if rng.chance(10) {
            packets.push((kind, of_other_version(rng, call)));
        }
        if !undamaged && rng.chance(50) || packets.is_empty() {
            packets.push((kind, Vec::new()));
        }
        let mut octets = table.encode();
        if rng.chance(35) {
            tables::fill_unused(rng, &table, &mut octets);
        }
        let (unsound, _) = damage::table(rng, &table, octets.clone());
        Pool {
            seed,
            number,
            call,
            table: octets,
            unsound,
            packets,
            long,
        }
    }

    fn burst(&self, place: u64) -> Burst {
        if has_longest(self.number) && place == 0 {
            return self.longest_sent();
        }
        let rng = &mut Rng::for_case(!self.seed, self.number * BURSTS + place);
        // The bursts of a call go through all counts.
        let count = match (self.number / 2 * BURSTS + place) % 40 {
            count @ 0..34 => count as usize,
            34 => rng.between(34, 80),
            edge => [0, 1, 32, 32, 33][edge as usize - 35],
        };
        let (kinds, chosen): (Vec<Kind>, Vec<&[u8]>) = self.choose(rng, count).into_iter().unzip();
        let packets = chosen.concat();
        let mut lengths: Vec<u32> = chosen.iter().map(|packet| packet.len() as u32).collect();
        if rng.chance(8) {
            move_border(rng, &mut lengths);
        }
        let table = match rng.chance(if count == 0 { 25 } else { 6 }) {
            true => &self.unsound,
            false => &self.table,
        };
        let results = results(self.call, &packets, &lengths, table);
        let mut lent = Lent {
            call: self.call,
            room: choose_room(rng, &results, packets.len()),
            places: count + rng.pick(&[0, 0, 0, 0, 1, 1, 2, 7, 33]),
            packets,
            lengths,
            table,
        };
        if rng.chance(if count < MOST_PACKETS { 12 } else { 40 }) {
            for _ in 0..rng.pick(&[1, 1, 1, 2, 3]) {
                spoil(rng, &mut lent);
            }
        }
        Burst::new(lent, kinds)
    }

    /// So many packets; a few bursts have empty ones alone, or long ones.
    fn choose(&self, rng: &mut Rng, count: usize) -> Vec<(Kind, &[u8])> {
        let one_of = |rng: &mut Rng| &self.packets[rng.below(self.packets.len())];
        let chosen = (0..count).map(|_| one_of(rng));
        let mut chosen: Vec<_> = chosen.map(|(kind, packet)| (*kind, &packet[..])).collect();
        if let Some((kind, long)) = &self.long {
            let times = match rng.below(100) {
                0 => MOST_PACKETS,
                1..=30 => 1,
                31..=40 => 2,
                _ => 0,
            };
            chosen[..times.min(count)].fill((*kind, long));
            rng.shuffle(&mut chosen);
        }
        if rng.chance(1) {
            for (_, packet) in &mut chosen {
                *packet = &[];
            }
        }
        chosen
    }

    /// The longest packet as often as can be, with room for all, and one octet more.
    fn longest_sent(&self) -> Burst {
        let (kind, packet) = self.long.as_ref().expect("the longest packet");
        let lent = Lent {
            call: self.call,
            packets: packet.repeat(MOST_PACKETS),
            lengths: vec![packet.len() as u32; MOST_PACKETS],
            table: &self.table,
            room: MOST_PACKETS * LONGEST_RESULT + 1,
            places: MOST_PACKETS,
        };
        Burst::new(lent, vec![*kind; MOST_PACKETS])
    }
}

fn has_longest(number: u64) -> bool {
    number / 2 % ONE_OF == 1
}

/// A packet that is sent if the table has its scene alone, or an Echo Request.
fn undamaged_packet(rng: &mut Rng, scene: &Scene) -> Vec<u8> {
    let mut draft = packets::draft(rng, scene);
    if matches!(scene.kind, Kind::D | Kind::Di | Kind::D4) && rng.chance(25) {
        echo::put(rng, scene.kind, &mut draft);
    }
    draft.assemble().octets
}

/// One that is long, if it comes up: about half of them are too long to be sent.
fn long_packet(rng: &mut Rng, scene: &Scene) -> Option<Vec<u8>> {
    let mut drafts = (0..100).map(|_| packets::draft(rng, scene));
    let long = drafts.find_map(|mut draft| (draft.inner().len() > LONG).then_some(draft));
    long.map(|draft| draft.assemble().octets)
}

/// One for the other call.
fn of_other_version(rng: &mut Rng, call: Call) -> Vec<u8> {
    let kind = match call {
        Call::Ipv6 => Kind::D4,
        Call::Ipv4 => Kind::Di,
    };
    let scene = tables::scene(rng, kind);
    undamaged_packet(rng, &scene)
}

/// Scenes of one or more kinds; each kind is the first one in its turn.
fn scenes(rng: &mut Rng, call: Call, turn: u64) -> Vec<Scene> {
    let kinds: Vec<Kind> = Kind::ALL.into_iter().filter(|k| k.call() == call).collect();
    let first = kinds[(turn % kinds.len() as u64) as usize];
    let others: Vec<Kind> = match rng.below(8) {
        0 => kinds,
        count => (0..count / 2).map(|_| rng.pick(&kinds)).collect(),
    };
    let all = [first].into_iter().chain(others);
    all.map(|kind| tables::scene(rng, kind)).collect()
}

/// The records of all scenes, as many as a table can have. Of two with the same prefix the first
/// stays.
fn one_table(scenes: &[Scene]) -> Table {
    let mut all = Table::default();
    for Scene { table, .. } in scenes {
        let before = all.policies.len();
        let policies = table.policies.iter().take(MAX_POLICIES - before);
        all.policies.extend(policies.cloned());
        for entry in &table.entries {
            let mut entry = *entry;
            if let Behaviour::D(inbound) | Behaviour::Di(inbound) = &mut entry.behaviour {
                inbound.policy += before;
                if inbound.policy >= all.policies.len() {
                    continue;
                }
            }
            let known = all.entries.iter().any(|e| e.prefix == entry.prefix);
            if all.entries.len() < MAX_ENTRIES && !known {
                all.entries.push(entry);
            }
        }
        for rule in &table.rules {
            let known = all.rules.iter().any(|r| r.prefix == rule.prefix);
            if all.rules.len() < MAX_RULES && !known {
                all.rules.push(rule.clone());
            }
        }
    }
    all
}

/// No result of one packet is longer.
const LONGEST_RESULT: usize = 40 + 65_535;

/// A packet of which the result is as long as one can be, and a scene for it: Di, or D4 with
/// waypoints enough.
fn longest(rng: &mut Rng, call: Call) -> (Scene, Vec<u8>) {
    let kind = match call {
        Call::Ipv6 => Kind::Di,
        Call::Ipv4 => Kind::D4,
    };
    let mut scene = tables::scene(rng, kind);
    for rule in &mut scene.table.rules {
        let more = MAX_WAYPOINTS - rule.waypoints.len();
        rule.waypoints.extend((0..more).map(|_| rng.u128()));
    }
    let mut draft = packets::draft(rng, &scene);
    let segments = match scene.destination {
        Destination::Ipv4(_) => 1 + MAX_WAYPOINTS,
        Destination::Ipv6(address) => match scene.table.entry_for(address).map(|e| e.behaviour) {
            Ok(Behaviour::Di(Inbound { policy, .. })) => {
                1 + scene.table.policies[policy].sids.len()
            }
            _ => unreachable!("a Di entry"),
        },
    };
    if let Some(header) = draft.v6() {
        header.srh = None;
    }
    if let UpperDraft::Gtpu(gtpu) = &mut draft.upper {
        gtpu.extensions[0].contents.truncate(2);
        gtpu.inner = rng.octets(65_535 - 8 - 16 * segments);
        packets::set_nibble(rng, &mut gtpu.inner);
    }
    (scene, draft.assemble().octets)
}

/// The length of each result, where there is room.
fn results(call: Call, packets: &[u8], lengths: &[u32], table: &[u8]) -> Vec<usize> {
    let mut arriving = packets;
    let mut out = vec![0; LONGEST_RESULT];
    let result = |&length| {
        let (packet, behind) = super::cut(arriving, length);
        arriving = behind;
        Answer::unpack(translate(call, packet, table, &mut out)).length as usize
    };
    lengths.iter().map(result).collect()
}

/// The packets are cut elsewhere, and the lengths still add up.
fn move_border(rng: &mut Rng, lengths: &mut [u32]) {
    let Some(last) = lengths.len().checked_sub(1).filter(|&last| last > 0) else {
        return;
    };
    let from = rng.below(last);
    let length = lengths[from];
    let moved = match rng.below(3) {
        0 => length.min(1),
        1 => length,
        _ => rng.below(length as usize + 1) as u32,
    };
    lengths[from] -= moved;
    lengths[from + 1] += moved;
}

/// Room for all, or one that ends at or in a result: of those that end in one some have room
/// for a shorter one behind it.
fn choose_room(rng: &mut Rng, results: &[usize], octets: usize) -> usize {
    let sum: usize = results.iter().sum();
    let sent: Vec<usize> = (0..results.len()).filter(|&at| results[at] > 0).collect();
    if sent.is_empty() {
        return rng.pick(&[0, octets, octets + 200]);
    }
    let at = sent[rng.below(sent.len())];
    let before: usize = results[..at].iter().sum();
    match rng.below(20) {
        0..=5 => sum,
        6 | 7 => sum + 1,
        8..=10 => sum + rng.below(200),
        11 => sum - 1,
        12 => 0,
        13 => before,
        14 => before + results[at] - 1,
        15 => before + rng.below(results[at]),
        _ => {
            let behind = results[at + 1..].iter().copied();
            let shorter: Vec<usize> = behind.filter(|l| (1..results[at]).contains(l)).collect();
            match shorter.len() {
                0 => before + rng.below(results[at]),
                count => {
                    let least = shorter[rng.below(count)];
                    let most = rng.pick(&[least, results[at] - 1]);
                    before + rng.between(least, most)
                }
            }
        }
    }
}

/// Lengths that do not add up, or too few places.
fn spoil(rng: &mut Rng, lent: &mut Lent) {
    let Lent {
        packets,
        lengths,
        places,
        ..
    } = lent;
    let count = lengths.len();
    let (one, other) = (rng.below(count), rng.below(count));
    match rng.below(if count == 0 { 2 } else { 16 }) {
        0 => packets.push(rng.u8()),
        1 => packets.extend(rng.octets(40)),
        2 => {
            packets.pop();
        }
        3 => packets.clear(),
        4 => lengths[one] = lengths[one].wrapping_add(1),
        5 => lengths[one] = lengths[one].saturating_sub(1),
        6 => lengths[one] = lengths[one].wrapping_add(65_536),
        7 => lengths[one] = rng.pick(&[0, 0x7fff_ffff, 0x8000_0000, u32::MAX]),
        8 => lengths.fill(0),
        // Together 4,294,967,296 more.
        9 | 10 if one != other => {
            let any = 1 + rng.u32() / 2;
            let more = rng.pick(&[0x8000_0000, 0x1000_0000, any]);
            lengths[one] = lengths[one].wrapping_add(more);
            lengths[other] = lengths[other].wrapping_sub(more);
        }
        11 => *places = rng.below(count),
        12 => *places = 0,
        _ => *places = count - 1,
    }
}

/// Numbers or packed answers with commas between; `-` for none.
fn list<T>(items: &[T], text: impl Fn(&T) -> String) -> String {
    match items {
        [] => "-".to_string(),
        items => items.iter().map(text).collect::<Vec<_>>().join(","),
    }
}

fn items<T>(list: &str, item: impl Fn(&str) -> Option<T>) -> Option<Vec<T>> {
    match list {
        "-" => Some(Vec::new()),
        list => list.split(',').map(item).collect(),
    }
}

/// `burst call answer lengths packets-hex table-hex room places answers out-hex`, answers packed, in
/// 16 hexadecimal digits.
pub fn line(burst: &Burst) -> String {
    format!(
        "burst {} {:016x} {} {} {} {} {} {} {}",
        burst.call.name(),
        burst.answer.pack(),
        list(&burst.lengths, u32::to_string),
        hex(&burst.packets),
        hex(&burst.table),
        burst.room,
        burst.places,
        list(&burst.answers, |answer| format!("{:016x}", answer.pack())),
        hex(&burst.sent),
    )
}

/// The burst of a line; for which kinds its packets were made is lost.
pub fn parse(line: &str) -> Result<Burst, String> {
    let fields: Vec<&str> = line.split(' ').collect();
    let &["burst", call, answer, lengths, packets, table, room, places, answers, sent] =
        &fields[..]
    else {
        return Err(format!("{} fields, not burst and 9 more", fields.len()));
    };
    let octets_of = |text: &str| unhex(text).ok_or_else(|| format!("{text} is not hex"));
    let answer_of = |text: &str| u64::from_str_radix(text, 16).ok().map(Answer::unpack);
    let count_of = |text: &str| match text.parse() {
        Ok(count) if count <= LARGEST_ROOM => Ok(count),
        _ => Err(format!("{text} is no room or number of places")),
    };
    let burst = Burst {
        call: Call::from_name(call).ok_or_else(|| format!("{call} is no call"))?,
        packets: octets_of(packets)?,
        lengths: items(lengths, |text| text.parse().ok())
            .ok_or_else(|| format!("{lengths} are no lengths"))?,
        table: octets_of(table)?,
        room: count_of(room)?,
        places: count_of(places)?,
        answer: answer_of(answer).ok_or_else(|| format!("{answer} is no answer"))?,
        answers: items(answers, answer_of).ok_or_else(|| format!("{answers} are no answers"))?,
        sent: octets_of(sent)?,
        kinds: Vec::new(),
    };
    let (sent, answers) = (burst.sent.len(), burst.answers.len());
    if sent != burst.answer.length as usize || sent > burst.room || answers > burst.places {
        return Err(format!("{sent} octets sent, {answers} answers"));
    }
    Ok(burst)
}

#[cfg(test)]
mod tests {
    use super::*;

    /// Two packets, one of an octet and one of none, for a table without records.
    fn short() -> Burst {
        let table = "01000000000000000000000000000000";
        let answers = "0000000000000002,0000000000000002";
        let line = format!("burst ipv6 0000000000000000 1,0 60 {table} 5 3 {answers} -");
        parse(&line).unwrap()
    }

    #[test]
    fn a_line_by_hand() {
        let burst = short();
        assert_eq!(burst.check(), Ok(()));
        assert_eq!(burst.lengths, [1, 0]);
        assert_eq!(burst.each().collect::<Vec<_>>(), [&[0x60][..], &[]]);
    }

    #[test]
    fn a_difference_is_shown() {
        let mut burst = short();
        burst.answers[1] = Answer::unpack(4);
        assert_eq!(
            burst.check().unwrap_err(),
            "packet 2 of 2: answer 2 (malformed packet); expected 4 (no match)"
        );
        burst.lengths.push(1);
        assert_eq!(
            burst.check().unwrap_err(),
            "answer 19 (bad burst); expected 0 (sent), length 0"
        );
    }

    #[test]
    fn each_octet_and_each_place_is_judged() {
        let with = |change: &dyn Fn(&mut [u8], &mut [u64])| {
            let checked = short().check_by(|call, packets, lengths, table, out, answers| {
                let packed = super::super::burst(call, packets, lengths, table, out, answers);
                change(out, answers);
                packed
            });
            checked.unwrap_err()
        };
        for at in 0..5 {
            assert_eq!(
                with(&|out, _| out[at] ^= 1),
                format!("octet {at} of the output, past the packets sent, was changed")
            );
        }
        for bit in 0..64 {
            assert!(with(&|_, answers| answers[1] ^= 1 << bit).starts_with("packet 2 of 2: answer"));
            assert_eq!(
                with(&|_, answers| answers[2] ^= 1 << bit),
                "answer place 2 of 3 was changed, with 2 packets answered"
            );
        }
    }

    #[test]
    fn lines_come_back() {
        for (index, burst) in bursts(3, 0).take(300) {
            let kinds = Vec::new();
            assert_eq!(
                parse(&line(&burst)),
                Ok(Burst { kinds, ..burst }),
                "{index}"
            );
        }
    }

    #[test]
    fn a_burst_depends_on_its_index_alone() {
        for first in [0, 5, 77] {
            for (index, of_many) in bursts(4, first).take(20) {
                assert_eq!(of_many, burst(4, index));
            }
        }
    }

    #[test]
    fn wrong_lines() {
        let right = "burst ipv6 0000000000000000 1,0 60 00 5 3 01,01 -";
        assert!(parse(right).is_ok());
        for (from, to) in [
            ("ipv6", "ipv5"),
            ("0000000000000000", "g"),
            ("0000000000000000", "0000010000000000"),
            ("1,0", "1,"),
            ("1,0", "4294967296"),
            ("1,0", ""),
            ("60", "6"),
            (" 5 ", " -5 "),
            (" 5 ", " 16777217 "),
            (" 3 ", " 1 "),
            ("01,01", "01,-"),
            ("01,01 -", "01,01 60"),
            (" -", ""),
            (" -", " - -"),
        ] {
            let line = right.replace(from, to);
            assert_ne!(line, right);
            assert!(parse(&line).is_err(), "{line}");
        }
    }
}
