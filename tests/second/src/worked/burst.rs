//! Worked bursts, of order 3: packets of 164 octets that leave with 164, Echo Requests that are
//! answered with 62, and what is refused, with numbers and sums written by hand. The octets are those of
//! the packets sent one at a time.

use super::{
    call, echo_over_ipv4, echo_over_ipv6, ipv6, over_ipv4, over_ipv6, refused, rule_table,
    table_of, waypoint_table, with_srh, ECHO, ECHO_CHECKSUM, NEAR, ROOM, WAYPOINT,
};
use crate::answer::Answer;
use crate::burst::cases::Burst;
use crate::generate::Call;
use crate::table::Behaviour;

/// A burst, with words for it.
pub struct WorkedBurst {
    pub words: &'static str,
    pub burst: Burst,
}

/// What is changed in a burst whose lengths are those of its packets, with as many places as packets.
#[derive(Default)]
struct Changed {
    lengths: Option<Vec<u32>>,
    places: Option<usize>,
    table: Option<Vec<u8>>,
    ipv4: bool,
}

/// A packet of 164 octets that D sends on with 164.
fn long() -> Vec<u8> {
    over_ipv6(100, 0xe110)
}

/// One that D answers with 62.
fn echo() -> Vec<u8> {
    echo_over_ipv6(&ECHO, ECHO_CHECKSUM)
}

/// Of what is sent, the octets are those of the packets one at a time. No answers are those of 19.
fn worked(
    words: &'static str,
    packets: &[Vec<u8>],
    changed: Changed,
    room: usize,
    answers: &[Answer],
    sum: usize,
) -> WorkedBurst {
    let (of_call, table) = match changed.ipv4 {
        true => (Call::Ipv4, rule_table()),
        false => (Call::Ipv6, table_of(Behaviour::D, 1)),
    };
    let table = changed.table.unwrap_or(table);
    let own = packets.iter().map(|packet| packet.len() as u32).collect();
    let sent = packets.iter().zip(answers).flat_map(|(packet, answer)| {
        let octets = call(of_call, packet, &table, ROOM).1;
        if answer.number == 0 {
            octets
        } else {
            Vec::new()
        }
    });
    let burst = Burst {
        call: of_call,
        packets: packets.concat(),
        lengths: changed.lengths.unwrap_or(own),
        room,
        places: changed.places.unwrap_or(packets.len()),
        answer: match packets.len() == answers.len() {
            true => Answer::sent(sum),
            false => refused(19, 0, 0, 0),
        },
        answers: answers.to_vec(),
        sent: sent.collect(),
        table,
        kinds: Vec::new(),
    };
    WorkedBurst { words, burst }
}

fn lengths(lengths: &[u32]) -> Changed {
    Changed {
        lengths: Some(lengths.to_vec()),
        ..Changed::default()
    }
}

fn places(places: usize) -> Changed {
    Changed {
        places: Some(places),
        ..Changed::default()
    }
}

fn table(table: Vec<u8>) -> Changed {
    Changed {
        table: Some(table),
        ..Changed::default()
    }
}

pub fn bursts() -> Vec<WorkedBurst> {
    let as_is = Changed::default;
    let ipv4 = || Changed {
        ipv4: true,
        ..Changed::default()
    };
    let unsound = || table_of(Behaviour::D, 1)[1..].to_vec();
    let (sent, reply) = (Answer::sent(164), Answer::sent(62));
    let [not_sound, malformed, no_room] = [1, 2, 16].map(|number| refused(number, 0, 0, 0));
    let at_waypoint = |hop_limit| with_srh(WAYPOINT, hop_limit, 1);
    vec![
        worked("burst of no packets: length 0", &[], as_is(), 0, &[], 0),
        worked(
            "burst of no packets, two places: they stay",
            &[],
            places(2),
            9,
            &[],
            0,
        ),
        worked(
            "burst of one packet: 164 sent, as the call does",
            &[long()],
            as_is(),
            164,
            &[sent],
            164,
        ),
        worked(
            "burst of 164 twice, room 328: 328 sent",
            &[long(), long()],
            as_is(),
            328,
            &[sent, sent],
            328,
        ),
        worked(
            "burst of 164 twice, room 327: 164 sent, then 16",
            &[long(), long()],
            as_is(),
            327,
            &[sent, no_room],
            164,
        ),
        worked(
            "burst of 164 and an Echo Request, room 163: 16, then a reply of 62",
            &[long(), echo()],
            as_is(),
            163,
            &[no_room, reply],
            62,
        ),
        worked(
            "burst of 164 twice and an Echo Request, room 226: the second is 16",
            &[long(), long(), echo()],
            as_is(),
            226,
            &[sent, no_room, reply],
            226,
        ),
        worked(
            "burst of the same, room 225: the reply is 16 too",
            &[long(), long(), echo()],
            as_is(),
            225,
            &[sent, no_room, no_room],
            164,
        ),
        worked(
            "burst of 39 octets and 164: 2, which takes no room, and 164 sent",
            &[long()[..39].to_vec(), long()],
            as_is(),
            164,
            &[malformed, sent],
            164,
        ),
        worked(
            "burst with a length of 0 between two: 2",
            &[echo(), Vec::new(), echo()],
            as_is(),
            124,
            &[reply, malformed, reply],
            124,
        ),
        worked(
            "burst with a length of 0 alone: 2",
            &[Vec::new()],
            as_is(),
            0,
            &[malformed],
            0,
        ),
        worked(
            "burst, next header 59 behind another packet: 8, pointer 40",
            &[long(), ipv6(59, 64, NEAR, &[])],
            as_is(),
            ROOM,
            &[sent, refused(8, 4, 4, 40)],
            164,
        ),
        worked(
            "burst at a waypoint, hop limits 2, 1, 2: sent, 6, sent",
            &[at_waypoint(2), at_waypoint(1), at_waypoint(2)],
            table(waypoint_table()),
            164,
            &[Answer::sent(82), refused(6, 3, 0, 0), Answer::sent(82)],
            164,
        ),
        worked(
            "burst of 164, 32 times: 5,248 sent",
            &vec![long(); 32],
            as_is(),
            5_248,
            &[sent; 32],
            5_248,
        ),
        worked(
            "burst of 33 packets: 19",
            &vec![long(); 33],
            as_is(),
            ROOM,
            &[],
            0,
        ),
        worked(
            "burst, lengths one octet too many: 19",
            &[long(), long()],
            lengths(&[164, 165]),
            ROOM,
            &[],
            0,
        ),
        worked(
            "burst, lengths one octet too few: 19",
            &[long(), long()],
            lengths(&[163, 164]),
            ROOM,
            &[],
            0,
        ),
        worked(
            "burst, lengths that are right in 32 bits: 19",
            &[long(), long()],
            lengths(&[4_294_967_295, 329]),
            ROOM,
            &[],
            0,
        ),
        worked(
            "burst of the same octets, cut elsewhere: 2 and 2",
            &[long()[..163].to_vec(), [&long()[163..], &long()].concat()],
            as_is(),
            ROOM,
            &[malformed, malformed],
            0,
        ),
        worked(
            "burst with one place too few: 19, and it stays",
            &[long(), long()],
            places(1),
            ROOM,
            &[],
            0,
        ),
        worked(
            "burst with three places more than packets: they stay",
            &[long(), long()],
            places(5),
            ROOM,
            &[sent, sent],
            328,
        ),
        worked(
            "burst, table not sound: 1 for each",
            &[long(), echo()],
            table(unsound()),
            ROOM,
            &[not_sound, not_sound],
            0,
        ),
        worked(
            "burst of no packets, table not sound: length 0",
            &[],
            table(unsound()),
            ROOM,
            &[],
            0,
        ),
        worked(
            "burst of 33 packets, table not sound: 19",
            &vec![long(); 33],
            table(unsound()),
            ROOM,
            &[],
            0,
        ),
        worked(
            "burst at D4 with an Echo Request, room 84: 42 and 42 sent",
            &[over_ipv4(2), echo_over_ipv4(&ECHO)],
            ipv4(),
            84,
            &[Answer::sent(42), Answer::sent(42)],
            84,
        ),
        worked(
            "burst over IPv4 with an IPv6 packet: 2",
            &[long(), over_ipv4(2)],
            ipv4(),
            ROOM,
            &[malformed, Answer::sent(42)],
            42,
        ),
    ]
}
