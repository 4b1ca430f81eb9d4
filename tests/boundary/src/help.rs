//! The commands with their options, and the help for each.

use std::io::{self, Write};

const ABOUT: &str =
    "boundary - the library across its C boundary, judged by the second program\n\nusage:\n";
const STATUS: &str =
    "exit status: 0 all well, 1 a difference, a gap or a call that crashes, 2 wrong usage\n";

/// Each command with its options and its help.
pub const COMMANDS: [(&str, &[&str], &str); 14] = [
    (
        "cases",
        &["--seed", "--cases", "--threads", "--tables"],
        "  boundary cases --seed N --cases M [--threads T] [--tables J]
      make the calls of the first M cases of a seed, on T threads (as many as there
      are processors if not given); print what Echo Requests met at each kind, and
      UDP checksums, and how often the library gave each answer number there; a gap
      is a failure in the first J of three tables (all if not given): the numbers,
      Echo Requests, UDP checksums
",
    ),
    (
        "case",
        &["--seed", "--index", "--mutation"],
        "  boundary case --seed N --index I [--mutation K]
      make one call and print both answers, in words and octets
",
    ),
    (
        "burst",
        &["--seed", "--packets", "--first", "--tables"],
        "  boundary burst --seed N --packets M [--first I] [--tables J]
      make bursts, until M packets are answered, from burst I on (0 if not given), and
      compare every octet of the output and every answer place; each packet goes by
      a call of its own too; print what the bursts met, and how often the library
      gave each answer number; a gap is a failure in the first J of three tables
      (all if not given): what they met, counts of lengths, numbers
",
    ),
    (
        "burst-trips",
        &["--seed", "--cases", "--first"],
        "  boundary burst-trips --seed N --cases M [--first I]
      make the bursts of M whole trips of several packets each, from trip I on (0 if
      not given), and hold them against the trips of the packets one at a time, by
      the second program and by the library; print what the packets met
",
    ),
    (
        "icmp",
        &["--seed", "--cases", "--first", "--tables"],
        "  boundary icmp --seed N --cases M [--first I] [--tables J]
      ask for ICMPv6 messages about M packets, from packet I on (0 if not given), and
      compare every octet of the output; print what those met that the IPv6 call
      answers with 6, 7 or 8, and its numbers; a gap is a failure in the first J of
      two tables (both if not given): the numbers, what they met
",
    ),
    (
        "faults",
        &["--seed", "--cases", "--first"],
        "  boundary faults --seed N --cases M [--first I]
      ask for the fault of M tables, sound ones and others, from table I on (0 if
      not given); print how often the library told each condition
",
    ),
    (
        "loss",
        &["--seed", "--offers", "--first"],
        "  boundary loss --seed N --offers M [--first I]
      offer numbers, M of them and more until their history ends, from history I on
      (0 if not given), and compare every row after each offer; print what the
      offers met
",
    ),
    (
        "sequence",
        &["--seed", "--cases", "--first"],
        "  boundary sequence --seed N --cases M [--first I]
      have the sequence numbers of M packets read, from packet I on (0 if not
      given); print what the packets met
",
    ),
    (
        "match",
        &["--seed", "--cases", "--first"],
        "  boundary match --seed N --cases M [--first I]
      ask whether tables fit, for M pairs from pair I on (0 if not given); print
      which condition failed and what the pairs met
",
    ),
    (
        "match-trips",
        &["--seed", "--cases", "--first"],
        "  boundary match-trips --seed N --cases M [--first I]
      ask whether the tables of M routes fit, from route I on (0 if not given), and
      send packets along them: where they fit all have to be delivered, where they
      do not one has to show it; print what the packets did
",
    ),
    (
        "trips",
        &["--seed", "--cases", "--first"],
        "  boundary trips --seed N --cases M [--first I]
      make the calls of M whole trips, each followed by two second trips, from trip
      I on (0 if not given), and those of flow 5 with the reflective bit
",
    ),
    (
        "threads",
        &["--seed", "--cases", "--first", "--threads"],
        "  boundary threads --seed N --cases M [--first I] [--threads T]
      for M cases from I on, call on T threads (2 if not given) at the same time,
      which share the table and packets
",
    ),
    (
        "stack",
        &["--seed", "--per-kind"],
        "  boundary stack [--seed N] [--per-kind K]
      measure the stack that each export uses over K cases (300 if not given) of
      each kind, in which every answer number occurs, that of bursts, offers and
      readers over 20 times as many bursts, histories and packets, and that of ICMPv6
      messages and of the calls that tell whether tables fit over 80 times as many
      packets and pairs
",
    ),
    (
        "fuzz",
        &["--seconds", "--seed", "--threads"],
        "  boundary fuzz --seconds S [--seed N] [--threads T]
      make calls for S seconds, of cases and of mutated cases, with bursts,
      histories of offers, pairs of tables and packets for ICMPv6 messages among them;
      without a seed, one is taken from the clock
",
    ),
];

/// All of it, or that of one command.
pub fn write(out: &mut dyn Write, wanted: Option<&str>) -> io::Result<()> {
    out.write_all(if wanted.is_none() { ABOUT } else { "usage:\n" }.as_bytes())?;
    for (name, _, text) in COMMANDS {
        if wanted.is_none_or(|wanted| wanted == name) {
            out.write_all(text.as_bytes())?;
        }
    }
    if wanted.is_none() {
        out.write_all(b"  boundary [COMMAND] --help\n")?;
    }
    write!(out, "\n{STATUS}")
}

pub fn is_asked(word: &str) -> bool {
    word == "--help" || word == "-h"
}
