//! The command `second`.

use second::burst::cases as bursts;
use second::command::{self, Failure, Options};
use second::icmp::cases as icmp_cases;
use second::loss::histories;
use second::matching::{self, pairs};
use second::sequence::cases as readings;
use second::tally::Tally;
use second::{
    burst, coverage, generate, icmp, loss, program, sequence, trips, vectors, worked, Kind,
};
use std::io::{self, Write};
use std::process::ExitCode;

const HELP: &str = "\
second - the gateway rules a second time, written from the papers and not from the library

usage:
  second coverage --seed N --cases M
      generate M cases, print what Echo Requests met at each kind, and UDP checksums,
      and how often each answer number came out there
  second vectors --seed N --per-kind K [--max-packet L]
      print K cases for each kind, packets of at most L octets (400 if not given),
      a line each: kind call number icmp_type icmp_code icmp_pointer length room
      packet-hex table-hex out-hex; '-' is an empty field, '#' begins a comment
  second show --seed N --index I [--packet P]
      print case I of a seed, or packet P for its table, as a line of the same form
  second burst-coverage --seed N --cases M
      generate M bursts, print what they met, how many had each count of lengths, and
      how often each answer number came out for their packets at each kind
  second burst-vectors --seed N --cases M [--first I] [--max-octets L]
      print those of M bursts from I on (0 if not given) whose packets have at most
      L octets together (20000 if not given), a line each: burst call answer lengths
      packets-hex table-hex room places answers out-hex; lengths and answers have a
      comma between two
  second icmp-coverage --seed N --cases M
      generate M packets for ICMPv6 messages, print what those met that the IPv6
      call answers with 6, 7 or 8, at each kind, without and with an SRH, and how
      often the IPv6 call gave each answer number there
  second icmp-vectors --seed N --cases M [--first I] [--max-octets L]
      print those of M packets from I on (0 if not given) that have at most L octets
      (3000 if not given), a line each: icmp answer room packet-hex table-hex out-hex
  second loss-coverage --seed N --cases M
      generate M histories of offers, print what the offers met
  second loss-vectors --seed N --cases M [--first I]
      print M histories from I on (0 if not given), a line each: loss rows-hex
      offers rows-hex; an offer is teid:number:answer, a comma between two
  second sequence-coverage --seed N --cases M
      generate M packets for the readers of sequence numbers, print what they met
  second sequence-vectors --seed N --cases M [--first I] [--max-packet L]
      print those of M packets from I on that have at most L octets (400 if not
      given), a line each: sequence call value packet-hex
  second match-coverage --seed N --cases M
      generate M pairs of tables, or of a waypoint's table and a SID, print which
      condition failed and what they met
  second match-vectors --seed N --cases M [--first I]
      print M pairs from I on (0 if not given), a line each: match ipv6 mismatch
      index near-hex far-hex, the same with ipv4, or match waypoint mismatch
      table-hex sid-hex
  second match-trips --seed N --cases M
      draw M routes, ask whether their tables fit, and send packets along them
  second check
      read lines of any of these forms from standard input and run them here
  second worked
      run the worked packets of docs/RULES.md and of orders 1, 2, 3, 6 and 13
  second program-input --seed N --per-kind K [--max-worked L]
  second program-output --seed N --per-kind K [--max-worked L]
      what the library's program `worked` reads, and what it should print: the
      worked packets that are calls (of at most L octets, if given), those for the
      readers, the worked bursts, then K cases for each kind and short bursts, a tenth
      as many; case D N:I:P is that of second show --seed N --index I --packet P,
      burst N:I that of second burst-vectors --seed N --first I --cases 1
  second icmp-program-input --seed N --cases M [--max-worked L]
  second icmp-program-output --seed N --cases M [--max-worked L]
      the same for ICMPv6 messages: the worked ones (about packets of at most L octets,
      if given), then those about M short packets; icmp N:I is that of second
      icmp-vectors --seed N --first I --cases 1
  second trips --seed N --cases M
      run M whole trips, each followed by two second trips
  second burst-trips --seed N --cases M
      run M whole trips of several packets each, with a burst at each stop, and hold
      them against the trips of the packets one at a time
  second --help

exit status: 0 all well, 1 a check failed or a gap was found, 2 wrong usage
";

/// Cases looked through before `vectors` gives up, for each case wanted.
const TRIES_PER_CASE: u64 = 20_000;

fn run(words: &[String], out: &mut dyn Write) -> Result<(), Failure> {
    let Some((command, rest)) = words.split_first() else {
        return Err(Failure::Usage("no command".to_string()));
    };
    if rest.iter().any(|word| word == "--help" || word == "-h") {
        out.write_all(HELP.as_bytes())?;
        return Ok(());
    }
    match command.as_str() {
        "--help" | "-h" | "help" => out.write_all(HELP.as_bytes())?,
        "coverage" => {
            let options = Options::parse(rest, &["--seed", "--cases"])?;
            let (seed, cases) = (options.get("--seed")?, options.get("--cases")?);
            let met = coverage::collect(seed, cases).map_err(Failure::Check)?;
            writeln!(out, "{met}")?;
            met.judge().map_err(Failure::Check)?;
            writeln!(out, "seed {seed}: {cases} cases, no gap")?;
        }
        "vectors" => {
            let options = Options::parse(rest, &["--seed", "--per-kind", "--max-packet"])?;
            let (seed, per_kind) = (options.get("--seed")?, options.get("--per-kind")?);
            let max_packet = options.get_or("--max-packet", 400);
            let length = usize::try_from(max_packet).unwrap_or(usize::MAX);
            let tries = per_kind.saturating_mul(TRIES_PER_CASE).max(100_000);
            let cases = vectors::select(seed, per_kind, length, tries).map_err(Failure::Check)?;
            writeln!(
                out,
                "# seed {seed}, {per_kind} cases a kind, packets of at most {max_packet} octets"
            )?;
            writeln!(out, "# kind call number icmp_type icmp_code icmp_pointer length room packet-hex table-hex out-hex")?;
            if Kind::ALL
                .iter()
                .any(|&kind| vectors::leaves_out_15(kind, length))
            {
                writeln!(out, "# number 15 left out where it needs longer packets")?;
            }
            for (_, case) in &cases {
                writeln!(out, "{}", vectors::line(case))?;
            }
        }
        "show" => {
            let options = Options::parse(rest, &["--seed", "--index", "--packet"])?;
            let (seed, index) = (options.get("--seed")?, options.get("--index")?);
            let (case, packet) = match options.get("--packet") {
                Ok(packet) => (
                    generate::another(seed, index, packet),
                    format!(" packet {packet}"),
                ),
                Err(_) => (generate::case(seed, index), String::new()),
            };
            writeln!(
                out,
                "# seed {seed} index {index}{packet}: {}",
                case.notes.join("; ")
            )?;
            writeln!(out, "{}", vectors::line(&case))?;
        }
        "burst-coverage" => {
            let options = Options::parse(rest, &["--seed", "--cases"])?;
            let (seed, cases) = (options.get("--seed")?, options.get("--cases")?);
            let met = burst::coverage::collect(seed, cases).map_err(Failure::Check)?;
            writeln!(out, "{met}")?;
            met.judge().map_err(Failure::Check)?;
            let packets = met.packets();
            writeln!(
                out,
                "seed {seed}: {packets} packets in {cases} bursts, no gap"
            )?;
        }
        "burst-vectors" => {
            let known = ["--seed", "--cases", "--first", "--max-octets"];
            let options = Options::parse(rest, &known)?;
            let (seed, cases) = (options.get("--seed")?, options.get("--cases")?);
            let first = options.get_or("--first", 0);
            let max_octets = options.get_or("--max-octets", 20_000);
            writeln!(
                out,
                "# seed {seed}, {cases} bursts from {first} on, those of at most {max_octets} octets"
            )?;
            writeln!(
                out,
                "# burst call answer lengths packets-hex table-hex room places answers out-hex"
            )?;
            let end = first.saturating_add(cases);
            for (_, burst) in bursts::bursts(seed, first).take_while(|&(index, _)| index < end) {
                if burst.packets.len() as u64 <= max_octets {
                    writeln!(out, "{}", bursts::line(&burst))?;
                }
            }
        }
        "icmp-coverage" => {
            let options = Options::parse(rest, &["--seed", "--cases"])?;
            let (seed, cases) = (options.get("--seed")?, options.get("--cases")?);
            let met = icmp::coverage::collect(seed, cases).map_err(Failure::Check)?;
            writeln!(out, "{met}")?;
            met.judge().map_err(Failure::Check)?;
            let built = met.built();
            writeln!(
                out,
                "seed {seed}: {cases} packets, {built} messages, no gap"
            )?;
        }
        "icmp-vectors" => {
            let known = ["--seed", "--cases", "--first", "--max-octets"];
            let options = Options::parse(rest, &known)?;
            let (seed, cases) = (options.get("--seed")?, options.get("--cases")?);
            let first = options.get_or("--first", 0);
            let max_octets = options.get_or("--max-octets", 3_000);
            writeln!(
                out,
                "# seed {seed}, {cases} packets from {first} on, those of at most {max_octets} octets"
            )?;
            writeln!(out, "# icmp answer room packet-hex table-hex out-hex")?;
            for index in first..first.saturating_add(cases) {
                let case = icmp_cases::case(seed, index);
                if case.packet.len() as u64 <= max_octets {
                    writeln!(out, "{}", icmp_cases::line(&case))?;
                }
            }
        }
        "loss-coverage" => {
            let options = Options::parse(rest, &["--seed", "--cases"])?;
            let (seed, cases) = (options.get("--seed")?, options.get("--cases")?);
            let tally = loss::coverage::collect(seed, cases).map_err(Failure::Check)?;
            say_tally(out, &tally)?;
            let offers = tally.cases();
            writeln!(
                out,
                "seed {seed}: {offers} offers in {cases} histories, no gap"
            )?;
        }
        "loss-vectors" => {
            let options = Options::parse(rest, &["--seed", "--cases", "--first"])?;
            let (seed, cases) = (options.get("--seed")?, options.get("--cases")?);
            let first = options.get_or("--first", 0);
            writeln!(out, "# seed {seed}, {cases} histories from {first} on")?;
            writeln!(out, "# loss rows-hex teid:number:answer,... rows-hex")?;
            for index in first..first.saturating_add(cases) {
                let history = histories::history(seed, index);
                writeln!(out, "{}", histories::line(&history))?;
            }
        }
        "sequence-coverage" => {
            let options = Options::parse(rest, &["--seed", "--cases"])?;
            let (seed, cases) = (options.get("--seed")?, options.get("--cases")?);
            say_tally(out, &sequence::coverage::collect(seed, cases))?;
            writeln!(out, "seed {seed}: {cases} packets, no gap")?;
        }
        "sequence-vectors" => {
            let known = ["--seed", "--cases", "--first", "--max-packet"];
            let options = Options::parse(rest, &known)?;
            let (seed, cases) = (options.get("--seed")?, options.get("--cases")?);
            let first = options.get_or("--first", 0);
            let max_packet = options.get_or("--max-packet", 400);
            writeln!(
                out,
                "# seed {seed}, {cases} packets from {first} on, those of at most {max_packet} octets"
            )?;
            writeln!(out, "# sequence call value packet-hex")?;
            for index in first..first.saturating_add(cases) {
                let reading = readings::reading(seed, index);
                if reading.packet.len() as u64 <= max_packet {
                    writeln!(out, "{}", readings::line(&reading))?;
                }
            }
        }
        "match-coverage" => {
            let options = Options::parse(rest, &["--seed", "--cases"])?;
            let (seed, cases) = (options.get("--seed")?, options.get("--cases")?);
            let coverage = matching::coverage::collect(seed, cases).map_err(Failure::Check)?;
            writeln!(out, "{coverage}")?;
            coverage.judge().map_err(Failure::Check)?;
            writeln!(out, "seed {seed}: {cases} pairs, no gap")?;
        }
        "match-vectors" => {
            let options = Options::parse(rest, &["--seed", "--cases", "--first"])?;
            let (seed, cases) = (options.get("--seed")?, options.get("--cases")?);
            let first = options.get_or("--first", 0);
            writeln!(out, "# seed {seed}, {cases} pairs from {first} on")?;
            writeln!(out, "# match ipv6 mismatch index near-hex far-hex")?;
            writeln!(out, "# match ipv4 mismatch index near-hex far-hex")?;
            writeln!(out, "# match waypoint mismatch table-hex sid-hex")?;
            for index in first..first.saturating_add(cases) {
                writeln!(out, "{}", pairs::line(&pairs::pair(seed, index)))?;
            }
        }
        "match-trips" => {
            let options = Options::parse(rest, &["--seed", "--cases"])?;
            let (seed, cases) = (options.get("--seed")?, options.get("--cases")?);
            let (tally, packets) = matching::trips::run(seed, cases).map_err(Failure::Check)?;
            say_tally(out, &tally)?;
            writeln!(
                out,
                "seed {seed}: {cases} routes, {packets} packets as the mismatches say"
            )?;
        }
        "check" => {
            Options::parse(rest, &[])?;
            let (mut checked, mut differing, mut first) = (0, 0, None);
            for (number, line) in (1..).zip(io::stdin().lines()) {
                let line = line?;
                if line.is_empty() || line.starts_with('#') {
                    continue;
                }
                let (what, result) = check_line(&line)
                    .map_err(|why| Failure::Check(format!("line {number}: {why}")))?;
                checked += 1;
                if let Err(why) = result {
                    differing += 1;
                    first.get_or_insert(format!("line {number}, {what}: {why}"));
                }
            }
            if let Some(first) = first {
                return Err(Failure::Check(format!(
                    "{first} ({differing} of {checked} lines differ)"
                )));
            }
            writeln!(out, "{checked} lines as they should be")?;
        }
        "worked" => {
            Options::parse(rest, &[])?;
            let lines = worked::lines();
            for line in &lines {
                match &line.result {
                    Ok(()) => writeln!(out, "ok     {}", line.words)?,
                    Err(why) => writeln!(out, "FAILED {}: {why}", line.words)?,
                }
            }
            let failed = lines.iter().filter(|line| line.result.is_err()).count();
            writeln!(out, "{} worked packets, {failed} failed", lines.len())?;
            if failed > 0 {
                return Err(Failure::Check(format!("{failed} worked packets failed")));
            }
        }
        "program-input" | "program-output" => {
            let options = Options::parse(rest, &["--seed", "--per-kind", "--max-worked"])?;
            let (seed, per_kind) = (options.get("--seed")?, options.get("--per-kind")?);
            let max_worked = usize::try_from(options.get_or("--max-worked", u64::MAX));
            let run = program::run(seed, per_kind, max_worked.unwrap_or(usize::MAX))
                .map_err(Failure::Check)?;
            match command.as_str() {
                "program-input" => out.write_all(&run.input)?,
                _ => out.write_all(run.output.as_bytes())?,
            }
        }
        "icmp-program-input" | "icmp-program-output" => {
            let options = Options::parse(rest, &["--seed", "--cases", "--max-worked"])?;
            let (seed, cases) = (options.get("--seed")?, options.get("--cases")?);
            let max_worked = usize::try_from(options.get_or("--max-worked", u64::MAX));
            let run = program::messages(seed, cases, max_worked.unwrap_or(usize::MAX));
            match command.as_str() {
                "icmp-program-input" => out.write_all(&run.input)?,
                _ => out.write_all(run.output.as_bytes())?,
            }
        }
        "trips" => {
            let options = Options::parse(rest, &["--seed", "--cases"])?;
            let (seed, cases) = (options.get("--seed")?, options.get("--cases")?);
            let tally = trips::run(seed, cases).map_err(Failure::Check)?;
            writeln!(
                out,
                "{tally}\nseed {seed}: {cases} trips and their second trips as they should be"
            )?;
        }
        "burst-trips" => {
            let options = Options::parse(rest, &["--seed", "--cases"])?;
            let (seed, cases) = (options.get("--seed")?, options.get("--cases")?);
            let tally = burst::trips::run(seed, cases).map_err(Failure::Check)?;
            say_tally(out, &tally)?;
            let packets = tally.cases();
            writeln!(
                out,
                "seed {seed}: {cases} trips of bursts, {packets} packets as on trips alone"
            )?;
        }
        other => return Err(Failure::Usage(format!("unknown command {other}"))),
    }
    Ok(())
}

fn say_tally(out: &mut dyn Write, tally: &Tally) -> Result<(), Failure> {
    writeln!(out, "{tally}")?;
    tally.judge().map_err(Failure::Check)
}

/// What a line is about, and whether it holds here. An error for what is no line.
fn check_line(line: &str) -> Result<(&'static str, Result<(), String>), String> {
    match line.split(' ').next() {
        Some("burst") => Ok(("burst", bursts::parse(line)?.check())),
        Some("icmp") => Ok(("icmp", icmp_cases::parse(line)?.check())),
        Some("loss") => Ok(("loss", histories::parse(line)?.check())),
        Some("sequence") => Ok(("sequence", readings::parse(line)?.check())),
        Some("match") => Ok(("match", pairs::parse(line)?.check())),
        _ => {
            let case = vectors::parse(line)?;
            Ok((case.kind.name(), case.check()))
        }
    }
}

fn main() -> ExitCode {
    command::main("second", run)
}
