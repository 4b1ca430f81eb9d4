//! The command `boundary`: the library across its C boundary, judged by the
//! second program.
#![deny(unsafe_code)]

mod bench;
mod burst;
mod cases;
mod faults;
mod help;
mod icmp;
#[allow(unsafe_code)]
mod library;
mod loss;
mod matching;
mod mutate;
mod place;
mod progress;
#[allow(unsafe_code)]
mod raw;
mod sequence;
mod stack;
mod threads;
mod trips;

use cases::Work;
use library::Export;
use place::Place;
use second::command::{self, Failure, Options};
use second::coverage::{Coverage, Met};
use second::matching::pairs::Ask;
use second::{vectors, Call};
use std::io::Write;
use std::process::ExitCode;
use std::time::{Duration, Instant, SystemTime, UNIX_EPOCH};

/// Mutated cases beside each generated one of `fuzz`.
const MUTATIONS: u64 = 7;
/// Packets of every length, so that every answer number can occur.
const ANY_LENGTH: usize = 70_000;
/// Cases that `stack` looks through at most, for each case wanted.
const TRIES_PER_CASE: u64 = 20_000;
/// What a call may use of the stack: an eighth of the smallest stack that a
/// thread can have on Linux (PTHREAD_STACK_MIN, 16,384), so any thread can call.
const STACK_BOUND: usize = 2048;

/// A count of which 0 would show nothing.
fn count(options: &Options, name: &str, default: Option<u64>) -> Result<u64, Failure> {
    let count = match default {
        Some(default) => options.get_or(name, default),
        None => options.get(name)?,
    };
    match count {
        0 => Err(Failure::Usage(format!("{name}: at least 1"))),
        _ => Ok(count),
    }
}

fn thread_count(options: &Options, default: u64) -> Result<u64, Failure> {
    match count(options, "--threads", Some(default))? {
        threads @ 1..=64 => Ok(threads),
        _ => Err(Failure::Usage("--threads: at most 64".to_string())),
    }
}

fn processors() -> u64 {
    std::thread::available_parallelism().map_or(1, |count| count.get().min(64) as u64)
}

fn seed_of_clock() -> u64 {
    let nanoseconds = SystemTime::now()
        .duration_since(UNIX_EPOCH)
        .map_or(0, |time| time.as_nanos() as u64);
    nanoseconds ^ u64::from(std::process::id()) << 48
}

fn run(words: &[String], out: &mut dyn Write) -> Result<(), Failure> {
    let Some((command, rest)) = words.split_first() else {
        return Err(Failure::Usage("no command".to_string()));
    };
    if help::is_asked(command) || command == "help" {
        return Ok(help::write(out, None)?);
    }
    let Some((name, known, _)) = help::COMMANDS
        .into_iter()
        .find(|(name, ..)| name == command)
    else {
        return Err(Failure::Usage(format!("unknown command {command}")));
    };
    if rest.iter().any(|word| help::is_asked(word)) {
        return Ok(help::write(out, Some(name))?);
    }
    let options = &Options::parse(rest, known)?;
    raw::report_faults();
    match name {
        "cases" => run_cases(options, out),
        "case" => run_case(options, out),
        "burst" => run_burst(options, out),
        "burst-trips" => run_burst_trips(options, out),
        "icmp" => run_icmp(options, out),
        "faults" => run_faults(options, out),
        "loss" => run_loss(options, out),
        "sequence" => run_sequence(options, out),
        "match" => run_match(options, out),
        "match-trips" => run_match_trips(options, out),
        "trips" => run_trips(options, out),
        "threads" => run_threads(options, out),
        "stack" => run_stack(options, out),
        _ => run_fuzz(options, out),
    }
}

fn run_cases(options: &Options, out: &mut dyn Write) -> Result<(), Failure> {
    let seed = options.get("--seed")?;
    let cases = count(options, "--cases", None)?;
    let tables = options.get_or("--tables", Met::TABLES);
    let outcome = Work {
        command: "cases",
        seed,
        threads: thread_count(options, processors())?,
        mutations: 0,
        others: false,
        end: cases,
        deadline: None,
    }
    .run();
    let judged = outcome.met.judge_first(tables);
    let gaps = match judged {
        Ok(()) => "no gap",
        Err(_) => "places not as they should be",
    };
    writeln!(out, "{}", outcome.met)?;
    report(&format!("seed {seed}, {gaps}"), &outcome, out)?;
    judged.map_err(Failure::Check)
}

fn run_fuzz(options: &Options, out: &mut dyn Write) -> Result<(), Failure> {
    let seconds = count(options, "--seconds", None)?;
    let seed = options.find("--seed").unwrap_or_else(seed_of_clock);
    let deadline = Instant::now()
        .checked_add(Duration::from_secs(seconds))
        .ok_or_else(|| Failure::Usage(format!("--seconds: {seconds} is too long")))?;
    let threads = thread_count(options, processors())?;
    eprintln!("boundary fuzz: seed {seed}, {seconds} s");
    let outcome = Work {
        command: "fuzz",
        seed,
        threads,
        mutations: MUTATIONS,
        others: true,
        end: u64::MAX,
        deadline: Some(deadline),
    }
    .run();
    let (bursts, histories, pairs) = (outcome.bursts, outcome.histories, outcome.pairs);
    let icmp_cases = outcome.icmp_cases;
    writeln!(out, "{}", outcome.met.numbers)?;
    report(
        &format!(
            "seed {seed}, {bursts} bursts, {histories} histories of offers, {pairs} pairs, \
             {icmp_cases} ICMP cases"
        ),
        &outcome,
        out,
    )
}

fn report(what: &str, outcome: &cases::Outcome, out: &mut dyn Write) -> Result<(), Failure> {
    let &cases::Outcome {
        cases,
        differences,
        seconds,
        ..
    } = outcome;
    writeln!(
        out,
        "{what}: {cases} cases, {differences} differences, {seconds} s"
    )?;
    match differences {
        0 => Ok(()),
        _ => Err(Failure::Check(format!("{differences} differences"))),
    }
}

fn run_case(options: &Options, out: &mut dyn Write) -> Result<(), Failure> {
    let (seed, index) = (options.get("--seed")?, options.get("--index")?);
    let mutation = options.get_or("--mutation", 0);
    let place = Place::Case {
        seed,
        index,
        mutation,
    };
    let case = mutate::case(seed, index, mutation);
    let (kind, call, room) = (case.kind.name(), case.call.name(), case.room);
    writeln!(out, "{place}: {kind}, call {call}, room {room}")?;
    writeln!(out, "done to it: {}", case.notes.join("; "))?;
    for (name, octets) in [("packet", &case.packet), ("table", &case.table)] {
        writeln!(
            out,
            "{name}, {} octets: {}",
            octets.len(),
            vectors::hex(octets)
        )?;
    }
    writeln!(out, "expected: {}", case.answer)?;
    writeln!(out, "  octets: {}", vectors::hex(&case.sent))?;
    // A fault in the call ends the program.
    out.flush()?;
    let (found, octets, wrong) = cases::judge(&mut bench::Bench::new(), place, &case);
    writeln!(out, "found:    {found}")?;
    writeln!(out, "  octets: {}", vectors::hex(&octets))?;
    match wrong {
        Some(why) => Err(Failure::Check(why)),
        None => Ok(writeln!(out, "no difference")?),
    }
}

fn run_burst(options: &Options, out: &mut dyn Write) -> Result<(), Failure> {
    let seed = options.get("--seed")?;
    let packets = count(options, "--packets", None)?;
    let first = options.get_or("--first", 0);
    let tables = options.get_or("--tables", burst::Met::TABLES);
    let met = burst::run(seed, first, packets).map_err(Failure::Check)?;
    writeln!(out, "{met}")?;
    // One burst alone is looked at again, and does not meet everything.
    if packets > 1 {
        met.judge_first(tables).map_err(Failure::Check)?;
    }
    writeln!(
        out,
        "seed {seed}: {} packets in {} bursts, each octet and each answer place as it should be",
        met.packets(),
        met.bursts()
    )?;
    Ok(())
}

fn run_burst_trips(options: &Options, out: &mut dyn Write) -> Result<(), Failure> {
    let seed = options.get("--seed")?;
    let cases = count(options, "--cases", None)?;
    let first = options.get_or("--first", 0);
    let indices = first..first.saturating_add(cases);
    let tally = burst::run_trips(seed, indices).map_err(Failure::Check)?;
    writeln!(out, "{tally}")?;
    // One trip alone is looked at again.
    if cases > 1 {
        tally.judge().map_err(Failure::Check)?;
    }
    writeln!(
        out,
        "seed {seed}: {cases} trips of bursts, {} packets as on trips alone",
        tally.cases()
    )?;
    Ok(())
}

fn run_icmp(options: &Options, out: &mut dyn Write) -> Result<(), Failure> {
    let seed = options.get("--seed")?;
    let cases = count(options, "--cases", None)?;
    let first = options.get_or("--first", 0);
    let tables = options.get_or("--tables", icmp::Met::TABLES);
    let met = icmp::run(seed, first..first.saturating_add(cases)).map_err(Failure::Check)?;
    writeln!(out, "{met}")?;
    // One packet alone is looked at again.
    if cases > 1 {
        met.judge_first(tables).map_err(Failure::Check)?;
    }
    writeln!(
        out,
        "seed {seed}: {cases} packets, {} messages, each octet as it should be",
        met.built()
    )?;
    Ok(())
}

fn run_faults(options: &Options, out: &mut dyn Write) -> Result<(), Failure> {
    let seed = options.get("--seed")?;
    let cases = count(options, "--cases", None)?;
    let first = options.get_or("--first", 0);
    let faults = faults::run(seed, first..first.saturating_add(cases)).map_err(Failure::Check)?;
    writeln!(out, "{faults}")?;
    // One table alone is looked at again, and has no more than one fault.
    if cases > 1 {
        faults.judge().map_err(Failure::Check)?;
    }
    writeln!(
        out,
        "seed {seed}: {cases} tables, each fault as it should be"
    )?;
    Ok(())
}

fn run_loss(options: &Options, out: &mut dyn Write) -> Result<(), Failure> {
    let seed = options.get("--seed")?;
    let offers = count(options, "--offers", None)?;
    let first = options.get_or("--first", 0);
    let (tally, histories) = loss::run(seed, first, offers).map_err(Failure::Check)?;
    writeln!(out, "{tally}")?;
    // One history alone is looked at again, and does not meet everything.
    if histories > 1 {
        tally.judge().map_err(Failure::Check)?;
    }
    writeln!(
        out,
        "seed {seed}: {} offers in {histories} histories, each row as it should be after each",
        tally.cases()
    )?;
    Ok(())
}

fn run_sequence(options: &Options, out: &mut dyn Write) -> Result<(), Failure> {
    let seed = options.get("--seed")?;
    let cases = count(options, "--cases", None)?;
    let first = options.get_or("--first", 0);
    let indices = first..first.saturating_add(cases);
    let tally = sequence::run(seed, indices).map_err(Failure::Check)?;
    writeln!(out, "{tally}")?;
    // One packet alone is looked at again.
    if cases > 1 {
        tally.judge().map_err(Failure::Check)?;
    }
    writeln!(
        out,
        "seed {seed}: {cases} packets, each number read as it should be"
    )?;
    Ok(())
}

fn run_match(options: &Options, out: &mut dyn Write) -> Result<(), Failure> {
    let seed = options.get("--seed")?;
    let cases = count(options, "--cases", None)?;
    let first = options.get_or("--first", 0);
    let indices = first..first.saturating_add(cases);
    let coverage = matching::run(seed, indices).map_err(Failure::Check)?;
    writeln!(out, "{coverage}")?;
    // One pair alone is looked at again.
    if cases > 1 {
        coverage.judge().map_err(Failure::Check)?;
    }
    writeln!(
        out,
        "seed {seed}: {cases} pairs, each mismatch as it should be"
    )?;
    Ok(())
}

fn run_match_trips(options: &Options, out: &mut dyn Write) -> Result<(), Failure> {
    let seed = options.get("--seed")?;
    let cases = count(options, "--cases", None)?;
    let first = options.get_or("--first", 0);
    let indices = first..first.saturating_add(cases);
    let (tally, packets) = matching::run_trips(seed, indices).map_err(Failure::Check)?;
    writeln!(out, "{tally}")?;
    // One route alone is looked at again.
    if cases > 1 {
        tally.judge().map_err(Failure::Check)?;
    }
    writeln!(
        out,
        "seed {seed}: {cases} routes, {packets} packets as the mismatches say"
    )?;
    Ok(())
}

fn run_trips(options: &Options, out: &mut dyn Write) -> Result<(), Failure> {
    let seed = options.get("--seed")?;
    let cases = count(options, "--cases", None)?;
    let first = options.get_or("--first", 0);
    let tally = trips::run(seed, first..first.saturating_add(cases)).map_err(Failure::Check)?;
    writeln!(
        out,
        "{tally}\nseed {seed}: {cases} trips and their second trips as they should be"
    )?;
    let flow_5 = Place::Flow5;
    let arrived = trips::flow_5().map_err(|why| Failure::Check(format!("{flow_5}: {why}")))?;
    writeln!(
        out,
        "{flow_5}: arrives as {flow_5}, container octet 45, on {arrived} trips of 0 to 7 waypoints"
    )?;
    Ok(())
}

fn run_threads(options: &Options, out: &mut dyn Write) -> Result<(), Failure> {
    let seed = options.get("--seed")?;
    let cases = count(options, "--cases", None)?;
    let first = options.get_or("--first", 0);
    let threads = thread_count(options, 2)?;
    let indices = first..first.saturating_add(cases);
    let tally = threads::run(seed, indices, threads).map_err(Failure::Check)?;
    writeln!(
        out,
        "seed {seed}: {threads} threads on {cases} shared tables, {} calls as they should be, {} \
         of them beside another",
        tally.calls, tally.overlapping
    )?;
    if threads > 1 && tally.overlapping == 0 {
        return Err(Failure::Check("no calls overlapped".to_string()));
    }
    Ok(())
}

fn run_stack(options: &Options, out: &mut dyn Write) -> Result<(), Failure> {
    let seed = options.get_or("--seed", 1);
    let per_kind = count(options, "--per-kind", Some(300))?;
    let tries = per_kind.saturating_mul(TRIES_PER_CASE);
    let cases = vectors::select(seed, per_kind, ANY_LENGTH, tries).map_err(Failure::Check)?;
    let mut coverage = Coverage::default();
    for (_, case) in &cases {
        coverage.add(case.kind, case.answer.number);
    }
    coverage.judge().map_err(Failure::Check)?;
    let others = per_kind.saturating_mul(20);
    let offers = second::loss::coverage::collect(seed, others).map_err(Failure::Check)?;
    offers.judge().map_err(Failure::Check)?;
    let packets = second::sequence::coverage::collect(seed, others);
    packets.judge().map_err(Failure::Check)?;
    let met = second::burst::coverage::collect(seed, others).map_err(Failure::Check)?;
    met.judge().map_err(Failure::Check)?;
    let of_exports = Export::CALLS.map(|export| stack::of_export(export, seed, &cases));
    let of_bursts = [Call::Ipv6, Call::Ipv4].map(|call| stack::of_burst(call, seed, others));
    let of_readers = [Call::Ipv6, Call::Ipv4].map(|call| stack::of_reader(call, seed, others));
    let pairs = others.saturating_mul(4);
    let met = second::matching::coverage::collect(seed, pairs).map_err(Failure::Check)?;
    met.judge().map_err(Failure::Check)?;
    let of_matches = Ask::ALL.map(|ask| stack::of_match(ask, seed, pairs));
    // Few cases do not meet every edge.
    let met = second::icmp::coverage::collect(seed, pairs).map_err(Failure::Check)?;
    met.judge_first(1).map_err(Failure::Check)?;
    let deepest: Vec<_> = of_exports
        .into_iter()
        .chain([stack::of_icmp(seed, pairs)])
        .chain(of_bursts)
        .chain([stack::of_offers(seed, others)])
        .chain(of_readers)
        .chain(of_matches)
        .collect::<Result<_, _>>()
        .map_err(Failure::Check)?;
    for most in &deepest {
        writeln!(
            out,
            "{}: at most {} octets of stack in {} calls; at {}",
            most.name, most.octets, most.calls, most.at
        )?;
    }
    match deepest.iter().find(|most| most.octets > STACK_BOUND) {
        None => Ok(writeln!(
            out,
            "seed {seed}: no more than {STACK_BOUND} octets of stack"
        )?),
        Some(most) => Err(Failure::Check(format!(
            "{} used {} octets of stack, more than {STACK_BOUND}",
            most.name, most.octets
        ))),
    }
}

fn main() -> ExitCode {
    command::main("boundary", run)
}
