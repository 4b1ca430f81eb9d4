//! Cases through the library, by the number or for a time.

use crate::bench::Bench;
use crate::burst;
use crate::icmp;
use crate::loss::{self, Rows};
use crate::matching::Inputs;
use crate::mutate;
use crate::place::Place;
use crate::progress::{Progress, INTERVAL};
use crate::raw;
use second::burst::cases as bursts;
use second::coverage::Met;
use second::icmp::cases as icmp_cases;
use second::loss::histories;
use second::matching::pairs;
use second::{generate, Answer, Case};
use std::sync::atomic::{AtomicU64, Ordering};
use std::sync::mpsc::{self, RecvTimeoutError, Sender};
use std::thread;
use std::time::Instant;

/// Differences that are shown; the others are counted.
const SHOWN: u64 = 5;
/// Indices that a thread takes at a time.
const BLOCK: u64 = 64;
/// Bursts that go with so many.
const BURSTS: u64 = 16;

pub struct Work {
    pub command: &'static str,
    pub seed: u64,
    pub threads: u64,
    /// Mutated cases beside each one that is generated.
    pub mutations: u64,
    /// Whether bursts and a history of offers go with each block of cases, and a pair and a packet
    /// for an ICMPv6 message with each case.
    pub others: bool,
    /// The first index that is left out.
    pub end: u64,
    pub deadline: Option<Instant>,
}

pub struct Outcome {
    pub cases: u64,
    pub bursts: u64,
    pub histories: u64,
    pub pairs: u64,
    pub icmp_cases: u64,
    pub differences: u64,
    /// By what the library answered.
    pub met: Met,
    pub seconds: u64,
}

/// A difference in words.
fn difference(place: Place, case: &Case, found: Answer, why: &str) -> String {
    format!(
        "{place} ({}): {why}\n  expected: {}\n  found:    {found}\n  run again: {}",
        case.kind.name(),
        case.answer,
        place.command()
    )
}

/// What was done, by all threads together.
#[derive(Default)]
struct Done {
    cases: AtomicU64,
    bursts: AtomicU64,
    histories: AtomicU64,
    pairs: AtomicU64,
    icmp_cases: AtomicU64,
}

/// What the library answers, and what is wrong with it.
pub fn judge(bench: &mut Bench, place: Place, case: &Case) -> (Answer, Vec<u8>, Option<String>) {
    raw::runs(place);
    let (mut found, mut octets) = (Answer::default(), Vec::new());
    let checked = case.check_by(|call, packet, table, out| {
        let packed = bench.call(call, packet, table, out);
        found = Answer::unpack(packed);
        octets = out[..out.len().min(found.length as usize)].to_vec();
        packed
    });
    (found, octets, checked.and(bench.fault()).err())
}

fn work(work: &Work, next: &AtomicU64, done: &Done, differences: Sender<String>) -> Met {
    let (mut bench, mut icmp_bench) = (Bench::new(), Bench::new());
    let mut burst_bench = burst::Bench::new();
    let mut rows = Rows::new();
    let mut inputs = Inputs::new();
    let mut met = Met::new();
    // The receiver outlives the threads.
    let send = |difference| differences.send(difference).unwrap_or_default();
    let mut one = |place, case: Case| {
        let (found, _, wrong) = judge(&mut bench, place, &case);
        met.add(&case, found);
        done.cases.fetch_add(1, Ordering::Relaxed);
        if let Some(why) = wrong {
            send(difference(place, &case, found, &why));
        }
    };
    let seed = work.seed;
    loop {
        let first = next.fetch_add(BLOCK, Ordering::Relaxed);
        for index in first..(first + BLOCK).min(work.end) {
            let late = |deadline| Instant::now() >= deadline;
            if work.deadline.is_some_and(late) {
                return met;
            }
            let place = |mutation| Place::Case {
                seed,
                index,
                mutation,
            };
            let case = generate::case(seed, index);
            for mutation in 1..=work.mutations {
                one(
                    place(mutation),
                    mutate::mutated(&case, seed, index, mutation),
                );
            }
            one(place(0), case);
            if work.others {
                let judged = inputs.judge(Place::Pair { seed, index }, &pairs::pair(seed, index));
                done.pairs.fetch_add(1, Ordering::Relaxed);
                judged.unwrap_or_else(send);
                let case = icmp_cases::case(seed, index);
                let judged = icmp::judge(&mut icmp_bench, Place::Icmp { seed, index }, &case);
                done.icmp_cases.fetch_add(1, Ordering::Relaxed);
                judged.unwrap_or_else(send);
            }
        }
        if work.others {
            let of_block = bursts::bursts(seed, first / BLOCK * BURSTS).take(BURSTS as usize);
            for (index, burst) in of_block {
                let judged = burst_bench.judge(Place::Burst { seed, index }, &burst);
                done.bursts.fetch_add(1, Ordering::Relaxed);
                judged.unwrap_or_else(send);
            }
            let index = first / BLOCK;
            let history = histories::history(seed, index);
            let judged = loss::one(&mut rows, Place::History { seed, index }, &history);
            done.histories.fetch_add(1, Ordering::Relaxed);
            judged.unwrap_or_else(send);
        }
        if first + BLOCK >= work.end {
            return met;
        }
    }
}

impl Work {
    pub fn run(&self) -> Outcome {
        let (next, done) = (AtomicU64::new(0), Done::default());
        let (sender, receiver) = mpsc::channel();
        let mut progress = Progress::new();
        let mut differences = 0;
        let mut met = Met::new();
        thread::scope(|scope| {
            let threads: Vec<_> = (0..self.threads)
                .map(|_| {
                    let (sender, next, done) = (sender.clone(), &next, &done);
                    scope.spawn(move || work(self, next, done, sender))
                })
                .collect();
            drop(sender);
            loop {
                match receiver.recv_timeout(INTERVAL) {
                    Ok(difference) => {
                        differences += 1;
                        if differences <= SHOWN {
                            progress.note(difference);
                        }
                    }
                    Err(RecvTimeoutError::Timeout) => {}
                    Err(RecvTimeoutError::Disconnected) => break,
                }
                progress.say(|| {
                    let done = done.cases.load(Ordering::Relaxed);
                    let (command, seed) = (self.command, self.seed);
                    format!(
                        "boundary {command}: seed {seed}, {done} cases, {differences} differences"
                    )
                });
            }
            for thread in threads {
                match thread.join() {
                    Ok(of_thread) => met += &of_thread,
                    Err(panic) => std::panic::resume_unwind(panic),
                }
            }
        });
        Outcome {
            cases: done.cases.into_inner(),
            bursts: done.bursts.into_inner(),
            histories: done.histories.into_inner(),
            pairs: done.pairs.into_inner(),
            icmp_cases: done.icmp_cases.into_inner(),
            differences,
            met,
            seconds: progress.seconds(),
        }
    }
}
