//! How much stack a call uses: it runs on painted pages, and the lowest octet
//! that it wrote says how deep it went.

use crate::bench::exports;
use crate::library::{self, Export};
use crate::place::Place;
use crate::raw::{self, Pages};
use second::burst::cases as bursts;
use second::icmp::cases as icmp_cases;
use second::loss::{histories, ROW_LENGTH};
use second::matching::pairs::{self, Ask};
use second::sequence::cases as readings;
use second::{Call, Case};

/// Two paints, because an octet may be written as it was painted.
const PAINTS: [u8; 2] = [0x00, 0xa5];

/// Octets of the painted stack; a call that needs more faults.
const SIZE: usize = 1 << 16;

/// The deepest call of a function.
pub struct Deepest {
    pub name: &'static str,
    /// Octets from the caller's stack pointer down, the return address with them.
    pub octets: usize,
    pub calls: usize,
    /// Where that was.
    pub at: String,
}

/// What an export did, in cases of a seed. An error if a call does not answer as it
/// should: what was measured would be another call.
pub fn of_export(export: Export, seed: u64, cases: &[(u64, Case)]) -> Result<Deepest, String> {
    let mut gauge = Gauge::new(export.name());
    for (index, case) in cases {
        if !exports(case.call).contains(&export) {
            continue;
        }
        let place = Place::Case {
            seed,
            index: *index,
            mutation: 0,
        };
        let at = || format!("{place}: {}", case.answer);
        gauge.measure(place, 1, at, |stack| {
            case.check_by(|_, packet, table, out| export.call_on(stack, packet, table, out))
        })?;
    }
    Ok(gauge.deepest)
}

/// The same of a call for bursts, in the first bursts of a seed. What it has of its arguments on
/// the stack is its caller's.
pub fn of_burst(call: Call, seed: u64, count: u64) -> Result<Deepest, String> {
    let mut gauge = Gauge::new(library::burst_name(call));
    gauge.stacked = library::BURST_STACKED;
    let first = bursts::bursts(seed, 0).take_while(|&(index, _)| index < count);
    for (index, burst) in first.filter(|(_, burst)| burst.call == call) {
        let place = Place::Burst { seed, index };
        let at = || format!("{place}: {}", burst.answer);
        gauge.measure(place, 1, at, |stack| {
            burst.check_by(|call, packets, lengths, table, out, answers| {
                library::burst_on(stack, call, packets, lengths, table, out, answers)
            })
        })?;
    }
    Ok(gauge.deepest)
}

/// The same of ICMPv6 messages, in the first cases of a seed.
pub fn of_icmp(seed: u64, count: u64) -> Result<Deepest, String> {
    let export = Export::Icmp;
    let mut gauge = Gauge::new(export.name());
    for index in 0..count {
        let place = Place::Icmp { seed, index };
        let case = icmp_cases::case(seed, index);
        let at = || format!("{place}: {}", case.answer);
        gauge.measure(place, 1, at, |stack| {
            case.check_by(|packet, table, out| export.call_on(stack, packet, table, out))
        })?;
    }
    Ok(gauge.deepest)
}

/// The same of offers, in the first histories of a seed.
pub fn of_offers(seed: u64, count: u64) -> Result<Deepest, String> {
    let mut gauge = Gauge::new(library::LOSS_OFFER);
    let mut pages = Pages::new(SIZE);
    for index in 0..count {
        let place = Place::History { seed, index };
        let history = histories::history(seed, index);
        let rows = &mut pages.octets()[..ROW_LENGTH * history.rows.len()];
        let at = || place.to_string();
        gauge.measure(place, history.offers.len(), at, |stack| {
            history.check_by(rows, |rows, teid, number| {
                library::loss_offer_on(stack, rows, teid, number)
            })
        })?;
    }
    Ok(gauge.deepest)
}

/// The same of a reader of sequence numbers, in the first packets of a seed.
pub fn of_reader(call: Call, seed: u64, count: u64) -> Result<Deepest, String> {
    let mut gauge = Gauge::new(library::reader_name(call));
    for index in 0..count {
        let reading = readings::reading(seed, index);
        if reading.call != call {
            continue;
        }
        let place = Place::Reading { seed, index };
        let at = || format!("{place}: {:016x}", reading.sequence);
        gauge.measure(place, 1, at, |stack| {
            reading.check_by(|call, packet| library::sequence_on(stack, call, packet))
        })?;
    }
    Ok(gauge.deepest)
}

/// The same of a call that tells whether tables fit, in the first pairs of a seed.
pub fn of_match(ask: Ask, seed: u64, count: u64) -> Result<Deepest, String> {
    let mut gauge = Gauge::new(library::match_name(ask));
    for index in 0..count {
        let pair = pairs::pair(seed, index);
        if pair.ask != ask {
            continue;
        }
        let place = Place::Pair { seed, index };
        let at = || format!("{place}: {:016x}", pair.mismatch);
        gauge.measure(place, 1, at, |stack| {
            pair.check_by(|ask, table, index, other| {
                library::mismatch_on(stack, ask, table, index, other)
            })
        })?;
    }
    Ok(gauge.deepest)
}

struct Gauge {
    stack: Pages,
    /// Octets at its end that are the caller's.
    stacked: usize,
    deepest: Deepest,
}

impl Gauge {
    fn new(name: &'static str) -> Self {
        Gauge {
            stack: Pages::new(SIZE),
            stacked: 0,
            deepest: Deepest {
                name,
                octets: 0,
                calls: 0,
                at: String::new(),
            },
        }
    }

    /// So many calls, on the stack that `run` is given.
    fn measure(
        &mut self,
        place: Place,
        calls: usize,
        at: impl Fn() -> String,
        mut run: impl FnMut(&mut Pages) -> Result<(), String>,
    ) -> Result<(), String> {
        let Gauge {
            stack,
            stacked,
            deepest,
        } = self;
        raw::runs(place);
        deepest.calls += calls;
        for paint in PAINTS {
            stack.octets().fill(paint);
            run(stack).map_err(|why| format!("{place}, {}: {why}", deepest.name))?;
            let octets = stack.octets().iter();
            let untouched = octets.take_while(|&&octet| octet == paint).count();
            let octets = SIZE - *stacked - untouched;
            if octets > deepest.octets {
                deepest.octets = octets;
                deepest.at = at();
            }
        }
        Ok(())
    }
}
