//! Histories of offers through `kawsarpa_loss_offer`, judged by the second program.

use crate::library;
use crate::place::Place;
use crate::progress::Progress;
use crate::raw::{self, Pages, Side};
use second::loss::coverage;
use second::loss::histories::{self, History};
use second::loss::ROW_LENGTH;
use second::tally::Tally;

/// More octets than the rows of any history have.
const SIZE: usize = 4 * 4096;

/// Where rows lie: between inaccessible pages, with known octets in the rest.
pub struct Rows {
    pages: Pages,
    filler: Vec<u8>,
}

impl Rows {
    pub fn new() -> Self {
        let filler: Vec<u8> = (0..SIZE).map(|i| (i * 7 + i / 251 + 3) as u8).collect();
        let mut pages = Pages::new(SIZE);
        pages.octets().copy_from_slice(&filler);
        Rows { pages, filler }
    }

    /// The history with rows that end at inaccessible pages, and again with rows that
    /// begin behind some.
    pub fn judge(&mut self, history: &History) -> Result<(), String> {
        [Side::End, Side::Start].into_iter().try_for_each(|side| {
            let length = ROW_LENGTH * history.rows.len();
            let free = SIZE.checked_sub(length).expect("rows that fit");
            let at = if side == Side::End { free } else { 0 };
            let (before, rest) = self.pages.octets().split_at_mut(at);
            let (own, behind) = rest.split_at_mut(length);
            let (filler_before, rest) = self.filler.split_at(at);
            let (filler_own, filler_behind) = rest.split_at(length);
            let (mut offers, mut kept) = (0, Ok(()));
            let checked = history.check_by(own, |rows, teid, number| {
                raw::lend_rows(before, rows, behind);
                let answer = library::loss_offer(rows, teid, number);
                raw::take_back_rows(before, rows, behind);
                offers += 1;
                if kept.is_ok() && (before != filler_before || behind != filler_behind) {
                    kept = Err(format!("offer {offers} changed octets around the rows"));
                }
                answer
            });
            own.copy_from_slice(filler_own);
            before.copy_from_slice(filler_before);
            behind.copy_from_slice(filler_behind);
            kept.and(checked)
        })
    }
}

/// What the offers of these histories met, and how many histories they are: as many as
/// have so many offers. An error is the first difference.
pub fn run(seed: u64, first: u64, offers: u64) -> Result<(Tally, u64), String> {
    let mut rows = Rows::new();
    let mut progress = Progress::new();
    let mut tally = Tally::new(&coverage::SHAPE);
    let mut indices = first..;
    while tally.cases() < offers {
        progress.say(|| format!("boundary loss: seed {seed}, {} offers", tally.cases()));
        let index = indices.next().expect("an index");
        let history = histories::history(seed, index);
        one(&mut rows, Place::History { seed, index }, &history)?;
        coverage::add(&mut tally, &history);
    }
    Ok((tally, indices.start - first))
}

pub fn one(rows: &mut Rows, place: Place, history: &History) -> Result<(), String> {
    raw::runs(place);
    let judged = rows.judge(history);
    judged.map_err(|why| format!("{place}: {why}\n  run again: {}", place.command()))
}
