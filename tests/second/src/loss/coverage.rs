//! What the offers of histories met: each outcome by the number of rows, and edges.

use super::histories::{self, History, Offer};
use super::{distance, offer, Row, MOST_ROWS, MOST_SEEN, NO_ROW, ROW_FULL};
use crate::tally::{Shape, Tally};

pub static SHAPE: Shape = Shape {
    corner: "rows",
    lines: &["taken", "new", "repeated", "late", "25", "26"],
    columns: &["0", "1", "2 to 254", "255", "256", "257", "more"],
    // Without rows nothing is counted.
    can_occur: |line, column| column != "0" || line == "25",
};

fn column(rows: usize) -> &'static str {
    match rows {
        0 => "0",
        1 => "1",
        2..=254 => "2 to 254",
        255 => "255",
        256 => "256",
        257 => "257",
        _ => "more",
    }
}

pub fn add(tally: &mut Tally, history: &History) {
    let mut before = history.rows.clone();
    let mut after = before.clone();
    for one in &history.offers {
        offer(&mut after, one.teid, one.number);
        add_offer(tally, &before, one, &after);
        before.copy_from_slice(&after);
    }
}

/// By what was answered and what changed.
fn add_offer(tally: &mut Tally, before: &[Row], offer: &Offer, after: &[Row]) {
    let &Offer {
        teid,
        number,
        answer,
    } = offer;
    let (used, past) = before.split_at(before.len().min(MOST_ROWS));
    // The row that was counted in, or the full one that refused.
    let changed = used.iter().zip(after).position(|(was, is)| was != is);
    let own = || used.iter().position(|row| row.is_of(teid));
    let at = changed.or_else(own).unwrap_or(used.len());
    let (front, rest) = used.split_at(at);
    let (was, behind) = match rest.split_first() {
        Some((was, behind)) => (*was, behind),
        None => (Row::default(), rest),
    };
    let is = after.get(at).copied().unwrap_or_default();

    let [none, full] = [NO_ROW, ROW_FULL].map(|refusal| answer == refusal);
    let counted = !none && !full;
    let (taken, own) = (counted && was.is_free(), counted && !was.is_free());
    let new = own && is.new != was.new;
    let repeated = own && is.repeated != was.repeated;
    let late = own && is.late != was.late;
    let outcomes = [taken, new, repeated, late, none, full];
    let mut lines = SHAPE.lines.iter().zip(outcomes);
    let (line, _) = lines.find(|&(_, met)| met).expect("an outcome");

    let apart = distance(was.highest, number);
    let free = |rows: &[Row]| rows.iter().any(Row::is_free);
    let of_teid = |rows: &[Row]| rows.iter().any(|row| row.is_of(teid));
    let free_with_teid = |row: &Row| row.is_free() && row.teid == teid;
    tally.add(
        line,
        column(before.len()),
        &[
            ("late at -32,768", late && apart == -32_768),
            ("late at -32,767", late && apart == -32_767),
            ("late at -1", late && apart == -1),
            ("new at 1", new && apart == 1),
            ("new at 2", new && apart == 2),
            ("new at 32,766", new && apart == 32_766),
            ("new at 32,767", new && apart == 32_767),
            (
                "new, the number below the highest",
                new && number < was.highest,
            ),
            (
                "late, the number above the highest",
                late && number > was.highest,
            ),
            ("new wraps", new && is.new == 0),
            ("repeated wraps", repeated && is.repeated == 0),
            ("late wraps", late && is.late == 0),
            ("lost wraps", new && is.lost < was.lost),
            ("seen becomes 4,294,967,295", own && is.seen == MOST_SEEN),
            ("taken by TEID 0", taken && teid == 0),
            ("the lowest row taken", taken && at == 0),
            ("the 256th row taken", taken && at == MOST_ROWS - 1),
            (
                "a row taken in which other octets stood",
                taken && was != Row::default(),
            ),
            (
                "taken, a row past the 256th is of the TEID",
                taken && of_teid(past),
            ),
            ("in a row of TEID 0", own && teid == 0),
            ("in the 256th row", own && at == MOST_ROWS - 1),
            ("in a row behind a free one", own && free(front)),
            (
                "in a row behind a free one with the TEID",
                own && front.iter().any(free_with_teid),
            ),
            (
                "in a row before another of the TEID",
                own && of_teid(behind),
            ),
            (
                "25, a row past the 256th is of the TEID",
                none && of_teid(past),
            ),
            ("25, a row past the 256th is free", none && free(past)),
            ("26 behind a free row", full && free(front)),
            ("26 before a free row", full && free(behind)),
            ("26 before another row of the TEID", full && of_teid(behind)),
            (
                "26, a row past the 256th is of the TEID",
                full && of_teid(past),
            ),
        ],
    );
}

/// Generates and checks the first `cases` histories of a seed.
pub fn collect(seed: u64, cases: u64) -> Result<Tally, String> {
    let mut tally = Tally::new(&SHAPE);
    for index in 0..cases {
        let history = histories::history(seed, index);
        history
            .check()
            .and_then(|()| history.check_laws())
            .map_err(|why| format!("seed {seed} history {index}: {why}"))?;
        add(&mut tally, &history);
    }
    Ok(tally)
}

#[cfg(test)]
mod tests {
    use super::*;

    #[test]
    fn no_gap() {
        let tally = collect(7, 4_000).unwrap();
        assert_eq!(tally.judge(), Ok(()), "{tally}");
    }
}
