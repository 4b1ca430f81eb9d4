//! Histories of offers from a seed: rows as they were lent, and what was offered in order.
//!
//! [`history`] makes one from a seed and an index and nothing else.

use super::{offer, Row, MOST_ROWS, MOST_SEEN, ROW_LENGTH};
use crate::rng::Rng;
use crate::vectors::{hex, unhex};

#[derive(Clone, Copy, Debug, PartialEq, Eq)]
pub struct Offer {
    pub teid: u32,
    pub number: u16,
    /// Packed.
    pub answer: u64,
}

#[derive(Clone, Debug, PartialEq, Eq)]
pub struct History {
    /// As they are lent.
    pub rows: Vec<Row>,
    pub offers: Vec<Offer>,
    /// As the offers leave them.
    pub after: Vec<Row>,
}

pub fn octets_of(rows: &[Row]) -> Vec<u8> {
    let octets: Vec<[u8; ROW_LENGTH]> = rows.iter().map(Row::octets).collect();
    octets.concat()
}

impl History {
    /// The offers once more: their answers, and the rows that they leave.
    pub fn check(&self) -> Result<(), String> {
        let mut rows = self.rows.clone();
        for (place, wanted) in self.offers.iter().enumerate() {
            let answer = offer(&mut rows, wanted.teid, wanted.number);
            self.same_answer(place, answer)?;
        }
        same_rows(&rows, &self.after)
    }

    /// What the order says of histories from free rows: whether it holds of the rows left.
    pub fn check_laws(&self) -> Result<(), String> {
        let from_free = self.rows.iter().take(MOST_ROWS).all(Row::is_free);
        let mut left = self.after.iter().take(MOST_ROWS);
        match left.find(|row| !row.is_free() && !row.laws_hold()) {
            Some(row) if from_free => Err(format!("the laws do not hold of {row:?}")),
            _ => Ok(()),
        }
    }

    /// Another implementation, which is given rows in the octets lent here. Each of its
    /// answers is judged, and every octet of every row after each offer.
    pub fn check_by(
        &self,
        octets: &mut [u8],
        mut run: impl FnMut(&mut [u8], u32, u16) -> u64,
    ) -> Result<(), String> {
        let mut rows = self.rows.clone();
        octets.copy_from_slice(&octets_of(&rows));
        for (place, wanted) in self.offers.iter().enumerate() {
            offer(&mut rows, wanted.teid, wanted.number);
            let answer = run(octets, wanted.teid, wanted.number);
            self.same_answer(place, answer)?;
            if octets != octets_of(&rows) {
                let differing = same_rows(&rows_of(octets), &rows);
                let why = differing.expect_err("a field that differs");
                return Err(format!("{}: {why}", self.named(place)));
            }
        }
        Ok(())
    }

    fn same_answer(&self, place: usize, found: u64) -> Result<(), String> {
        match self.offers[place].answer {
            wanted if wanted == found => Ok(()),
            wanted => {
                let offer = self.named(place);
                Err(format!("{offer}: answer {found}; expected {wanted}"))
            }
        }
    }

    fn named(&self, place: usize) -> String {
        let Offer { teid, number, .. } = self.offers[place];
        let offers = self.offers.len();
        format!(
            "offer {} of {offers}, TEID {teid:08x} number {number}",
            place + 1
        )
    }
}

fn rows_of(octets: &[u8]) -> Vec<Row> {
    let rows = octets.chunks_exact(ROW_LENGTH);
    rows.map(|row| Row::of_octets(row.try_into().expect("a whole row")))
        .collect()
}

/// An error is the first field that differs.
fn same_rows(found: &[Row], wanted: &[Row]) -> Result<(), String> {
    for (at, (found, wanted)) in found.iter().zip(wanted).enumerate() {
        for ((name, found), (_, wanted)) in found.fields().into_iter().zip(wanted.fields()) {
            if found != wanted {
                return Err(format!("row {at}: {name} is {found}; expected {wanted}"));
            }
        }
    }
    Ok(())
}

/// The history of a seed and an index.
pub fn history(seed: u64, index: u64) -> History {
    let rng = &mut Rng::for_case(seed, index);
    let count = row_count(rng);
    let teids = teids(rng, count);
    let rows = rows(rng, count, &teids);
    let length = match teids.len() {
        0..=4 => rng.between(1, 40),
        many => rng.between(1, 2 * many),
    };
    // The TEIDs one after the other fill the rows; at chance they come back.
    let in_turn = rng.chance(50);
    let mut after = rows.clone();
    let mut offers = Vec::with_capacity(length);
    for turn in 0..length {
        let teid = match teids.get(turn) {
            Some(&teid) if in_turn => teid,
            _ if rng.chance(3) => rng.u32(),
            _ => rng.pick(&teids),
        };
        let number = number(rng, &after, teid);
        let answer = offer(&mut after, teid, number);
        offers.push(Offer {
            teid,
            number,
            answer,
        });
    }
    History {
        rows,
        offers,
        after,
    }
}

fn row_count(rng: &mut Rng) -> usize {
    match rng.below(24) {
        0 => 0,
        1..=3 => 1,
        4..=14 => rng.between(2, 8),
        15..=16 => rng.between(9, 254),
        17 => 255,
        18..=19 => 256,
        20..=21 => 257,
        _ => rng.between(258, 300),
    }
}

/// A few, or about as many as there are rows, or enough to fill them. Some differ in a bit.
fn teids(rng: &mut Rng, rows: usize) -> Vec<u32> {
    let count = match rng.below(6) {
        0 => (rows + rng.below(5)).saturating_sub(2).max(1),
        1 => rows + rng.between(1, 40),
        _ => rng.between(1, 4),
    };
    let mut teids: Vec<u32> = Vec::with_capacity(count);
    for place in 0..count {
        let teid = match (rng.below(8), teids.last()) {
            (0, _) if place < 4 => 0,
            (1, _) if place < 4 => rng.pick(&[1, u32::MAX, 0x0100_0000, 0x8000_0000]),
            (2..=4, Some(&last)) => last ^ 1 << rng.below(32),
            _ => rng.u32(),
        };
        teids.push(teid);
    }
    teids
}

fn rows(rng: &mut Rng, count: usize, teids: &[u32]) -> Vec<Row> {
    // How many of a hundred rows are free, in use by the TEIDs, and else anybody's.
    let (free, own) = rng.pick(&[
        (100, 0),
        (100, 0),
        (100, 0),
        (0, 0),
        (0, 2),
        (0, 40),
        (50, 25),
        (30, 60),
        (1, 30),
    ]);
    let cleared = rng.chance(50);
    let mut rows: Vec<Row> = (0..count)
        .map(|_| match rng.below(100) {
            drawn if drawn < free && cleared => Row::default(),
            drawn if drawn < free => Row {
                teid: rng.pick(teids),
                seen: 0,
                ..foreign(rng)
            },
            drawn if drawn < free + own => in_use(rng, teids),
            _ => foreign(rng),
        })
        .collect();
    // What lies past the last row that is used has to stay, wanted as it may be.
    for row in rows.iter_mut().skip(MOST_ROWS) {
        *row = match rng.below(3) {
            0 => Row::default(),
            1 => in_use(rng, teids),
            _ => foreign(rng),
        };
    }
    rows
}

/// Any octets.
fn foreign(rng: &mut Rng) -> Row {
    let octets = rng.octets(ROW_LENGTH);
    Row::of_octets(octets.try_into().expect("a whole row"))
}

/// A row of one of the TEIDs, with counts about their ends.
fn in_use(rng: &mut Rng, teids: &[u32]) -> Row {
    let any = foreign(rng);
    let end = |rng: &mut Rng, any: u32| rng.pick(&[0, 1, any, u32::MAX - 1, u32::MAX]);
    let near = u64::MAX - rng.below(40_000) as u64;
    Row {
        teid: rng.pick(teids),
        seen: rng.pick(&[
            1,
            2,
            any.seen.max(1),
            MOST_SEEN - 2,
            MOST_SEEN - 1,
            MOST_SEEN,
        ]),
        new: end(rng, any.new),
        repeated: end(rng, any.repeated),
        late: end(rng, any.late),
        lost: rng.pick(&[0, any.lost, near, u64::MAX]),
        ..any
    }
}

/// Mostly at a distance from the highest number of the TEID's row, if there is one.
fn number(rng: &mut Rng, rows: &[Row], teid: u32) -> u16 {
    let own = rows.iter().take(MOST_ROWS).find(|row| row.is_of(teid));
    let Some(highest) = own.map(|row| row.highest) else {
        let any = rng.u16();
        return rng.pick(&[0, 1, 32_767, 32_768, 65_534, 65_535, any, any]);
    };
    let jump = rng.between(1, 20) as u16;
    match rng.below(16) {
        0..=5 => highest.wrapping_add(rng.pick(&[1, 1, jump])),
        6 => highest.wrapping_sub(jump),
        7 => rng.u16(),
        8 => highest,
        edge => {
            let distances: [i16; 7] = [-32_768, -32_767, -1, 1, 2, 32_766, 32_767];
            highest.wrapping_add_signed(distances[edge - 9])
        }
    }
}

/// `loss rows-hex offers rows-hex`: the rows as they are lent, the offers as
/// `teid:number:answer` (TEID in hexadecimal digits) with commas between, the rows left.
pub fn line(history: &History) -> String {
    let offers: Vec<String> = history
        .offers
        .iter()
        .map(|offer| format!("{:08x}:{}:{}", offer.teid, offer.number, offer.answer))
        .collect();
    format!(
        "loss {} {} {}",
        hex(&octets_of(&history.rows)),
        offers.join(","),
        hex(&octets_of(&history.after))
    )
}

pub fn parse(line: &str) -> Result<History, String> {
    let fields: Vec<&str> = line.split(' ').collect();
    let &["loss", rows, offers, after] = &fields[..] else {
        return Err(format!("{} fields, not loss and 3 more", fields.len()));
    };
    let whole_rows = |text: &str| match unhex(text) {
        Some(octets) if octets.len().is_multiple_of(ROW_LENGTH) => Ok(rows_of(&octets)),
        _ => Err(format!("{text} is not rows in hex")),
    };
    let (rows, after) = (whole_rows(rows)?, whole_rows(after)?);
    if rows.len() != after.len() {
        return Err(format!("{} rows lent, {} left", rows.len(), after.len()));
    }
    let offers = offers
        .split(',')
        .map(|text| parse_offer(text).ok_or_else(|| format!("{text} is not an offer")));
    Ok(History {
        rows,
        offers: offers.collect::<Result<_, _>>()?,
        after,
    })
}

fn parse_offer(text: &str) -> Option<Offer> {
    let mut parts = text.split(':');
    let offer = Offer {
        teid: u32::from_str_radix(parts.next()?, 16).ok()?,
        number: parts.next()?.parse().ok()?,
        answer: parts.next()?.parse().ok()?,
    };
    parts.next().is_none().then_some(offer)
}

#[cfg(test)]
mod tests {
    use super::*;

    fn short() -> History {
        let left = "0500000009000900020000000100000001000000000000000000000000000000";
        let offers = "00000005:9:0,00000005:9:0,00000006:1:25";
        parse(&format!("loss {} {offers} {left}", "00".repeat(32))).unwrap()
    }

    #[test]
    fn a_line_by_hand() {
        let history = short();
        assert_eq!(history.check(), Ok(()));
        assert_eq!(history.rows, [Row::default()]);
        assert_eq!(history.after[0].repeated, 1);
    }

    #[test]
    fn a_difference_is_shown() {
        let mut history = short();
        history.offers[1].answer = 26;
        assert_eq!(
            history.check().unwrap_err(),
            "offer 2 of 3, TEID 00000005 number 9: answer 0; expected 26"
        );
        let mut history = short();
        history.after[0].lost = 1;
        assert_eq!(history.check().unwrap_err(), "row 0: lost is 0; expected 1");
    }

    #[test]
    fn each_octet_is_judged_after_each_offer() {
        let history = short();
        let run = |octets: &mut [u8], teid: u32, number: u16| {
            let mut rows = rows_of(octets);
            let answer = offer(&mut rows, teid, number);
            octets.copy_from_slice(&octets_of(&rows));
            answer
        };
        let mut octets = [0; ROW_LENGTH];
        assert_eq!(history.check_by(&mut octets, run), Ok(()));
        assert_eq!(octets, history.after[0].octets());
        for at in 0..ROW_LENGTH {
            let mut calls = 0;
            let result = history.check_by(&mut octets, |octets, teid, number| {
                let answer = run(octets, teid, number);
                calls += 1;
                octets[at] ^= u8::from(calls == 2);
                answer
            });
            let why = result.unwrap_err();
            assert!(why.starts_with("offer 2 of 3, TEID 00000005 number 9: row 0: "));
        }
        let result = history.check_by(&mut octets, |octets, teid, number| {
            run(octets, teid, number) | 1 << 40
        });
        assert!(result
            .unwrap_err()
            .contains("answer 1099511627776; expected 0"));
    }

    #[test]
    fn lines_come_back() {
        for index in 0..200 {
            let history = history(3, index);
            assert_eq!(parse(&line(&history)), Ok(history));
        }
    }

    #[test]
    fn wrong_lines() {
        for line in [
            "loss",
            "loss - 00000005:9:25",
            "loss - 00000005:9:25 - -",
            "loss 00 00000005:9:25 00",
            "loss - - -",
            "loss - 5:9 -",
            "loss - 5:9:25:1 -",
            "loss - 5:65536:25 -",
        ] {
            assert!(parse(line).is_err(), "{line}");
        }
        assert!(parse("loss - 5:65535:25 -").is_ok());
        let more_rows_left = format!("loss - 5:9:25 {}", "00".repeat(32));
        assert!(parse(&more_rows_left).is_err());
    }
}
