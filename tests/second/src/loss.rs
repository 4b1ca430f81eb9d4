//! Order 13, "How many packets were lost": the caller lends rows, one record per TEID, and
//! offers sequence numbers in order of arrival.

pub mod coverage;
pub mod histories;

/// Rows past so many are not used.
pub const MOST_ROWS: usize = 256;
/// Octets of a row.
pub const ROW_LENGTH: usize = 32;
/// A row that has seen so many counts no further.
pub const MOST_SEEN: u32 = 4_294_967_295;

/// The answers to an offer, packed: a number, and 0 in every other field.
pub const COUNTED: u64 = 0;
/// 25: no row free for a new TEID.
pub const NO_ROW: u64 = 25;
/// 26: the row has seen 4,294,967,295.
pub const ROW_FULL: u64 = 26;

/// `struct kawsarpa_loss_row`.
#[derive(Clone, Copy, Debug, Default, PartialEq, Eq)]
pub struct Row {
    pub teid: u32,
    pub first: u16,
    pub highest: u16,
    pub seen: u32,
    pub new: u32,
    pub repeated: u32,
    pub late: u32,
    pub lost: u64,
}

/// The difference mod 65,536 read as -32,768 to 32,767.
pub fn distance(highest: u16, number: u16) -> i32 {
    let difference = (i32::from(number) - i32::from(highest)).rem_euclid(65_536);
    if difference < 32_768 {
        difference
    } else {
        difference - 65_536
    }
}

/// Counts a number in the lowest row of its TEID, else in the lowest free one.
pub fn offer(rows: &mut [Row], teid: u32, number: u16) -> u64 {
    let used = rows.len().min(MOST_ROWS);
    let rows = &mut rows[..used];
    if let Some(own) = rows.iter_mut().find(|row| row.is_of(teid)) {
        return own.count(number);
    }
    let Some(free) = rows.iter_mut().find(|row| row.is_free()) else {
        return NO_ROW;
    };
    *free = Row {
        teid,
        first: number,
        highest: number,
        seen: 1,
        new: 1,
        ..Row::default()
    };
    COUNTED
}

impl Row {
    /// Decided: nothing seen, whatever else stands there.
    pub fn is_free(&self) -> bool {
        self.seen == 0
    }

    /// Decided: a free row that holds the TEID is not of the TEID.
    pub fn is_of(&self, teid: u32) -> bool {
        !self.is_free() && self.teid == teid
    }

    /// Decided: 26 even where another row of the TEID, or a free one, stands behind.
    fn count(&mut self, number: u16) -> u64 {
        if self.seen == MOST_SEEN {
            return ROW_FULL;
        }
        self.seen += 1;
        let distance = distance(self.highest, number);
        if distance > 0 {
            self.new = self.new.wrapping_add(1);
            self.highest = number;
            self.lost = self.lost.wrapping_add(distance as u64 - 1);
        } else if distance == 0 {
            self.repeated = self.repeated.wrapping_add(1);
        } else {
            self.late = self.late.wrapping_add(1);
        }
        COUNTED
    }

    /// What holds of a row in use over every history from free rows.
    pub fn laws_hold(&self) -> bool {
        let [new, repeated, late] = [self.new, self.repeated, self.late].map(u128::from);
        let highest = u128::from(self.first) + new + u128::from(self.lost);
        u128::from(self.seen) == new + repeated + late
            && highest % 65_536 == (u128::from(self.highest) + 1) % 65_536
    }

    /// Each field with its name.
    pub fn fields(&self) -> [(&'static str, u64); 8] {
        [
            ("teid", self.teid.into()),
            ("first", self.first.into()),
            ("highest", self.highest.into()),
            ("seen", self.seen.into()),
            ("new", self.new.into()),
            ("repeated", self.repeated.into()),
            ("late", self.late.into()),
            ("lost", self.lost),
        ]
    }

    /// The struct as it lies on x86-64: little-endian.
    pub fn octets(&self) -> [u8; ROW_LENGTH] {
        let mut octets = [0; ROW_LENGTH];
        octets[..4].copy_from_slice(&self.teid.to_le_bytes());
        octets[4..6].copy_from_slice(&self.first.to_le_bytes());
        octets[6..8].copy_from_slice(&self.highest.to_le_bytes());
        octets[8..12].copy_from_slice(&self.seen.to_le_bytes());
        octets[12..16].copy_from_slice(&self.new.to_le_bytes());
        octets[16..20].copy_from_slice(&self.repeated.to_le_bytes());
        octets[20..24].copy_from_slice(&self.late.to_le_bytes());
        octets[24..].copy_from_slice(&self.lost.to_le_bytes());
        octets
    }

    pub fn of_octets(octets: [u8; ROW_LENGTH]) -> Self {
        let word = |at: usize| u32::from_le_bytes([0, 1, 2, 3].map(|i| octets[at + i]));
        Row {
            teid: word(0),
            first: word(4) as u16,
            highest: (word(4) >> 16) as u16,
            seen: word(8),
            new: word(12),
            repeated: word(16),
            late: word(20),
            lost: u64::from(word(24)) | u64::from(word(28)) << 32,
        }
    }
}

#[cfg(test)]
mod tests {
    use super::*;

    /// A row in use, at 1000, with other numbers in every field.
    const ROW: Row = Row {
        teid: 7,
        first: 900,
        highest: 1000,
        seen: 60,
        new: 50,
        repeated: 6,
        late: 4,
        lost: 51,
    };
    const FREE: Row = Row { seen: 0, ..ROW };
    const FULL: Row = Row {
        seen: 4_294_967_295,
        ..ROW
    };

    /// The row after one offer to it alone, which is counted.
    fn counted(mut row: Row, number: u16) -> Row {
        let teid = row.teid;
        assert_eq!(offer(std::slice::from_mut(&mut row), teid, number), 0);
        row
    }

    /// Refused, and nothing changed.
    fn refused(rows: &[Row], teid: u32, answer: u64) {
        let mut after = rows.to_vec();
        assert_eq!(offer(&mut after, teid, 1000), answer);
        assert_eq!(after, rows);
    }

    fn began(teid: u32, number: u16) -> Row {
        Row {
            teid,
            first: number,
            highest: number,
            seen: 1,
            new: 1,
            repeated: 0,
            late: 0,
            lost: 0,
        }
    }

    #[test]
    fn distances() {
        for (highest, number, wanted) in [
            (1000, 1000, 0),
            (1000, 1001, 1),
            (1000, 999, -1),
            (0, 65_535, -1),
            (65_535, 0, 1),
            (0, 32_767, 32_767),
            (0, 32_768, -32_768),
            (0, 32_769, -32_767),
            (40_000, 7_231, 32_767),
            (40_000, 7_232, -32_768),
            (32_768, 0, -32_768),
            (65_535, 32_766, 32_767),
        ] {
            assert_eq!(distance(highest, number), wanted, "{highest} to {number}");
        }
    }

    #[test]
    fn a_new_number_adds_the_distance_less_one_to_lost() {
        for (number, lost) in [(1001, 51), (1002, 52), (1010, 60), (33_767, 51 + 32_766)] {
            let after = counted(ROW, number);
            let wanted = Row {
                highest: number,
                seen: 61,
                new: 51,
                lost,
                ..ROW
            };
            assert_eq!(after, wanted);
        }
    }

    #[test]
    fn a_repeat() {
        let wanted = Row {
            seen: 61,
            repeated: 7,
            ..ROW
        };
        assert_eq!(counted(ROW, 1000), wanted);
    }

    #[test]
    fn a_late_number_takes_nothing_from_lost() {
        let wanted = Row {
            seen: 61,
            late: 5,
            ..ROW
        };
        for number in [999, 0, 65_535, 33_769, 33_768] {
            assert_eq!(counted(ROW, number), wanted);
        }
    }

    #[test]
    fn taking_a_row_writes_the_whole_record() {
        for free in [FREE, Row::default()] {
            let mut rows = [ROW, free, free];
            assert_eq!(offer(&mut rows, 0x0102_0304, 65_535), 0);
            assert_eq!(rows, [ROW, began(0x0102_0304, 65_535), free]);
        }
    }

    #[test]
    fn a_teid_of_0_is_a_teid() {
        let mut rows = [Row::default(); 3];
        assert_eq!(offer(&mut rows, 5, 9), 0);
        assert_eq!(offer(&mut rows, 0, 9), 0);
        assert_eq!(offer(&mut rows, 0, 11), 0);
        let of_0 = Row {
            highest: 11,
            seen: 2,
            new: 2,
            lost: 1,
            ..began(0, 9)
        };
        assert_eq!(rows, [began(5, 9), of_0, Row::default()]);
    }

    #[test]
    fn a_free_row_with_the_teid_is_not_of_the_teid() {
        let mut rows = [FREE, ROW, ROW];
        assert_eq!(offer(&mut rows, 7, 1000), 0);
        let wanted = Row {
            seen: 61,
            repeated: 7,
            ..ROW
        };
        assert_eq!(rows, [FREE, wanted, ROW]);
        let mut rows = [Row { teid: 1, ..FREE }, FREE];
        assert_eq!(offer(&mut rows, 7, 1000), 0);
        assert_eq!(rows, [began(7, 1000), FREE]);
    }

    #[test]
    fn number_25() {
        refused(&[], 7, 25);
        refused(&[ROW], 8, 25);
        refused(&[FULL; 256], 8, 25);
        // Rows past the 256th are not used, be they of the TEID or free.
        let mut rows = vec![ROW; 256];
        rows.extend([Row { teid: 8, ..ROW }, FREE]);
        refused(&rows, 8, 25);
        rows[255] = FREE;
        assert_eq!(offer(&mut rows, 8, 3), 0);
        assert_eq!(rows[255], began(8, 3));
        assert_eq!(rows[256..], [Row { teid: 8, ..ROW }, FREE]);
    }

    #[test]
    fn number_26() {
        refused(&[FULL], 7, 26);
        refused(&[FULL, ROW], 7, 26);
        refused(&[FULL, FREE], 7, 26);
        refused(&[FREE, FULL], 7, 26);
        let last = Row {
            seen: 4_294_967_294,
            ..ROW
        };
        let wanted = Row {
            seen: 4_294_967_295,
            repeated: 7,
            ..ROW
        };
        assert_eq!(counted(last, 1000), wanted);
    }

    #[test]
    fn counts_wrap() {
        let row = Row {
            new: 4_294_967_295,
            repeated: 4_294_967_295,
            late: 4_294_967_295,
            lost: 18_446_744_073_709_551_615,
            ..ROW
        };
        let after = counted(row, 1003);
        assert_eq!((after.new, after.lost), (0, 1));
        assert_eq!(counted(row, 1001).lost, 18_446_744_073_709_551_615);
        assert_eq!(counted(row, 1000).repeated, 0);
        assert_eq!(counted(row, 999).late, 0);
    }

    #[test]
    fn a_history_by_hand() {
        let mut row = Row::default();
        for number in [65_533, 65_534, 1, 0, 1, 2, 32_769, 32_768, 1] {
            row = counted(Row { teid: 9, ..row }, number);
            assert!(row.laws_hold());
        }
        // Passed over: 65,535 and 0, then 3 to 32,768.
        let wanted = Row {
            teid: 9,
            first: 65_533,
            highest: 32_769,
            seen: 9,
            new: 5,
            repeated: 1,
            late: 3,
            lost: 2 + 32_766,
        };
        assert_eq!(row, wanted);
        assert!(!Row { lost: 0, ..row }.laws_hold());
        assert!(!Row { late: 4, ..row }.laws_hold());
    }

    #[test]
    fn octets_are_little_endian() {
        let row = Row {
            teid: 0x0403_0201,
            first: 0x0605,
            highest: 0x0807,
            seen: 0x0c0b_0a09,
            new: 0x100f_0e0d,
            repeated: 0x1413_1211,
            late: 0x1817_1615,
            lost: 0x201f_1e1d_1c1b_1a19,
        };
        let octets: Vec<u8> = (1..=32).collect();
        assert_eq!(row.octets()[..], octets);
        assert_eq!(Row::of_octets(row.octets()), row);
    }
}
