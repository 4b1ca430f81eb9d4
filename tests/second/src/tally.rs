//! What drawn cases met: a table of counts, and edges one by one.

use std::fmt;
use std::ops::AddAssign;

/// The table: what stands at its left and above it, and what can be met.
pub struct Shape {
    pub corner: &'static str,
    pub lines: &'static [&'static str],
    pub columns: &'static [&'static str],
    pub can_occur: fn(line: &str, column: &str) -> bool,
}

#[derive(Clone)]
pub struct Tally {
    shape: &'static Shape,
    table: Vec<Vec<u64>>,
    /// In the order in which each case names them.
    edges: Vec<(&'static str, u64)>,
}

impl Tally {
    pub fn new(shape: &'static Shape) -> Self {
        Tally {
            shape,
            table: vec![vec![0; shape.columns.len()]; shape.lines.len()],
            edges: Vec::new(),
        }
    }

    /// One case: its place in the table, and of every edge whether it was met.
    pub fn add(&mut self, line: &str, column: &str, edges: &[(&'static str, bool)]) {
        let place = |names: &[&str], name: &str| {
            let place = names.iter().position(|&known| known == name);
            place.expect("a name of the shape")
        };
        let (line, column) = (
            place(self.shape.lines, line),
            place(self.shape.columns, column),
        );
        self.table[line][column] += 1;
        if self.edges.is_empty() {
            self.edges = edges.iter().map(|&(name, _)| (name, 0)).collect();
        }
        for ((_, count), &(_, met)) in self.edges.iter_mut().zip(edges) {
            *count += u64::from(met);
        }
    }

    /// How many cases were added.
    pub fn cases(&self) -> u64 {
        self.table.iter().flatten().sum()
    }

    /// An error that names every gap, which is what can be met and was not, and what was met
    /// and cannot be.
    pub fn judge(&self) -> Result<(), String> {
        let mut findings = Vec::new();
        for (line, counts) in self.shape.lines.iter().zip(&self.table) {
            for (column, &count) in self.shape.columns.iter().zip(counts) {
                if (self.shape.can_occur)(line, column) != (count > 0) {
                    findings.push(format!("{line} with {column}: {count}"));
                }
            }
        }
        for (edge, count) in &self.edges {
            if *count == 0 {
                findings.push(format!("{edge}: 0"));
            }
        }
        match findings.is_empty() {
            true => Ok(()),
            false => Err(format!("not as it should be: {}", findings.join("; "))),
        }
    }
}

/// Of the same shape.
impl AddAssign<&Tally> for Tally {
    fn add_assign(&mut self, other: &Tally) {
        let others = other.table.iter().flatten();
        for (count, more) in self.table.iter_mut().flatten().zip(others) {
            *count += more;
        }
        if self.edges.is_empty() {
            self.edges = other.edges.iter().map(|&(name, _)| (name, 0)).collect();
        }
        for ((_, count), (_, more)) in self.edges.iter_mut().zip(&other.edges) {
            *count += more;
        }
    }
}

impl fmt::Display for Tally {
    fn fmt(&self, f: &mut fmt::Formatter<'_>) -> fmt::Result {
        let Shape {
            corner,
            lines,
            columns,
            can_occur,
        } = self.shape;
        let names = lines.iter().map(|line| line.chars().count());
        let width = names.max().unwrap_or(0).max(9);
        let wide = |column: &str| column.chars().count().max(9);
        write!(f, "{corner:>width$}")?;
        for column in *columns {
            write!(f, " {column:>0$}", wide(column))?;
        }
        for (line, counts) in lines.iter().zip(&self.table) {
            write!(f, "\n{line:>width$}")?;
            for (column, &count) in columns.iter().zip(counts) {
                let shown = match (count, can_occur(line, column)) {
                    (0, false) => "-".to_string(),
                    (0, true) => "GAP".to_string(),
                    (count, true) => count.to_string(),
                    (count, false) => format!("{count}!"),
                };
                write!(f, " {shown:>0$}", wide(column))?;
            }
        }
        for (edge, count) in &self.edges {
            match count {
                0 => write!(f, "\n{:>9} {edge}", "GAP")?,
                _ => write!(f, "\n{count:>9} {edge}")?,
            }
        }
        Ok(())
    }
}

#[cfg(test)]
mod tests {
    use super::*;

    static SHAPE: Shape = Shape {
        corner: "legs",
        lines: &["cat", "bird"],
        columns: &["two", "four"],
        can_occur: |line, column| (line == "cat") == (column == "four"),
    };

    #[test]
    fn gaps_and_strays_are_found() {
        let mut tally = Tally::new(&SHAPE);
        tally.add("cat", "four", &[("asleep", false)]);
        let why = tally.judge().unwrap_err();
        assert_eq!(why, "not as it should be: bird with two: 0; asleep: 0");
        tally.add("bird", "two", &[("asleep", true)]);
        assert_eq!(tally.judge(), Ok(()));
        tally.add("bird", "four", &[("asleep", false)]);
        let why = tally.judge().unwrap_err();
        assert_eq!(why, "not as it should be: bird with four: 1");
        assert_eq!(tally.cases(), 3);
        assert!(tally.to_string().ends_with("        1 asleep"));
        assert!(tally.to_string().contains("     bird         1        1!"));
        let mut sum = Tally::new(&SHAPE);
        sum += &tally;
        sum += &tally;
        assert_eq!(sum.cases(), 6);
        assert!(sum.to_string().ends_with("        2 asleep"));
    }
}
