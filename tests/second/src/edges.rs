//! Edges: what a case can meet, each a line of a table of its own, and where it can be met.

use crate::tally::Tally;

/// A line, the columns where it can be met, and the test of a view of a case.
pub struct Edge<Test: 'static> {
    pub name: &'static str,
    pub columns: &'static [&'static str],
    pub met: Test,
}

pub const fn edge<Test>(
    name: &'static str,
    columns: &'static [&'static str],
    met: Test,
) -> Edge<Test> {
    Edge { name, columns, met }
}

/// The lines of a shape.
pub const fn names<Test, const COUNT: usize>(edges: &[Edge<Test>]) -> [&'static str; COUNT] {
    let mut names = [""; COUNT];
    let mut at = 0;
    while at < COUNT {
        names[at] = edges[at].name;
        at += 1;
    }
    names
}

pub fn can_occur<Test>(edges: &[Edge<Test>], line: &str, column: &str) -> bool {
    let edge = edges.iter().find(|edge| edge.name == line);
    edge.is_some_and(|edge| edge.columns.contains(&column))
}

/// Counts a case in each line whose test holds.
pub fn add<Test>(
    tally: &mut Tally,
    edges: &[Edge<Test>],
    column: &str,
    holds: impl Fn(&Test) -> bool,
) {
    for edge in edges {
        if edge.columns.contains(&column) && holds(&edge.met) {
            tally.add(edge.name, column, &[]);
        }
    }
}
