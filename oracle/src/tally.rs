//! Counts by row and column. Every row and column is written, whether or not it came up, so that tables can be added.

use std::io::{self, Write};

/// What a call can come to: an answer, or a refusal by its number.
pub const ANSWERS: [&str; 9] = [
    "answered",
    "refused 1",
    "refused 2",
    "refused 3",
    "refused 4",
    "refused 5",
    "refused 6",
    "refused 7",
    "refused 8",
];

/// The last row counts what was answered in all.
pub struct Tally {
    rows: &'static [&'static str],
    columns: &'static [&'static str],
    counts: Vec<Vec<u64>>,
}

impl Tally {
    pub fn new(rows: &'static [&'static str], columns: &'static [&'static str]) -> Tally {
        Tally {
            rows,
            columns,
            counts: vec![vec![0; columns.len()]; rows.len()],
        }
    }

    /// A name that is no row ends the oracle: nothing goes uncounted.
    fn place(&self, row: &str) -> usize {
        let found = self.rows.iter().position(|name| *name == row);
        found.unwrap_or_else(|| panic!("the table has no row {row}"))
    }

    pub fn add(&mut self, row: &str, column: usize, count: u64) {
        let row = self.place(row);
        self.counts[row][column] += count;
    }

    pub fn get(&self, row: &str, column: usize) -> u64 {
        self.counts[self.place(row)][column]
    }

    pub fn write(&self, out: &mut impl Write) -> io::Result<()> {
        let line = |out: &mut dyn Write, name: &str, cells: &[String]| {
            write!(out, "{name:18}")?;
            for cell in cells {
                write!(out, "{cell:>11}")?;
            }
            writeln!(out)
        };
        let heads: Vec<String> = self.columns.iter().map(|head| head.to_string()).collect();
        line(out, "", &heads)?;
        for (name, counts) in self.rows.iter().zip(&self.counts) {
            let cells: Vec<String> = counts.iter().map(u64::to_string).collect();
            line(out, name, &cells)?;
        }
        Ok(())
    }
}

#[cfg(test)]
mod tests {
    use super::*;

    #[test]
    fn a_table() {
        let mut tally = Tally::new(&["a dot", "all"], &["good", "bad"]);
        tally.add("a dot", 0, 2);
        tally.add("a dot", 0, 1);
        tally.add("all", 1, 40);
        assert_eq!(tally.get("a dot", 0), 3);
        let mut out = Vec::new();
        tally.write(&mut out).unwrap();
        let lines = [
            "                         good        bad",
            "a dot                       3          0",
            "all                         0         40",
        ];
        assert_eq!(
            String::from_utf8(out).unwrap(),
            lines.map(|line| format!("{line}\n")).concat()
        );
    }

    #[test]
    #[should_panic]
    fn no_row() {
        Tally::new(&["all"], &["good"]).add("some", 0, 1);
    }
}
