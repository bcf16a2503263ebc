//! The counts of a run, by crate.

use crate::change::Part;
use crate::log::Verdict;
use std::collections::BTreeMap;

#[derive(Default, Debug)]
pub struct Row {
    pub made: usize,
    pub fact: usize,
    pub unfit: usize,
    pub output: usize,
    pub not_compiled: usize,
    pub no_verdict: usize,
    pub same: usize,
    pub survives: usize,
}

impl Row {
    pub fn count(&mut self, verdict: Verdict, explained: bool) {
        let cell = match verdict {
            Verdict::Fact => &mut self.fact,
            Verdict::Unfit => &mut self.unfit,
            Verdict::Output => &mut self.output,
            Verdict::NotCompiled => &mut self.not_compiled,
            Verdict::NoVerdict => &mut self.no_verdict,
            Verdict::Proved if explained => &mut self.same,
            Verdict::Proved => &mut self.survives,
        };
        *cell += 1;
    }

    /// The cells in the table's order: those after the first two add up to the second.
    fn cells(&self) -> [usize; 9] {
        let ended = [
            self.fact,
            self.unfit,
            self.output,
            self.not_compiled,
            self.no_verdict,
            self.same,
            self.survives,
        ];
        let [fact, unfit, output, not_compiled, no_verdict, same, survives] = ended;
        let tried = ended.iter().sum();
        [
            self.made,
            tried,
            fact,
            unfit,
            output,
            not_compiled,
            no_verdict,
            same,
            survives,
        ]
    }
}

/// A row for each crate and part, in the order in which they were added.
#[derive(Default, Debug)]
pub struct Table {
    rows: Vec<(String, Part, Row)>,
    places: BTreeMap<(String, bool), usize>,
}

impl Table {
    pub fn row(&mut self, name: &str, part: Part) -> &mut Row {
        let key = (name.to_string(), part == Part::Code);
        let next = self.rows.len();
        let at = *self.places.entry(key).or_insert(next);
        if at == next {
            self.rows.push((name.to_string(), part, Row::default()));
        }
        &mut self.rows[at].2
    }
}

impl std::fmt::Display for Table {
    fn fmt(&self, f: &mut std::fmt::Formatter<'_>) -> std::fmt::Result {
        writeln!(f, "| crate | of | made | tried | a fact fails | proof unfit | another output | not compiled | no verdict | same program | survives |")?;
        writeln!(f, "|---|---|---:|---:|---:|---:|---:|---:|---:|---:|---:|")?;
        let mut sums = [0; 9];
        for (name, part, row) in &self.rows {
            let of = if *part == Part::Code {
                "code"
            } else {
                "definitions"
            };
            write!(f, "| `{name}` | {of} |")?;
            for (sum, cell) in sums.iter_mut().zip(row.cells()) {
                *sum += cell;
                write!(f, " {cell} |")?;
            }
            writeln!(f)?;
        }
        write!(f, "| all | |")?;
        sums.iter().try_for_each(|sum| write!(f, " {sum} |"))?;
        writeln!(f)
    }
}
