//! The lines of the demo: what happened, and what it shows.

use std::fmt::Write;

/// How wide the column with the theorems is.
const SHOWS: usize = 29;

#[derive(Default)]
pub struct Tale {
    text: String,
    checked: usize,
    wrong: usize,
}

impl Tale {
    pub fn heading(&mut self, heading: &str) {
        let _ = writeln!(self.text, "{heading}");
    }

    /// A line, whether it holds, and the theorem or rule that it shows.
    pub fn check(&mut self, shows: &str, said: &str, holds: bool) {
        self.checked += 1;
        self.wrong += usize::from(!holds);
        let mark = if holds { "" } else { "WRONG: " };
        let _ = writeln!(self.text, "  {shows:<SHOWS$}{mark}{said}");
    }

    /// Lines of a table, with what they show beside the first.
    pub fn table(&mut self, shows: &str, table: &str) {
        for (number, line) in table.lines().enumerate() {
            let shows = if number == 0 { shows } else { "" };
            let _ = writeln!(self.text, "  {shows:<SHOWS$}{line}");
        }
    }

    /// The whole tale, and whether every line of it holds.
    pub fn finish(self) -> (String, bool) {
        let Tale {
            text,
            checked,
            wrong,
        } = self;
        let held = checked - wrong;
        let end = format!(
            "\nChecked in this run: {checked} lines, of which {held} hold. They are single cases. The theorems\n\
             say it of every case; 'make test' proves them again, and docs/AUDIT.md says what they assume.\n"
        );
        (text + &end, wrong == 0)
    }
}

#[cfg(test)]
mod tests {
    use super::*;

    #[test]
    fn a_line_that_does_not_hold_is_marked_and_counted() {
        let mut tale = Tale::default();
        tale.check("converge", "equal", true);
        tale.check("converge", "not equal", false);
        let (text, holds) = tale.finish();
        assert!(!holds && text.contains("WRONG: not equal"));
        assert!(text.contains("2 lines, of which 1 hold"));
    }
}
