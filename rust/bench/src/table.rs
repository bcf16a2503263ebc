//! The tables of single calls, as Markdown.

use std::fmt::Write;

/// One call's times in nanoseconds: the proved library's and those of the
/// reference by its three ways to a checksum. None where a way makes no sense.
#[derive(Clone, Debug, PartialEq)]
pub struct Row {
    pub name: String,
    pub proved: f64,
    pub reference: [Option<f64>; 3],
}

impl Row {
    /// The time of all subjects together.
    pub fn total(&self) -> f64 {
        self.proved + self.reference.iter().flatten().sum::<f64>()
    }
}

const WAYS: [&str; 3] = ["table", "wide tables", "CPU"];
const NONE: &str = "–";

/// The table of the rows; `show` turns the nanoseconds of the row with an
/// index into the unit that is named.
pub fn markdown(unit: &str, rows: &[Row], show: impl Fn(usize, f64) -> String) -> String {
    let mut text = format!("| call | proved, {unit} |");
    for way in WAYS {
        let _ = write!(text, " reference, {way} |");
    }
    for way in WAYS {
        let _ = write!(text, " proved / {way} |");
    }
    let _ = writeln!(text, "\n|---|{}", "---:|".repeat(1 + 2 * WAYS.len()));
    for (index, row) in rows.iter().enumerate() {
        let _ = write!(text, "| {} | {} |", row.name, show(index, row.proved));
        for time in row.reference {
            let time = time.map_or(NONE.to_string(), |t| show(index, t));
            let _ = write!(text, " {time} |");
        }
        for time in row.reference {
            let ratio = time.map_or(NONE.to_string(), |t| format!("{:.2}", row.proved / t));
            let _ = write!(text, " {ratio} |");
        }
        text.push('\n');
    }
    text
}

pub fn nanoseconds(time: f64) -> String {
    if time < 100.0 {
        format!("{time:.1}")
    } else {
        format!("{time:.0}")
    }
}

/// The row of a call among the lines of a text, with times in nanoseconds.
pub fn row(text: &str, name: &str) -> Result<Row, String> {
    let start = format!("| {name} |");
    let line = text.lines().find_map(|line| line.strip_prefix(&start));
    let cells = line.ok_or(format!("no row '{name}'"))?.split('|');
    let times: Vec<Option<f64>> = cells.map(|cell| cell.trim().parse().ok()).collect();
    match times[..] {
        [Some(proved), table, wide, cpu, ..] => Ok(Row {
            name: name.to_string(),
            proved,
            reference: [table, wide, cpu],
        }),
        _ => Err(format!("no times in the row '{name}'")),
    }
}

#[cfg(test)]
mod tests {
    use super::*;

    #[test]
    fn a_row_reads_back() {
        let rows = [
            ("GET, 1 used", [Some(200.0), Some(150.0), Some(99.5)]),
            ("owner walk", [Some(1137.0), None, None]),
        ]
        .map(|(name, reference)| Row {
            name: name.to_string(),
            proved: 123.0,
            reference,
        });
        let text = markdown("ns", &rows, |_, time| nanoseconds(time));
        for expected in rows {
            assert_eq!(row(&text, &expected.name), Ok(expected));
        }
        assert!(row(&text, "GET").is_err());
    }
}
