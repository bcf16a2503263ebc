//! The replay programs as whole processes on one journal.

use crate::inputs::{key, value};
use crate::measure::median;
use reference::checksum::{choose, Way};
use reference::frame::Message;
use samples::script::{framed, put_message, record, repl_message, stamp};
use std::fmt::Write as _;
use std::fs::{self, File};
use std::io::{self, Read, Write};
use std::path::{Path, PathBuf};
use std::process::{Command, Stdio};
use std::time::Instant;
use support::Rng;

pub const RECORDS: usize = 100_000;
const ROUNDS: usize = 3;

/// The argument that makes this program the reference's replay program.
pub const REFERENCE: &str = "reference-replay";
const WAYS: [(&str, Way); 3] = [
    ("table", Way::Table),
    ("wide", Way::Wide),
    ("cpu", Way::Cpu),
];

/// Answers a journal on standard input by the reference.
pub fn reference(way: &str) -> Result<(), String> {
    let found = WAYS.iter().find(|(name, _)| *name == way);
    let (_, way) = found.ok_or("no such way to a checksum")?;
    choose(*way);
    let mut journal = Vec::new();
    let read = io::stdin().lock().read_to_end(&mut journal);
    let replies = reference::replay::replay(&journal);
    let written = read.and_then(|_| io::stdout().lock().write_all(&replies));
    written.map_err(|error| error.to_string())
}

/// A journal that soon fills the store: 120 keys, every kind of request.
fn journal(records: usize) -> Vec<u8> {
    let mut rng = Rng::new(5);
    let mut now = 1000;
    let mut journal = Vec::new();
    for _ in 0..records {
        now += rng.below(3);
        let key = key(rng.index(120));
        let value = value(if rng.one_in(8) { 512 } else { 33 });
        let message = match rng.below(10) {
            0..=2 => put_message(&key, &value),
            3..=6 => Message::Get { key },
            7 => Message::Del { key },
            _ => repl_message(&key, stamp(now - 5 + rng.below(9), 0, 2), Some(&value)),
        };
        journal.extend(record(now, &framed(&message)));
    }
    journal
}

struct Program {
    name: String,
    binary: PathBuf,
    arguments: Vec<String>,
    seconds: Vec<f64>,
}

fn programs(proved: &Path) -> io::Result<Vec<Program>> {
    let mut programs = vec![Program {
        name: "proved".to_string(),
        binary: proved.to_path_buf(),
        arguments: vec![],
        seconds: vec![],
    }];
    for (way, _) in WAYS {
        programs.push(Program {
            name: format!("reference, {way}"),
            binary: std::env::current_exe()?,
            arguments: vec![REFERENCE.to_string(), way.to_string()],
            seconds: vec![],
        });
    }
    Ok(programs)
}

/// Runs one program; its wall time in seconds.
fn time(program: &Program, input: &Path, output: &Path) -> io::Result<f64> {
    let (input, output) = (File::open(input)?, File::create(output)?);
    let start = Instant::now();
    let status = Command::new(&program.binary)
        .args(&program.arguments)
        .stdin(Stdio::from(input))
        .stdout(Stdio::from(output))
        .status()?;
    let seconds = start.elapsed().as_secs_f64();
    if status.success() {
        Ok(seconds)
    } else {
        Err(io::Error::other(format!("{}: {status}", program.name)))
    }
}

/// Runs the proved program and the reference's in turns, compares their replies
/// and tells the wall times, as Markdown.
pub fn table(proved: &Path, records: usize) -> Result<String, String> {
    if !proved.exists() {
        return Err(format!(
            "The proved replay program is not at {}: not compared.",
            proved.display()
        ));
    }
    let dir = std::env::temp_dir().join(format!("snowpulley-bench-{}", std::process::id()));
    let result = fs::create_dir_all(&dir).and_then(|()| compare_in(&dir, proved, records));
    // Left-over files would only cost room.
    let _ = fs::remove_dir_all(&dir);
    result.map_err(|error| error.to_string())
}

fn compare_in(dir: &Path, proved: &Path, records: usize) -> io::Result<String> {
    let (input, output) = (dir.join("journal"), dir.join("replies"));
    let journal = journal(records);
    fs::write(&input, &journal)?;
    choose(Way::Wide);
    let expected = reference::replay::replay(&journal);
    let mut programs = programs(proved)?;
    for _ in 0..ROUNDS {
        for program in &mut programs {
            program.seconds.push(time(program, &input, &output)?);
            if fs::read(&output)? != expected {
                let text = format!("{}: other replies than the reference's", program.name);
                return Err(io::Error::other(text));
            }
        }
    }
    Ok(markdown(&programs, records))
}

fn markdown(programs: &[Program], records: usize) -> String {
    let mut text = format!(
        "A journal of {records} records; medians of {ROUNDS} runs in turns, with equal replies.\n\n\
         | program | wall time, s | ns a record | proved / this |\n|---|---:|---:|---:|\n"
    );
    let times: Vec<f64> = programs.iter().map(|p| median(p.seconds.clone())).collect();
    for (program, time) in programs.iter().zip(&times) {
        let each = time * 1e9 / records as f64;
        let ratio = times[0] / time;
        let name = &program.name;
        let _ = writeln!(text, "| {name} | {time:.2} | {each:.0} | {ratio:.2} |");
    }
    text
}
