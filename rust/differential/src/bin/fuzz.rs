//! `fuzz [SECONDS] [SEED]`: every family in turn, for so many seconds or for
//! ever, from a seed or from the time of day.

use differential::FAMILIES;
use std::process::ExitCode;
use std::time::{Duration, Instant, SystemTime, UNIX_EPOCH};

/// How often the counts are printed.
const TELL_EVERY: Duration = Duration::from_secs(10);

fn main() -> ExitCode {
    let arguments: Option<Vec<u64>> = std::env::args().skip(1).map(|a| a.parse().ok()).collect();
    match arguments.as_deref() {
        Some([]) => fuzz(None, seed_of_the_day()),
        Some([seconds]) => fuzz(Some(*seconds), seed_of_the_day()),
        Some([seconds, seed]) => fuzz(Some(*seconds), *seed),
        _ => {
            eprintln!("fuzz [SECONDS] [SEED]");
            return ExitCode::FAILURE;
        }
    }
    ExitCode::SUCCESS
}

fn seed_of_the_day() -> u64 {
    let since = SystemTime::now().duration_since(UNIX_EPOCH);
    since.map_or(0, |time| time.as_nanos() as u64)
}

fn fuzz(seconds: Option<u64>, seed: u64) {
    println!("seed {seed}");
    let start = Instant::now();
    let mut told = start;
    let mut counts = [0; FAMILIES.len()];
    let mut round = 0;
    loop {
        for (count, family) in counts.iter_mut().zip(&FAMILIES) {
            let tally = (family.run)(seed.wrapping_add(round), family.share);
            *count += tally.compared;
        }
        round += 1;
        if seconds.is_some_and(|s| start.elapsed() >= Duration::from_secs(s)) {
            break;
        }
        if told.elapsed() >= TELL_EVERY {
            told = Instant::now();
            tell(&counts, start);
        }
    }
    for (count, family) in counts.iter().zip(&FAMILIES) {
        println!("{:>12} {}", count, family.name);
    }
    tell(&counts, start);
}

fn tell(counts: &[u64], start: Instant) {
    let (total, seconds) = (counts.iter().sum::<u64>(), start.elapsed().as_secs_f64());
    let rate = total as f64 / seconds;
    println!("{total} calls compared in {seconds:.0} s, {rate:.0} a second, no difference");
}
