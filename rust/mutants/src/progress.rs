//! How far a run is.

use std::sync::atomic::{AtomicUsize, Ordering};
use std::time::Instant;

/// A line now and then, so that a long run is seen to go on.
#[derive(Debug)]
pub struct Progress {
    all: usize,
    done: AtomicUsize,
    start: Instant,
}

impl Progress {
    pub fn new(all: usize) -> Progress {
        Progress {
            all,
            done: AtomicUsize::new(0),
            start: Instant::now(),
        }
    }

    pub fn step(&self, says: Option<String>) {
        let done = 1 + self.done.fetch_add(1, Ordering::Relaxed);
        if let Some(says) = says {
            println!("{says}");
        }
        if done.is_multiple_of(50) || done == self.all {
            println!(
                "{done} of {}, {} s",
                self.all,
                self.start.elapsed().as_secs()
            );
        }
    }
}
