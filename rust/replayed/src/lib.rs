//! Starts the proved replay program, and makes journals for it.

#![deny(unsafe_code)]

use reference::frame::Message;
use samples::script::{framed, put_message, record, repl_message, stamp};
use std::path::Path;
use std::process::{Child, Command, ExitStatus};
use std::sync::mpsc;
use std::thread;
use std::time::{Duration, Instant};
use support::Rng;

/// The program's buffers.
pub const BUFFER: usize = 65_536;

/// Long enough for any step of a test, so that a program that hangs fails it.
const PATIENCE: Duration = Duration::from_secs(60);

/// The proved replay program, which `make target/bin/replay` builds.
pub fn program() -> Command {
    let path = Path::new(env!("CARGO_MANIFEST_DIR")).join("../../target/bin/replay");
    assert!(path.exists(), "{} is not built", path.display());
    Command::new(path)
}

/// The same under a shell that runs `script` first: "$0" is the program.
pub fn under_shell(script: &str) -> Command {
    let mut command = Command::new("sh");
    command.args(["-c", script]).arg(program().get_program());
    command
}

/// Does something that the program might keep waiting for ever.
pub fn soon<T: Send + 'static>(what: &str, work: impl FnOnce() -> T + Send + 'static) -> T {
    let (send, receive) = mpsc::channel();
    thread::spawn(move || send.send(work()));
    match receive.recv_timeout(PATIENCE) {
        Ok(done) => done,
        Err(_) => panic!("{what}: nothing after {PATIENCE:?}"),
    }
}

/// How the program ended, which it must do by itself.
pub fn ended(child: &mut Child) -> ExitStatus {
    let start = Instant::now();
    loop {
        if let Some(status) = child.try_wait().expect("the program can be waited for") {
            return status;
        }
        if start.elapsed() > PATIENCE {
            child.kill().expect("the program can be killed");
            panic!("the program goes on");
        }
        thread::sleep(Duration::from_millis(2));
    }
}

/// A PUT of one of `keys` keys, with a value of `length` bytes.
pub fn put(rng: &mut Rng, keys: usize, length: usize) -> Message {
    let value: Vec<u8> = (0..length).map(|_| rng.below(256) as u8).collect();
    put_message(&key(rng, keys), &value)
}

pub fn get(rng: &mut Rng, keys: usize) -> Message {
    Message::Get {
        key: key(rng, keys),
    }
}

fn key(rng: &mut Rng, keys: usize) -> Vec<u8> {
    format!("key-{}", rng.index(keys)).into_bytes()
}

/// A journal of several buffers with replies of several buffers: long records with short replies,
/// then short records with long replies, so that one buffer of input fills many of output, then
/// both mixed, with requests that are refused.
pub fn long_journal(seed: u64) -> Vec<u8> {
    let mut rng = Rng::new(seed);
    let mut journal = Vec::new();
    let mut now = 1000;
    for _ in 0..300 {
        now += 1;
        journal.extend(record(now, &framed(&put(&mut rng, 60, 512))));
    }
    for _ in 0..3000 {
        journal.extend(record(now, &framed(&get(&mut rng, 60))));
    }
    for _ in 0..1500 {
        now += rng.below(3);
        journal.extend(record(now, &mixed(&mut rng, now)));
    }
    journal
}

/// A frame of any kind; one in ten is damaged.
fn mixed(rng: &mut Rng, now: u64) -> Vec<u8> {
    let length = rng.index(513);
    let message = match rng.below(8) {
        0..=2 => put(rng, 120, length),
        3..=5 => get(rng, 120),
        6 => Message::Del { key: key(rng, 120) },
        _ => repl_message(&key(rng, 120), stamp(now + rng.below(9), 0, 2), None),
    };
    let mut frame = framed(&message);
    if rng.one_in(10) {
        let at = 2 + rng.index(frame.len() - 2);
        frame[at] ^= 1;
    }
    frame
}
